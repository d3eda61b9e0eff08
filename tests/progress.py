#!/usr/bin/env python3
"""Follows a stream that goes on: what `td stream --progress` and `--room` write to standard error second by second, in lines and on a terminal.

    tests/progress.py       needs crates/td/out/td (see the README)

A producer sends an epoch, and waits until it is told as done; sends another and a cut, and waits until that is told as kept; waits on,
while nothing more may be written; and ends. Each time what is written must be words none of which falls, and no two the same: in
a pipe a line for each, and on a terminal one line, written over from its beginning, which is never shorter, and a line feed at
the end. A run whose input ends at once must not wait for the second to be over."""

import os
import re
import select
import subprocess
import sys
import time
import tty

import lib

TD = lib.built(lib.TD)
WORDS = {"--progress": re.compile(r"acked (\d+) done (\d+) kept (\d+)"),
         "--room": re.compile(r"acked (\d+) done (\d+) kept (\d+) cells \d of 8 states \d of 3 *")}
# Seconds in which words must be told, and in which nothing may be written where nothing came.
SECONDS = 30
QUIET = 2.5
# Of so many runs that end at once, the shortest takes at most so many seconds.
SHORT_RUNS, SHORT = 5, 0.7


def read_until(file, wanted, said):
    """Reads on until these words stand at the end of what was said."""
    end = time.monotonic() + SECONDS
    while not said.endswith(wanted.encode()):
        if not select.select([file], [], [], max(0, end - time.monotonic()))[0]:
            raise ValueError(f"{wanted!r} was not told within {SECONDS} seconds, but {said!r}")
        said += os.read(file, 4096)
    return said


def follow(folder, option, is_terminal):
    """All that a stream wrote to standard error."""
    ours, theirs = os.openpty() if is_terminal else os.pipe()
    if is_terminal:
        tty.setraw(theirs)
    end = "" if is_terminal else "\n"
    rooms = ["", ""]
    if option == "--room":
        rooms = [f" cells {cells} of 8 states {states} of 3" + " " * 10 * is_terminal for cells, states in ((1, 0), (0, 1))]
    stream = subprocess.Popen([TD, "stream", folder / "disk", folder / "plan", option], stdin=subprocess.PIPE,
                              stdout=subprocess.DEVNULL, stderr=theirs)
    os.close(theirs)
    try:
        stream.stdin.write(b"0 7 5\n.\n")
        stream.stdin.flush()
        said = read_until(ours, f"acked 1 done 1 kept 0{rooms[0]}{end}", b"")
        stream.stdin.write(b"0 7 1\n.\ncut\n")
        stream.stdin.flush()
        said = read_until(ours, f"acked 2 done 2 kept 2{rooms[1]}{end}", said)
        if select.select([ours], [], [], QUIET)[0]:
            raise ValueError(f"{os.read(ours, 4096)!r} was written where nothing came")
        stream.stdin.close()
        said += rest_of(ours)
        if stream.wait(SECONDS) != 0:
            raise ValueError(f"it ended with {stream.returncode}")
        return said.decode()
    finally:
        stream.kill()
        os.close(ours)


def rest_of(file):
    """What is written up to the end; a terminal whose other side is closed fails."""
    said = b""
    try:
        while more := os.read(file, 4096):
            said += more
    except OSError:
        pass
    return said


def check(said, option, is_terminal):
    """Raises where it is not as it must be."""
    whole = re.fullmatch(r"(\r[^\r\n]+)+\n" if is_terminal else r"([^\r\n]+\n)+", said)
    lines = said.strip("\r\n").split("\r" if is_terminal else "\n")
    words = [WORDS[option].fullmatch(line) for line in lines]
    if not whole or not all(words):
        raise ValueError(f"{said!r} is not of that form")
    told = [tuple(map(int, it.groups())) for it in words]
    for before, after, line, next_line in zip(told, told[1:], lines, lines[1:]):
        if line == next_line or any(old > new for old, new in zip(before, after)):
            raise ValueError(f"after {before} came {after}")
    if is_terminal and any(len(old) > len(new) for old, new in zip(lines, lines[1:])):
        raise ValueError(f"a line of {said!r} is shorter than the one before")


def short_run(folder):
    """How long a run takes whose input ends at once."""
    start = time.monotonic()
    subprocess.run([TD, "stream", folder / "disk", folder / "plan", "--progress"], stdin=subprocess.DEVNULL, capture_output=True, check=True)
    return time.monotonic() - start


def main():
    for name, option, is_terminal in (("lines", "--progress", False), ("a terminal", "--progress", True),
                                      ("lines with the room", "--room", False), ("a terminal with the room", "--room", True)):
        with lib.folder() as folder:
            (folder / "plan").write_text(lib.TOTAL)
            subprocess.run([TD, "format", folder / "disk", folder / "plan", "4", "8", "3"], check=True)
            try:
                check(follow(folder, option, is_terminal), option, is_terminal)
                least = min(short_run(folder) for _ in range(SHORT_RUNS))
            except ValueError as error:
                print(f"{name}: WRONG: {error}")
                return 1
            if least > SHORT:
                print(f"a run whose input ends at once took {least:.2f} seconds")
                return 1
        print(f"{name}: as it should be")
    return 0


sys.exit(main())
