#!/usr/bin/env python3
"""Runs `td` on standard streams as other programs leave them: non-blocking, slow, and unread.

    tests/streams.py [PROGRAM]      needs crates/td/out/td (see the README), or the program named

- A pipe for standard input that is non-blocking, and empty at first: the stream waits for its lines.
- A pipe for standard output that is non-blocking, and read slowly: all lines of the answer come, in order.
- A pipe for standard error that is full, and that nobody reads: a stream with `--progress` acknowledges all, and ends."""

import fcntl
import os
import subprocess
import sys
import time

import lib

TD = lib.asked_td()
SECONDS = 30
# A pipe's least size, and how many lines there are of an answer that is many times as long.
PIPE, LINES = 4096, 20_000


def small_pipe(non_blocking):
    """A pipe of one page: the side to read, and the side to write; this one or the other may not block."""
    read, write = os.pipe()
    fcntl.fcntl(write, fcntl.F_SETPIPE_SZ, PIPE)
    if non_blocking is not None:
        side = (read, write)[non_blocking == "write"]
        os.set_blocking(side, False)
    return read, write


def formatted(folder):
    """A fresh disk and its plan."""
    (folder / "plan").write_text(lib.TOTAL)
    subprocess.run([TD, "format", folder / "disk", folder / "plan", "4", "64", "3"], check=True)
    return [folder / "disk", folder / "plan"]


def input_that_comes_late(folder):
    """What a stream writes whose standard input does not block, and has nothing at first."""
    read, write = small_pipe("read")
    stream = subprocess.Popen([TD, "stream", *formatted(folder)], stdin=read, stdout=subprocess.PIPE, stderr=subprocess.PIPE)
    os.close(read)
    for line in ("0 7 5\n", ".\n"):
        time.sleep(0.3)
        os.write(write, line.encode())
    os.close(write)
    said, error = stream.communicate(timeout=SECONDS)
    return (stream.returncode, said, error) == (0, b"ack 1\n1 2 7 5\n", b"") or (stream.returncode, said, error)


def output_that_is_read_slowly(folder):
    """What comes of a long answer over standard output that does not block."""
    read, write = small_pipe("write")
    text = "0 input\n1 output 0\n--\n" + "".join(f"0 {key} 1\n" for key in range(LINES)) + ".\n"
    (folder / "input").write_text(text)
    with open(folder / "input", "rb") as source:
        batch = subprocess.Popen([TD, "batch"], stdin=source, stdout=write, stderr=subprocess.PIPE)
    os.close(write)
    said = b""
    time.sleep(0.5)
    while more := os.read(read, 65_536):
        said += more
        time.sleep(0.001)
    status, error = batch.wait(SECONDS), batch.stderr.read()
    wanted = "".join(f"1 1 {key} 1\n" for key in range(LINES)).encode()
    return (status, said, error) == (0, wanted, b"") or (status, len(said), error)


def progress_that_nobody_reads(folder):
    """How a stream ends whose progress goes to a pipe that is full."""
    read, write = small_pipe(None)
    os.write(write, b"x" * PIPE)
    stream = subprocess.Popen([TD, "stream", *formatted(folder), "--progress"], stdin=subprocess.PIPE, stdout=subprocess.PIPE, stderr=write)
    os.close(write)
    try:
        stream.stdin.write(b"0 7 5\n.\n")
        stream.stdin.flush()
        time.sleep(1.5)
        said, _ = stream.communicate(b"0 7 1\n.\n", timeout=SECONDS)
    except subprocess.TimeoutExpired:
        return "it did not end"
    finally:
        stream.kill()
        os.close(read)
    return (stream.returncode, said) == (0, b"ack 1\n1 2 7 5\nack 2\n2 2 7 6\n") or (stream.returncode, said)


def main():
    wrong = 0
    for case in (input_that_comes_late, output_that_is_read_slowly, progress_that_nobody_reads):
        with lib.folder() as folder:
            found = case(folder)
        print(f"{case.__name__.replace('_', ' ')}: {'as it should be' if found is True else f'WRONG: {found}'}")
        wrong += found is not True
    return 1 if wrong else 0


sys.exit(main())
