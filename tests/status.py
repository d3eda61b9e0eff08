#!/usr/bin/env python3
"""Watches a stream by its status file (docs/WATCHING.md): what stands there at known moments, and that it is always whole.

    tests/status.py [TD]       needs crates/td/out/td, or the program TD

A producer sends epochs and a cut, and waits each time until the file says so: then each number must be the one that follows from what was sent.
A consumer says what it has seen, and the file says it again. A file that is read
500 times while a stream writes it has all lines each time. A stream whose file cannot be written says so once, and goes on; once it can be written it is. A stream
that is killed leaves the file as it wrote it last, and the next one writes it anew. A name of the disk with a quote and a backslash is a label."""

import re
import signal
import subprocess
import sys
import time

import lib

TD = lib.asked_td()
SECONDS, READS = 30, 500
NAMES = ["acked_epoch", "done_epoch", "kept_epoch", "cells_used", "cells_limit", "states_used", "states_limit", "records_total",
         "epochs_per_second", "seconds_since_cut", "running"]
# With `--hold` there is one more.
HELD_NAMES = [*NAMES[:3], "seen_epoch", *NAMES[3:]]
# M, N and K of the disk.
SHAPE = ("4", "5", "10")


def numbers_in(text, label, names):
    """The numbers of a status file by name; it has each in order, after its help and its kind, and nothing else."""
    wanted = "".join(rf"# HELP td_{name} [^\n]+\.\n# TYPE td_{name} {'counter' if name.endswith('_total') else 'gauge'}\ntd_{name}{re.escape(label)} (\d+)\n"
                     for name in names)
    if not (found := re.fullmatch(wanted, text)):
        raise ValueError(f"{text!r} is no status file")
    return dict(zip(names, map(int, found.groups())))


class Stream:
    """A stream of a disk in a folder, with a status file."""

    def __init__(self, folder, *words, disk="disk", status="status"):
        self.file, self.label = folder / status, f'{{disk="{disk}"}}'
        self.names = HELD_NAMES if "--hold" in words else NAMES
        self.process = subprocess.Popen([TD, "stream", disk, "plan", "--status", status, *words], cwd=folder, stdin=subprocess.PIPE, stdout=subprocess.DEVNULL,
                                        stderr=subprocess.PIPE)

    def send(self, text):
        self.process.stdin.write(text.encode())
        self.process.stdin.flush()

    def read(self):
        return numbers_in(self.file.read_text(), self.label, self.names)

    def wait_for(self, **wanted):
        """The numbers, once these are among them."""
        end, found = time.monotonic() + SECONDS, None
        while time.monotonic() < end:
            if self.file.exists() and wanted.items() <= (found := self.read()).items():
                return found
            time.sleep(0.05)
        raise ValueError(f"{wanted} was not there within {SECONDS} seconds, but {found}")

    def end(self):
        """What it wrote to standard error."""
        said = self.process.communicate(timeout=SECONDS)[1].decode()
        if self.process.returncode:
            raise ValueError(f"it ended with {self.process.returncode}: {said}")
        return said


def expect(found, **wanted):
    if not wanted.items() <= found.items():
        raise ValueError(f"{found}, and not {wanted}")


def made(folder, disk="disk"):
    (folder / "plan").write_text(lib.TOTAL)
    subprocess.run([TD, "format", disk, "plan", *SHAPE], cwd=folder, check=True)


def known_moments(folder):
    """The numbers after each step of a producer, at the end, and of a second run."""
    made(folder)
    limits = {"cells_limit": 5, "states_limit": 10}
    stream = Stream(folder)
    expect(stream.wait_for(running=1), acked_epoch=0, done_epoch=0, kept_epoch=0, cells_used=0, states_used=0, records_total=0, epochs_per_second=0, **limits)
    stream.send("0 7 5\n0 8 1\n.\n0 9 1\n.\n.\n")
    expect(stream.wait_for(acked_epoch=3, done_epoch=3), kept_epoch=0, cells_used=3, states_used=0, records_total=3, **limits)
    stream.wait_for(epochs_per_second=0, seconds_since_cut=4)
    stream.send("cut\n")
    found = stream.wait_for(kept_epoch=3)
    expect(found, acked_epoch=3, done_epoch=3, cells_used=0, states_used=3, records_total=3, running=1, **limits)
    if found["seconds_since_cut"] >= 4:
        raise ValueError(f"a cut changed nothing in {found}")
    stream.wait_for(seconds_since_cut=2)
    stream.send("0 7 1\n.\n")
    if said := stream.end():
        raise ValueError(f"{said!r} was said")
    expect(stream.read(), acked_epoch=4, done_epoch=4, kept_epoch=3, cells_used=1, states_used=3, records_total=4, running=0, **limits)
    stream = Stream(folder)
    expect(stream.wait_for(running=1), acked_epoch=4, done_epoch=4, kept_epoch=3, cells_used=1, states_used=3, records_total=0, **limits)
    stream.process.send_signal(signal.SIGKILL)
    stream.process.communicate()
    expect(stream.read(), running=1)
    stream = Stream(folder)
    stream.end()
    expect(stream.read(), acked_epoch=4, running=0)


def what_was_seen(folder):
    """The last epoch that the consumer has seen, at first the one that the disk keeps; no cut goes beyond it."""
    made(folder)
    stream = Stream(folder, "--marks", "--hold", "--progress")
    expect(stream.wait_for(running=1), seen_epoch=0)
    stream.send("0 7 5\n.\n0 8 1\n.\n0 9 1\n.\n")
    expect(stream.wait_for(done_epoch=3), seen_epoch=0, kept_epoch=0)
    stream.send("seen 1\nseen 2\n")
    expect(stream.wait_for(seen_epoch=2), kept_epoch=0, acked_epoch=3)
    stream.send("cut\n")
    expect(stream.wait_for(kept_epoch=2), seen_epoch=2, cells_used=1)
    stream.send("seen 3\n")
    if (said := stream.end().splitlines()[-1]) != "acked 3 done 3 kept 2 seen 3":
        raise ValueError(f"{said!r} was said")
    expect(stream.read(), seen_epoch=3, kept_epoch=2, running=0)
    stream = Stream(folder, "--marks", "--hold")
    expect(stream.wait_for(running=1), seen_epoch=2, kept_epoch=2)
    stream.end()


def groups_and_rates(folder):
    """Epochs that come together are counted each, and those that are on the disk already not again."""
    made(folder)
    stream = Stream(folder)
    stream.wait_for(running=1)
    stream.send("".join(f"req {number}\n0 {number} 1\n.\n" for number in (1, 2, 3, 3, 1)))
    expect(stream.wait_for(acked_epoch=3, done_epoch=3), records_total=3)
    said = stream.end()
    expect(stream.read(), acked_epoch=3, records_total=3, cells_used=3)
    stream = Stream(folder)
    stream.wait_for(running=1)
    stream.send(".\n")
    stream.wait_for(acked_epoch=4)
    said += stream.end()
    if said != "td: little room: cells 4 of 5\n":
        raise ValueError(f"{said!r} was said")


def never_half(folder):
    """The file is whole whenever it is read."""
    made(folder)
    stream = Stream(folder)
    stream.wait_for(running=1)
    seen = set()
    for number in range(READS):
        stream.send(f"0 {number % 9} 1\n.\n")
        seen.add(stream.read()["acked_epoch"])
        time.sleep(0.01)
    stream.end()
    expect(stream.read(), acked_epoch=READS, done_epoch=READS, records_total=READS, running=0)
    if len(seen) < 3:
        raise ValueError(f"of {READS} reads all found one of {seen}")


def unwritable(folder):
    """A file that cannot be written is said once, and is written once it can be."""
    made(folder)
    stream = Stream(folder, status="later/status")
    stream.send("0 7 5\n.\n")
    time.sleep(2.5)
    (folder / "later").mkdir()
    expect(stream.wait_for(running=1), acked_epoch=1, records_total=1)
    (folder / "later/status").write_text("something else\n")
    time.sleep(2.5)
    said = stream.end()
    if said != "td: file: later/status: no such folder\n":
        raise ValueError(f"{said!r} was said")
    if (folder / "later/status").read_text() != "something else\n":
        raise ValueError("another file was written over")


def odd_names(folder):
    """The label is the name of the disk as Prometheus spells texts."""
    made(folder, 'a"b\\c')
    stream = Stream(folder, disk='a"b\\c')
    stream.label = '{disk="a\\"b\\\\c"}'
    stream.end()
    expect(stream.read(), acked_epoch=0, running=0)


def main():
    for case in (known_moments, what_was_seen, groups_and_rates, never_half, unwritable, odd_names):
        with lib.folder() as folder:
            try:
                case(folder)
            except (ValueError, subprocess.TimeoutExpired) as error:
                print(f"{case.__name__}: WRONG: {error}")
                return 1
        print(f"{case.__name__}: as it should be")
    return 0


sys.exit(main())
