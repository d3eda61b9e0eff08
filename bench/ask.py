#!/usr/bin/env python3
"""Takes the time of an epoch of `td stream`, while its disk is asked for its greatest totals and copied to a larger one.

    bench/ask.py [--keys N,N..] [--td TD] [FOLDER]     needs crates/td/out/td (see the README)

TOTAL on a file of FOLDER (by default of the system's folder for such files). For each number of kept keys a disk is fed that many, and cut; then a stream is
fed 500 epochs of one record, each of which waits for its answer. Before each tenth one it is asked for its top 10, and the epoch is sent with the question, so
that it waits for that answer too. Before the 250th it copies its disk to one with twice the room for keys. It prints:

- the milliseconds of an epoch, in the middle, and the greatest, with how many times the one in the middle it is (wanted: at most 10);
- those of an epoch that is sent with a question, and of the answer to the question;
- those of the copy, of which an epoch that comes meanwhile waits as long, and the size of the new disk."""

import argparse
import pathlib
import statistics
import subprocess
import sys
import time

sys.dont_write_bytecode = True
sys.path.insert(0, str(pathlib.Path(__file__).resolve().parent.parent / "tests"))
import lib
from lib import TOTAL

# The records of a batch that fills a disk; the epochs that are timed, with how many of them a question comes, and before which the copy.
BATCH, TIMED, EACH, COPIED = 1000, 500, 10, 250


class Stream:
    """A stream under way that answers questions and makes copies, and whose producer waits for each answer."""

    def __init__(self, td, disk, plan, copies):
        self.child = subprocess.Popen([td, "stream", disk, plan, "--marks", "--ask", "--copies", copies], stdin=subprocess.PIPE, stdout=subprocess.PIPE)

    def answers(self, text, *lasts):
        """Sends a text. The seconds until lines come that begin so, one after another."""
        begun = time.monotonic()
        self.child.stdin.write(text)
        self.child.stdin.flush()
        seconds = []
        for last in lasts:
            while not (line := self.child.stdout.readline()).startswith(last):
                if not line:
                    lib.fail(f"td stream ended with status {self.child.wait()}")
            seconds.append(time.monotonic() - begun)
        return seconds

    def end(self):
        self.child.stdin.close()
        self.child.stdout.read()
        if self.child.wait() != 0:
            lib.fail(f"td stream ended with status {self.child.returncode}")


def time_keys(td, folder, keys):
    """Of a disk with so many kept keys: the seconds of each epoch alone, of each epoch with a question, of each question, of the copy, and the new disk's bytes."""
    disk, plan, copies = folder / "disk", folder / "plan", folder / "copies"
    plan.write_text(TOTAL)
    disk.unlink(missing_ok=True)
    copies.mkdir(exist_ok=True)
    subprocess.run([td, "format", disk, plan, str(BATCH), "1100", str(keys)], check=True)
    lib.fill(td, disk, plan, keys, BATCH)
    small, new = folder / "small", copies / f"of_{keys}"
    small.unlink(missing_ok=True)
    subprocess.run([td, "copy", disk, plan, small, "1", "4096", str(keys)], check=True)
    disk.unlink()
    stream = Stream(td, small, plan, copies)
    stream.answers(b"0 0 1\n.\n", b"done ")
    alone, behind, questions, copy = [], [], [], None
    for number in range(1, TIMED + 1):
        epoch = b"0 %d 1\n.\n" % (number * 7919 % keys)
        if number == COPIED:
            [copy] = stream.answers(f"copy {new.name} 1 4096 {min(2 * keys, 1048576)}\n".encode(), b"copied ")
        if number % EACH == 0:
            question, done = stream.answers(b"top 1 10\n" + epoch, b"asked ", b"done ")
            questions.append(question)
            behind.append(done)
        else:
            alone += stream.answers(epoch, b"done ")
    stream.end()
    size = new.stat().st_size
    new.unlink()
    return alone, behind, questions, copy, size


def said(seconds, usual):
    """The one in the middle and the greatest, in milliseconds, and how many times the usual epoch this is."""
    most = max(seconds)
    return f"{statistics.median(seconds) * 1e3:.3f} ms, at most {most * 1e3:.3f} ms ({most / usual:.1f} times)"


def main():
    words = argparse.ArgumentParser(description=__doc__, formatter_class=argparse.RawDescriptionHelpFormatter)
    words.add_argument("--keys", default="1000,100000,1000000")
    words.add_argument("--td", default=lib.TD, type=pathlib.Path)
    words.add_argument("folder", nargs="?")
    given = words.parse_args()
    lib.built(given.td)
    with lib.folder(within=given.folder) as folder:
        for keys in map(int, given.keys.split(",")):
            alone, behind, questions, copy, size = time_keys(given.td, folder, keys)
            usual = statistics.median(alone)
            print(f"{keys:,} keys: an epoch {said(alone, usual)}; with a question {said(behind, usual)}; its top 10 {said(questions, usual)}; a copy {copy * 1e3:.0f} ms, {size / 1e6:.0f} MB", flush=True)


main()
