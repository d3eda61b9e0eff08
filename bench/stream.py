#!/usr/bin/env python3
"""Takes the time of an epoch of `td stream`, whose producer waits for its answer, beside sqlite3.

    bench/stream.py [--keys N,N..] [--workers W] [--td TD] [FOLDER]     needs crates/td/out/td (see the README)

TOTAL on a file of FOLDER (by default of the system's folder for such files). For each number of kept keys a disk is fed that many, and cut;
then a stream of one record an epoch, of W workers (by default one), is answered epoch by epoch. It prints:

- the milliseconds from a stream's start to its first answer, and the greatest memory of the stream;
- the milliseconds of an epoch, in the middle of 500, and as many times as with the fewest keys (wanted: at most 1.3);
- the same of sqlite3 with synchronous=FULL and a write-ahead log: a table of so many keys, one transaction an epoch.

Then, on a journal of 65,536 cells, what an epoch takes after 10 and after 60,000 epochs without a cut, in the middle of 500 (wanted: at
most 1.3 times)."""

import argparse
import pathlib
import sqlite3
import statistics
import subprocess
import sys
import time

sys.dont_write_bytecode = True
sys.path.insert(0, str(pathlib.Path(__file__).resolve().parent.parent / "tests"))
import lib
from lib import TOTAL

# The records of a batch that fills a disk, and the epochs that are timed.
BATCH = 1000
TIMED = 500


class Stream:
    """A stream under way, whose producer waits for each answer."""

    def __init__(self, td, disk, plan, workers):
        self.begun = time.monotonic()
        self.child = subprocess.Popen([td, "stream", disk, plan, "--workers", str(workers)], stdin=subprocess.PIPE, stdout=subprocess.PIPE)

    def epoch(self, key):
        """The seconds until an epoch of one record is answered, by its `ack` and its output."""
        begun = time.monotonic()
        self.child.stdin.write(b"0 %d 1\n.\n" % key)
        self.child.stdin.flush()
        while not self.child.stdout.readline().startswith(b"ack "):
            pass
        self.child.stdout.readline()
        return time.monotonic() - begun

    def memory(self):
        """The greatest memory so far, in bytes."""
        status = pathlib.Path(f"/proc/{self.child.pid}/status").read_text()
        return 1024 * int(status.split("VmHWM:")[1].split()[0])

    def end(self):
        self.child.stdin.close()
        self.child.stdout.read()
        if self.child.wait() != 0:
            lib.fail(f"td stream ended with status {self.child.returncode}")


def time_keys(td, folder, keys, workers):
    """Of a disk with so many kept keys: the seconds to the first answer, those of an epoch, and the memory."""
    disk, plan = folder / "disk", folder / "plan"
    plan.write_text(TOTAL)
    disk.unlink(missing_ok=True)
    subprocess.run([td, "format", disk, plan, str(BATCH), "1100", str(max(keys, 1))], check=True)
    lib.fill(td, disk, plan, keys, BATCH)
    # A stream's cells have room for one record alone, as sqlite3 writes one.
    small = folder / "small"
    small.unlink(missing_ok=True)
    subprocess.run([td, "copy", disk, plan, small, "1", "4096", str(max(keys, 1))], check=True)
    stream = Stream(td, small, plan, workers)
    stream.epoch(0)
    first = time.monotonic() - stream.begun
    each = statistics.median(stream.epoch(number * 7919 % keys) for number in range(TIMED))
    memory = stream.memory()
    stream.end()
    return first, each, memory


def time_epochs(td, folder, before, workers):
    """The seconds of an epoch after so many without a cut, on a journal with room for all."""
    disk, plan = folder / "long", folder / "plan"
    disk.unlink(missing_ok=True)
    subprocess.run([td, "format", disk, plan, "1", "65536", "10"], check=True)
    feed = "0 7 1\n.\n" * before
    subprocess.run([td, "feed", disk, plan], input=feed, stdout=subprocess.DEVNULL, text=True, check=True)
    stream = Stream(td, disk, plan, workers)
    stream.epoch(7)
    each = statistics.median(stream.epoch(7) for _ in range(TIMED))
    stream.end()
    return each


def time_sqlite(folder, keys):
    """The seconds of a transaction of one record beside so many keys."""
    file = folder / "totals.sqlite"
    file.unlink(missing_ok=True)
    store = sqlite3.connect(file, isolation_level=None)
    store.execute("pragma journal_mode=wal")
    store.execute("pragma synchronous=full")
    store.execute("create table totals (key integer primary key, total integer, count integer)")
    store.execute("begin")
    store.executemany("insert into totals values (?, 1, 1)", ((key,) for key in range(keys)))
    store.execute("commit")

    def transaction(key):
        begun = time.monotonic()
        store.execute("begin immediate")
        store.execute("insert into totals values (?, 1, 1) on conflict do update set total = total + 1, count = count + 1", (key,))
        store.execute("select total from totals where key = ?", (key,)).fetchone()
        store.execute("commit")
        return time.monotonic() - begun

    each = statistics.median(transaction(number * 7919 % keys) for number in range(TIMED))
    store.close()
    return each


def main():
    words = argparse.ArgumentParser(description=__doc__, formatter_class=argparse.RawDescriptionHelpFormatter)
    words.add_argument("--keys", default="10,1000,100000,1000000")
    words.add_argument("--workers", default=1, type=int)
    words.add_argument("--td", default=lib.TD, type=pathlib.Path)
    words.add_argument("folder", nargs="?")
    given = words.parse_args()
    lib.built(given.td)
    with lib.folder(within=given.folder) as folder:
        fewest = None
        for keys in map(int, given.keys.split(",")):
            first, each, memory = time_keys(given.td, folder, keys, given.workers)
            beside = time_sqlite(folder, keys)
            fewest = fewest or each
            print(f"{keys:,} keys: {each * 1e3:.3f} ms an epoch, {each / fewest:.2f} times; sqlite3 {beside * 1e3:.3f} ms, {each / beside:.1f} times that; "
                  f"first answer after {first:.2f} s; {memory / 1e6:.0f} MB", flush=True)
        few, many = (time_epochs(given.td, folder, before, given.workers) for before in (10, 60_000))
        print(f"after 10 epochs without a cut {few * 1e3:.3f} ms an epoch, after 60,000 {many * 1e3:.3f} ms, {many / few:.2f} times")


main()
