#!/usr/bin/env python3
"""Takes the time of `td feed` beside what it cannot be faster than, and beside sqlite3.

    bench/feed.py [--epochs N] [--recovery-only | --numbers-only] [FOLDER]     needs crates/td/out/td (see the README) and a C compiler

TOTAL on a file of FOLDER (by default of the system's folder for such files): 20,000 epochs of 1 and 10 records and
2,000 of 1,000, with 100 keys, and a cut each 1,000 epochs. Beside it, one after the other in each of five rounds:

- the limit: bench/feed_limit.c, which makes the writes and syncs of a feed and nothing else, one epoch at a time, and in the groups
  in which `td feed` puts epochs on the disk;
- sqlite3 with synchronous=FULL and a write-ahead log, which keeps the same totals, as many epochs a transaction as a group has.

It prints epochs a second, of each the median round, and the ratios. Wanted: 5 times one epoch at a time with 1 and 10 records, at least
half of the same groups with 1,000, and more than sqlite3.

Then what request numbers cost: epochs of one record without numbers and with them, and the latter fed once more to the same disk, which
finds each of them there; the seconds of each in the middle of five rounds.

Then recovery: a full journal of 65,536 cells of 16 records is shown and fed nothing, beside a plain read of the file (in pieces of
64 KiB, from the system's memory); it prints the seconds, and the greatest memory in use beside the records' 24 bytes each. Wanted:
at most 3 times the plain read, and 3 times the records."""

import argparse
import itertools
import os
import pathlib
import sqlite3
import statistics
import subprocess
import sys
import time

sys.dont_write_bytecode = True
sys.path.insert(0, str(pathlib.Path(__file__).resolve().parent.parent / "tests"))
import lib
from lib import TD, TOTAL

KEYS = 100
CUT_EVERY = 1000
SIZES = (1, 10, 1000)
ROUNDS = 5

# A group of `td feed` has at most so many epochs, whose cells have at most so many bytes.
GROUP, BYTES = 256, 1 << 20


def batches(epochs, size):
    """Of each epoch its records, as keys and values."""
    return ([((epoch + at) % KEYS, at % 7 - 3) for at in range(size)] for epoch in range(epochs))


def write_input(file, epochs, size, numbered=False):
    with open(file, "w", encoding="ascii") as out:
        for number, batch in enumerate(batches(epochs, size), 1):
            out.write(f"req {number}\n" if numbered else "")
            out.write("".join(f"0 {key} {value}\n" for key, value in batch) + ".\n")
            if number % CUT_EVERY == 0:
                out.write("cut\n")


def run(*words, **streams):
    """Seconds, and the greatest memory in use, in bytes."""
    begin = time.monotonic()
    process = subprocess.Popen([str(word) for word in words], **streams)
    _, status, usage = os.wait4(process.pid, 0)
    process.returncode = os.waitstatus_to_exitcode(status)
    if process.returncode != 0:
        lib.fail(f"{words} ended with status {process.returncode}")
    return time.monotonic() - begin, usage.ru_maxrss * 1024


def time_feed(folder, size, cells):
    plan, disk = folder / "total.plan", folder / "total.disk"
    plan.write_text(TOTAL)
    run(TD, "format", disk, plan, size, cells, KEYS)
    with open(folder / "input") as given:
        seconds, memory = run(TD, "feed", disk, plan, stdin=given, stdout=subprocess.DEVNULL)
    disk.unlink()
    return seconds, memory


def group_of(size):
    """How many epochs of so many records a group has."""
    return max(1, min(GROUP, BYTES // (25 + 24 * size)))


def time_limit(folder, limit, epochs, size, cells, group):
    disk = folder / "limit.disk"
    printed = subprocess.run([limit, disk, *map(str, (size, cells, KEYS, epochs, CUT_EVERY, "group", group))],
                             check=True, capture_output=True, text=True).stdout
    disk.unlink()
    return float(printed)


def time_sqlite(folder, epochs, size):
    file = folder / "totals.sqlite"
    base = sqlite3.connect(file, isolation_level=None)
    base.execute("PRAGMA journal_mode=WAL")
    base.execute("PRAGMA synchronous=FULL")
    base.execute("CREATE TABLE totals (key INTEGER PRIMARY KEY, a INTEGER, b INTEGER)")
    begin = time.monotonic()
    each = iter(batches(epochs, size))
    for _ in range(0, epochs, group_of(size)):
        base.execute("BEGIN")
        for batch in itertools.islice(each, group_of(size)):
            base.executemany("INSERT INTO totals VALUES (?, ?, 1) ON CONFLICT (key) DO UPDATE SET a = a + excluded.a, b = b + 1", batch)
        base.execute("COMMIT")
    seconds = time.monotonic() - begin
    base.close()
    for left in folder.glob("totals.sqlite*"):
        left.unlink()
    return seconds


def compare(folder, limit, all_epochs):
    print("| Records an epoch | td feed | one epoch at a time | td to it | in the same groups | td to it | sqlite3 | td to it |")
    print("|---|---|---|---|---|---|---|---|")
    for size in SIZES:
        epochs = all_epochs if size < 100 else all_epochs // 10
        cells, group = min(CUT_EVERY, epochs), group_of(size)
        write_input(folder / "input", epochs, size)
        times = {"td": [], "alone": [], "groups": [], "sqlite": []}
        for _ in range(ROUNDS):
            times["alone"].append(time_limit(folder, limit, epochs, size, cells, 1))
            times["groups"].append(time_limit(folder, limit, epochs, size, cells, group))
            times["td"].append(time_feed(folder, size, cells)[0])
            times["sqlite"].append(time_sqlite(folder, epochs, size))
        td, alone, groups, other = (epochs / statistics.median(times[name]) for name in ("td", "alone", "groups", "sqlite"))
        print(f"| {size:,} | {td:,.0f} | {alone:,.0f} | {td / alone:.2f} | {groups:,.0f} | {td / groups:.2f} | {other:,.0f} | {td / other:.2f} |", flush=True)


def compare_numbers(folder, epochs):
    plan, disk = folder / "total.plan", folder / "total.disk"
    plan.write_text(TOTAL)
    write_input(folder / "plain", epochs, 1)
    write_input(folder / "numbered", epochs, 1, numbered=True)
    times = {"without numbers": [], "with numbers": [], "fed again": []}
    for _ in range(5):
        for name, file, is_fresh in zip(times, ("plain", "numbered", "numbered"), (True, True, False)):
            if is_fresh:
                run(TD, "format", disk, plan, 1, min(CUT_EVERY, epochs), KEYS)
            with open(folder / file) as given:
                times[name].append(run(TD, "feed", disk, plan, stdin=given, stdout=subprocess.DEVNULL)[0])
    disk.unlink()
    print(f"{epochs:,} epochs of one record: " + ", ".join(f"{name} {statistics.median(each):.3f} s" for name, each in times.items()))


def compare_recovery(folder, limit):
    records, cells = 16, 65_536
    plan, disk = folder / "total.plan", folder / "full.disk"
    plan.write_text(TOTAL)
    run(TD, "format", disk, plan, records, cells, KEYS)
    with open(folder / "input", "w", encoding="ascii") as out:
        for batch in batches(cells, records):
            out.write("".join(f"0 {key} {value}\n" for key, value in batch) + ".\n")
    with open(folder / "input") as given:
        run(TD, "feed", disk, plan, stdin=given, stdout=subprocess.DEVNULL)
    plain, shown = [], []
    for _ in range(21):
        plain.append(float(subprocess.run([limit, disk, *"12345", "plain"], check=True, capture_output=True, text=True).stdout))
        shown.append(run(TD, "show", disk, plan, stdout=subprocess.DEVNULL))
    plain = statistics.median(plain)
    fed = [run(TD, "feed", disk, plan, stdin=subprocess.DEVNULL, stdout=subprocess.DEVNULL) for _ in range(3)]
    held = records * cells * 24
    print(f"a full journal of {cells:,} cells of {records} records, {disk.stat().st_size:,} bytes: a plain read {plain * 1000:.1f} ms")
    for name, runs in (("show", shown), ("feed of no input", fed)):
        seconds, memory = statistics.median(each[0] for each in runs), max(each[1] for each in runs)
        print(f"  td {name}: {seconds * 1000:.1f} ms, {seconds / plain:.1f} times; {memory / 1e6:.0f} MB, {memory / held:.1f} times the records")


def main():
    words = argparse.ArgumentParser(description=__doc__, formatter_class=argparse.RawDescriptionHelpFormatter)
    words.add_argument("--epochs", type=int, default=20_000)
    words.add_argument("--recovery-only", action="store_true")
    words.add_argument("--numbers-only", action="store_true")
    words.add_argument("--sync", choices=("fsync", "fdatasync"), default="fsync", help="what the limit syncs with, as td does")
    words.add_argument("folder", nargs="?")
    given = words.parse_args()
    lib.built(TD)
    with lib.folder(within=given.folder) as folder:
        limit = lib.compiled(lib.ROOT / "bench/feed_limit.c", folder / "feed_limit", f"-DSYNC={given.sync}")
        if limit is None:
            return lib.skip("no C compiler is here")
        if not given.recovery_only and not given.numbers_only:
            compare(folder, limit, given.epochs)
        if not given.recovery_only:
            compare_numbers(folder, given.epochs)
        if not given.numbers_only:
            compare_recovery(folder, limit)
    return None


if __name__ == "__main__":
    main()
