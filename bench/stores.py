#!/usr/bin/env python3
"""Takes the time of `td feed` beside stores that keep the same totals: sqlite3, RocksDB and LMDB.

    bench/stores.py [--keys N,N..] [--sizes N,N..] [--cut-every N] [--td TD] [FOLDER]     needs crates/td/out/td (see the README), a C compiler and the stores' libraries

TOTAL on a file of FOLDER (by default of the system's folder for such files), with 100 and 1,000,000 kept keys: 20,000 epochs of 1 and 10 records, and
2,000 of 1,000, whose keys lie far from one another. `td` is fed them as text, puts as many epochs together as it can, 256 at most, and cuts each 1,000. Its start
on the disk is taken by itself, and taken off. The stores (bench/stores.c) have the numbers in memory, and as many epochs a transaction, which is synced. What
stands before the first epoch is not timed.

It prints epochs a second, of each the median of five rounds, one after the other in each, and those of `td` over each store's. Wanted: above 1 beside sqlite3 and
RocksDB; beside LMDB above 0.5 with 10 records and above 1 with 1,000. A store whose library is not there is left out, and `nan` stands for one that fails."""

import argparse
import math
import pathlib
import shutil
import statistics
import subprocess
import sys
import time

sys.dont_write_bytecode = True
sys.path.insert(0, str(pathlib.Path(__file__).resolve().parent.parent / "tests"))
import lib
from lib import TOTAL

STORES = {"sqlite3": "sqlite3", "RocksDB": "rocksdb", "LMDB": "lmdb"}
ROUNDS = 5
# A group of `td feed` has at most so many epochs, whose cells have at most so many bytes.
GROUP, BYTES = 256, 1 << 20


def epochs_of(size):
    return 20_000 if size < 100 else 2_000


def group_of(size):
    """How many epochs of so many records a group has."""
    return max(1, min(GROUP, BYTES // (25 + 24 * size)))


def write_input(file, keys, size, cut_every):
    """The epochs that each store takes, as lines."""
    with open(file, "w", encoding="ascii") as out:
        for epoch in range(epochs_of(size)):
            out.write("".join(f"0 {(epoch * size + at) * 7919 % keys} {at % 7 - 3}\n" for at in range(size)) + ".\n")
            if (epoch + 1) % cut_every == 0:
                out.write("cut\n")


def seconds_of(*words, **streams):
    begin = time.monotonic()
    subprocess.run([str(word) for word in words], check=True, **streams)
    return time.monotonic() - begin


def time_feed(td, folder, keys, size, cut_every):
    """The seconds of a feed of a disk that keeps all keys, without those of its start."""
    plan, disk, states = folder / "total.plan", folder / "total.disk", folder / "states"
    plan.write_text(TOTAL)
    states.write_text("kept 0\n" + "".join(f"state 1 {key} 1 1\n" for key in range(keys)))
    with open(states) as given:
        subprocess.run([td, "load", disk, plan, *map(str, (size, min(cut_every, 65_536), keys))], stdin=given, check=True)
    start = statistics.median(seconds_of(td, "feed", disk, plan, stdin=subprocess.DEVNULL, stdout=subprocess.DEVNULL) for _ in range(3))
    with open(folder / "input") as given:
        seconds = seconds_of(td, "feed", disk, plan, stdin=given, stdout=subprocess.DEVNULL)
    disk.unlink()
    return seconds - start


def time_store(program, folder, keys, size):
    """The seconds of a store, or none where it fails: LMDB 0.9.24 aborts by an assertion of its own with 1,000,000 keys and 43,000 changes a transaction."""
    place = folder / "store"
    place.mkdir()
    words = [program, place / "totals", *map(str, (keys, size, epochs_of(size), group_of(size)))]
    ran = subprocess.run(words, capture_output=True, text=True)
    shutil.rmtree(place)
    return float(ran.stdout) if ran.returncode == 0 else math.nan


def stores(folder):
    """The program of each store whose library is there."""
    made = {}
    for name, library in STORES.items():
        try:
            program = lib.compiled(lib.ROOT / "bench/stores.c", folder / library, f"-D{name.upper().removesuffix('3')}", f"-l{library}")
        except subprocess.CalledProcessError:
            print(f"{name}: its library is not here")
            continue
        if program is None:
            return None
        made[name] = program
    return made


def compare(td, folder, programs, keys, size, cut_every):
    """A line of the table: epochs a second, and how many times as many `td` has."""
    write_input(folder / "input", keys, size, cut_every)
    times = {name: [] for name in ("td", *programs)}
    for _ in range(ROUNDS):
        times["td"].append(time_feed(td, folder, keys, size, cut_every))
        for name, program in programs.items():
            times[name].append(time_store(program, folder, keys, size))
    rates = {name: epochs_of(size) / statistics.median(each) for name, each in times.items()}
    cells = [f"{keys:,}", f"{size:,}", f"{rates['td']:,.0f}"]
    for name in programs:
        cells += [f"{rates[name]:,.0f}", f"{rates['td'] / rates[name]:.2f}"]
    print(f"| {' | '.join(cells)} |", flush=True)


def main():
    words = argparse.ArgumentParser(description=__doc__, formatter_class=argparse.RawDescriptionHelpFormatter)
    words.add_argument("--keys", default="100,1000000")
    words.add_argument("--sizes", default="1,10,1000")
    words.add_argument("--cut-every", type=int, default=1_000)
    words.add_argument("--td", default=lib.TD)
    words.add_argument("folder", nargs="?")
    given = words.parse_args()
    with lib.folder(within=given.folder) as folder:
        programs = stores(folder)
        if programs is None:
            return lib.skip("no C compiler is here")
        heads = ["Keys", "Records an epoch", "td feed", *(head for name in programs for head in (name, "td to it"))]
        print(f"| {' | '.join(heads)} |\n|{'---|' * len(heads)}")
        for keys in map(int, given.keys.split(",")):
            for size in map(int, given.sizes.split(",")):
                compare(given.td, folder, programs, keys, size, given.cut_every)
    return None


if __name__ == "__main__":
    main()
