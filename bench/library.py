#!/usr/bin/env python3
"""Takes the time of an epoch of TOTAL by the library, as the Rust client calls it, beside the same epochs by the evaluator in Rattle, and through a pipe to
`td stream` and to `td batch`.

    bench/library.py [FOLDER]       needs crates/td/out/td, crates/td_c/out/libtd_c.a, cargo, a C compiler and the kit; the disk lies in FOLDER

All take the same records, and the sums of their outputs must be equal. The stream syncs each epoch, and the others nothing; so a FOLDER in memory (/dev/shm,
by default) is the harder one for the library. By `epoch_of` the library is handed the states that an epoch asks for, so keys cost a look-up each; by `epoch`
it is handed all states. The evaluator keeps them, and keeps the plan. It is a program of its own (bench/library.rattle), which is proved on the way. The best
of three counts, and that of what makes the keys first is taken off.

Wanted, with 1,000 records an epoch: at most 1.1 times the evaluator, and at most the time of `td stream`."""

import collections
import os
import pathlib
import shutil
import subprocess
import sys
import time

sys.dont_write_bytecode = True
sys.path.insert(0, str(pathlib.Path(__file__).resolve().parent.parent / "tests"))
import lib
from lib import ROOT, TOTAL
from library import ARCHIVE, CLIENTS, loaded

# Epochs, records of one, and keys.
CASES = [(2000, 1, 10), (2000, 10, 1000), (1000, 1000, 10), (1000, 1000, 1000), (200, 1000, 100_000), (20, 1000, 1_000_000)]
ROUNDS = 3


def build(folder):
    """The program of the Rust client."""
    loaded("build", ROOT / "build").link_library(ARCHIVE, folder)
    shutil.copytree(CLIENTS / "rust", folder / "rust", ignore=shutil.ignore_patterns("target"))
    shutil.copy(ROOT / "bench/library.rs", folder / "rust/examples/speed.rs")
    subprocess.run(["cargo", "build", "--release", "--offline", "--quiet", "--example", "speed"], cwd=folder / "rust",
                   env={**os.environ, "TD_LIBRARY": str(folder)}, check=True)
    return folder / "rust/target/release/examples/speed"


def first_of(keys):
    """A record of each key, in epochs of 1,000."""
    return "".join(f"0 {key} 1\n" + (".\n" if key % 1000 == 999 or key == keys - 1 else "") for key in range(keys))


def epochs_of(epochs, count, keys):
    """The records that bench/library.rs makes, as lines."""
    seed, lines = 1, []
    for _ in range(epochs):
        for _ in range(count):
            seed = (seed * 6364136223846793005 + 1442695040888963407) % 2**64
            lines.append(f"0 {(seed >> 33) % keys} 1\n")
        lines.append(".\n")
    return "".join(lines)


def piped(words, text):
    """The seconds of a command, and the sum of the values that it prints."""
    begun = time.monotonic()
    done = subprocess.run([lib.TD, *words], input=text, capture_output=True, text=True, check=True)
    seconds = time.monotonic() - begun
    return seconds, sum(int(line.rsplit(" ", 1)[1]) for line in done.stdout.splitlines() if line[0].isdigit())


def streamed(folder, keys, text):
    """The seconds of `td stream` with the epochs, on a new disk that has the keys, and with none; and the sum of all outputs."""
    disk, plan = folder / "disk", folder / "plan"
    disk.unlink(missing_ok=True)
    plan.write_text(TOTAL)
    subprocess.run([lib.TD, "format", disk, plan, "1000", "4096", str(keys)], check=True, capture_output=True)
    _, sum_of_first = piped(["feed", disk, plan], first_of(keys) + "cut\n")
    none, _ = piped(["stream", disk, plan], "")
    seconds, more = piped(["stream", disk, plan], text)
    return seconds, none, sum_of_first + more


def batched(keys, text):
    """The seconds of `td batch` with the keys and the epochs, and with the keys alone; and the sum of all outputs."""
    head = f"{TOTAL}--\n{first_of(keys)}"
    none, _ = piped(["batch"], head)
    seconds, total = piped(["batch"], head + text)
    return seconds, none, total


def evaluated(program):
    """The seconds of each case's epochs by the evaluator, and the sum of all outputs."""
    found = {}
    for line in subprocess.run([program], capture_output=True, text=True, check=True).stdout.splitlines():
        epochs, count, keys, nanoseconds, total = map(int, line.split())
        found[epochs, count, keys] = nanoseconds / 1e9, 0, total
    return found


def by_library(program, way, case):
    """The seconds of a case's epochs by the Rust client, and the sum of all outputs."""
    seconds, total = subprocess.run([program, way, *map(str, case)], capture_output=True, text=True, check=True).stdout.split()
    return float(seconds), 0, int(total)


def take_round(programs, place, met):
    """Adds the seconds and the sum of each case, by each of the five."""
    program, evaluator = programs
    for case, run in evaluated(evaluator).items():
        met[case]["evaluator"].append(run)
    for case in CASES:
        text = epochs_of(*case)
        met[case]["library"].append(by_library(program, "kept", case))
        met[case]["all states"].append(by_library(program, "all", case))
        met[case]["stream"].append(streamed(place, case[2], text))
        met[case]["batch"].append(batched(case[2], text))


def best_of(runs, epochs):
    """The milliseconds of an epoch: the least of all runs with the epochs, and that without them taken off."""
    if not runs:
        return "-"
    whole, without, _ = map(min, zip(*runs))
    return f"{1000 * (whole - without) / epochs:.3f}"


def print_case(case, met):
    """Prints the best of each, in milliseconds an epoch; the sums must be equal."""
    if len({total for runs in met.values() for _, _, total in runs}) != 1:
        lib.fail(f"{case[0]} epochs of {case[1]} records: the sums differ: {met}")
    best = (best_of(met[who], case[0]) for who in ("library", "all states", "evaluator", "stream", "batch"))
    print(f"| {' | '.join([*map(str, case), *best])} |")


def main():
    at = pathlib.Path(sys.argv[1] if sys.argv[1:] else "/dev/shm")
    if not ARCHIVE.is_file() or not shutil.which("cargo"):
        sys.exit("library: needs crates/td_c/out/libtd_c.a (./build --library) and cargo")
    with lib.folder() as folder:
        programs = build(folder), lib.build_beside("td_batch td_catalogue", ROOT / "bench/library.rattle", folder / "evaluator", name="evaluator")
        place = at / f"td-library-{os.getpid()}"
        place.mkdir()
        try:
            met = {case: collections.defaultdict(list) for case in CASES}
            for _ in range(ROUNDS):
                take_round(programs, place, met)
        finally:
            shutil.rmtree(place)
    heads = "Epochs", "Records of one", "Keys", "by the library, ms", "of all states", "by the evaluator", "by td stream", "by td batch"
    print(f"| {' | '.join(heads)} |\n{'|---' * len(heads)}|")
    for case in CASES:
        print_case(case, met[case])


if __name__ == "__main__":
    main()
