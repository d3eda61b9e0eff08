#!/usr/bin/env python3
"""Processor time and memory of `td batch` and `td run`, beside a program that is tuned for the one job (bench/tuned.rs).

    bench/speed.py [--rounds N] [TD..]      needs rustc and a `td` that `rt run` built, or these programs, each as `td`

All read the same text in turn, and their outputs must be equal. The median of the rounds counts, five by default: of the processor time,
with the system's, and of the most that was resident at once. Then `td run`, with 1 and 4 shards, is compared with `td batch` where several vertices read
one input. Last, plans are compared with each other: twice as many records with as many, and COUNT beside 20 maps that nobody reads with
COUNT alone; the two of each in turn as well."""

import argparse
import pathlib
import statistics
import subprocess
import sys

sys.dont_write_bytecode = True
sys.path.insert(0, str(pathlib.Path(__file__).resolve().parent))
from run import COUNT, RING, ROOT, TD, TOTAL, UNREAD, lib, records

CASES = [
    ("COUNT, 1,000,000 records, 100,000 keys, 1 epoch", "count", COUNT, 1),
    ("COUNT, 1,000,000 records, 100,000 keys, 1,000 epochs", "count", COUNT, 1000),
    ("TOTAL, 1,000,000 records, 100,000 keys, 1,000 epochs", "total", TOTAL, 1000),
]

# 48 maps of an input, of which each fold of six reads eight: a vertex reads no more.
MAPS = ("0 input\n" + "".join(f"{number} map 1 0\n" for number in range(1, 49))
        + "".join(f"{49 + fold} fold 40 {' '.join(str(8 * fold + number) for number in range(1, 9))}\n" for fold in range(6))
        + "".join(f"{55 + fold} output {49 + fold}\n" for fold in range(6)))
COUNT_AND_SUM = "0 input\n1 group 20 0\n2 group 21 0\n3 output 1\n4 output 2\n"
# Plans in which several vertices read one input, with records, keys and epochs.
READ_BY_SEVERAL = [
    ("48 maps of an input that folds read, 20,000 epochs of 1 record, 1,000 keys", MAPS, (20_000, 1_000, 20_000)),
    ("48 maps of an input that folds read, 1,000 epochs of 100 records, 10,000 keys", MAPS, (100_000, 10_000, 1_000)),
    ("COUNT and SUM of one input, 1,000,000 records, 100,000 keys, 1 epoch", COUNT_AND_SUM, (1_000_000, 100_000, 1)),
]

# Plans beside each other: of both a name, a plan, and records, keys, epochs and values.
MILLION = ("COUNT, 1,000,000 records", COUNT, (1_000_000, 100_000, 1), {})
VALUES = {"values": (0, 1_000_000)}
PAIRS = [
    (MILLION, ("the same and 20 maps that nobody reads", UNREAD, (1_000_000, 100_000, 1), {})),
    (MILLION, ("COUNT, 2,000,000 records", COUNT, (2_000_000, 100_000, 1), {})),
    (("TOTAL, 1,000,000 records, 1,000 epochs", TOTAL, (1_000_000, 100_000, 1000), {}),
     ("TOTAL, 2,000,000 records, 2,000 epochs", TOTAL, (2_000_000, 100_000, 2000), {})),
    (("RING, 100,000 records of 4 keys", RING, (100_000, 4, 1), VALUES), ("RING, 200,000 records of 4 keys", RING, (200_000, 4, 1), VALUES)),
]


def run(command, text, output):
    """Seconds of the processor, and megabytes, of one run."""
    with open(text) as given, open(output, "w") as taken:
        done = subprocess.run(["/usr/bin/time", "-f", "%U %S %M", *command], stdin=given, stdout=taken,
                              stderr=subprocess.PIPE, text=True, check=True)
    user, system, kilobytes = done.stderr.split()[-3:]
    return float(user) + float(system), int(kilobytes) / 1024


def medians_of(met):
    """Of each the median of its seconds, and that of its megabytes."""
    return {who: tuple(statistics.median(column) for column in zip(*runs)) for who, runs in met.items()}


def measure(name, programs, text, place, rounds):
    """The medians of each program, run in turn on one text."""
    met, output = {who: [] for who in programs}, None
    for _ in range(rounds):
        for who, command in programs.items():
            met[who].append(run(command, text, place / "out"))
            said = (place / "out").read_bytes()
            if output not in (None, said):
                lib.fail(f"{name}: {who} writes something else")
            output = said
    return medians_of(met)


def compare(td, pair, place, rounds):
    """The medians of `td batch` on two texts, in turn."""
    met = {}
    for number, (name, plan, sizes, more) in enumerate(pair):
        (place / f"text{number}").write_text(plan + "--\n" + "".join(records(*sizes, 1, **more)))
        met[name] = []
    for _ in range(rounds):
        for number, runs in enumerate(met.values()):
            runs.append(run([td, "batch"], place / f"text{number}", place / "out"))
    return medians_of(met)


def main():
    words = argparse.ArgumentParser(description=__doc__, formatter_class=argparse.RawDescriptionHelpFormatter)
    words.add_argument("--rounds", type=int, default=5)
    words.add_argument("tds", nargs="*", metavar="TD", type=pathlib.Path)
    given = words.parse_args()
    tds = [td.resolve() for td in given.tds] or [TD]
    with lib.folder() as place:
        subprocess.run(["rustc", "--edition", "2021", "-O", "-o", place / "tuned", ROOT / "bench/tuned.rs"], check=True)
        print("| Case | Program | s | times tuned | MB | times tuned |\n|---|---|---|---|---|---|")
        for name, job, plan, epochs in CASES:
            text = place / "text"
            text.write_text(plan + "--\n" + "".join(records(1_000_000, 100_000, epochs, 1)))
            programs = {"tuned": [place / "tuned", job]}
            for td in tds:
                of = f" of {td}" if len(tds) > 1 else ""
                programs |= {f"`td batch`{of}": [td, "batch"], f"`td run`{of}": [td, "run"], f"`td run` with 4 shards{of}": [td, "run", "--workers", "4"]}
            medians = measure(name, programs, text, place, given.rounds)
            base = medians["tuned"]
            for who, (seconds, megabytes) in medians.items():
                print(f"| {name} | {who} | {seconds:.2f} | {seconds / base[0]:.1f} | {megabytes:.0f} | {megabytes / base[1]:.1f} |", flush=True)
        print("\n| Case | Program | s | times `td batch` | MB | times `td batch` |\n|---|---|---|---|---|---|")
        for name, plan, sizes in READ_BY_SEVERAL:
            text.write_text(plan + "--\n" + "".join(records(*sizes, 1)))
            for td in tds:
                medians = measure(name, {"`td batch`": [td, "batch"], "`td run`": [td, "run"], "`td run` with 4 shards": [td, "run", "--workers", "4"]}, text, place, given.rounds)
                base = medians["`td batch`"]
                for who, (seconds, megabytes) in medians.items():
                    print(f"| {name} | {who} of {td.name} | {seconds:.2f} | {seconds / base[0]:.1f} | {megabytes:.0f} | {megabytes / base[1]:.1f} |", flush=True)
        print("\n| Plan | Program | s | MB | Plan | s | times | MB | times |\n|---|---|---|---|---|---|---|---|---|")
        for td in tds:
            for pair in PAIRS:
                (first, one), (second, other) = compare(td, pair, place, given.rounds).items()
                print(f"| {first} | {td.name} | {one[0]:.2f} | {one[1]:.0f} | {second} | {other[0]:.2f} | {other[0] / one[0]:.1f} | {other[1]:.0f} | {other[1] / one[1]:.1f} |", flush=True)


if __name__ == "__main__":
    main()
