#!/usr/bin/env python3
"""Times `td batch`, and `td run` with 1 and 4 shards, beside a plain program for the same job, on data that it makes itself.

    bench/run.py            needs the kit, rustc and GNU time

It builds the programs first, and `td` is proved on the way where it is not yet. All read the same text; their outputs must
be equal. Each case runs three times, in turn, and the best time counts; the memory is the most that was resident at once."""

import pathlib
import random
import subprocess
import sys

sys.dont_write_bytecode = True
sys.path.insert(0, str(pathlib.Path(__file__).resolve().parent.parent / "tests"))
import lib
from lib import ROOT, TD, TOTAL

COUNT = "0 input\n1 group 20 0\n2 output 1\n"
SUM = "0 input\n1 group 21 0\n2 output 1\n"
BOTH = "0 input\n1 input\n2 group 24 0 1\n3 output 2\n"
UNREAD = COUNT + "".join(f"{3 + number} map 1 0\n" for number in range(20))
LOOP = """0 input
loop 1000
1 enter 0
2 feedback 3
3 map 2 1 2
4 leave 3
end
5 output 4
"""
RING = """0 input
loop 10
1 enter 0
2 feedback 4
3 distinct 1 2
4 map 9 3
5 leave 3
end
6 group 20 5
7 output 6
"""
# Three loops in one another. A record with an odd value goes through once, and never comes back.
NESTED = """0 input
loop 1000
1 enter 0
2 feedback 13
3 map 1 1 2
loop 1000
4 enter 3
5 feedback 11
6 map 1 4 5
loop 1000
7 enter 6
8 feedback 9
9 map 3 7 8
10 leave 7
end
11 map 3 10
12 leave 10
end
13 map 3 12
14 leave 12
end
15 output 14
"""


def records(count, keys, epochs, seed, inputs=1, values=(-1000, 1000)):
    """Data lines: so many records with random keys and values, in equal epochs."""
    rng = random.Random(seed)
    each = count // epochs
    for _ in range(epochs):
        for _ in range(each):
            yield f"{rng.randrange(inputs)} {rng.randrange(keys)} {rng.randrange(*values)}\n"
        yield ".\n"


# A name, the plain program's words, a plan, and the data.
CASES = [
    ("COUNT, 1,000,000 records, 100,000 keys, 1 epoch", ["count"], COUNT, dict(count=1_000_000, keys=100_000, epochs=1)),
    ("COUNT, 2,000,000 records, 100,000 keys, 1 epoch", ["count"], COUNT, dict(count=2_000_000, keys=100_000, epochs=1)),
    ("COUNT and 20 maps that nobody reads, 1,000,000 records", ["count"], UNREAD, dict(count=1_000_000, keys=100_000, epochs=1)),
    ("COUNT, 1,000,000 records, 100,000 keys, 1,000 epochs", ["count"], COUNT, dict(count=1_000_000, keys=100_000, epochs=1000)),
    ("COUNT, 1,000,000 records, 100,000 keys, 100 epochs", ["count"], COUNT, dict(count=1_000_000, keys=100_000, epochs=100)),
    ("COUNT, 1,000,000 records, 100,000 keys, 10,000 epochs", ["count"], COUNT, dict(count=1_000_000, keys=100_000, epochs=10_000)),
    ("SUM, 1,000,000 records, 1 key, 1 epoch", ["sum"], SUM, dict(count=1_000_000, keys=1, epochs=1)),
    ("TOTAL, 1,000,000 records, 100,000 keys, 1,000 epochs", ["total"], TOTAL, dict(count=1_000_000, keys=100_000, epochs=1000)),
    ("BOTH, 1,000,000 records, 100,000 keys, 1 epoch", ["both"], BOTH, dict(count=1_000_000, keys=100_000, epochs=1, inputs=2)),
    ("LOOP of 1,000 turns, 1,000 records", ["loop", "1000"], LOOP, dict(count=1000, keys=100_000, epochs=1)),
    ("RING, 100,000 records of 4 keys", ["ring", "10"], RING, dict(count=100_000, keys=4, epochs=1, values=(0, 1_000_000))),
    ("three nested loops of 1,000 turns, 1 record", ["nested"], NESTED, dict(count=1, keys=1, epochs=1, values=(1, 2))),
]


def run(command, text, output):
    """Seconds and kilobytes of one run."""
    with open(text) as given, open(output, "w") as taken:
        done = subprocess.run(["/usr/bin/time", "-f", "%e %M", *command], stdin=given, stdout=taken,
                              stderr=subprocess.PIPE, text=True, check=True)
    seconds, memory = done.stderr.split()[-2:]
    return float(seconds), int(memory)


def build_td():
    folder = ROOT / "crates/td"
    with open(folder / "stdin") as given:
        done = subprocess.run(["rt", "run", "--", "batch"], cwd=folder, stdin=given, capture_output=True, text=True)
    if done.returncode != 0:
        lib.fail(done.stderr)


class Best:
    """The least seconds and the most kilobytes of some runs."""

    def __init__(self):
        self.seconds, self.kilobytes = float("inf"), 0

    def add(self, seconds, kilobytes):
        self.seconds = min(self.seconds, seconds)
        self.kilobytes = max(self.kilobytes, kilobytes)

    def row(self):
        return f"{self.seconds:.2f} | {self.kilobytes / 1024:.0f}"

    def ratios(self, other):
        return f"{self.seconds / max(other.seconds, 0.01):.1f} | {self.kilobytes / other.kilobytes:.1f}"


def measure(name, programs, text, place):
    """The best of three runs of each program, in turn; their outputs are equal."""
    best = {who: Best() for who in programs}
    for _ in range(3):
        for who, command in programs.items():
            best[who].add(*run(command, text, place / f"{who}.out"))
    if len({(place / f"{who}.out").read_bytes() for who in programs}) > 1:
        lib.fail(f"{name}: the outputs differ")
    return best


def main():
    build_td()
    with lib.folder() as place:
        plain = place / "plain"
        subprocess.run(["rustc", "--edition", "2021", "-O", "-o", plain, ROOT / "bench/plain.rs"], check=True)
        print("| Case | batch, s | MB | plain, s | MB | ratio | MB | run, s | MB | ratio to batch | MB | run of 4, s | MB | ratio to batch | MB |")
        print("|---" * 15 + "|")
        met = {}
        for number, (name, job, plan, data) in enumerate(CASES):
            text = place / "text"
            with open(text, "w") as file:
                file.write(f"{plan}--\n")
                file.writelines(records(seed=number, **data))
            best = met[name] = measure(name, {
                "batch": [TD, "batch"],
                "plain": [plain, *job],
                "run": [TD, "run"],
                "run of 4": [TD, "run", "--workers", "4"],
            }, text, place)
            batch = best["batch"]
            print(f"| {name} | {batch.row()} | {best['plain'].row()} | {batch.ratios(best['plain'])} "
                  f"| {best['run'].row()} | {best['run'].ratios(batch)} | {best['run of 4'].row()} | {best['run of 4'].ratios(batch)} |", flush=True)
        once, twice, unread = list(met)[:3]
        for who in ("batch", "run", "run of 4"):
            print(f"\nFrom one to two million records {who} takes {met[twice][who].seconds / met[once][who].seconds:.2f} times as long; "
                  f"20 maps that nobody reads take {met[unread][who].kilobytes / met[once][who].kilobytes:.2f} times the memory of none.")


if __name__ == "__main__":
    main()
