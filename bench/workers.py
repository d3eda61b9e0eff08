#!/usr/bin/env python3
"""Takes the time of workers in threads on one hall, and of `td feed` by them.

    bench/workers.py                        needs the kit and crates/td/out/td (see the README)

It builds bench/workers.rattle in a copy of the repository's crates below it, which is proved on the way, and runs it four times: of
each line the best. Milliseconds from a release to where all epochs have passed, for 1, 2 and 4 workers: `slow map`, 10,000 records
by a map whose closure takes some 15 microseconds; `COUNT`, 400,000 records of 1,000 keys. Wanted: the slow map at least 1.7 times
faster by 2 workers than by one, and 3 times by 4, on four quiet cores; COUNT by 4 workers at most 1.2 times slower than by one.

Then `td feed` on a file, by 1, 2 and 4 workers: seconds for 4,096 epochs of 16 records and for 256 of 1,000, by TOTAL and by COUNT,
with four cuts. What is written must be the same."""

import pathlib
import re
import subprocess
import sys
import time

sys.dont_write_bytecode = True
sys.path.insert(0, str(pathlib.Path(__file__).resolve().parent.parent / "tests"))
import lib

PLANS = {"TOTAL": lib.TOTAL, "COUNT": "0 input\n1 group 20 0\n2 output 1\n"}
WORKERS = (1, 2, 4)

# Which closures the program has, and the names of its pools.
CODES = """-- Which closures there are, by code.
use Rattle.std.specs.Prelude.{ℕ, ◌==◌, Bool, false}
use Rattle.workers.specs.declared.Timed.{Timed}

-- of maps, of groups and of folds
abbrev pub has_map : Timed → ℕ → Bool
has_map c code = code == 1

abbrev pub has_group : Timed → ℕ → Bool
has_group c code = code == 20

abbrev pub has_fold : Timed → ℕ → Bool
has_fold c code = false
"""
NAMES = """use Rattle.workers.proofs.passed.Given as goal

abbrev pub ghosts-worked-K-Ledger : goal.ghosts-worked-K-Ledger
ghosts-worked-K-Ledger g a = record { name = a.blank.name; parts = a.blank.parts }

abbrev pub ghosts-worked-K-Crew : goal.ghosts-worked-K-Crew
ghosts-worked-K-Crew g a = record { shards = a.blank.parts; start = a.hall.given }
"""


def build(folder):
    """The program's path, in a repository of its own."""
    parts = (("specs/Codes.antt", CODES), ("specs/Lib.antt", "pub mod Codes\n"), ("proofs/passed/Invariants.antt", NAMES))
    return lib.build_beside("td_pool", lib.ROOT / "bench/workers.rattle", folder, parts=parts)


def time_hall(program):
    best = {}
    for _round in range(4):
        for line in subprocess.run([program], check=True, capture_output=True, text=True).stdout.splitlines():
            workers, slow, count = map(int, re.findall(r"\d+", line))
            old = best.get(workers, (slow, count))
            best[workers] = min(slow, old[0]), min(count, old[1])
    for workers, (slow, count) in sorted(best.items()):
        print(f"workers {workers}: slow map {slow} ms, {best[1][0] / slow:.2f} times as fast; COUNT {count} ms, {count / best[1][1]:.2f} times as slow")


def write_input(file, epochs, records, keys):
    with open(file, "w", encoding="ascii") as out:
        for epoch in range(epochs):
            out.write("".join(f"0 {(epoch * 7 + at) % keys} 1\n" for at in range(records)) + ".\n")
            if epoch % (epochs // 4) == epochs // 4 - 1:
                out.write("cut\n")


def time_feeds(folder):
    for epochs, records, keys in ((4096, 16, 100), (256, 1000, 1000)):
        write_input(folder / "input", epochs, records, keys)
        for name, plan in PLANS.items():
            (folder / "plan").write_text(plan)
            best, first = {}, None
            for workers in WORKERS * 3:
                subprocess.run([lib.TD, "format", "disk", "plan", "1000", "4096", "2000"], cwd=folder, check=True)
                start = time.monotonic()
                with open(folder / "input", "rb") as given:
                    out = subprocess.run([lib.TD, "feed", "disk", "plan", "--workers", str(workers)], cwd=folder, stdin=given, check=True, capture_output=True).stdout
                best[workers] = min(best.get(workers, 1e9), time.monotonic() - start)
                first = first or out
                if out != first:
                    lib.fail(f"{name} by {workers} workers writes other lines")
            print(f"td feed, {name}, {epochs} epochs of {records}:", ", ".join(f"{best[workers]:.2f} s by {workers}" for workers in WORKERS))


def main():
    lib.built(lib.TD)
    with lib.folder() as folder:
        time_feeds(folder)
        time_hall(build(folder))


if __name__ == "__main__":
    main()
