#!/usr/bin/env python3
"""Takes the time of takes that find nothing, with 5 and with 5,000 open epochs.

    bench/take.py                           needs the kit

It builds bench/take.rattle in a copy of the repository's crates below it, which is proved on the way, and runs it five times: of each
line the best. Nanoseconds for a take of a shard that has no task, and how many times as long with 5,000 epochs as with 5. The shard
has asked for notifications of every open epoch, and the first task of another shard, which is out, holds all of them back.

- CHAIN, two groups in a line: it asks for one of the first group in each epoch, and for none of the second.
- TURNS, a group in a loop, behind its feedback: it asks for three in each epoch, with the counters 1, 2 and 3.

Wanted: the same with both, that is at most 1.5 times as long with 5,000 epochs."""

import pathlib
import subprocess
import sys

sys.dont_write_bytecode = True
sys.path.insert(0, str(pathlib.Path(__file__).resolve().parent.parent / "tests"))
import lib

# Which closures the program has.
CODES = """-- Which closures there are, by code.
use Rattle.std.specs.Prelude.{ℕ, ◌==◌, Bool, false}
use Rattle.takes.specs.declared.SameAndCount.{SameAndCount}

-- of maps, of groups and of folds
abbrev pub has_map : SameAndCount → ℕ → Bool
has_map c code = code == 1

abbrev pub has_group : SameAndCount → ℕ → Bool
has_group c code = code == 20

abbrev pub has_fold : SameAndCount → ℕ → Bool
has_fold c code = false
"""


def times(program):
    """The best of five rounds, in nanoseconds, by plan and then by how many epochs are open."""
    best = {}
    for _round in range(5):
        for line in subprocess.run([program], capture_output=True, text=True, check=True).stdout.splitlines():
            plan, epochs, taken = line.split()
            of_plan = best.setdefault(plan, {})
            of_plan[int(epochs)] = min(int(taken), of_plan.get(int(epochs), int(taken)))
    return best


def main():
    with lib.folder() as folder:
        parts = (("specs/Codes.antt", CODES), ("specs/Lib.antt", "pub mod Codes\n"))
        program = lib.build_beside("td_core", lib.ROOT / "bench/take.rattle", folder, name="takes", parts=parts)
        print("| Plan | 5 epochs, ns | 5,000 epochs, ns | times |\n|---|---|---|---|")
        for plan, taken in times(program).items():
            few, many = taken[5], taken[5_000]
            print(f"| {plan} | {few} | {many} | {many / max(few, 1):.1f} |")


if __name__ == "__main__":
    main()
