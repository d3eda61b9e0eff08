#!/usr/bin/env python3
"""Takes the time of td_progress with 10 and with 10,000 open epochs.

    bench/table.py                          needs the kit

It builds bench/table.rattle in a copy of the repository's crates below it, which is proved on the way, and runs it three times: of
each line the best. Nanoseconds, and how many times as long with 10,000 epochs as with 10. Of each open epoch one pointstamp is
active: COUNT has all of them at one place; LINE, 62 maps in a line, at 62 places; NEST at one place in 64 pairs of counters. The
places and counters that have active ones are its chains; the first epoch has one in each.

- `in_frontier` and `precursors` of the active pointstamp of the first, the middle and the last epoch, and of one that none holds
  back (`free`). `in_frontier` looks at the first of a chain alone. `precursors` adds up a chain from its first on, so that it
  costs more the later the pointstamp is in it.
- `passed`: whether the last epoch has passed.
- `again`: one more of an active pointstamp, and one less.
- `input`, `among`, `output`: a pointstamp that is not active comes and goes, in an epoch before all, between the middle ones and after
  all: at the input, in a chain that is there, and at the output. It looks at each chain; one at the output between others goes over
  all that are before it in each chain."""

import pathlib
import subprocess
import sys

sys.dont_write_bytecode = True
sys.path.insert(0, str(pathlib.Path(__file__).resolve().parent.parent / "tests"))
import lib


def times(program):
    """The best of three rounds, in nanoseconds, by call and then by how many epochs are open."""
    best = {}
    for _round in range(3):
        for line in subprocess.run([program], capture_output=True, text=True, check=True).stdout.splitlines():
            *call, epochs, taken = line.split()
            of_call = best.setdefault(" ".join(call), {})
            of_call[int(epochs)] = min(int(taken), of_call.get(int(epochs), int(taken)))
    return best


def main():
    with lib.folder() as folder:
        program = lib.build_beside("td_progress", lib.ROOT / "bench/table.rattle", folder)
        print("| Call | 10 epochs, ns | 10,000 epochs, ns | times |\n|---|---|---|---|")
        for call, taken in times(program).items():
            few, many = taken[10], taken[10_000]
            print(f"| {call} | {few} | {many} | {many / max(few, 1):.1f} |")


if __name__ == "__main__":
    main()
