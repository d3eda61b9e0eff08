#!/usr/bin/env python3
"""Takes the time of td_shard with a million and with two million records.

    bench/shard.py                          needs the kit

It builds bench/shard.rattle in a copy of the repository's crates below it, which is proved on the way, and runs it: a line
for each number of records. Nanoseconds for a record: `posted` in runs of 64, `taken` with pick 0, both also for records that
are posted one by one, each on another edge; `seen first` for one that a distinct has not seen before, and `again` for one
that it has; `states` for a state of a fold that is looked up and left anew, in epochs that are not let go. `left` is 0."""

import pathlib
import subprocess
import sys

sys.dont_write_bytecode = True
sys.path.insert(0, str(pathlib.Path(__file__).resolve().parent.parent / "tests"))
import lib


def main():
    with lib.folder() as folder:
        program = lib.build_beside("td_shard", lib.ROOT / "bench/shard.rattle", folder)
        print(subprocess.run([program], capture_output=True, text=True, check=True).stdout, end="")


if __name__ == "__main__":
    main()
