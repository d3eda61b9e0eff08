#!/usr/bin/env python3
"""Runs `td sim` with 1, 2, 3 and 16 shards and fifty lists of picks: whatever is picked, the output lines are the same.

    tests/each_pick.py          needs crates/td/out/td (see the README)

The inputs are rows of rows/hall.txt: a nest of two loops, a ring of four keys and a join of two inputs, each with the output
lines that its row has. The lines of notifications may differ."""

import concurrent.futures
import subprocess

import lib
import rows

WORKERS = (1, 2, 3, 16)
PICKS = [f"{i},{i + 1},{2 * i}" for i in range(50)]

# The rows of rows/hall.txt that are run, by their titles.
ROWS = ("sim: nested loops, the first of each", "sim: a ring, whatever is picked", "run: two inputs are joined")


def rows_of_hall():
    """The rows, read as the gate reads them."""
    found = {row.title: row.commands()[0] for row in rows.read_rows(lib.ROOT / "rows/hall.txt")}
    return [(title, found[title]) for title in ROWS]


def without_notes(text):
    """Lines without those of notifications."""
    return b"".join(line for line in text.splitlines(keepends=True) if not line.startswith(b"note "))


def answer(text, workers, picks):
    """Status, output lines without those of notifications, and errors of one run."""
    done = subprocess.run([lib.TD, "sim", "--workers", str(workers), "--picks", picks], input=text, capture_output=True)
    return done.returncode, without_notes(done.stdout), done.stderr


def main():
    lib.built(lib.TD)
    runs = [(row, workers, picks) for row in rows_of_hall() for workers in WORKERS for picks in PICKS]
    with concurrent.futures.ThreadPoolExecutor() as pool:
        answers = list(pool.map(lambda run: answer(run[0][1].given, *run[1:]), runs))
    for ((title, command), workers, picks), got in zip(runs, answers):
        if got != (0, without_notes(command.output()), b""):
            lib.fail(f"{title}: {workers} shards, picks {picks}: {got}")
    print(f"{len(runs)} runs of td sim, the same output lines whatever was picked")


main()
