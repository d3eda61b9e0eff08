#!/usr/bin/env python3
"""Processor time and memory of `td batch` with a closure in text, beside the catalogue's closure that does the same, and of long texts.

    bench/closures.py [--rounds N]      needs a `td` that `rt run` built

Both read the same records in turn, and their outputs must be equal. The median of the rounds counts, five by default. A text of 1 MiB is read, or is
refused at its last line; a run without it is taken off."""

import argparse
import pathlib
import subprocess
import sys

sys.dont_write_bytecode = True
sys.path.insert(0, str(pathlib.Path(__file__).resolve().parent))
from run import COUNT, TD, TOTAL, lib, records
from speed import medians_of, run

CASES = [
    ("COUNT, 1 epoch", COUNT, "group 20 ", "group 10000\nsend key, items\n", 1),
    ("COUNT, 1,000 epochs", COUNT, "group 20 ", "group 10000\nsend key, items\n", 1000),
    ("TOTAL, 1 epoch", TOTAL, "fold 40 ", "fold 10000\nitem a = a + val\nsend key, a\n", 1),
    ("TOTAL, 1,000 epochs", TOTAL, "fold 40 ", "fold 10000\nitem a = a + val\nsend key, a\n", 1000),
]
# As many words as there may be, in three closures, and then comments and lines of blanks up to 1 MiB.
LINE = f"send {' + '.join(['key'] * 339)}, {' + '.join(['val'] * 339)}\n"
WORDS = "".join(f"map {code}\n{LINE}" for code in (10_000, 10_001, 10_002))
TEXTS = [(name, WORDS + line * ((1_048_500 - len(WORDS)) // len(line)))
         for name, line in (("comments", "#" * 1000 + "\n"), ("blanks", " " * 4000 + "\n"), ("empty lines", "\n"))]


def compare(name, plan, of_catalogue, closures, epochs, place, rounds):
    """Prints what a closure in text takes beside that of the catalogue."""
    kind = of_catalogue.split()[0]
    data = "--\n" + "".join(records(1_000_000, 100_000, epochs, 1))
    (place / "by_code").write_text(plan + data)
    (place / "in_text").write_text(plan.replace(of_catalogue, f"{kind} 10000 ") + data)
    (place / "closures").write_text(closures)
    programs = {"by code": ([TD, "batch"], "by_code"), "in text": ([TD, "batch", "--closures", place / "closures"], "in_text")}
    met, said = {who: [] for who in programs}, set()
    for _ in range(rounds):
        for who, (command, text) in programs.items():
            met[who].append(run(command, place / text, place / "out"))
            said.add((place / "out").read_bytes())
    if len(said) != 1:
        lib.fail(f"{name}: the closure in text writes something else")
    (seconds, megabytes), (more, room) = medians_of(met).values()
    print(f"| {name} | {seconds:.2f} | {megabytes:.0f} | {more:.2f} | {more / seconds:.1f} | {room:.0f} |", flush=True)


def time_texts(place, rounds):
    """Prints how long a text of 1 MiB takes to be read, and to be refused."""
    (place / "few").write_text("map 10000\nsend key, val\n")
    for name, text in TEXTS:
        for ending, what in (("\n", "read"), ("\nlet\n", "refused at its end")):
            (place / "many").write_text(text + ending)
            met = {"few": [], "many": []}
            for _ in range(rounds):
                for who in met:
                    done = subprocess.run(["/usr/bin/time", "-f", "%U %S %M", TD, "batch", "--closures", place / who],
                                          input="0 input\n1 output 0\n--\n", capture_output=True, text=True)
                    if (what == "read" or who == "few") != (done.returncode == 0):
                        lib.fail(f"a text of {name}, {what}: {done.stderr}")
                    user, system, kilobytes = done.stderr.split()[-3:]
                    met[who].append((float(user) + float(system), int(kilobytes) / 1024))
            (least, _), (seconds, megabytes) = medians_of(met).values()
            print(f"a text of {len(text):,} bytes of words and {name}, {what}: {seconds - least:.2f} s, {megabytes:.0f} MB", flush=True)


def main():
    words = argparse.ArgumentParser(description=__doc__, formatter_class=argparse.RawDescriptionHelpFormatter)
    words.add_argument("--rounds", type=int, default=5)
    rounds = words.parse_args().rounds
    with lib.folder() as place:
        print("| Case | by code, s | MB | in text, s | times | MB |\n|---|---|---|---|---|---|")
        for case in CASES:
            compare(*case, place, rounds)
        time_texts(place, rounds)


if __name__ == "__main__":
    main()
