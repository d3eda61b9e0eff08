#!/usr/bin/env python3
"""Where the time of a crate's proof goes: how long each module of it takes, in seconds of the clock.

    bench/proofs.py [--tests] CRATE..       over what `rt check` kept, or `tools/use_kept` took, of the libraries below

Rattle makes some twenty modules of a function, and each file of definitions or lemmas is one. A check by one process saves them one after another. So a
module took as long as passed since the one before was saved; the first of all are left out, with the loading of the libraries.

Printed are the modules that took longest, and the sum of those with the same last name: `Lts` is what the borrow checker makes of a function, `Proof` has
the goals that were searched for, `Tie` its calls. With --tests they are those of the crate's tests."""

import collections
import pathlib
import subprocess
import sys
import tempfile

sys.dont_write_bytecode = True
ROOT = pathlib.Path(__file__).resolve().parent.parent
sys.path.insert(0, str(ROOT / "tests"))
import edits

# How many modules are printed, and how many last names.
LONGEST, NAMES = 25, 12


def check(rt, crate, tests, kept):
    """Checks a crate, or its tests, by one process that saves its modules in a folder; and answers the last line."""
    words = crate.words(["--jobs", "1"], tests=tests, keeps=False)
    ran = subprocess.run([*rt.rtlib.guarded(), rt.rtlib.RATTLE, "check", *words, "--incremental", kept], cwd=crate.folder, stdin=subprocess.DEVNULL,
                         stdout=subprocess.PIPE, stderr=subprocess.STDOUT, text=True, errors="replace")
    return ran.stdout.rstrip().rpartition("\n")[2]


def seconds_of_modules(kept):
    """How long each module took, by its name."""
    saved = sorted((file.stat().st_mtime, file.name.removesuffix(".oantt").removesuffix(".decls")) for file in pathlib.Path(kept).rglob("*.oantt"))
    seconds = collections.Counter()
    for (before, _), (after, module) in zip(saved, saved[1:]):
        seconds[module] += after - before
    return seconds


def main():
    names = [word for word in sys.argv[1:] if word != "--tests"]
    rt = edits.load_rt()
    crates = {crate.name: crate for crate in rt.rtlib.crates_below(str(ROOT / "crates"))}
    if not names or not set(names) <= set(crates):
        sys.exit(__doc__)
    for name in names:
        with tempfile.TemporaryDirectory(prefix="td-modules-") as kept:
            said = check(rt, crates[name], "--tests" in sys.argv, kept)
            seconds = seconds_of_modules(kept)
        print(f"{name}: {sum(seconds.values()):.0f} s, {len(seconds)} modules: {said[:60]}")
        for module, took in seconds.most_common(LONGEST):
            print(f"{took:8.2f} {module.removeprefix('Rattle-')}")
        kinds = collections.Counter()
        for module, took in seconds.items():
            kinds[module.rpartition(".")[2]] += took
        print("  " + ", ".join(f"{kind} {took:.0f}" for kind, took in kinds.most_common(NAMES)))


if __name__ == "__main__":
    main()
