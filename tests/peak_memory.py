#!/usr/bin/env python3
"""Looks at the greatest memory in use as epochs go by, since no contract speaks of memory that is let go.

    tests/peak_memory.py [TD]       needs crates/td/out/td (see the README), or the program that is named, and a system with /proc

TOTAL, one record an epoch, of one key, as many epochs as stand below, and some times as many. Between the two each command may take only so much
more for each epoch, in bytes: `td stream --cut-every 1000`, with one shard and with four, next to nothing, since what a cut lets go is used again;
`td feed` with a cut each 1,000 epochs, `td run` and `td batch` what they make of the input, which they read whole, and `td run`, which cuts
each 65,536 records, no more than `td batch`, which has no hall. So it is with a key of its own for each epoch, whose states all stay: a cut changes
them where they stand. The greatest use is read of the system while the program runs, each two milliseconds.
On a busy machine a reading may come so late that it misses the greatest use, so the greatest of some runs counts."""

import os
import pathlib
import re
import subprocess
import time

import lib
from lib import TOTAL

EPOCH = "0 7 1\n.\n"
CUT_EVERY = 1_000
# Each command: its words, the file that is its input, how many epochs and how many more, and how many bytes an epoch may cost.
STREAM = ("stream", "disk", "plan", "--cut-every", str(CUT_EVERY))
COMMANDS = {
    "td stream": (STREAM, "epochs", 10_000, 50_000, 12),
    "td stream --workers 4": ((*STREAM, "--workers", "4"), "epochs", 10_000, 50_000, 12),
    "td feed": (("feed", "disk", "plan"), "epochs and cuts", 10_000, 50_000, 205),
    "td run": (("run",), "plan and epochs", 100_000, 200_000, 195),
    "td batch": (("batch",), "plan and epochs", 100_000, 200_000, 195),
    "td run, keys": (("run",), "plan and keys", 131_072, 262_144, 260),
    "td batch, keys": (("batch",), "plan and keys", 131_072, 262_144, 260),
}
# And by how many bytes an epoch `td run` may be above `td batch`: with one key, and with a key of its own for each epoch.
HALL = {"": 8, ", keys": 8}
SECONDS = 120
RUNS = 4


def greatest(td, words, given, folder):
    """The greatest memory that a run has in use, in bytes; the script ends where it does not end well."""
    until, most = time.monotonic() + SECONDS, 0
    with open(given, "rb") as text:
        run = subprocess.Popen([td, *words], stdin=text, stdout=subprocess.DEVNULL, cwd=folder)
    while run.poll() is None:
        if time.monotonic() > until:
            run.kill()
            lib.fail(f"td {' '.join(words)} did not end within {SECONDS} seconds")
        try:
            used = re.search(r"VmHWM:\s+(\d+) kB", pathlib.Path(f"/proc/{run.pid}/status").read_text())
            most = max(most, int(used[1]) * 1024 if used else 0)
        except OSError:
            pass
        time.sleep(0.002)
    if run.returncode != 0 or most == 0:
        lib.fail(f"td {' '.join(words)} ended with status {run.returncode}, and had {most} bytes in use")
    return most


def used_of(td, folder, name, epochs):
    """The greatest memory of a command, for so many epochs."""
    words, given, *_ = COMMANDS[name]
    keys = "".join(f"0 {key} 1\n.\n" for key in range(epochs))
    text = {
        "epochs": EPOCH * epochs,
        "epochs and cuts": (EPOCH * CUT_EVERY + "cut\n") * (epochs // CUT_EVERY),
        "plan and epochs": f"{TOTAL}--\n" + EPOCH * epochs,
        "plan and keys": f"{TOTAL}--\n{keys}",
    }
    (folder / "plan").write_text(TOTAL)
    (folder / given).write_text(text[given])
    most = 0
    for _ in range(RUNS):
        subprocess.run([td, "format", "disk", "plan", "1", str(CUT_EVERY), "3"], cwd=folder, check=True)
        most = max(most, greatest(td, words, folder / given, folder))
    return most


def main():
    td = lib.asked_td()
    if not os.path.exists("/proc/self/status"):
        return lib.skip("peak_memory, since this system has no /proc")
    with lib.folder(in_memory=True) as folder:
        used = {name: [used_of(td, folder, name, epochs) for epochs in COMMANDS[name][2:4]] for name in COMMANDS}
    each = {name: (many - few) / (COMMANDS[name][3] - COMMANDS[name][2]) for name, (few, many) in used.items()}
    wrong = [f"{name} takes {each[name]:.0f} bytes for each epoch, and may take {COMMANDS[name][4]}" for name in COMMANDS if each[name] > COMMANDS[name][4]]
    for which, most in HALL.items():
        more = each[f"td run{which}"] - each[f"td batch{which}"]
        if more > most:
            wrong.append(f"td run{which} takes {more:.0f} bytes more for each epoch than td batch, and may take {most}")
    said = ", ".join(f"{name} {each[name]:.0f}" for name in COMMANDS)
    if wrong:
        lib.fail("\n".join([*wrong, said]))
    print(f"bytes for each epoch more: {said}; in use at most {max(max(each) for each in used.values()) / 1e6:.1f} MB")
    return None


if __name__ == "__main__":
    main()
