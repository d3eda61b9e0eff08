#!/usr/bin/env python3
"""Counts, by `strace`, the calls that td_gate makes of the system for its puts into a region of a real file.

    tests/put_calls.py       needs `rt`, strace and the tests that `rt ci` or `rt test` left; without them it says so, and that is no failure

No contract counts a disk's calls, or says that a file's sync reaches the system. The program is td_tests' tests as they were
proved and built, and what is counted is the file of the test `a_region_of_a_file`: its making, a put into the closed
region, a put into the open one, the three steps of a put, each by its own call, and a last closing. Each case has a line;
where the calls are others, a second line has both, and the status is 1."""

import os
import pathlib
import re
import shutil
import signal
import subprocess
import sys

import lib

PROGRAM = lib.ROOT / "crates/td_tests/out/td_tests_tests"
TEST = "a_region_of_a_file"
SECONDS = 60
TRACED = "openat,ftruncate,flock,pread64,read,pwrite64,pwritev,write,fsync,fdatasync,sync_file_range,msync"

# The region of the test has its payload of three bytes at 2, and its gate at 5.
LOCKED, SYNCED, FOLDER = "lock", "sync", "sync of the folder"
CLOSES = ["write of 1 at 5", SYNCED]
FILLS = ["write of 3 at 2", SYNCED]
OPENS = ["write of 1 at 5", SYNCED]
WANTED = {
    "create": [LOCKED, "size 0", "size 8", SYNCED, FOLDER],
    "put into a closed region": FILLS + OPENS,
    "put into an open region": CLOSES + FILLS + OPENS,
    "close, fill and open": CLOSES + FILLS + OPENS,
    "shut": CLOSES,
}


def trace(folder):
    """Runs the test, each process's calls into a file of its own."""
    runner = pathlib.Path(shutil.which("rt")).resolve().parent / "rattle-test"
    words = ["strace", "-f", "-ff", "-y", "-q", "-e", "signal=none", "-e", f"trace={TRACED}", "-o", folder / "calls"]
    with open(folder / "said", "w+") as said:
        ran = subprocess.Popen([*words, runner, "--filter", TEST, PROGRAM], stdout=said, stderr=said, start_new_session=True)
        try:
            status = ran.wait(SECONDS)
        except subprocess.TimeoutExpired:
            os.killpg(ran.pid, signal.SIGKILL)
            lib.fail(f"the test {TEST} did not end within {SECONDS} seconds")
        if status != 0:
            said.seek(0)
            lib.fail(f"the test {TEST} ended with {status}:\n{said.read()[-4000:]}")


def disk_calls(folder):
    """The calls on the test's file, and on its folder, from the first lock of the file on."""
    for file in folder.glob("calls.*"):
        text = file.read_text(errors="replace")
        made = re.search(r'"(/\S*/td_gate-\d+)", O_RDWR\|O_CREAT', text)
        if made:
            return [it for it in map(lambda line: call_of(line, made[1]), text[made.end():].splitlines()) if it]
    return lib.fail("no test made a file td_gate-N: the tests have changed, and this script did not")


def call_of(line, path):
    """What a line of the trace says, in words; None where it is of another file."""
    at = re.match(r"(\w+)\(\d+<([^>]*)>(.*)\) += (\S+)", line)
    if not at or at[2] not in (path, str(pathlib.Path(path).parent)):
        return None
    name, rest, answer = at[1], at[3], at[4]
    if at[2] != path:
        return FOLDER if name in ("fsync", "fdatasync") and answer == "0" else None
    if name == "flock":
        return LOCKED if "LOCK_EX" in rest and answer == "0" else None
    if name == "ftruncate":
        return f"size {rest.removeprefix(', ')}"
    if name in ("fsync", "fdatasync"):
        return SYNCED if answer == "0" else f"{SYNCED} that failed"
    if name in ("pread64", "read"):
        return "read"
    return f"write of {answer} at {rest.rpartition(', ')[2]}" if name == "pwrite64" else f"{name}{rest}"


def cases(calls):
    """The calls of each step that wrote or synced: each begins with a read of the gate. What follows the cut of the file is left out."""
    found, step = [], []
    for call in calls:
        if call == "size 5":
            break
        if call == "read":
            found, step = found + [step] * bool(step), []
        else:
            step = step + [call]
    return found + [step] * bool(step)


def main():
    if not lib.is_traced():
        lib.skip("put_calls, since there is no strace that may trace here")
        return 0
    if not PROGRAM.is_file():
        lib.skip(f"put_calls, since {PROGRAM.name} is not there: `rt ci` builds it, and so does `rt test` in crates/td_tests")
        return 0
    with lib.folder() as folder:
        trace(folder)
        found = cases(disk_calls(folder))
    wrong = len(found) != len(WANTED)
    if wrong:
        print(f"{len(WANTED)} steps were to write or sync, and {len(found)} did: {found}")
    for (name, wanted), got in zip(WANTED.items(), found):
        writes, syncs = sum(it.startswith("write") for it in got), sum(it.startswith(SYNCED) for it in got)
        print(f"{name}: {writes} writes, {syncs} syncs{'' if got == wanted else ', WRONG'}")
        if got != wanted:
            wrong = True
            print(f"  wanted {wanted}\n  found {got}")
    return 1 if wrong else 0


sys.exit(main())
