"""What the parts of ./check share: what was counted, the builds of a program, and a script's run."""

import os
import pathlib
import re
import resource
import shutil
import signal
import subprocess
import sys
import time

from lib import ROOT

# The programs that rows may name.
PROGRAMS = ("td", "engine_steps", "feed_steps")
# Seconds in which all has to end: 170 of the 180 minutes that a run of the gate may take. The machine's speed decides how many are left after `rt ci`.
SECONDS = 170 * 60
SECONDS_OF_A_SCRIPT = 1200


class Tally:
    """What passed, what failed and what was skipped, and until when all has to end."""

    def __init__(self):
        self.passed = 0
        self.failed = 0
        self.skipped = 0
        self.begun = time.monotonic()

    def fail(self, what, why):
        self.failed += 1
        print(f"check: FAILED: {what}: {why}", flush=True)

    def skip(self, what, why):
        self.skipped += 1
        print(f"check: skipped: {what}: {why}", flush=True)

    def seconds(self, most):
        """So many, or what is left until all has to end."""
        return max(0.1, min(most, self.begun + SECONDS - time.monotonic()))

    def cost(self):
        """How long all took so far: on the clock, and of the processors that were there."""
        spent = [resource.getrusage(who) for who in (resource.RUSAGE_SELF, resource.RUSAGE_CHILDREN)]
        of_processors = sum(it.ru_utime + it.ru_stime for it in spent)
        return f"{(time.monotonic() - self.begun) / 60:.0f} minutes of the clock, {of_processors / 60:.0f} of processor time, {processors()} processors"


def program_of(name):
    """Where a program of the repository is built."""
    return ROOT / "crates" / name / "out" / name


def copies_of_builds(folder, name):
    """The builds of a program, LLVM's and, where it is of the same run, that of Rattle's own compiler: a copy of each, of its name."""
    build = program_of(name)
    other = build.with_name(f"{name}.by-rattle")
    builds = {"by LLVM": build}
    if other.is_file() and other.stat().st_mtime >= build.stat().st_mtime:
        builds["by Rattle's own compiler"] = other
    copies = []
    for way, file in builds.items():
        place = pathlib.Path(folder) / way
        place.mkdir(exist_ok=True)
        copies.append(pathlib.Path(shutil.copy(file, place / name)))
    return copies


def said_by(words, seconds, **more):
    """Status and output of a command, the error text in it; None where it does not end in time. It is ended then, with all that it started."""
    run = subprocess.Popen(words, stdin=subprocess.DEVNULL, stdout=subprocess.PIPE, stderr=subprocess.STDOUT, start_new_session=True, **more)
    try:
        said, _ = run.communicate(timeout=seconds)
        return run.returncode, said.decode(errors="replace")
    except BaseException as error:
        os.killpg(run.pid, signal.SIGKILL)
        run.communicate()
        if isinstance(error, subprocess.TimeoutExpired):
            return None
        raise


def run_script(tally, name, *words):
    """Runs a script of tests/: its status says whether it passed, and a line `skipped: ..` what this machine lacks."""
    begun = time.monotonic()
    done = said_by([sys.executable, "-B", ROOT / name, *words], tally.seconds(SECONDS_OF_A_SCRIPT))
    took = f"{time.monotonic() - begun:.0f} s"
    if done is None:
        return tally.fail(name, f"it did not end in time, {took}")
    print(f"check: {name} took {took}", flush=True)
    status, said = done[0], done[1].strip()
    lacks = re.search(r"(?m)^skipped: (.*)", said)
    if status != 0:
        return tally.fail(name, f"status {status}: {said[-2000:]}")
    if lacks:
        return tally.skip(name, lacks[1])
    tally.passed += 1
    print("\n".join(f"check: {name}: {line}" for line in said.splitlines() or ["passed"]), flush=True)


def shown(value):
    """A value as a line of the gate shows it."""
    text = repr(value.decode(errors="backslashreplace")) if isinstance(value, bytes) else str(value)
    return text if len(text) < 1000 else f"{text[:1000]}.."


def processors():
    return len(os.sched_getaffinity(0))
