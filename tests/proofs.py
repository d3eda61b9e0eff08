"""Everything proved, by `rt ci` on a copy of the repository without the must-fail edits, and these tried over what it proves."""

import collections
import concurrent.futures
import contextlib
import copy
import os
import pathlib
import re
import shutil
import subprocess
import sys
import tempfile
import threading
import time

import edits
import reading
from gate import processors
from lib import ROOT


def is_left_out(folder, names):
    """What a copy for `rt ci` leaves out: it would try the must-fail edits one by one."""
    place = pathlib.Path(folder).relative_to(ROOT).parts
    left_out = {".git"} if not place else {"must-fail", "out"} if place[:1] == ("crates",) and len(place) == 2 else set()
    return left_out & set(names)


def prove(tally):
    """Runs `rt ci` on a copy of the repository, tries the must-fail edits over what it proves, and takes over the programs that it builds, those of tests too,
    and the static libraries."""
    with tempfile.TemporaryDirectory(prefix="td-proof-") as folder:
        top = pathlib.Path(folder) / "repository"
        shutil.copytree(ROOT, top, ignore=is_left_out)
        trials = Trials(top)
        if not are_readable(tally, trials):
            return
        if run_rt_ci(tally, top, trials):
            for name in trials.crates:
                trials.begin(name)
            build_archives(tally, trials.crates.values())
        trials.end(tally)
        for build in top.glob("crates/*/out/*"):
            if build.is_file() and (os.access(build, os.X_OK) or build.suffix == ".a"):
                folder = ROOT / build.parent.relative_to(top)
                folder.mkdir(exist_ok=True)
                shutil.copy2(build, folder)


def run_rt_ci(tally, top, trials):
    """Runs `rt ci`, hands on what it says, has the edits of each crate tried once it is proved, counts what its last line counts, and
    answers whether it passed. It checks a crate by one process, since processes that share a crate's proof each load its libraries, which takes
    a third more of processor time. As many crates are checked at once as there are processors but one, and two where there are two."""
    last = ""
    lanes = str(max(min(2, processors()), processors() - 1))
    try:
        with subprocess.Popen(["rt", "ci"], cwd=top, stdin=subprocess.DEVNULL, stdout=subprocess.PIPE,
                              env={**os.environ, "PYTHONUNBUFFERED": "1", "RT_JOBS": lanes}) as run:
            for line in run.stdout:
                sys.stdout.buffer.write(line)
                sys.stdout.buffer.flush()
                last = line.decode(errors="replace").strip() or last
                if proved := re.fullmatch(r"rt: (\w+) (?:proved|is kept: .*)", last):
                    trials.begin(proved[1])
    except OSError as error:
        tally.fail("rt ci", error)
        return False
    counted = re.fullmatch(r"(\d+) passed, (\d+) failed", last)
    if counted is None:
        tally.fail("rt ci", f"it ended with status {run.returncode}, and its last line counts nothing")
        return False
    tally.passed += int(counted[1])
    tally.failed += int(counted[2])
    if run.returncode != 0 and int(counted[2]) == 0:
        tally.fail("rt ci", f"it ended with status {run.returncode}")
    return run.returncode == 0


def build_archives(tally, crates):
    """Builds the static libraries over the libraries that `rt ci` proved: it proves them too, and leaves no archive of one."""
    for crate in (copy.copy(it) for it in crates if it.is_static):
        os.makedirs(f"{crate.folder}/out", exist_ok=True)
        with tempfile.TemporaryFile("w+") as crate.out:
            status = crate.compile(["--jobs", "1"], f"out/lib{crate.name}.a")
            crate.out.seek(0)
            said = crate.out.read()
        if status:
            tally.fail(f"lib{crate.name}.a", said)
        else:
            print(f"check: lib{crate.name}.a is built", flush=True)


def are_readable(tally, trials):
    """Whether each must-fail edit can be tried as it says, which is seen before anything is proved: its text first, and then by the front end."""
    failed = tally.failed
    for name, crate in trials.crates.items():
        for file in set((ROOT / "crates" / name).glob("must-fail/*")) - set(edits_of(name)):
            if file.suffix != ".md":
                tally.fail(f"must-fail {name}/{file.name}", "an edit is a file whose name ends in .edit")
        for file in edits_of(name):
            if why := edits.misread(file, crate, trials.rt):
                tally.fail(f"must-fail {name}/{file.stem}", why)
    return tally.failed == failed and are_compiled(tally, trials, trials.crates)


def are_compiled(tally, trials, names):
    """Whether the front end accepts each must-fail edit of the named crates. Where it cannot read them, that is said, and they are tried unread."""
    begun = time.monotonic()
    files = {trials.crates[name]: edits_of(name) for name in names if edits_of(name)}
    try:
        refused = reading.Reader(trials.rt).refused(files)
    except (OSError, RuntimeError) as error:
        print(f"check: the must-fail edits are tried unread: {error}", flush=True)
        return True
    for edit, errors in refused.items():
        what = f"must-fail {edit.crate.name}/{edit.name}" if edit else "the crates as they stand"
        tally.fail(what, f"the front end refuses: {'; '.join(it[:300] for it in errors[:3])}")
    print(f"check: the front end read {sum(map(len, files.values()))} must-fail edits in {time.monotonic() - begun:.0f} s", flush=True)
    return not refused


def edits_of(name):
    """The must-fail edits of a crate."""
    return sorted((ROOT / "crates" / name / "must-fail").glob("*.edit"))


class Trials:
    """The must-fail edits of the crates of a tree, tried two crates at once, and once `rt ci` has ended as many as there are processors."""

    BESIDE = 2

    def __init__(self, top):
        self.rt = edits.load_rt()
        self.rt.rtlib.guarded()
        # (a build that runs has copies of crates in out/)
        self.crates = {it.name: it for it in self.rt.rtlib.crates_below(f"{top}/crates")}
        self.processors = max(self.BESIDE, processors())
        self.pool = concurrent.futures.ThreadPoolExecutor(self.processors)
        self.permits = threading.Semaphore(self.BESIDE)
        self.runs = {}
        self.times = Times()

    def begin(self, name):
        """Has a crate's edits tried, where it has some and they were not begun: the libraries below it are proved."""
        files = edits_of(name)
        if files and name in self.crates and name not in self.runs:
            self.runs[name] = self.pool.submit(self.tried, self.crates[name], files)

    def tried(self, crate, files):
        with self.permits:
            return edits.try_edits(crate, files, self.rt)

    def end(self, tally):
        """Waits for all that were begun, and counts each edit."""
        self.permits.release(max(1, self.processors - self.BESIDE))
        for name, run in self.runs.items():
            try:
                answers = run.result()
            except Exception as error:
                tally.fail(f"must-fail {name}", f"its edits could not be tried: {error!r}")
                continue
            ways = [said for is_refused, said in answers.values() if is_refused]
            tally.passed += len(ways)
            print(f"check: must-fail {name}: {len(ways)} of {len(answers)} edits refused, {ways.count(edits.TOGETHER)} of them together", flush=True)
            for edit, (is_refused, said) in answers.items():
                if not is_refused:
                    tally.fail(f"must-fail {name}/{edit}", said)
        self.pool.shutdown()
        print(f"check: minutes of processor time of proofs and edits: {self.times.said()}", flush=True)


class Times:
    """The processor time of each crate's proofs and edits, which the kit does not tell: what the system says of the processes that this one or its
    `rt ci` began, asked every two seconds. So what each takes last is not counted."""

    def __init__(self):
        self.ticks = {}
        threading.Thread(target=self.ask, daemon=True).start()

    def ask(self):
        while True:
            for process in filter(str.isdigit, os.listdir("/proc")):
                with contextlib.suppress(OSError):
                    self.note(process)
            time.sleep(2)

    def note(self, process):
        name = re.search(r"--crate-name\0(\w+)", pathlib.Path(f"/proc/{process}/cmdline").read_text(errors="replace"))
        stat = stat_of(process)
        if name and str(os.getpid()) in (stat[1], stat_of(stat[1])[1]):
            self.ticks[name[1], process, stat[19]] = sum(map(int, stat[11:15]))

    def said(self):
        minutes = collections.Counter()
        for (name, *_), ticks in list(self.ticks.items()):
            minutes[name] += ticks / os.sysconf("SC_CLK_TCK") / 60
        return ", ".join(f"{name} {it:.1f}" for name, it in minutes.most_common())


def stat_of(process):
    """What the system says of a process: its state, its parent, and more (proc_pid_stat(5), from the third field on)."""
    return pathlib.Path(f"/proc/{process}/stat").read_text(errors="replace").rpartition(")")[2].split()


def try_edits_of(tally, names):
    """Tries the must-fail edits of the named crates, over what `rt check` kept of the libraries below them."""
    os.chdir(ROOT)
    trials = Trials(ROOT)
    for name in names:
        if name not in trials.crates:
            return tally.fail(name, "crates.txt lists no such crate")
    if not are_compiled(tally, trials, names):
        return
    for name in names:
        for below in trials.crates[name].below():
            if below.build_rlib(["--jobs", "1"], anew=False):
                return tally.fail(name, f"{below.name}, below it, is not proved")
        trials.begin(name)
    trials.end(tally)
