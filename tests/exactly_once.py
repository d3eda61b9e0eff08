#!/usr/bin/env python3
"""Kills the services over libtd in Python, C and Rust at 100 moments each: each output is stored once.

    tests/exactly_once.py [SEED [FOLDER]]       needs crates/td/out/td, a C compiler, and crates/td_c/out/libtd_c.a, or libtd.a and libtd.so in FOLDER

First the commands of docs/LIBRARY.md are run as they stand, in an empty folder beside a release's: they build the services. Those in Rust need cargo.

A service does the requests of a file, and is killed a random while after its start. The next one gets the requests from one that has no answer, or from any
one before it. What must come is computed here, by a few lines that know nothing of plans, and compared with `td batch`. It is required that

- at each kill the outputs of the first requests are stored, each once and in order, and the states and the number are those after the last of them;
- each request that was answered `done` or `again` is among them;
- in the end all requests are, and each was answered.

C and Rust have the same files, so each kill there may be followed by a start of the other one. Before that the services get requests that they must refuse,
leave out or not do. In Python two services stand on one database, and `emit` adds to balances. In C and Rust the second one is refused, and a request's writes
and syncs are in their order, where there is a strace."""

import collections
import contextlib
import os
import pathlib
import random
import re
import shutil
import signal
import sqlite3
import struct
import subprocess
import sys
import time

import lib
from documents import commands_in
from library import ARCHIVE, loaded

SEED = int(sys.argv[1]) if sys.argv[1:] else 1
SERVICE = lib.ROOT / "clients/python/exactly_once.py"
# Totals and counts at one output, and a fold that keeps a state and lets it go in turn.
PLAN = "0 input\n1 fold 40 0\n2 group 20 0\n3 fold 41 0\n4 output 1 2\n5 output 3\n"
KILLS, KILLS_OF_A_ROUND, REQUESTS, RECORDS, SECONDS = 100, 12, 400, 6, 60
KEYS = (0, 7, 2**63 - 1, 2**63, 2**64 - 1)
# What the service in Python gets, one after another on one database, and what it must answer: None where it must end with one line of error.
CASES = [
    ("req 5\n0 7 5\n0 7 -2\n.\n", "done 5\n"),
    ("req 5\n0 7 5\n.\nreq 4\n.\n", "again 5\nagain 4\n"),
    ("req 6\n0 7 1\n1 7 5\n.\n", "refused 6: record 1: no input\n"),
    ("req 6\n0 7 9223372036854775808\n.\nreq 6\n.\n", "refused 6: Record 0: (0, 7, 9223372036854775808)\ndone 6\n"),
    ("req 7\n0 7 5\n", ""),
    ("\n# a comment\nreq 8\n0 9 5\n.\n", "done 8\n"),
    *((text, None) for text in ("0 7 5\n", ".\n", "req 9\nreq 10\n.\n", "req 0\n.\n", "req 9223372036854775808\n.\n")),
    *((text, None) for text in ("req 9\n0 7\n.\n", "req 9\n. 1\n", "req\n", "req 9\n.\n0 7 5\n")),
]
KEPT = [(1, "7", 3, 2), (1, "9", 5, 1), (3, "7", 5, 0), (3, "9", 5, 0)]
# The same of those in C and Rust, in one folder.
CASES_OF_FILES = [
    ("req 5\n0 7 5\n0 7 -2\n.\n", "done 5\n"),
    ("req 5\n0 7 5\n.\nreq 4\n.\n", "again 5\nagain 4\n"),
    ("req 6\n0 7 1\n1 7 5\n.\nreq 6\n.\n", "refused 6: libtd answers 13 at 1\ndone 6\n"),
    ("req 7\n0 7 5\n", ""),
    ("req 8\n0 9 5\n.\n", "done 8\n"),
    *((text, None) for text in ("0 7 5\n", ".\n", "req 9\nreq 10\n.\n", "req 0\n.\n", "req -1\n.\n", "req 18446744073709551616\n.\n", "req\n")),
    *((f"req 9\n{line}\n.\n", None) for line in ("0 7", "0 7 5 1", "0 -7 5", "0 7 9223372036854775808", "0 7 five", ". 1", "")),
    ("req 9\n.\n0 7 5\n", None),
]
# The calls of a request in C or Rust: what is called, and of which file; and calls that count as another.
ALIKE = {"pwrite64": "write", "renameat": "rename", "renameat2": "rename"}
CALLS = [("fsync", "outputs"), ("write", "state.new"), ("fsync", "state.new"), ("rename", ""), ("fsync", "base"), ("write", "outputs"), ("write", "pipe")]
# Of the file `state`: its head (the number, where the outputs begin, how many states and outputs there are), a state, and an output.
HEAD, STATE, OUTPUT = struct.Struct("=4Q"), struct.Struct("=QQqq"), struct.Struct("=QQq")


class Reading:
    """What the plan keeps and sends, epoch by epoch."""

    def __init__(self):
        self.totals, self.toggled = {}, {}

    def epoch(self, records):
        """The outputs of an epoch, sorted."""
        items, outputs = collections.defaultdict(list), []
        for _, key, value in records:
            items[key].append(value)
        for key, values in items.items():
            total, count = self.totals.get(key, (0, 0))
            self.totals[key] = total + sum(values), count + len(values)
            outputs += [(4, key, self.totals[key][0]), (4, key, len(values)), (5, key, int(key not in self.toggled))]
            if self.toggled.pop(key, None) is None:
                self.toggled[key] = max(values), 0
        return sorted(outputs)

    def states(self):
        return sorted([(1, key, *state) for key, state in self.totals.items()] + [(3, key, *state) for key, state in self.toggled.items()])


class Task:
    """Requests, and what must be in the database after each of them."""

    def __init__(self, made):
        self.numbers, self.texts, self.outputs, self.states, reading = [0], [""], [[]], [[]], Reading()
        for at in range(1, REQUESTS + 1):
            records = [(0, made.choice(KEYS), made.randrange(-9, 99)) for _ in range(made.randrange(RECORDS + 1))]
            self.numbers.append(at + at // 3)
            self.texts.append("".join(f"{line}\n" for line in (f"req {self.numbers[at]}", *("%d %d %d" % record for record in records), ".")))
            self.outputs.append([(self.numbers[at], *output) for output in reading.epoch(records)])
            self.states.append(reading.states())


class InDatabase:
    """The service in Python, over a database of sqlite3."""

    def __init__(self, library):
        self.library = library

    def prepare(self, folder):
        """(the service makes its database)"""

    def words(self, folder, _is_last=False):
        return [sys.executable, "-B", SERVICE, folder / "base", folder / "plan", self.library]

    def found(self, folder, _is_ended):
        """The number, the states and the outputs of the database."""
        with contextlib.closing(sqlite3.connect(folder / "base")) as base:
            if not base.execute("select name from sqlite_master where name = 'outputs'").fetchall():
                return 0, [], []
            (last,) = base.execute("select last from standing").fetchone()
            states = sorted((vertex, int(key), a, b) for vertex, key, a, b in base.execute("select * from states"))
            rows = base.execute("select request, vertex, key, value from outputs order by rowid")
            return last, states, [(request, vertex, int(key), value) for request, vertex, key, value in rows]


class InFiles:
    """A service in C or Rust, over two files of a folder; the last one on a folder may be another."""

    def __init__(self, program, last):
        self.program, self.last = program, last
        # At how many kills the outputs of the last request were not all in their file.
        self.lacking = 0

    def prepare(self, folder):
        (folder / "base").mkdir()

    def words(self, folder, is_last=False):
        return [self.last if is_last else self.program, folder / "base", folder / "plan"]

    def found(self, folder, is_ended):
        """The number, the states and the outputs of the files. Those of the last request stand in `state`, and in `outputs` from their place on, so far as they
        were written: all of them, where the service has ended by itself."""
        file, state = folder / "base/outputs", folder / "base/state"
        text = file.read_text() if file.is_file() else ""
        if not state.is_file():
            return 0, [], text.splitlines()
        kept = state.read_bytes()
        last, place, states, outputs = HEAD.unpack_from(kept)
        behind = HEAD.size + states * STATE.size
        end = behind + outputs * OUTPUT.size
        sent = [(last, *output) for output in OUTPUT.iter_unpack(kept[behind:end])]
        lines = "".join("%d %d %d %d\n" % output for output in sent)
        if kept[end:] != PLAN.encode() or not lines.startswith(text[place:]) or is_ended and text[place:] != lines:
            lib.fail(f"after {last} `outputs` ends with {text[place:]!r}, and `state` has {lines!r} and {kept[end:]!r}")
        self.lacking += text[place:] != lines
        rows = [tuple(map(int, line.split())) for line in text[:place].splitlines()]
        return last, list(STATE.iter_unpack(kept[HEAD.size:behind])), rows + sent


class Round:
    """A place where states and outputs are stored, and the services that are started there one after another."""

    def __init__(self, folder, task, way):
        self.folder, self.task, self.way, self.answered = folder, task, way, 0
        (folder / "plan").write_text(PLAN)
        way.prepare(folder)

    def start(self, first, is_last=False):
        """Starts a service for the requests from this one on."""
        (self.folder / "requests").write_text("".join(self.task.texts[first:]))
        with open(self.folder / "requests") as requests, open(self.folder / "answers", "w") as answers, open(self.folder / "errors", "w") as errors:
            self.service = subprocess.Popen(self.way.words(self.folder, is_last), stdin=requests, stdout=answers, stderr=errors)

    def wait(self):
        """Waits for the end of the service, and looks often, since the time to it counts: its status."""
        end = time.monotonic() + SECONDS
        while self.service.poll() is None:
            if time.monotonic() > end:
                lib.fail("the service does not end")
            time.sleep(0.001)
        return self.service.returncode

    def kill(self):
        """Kills the service: whether it was there."""
        is_there = self.service.poll() is None
        self.service.send_signal(signal.SIGKILL)
        status = self.wait()
        if not is_there and status != 0:
            lib.fail(f"the service ended with status {status}: {(self.folder / 'errors').read_text()[-2000:]}")
        return is_there and status < 0

    def check(self, is_ended=False):
        """What is answered is stored, and what is stored is that of the first requests: how many they are."""
        task, done = self.task, 0
        for line in (self.folder / "answers").read_text().splitlines():
            word, number = line.split()
            done = max(done, task.numbers.index(int(number)))
        self.answered = max(self.answered, done)
        last, states, outputs = self.way.found(self.folder, is_ended)
        at = task.numbers.index(last)
        if at < self.answered:
            lib.fail(f"{task.numbers[self.answered]} was answered, and the last that is stored is {last}")
        if states != task.states[at]:
            lib.fail(f"after {last} the states are {states}, and not {task.states[at]}")
        if outputs != (wanted := [output for each in task.outputs[:at + 1] for output in each]):
            lib.fail(f"after {last} there are {len(outputs)} outputs, and not {len(wanted)}: {sorted(set(outputs) ^ set(wanted))[:6]}")
        return at

    def check_end(self):
        """Waits until the service has done all that it got: all requests are answered, and are there."""
        if self.wait() != 0 or self.check(is_ended=True) != REQUESTS or self.answered != REQUESTS:
            lib.fail(f"{self.answered} of {REQUESTS} requests are answered: {(self.folder / 'errors').read_text()[-2000:]}")


# What a service must answer


def play(folder, words, cases):
    """Has a service answer cases, and refuse another plan."""
    (folder / "plan").write_text(PLAN)
    (folder / "other").write_text(f"{PLAN}6 output 2\n")
    at = words.index(folder / "plan")
    for given, wanted in [*cases, ("other", None)]:
        words[at] = folder / ("other" if given == "other" else "plan")
        done = subprocess.run(words, input=given, capture_output=True, text=True)
        if (done.returncode, done.stdout) != (0, wanted) and (wanted is not None or done.returncode != 1 or len(done.stderr.splitlines()) != 1):
            lib.fail(f"of {given!r} {words[0]} makes {done.stdout!r} with status {done.returncode}: {done.stderr[-1000:]}")


def play_in_database(folder, library):
    """The service in Python answers its cases, and keeps what it must."""
    way = InDatabase(library)
    play(folder, way.words(folder), CASES)
    with contextlib.closing(sqlite3.connect(folder / "base")) as base:
        found = base.execute("select * from states order by vertex, key").fetchall(), base.execute("select last from standing").fetchall()
    if found != (KEPT, [(9,)]):
        lib.fail(f"after the cases the database has {found}")


def play_in_files(folder, program):
    """A service in C or Rust answers its cases, and keeps what it must. A second one is refused while it runs, and so is one whose `outputs` is gone."""
    way = InFiles(program, program)
    way.prepare(folder)
    play(folder, way.words(folder), CASES_OF_FILES)
    last, states, outputs = way.found(folder, True)
    if (last, states) != (9, [(vertex, int(key), a, b) for vertex, key, a, b in KEPT]) or len(outputs) != 6:
        lib.fail(f"after the cases the files of {program} have {last}, {states}, {outputs}")
    with subprocess.Popen(way.words(folder), stdin=subprocess.PIPE, stdout=subprocess.PIPE, text=True) as first:
        print("req 10\n.", file=first.stdin, flush=True)
        said = first.stdout.readline()
        second = subprocess.run(way.words(folder), input="", capture_output=True, text=True)
    (folder / "base/outputs").unlink()
    third = subprocess.run(way.words(folder), input="", capture_output=True, text=True)
    if (said, first.returncode, second.returncode, third.returncode) != ("done 10\n", 0, 1, 1):
        lib.fail(f"{program} says {said!r}, beside it {second}, and without its outputs {third}")


def compare_calls(folder, program):
    """A service in C or Rust makes the calls of CALLS for a request, in their order: what a kill cannot show, since the system loses nothing then."""
    if not lib.is_traced():
        return
    way = InFiles(program, program)
    way.prepare(folder)
    (folder / "plan").write_text(PLAN)
    words = ["strace", "-f", "-y", "-o", folder / "trace", "-e", "trace=write,pwrite64,fsync,fdatasync,rename,renameat,renameat2", *way.words(folder)]
    subprocess.run(words, input="req 1\n0 7 5\n.\n", capture_output=True, text=True, check=True)
    found = re.findall(r"(?m)^(?:\d+ +)?(\w+)\((?:\d+<([^>]*)>)?", (folder / "trace").read_text())
    made = [(ALIKE.get(call, call), pathlib.Path(file).name.partition(":")[0]) for call, file in found]
    if made != CALLS:
        lib.fail(f"{program} makes the calls {made}, and not {CALLS}")


def add_to_balances(folder, library):
    """Two services on one database, whose `emit` adds to balances: an `emit` that fails has added nothing, and what is sent twice is added once."""
    sys.path.insert(0, str(SERVICE.parent))
    client = loaded("exactly_once", SERVICE)

    def add(base, request, outputs):
        base.execute("create table if not exists balance (amount integer)")
        base.executemany("insert into balance values (?)", [(value,) for vertex, _, value in outputs if vertex == 4])
        if request == 2 and not failed:
            failed.append(request)
            raise OSError("the first time")

    failed, did = [], []
    services = [client.Service(folder / "balances", PLAN, library, add) for _ in range(2)]
    for at, request in enumerate((1, 1, 2, 2, 3, 2, 3)):
        try:
            did.append(services[at % 2].put(request, [(0, 7, 10)]))
        except OSError:
            did.append(None)
    amounts = [amount for amount, in services[0].base.execute("select amount from balance order by amount")]
    if (did, amounts) != ([True, False, None, True, True, False, False], [1, 1, 1, 10, 20, 30]):
        lib.fail(f"two services did {did}, and there are the amounts {amounts}")


# The page, and the kills


def lay_out(place):
    """A folder like a release's, with the library, its header and the clients: None where there is no C compiler, or no ar."""
    release = place / "release"
    (release / "lib").mkdir(parents=True)
    (release / "include").mkdir()
    if sys.argv[2:]:
        made = [shutil.copy(pathlib.Path(sys.argv[2]) / name, release / "lib") for name in ("libtd.a", "libtd.so")]
    else:
        made = loaded("build", lib.ROOT / "build").link_library(ARCHIVE, release / "lib")
    shutil.copy(lib.ROOT / "clients/c/td.h", release / "include")
    shutil.copytree(lib.ROOT / "clients", release / "clients", ignore=shutil.ignore_patterns("target", "Cargo.lock", "__pycache__"))
    return release if made and shutil.which("cc") else None


def run_page(release, folder):
    """Runs the commands of docs/LIBRARY.md in an empty folder, as they stand; those in Rust where there is a cargo."""
    for part in re.split("(?m)^### ", (lib.ROOT / "docs/LIBRARY.md").read_text())[1:]:
        if part.startswith("In Rust\n") and not shutil.which("cargo"):
            continue
        for command, lines in commands_in(part):
            done = subprocess.run(["sh", "-c", command], stdin=subprocess.DEVNULL, stdout=subprocess.PIPE, stderr=subprocess.STDOUT, text=True, cwd=folder,
                                  env={**os.environ, "RELEASE": str(release)})
            if done.stdout != "".join(f"{line}\n" for line in lines):
                lib.fail(f"docs/LIBRARY.md: {command}: it prints {done.stdout!r}, and not {lines}")


def compare_with_batch(task):
    """What is computed here for the requests is what `td batch` computes."""
    lib.built(lib.TD)
    records = "".join(text.partition("\n")[2] for text in task.texts)
    wanted = [f"{at} {vertex} {key} {value}" for at, outputs in enumerate(task.outputs) for _, vertex, key, value in outputs]
    if lib.td("batch", text=f"{PLAN}--\n{records}") != wanted:
        lib.fail("td batch has other outputs than are computed here")


def seconds_alone(folder, task, way):
    """The seconds that a service takes for all requests, where nothing kills it."""
    with lib.folder(within=folder) as place:
        alone = Round(place, task, way)
        begun = time.monotonic()
        alone.start(1)
        alone.wait()
        seconds = time.monotonic() - begun
        alone.check_end()
    return seconds


def kill_rounds(folder, task, way, made):
    """Kills round after round, until there were so many kills: how many rounds there were, and how many kills before the first request."""
    kills, rounds, early = 0, 0, 0
    longest = min(seconds_alone(folder, task, way) for _ in range(3))
    while kills < KILLS:
        rounds += 1
        with lib.folder(within=folder) as place:
            here = Round(place, task, way)
            for _ in range(min(KILLS_OF_A_ROUND, KILLS - kills)):
                here.start(made.randint(1, here.answered + 1))
                time.sleep(made.random() * longest * 3 / 4)
                is_killed = here.kill()
                kills, early = kills + is_killed, early + (here.check() == 0)
                if not is_killed:
                    break
            here.start(here.answered + 1, is_last=True)
            here.check_end()
    return rounds, early


def kill_all(folder, ways, made):
    """Kills the services of each way: what happened."""
    task = Task(made)
    compare_with_batch(task)
    for name, way in ways.items():
        (folder / name).mkdir()
        rounds, early = kill_rounds(folder / name, task, way, made)
        amid = f", {way.lacking} before all outputs of a request were in their file" if isinstance(way, InFiles) else ""
        yield f"{name}: {KILLS} kills, {KILLS - early} of them amid its requests{amid}, in {rounds} rounds of {REQUESTS} requests"


def main():
    if not sys.argv[2:] and not ARCHIVE.is_file():
        return lib.skip(f"no {ARCHIVE.relative_to(lib.ROOT)}: cd crates/td_c && rt lib")
    with lib.folder() as place, lib.folder(in_memory=True) as folder:
        release, here = lay_out(place), place / "empty"
        if release is None:
            return lib.skip("no C compiler, or no ar")
        here.mkdir()
        run_page(release, here)
        library = release / "lib/libtd.so"
        programs = [it for it in (here / "by_c", here / "by_rust") if it.is_file()]
        plays = [(play_in_database, library), *((play_one, it) for it in programs for play_one in (play_in_files, compare_calls))]
        for number, (play_one, service) in enumerate(plays):
            (folder / f"play {number}").mkdir()
            play_one(folder / f"play {number}", service)
        add_to_balances(folder, library)
        ways = {"Python": InDatabase(library)}
        ways.update((name, InFiles(program, last)) for name, program, last in zip(("C", "Rust"), programs, programs[::-1]))
        told = "; ".join(kill_all(folder, ways, random.Random(SEED)))
    print(f"each output is stored once. {told} (seed {SEED})")


main()
