#!/usr/bin/env python3
"""Kills `td stream --marks`, with and without `--hold`, its client clients/td.py, and both at once, at 300 moments: each output is stored, once.

    tests/deliver.py [SEED [TD [CLIENT]]]       needs crates/td/out/td (see the README), or the program TD; of another client than clients/td.py

The client sends the batches of a file, and stores their outputs in a table of sqlite3. In turn its stream gets SIGKILL, the client, and both at the
same moment: most often a random while after the stream's start, of each eighth client after its own. A client that is killed alone leaves its stream
behind. The next client is started at once, until one ends. Of two plans one has outputs in few epochs, the other several in most, two of them of one
vertex and key. Disks have few cells, so that cuts are many. It is required that

- at each kill of both, what is stored of an epoch is all of it, in order, and all is stored of the epochs up to the disk's last cut;
- at the end the lines of `td batch` are stored, each once;
- at the end `td show` prints what it prints of a disk to which all was fed once: each request number was put on the disk once.

What comes when is another thing in each run, also for the same seed.

Before that the client is given a program in place of `td`, to see what it stores, and whether it starts a stream again, where a line has come in part,
after each status, and where somebody else feeds the disk. No cut may be sent there before a store has returned. And it is asked while it sends."""

import contextlib
import importlib.util
import itertools
import os
import pathlib
import random
import re
import signal
import sqlite3
import subprocess
import sys
import threading
import time

import lib

SEED = int(sys.argv[1]) if sys.argv[1:] else 1
TD = lib.built(pathlib.Path(sys.argv[2]).resolve() if sys.argv[2:] else lib.TD)
CLIENT = pathlib.Path(sys.argv[3]).resolve() if sys.argv[3:] else lib.ROOT / "clients/td.py"
# Totals of great values, which few epochs have; totals and counts of all, and both at one output.
PLANS = {"few": "0 input\n1 map 5085 0\n2 fold 40 1\n3 output 2\n", "most": "0 input\n1 fold 40 0\n2 group 20 0\n3 output 1\n4 output 1 2\n"}
KILLS_OF_A_PLAN, EPOCHS, RECORDS, KEYS, STATES = 150, 500, 3, 6, 64
# How many cells a round's disk has.
CELLS = (8, 2, 4, 32)
WAYS = ("the stream", "the client", "both")
# The words of a round's streams beside `--marks`.
OPTIONS = ((), ("--hold",), ("--hold", "--cut-every", "2"))
# A kill comes so long after a stream's start at most: one in so many parts of what all batches take. One client in so many is killed by its own
# start, at most so many seconds after it.
PARTS, BY_OWN_START, SECONDS_OF_A_START = 12, 8, 0.1
# So long a store takes of a client that has a program in place of `td`.
SECONDS_OF_A_STORE = 0.05
SECONDS = 60
# The status of `td dump` where another process has the disk.
LOCKED = 7
# A program in place of `td`. What its streams write, one after another, and how they end stands in files beside it: a status, or 9 for a kill.
IN_PLACE = """#!/bin/sh
cd "$(dirname "$0")"
[ $1 != dump ] || exec echo '# kept 10 told 12 last 12, epochs 2 of 64, states 1 of 64'
read at < at; echo $((at + 1)) > at
cat said$at; read status < status$at
[ $status != 0 ] || cat > read
[ $status != 9 ] || kill -9 $$
exit $status
"""
# What the last one writes, and what is stored then.
WELL, STORED = ("11 2 7 5\ndone 11\ndone 12\n", 0), [(11, [(2, 7, 5)]), (12, [])]
# What streams write, and their statuses; what is stored; and the status of the refusal, None where there is none.
CASES = {
    "a mark in part": ([("11 2 7 5\ndone 1", 9), WELL], STORED, None),
    "an output in part, and a mark that comes twice": ([("11 2 7 5\ndone 11\n1", 9), WELL], STORED[:1] + STORED, None),
    **{f"a status {status} that may pass": ([("", status), WELL], STORED, None) for status in (1, 6, 7)},
    **{f"a status {status} that does not pass": ([("11 2 7 5\n", status)], [], status) for status in (2, 3, 4, 5, 8)},
    "a status that may pass, again and again": ([("", 1)] * 4, [], 1),
    "a batch that is there already": ([("11 2 7 5\ndone 11\ndone 12\nagain 13\n", 0)], STORED, 4),
    "an epoch of somebody else": ([("11 2 7 5\ndone 11\ndone 12\nack 14\n", 0)], STORED, 4),
}


def td(*words, text=""):
    """The lines that `td` prints, once no process that was killed or left behind has the disk; the script ends where it is refused."""
    end = time.monotonic() + SECONDS
    while True:
        done = subprocess.run([TD, *map(str, words)], input=text, capture_output=True, text=True)
        if done.returncode != LOCKED or time.monotonic() > end:
            break
        time.sleep(0.005)
    if done.returncode != 0:
        lib.fail(f"td {' '.join(map(str, words))}: status {done.returncode}: {done.stderr}")
    return done.stdout.splitlines()


def by_epoch(lines):
    """The lines of each epoch that has some, in order."""
    return {epoch: list(each) for epoch, each in itertools.groupby(lines, lambda line: int(line.split()[0]))}


class Task:
    """Batches of a plan, and what must come of them."""

    def __init__(self, folder, which, made):
        self.plan, self.batches, once = folder / "plan", folder / "batches", folder / "once"
        epochs = [[f"0 {made.randrange(KEYS)} {made.randrange(-9, 99)}" for _ in range(made.randrange(RECORDS + 1))] + ["."] for _ in range(EPOCHS)]
        numbered = [line for number, lines in enumerate(epochs, 1) for line in (f"req {number + number // 3}", *lines)]
        self.plan.write_text(PLANS[which])
        self.batches.write_text("".join(f"{line}\n" for line in numbered))
        self.outputs = by_epoch(td("batch", text=PLANS[which] + "--\n" + "".join(f"{line}\n" for lines in epochs for line in lines)))
        td("format", once, self.plan, RECORDS, EPOCHS, STATES)
        td("feed", once, self.plan, text=self.batches.read_text() + "cut\n")
        self.shown = td("show", once, self.plan)
        has_twice = any(len({line.rsplit(" ", 1)[0] for line in lines}) < len(lines) for lines in self.outputs.values())
        if not self.outputs or (2 * len(self.outputs) < EPOCHS, has_twice) != (which == "few", which == "most"):
            lib.fail(f"{which}: {len(self.outputs)} of {EPOCHS} epochs have outputs; two of one vertex and key: {has_twice}")


def client_module():
    spec = importlib.util.spec_from_file_location("client", CLIENT)
    client = importlib.util.module_from_spec(spec)
    spec.loader.exec_module(client)
    return client


def play_refused(folder):
    """Has the client pass over batches with a fault; the script ends where it stores other outputs, or is told of other batches."""
    batches = [(1, [(0, 7, 5)]), (2, [(0, 7, 1), (9, 7, 1)]), (3, [(0, 7, 2 ** 63)]), (5, [(0, 8, 1)]), (6, [(0, 7, 1)] * (RECORDS + 1)), (7, [(0, 7, -1)])]
    (folder / "plan").write_text(PLANS["most"])
    stored, refused, client = [], [], client_module()

    def run(name, **more):
        td("format", folder / name, folder / "plan", RECORDS, 2, STATES)
        source = lambda first: iter([batch for batch in batches if batch[0] >= first])
        client.Client(folder / name, folder / "plan", source, lambda *epoch: stored.append(epoch), TD, **more).run()

    # (the number of a line hangs on where the client cut)
    run("disk", refused=lambda number, why: refused.append((number, why.partition(": ")[2])))
    wanted = [(1, [(3, 7, 5), (4, 7, 1), (4, 7, 5)]), (2, [(3, 8, 1), (4, 8, 1), (4, 8, 1)]), (3, [(3, 7, 4), (4, 7, 1), (4, 7, 4)])]
    passed_over = [(2, "no such input: 9 7 1"), (3, "number too large: 0 7 9223372036854775808"), (6, "too many records: 0 7 1")]
    if (stored, refused) != (wanted, passed_over):
        lib.fail(f"batches with a fault: stored {stored}, refused {refused}")
    try:
        run("other", options=("--refuse",))
        lib.fail("a client that is to pass over nothing passed over a batch")
    except client.Stopped as stop:
        if stop.status != 5:
            lib.fail(f"a batch with a fault ended the client with status {stop.status}: {stop}")


def play_asked(folder):
    """Asks a client's stream while it sends; the script ends where an answer is not that of the epochs up to its own."""
    (folder / "plan").write_text(lib.TOTAL)
    td("format", folder / "asked", folder / "plan", RECORDS, 4, STATES)
    answers, is_asked, client = [], threading.Event(), client_module()

    def source(first):
        for number in range(first, EPOCHS):
            # (the last ones wait for some answers)
            is_asked.wait(SECONDS if number > EPOCHS // 2 else 0)
            yield number, [(0, number % KEYS, 1)]

    asked = client.Client(folder / "asked", folder / "plan", source, lambda *epoch: None, TD, options=("--ask",))

    def ask():
        with contextlib.suppress(client.Stopped):
            while True:
                answers.append(asked.ask("list 1"))
                if len(answers) > KEYS:
                    is_asked.set()

    asker = threading.Thread(target=ask)
    asker.start()
    asked.run()
    asker.join()
    for epoch, states in answers:
        counts = [len([number for number in range(1, epoch + 1) if number % KEYS == key]) for key in range(KEYS)]
        if states != [(1, key, count, count) for key, count in enumerate(counts) if count]:
            lib.fail(f"list 1 was answered after epoch {epoch} by {states}")
    if len(answers) <= KEYS or [epoch for epoch, _ in answers] != sorted(epoch for epoch, _ in answers):
        lib.fail(f"the client answered {len(answers)} questions, of the epochs {[epoch for epoch, _ in answers]}")


def play_cases(folder):
    """Has the client work with a program in place of `td`; the script ends where it stores other outputs, or ends otherwise."""
    client = client_module()
    program = folder / "program"
    program.write_text(IN_PLACE)
    program.chmod(0o755)
    for name, (streams, wanted, refusal) in CASES.items():
        for at, (said, status) in enumerate(streams):
            (folder / f"said{at}").write_text(said)
            (folder / f"status{at}").write_text(f"{status}\n")
        (folder / "at").write_text("0\n")
        (folder / "read").write_text("")
        stored, ended = [], None

        def store(epoch, outputs):
            # A cut may come when this has returned, and no earlier.
            time.sleep(SECONDS_OF_A_STORE)
            stored.append((epoch, outputs, *(folder / "read").read_text().split()))

        try:
            client.Client(folder / "disk", "plan", lambda first: iter(()), store, program, tries=3).run()
        except client.Stopped as stop:
            ended = stop.status
        starts = int((folder / "at").read_text())
        if (stored, ended, starts) != (wanted, refusal, len(streams)):
            lib.fail(f"{name}: after {starts} streams the client ended with {ended}, and stored {stored}")


class Round:
    """A fresh disk and table, and the clients that are started there one after another."""

    def __init__(self, folder, task, cells, options=()):
        self.options = options
        self.task, self.disk, self.table, self.errors = task, folder / "disk", folder / "table", folder / "errors"
        self.table.unlink(missing_ok=True)
        td("format", self.disk, task.plan, RECORDS, cells, STATES)
        self.start()

    def start(self):
        words = [sys.executable, "-B", CLIENT, self.disk, self.task.plan, self.task.batches, self.table, TD, *self.options]
        with open(self.errors, "a") as errors:
            self.client = subprocess.Popen(words, stdin=subprocess.DEVNULL, stdout=errors, stderr=errors, start_new_session=True)

    def stream(self):
        """The process of the client's stream, once it is there; None where the client has ended."""
        end = time.monotonic() + SECONDS
        while self.client.poll() is None:
            for pid in children_of(self.client.pid):
                if b"\0stream\0" in bytes_of(f"/proc/{pid}/cmdline"):
                    return pid
            if time.monotonic() > end:
                lib.fail(f"no stream was started in {SECONDS} s: {self.errors.read_text()[-2000:]}")
            time.sleep(0.002)
        return None

    def kill(self, way):
        """Kills the stream, the client or both: whether what is killed was there."""
        if way == "the stream":
            pid = self.stream()
            return pid is not None and is_sent(os.kill, pid)
        if self.client.poll() is not None:
            return False
        is_sent(os.killpg if way == "both" else os.kill, self.client.pid)
        return self.client.wait() < 0

    def stored(self):
        """The lines of each epoch of which the table has some, in order."""
        with contextlib.closing(sqlite3.connect(self.table)) as table:
            if not table.execute("select name from sqlite_master").fetchall():
                return {}
            return by_epoch(" ".join(map(str, row)) for row in table.execute("select epoch, vertex, key, value from outputs order by epoch, place"))

    def check_cut(self):
        """What is stored of an epoch is all of it, and all is stored up to the last cut."""
        stored, wanted = self.stored(), self.task.outputs
        kept = int(re.match(r"# kept (\d+) ", td("dump", self.disk, self.task.plan)[0])[1])
        for epoch in sorted({*stored, *(epoch for epoch in wanted if epoch <= kept)}):
            if stored.get(epoch) != wanted.get(epoch):
                lib.fail(f"with a cut at {kept}, of epoch {epoch} is stored {stored.get(epoch)}, and not {wanted.get(epoch)}")

    def check_end(self):
        """Each output is stored, and each batch is on the disk, once."""
        if self.client.wait(SECONDS) != 0:
            lib.fail(f"a client ended with status {self.client.returncode}: {self.errors.read_text()[-2000:]}")
        stored, wanted = self.stored(), self.task.outputs
        wrong = [epoch for epoch in sorted({*stored, *wanted}) if stored.get(epoch) != wanted.get(epoch)]
        if wrong:
            lib.fail(f"of {len(wrong)} epochs others are stored: of {wrong[0]} {stored.get(wrong[0])}, and not {wanted.get(wrong[0])}")
        shown = td("show", self.disk, self.task.plan)
        if shown != self.task.shown:
            lib.fail(f"the disk shows {shown}, and not {self.task.shown}")


def bytes_of(path):
    """What such a file of a process has; nothing where that has ended."""
    try:
        return pathlib.Path(path).read_bytes()
    except OSError:
        return b""


def children_of(pid):
    return [int(word) for word in bytes_of(f"/proc/{pid}/task/{pid}/children").split()]


def is_sent(kill, pid):
    """Whether there was somebody to kill."""
    try:
        kill(pid, signal.SIGKILL)
    except ProcessLookupError:
        return False
    return True


def seconds_of(folder, task):
    """How long a stream of all batches takes that is not killed."""
    alone = Round(folder, task, CELLS[0])
    alone.stream()
    begun = time.monotonic()
    alone.check_end()
    return time.monotonic() - begun


def kill_next(here, way, longest, made):
    """Kills after a while: whether what is killed was there. A client that was killed is started again."""
    if way != "the stream" and made.randrange(BY_OWN_START) == 0:
        time.sleep(made.random() * SECONDS_OF_A_START)
    else:
        here.stream()
        time.sleep(made.random() * longest)
    if not here.kill(way):
        return False
    if way == "both":
        here.check_cut()
    if way != "the stream":
        here.start()
    return True


def kill_rounds(folder, which, made):
    """Kills round after round, until there were so many kills: how many rounds there were."""
    task = Task(folder, which, made)
    longest = seconds_of(folder, task) / PARTS
    kills = rounds = 0
    while kills < KILLS_OF_A_PLAN:
        here = Round(folder, task, CELLS[rounds % len(CELLS)], OPTIONS[rounds % len(OPTIONS)])
        rounds += 1
        try:
            while kills < KILLS_OF_A_PLAN and kill_next(here, WAYS[kills % len(WAYS)], longest, made):
                kills += 1
            here.check_end()
        finally:
            here.kill("both")
    return rounds


def main():
    if not pathlib.Path(f"/proc/{os.getpid()}/task/{os.getpid()}/children").exists():
        return lib.skip("this system does not list a process's children")
    with lib.folder() as folder:
        play_cases(folder)
        play_refused(folder)
        play_asked(folder)
    print(f"{len(CASES)} cases with a program in place of td, and batches with a fault: as they should be")
    made = random.Random(SEED)
    for which in PLANS:
        with lib.folder(in_memory=True) as folder:
            rounds = kill_rounds(folder, which, made)
        print(f"outputs in {which} epochs: {KILLS_OF_A_PLAN} kills of the stream, the client and both, in {rounds} rounds of {EPOCHS} epochs: each output "
              f"is stored once, and each batch is on the disk once (seed {SEED})")


main()
