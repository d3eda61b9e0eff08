#!/usr/bin/env python3
"""Counts the instructions, the syncs and the reads of an epoch, and the reads of a full journal, since no contract speaks of cost, and a clock says something
else each day.

    tests/counts.py [--all] [TD]        needs crates/td/out/td (see the README), or the program that is named; valgrind, or a `perf` that
                                        counts instructions; and strace. What the machine lacks is said, and is no failure

What an epoch costs is the difference of two runs, one of as many epochs as stand below and one of twice as many: so what a start, a recovery and an end cost
counts for nothing. Each case compares an epoch of two inputs, and the second may cost only so many times the first. The instructions are those of the whole
process, all threads, without the kernel's. Syncs are counted exactly. Of what is read the bytes count.

A case whose name stands in NOT_YET_HELD is wanted and was above its bound when it was written: `--all` alone counts it, and then it fails as the others do.
To hold a case is to take its line out there.

A case that is above its bound has a line of its own that says so, and the status is 1."""

import concurrent.futures
import os
import pathlib
import re
import resource
import shutil
import subprocess
import sys
import threading
from typing import NamedTuple

import lib
from lib import TOTAL

SECONDS = 300
EPOCH = "0 7 1\n.\n"


def loop(bound, step):
    """A plan with a loop of a bound, round which goes what a map sends of each record."""
    return f"0 input\nloop {bound}\n1 enter 0\n2 feedback 3\n3 map {step} 1 2\n4 leave 3\nend\n5 output 4\n"


def readers(count):
    """A plan with a total, whose input so many maps read as well; nobody reads these, and they send nothing of an odd value."""
    return "0 input\n" + "".join(f"{number} map 3 0\n" for number in range(1, count + 1)) + f"{count + 1} fold 40 0\n{count + 2} output {count + 1}\n"


def keys(count, records):
    """Epochs with a record of each of so many keys."""
    lines = [f"0 {key} 1\n" for key in range(count)]
    return "".join("".join(lines[at:at + records]) + ".\n" for at in range(0, count, records))


class Piped(NamedTuple):
    """Epochs of a command that reads all of standard input, and what stands before them."""

    command: str
    plan: str
    epoch: str = EPOCH
    before: str = ""
    epochs: int = 20


class Awaited(NamedTuple):
    """Epochs of `td stream` whose producer waits for the lines of each, on a disk of a shape, to which something was fed."""

    fed: str
    shape: tuple = (16, 4096, 20_480)
    epochs: int = 8
    workers: int = 1


class Fed(NamedTuple):
    """Epochs of `td feed` on a disk of a shape, to which something was fed."""

    shape: tuple
    epochs: int
    fed: str = ""


class Case(NamedTuple):
    """An epoch of two inputs: how many times as many instructions the second may take."""

    few: tuple
    many: tuple
    most: float


# The keys of a disk, and how many records one of its cells has.
RECORDS = 16
# Of the map in a loop: one sends each record, so that it goes round up to the bound; the other those with an even value alone.
EACH, EVEN = 2, 3
# Two inputs of which the second is read by nobody: by its records a run's cut is due.
TWO = "0 input\n1 input\n2 fold 40 0\n3 output 2\n"
UNREAD = "1 7 1\n"
STATES = keys(2_000, 2_000)

CASES = {
    "td batch, a loop of bound 10 and of 1,000 from which nothing returns": Case(Piped("batch", loop(10, EVEN)), Piped("batch", loop(1_000, EVEN)), 1.5),
    "td run, a loop of bound 10 and of 1,000 from which nothing returns": Case(Piped("run", loop(10, EVEN)), Piped("run", loop(1_000, EVEN)), 1.5),
    "td batch, a record that goes 10 and 40 times round a loop": Case(Piped("batch", loop(10, EACH)), Piped("batch", loop(40, EACH)), 6),
    "td run, a record that goes 10 and 40 times round a loop": Case(Piped("run", loop(10, EACH)), Piped("run", loop(40, EACH)), 6),
    "td batch, after 10 and after 1,000 epochs": Case(Piped("batch", TOTAL, before=10 * EPOCH, epochs=100), Piped("batch", TOTAL, before=1_000 * EPOCH, epochs=100), 1.3),
    "td run, after 10 and after 1,000 epochs": Case(Piped("run", TOTAL, before=10 * EPOCH, epochs=100), Piped("run", TOTAL, before=1_000 * EPOCH, epochs=100), 1.3),
    "td run, 2,000 states, before its first cut and after it": Case(Piped("run", TWO, before=STATES), Piped("run", TWO, before=STATES + 66_000 * UNREAD + ".\n"), 1.5),
    "td run, 8 and 60 readers of an input": Case(Piped("run", readers(8)), Piped("run", readers(60)), 60 / 8 * 1.5),
    "td stream, 10 and 20,000 kept keys": Case(Awaited(keys(10, RECORDS) + "cut\n"), Awaited(keys(20_000, RECORDS) + "cut\n"), 1.5),
    "td stream, 10 and 2,000 epochs since the last cut": Case(Awaited(10 * EPOCH), Awaited(2_000 * EPOCH), 1.5),
    "td stream, three workers, 10 and 20,000 kept keys": Case(Awaited(keys(10, RECORDS) + "cut\n", workers=3), Awaited(keys(20_000, RECORDS) + "cut\n", workers=3), 1.5),
    "td stream, three workers, 10 and 2,000 epochs since the last cut": Case(Awaited(10 * EPOCH, workers=3), Awaited(2_000 * EPOCH, workers=3), 1.5),
}
# Those that are not counted yet, one line each.
NOT_YET_HELD = set()
# Epochs, and how many syncs they take exactly. An epoch takes two, since the one before closed its cell ahead; where that is open from the last round, as after a
# start and after a full ring, it takes three. A cut takes three, and a stream closes the freed cells that come next with one more. A feed puts 256 epochs as a group,
# by two.
SYNCS = {
    "td stream, 100 epochs, on a ring that was never full": (Awaited("", (1, 1_000, 8), 100), 200),
    "td stream, 100 epochs, on a ring that has come round": (Awaited(250 * EPOCH + "cut\n", (1, 250, 8), 100), 200),
    "td stream, 100 epochs, a cut at each 10, where the ring is full": (Awaited(3 * (10 * EPOCH + "cut\n"), (1, 10, 8), 100), 240),
    "td feed, 256 epochs at once": (Fed((1, 1_000, 8), 256), 2),
    "td feed, 256 epochs behind as many, on a ring that has come round": (Fed((1, 512, 8), 256, 512 * EPOCH + "cut\n"), 2),
}
# Epochs, and how many bytes they read at most: of one three gates, and the number in the cell behind it.
READS = {
    "td stream, 100 epochs, on a ring that has come round": (Awaited(250 * EPOCH + "cut\n", (1, 250, 8), 100), 100 * (3 + 8)),
    "td feed, 256 epochs behind as many, on a ring that has come round": (Fed((1, 512, 8), 256, 512 * EPOCH + "cut\n"), 3 + 8),
}
# Journals that are full, by the records and the number of their cells: how many times its file `td show` may read of one.
FULL = ((1, 65_536), (16, 16_384), (150, 1_024), (169, 1_024), (1_000, 256))
MOST_READ = 1.1


def run(command, talk):
    """Runs a command to its end, its input and output left to `talk`; the script ends where it does not end well."""
    child = subprocess.Popen(command, stdin=subprocess.PIPE, stdout=subprocess.PIPE, stderr=subprocess.PIPE)
    limit = threading.Timer(SECONDS, child.kill)
    limit.start()
    try:
        is_whole = talk(child)
    except BrokenPipeError:
        is_whole = False
    error = child.communicate()[1]
    limit.cancel()
    if child.returncode != 0 or not is_whole:
        lib.fail(f"{' '.join(map(str, command))} ended with status {child.returncode}: {error.decode(errors='replace')[-500:]}")


class Counter(NamedTuple):
    """What counts instructions: the words before those of a command, FILE for where it writes, and how its figure is read there."""

    words: tuple
    figure: str

    def count(self, command, talk, folder):
        """The instructions of a command, or 0 where the figure does not stand there."""
        run([word.replace("FILE", f"{folder}/figure") for word in self.words] + command, talk)
        found = re.search(self.figure, (folder / "figure").read_text(errors="replace"), re.M)
        return int(found[1].replace(",", "")) if found else 0

    def is_here(self):
        """Whether it counts anything on this machine."""
        with lib.folder(in_memory=True) as folder:
            return bool(shutil.which(self.words[0])) and self.count(["true"], give(""), folder) > 0


VALGRIND = Counter(("valgrind", "--tool=cachegrind", "--cache-sim=no", "--cachegrind-out-file=/dev/null", "--log-file=FILE"), r"I +refs: +([\d,]+)")
PERF = Counter(("perf", "stat", "-x", ";", "-o", "FILE", "-e", "instructions:u"), r"^(\d+);")
STRACE = ["strace", "-f", "-qq", "-e", "signal=none", "-e", "trace=fsync,fdatasync", "-o"]
TRACE_READS = ["strace", "-f", "-qq", "-e", "signal=none", "-e", "trace=pread64", "-o"]


def wait_for_each(count):
    """A producer of so many epochs, that sends each once the lines of the one before have come, and tells whether all have come."""
    def talk(child):
        for _ in range(count):
            child.stdin.write(EPOCH.encode())
            child.stdin.flush()
            while not (line := child.stdout.readline()).startswith(b"ack "):
                if not line:
                    return False
            if not child.stdout.readline():
                return False
        return True
    return talk


def give(text):
    """A producer that gives all of a text, while what comes is taken, and tells that all was given."""
    def talk(child):
        taker = threading.Thread(target=child.stdout.read)
        taker.start()
        try:
            child.stdin.write(text.encode())
            child.stdin.close()
        finally:
            child.stdin = None
            taker.join()
        return True
    return talk


def command_of(td, work, count, folder):
    """The command of so many epochs, with its disk made where it has one, and what talks to it."""
    if isinstance(work, Piped):
        return [td, work.command], give(f"{work.plan}--\n{work.before}{work.epoch * count}")
    (folder / "plan").write_text(TOTAL)
    disk = [folder / "disk", folder / "plan"]
    subprocess.run([td, "format", *disk, *map(str, work.shape)], check=True)
    subprocess.run([td, "feed", *disk], input=work.fed, text=True, stdout=subprocess.DEVNULL, check=True)
    if isinstance(work, Fed):
        return [td, "feed", *disk], give(EPOCH * count)
    return [td, "stream", *disk, "--workers", str(work.workers)], wait_for_each(count)


def instructions(counter, td, work, count):
    """The instructions of so many epochs, with all that is before and behind them."""
    with lib.folder(in_memory=True) as folder:
        return counter.count(*command_of(td, work, count, folder), folder)


def syncs(td, work, count):
    """The syncs of so many epochs, with those before and behind them."""
    with lib.folder(in_memory=True) as folder:
        command, talk = command_of(td, work, count, folder)
        run([*STRACE, folder / "calls", *command], talk)
        return len(re.findall(r"\bf(?:data)?sync\(", (folder / "calls").read_text()))


def bytes_read(folder, command, talk):
    """The bytes that a command reads at places of files: of its disk alone."""
    run([*TRACE_READS, folder / "calls", *command], talk)
    return sum(map(int, re.findall(r"(?m)\bpread64.* = (\d+)$", (folder / "calls").read_text())))


def reads(td, work, count):
    """The bytes that so many epochs read, with those before and behind them."""
    with lib.folder(in_memory=True) as folder:
        return bytes_read(folder, *command_of(td, work, count, folder))


def shown(td, m, n):
    """How many times its file `td show` reads of a full journal."""
    with lib.folder(in_memory=True) as folder:
        command_of(td, Fed((m, n, 8), n, n * EPOCH), n, folder)
        read = bytes_read(folder, [td, "show", folder / "disk", folder / "plan"], give(""))
        return read / (folder / "disk").stat().st_size


def difference(pool, count, work):
    """What as many epochs cost as stand in a work: twice as many, less these; known once both have been counted."""
    once, twice = (pool.submit(count, work, times * work.epochs) for times in (1, 2))
    return lambda: twice.result() - once.result()


def count_instructions(td, names, pool):
    """Counts an epoch of each input of the cases, writes a line for each, and answers how many are above their bound."""
    counter = next((it for it in (VALGRIND, PERF) if it.is_here()), None)
    if counter is None:
        lib.skip("the instructions of counts, since there is no valgrind, and no perf that counts them")
        return 0
    wrong = 0
    found = {name: [difference(pool, lambda *run: instructions(counter, td, *run), work) for work in CASES[name][:2]] for name in names}
    for name, each in found.items():
        few, many = (total() / work.epochs for total, work in zip(each, CASES[name]))
        is_above = few <= 0 or many > CASES[name].most * few
        print(f"{name}: {few:,.0f} and {many:,.0f} instructions an epoch, {many / max(few, 1):.2f} times, {CASES[name].most:g} at most{', TOO MANY' if is_above else ''}", flush=True)
        wrong += is_above
    return wrong


def count_syncs(td, names, pool):
    """Counts the syncs, writes a line for each case, and answers in how many they are others."""
    if not lib.is_traced():
        lib.skip("the syncs of counts, since there is no strace that may trace here")
        return 0
    wrong = 0
    found = {name: difference(pool, lambda *run: syncs(td, *run), SYNCS[name][0]) for name in names}
    for name, total in found.items():
        got, wanted = total(), SYNCS[name][1]
        print(f"{name}: {got} syncs{'' if got == wanted else f', WRONG: {wanted} were to be'}", flush=True)
        wrong += got != wanted
    return wrong


def count_reads(td, pool):
    """Counts what is read, writes a line for each case, and answers how many are above their bound."""
    if not lib.is_traced():
        lib.skip("the reads of counts, since there is no strace that may trace here")
        return 0
    wrong = 0
    found = {name: difference(pool, lambda *run: reads(td, *run), work) for name, (work, _) in READS.items()}
    journals = [pool.submit(shown, td, *shape) for shape in FULL]
    for name, total in found.items():
        got, most = total(), READS[name][1]
        print(f"{name}: {got} bytes read, {most} at most{', TOO MANY' if got > most else ''}", flush=True)
        wrong += got > most
    for (m, n), journal in zip(FULL, journals):
        times = journal.result()
        print(f"td show, a full journal of {n:,} cells of {m:,} records: it reads {times:.3f} times the file, {MOST_READ:g} at most{', TOO MANY' if times > MOST_READ else ''}", flush=True)
        wrong += times > MOST_READ
    return wrong


def main():
    words = [word for word in sys.argv[1:] if word != "--all"]
    td = lib.built(pathlib.Path(words[0]).resolve() if words else lib.TD)
    waiting = set() if "--all" in sys.argv[1:] else NOT_YET_HELD
    with concurrent.futures.ThreadPoolExecutor(len(os.sched_getaffinity(0))) as pool:
        wrong = count_syncs(td, [name for name in SYNCS if name not in waiting], pool)
        wrong += count_reads(td, pool)
        wrong += count_instructions(td, [name for name in CASES if name not in waiting], pool)
    if waiting:
        print(f"not yet held, and not counted: {'; '.join(sorted(waiting))}")
    used = resource.getrusage(resource.RUSAGE_CHILDREN)
    print(f"{used.ru_utime + used.ru_stime:.0f} s of processor time")
    return 1 if wrong else 0


sys.exit(main())
