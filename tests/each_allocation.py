#!/usr/bin/env python3
"""Runs `td` with each of its allocations refused in turn, alone and with all that follow.

    tests/each_allocation.py [FILE..]       needs crates/td/out/td (see the README) and a C compiler

It runs `td batch`, `run` and `sim` on the files, by default on the small examples, and then `td help` and words that do not parse.
Each run must answer as with ample memory, or write nothing to standard output, `td: memory` to standard error, and end with
status 1.

Without files it also runs the commands on disks and plans, and with closures in text: `batch`, `run`, `plan`, `plan --dot`, `format`, `show`, `dump`, `copy`, `upgrade`, `feed` and `stream`. Each
answers as with ample memory, or as above; a feed or a stream, which may have written a beginning of its lines, then left a disk that tells what these
say, and the others one that tells what it told, or what they would make of it. A format that writes over a disk may leave none.

Then it runs `engine_steps` and `feed_steps` on their rows (rows/steps.txt and rows/pointstamps.txt, and those of rows/keeper.txt,
rows/groups.txt, rows/requests.txt, rows/threads.txt and rows/feeds.txt whose disk does not stop or fail), where a call that was refused is made once
more. Each run must then answer as the row says, but for a line `refused: memory`; or, where the program itself lacked memory before the first
call, end with status 1 and no answer.
Where a feed was refused, which is not made once more, or the disk in memory could not grow its record of calls and failed, the
run is made again up to there, and a recovery must then tell at least what was acknowledged. A feed and a drive have workers in
threads, so that no two runs make their allocations in one order: in rows with them each, and each recovery, is followed by two
recoveries in the same run, of which one may be refused. Where a drive or one of its workers was refused, the hall may be gone, and the run then
ends as one that has none. A row whose workers wait for one another at the gate is left out: one would wait ten seconds and more
for another that was refused. Each run must end within 30 seconds.

A feed that was refused must have written a beginning of what it writes otherwise, outputs by themselves and all other lines by themselves, since groups
may be smaller; nothing stands behind its refusal, and the recovery tells what it acknowledged, handed out and cut. What no feed may write stands in
this script too, and each run of it first sees that these doctored feeds are refused."""

import concurrent.futures
import functools
import os
import pathlib
import re
import subprocess
import sys

import lib
import rows
from gate import program_of
from lib import FEEDS, ROOT, STEPS, TD

ROWS = ("rows/steps.txt", "rows/pointstamps.txt", "rows/keeper.txt", "rows/groups.txt", "rows/requests.txt", "rows/threads.txt", "rows/feeds.txt")
# (a larger one makes thousands of allocations, and as many runs)
EXAMPLES = [file for file in sorted((ROOT / "examples").glob("*.td")) if file.stat().st_size < 1000]
REFUSED = (1, b"", b"td: memory\n")
# What these programs print for a call that is made once more, and how it ends where there was none to make again.
AGAIN = b"refused: memory"
BEFORE = (1, b"", b"Error: Memory\n")
# What they print where the disk in memory could not grow its record.
FAILED = b"refused: device"
# What they print of a drive's command that was refused, or of a worker that was.
REFUSED_IN_DRIVE = re.compile(rb"(worker \d+ )?refused: memory(, back came.*)?")
# How they end where the hall is gone with a drive that was refused, and where the disk failed as it was formatted.
ENDS_EARLY = ((1, b"Error: NoHall\n"), (1, b"Error: NoKeeper\n"))
# Commands of rows that are not run: those of disks that stop or fail by themselves, and of workers that wait at the gate.
LEFT_OUT = re.compile(rb"(?m)^(stop|fail|crash) |^drive meet$")
# Commands after which another disk is there, or other bytes on it.
OTHER_DISK = (b"format", b"blank", b"byte", b"size")
# Those that have workers in threads.
WITH_WORKERS = (b"feed ", b"meet ", b"drive ")
# Those of them that write what `td feed` writes; and what a map adds whose calls have met.
FEEDINGS = (b"feed ", b"meet ")
MET = b"met"
SAID = (b"ack ", b"again ", b"cut ")
# Those that two recoveries follow, of which one may be refused, in rows with workers.
FOLLOWED = (*WITH_WORKERS, b"recover\n")
# The plans of the commands on files: a running total, and one with a loop.
TOTAL = lib.TOTAL.encode()
LOOP = b"# a countdown\n0 input\nloop 3\n1 enter 0\n2 feedback 3\n3 map 2 1 2\n4 leave 3\nend\n5 output 4\n"
# Closures in text, and a plan that has them.
CLOSURES = b"map 10000 # twice\n  send key, val * 2 when val > 0\nfold 10001\n  let n = 0\n  item n = n + 1, a = a + val\n  send key, a / n\n"
CALLING = b"0 input\n1 map 10000 0\n2 fold 10001 1\n3 output 2\n"
# How their disk is made, one command after another.
MADE = [
    ("format disk plan 4 3 3", b""),
    ("feed disk plan", b"0 7 5\n.\ncut\n0 7 -2\n0 8 1\n.\n"),
    ("upgrade disk plan", b""),
]
# The same with closures in text of its own.
MADE_WITH_CLOSURES = [(MADE[0][0] + " --closures closures", b""), *MADE[1:]]
# What they are: their words, their input, and which commands come before.
ON_FILES = [
    ("plan loop", b"", []),
    ("plan loop --dot", b"", []),
    ("plan written --closures closures", b"", []),
    ("plan written --closures closures --dot", b"", []),
    ("batch --closures closures", CALLING + b"--\n0 7 5\n0 7 -2\n.\n0 7 1\n.\n", []),
    ("run --workers 2 --closures closures", CALLING + b"--\n0 7 5\n0 7 -2\n.\n0 7 1\n.\n", []),
    ("format disk plan 4 3 3", b"", []),
    ("format disk plan 4 3 3 --closures closures", b"", []),
    ("format disk plan 4 3 3", b"", MADE_WITH_CLOSURES[:2]),
    ("show disk plan", b"", MADE[:2]),
    ("dump disk plan", b"", MADE[:2]),
    ("show disk plan --live", b"", MADE[:2]),
    ("dump disk plan --live", b"", MADE[:2]),
    ("dump disk plan --at", b"", MADE[:2]),
    ("copy disk plan new 5 4 3", b"", MADE[:2]),
    ("copy disk plan new 5 4 3", b"", MADE_WITH_CLOSURES[:2]),
    ("states disk plan", b"", MADE[:2]),
    ("load new plan 5 4 3", b"kept 1\nlast 2\nstate 1 7 5 1\n", MADE[:2]),
    ("load new plan 5 4 3 --map 2=1,3=1 --closures closures", b"kept 1\nstate 2 7 5 1\nstate 3 8 5 1\n", MADE[:2]),
    ("upgrade disk plan", b"", MADE[:2]),
    ("feed disk plan", b"0 9 4\n.\n0 9 4\n.\ncut\n0 7 1\n0 8 1\n.\n", MADE[:2]),
    ("feed disk plan", b"0 9 4\n.\ncut\n0 7 1\n.\n", MADE_WITH_CLOSURES[:2]),
    ("feed disk plan", b"req 3\n0 9 4\n.\nreq 3\n0 9 4\n.\ncut\nreq 4\n0 7 1\n0 8 1\n.\n", MADE),
    ("stream disk plan", b"0 9 4\n.\ncut\n0 7 1\n.\n", MADE_WITH_CLOSURES[:2]),
    ("stream disk plan --workers 2 --cut-every 2", b"req 3\n0 9 4\n.\nreq 4\n.\nreq 4\n0 9 4\n.\ncut\nreq 5\n0 7 1\n0 8 1\n.\n", MADE),
    ("stream disk plan --refuse", b"req 3\n0 9 4\n.\nreq 4\n0 9\n.\n0 9 4\n0 9\n.\nreq 5\n0 7 1\n0 8 1\n.\n", MADE),
    ("stream disk plan --marks", b"req 3\n0 9 4\n.\nreq 4\n.\nreq 4\n.\ncut\nreq 5\n0 7 1\n0 8 1\n.\nreq 6\n.\n", MADE),
    ("stream disk plan --refuse --at", b"at 2\n0 7 5\n.\nat 3\nreq 3\n0 9 4\n.\nat 5\n.\n0 8 1\n.\nat 5\n.\n", MADE),
    ("stream disk plan --marks --hold", b"seen 2\ncut\nreq 3\n0 9 4\n.\nseen 3\nreq 5\n0 7 1\n0 8 1\n.\ncut\n", MADE),
    ("stream disk plan --ask", b"get 1 7\nlist 1\n0 9 4\n.\ntop 1 2\nleast 1 9\ncut\n0 7 1\n.\nlist 1 8 1\nrank 1 50\nget 1 1\n", MADE),
    ("stream disk plan --copies .", b"0 9 4\n.\ncopy new 5 4 3\n0 7 1\n.\n", MADE),
    ("stream disk plan --copies .", b"0 9 4\n.\ncut\ncopy new 5 4 3\n", MADE_WITH_CLOSURES[:2]),
    ("stream disk plan --ask --workers 2", b"list 1\n0 9 4\n.\ntop 1 1\nget 1 9\n", MADE),
]
# Those of them that may change the disk though they are refused, but not what it tells, but to what they would make of it.
WRITE = ("format", "upgrade")
# A format that writes over a disk may leave none.
GONE = {"format": (None,), "upgrade": ()}
# What a stream writes of a copy, and in its place where that lacked memory.
COPIED, NOT_COPIED = re.compile(rb"copied new \d+"), b"not copied new: memory"
# The allocations of reading the input hang on its length, so each is filled up to so many bytes more.
ROOM = 64
# So many runs in a row that meet no refusal end the count.
UNTOUCHED = 40
# Seconds for one run.
SECONDS = 30


def answer(library, words, text, program=TD, folder=None, **refused):
    """Status, output and errors of one run."""
    try:
        done = subprocess.run([program, *words], input=text, capture_output=True, timeout=SECONDS, cwd=folder,
                              env={**os.environ, "LD_PRELOAD": str(library), **refused})
    except subprocess.TimeoutExpired:
        return "it did not end", b"", b""
    return done.returncode, done.stdout, done.stderr


def refuse_each(library, name, words, text):
    """Prints how many of the runs were refused; the script ends at an answer that is neither."""
    whole = answer(library, words, text)
    refused = untouched = number = 0
    while untouched < UNTOUCHED:
        number += 1
        untouched += 1
        for more in ({}, {"REFUSED_ON": "1"}):
            got = answer(library, words, text, REFUSED=str(number), **more)
            if got == REFUSED:
                refused += 1
                untouched = 0
            elif got != whole:
                lib.fail(f"{name}: with allocation {number} refused: {got}")
    if refused == 0:
        lib.fail(f"{name}: no run was refused")
    print(f"{name}: {number - UNTOUCHED} allocations, {refused} runs refused, no other answer")


class OnFiles:
    """A command of `td` on files of a folder of its own, that is played with refusals."""

    def __init__(self, library, folder, command):
        words, self.text, made = command
        self.library, self.folder, self.words = library, folder, words.split()
        self.feeds = self.words[0] in ("feed", "stream")
        (folder / "plan").write_bytes(TOTAL)
        (folder / "loop").write_bytes(LOOP)
        (folder / "written").write_bytes(CALLING)
        (folder / "closures").write_bytes(CLOSURES)
        for each, given in made:
            done = subprocess.run([TD, *each.split()], input=given, capture_output=True, cwd=folder)
            if done.returncode != 0:
                lib.fail(f"td {each} ended with {done.returncode}: {done.stderr}")
        self.image, self.closures = self.bytes_of("disk"), self.bytes_of("disk.closures")
        self.before = self.shown("disk")
        self.want = self.run()
        self.left, self.after, self.new = self.bytes_of("disk"), self.shown("disk"), self.shown("new")
        self.texts = self.closures_left()

    def run(self, **refused):
        """One run, on the files as they were before: status, output and errors."""
        for name, image in (("new", None), ("new.closures", None), ("disk", self.image), ("disk.closures", self.closures)):
            if image is None:
                (self.folder / name).unlink(missing_ok=True)
            else:
                (self.folder / name).write_bytes(image)
        return answer(self.library, self.words, self.text, folder=self.folder, **refused)

    def bytes_of(self, name):
        return (self.folder / name).read_bytes() if (self.folder / name).exists() else None

    def closures_left(self):
        """The texts of the disk's closures, and of the new one's."""
        return self.bytes_of("disk.closures"), self.bytes_of("new.closures")

    def shown(self, name):
        """The lines of what a disk tells, with ample memory; None where it is there not, or not formatted."""
        done = subprocess.run([TD, "show", name, "plan"], stdin=subprocess.DEVNULL, capture_output=True, cwd=self.folder)
        return done.stdout.splitlines() if done.returncode == 0 else None

    def is_well_refused(self, status, output, errors):
        """Whether an answer, other than with ample memory, is one of a refusal; of a feed or a stream also of smaller groups."""
        of_disk, of_new = self.closures_left()
        if of_new not in (None, self.texts[1]) or self.feeds and of_disk != self.texts[0]:
            return False
        if not self.feeds:
            return (status, output, errors) == REFUSED and self.shown("new") in (None, self.new) and (
                self.bytes_of("disk") == self.image if self.words[0] not in WRITE else self.shown("disk") in (self.before, self.after, *GONE[self.words[0]]))
        lines, want = output.splitlines(), self.want[1].splitlines()
        if self.shown("new") not in (None, self.new) or self.shown("new") is not None and of_new != self.texts[1]:
            return False
        if NOT_COPIED in lines and (self.bytes_of("new"), of_new) != (None, None):
            return False
        copied = [line for line in want if COPIED.fullmatch(line)]
        lines = [copied[0] if copied and line == NOT_COPIED else line for line in lines]
        if (status, errors) == (0, b""):
            return is_fed_as(lines, want) and self.shown("disk") == self.after
        return (status, errors) == REFUSED[::2] and is_fed_as([*lines, AGAIN], want) and self.is_told(lines)

    def is_told(self, lines):
        """Whether the disk tells what a feed acknowledged, handed out and cut."""
        shown = self.shown("disk") or []
        kept, told = ([int(line.split()[1]) for line in shown if line.startswith(word)] for word in (b"kept ", b"told "))
        cuts = [int(line.split()[1]) for line in lines if line.startswith(b"cut ")]
        epochs = [int(line.split()[1]) for line in lines if line.startswith(b"ack ")] + [out_epoch(line) for line in lines if is_out(line)]
        return bool(kept and told) and kept[0] >= max(cuts, default=0) and told[0] >= max(epochs, default=0)

    def refuse_each(self):
        """How many allocations there are, and how many runs were refused; the script ends at another answer."""
        refused = untouched = number = 0
        while untouched < UNTOUCHED:
            number += 1
            untouched += 1
            for more in ({}, {"REFUSED_ON": "1"}):
                got = self.run(REFUSED=str(number), **more)
                if got == self.want and (self.shown("disk") == self.after if self.feeds else self.bytes_of("disk") == self.left) and self.shown("new") == self.new \
                        and self.closures_left() == self.texts:
                    continue
                if got == self.want or not self.is_well_refused(*got):
                    lib.fail(f"td {' '.join(self.words)}: with allocation {number} refused{' and all that follow' * bool(more)}: {got}, and "
                             f"the disk tells {self.shown('disk')}")
                refused += 1
                untouched = 0
        if refused == 0:
            lib.fail(f"td {' '.join(self.words)}: no run was refused")
        return number - UNTOUCHED, refused


def refuse_all_on_files(library):
    """Prints for each command on files how many runs were refused."""
    with lib.folder(in_memory=True) as folder, concurrent.futures.ThreadPoolExecutor() as pool:
        folders = [folder / str(at) for at in range(len(ON_FILES))]
        for each in folders:
            each.mkdir()
        played = pool.map(lambda folder, command: OnFiles(library, folder, command).refuse_each(), folders, ON_FILES)
        for (words, _, _), (numbers, refused) in zip(ON_FILES, played):
            print(f"td {words}: {numbers} allocations, {refused} runs refused, no other answer, and nothing lost")


def rows_of_steps():
    """The rows of `engine_steps` and `feed_steps`, read as ./check reads them: their titles, and their commands."""
    found = [row for file in ROWS for row in rows.read_rows(ROOT / file)]
    return [(row.title, row.commands()[0]) for row in found if not LEFT_OUT.search(row.commands()[0].given)]


def filled(text, length):
    """A text of commands, with a comment behind it up to a length."""
    return text + b"#" * (length - len(text) - 1) + b"\n"


def steps_in(text):
    """The plan, and the commands, each with the lines that are its own."""
    plan, _, rest = text.partition(b"--\n")
    return plan + b"--\n", re.findall(rb"(?m)^(?:feed|meet|drive) .*\n(?:(?!end$).*\n)*end\n|^.*\n", rest)


def is_as_written(got, want):
    """Whether an output is that of a row, but for one line that tells of the call that was made again. What a drain
    delivered, or a keeper released, before it was refused, its second answer does not count."""
    if AGAIN not in got:
        return got == want
    at = got.index(AGAIN)
    rest = got[:at] + got[at + 1:]
    for counted in (b"drained", b"released"):
        if all(lines[at:at + 1] and lines[at].startswith(counted) for lines in (rest, want)):
            return rest[:at] + rest[at + 1:] == want[:at] + want[at + 1:]
    return rest == want


def is_out(line):
    """Whether a line of a feed is an output, or the mark of an epoch."""
    return line[:1].isdigit() or line.startswith(b"done ")


def out_epoch(line):
    return int(line.removeprefix(b"done ").split()[0])


def is_fed_as(lines, want):
    """Whether a feed wrote what it writes otherwise, `want`, or was refused and wrote a beginning of it. An `ack` may come earlier or later than
    the outputs of other epochs, as the groups are; so the outputs are compared by themselves, with marks, and all other lines by themselves. No output
    comes before its own `ack`, and a cut comes behind all outputs of its epochs."""
    lines, want = ([line for line in each if line != MET] for each in (lines, want))
    refusal = lines[-1:] if lines[-1:] != want[-1:] and lines[-1:] in ([AGAIN], [FAILED]) else []
    outs, wanted_outs = ([line for line in each if is_out(line)] for each in (lines, want))
    said, wanted_said = ([line for line in each if not is_out(line)] for each in (lines[:len(lines) - len(refusal)], want))
    if refusal and (outs, said) != (wanted_outs[:len(outs)], wanted_said[:len(said)]) or not refusal and (outs, said) != (wanted_outs, wanted_said):
        return False
    for at, line in enumerate(lines):
        if line.startswith(b"cut ") and any(out_epoch(out) <= int(line.split()[1]) for out in wanted_outs[sum(map(is_out, lines[:at])):]):
            return False
        if is_out(line) and b"ack %d" % out_epoch(line) in lines[at:]:
            return False
    return True


class Played:
    """A row of `engine_steps` or `feed_steps` that is played with refusals."""

    def __init__(self, library, row):
        self.library = library
        self.title, command = row
        self.program, self.text = program_of(command.program), command.given
        self.plan, self.steps = steps_in(self.text)
        self.has_workers = any(step.startswith(WITH_WORKERS) for step in self.steps)
        if self.has_workers:
            self.steps = [made for step in self.steps for made in [step, *[b"recover\n"] * 2 * step.startswith(FOLLOWED)]]
            self.text = self.plan + b"".join(self.steps)
        self.length = len(self.text) + ROOM
        self.want = command.status, command.output().splitlines(), command.errors
        if self.has_workers:
            self.want = self.run(self.text)

    def run(self, text, **refused):
        status, output, errors = answer(self.library, [], filled(text, self.length), self.program, **refused)
        return status, output.splitlines(), errors

    def lines_after(self, count, **refused):
        """How many lines so many commands print."""
        return len(self.run(self.plan + b"".join(self.steps[:count]), **refused)[1])

    def steps_until(self, at, **refused):
        """How many commands it takes to print the line `at`, counted from 0."""
        low, high = 0, len(self.steps)
        while low + 1 < high:
            middle = (low + high) // 2
            low, high = (low, middle) if self.lines_after(middle, **refused) > at else (middle, high)
        return high

    def is_told(self, lines, number):
        """Whether a run whose disk failed tells what was acknowledged until then."""
        at = next(index for index, line in enumerate(lines) if line.startswith(FAILED) or line == AGAIN)
        done = self.steps[:self.steps_until(at, REFUSED=str(number))]
        status, lines, errors = self.run(self.plan + b"".join(done) + b"recover\n", REFUSED=str(number))
        if (status, errors) != (0, b"") or lines[:at] != self.want[1][:at]:
            return False
        if done[-1].startswith(OTHER_DISK):
            return True
        begin = max(index for index, step in enumerate(done) if step.startswith(OTHER_DISK))
        acknowledged = max([int(line.split()[-1]) for line in lines[self.lines_after(begin):at] if line.startswith(b"ack ")], default=0)
        told = [int(line.split(b":")[0].split()[1]) for line in lines[at + 1:] if line.startswith((b"kept ", b"epoch "))]
        # A disk that tells no epochs is refused as the row says.
        return told[-1] >= acknowledged if told else acknowledged == 0 and lines[at + 1:] == self.want[1][at:at + 1]

    @functools.cached_property
    def counts(self):
        """How many lines each beginning of the commands prints."""
        return [self.lines_after(count) for count in range(len(self.steps) + 1)]

    def is_told_then(self, lines):
        """Whether a run hands out no other epochs than the whole from the line on in which it differs, a feed writes nothing else there than a
        beginning of what it writes, and the first recovery after it tells what was acknowledged, handed out and cut until then."""
        at = next((index for index, (one, other) in enumerate(zip(lines, self.want[1])) if one != other), min(len(lines), len(self.want[1])))
        done = next((count for count, printed in enumerate(self.counts) if printed > at), len(self.steps))
        begin = max(index for index, step in enumerate(self.steps[:done]) if step.startswith(OTHER_DISK))
        if begin == done - 1:
            return True
        # The disk in memory failed in the last recovery of all, and the one before it told what is there.
        if lines[at:] == [FAILED] and self.steps[done - 2:] == [b"recover\n"] * 2:
            return True
        recovery = next((index for index, line in enumerate(lines) if index >= at and line.startswith(b"kept ")), len(lines))
        if self.steps[done - 1].startswith(FEEDINGS) and not self.is_fed(lines[self.counts[done - 1]:], done):
            # (or it was the command before that failed, which says nothing otherwise, and the feed found no disk to write on)
            is_before = lines[at] == FAILED and self.counts[done - 2] == self.counts[done - 1]
            if not is_before or any(line.startswith(SAID) or line[:1].isdigit() for line in lines[at:recovery]):
                return False
        if any(line.startswith(b"epoch ") and line not in self.want[1] for line in lines[at:recovery]):
            return False
        acknowledged = max([int(line.split()[-1]) for line in lines[self.counts[begin]:recovery] if line.startswith(b"ack ")], default=0)
        told = [int(line.split(b":")[0].split()[1]) for line in self.first_recovery(lines[recovery:])]
        return told[-1] >= acknowledged if told else acknowledged == 0

    def is_fed(self, lines, done):
        """Whether lines begin with those of the feed that is the last of so many commands, or of one that was refused, and the recovery
        behind it tells each epoch whose outputs it wrote, and its cuts."""
        want = self.want[1][self.counts[done - 1]:self.counts[done]]
        behind = self.want[1][self.counts[done]]
        kept = b"kept " if behind.startswith(b"kept ") else behind
        end = next((index for index, line in enumerate(lines) if line.startswith(kept)), len(lines))
        told = [int(line.split(b":")[0].split()[1]) for line in self.first_recovery(lines[end:])]
        written = [int(line.split()[0]) for line in lines[:end] if line[:1].isdigit()]
        cuts = [int(line.split()[1]) for line in lines[:end] if line.startswith(b"cut ")]
        is_told = not told and not written and not cuts or told and max(written, default=0) <= told[-1] and max(cuts, default=0) <= told[0]
        return bool(is_told) and is_fed_as(lines[:end], want)

    def first_recovery(self, lines):
        """The lines of what is recovered first: `kept ..` and `epoch ..`."""
        first = next((index for index, line in enumerate(lines) if line.startswith(b"kept ")), len(lines))
        after = next((index for index in range(first + 1, len(lines)) if not re.match(rb"epoch \d+:( \(\d+ \d+ -?\d+\))*$", lines[index])), len(lines))
        return lines[first:after]

    def is_well_refused(self, status, lines, errors, number):
        """Whether a run that answers otherwise may: its disk failed, or a feed or a drive was refused, and nothing is lost."""
        if self.has_workers:
            is_refused = any(line.startswith(FAILED) or REFUSED_IN_DRIVE.fullmatch(line) for line in lines)
            return is_refused and (status, errors) in (self.want[::2], (0, b""), *ENDS_EARLY) and self.is_told_then(lines)
        return any(line.startswith(FAILED) or line == AGAIN for line in lines) and self.is_told(lines, number)

    def refuse_each(self):
        """Counts the allocations, the calls that were made again and the disks that failed; the script ends at another answer."""
        again = failed = untouched = number = 0
        while untouched < UNTOUCHED:
            number += 1
            status, lines, errors = self.run(self.text, REFUSED=str(number))
            untouched += 1
            if (status, lines, errors) == self.want:
                continue
            untouched = 0
            if (status, errors) == self.want[::2] and is_as_written(lines, self.want[1]):
                again += 1
            elif self.is_well_refused(status, lines, errors, number):
                failed += 1
            elif (status, b"".join(lines), errors) != BEFORE:
                lib.fail(f"{self.title}: with allocation {number} refused: {status, lines, errors}")
        return number - UNTOUCHED, again, failed


# What a disk tells after the feeds below.
TWO, FOUR = "kept 1: (1 7 5 1)|epoch 2: (0 7 -2) (0 8 1)", "kept 1: (1 7 5 1)|epoch 2: (0 7 -2) (0 8 1)|epoch 3: (0 9 4)|epoch 4: (0 9 4)"
# Two feeds: of two epochs with a cut between them, and of two more that are put on the disk as a group. After each command what it prints.
WRITTEN = [
    (b"format 4 3 3\n", ""),
    (b"feed 2\n0 7 5\n.\ncut\n0 7 -2\n0 8 1\n.\nend\n", "ack 1|1 2 7 5|cut 1|ack 2|2 2 7 3|2 2 8 1"),
    (b"recover\n", TWO),
    (b"recover\n", TWO),
    (b"feed 2\n0 9 4\n.\n0 9 4\n.\nend\n", "ack 3|ack 4|2 2 7 3|2 2 8 1|3 2 9 4|4 2 9 8"),
    (b"recover\n", FOUR),
    (b"recover\n", FOUR),
]
# What they may write where one is refused: which command of the above, its lines, and what the disk tells then.
LAWFUL = {
    "a feed that is refused before all": (1, "refused: memory", "kept 0:"),
    "one that is refused after a cut": (1, "ack 1|1 2 7 5|cut 1|refused: memory", "kept 1: (1 7 5 1)"),
    "one that is refused between outputs": (1, "ack 1|1 2 7 5|cut 1|ack 2|2 2 7 3|refused: memory", TWO),
    "a group that is told and not acknowledged": (4, "refused: device", FOUR),
    "a smaller group": (4, "2 2 7 3|2 2 8 1|ack 3|3 2 9 4|refused: memory", f"{TWO}|epoch 3: (0 9 4)"),
    "smaller groups, and none refused": (4, "ack 3|2 2 7 3|2 2 8 1|3 2 9 4|ack 4|4 2 9 8", FOUR),
}
# And what they may not.
DOCTORED = {
    "an output left out, and the feed going on": (1, "ack 1|cut 1|ack 2|2 2 7 3|2 2 8 1", TWO),
    "an output written twice": (1, "ack 1|1 2 7 5|1 2 7 5|cut 1|ack 2|2 2 7 3|refused: memory", TWO),
    "an output of another value": (1, "ack 1|1 2 7 6|cut 1|refused: memory", "kept 1: (1 7 5 1)"),
    "an output of an epoch that was not fed": (1, "ack 1|1 2 7 5|9 2 7 5|refused: memory", "kept 0:|epoch 1: (0 7 5)"),
    "lines after the refusal": (1, "ack 1|refused: memory|1 2 7 5|cut 1", "kept 1: (1 7 5 1)"),
    "a cut of an epoch that is not there": (1, "ack 1|1 2 7 5|cut 7|refused: memory", "kept 0:|epoch 1: (0 7 5)"),
    "a cut that was not written": (1, "ack 1|1 2 7 5|cut 1|refused: memory", "kept 0:|epoch 1: (0 7 5)"),
    "a cut before the outputs": (1, "ack 1|cut 1|refused: memory", "kept 1: (1 7 5 1)"),
    "an output before its ack": (1, "1 2 7 5|ack 1|refused: memory", "kept 0:|epoch 1: (0 7 5)"),
    "an ack that is not told": (1, "ack 1|1 2 7 5|refused: memory", "kept 0:"),
    "an output that is not told": (4, "ack 3|2 2 7 3|2 2 8 1|3 2 9 4|refused: memory", TWO),
    "an ack left out": (4, "ack 4|2 2 7 3|2 2 8 1|refused: memory", FOUR),
    "no line, and no refusal": (4, "2 2 7 3|2 2 8 1", TWO),
}


def lines_of(written):
    return written.encode().split(b"|") if written else []


class Written(Played):
    """A row whose commands stand above, with what a program prints that is not run."""

    def run(self, text, **_refused):
        count = len(steps_in(text)[1])
        return 0, [line for _, printed in WRITTEN[:count] for line in lines_of(printed)], b""

    def accepts(self, at, written, told):
        """Whether the feed that is the command `at` may write this where the disk then tells this, and the second recovery is refused."""
        before = [line for _, printed in WRITTEN[:at] for line in lines_of(printed)]
        return self.is_well_refused(0, [*before, *lines_of(written), *lines_of(told), AGAIN, *lines_of(told)], b"", 1)


def see_doctored():
    """The script ends where it takes what no feed may write for what a refused feed writes, or the other way round."""
    command = rows.Command("feed_steps")
    command.given = b"0 input\n--\n" + b"".join(step for step, _ in WRITTEN if step != b"recover\n")
    row = Written(None, ("a feed that stands in this script", command))
    for may, table in ((True, LAWFUL), (False, DOCTORED)):
        for name, feed in table.items():
            if row.accepts(*feed) != may:
                lib.fail(f"each_allocation.py does not see what it is for: {name} is {'refused' if may else 'accepted'}")
    print(f"of feeds written by hand {len(LAWFUL)} accepted and {len(DOCTORED)} doctored ones refused, as they should be")


def refuse_all_steps(library):
    """Prints how many calls were made again over all rows of `engine_steps` and `feed_steps`."""
    for program in (STEPS, FEEDS):
        lib.built(program)
    see_doctored()
    played = rows_of_steps()
    with concurrent.futures.ThreadPoolExecutor() as pool:
        counts = list(pool.map(lambda row: Played(library, row).refuse_each(), played))
    numbers, again, failed = map(sum, zip(*counts))
    if again == 0 or failed == 0:
        lib.fail(f"engine_steps and feed_steps: {again} calls were refused, and {failed} disks failed")
    print(f"{len(played)} rows of engine_steps and feed_steps: {numbers} allocations, {again} calls made again, "
          f"{failed} disks failed or feeds and drives refused, no other answer")


def main():
    lib.built(TD)
    with lib.folder() as folder:
        library = lib.library("refuse_allocation", folder)
        if library is None:
            return lib.skip("no C compiler is here")
        for file in [pathlib.Path(name) for name in sys.argv[1:]] or EXAMPLES:
            for words in (["batch"], ["run", "--workers", "3"], ["sim", "--workers", "2", "--picks", "0,1"]):
                refuse_each(library, f"{file.name}, td {' '.join(words)}", words, file.read_bytes())
        for words in (["help"], ["batch", "now"]):
            refuse_each(library, " ".join(["td", *words]), words, b"")
        if not sys.argv[1:]:
            refuse_all_on_files(library)
            refuse_all_steps(library)
    return None


if __name__ == "__main__":
    main()
