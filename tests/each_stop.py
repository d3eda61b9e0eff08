#!/usr/bin/env python3
"""Stops four feeds and four streams at each of their writes and syncs, and crashes them in five ways, the streams in seven.

    tests/each_stop.py          needs crates/td/out/td and crates/feed_steps/out/feed_steps (see the README), and for the streams
                                strace; without it says so, and stops the feeds alone

The feeds are `feed_steps`' on a disk in memory. One has 40 epochs: a plan with two folds and a group, small batches, a ring
of three cells, and a cut before it is full. Another is the running total of docs/TUTORIAL.md, two epochs and a cut after
them, whose last lines stand here. The epochs up to a cut are put on the disk as a group, as many as the ring has free cells. A feed
stops at the K-th write or sync, for each K until none is met; of each range that was
written and not synced a crash leaves the old bytes, the new ones, or 00, a5 or ff all over. Then `show` tells what is left, and
the epochs that are not told are fed on. It is required of each stop that

- what is told is what was acknowledged, or, where `ack` was the next line, that and the whole group after it, with as many records in
  each epoch as were fed;
- the lines that were written before the stop are those of a feed that is not stopped, up to there;
- the feed that goes on writes the output lines of all epochs after the checkpoint, acknowledges the rest, and ends with the
  states of the whole.

The end of each group must have been told at some stop, and so must no epoch.

The other two have the same plans, and one of them fewer epochs: each epoch has a request number, and some are fed twice, which ends a
group. After a stop such a feed is fed again from its beginning, whatever is told. It must answer `again` for each request that stands on the
disk already, acknowledge the others, and end as a feed that was not stopped: with each request once.

The streams are of the plan with two folds and a ring of three cells, by `td stream` on a file. From the K-th write or sync on strace
has each fail, and tells what was written and synced before; so it is known here what a crash leaves: also, of the ranges that were not
synced, every second one old and the others new. All lines of a stream are given at once: a group goes as far as the next cut, asked for or
due, or the next epoch that comes twice. Of two streams nobody asks for
a cut but after the last epoch: one cuts where the ring is full, and after a stop is streamed on with `--cut-every 2`; the other the
other way round. The third has request numbers, lines `cut`, and epochs that come twice, and is streamed again from its beginning.
The fourth holds its outputs (`--marks --hold`): lines `seen` say which were stored, and it is streamed on with what a consumer sends then.
What is required of feeds is required of them, with the lines of a stream: first those of the epochs that the disk told at the
start, and then for each group `ack` of each of its epochs, their output lines, and the cut that is due. So none is written of an epoch
that was not acknowledged, or told at the start. The checkpoint is that of the last line `cut`, or of the one that comes next: so where outputs are
held, those that were not seen are written again. In the end each is as a stream that was not stopped.

Two feeds by `td feed` on a file have each of their writes and syncs fail **alone**, all that might follow being as on a sound disk; and so has each stop
of a stream. Such a run ends with the disk's failure and makes no write and no sync of its own behind it: what a failed sync dropped, a second one does
not bring back. It writes what it writes where all later calls fail too.

Then each read of `td show`, `dump`, `states`, `feed`, `stream`, `copy` and `upgrade` fails alone, on a disk that takes several reads and has an epoch in its last
cell. The command is refused, or tells all that is on the disk, and never less.

The output lines are those of `td batch` on all epochs. The states of the plan with two folds are reckoned here from these lines
and the records."""

import collections
import concurrent.futures
import random
import re
import subprocess

import lib
from lib import FEEDS, TD, TOTAL, td

FOLDS = "0 input\n1 fold 40 0\n2 fold 41 0\n3 group 20 1 2\n4 output 1\n5 output 2\n6 output 3\n"
EPOCHS, NUMBERED_EPOCHS, STREAM_EPOCHS, RECORDS, KEYS = 40, 9, 12, 3, 3
TOTAL_EPOCHS = [([(7, 5)], False), ([(7, -2), (8, 1)], True)]
TOTAL_STATES = ["state 1 7 3 2", "state 1 8 1 1"]
FILLS = ("old", "new", "00", "a5", "ff")
# Of streams a crash may also leave every second range old, from the first on or from the second on.
FILLS_OF_STREAMS = FILLS + ("old first", "new first")
# So many stops are played by one run of the program.
STOPS_OF_A_RUN = 40
# What strace tells, and a sync in a list of calls, beside the writes, each with its place and its bytes.
TRACED = "pwrite64,fsync"
SYNC = None


def made_epochs(count):
    """The records of each epoch, and whether a cut follows it: before the ring is full."""
    made = random.Random(20)
    waiting, epochs = 0, []
    for number in range(1, count + 1):
        records = [(made.randrange(KEYS), made.randrange(-9, 10)) for _ in range(made.randrange(RECORDS + 1))]
        waiting += 1
        is_cut = waiting == 3 or number == count or made.random() < 0.2
        waiting = 0 if is_cut else waiting
        epochs.append((records, is_cut))
    return epochs


def lines_of(records):
    return [f"0 {key} {val}" for key, val in records] + ["."]


def orders_of(lines):
    """What lines ask for, one after another: of an epoch its request number, 0 for none, and None of a cut."""
    orders, request = collections.deque(), 0
    for line in lines:
        if line.startswith("req "):
            request = int(line.removeprefix("req "))
        elif line == ".":
            orders.append(request)
            request = 0
        elif line == "cut":
            orders.append(None)
    return orders


def text_of(lines):
    return "".join(f"{line}\n" for line in lines)


def numbers_after(word, lines):
    return [int(line.removeprefix(word)) for line in lines if line.startswith(word)]


class Feed:
    """A feed's plan, its disk's shape, its epochs and their output lines, and the states that it ends with."""

    kind, goes_on, fills = "feed", "each was fed on to the whole", FILLS

    def __init__(self, plan, shape, epochs, states=None):
        self.plan, self.shape, self.epochs = plan, shape, epochs
        self.outputs = self.made_outputs()
        self.states = states or lib.states_after(
            (records, [tuple(map(int, line.split()[1:])) for line in lines]) for (records, _), lines in zip(epochs, self.outputs[1:]))

    def made_outputs(self):
        """The output lines of each epoch, by `td batch`."""
        text = self.plan + "--\n" + "".join(f"{line}\n" for records, _ in self.epochs for line in lines_of(records))
        done = subprocess.run([TD, "batch"], input=text, capture_output=True, text=True, check=True)
        outputs = [[] for _ in range(len(self.epochs) + 1)]
        for line in done.stdout.splitlines():
            outputs[int(line.split()[0])].append(line)
        return outputs

    def input_after(self, told):
        """The input of the epochs after one."""
        return [line for records, is_cut in self.epochs[told:] for line in lines_of(records) + ["cut"] * is_cut]

    def rest(self, kept, told):
        """The input that is left where so much is told: the cut that follows the last epoch, where it is not written, comes first."""
        is_cut_left = told > kept and self.epochs[told - 1][1]
        return ["cut"] * is_cut_left + self.input_after(told)

    @staticmethod
    def request(number):
        """The request number of an epoch, 0 for none."""
        return 0

    def is_new(self, order, last):
        """Whether an order is for an epoch that does not stand on a disk with these epochs."""
        return order is not None and (order == 0 or order > self.request(last))

    def steps(self, lines, kept, told, most=None):
        """What is done at once of what these lines ask for, on a disk that tells this: the numbers of a group's epochs, the request
        number of an epoch that is there, or None, a cut. A cut that nobody asks for is due after so many epochs, None for never. (A ring of
        three cells is full before a group has 256 epochs, or 1 MiB of cells.)"""
        steps, orders = [], orders_of(lines)
        cut, last, room = kept, told, most or int(self.shape.split()[1])
        while True:
            if most and last - cut >= most:
                steps.append(None)
                cut = last
            if not orders:
                return steps
            first, order = last + 1, orders.popleft()
            if not self.is_new(order, last):
                steps.append(order)
                cut = last if order is None else cut
                continue
            last += 1
            while orders and last - cut < room and self.is_new(orders[0], last):
                orders.popleft()
                last += 1
            steps.append(range(first, last + 1))

    def written(self, kept, told):
        """What a feed of all that is left writes: outputs come at a cut, of the last epoch on the disk."""
        written, done, last = [], kept, told
        for step in self.steps(self.rest(kept, told), kept, told):
            if step is None:
                written += [line for lines in self.outputs[done + 1:last + 1] for line in lines] + [f"cut {last}"]
                done = last
            elif isinstance(step, int):
                written.append(f"again {step}")
            else:
                written += [f"ack {number}" for number in step]
                last = step[-1]
        return written

    def whole(self):
        """What a feed that is not stopped writes."""
        return self.written(0, 0)

    def whole_steps(self):
        """What one that is not stopped does at once."""
        return self.steps(self.input_after(0), 0, 0)

    def ends(self):
        """The last epochs that may be told after a stop, in order: none, and that of each group."""
        return [0] + [step[-1] for step in self.whole_steps() if isinstance(step, range)]

    def last(self, told):
        """The line of `show` for the last request number where so much is told, if there is one."""
        return []

    def shown(self):
        """What `show` prints of the whole."""
        return [f"kept {len(self.epochs)}", f"told {len(self.epochs)}", *self.last(len(self.epochs)), *self.states]

    def stopped(self, stop, fill):
        """The commands of a feed that is stopped, and of what is told then."""
        return [f"format {self.shape}", f"stop {stop}", "feed 2", *self.input_after(0), "end", f"crash {fill}", "show"]

    def played(self, parts):
        """What the program answers to each of some lists of commands, with a mark between them: the refusal of a shape."""
        text = self.plan + "--\n" + "".join(f"{line}\n" for part in parts for line in [*part, "format 0 1 1"])
        done = subprocess.run([FEEDS], input=text, capture_output=True, text=True)
        answers = re.split(r"(?m)^refused: shape\n", done.stdout)
        if done.returncode != 0 or len(answers) != len(parts) + 1 or answers[-1]:
            lib.fail(f"feed_steps ended with {done.returncode}: {done.stderr} {done.stdout[-1000:]}")
        return [answer.splitlines() for answer in answers[:-1]]


class NumberedFeed(Feed):
    """A feed each epoch of which has a request number. Every third is fed twice, and what is left is fed from its beginning."""

    goes_on = "each was fed again from its beginning, with each request once"

    @staticmethod
    def request(number):
        """The request number of an epoch: not all numbers are used."""
        return 5 * number - number % 2

    def times(self, number):
        return 2 if number % 3 == 0 else 1

    def input_after(self, told):
        lines = []
        for number, (records, is_cut) in enumerate(self.epochs[told:], told + 1):
            lines += [f"req {self.request(number)}", *lines_of(records)] * self.times(number) + ["cut"] * is_cut
        return lines

    def rest(self, kept, told):
        return self.input_after(0)

    def last(self, told):
        return [f"last {self.request(told)}"] if told else []


class OnFile(Feed):
    """A feed by `td feed` on a file."""

    kind, every = "feed on a file", None

    def words(self, disk, _workers=1, _every=None):
        return ["feed", disk, disk.with_name("plan")]

    def show(self, disk):
        return td("show", disk, disk.with_name("plan"))

    def formatted(self, disk):
        """The bytes of a fresh disk. The plan stands beside all disks of a folder."""
        disk.with_name("plan").write_text(self.plan)
        td("format", disk, disk.with_name("plan"), *self.shape.split())
        return disk.read_bytes()

    def traced(self, disk, before=None, failing=None):
        """Puts the epochs on a disk that fails from the call on that comes after these, or at the last of these alone, if they are given: what was
        written, with a last line where the program told that its disk failed, and the calls up to the one that did."""
        calls = disk.with_suffix(".calls")
        strace = ["strace", "-qq", "-xx", "-s", "1000000", "-e", "signal=none", "-e", f"trace={TRACED}", *failures(before), *failure(failing), "-o", calls]
        run = subprocess.run([*strace, TD, *self.words(disk, 2, self.every)], input=text_of(self.input_after(0)), capture_output=True, text=True)
        is_told = run.returncode > 0 and run.stderr.startswith("td: device")
        if not is_told and (run.returncode, run.stderr) != (0, ""):
            lib.fail(f"a {self.kind} that was traced ended with {run.returncode}: {run.stderr}")
        return run.stdout.splitlines() + ["refused: device"] * is_told, calls_of(calls.read_text())


class Stream(OnFile):
    """A feed that comes line by line, by `td stream` on a file. A cut is due after so many epochs, None for no number, and after a stop
    after so many others."""

    kind, goes_on, fills = "stream", "each was streamed on to the whole", FILLS_OF_STREAMS

    def __init__(self, plan, shape, epochs, every, every_after):
        super().__init__(plan, shape, epochs)
        self.every, self.every_after = every, every_after

    def whole(self):
        return self.streamed(self.whole_steps(), 0, 0)

    def whole_steps(self):
        return self.steps(self.input_after(0), 0, 0, self.most(self.every))

    def written(self, kept, told):
        return self.streamed(self.steps(self.rest(kept, told), kept, told, self.most(self.every_after)), kept, told)

    def most(self, every):
        """After how many epochs a cut is due: where the journal is full, or after as many as were asked for."""
        return min(int(self.shape.split()[1]), every or EPOCHS)

    def streamed(self, steps, kept, told):
        """What a stream writes that does this: first the outputs of what was told, then those of each group after its `ack` lines."""
        written, last = [line for lines in self.outputs[kept + 1:told + 1] for line in lines], told
        for step in steps:
            if step is None:
                written.append(f"cut {last}")
            elif isinstance(step, int):
                written.append(f"again {step}")
            else:
                last = step[-1]
                written += [f"ack {number}" for number in step]
                written += [line for number in step for line in self.outputs[number]]
        return written

    def words(self, disk, workers, every):
        return ["stream", disk, disk.with_name("plan"), "--workers", str(workers), *(["--cut-every", str(every)] if every else [])]

    def gone_on(self, disk, image):
        """What a disk of these bytes tells; and what is written as the rest is streamed to it, and what it tells then."""
        disk.write_bytes(image)
        shown = self.show(disk)
        rest = td(*self.words(disk, 3, self.every_after), text=text_of(self.rest(*told_by(shown))))
        return shown, rest + self.show(disk)


class NumberedOnFile(OnFile, NumberedFeed):
    """A feed on a file each epoch of which has a request number."""


class NumberedStream(Stream, NumberedFeed):
    """A stream each epoch of which has a request number."""

    goes_on = "each was streamed again from its beginning, with each request once"


class HeldStream(Stream):
    """A stream that holds its outputs, of a consumer that has seen those of all epochs but the last after each second one, and all at the end."""

    goes_on = "each was streamed on to the whole, and wrote again what was not seen"

    def words(self, disk, workers, every):
        return [*super().words(disk, workers, every), "--marks", "--hold"]

    def input_after(self, told):
        lines = []
        for number, (records, _) in enumerate(self.epochs[told:], told + 1):
            lines += lines_of(records) + [f"seen {number - 1}"] * (number % 2 == 0)
        return [*lines, f"seen {len(self.epochs)}", "cut"]

    def rest(self, kept, told):
        """What a consumer sends that has seen all that was written at the start, if there is anything left."""
        seen = [f"seen {told}"] * (told > kept)
        return [*seen, *self.input_after(told)] if kept < len(self.epochs) else []

    def said(self, lines, kept, told):
        """What is done at once of what these lines ask for, and written: a group's epochs, or None of any other line, and of the start."""
        room, seen, last = int(self.shape.split()[1]), kept, told
        orders = collections.deque(line for line in lines if line in (".", "cut") or line.startswith("seen "))
        step, written = None, self.marked(range(kept + 1, told + 1))
        while True:
            is_cut = last - kept == room and seen > kept
            kept = seen if is_cut else kept
            yield step, written + [f"cut {kept}"] * is_cut + [f"full {last}"] * (last - kept == room)
            if not orders:
                return
            order = orders.popleft()
            step, written = None, []
            if order == "cut":
                kept, written = seen, [f"cut {seen}"]
            elif order != ".":
                seen = int(order.removeprefix("seen "))
            else:
                first, last = last + 1, last + 1
                while orders and orders[0] == "." and last - kept < room:
                    orders.popleft()
                    last += 1
                step = range(first, last + 1)
                written = [f"ack {number}" for number in step] + self.marked(step)

    def marked(self, numbers):
        """The output lines of epochs, each with its mark."""
        return [line for number in numbers for line in [*self.outputs[number], f"done {number}"]]

    def whole_steps(self):
        return [step for step, _ in self.said(self.input_after(0), 0, 0)]

    def whole(self):
        return self.written(0, 0)

    def written(self, kept, told):
        return [line for _, lines in self.said(self.rest(kept, told), kept, told) for line in lines]


def failures(before):
    """The words of strace by which each write and each sync fails that comes after these calls."""
    if before is None:
        return []
    syncs = before.count(SYNC)
    return ["-e", f"inject=pwrite64:error=EIO:when={len(before) - syncs + 1}+", "-e", f"inject=fsync:error=EIO:when={syncs + 1}+"]


def failure(calls):
    """The words of strace by which the last of these calls fails, and no other."""
    if calls is None:
        return []
    alike = [call for call in calls if (call is SYNC) == (calls[-1] is SYNC)]
    return ["-e", f"inject={'fsync' if calls[-1] is SYNC else 'pwrite64'}:error=EIO:when={len(alike)}"]


def calls_of(trace):
    """The writes and syncs of a trace, of which the last alone may have failed: one that did is not made again, and no other follows it."""
    calls, has_failed = [], False
    for line in trace.splitlines():
        if has_failed:
            lib.fail(f"a call that failed was not the last: {line}")
        call = re.fullmatch(r'(?:fsync\(\d+\)|pwrite64\(\d+, "((?:\\x[0-9a-f]{2})+)", (\d+), (\d+)\)) += (-?\d+).*', line)
        if not call:
            lib.fail(f"strace told another call than a write or a sync: {line}")
        calls.append((int(call[3]), bytes.fromhex(call[1].replace("\\x", ""))) if call[1] else SYNC)
        has_failed = call[4] != (call[2] or "0")
    return calls


def made(image, calls):
    """The bytes of a disk after some calls."""
    disk = bytearray(image)
    for at, data in filter(None, calls):
        disk[at:at + len(data)] = data
    return bytes(disk)


def crashed(image, calls, fill):
    """What a crash leaves after some calls, the last of which failed: a write may have written all the same, and a sync is none."""
    calls = calls[:-1] if calls[-1] is SYNC else calls
    synced = len(calls) - calls[::-1].index(SYNC) if SYNC in calls else 0
    old, new = lambda data: b"", lambda data: data
    left = {"old": (old, old), "new": (new, new), "old first": (old, new), "new first": (new, old)}.get(
        fill, (lambda data: bytes.fromhex(fill) * len(data),) * 2)
    return made(image, calls[:synced] + [(at, left[odd % 2](data)) for odd, (at, data) in enumerate(calls[synced:])])


def told_by(shown):
    """The checkpoint and the last epoch that `show` tells."""
    return int(shown[0].removeprefix("kept ")), int(shown[1].removeprefix("told "))


def read_stop(name, feed, answer):
    """Whether the feed met its stop, and the checkpoint and the last epoch that are told; the script ends where these are wrong."""
    at = next(index for index, line in enumerate(answer) if line.startswith("kept "))
    written, shown = answer[:at], answer[at:]
    is_met = written[-1:] == ["refused: device"]
    whole = feed.whole()
    before = written[:-1] if is_met else written
    acknowledged = max(numbers_after("ack ", before), default=0)
    kept, told = told_by(shown)
    counts = [line for line in shown if line.startswith("epoch ")]
    wanted = [f"epoch {number} {len(feed.epochs[number - 1][0])}" for number in range(kept + 1, told + 1)]
    if before != whole[:len(before)] or (not is_met and before != whole):
        lib.fail(f"{name}: what was written is no beginning of the whole: {written}")
    last = [line for line in shown if line.startswith("last ")]
    ends = feed.ends()
    is_group_next = any(line.startswith("ack ") for line in whole[len(before):][:1])
    lawful = ends[ends.index(acknowledged):][:1 + is_group_next] if acknowledged in ends else []
    if told not in lawful or counts != wanted or last != feed.last(told):
        lib.fail(f"{name}: {acknowledged} epochs were acknowledged, and this is told: {shown}")
    return is_met, kept, told


def check_rest(name, feed, kept, told, answer):
    """The script ends where the feed that went on did not come to the whole."""
    at = next(index for index, line in enumerate(answer) if line.startswith("kept "))
    last = next(index for index, line in enumerate(answer) if index > at and not line.startswith(("told ", "last ", "state ", "epoch ")))
    rest = answer[last:]
    wanted = feed.written(kept, told) + feed.shown()
    if rest != wanted:
        lib.fail(f"{name}: fed after epoch {told} was told, with a checkpoint at {kept}: {rest}, and not {wanted}")


def stop_some(feed, fill, first):
    """Plays some stops, and answers how many were met, and which last epochs were told."""
    stops = range(first, first + STOPS_OF_A_RUN)
    parts = [feed.stopped(stop, fill) for stop in stops]
    told = [read_stop(f"stop {stop}, {fill}", feed, answer) for stop, answer in zip(stops, feed.played(parts))]
    on = [part + ["feed 3", *feed.rest(kept, last), "end", "show"] for part, (_, kept, last) in zip(parts, told)]
    for stop, (_, kept, last), answer in zip(stops, told, feed.played(on)):
        check_rest(f"stop {stop}, {fill}", feed, kept, last, answer)
    return sum(is_met for is_met, _, _ in told), {last for _, _, last in told}


def stop_each(feed):
    """Plays all stops of a feed with all fills: for each run how many were met, and which last epochs were told."""
    runs, first = [], 1
    with concurrent.futures.ThreadPoolExecutor() as pool:
        while True:
            answers = list(pool.map(lambda fill: stop_some(feed, fill, first), FILLS))
            runs += answers
            if all(met == 0 for met, _ in answers):
                return runs
            first += STOPS_OF_A_RUN


def read_whole(stream, image, disk):
    """The calls of a stream that is not stopped; the script ends where it is not as it should be."""
    written, calls = stream.traced(disk)
    shown = stream.show(disk)
    if (written, shown) != (stream.whole(), stream.shown()):
        lib.fail(f"a stream that was not stopped wrote {written}, and not {stream.whole()}, and left {shown}")
    if disk.read_bytes() != made(image, calls):
        lib.fail("strace did not tell all that was written to a disk")
    return calls


def fail_once(feed, image, calls, disk):
    """The last of these calls fails, and none that might follow: what was written, which must end with the disk's failure."""
    disk.write_bytes(image)
    written, found = feed.traced(disk, failing=calls)
    if found != calls or written[-1:] != ["refused: device"]:
        lib.fail(f"the call {len(calls)} of a {feed.kind} failed alone, and it made the calls {found[-3:]} and wrote {written}")
    return written


def stop_stream(stream, image, calls, disk):
    """Stops a stream at the last of these calls: what it wrote."""
    once = fail_once(stream, image, calls, disk)
    disk.write_bytes(image)
    written, found = stream.traced(disk, calls[:-1])
    if written != once:
        lib.fail(f"stop {len(calls)}: where this call alone fails, a stream writes {once}, and else {written}")
    if found != calls or disk.read_bytes() != made(image, calls[:-1]):
        lib.fail(f"stop {len(calls)}: the disk got other calls than without a stop, or others than strace tells: {found[-3:]}")
    return written


def play_stops(stream, folder):
    """For each stop and fill what was written, what was told then, and what came of it. From what several crashes leave alike it is
    gone on once."""
    image = stream.formatted(folder / "fresh")
    calls = read_whole(stream, image, folder / "fresh")
    stops = range(1, len(calls) + 1)
    left = {(stop, fill): crashed(image, calls[:stop], fill) for stop in stops for fill in FILLS_OF_STREAMS}
    images = list(dict.fromkeys(left.values()))
    with concurrent.futures.ThreadPoolExecutor() as pool:
        written = list(pool.map(lambda stop: stop_stream(stream, image, calls[:stop], folder / f"stop{stop}"), stops))
        gone_on = dict(zip(images, pool.map(lambda at: stream.gone_on(folder / f"left{at}", images[at]), range(len(images)))))
    return {at: (written[at[0] - 1], *gone_on[left[at]]) for at in left}


def lawful_cuts(whole, written):
    """The checkpoints of which one is told, where so much of the whole is written: that of the last cut, and of the one that comes next."""
    return [max(numbers_after("cut ", written), default=0), *numbers_after("cut ", whole[len(written):])[:1]]


def stop_each_of_stream(stream):
    """Plays all stops of a stream with all fills: how many were met, and which last epochs were told."""
    with lib.folder(in_memory=True) as folder:
        played = play_stops(stream, folder)
    numbers = set()
    for (stop, fill), (written, shown, rest) in played.items():
        is_met, kept, told = read_stop(f"stop {stop}, {fill}", stream, written + shown)
        if not is_met or kept not in lawful_cuts(stream.whole(), written[:-1]):
            lib.fail(f"stop {stop}, {fill}: a stream did not tell that its disk failed, or another cut is told than its last or next: {written}, {shown}")
        check_rest(f"stop {stop}, {fill}", stream, kept, told, shown + rest)
        numbers.add(told)
    return [(len(played), numbers)]


def fail_each_once(feed):
    """Each call of a feed on a file fails alone: how many there are."""
    with lib.folder(in_memory=True) as folder:
        image = feed.formatted(folder / "fresh")
        calls = read_whole(feed, image, folder / "fresh")

        def fail(count):
            disk = folder / f"failed{count}"
            written = fail_once(feed, image, calls[:count], disk)
            read_stop(f"the call {count} alone", feed, written + feed.show(disk))

        with concurrent.futures.ThreadPoolExecutor() as pool:
            list(pool.map(fail, range(1, len(calls) + 1)))
        return len(calls)


def read_once(feed, words, disk):
    """Runs a command of `td` on a disk, with no input, with each of its reads failing alone: how many there are. Each run must tell all that the
    command tells otherwise, or be refused, and a disk that it made must tell what this one tells, or nothing; the disk tells what it told."""
    calls, new = disk.with_suffix(".calls"), disk.with_name("new")
    whole, image = feed.show(disk), disk.read_bytes()

    def run(*inject):
        new.unlink(missing_ok=True)
        disk.write_bytes(image)
        strace = ["strace", "-qq", "-P", disk, "-e", "signal=none", "-e", "trace=pread64", *inject, "-o", calls]
        done = subprocess.run([*strace, TD, words[0], disk, disk.with_name("plan"), *words[1:]], stdin=subprocess.DEVNULL, capture_output=True, text=True)
        made = subprocess.run([TD, "show", new, disk.with_name("plan")], stdin=subprocess.DEVNULL, capture_output=True, text=True).stdout.splitlines()
        return done.returncode, done.stdout, done.stderr, made

    want = run()
    count = len(calls.read_text().splitlines())
    if want[0] != 0 or count < 3 or want[3] != (whole if words[0] == "copy" else []):
        lib.fail(f"td {' '.join(map(str, words))} made {count} reads and ended so: {want}")
    for number in range(1, count + 1):
        status, output, errors, made = run("-e", f"inject=pread64:error=EIO:when={number}")
        is_refused = status > 0 and errors.startswith("td: ") and want[1].startswith(output) and made in ([], whole)
        if (status, output, errors, made) != want and not is_refused or feed.show(disk) != whole:
            lib.fail(f"td {' '.join(map(str, words))}, with its read {number} of {count} failing alone: {status}, {errors}, {output}, {made}")
    return count


def read_each_once():
    """Each command that reads a disk, on one with epochs in its last cell: with long cells, each of which is read by itself, and with short ones behind
    slots that are longer than what is read ahead."""
    for m, n, k in (("1000", "7", "6"), ("3", "7", "3000")):
        feed = OnFile(FOLDS, f"{m} {n} {k}", [(records, number == 2) for number, (records, _) in enumerate(made_epochs(8), 1)])
        with lib.folder(in_memory=True) as folder:
            disk = folder / "disk"
            feed.formatted(disk)
            td(*feed.words(disk), text=text_of(feed.input_after(0)))
            new = [disk.with_name("new"), m, "8", k]
            counts = {words[0]: read_once(feed, words, disk) for words in (["show"], ["dump"], ["states"], ["feed"], ["stream"], ["copy", *new], ["upgrade"])}
        reads = ", ".join(f"{name} {count}" for name, count in counts.items())
        print(f"each read of a disk with {m} records in a cell failing alone ({reads}): each command was refused, or told all that was acknowledged")


# Traces of calls that nobody may make: each has one that failed and was not the last.
DOCTORED = (
    "fsync(3) = -1 EIO (Input/output error) (INJECTED)\nfsync(3) = 0\n",
    'pwrite64(3, "\\x01", 1, 7) = -1 EIO (Input/output error) (INJECTED)\npwrite64(3, "\\x01", 1, 7) = 1\n',
    'fsync(3) = -1 EIO (Input/output error) (INJECTED)\npwrite64(3, "\\x01", 1, 7) = 1\n',
)


def see_doctored():
    """The script ends where it takes a call that is made again for one that is made once."""
    for trace in DOCTORED:
        try:
            calls_of(trace)
        except SystemExit:
            continue
        lib.fail(f"each_stop.py does not see what it is for: a call that failed was made again: {trace}")


def tell(feed, runs):
    """Prints how many stops were met; the script ends where the end of some group was never told."""
    met = sum(met for met, _ in runs)
    told, ends = set().union(*[told for _, told in runs]), feed.ends()
    if told != set(ends):
        lib.fail(f"some ends of groups were never told: {set(ends) - told}")
    print(f"a {feed.kind} of {len(feed.epochs)} epochs in {len(ends) - 1} groups stopped at each of its {met // len(feed.fills)} writes and syncs, "
          f"{met} crashes: nothing acknowledged was lost, and {feed.goes_on}")


def main():
    for program in (TD, FEEDS):
        lib.built(program)
    for feed in (Feed(FOLDS, "3 3 6", made_epochs(EPOCHS)), Feed(TOTAL, "4 2 3", TOTAL_EPOCHS, TOTAL_STATES),
                 NumberedFeed(FOLDS, "3 3 6", made_epochs(NUMBERED_EPOCHS)), NumberedFeed(TOTAL, "4 2 3", TOTAL_EPOCHS, TOTAL_STATES)):
        tell(feed, stop_each(feed))
    if not lib.is_traced():
        return lib.skip("the streams of each_stop, since there is no strace that may trace here")
    see_doctored()
    for feed in (OnFile(FOLDS, "3 3 6", made_epochs(STREAM_EPOCHS)), NumberedOnFile(FOLDS, "3 3 6", made_epochs(NUMBERED_EPOCHS))):
        print(f"a {feed.kind} of {len(feed.epochs)} epochs, each of its {fail_each_once(feed)} writes and syncs failing alone: none was made again")
    read_each_once()
    epochs = [(records, number == STREAM_EPOCHS) for number, (records, _) in enumerate(made_epochs(STREAM_EPOCHS), 1)]
    for stream in (Stream(FOLDS, "3 3 6", epochs, None, 2), Stream(FOLDS, "3 3 6", epochs, 2, None),
                   NumberedStream(FOLDS, "3 3 6", made_epochs(NUMBERED_EPOCHS), None, 2), HeldStream(FOLDS, "3 3 6", epochs, None, None)):
        tell(stream, stop_each_of_stream(stream))


main()
