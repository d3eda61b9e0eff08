#!/usr/bin/env python3
"""Kills `td feed` on a real file at 300 random moments, and `td stream` at 300 more, and goes on each time: nothing acknowledged is
lost, and nothing doubled.

    tests/kill_feed.py [SEED]       needs crates/td/out/td (see the README)

The file is formatted for a plan with two folds and a group. Each feed has epochs of a few records, with a cut after each fifth, so that
the epochs up to one are put on the disk as a group; it
gets SIGKILL after a random number of its `ack` lines and a random while after that, up to half of what a whole feed takes. 150 kills are of
feeds of 60 epochs without request numbers: `td show` tells which epochs are on the disk, and the next feed begins with the first
that is not. It is required that

- after each kill what is told is what was acknowledged, or, where no cut was left before it, that and the whole group after it, with as
  many records in each epoch as were fed;
- a feed's output lines are those of the epochs after the checkpoint that it began with, from the first on;
- after a last feed, which is let end, the states are those of all epochs, each once.

150 kills are of feeds whose epochs have request numbers, on another file: 180 epochs are sent from the first on again and again,
whatever the disk has of them, until each was answered; then that feed is let end, and the next 180 epochs are sent. It is required
that

- a feed answers `again` for each epoch that an earlier one answered, and for those up to the end of a group, the one that is known or
  the next, and acknowledges the next ones;
- its output lines are those of the epochs after the checkpoint that it began with, from the first on;
- at the end `td show` tells the same as of a file to which all that was sent once, by feeds that were not killed.

300 kills are of streams, on a third file, with some workers, and with a cut after each fifth epoch or only where the journal is full.
Their producer writes epochs with request numbers into a pipe, most of them one by one and some a few at once, and waits for all
lines of what it has written before it writes more. Such a stream gets SIGKILL after a random line of its first answers and a
random while. Its producer begins again with the first epoch that it has no answer for, or, each eighth time, with the very first
of all. It is required that

- a stream's lines are, from the first on: the output lines of the epochs that `td show` told after the checkpoint; then `again` for
  each epoch that was told, so for each that was acknowledged; and the others in some groups of epochs that were written at once, none
  beyond a cut that is due: `ack` of each epoch of the group, after these the output lines of all, and `cut` where a cut is due;
- after each kill what is told is where these lines end, the end of the group in which they do, or, where a group was to come next, one
  of the epochs up to which that may go; and the checkpoint is no older than the last `cut`;
- these lines come while the producer waits for them;
- a last stream of all epochs from the very first on, which is let end, answers `again` for each that was told, and then `td show` tells
  the same as of a file to which all was sent once, by one stream that was not killed.

The output lines are those of `td batch` on all epochs; from these and the records the states are reckoned here. Of each half of the
feeds, and of the streams, at least half of the kills must have come between two epochs: when one of those that were given had its
answer, another had not, and the program was still there. What comes when is another thing in each run, also for the same seed."""

import itertools
import pathlib
import random
import signal
import subprocess
import sys
import tempfile
import threading
import time

import lib
from lib import TD, td

PLAN = "0 input\n1 fold 40 0\n2 fold 41 0\n3 group 20 1 2\n4 output 1\n5 output 2\n6 output 3\n"
SHAPE = ("4", "16", "16")
CELLS = int(SHAPE[1])
KILLS_OF_A_HALF, KILLS_OF_STREAMS, RECORDS, KEYS = 150, 300, 4, 6
EPOCHS_OF_A_FEED, EPOCHS_OF_A_NUMBERED_FEED, EPOCHS_OF_A_CUT = 60, 180, 5
# Of streams: how many epochs without an answer one is given; how many of these are written at once at most, and of the others; and
# which one in so many begins with the very first epoch.
EPOCHS_OF_A_STREAM, EPOCHS_AT_ONCE, ANSWERED_AT_ONCE, KILLS_OF_A_BEGINNING = 120, 4, 100, 8
MOST_ACKS = 12
SECONDS_OF_A_WAIT = 30
# A kill comes at most so long after the answers that it waits for: what `measure` finds.
seconds_after = 0.01


def measure(folder):
    """Finds how long the epochs of a feed take, beyond an empty feed, and has kills come within half of that: on a fast device a feed would
    else have ended before most of them."""
    global seconds_after
    disk, plan, epochs = f"{folder}/measured", f"{folder}/plan", Epochs(random.Random(1))
    td("format", disk, plan, *SHAPE)

    def seconds(text):
        begun = time.monotonic()
        td("feed", disk, plan, text=text)
        return time.monotonic() - begun

    ends = range(EPOCHS_OF_A_FEED, 5 * EPOCHS_OF_A_FEED, EPOCHS_OF_A_FEED)
    whole = min(seconds(epochs.text(end - EPOCHS_OF_A_FEED + 1, end)) for end in ends)
    seconds_after = max(0.001, (whole - min(seconds("") for _ in ends)) / 2)


def lines_of(records):
    return [f"0 {key} {val}" for key, val in records] + ["."]


class Epochs:
    """All epochs, made as they are needed."""

    def __init__(self, made):
        self.made = made
        self.epochs = []
        self.lines = []

    def upto(self, last):
        while len(self.epochs) < last:
            count = self.made.randrange(RECORDS + 1)
            self.epochs.append([(self.made.randrange(KEYS), self.made.randrange(-99, 100)) for _ in range(count)])
        return self.epochs[:last]

    def text(self, first, last):
        """The input of a feed: a cut, and these epochs with a cut after some."""
        lines = ["cut"]
        for number, records in enumerate(self.upto(last)[first - 1:], first):
            lines += lines_of(records) + ["cut"] * (number % EPOCHS_OF_A_CUT == 0)
        return "".join(f"{line}\n" for line in lines)

    def numbered_text(self, first, last):
        """The input of a feed of these epochs under their request numbers, with a cut after some."""
        lines = []
        for number in range(first, last + 1):
            lines += self.numbered_lines(number) + ["cut"] * (number % EPOCHS_OF_A_CUT == 0)
        return "".join(f"{line}\n" for line in lines)

    def numbered_lines(self, number):
        return [f"req {request(number)}", *lines_of(self.upto(number)[number - 1])]

    def streamed_text(self, first, last):
        """The input of a stream of these epochs under their request numbers."""
        return "".join(f"{line}\n" for number in range(first, last + 1) for line in self.numbered_lines(number))

    def outputs(self, last):
        """The output lines of each epoch up to this one at least, by `td batch`: made anew, for twice as many, where they are too few."""
        if len(self.lines) <= last:
            text = PLAN + "--\n" + "".join(f"{line}\n" for records in self.upto(2 * last) for line in lines_of(records))
            self.lines = [[] for _ in range(2 * last + 1)]
            for line in td("batch", text=text):
                self.lines[int(line.split()[0])].append(line)
        return self.lines


def flat(lists):
    return [it for each in lists for it in each]


def numbers_after(word, lines):
    return [int(line.removeprefix(word)) for line in lines if line.startswith(word)]


def request(number):
    """The request number of an epoch: each fourth one is left out."""
    return number + (number - 1) // 3


def shown(disk, plan, epochs):
    """The checkpoint and the last epoch on a disk, and the lines of the states; the script ends where an epoch has not its records."""
    lines = td("show", disk, plan)
    kept, told = int(lines[0].removeprefix("kept ")), int(lines[1].removeprefix("told "))
    counts = [line for line in lines if line.startswith("epoch ")]
    wanted = [f"epoch {number} {len(records)}" for number, records in enumerate(epochs.upto(told)[kept:], kept + 1)]
    if counts != wanted:
        lib.fail(f"told is {counts}, and not {wanted}")
    return kept, told, [line for line in lines if line.startswith("state ")]


def killed(disk, plan, text, made):
    """Feeds, and kills the feed: what it wrote until then, in whole lines, and whether it was still there."""
    acks, after = made.randrange(MOST_ACKS + 1), made.random() * seconds_after
    with tempfile.TemporaryFile("w+") as given:
        given.write(text)
        given.seek(0)
        with subprocess.Popen([TD, "feed", disk, plan], stdin=given, stdout=subprocess.PIPE) as run:
            written = b""
            while written.count(b"ack ") < acks:
                piece = run.stdout.read1()
                if not piece:
                    break
                written += piece
            time.sleep(after)
            was_there = run.poll() is None
            run.send_signal(signal.SIGKILL)
            written += run.stdout.read()
            run.wait()
    return written[:written.rfind(b"\n") + 1].decode().splitlines(), was_there


def lawful_ends(known):
    """The last epochs of which one is told, where so many are known to be on the disk: the end of the last one's group, and that of
    the next group, if all of the last is known. A group of a feed ends where a cut follows."""
    end = known + -known % EPOCHS_OF_A_CUT
    return (end, end + EPOCHS_OF_A_CUT) if end == known else (end,)


def check_feed(written, first, told, kill):
    """How many epochs a feed acknowledged; the script ends where they are not told, or others than those of the next group are."""
    acknowledged = numbers_after("ack ", written)
    if acknowledged != list(range(first, first + len(acknowledged))):
        lib.fail(f"kill {kill}: {acknowledged} were acknowledged by a feed of the epochs from {first} on")
    known = first - 1 + len(acknowledged)
    lawful = lawful_ends(known) if f"cut {known}" in written else lawful_ends(known)[:1]
    if told not in lawful:
        lib.fail(f"kill {kill}: {acknowledged} were acknowledged by a feed of the epochs from {first} on, and {told} is told: {written[-3:]}")
    return len(acknowledged)


def check_outputs(feeds, epochs, states):
    """Compares the output lines of all feeds, and the last states, with those of `td batch`."""
    text = PLAN + "--\n" + "".join(f"{line}\n" for records in epochs for line in lines_of(records))
    whole = td("batch", text=text)
    numbers = [int(line.split()[0]) for line in whole]
    for kill, (kept, written) in enumerate(feeds, 1):
        begin = next((at for at, number in enumerate(numbers) if number > kept), len(whole))
        lines = [line for line in written if line[0].isdigit()]
        if lines != whole[begin:begin + len(lines)]:
            lib.fail(f"kill {kill}: with a checkpoint at {kept} a feed wrote {lines}, and not {whole[begin:begin + len(lines)]}")
    outputs = {}
    for line in whole:
        number, *rest = map(int, line.split())
        outputs.setdefault(number, []).append(rest)
    wanted = lib.states_after((records, outputs.get(number, ())) for number, records in enumerate(epochs, 1))
    if states != wanted:
        lib.fail(f"the states are {states}, and not {wanted}")


def kill_half(made, folder):
    """Kills feeds without request numbers, each of which goes on where the disk ends: how many came between two epochs, how many
    told epochs that were not yet acknowledged, and how many epochs there are."""
    epochs, feeds = Epochs(made), []
    inside = beyond = 0
    disk, plan = f"{folder}/disk", f"{folder}/plan"
    td("format", disk, plan, *SHAPE)
    kept, told, _ = shown(disk, plan, epochs)
    for kill in range(1, KILLS_OF_A_HALF + 1):
        first, last = told + 1, told + EPOCHS_OF_A_FEED
        written, was_there = killed(disk, plan, epochs.text(first, last), made)
        feeds.append((kept, written))
        kept, told, _ = shown(disk, plan, epochs)
        count = check_feed(written, first, told, kill)
        inside += was_there and 0 < count < EPOCHS_OF_A_FEED
        beyond += told > first - 1 + count
    written = td("feed", disk, plan, text=epochs.text(told + 1, told + 1) + "cut\n")
    feeds.append((kept, written))
    last = told + 1
    kept, told, states = shown(disk, plan, epochs)
    if (kept, told) != (last, last) or written[-1] != f"cut {last}":
        lib.fail(f"a feed that was let end: {kept} is kept and {told} told, and not {last}: {written}")
    check_outputs(feeds, epochs.upto(told), states)
    return inside, beyond, told


def check_again(written, first, last, known, kill):
    """How many epochs a feed from `first` on has answered, where those up to `known` were answered before, and whether the disk
    had more; the script ends where its answers are others than `again` for these, and then `ack` in turn."""
    answers = [line for line in written if line.startswith(("ack ", "again "))]
    again = len([line for line in answers if line.startswith("again ")])
    numbers = range(first, first + len(answers))
    wanted = [f"again {request(number)}" for number in numbers[:again]] + [f"ack {number}" for number in numbers[again:]]
    lawful = lawful_ends(known)
    told = first - 1 + again
    is_told = len(answers) > again or len(answers) == last - first + 1
    if answers != wanted or len(answers) > last - first + 1 or told > lawful[-1] or (is_told and told not in lawful):
        lib.fail(f"kill {kill}: {known} epochs were known to be on the disk, and a feed of {first} to {last} wrote {written}")
    return len(answers), told > known


def kill_numbered_half(made, folder):
    """Kills feeds with request numbers, each of which is sent from its beginning until it is let end: the same three counts."""
    epochs, feeds = Epochs(made), []
    inside = beyond = kill = known = 0
    disk, once, plan = f"{folder}/numbered", f"{folder}/once", f"{folder}/plan"
    for file in (disk, once):
        td("format", file, plan, *SHAPE)
    first = 1
    while kill < KILLS_OF_A_HALF:
        last = first + EPOCHS_OF_A_NUMBERED_FEED - 1
        text = epochs.numbered_text(first, last)
        while known < last and kill < KILLS_OF_A_HALF:
            kill += 1
            kept = shown(disk, plan, epochs)[0]
            written, was_there = killed(disk, plan, text, made)
            feeds.append((kept, written))
            count, is_beyond = check_again(written, first, last, known, kill)
            inside += was_there and 0 < count < EPOCHS_OF_A_NUMBERED_FEED
            beyond += is_beyond
            known = max(known, first - 1 + count)
        kept = shown(disk, plan, epochs)[0]
        written = td("feed", disk, plan, text=text)
        feeds.append((kept, written))
        check_again(written, first, last, known, kill)
        td("feed", once, plan, text=text)
        known, first = last, last + 1
    check_once(disk, once, plan, epochs, feeds, known)
    return inside, beyond, known


def check_once(disk, once, plan, epochs, feeds, last):
    """The script ends where a disk of feeds that were killed does not tell the same as one of feeds that were not."""
    told = [td("show", file, plan) for file in (disk, once)]
    if told[0] != told[1] or told[0][:3] != [f"kept {last}", f"told {last}", f"last {request(last)}"]:
        lib.fail(f"what was killed left {told[0]}, and what was not {told[1]}")
    check_outputs(feeds, epochs.upto(last), told[0][3:])


def said_of(epochs, first, last, kept, told, every):
    """What a stream of the epochs from `first` to `last` writes, where this checkpoint and this last epoch are told and a cut is due
    after so many epochs: the lines that come before it reads, and those for each epoch, each in three parts: the answer, outputs,
    a cut."""
    outputs = epochs.outputs(last)
    said, cut = [([], flat(outputs[kept + 1:told + 1]), [])], kept
    for number in range(first - 1, last + 1):
        if number >= first:
            said.append(([f"ack {number}"], outputs[number], []) if number > told else ([f"again {request(number)}"], [], []))
        if max(number, told) - cut >= every:
            cut = max(number, told)
            said[-1][2].append(f"cut {cut}")
    return said


def counts_before(said):
    """How many lines come before each part of what is said, and how many there are: in whatever groups the epochs are put."""
    return [0, *itertools.accumulate(len(flat(each)) for each in said)]


def pieces_of(first, last, known, made):
    """The last epoch of each piece that a producer writes at once: many epochs of those that have an answer, and of the others most
    often one."""
    ends, number = [], first
    while number <= last:
        few = made.choice((1, 1, 1, EPOCHS_AT_ONCE))
        ends.append(min(number + ANSWERED_AT_ONCE - 1, known) if number <= known else min(number + few - 1, last))
        number = ends[-1] + 1
    return ends


def lines_before_kill(said, known, made):
    """How many lines of a stream come before it is killed, of which so many epochs are known to be answered already."""
    answers, before = made.randrange(known + MOST_ACKS + 1), counts_before(said)
    return before[answers] + made.randrange(before[answers + 1] - before[answers] + 1)


def group_ends(said, at, most):
    """The parts of `said` before which a group may end that begins with this one: new epochs up to this part, or to the first with a cut.
    Any other part stands alone."""
    for end in range(at + 1, most + 1):
        yield end
        answer, _, cut = said[end - 1]
        if cut or not numbers_after("ack ", answer):
            return


def told_after(written, said, first, pieces):
    """How many parts of `said` the disk may stand for where so much is written, in whatever groups the epochs of each piece were put;
    empty where that is no beginning of what is said. The pieces that were given are told by their last epochs, in order."""
    before, reached, told = counts_before(said), {0}, set()
    piece_ends = [1] + [end - first + 2 for begin, end in zip([first - 1, *pieces], pieces) for _ in range(begin, end)]
    for at, most in enumerate(piece_ends):
        for end in group_ends(said, at, most) if at in reached else ():
            group = flat(flat(parts) for parts in zip(*said[at:end]))
            lines = written[before[at]:before[end]]
            if lines == group[:len(lines)]:
                (told if before[end] > len(written) else reached).add(end)
    return told | {at for at in reached if before[at] == len(written)}


class Producer(threading.Thread):
    """Gives a stream the pieces of its input, each once so many lines of the stream have come, and takes these; and tells how many it
    gave, and when those lines have come after which the stream is to be killed."""

    def __init__(self, stream, pieces, wanted):
        super().__init__()
        self.stream, self.pieces, self.wanted = stream, pieces, wanted
        self.taken, self.count, self.given = b"", 0, 0
        self.have_come = threading.Event()

    def run(self):
        try:
            for text, before in self.pieces:
                if not self.take(before):
                    break
                self.given += 1
                self.stream.stdin.write(text.encode())
            self.stream.stdin.close()
        except BrokenPipeError:
            pass
        self.take(None)

    def take(self, count):
        """Takes lines until there are so many, None for all: whether there are, before the stream has ended."""
        while count is None or self.count < count:
            piece = self.stream.stdout.read(65536)
            self.taken += piece
            self.count += piece.count(b"\n")
            if not piece or self.count >= self.wanted:
                self.have_come.set()
            if not piece:
                return False
        return True

    def lines(self):
        """The whole lines that were taken."""
        return self.taken[:self.taken.rfind(b"\n") + 1].decode().splitlines()


def killed_stream(disk, plan, every, pieces, wanted, made):
    """Streams, and kills the stream a while after so many lines: what it wrote, in whole lines, how many pieces it was given, and its
    status before; None where it was still there."""
    words = ["--workers", str(made.choice((1, 2, 4))), *(["--cut-every", str(every)] if every != CELLS else [])]
    with subprocess.Popen([TD, "stream", disk, plan, *words], stdin=subprocess.PIPE, stdout=subprocess.PIPE, bufsize=0) as run:
        producer = Producer(run, pieces, wanted)
        producer.start()
        have_come = wanted == 0 or producer.have_come.wait(SECONDS_OF_A_WAIT)
        time.sleep(made.random() * seconds_after)
        status = run.poll()
        run.send_signal(signal.SIGKILL)
        producer.join()
    if not have_come:
        lib.fail(f"a producer waited {SECONDS_OF_A_WAIT} s for {wanted} lines, and got {producer.lines()}")
    return producer.lines(), producer.given, status


def check_stream(written, status, said, first, pieces, kept, told, was_told, kill):
    """How many epochs a stream answered; the script ends where its lines are others, or where what it acknowledged or cut is not told."""
    lawful = {max(was_told, first - 2 + parts) for parts in told_after(written, said, first, pieces)}
    if status not in (None, 0) or not lawful or (status == 0 and len(written) != counts_before(said)[-1]):
        lib.fail(f"kill {kill}: a stream of status {status} was given {first} to {pieces}, and wrote {written}, and not {said}")
    if told not in lawful or kept < max(numbers_after("cut ", written), default=0):
        lib.fail(f"kill {kill}: the checkpoint {kept} and the last epoch {told}, and not one of {lawful}, are told after {written}")
    return len([line for line in written if line.startswith(("ack ", "again "))])


def kill_streams(made, folder):
    """Kills streams, each of which begins where its producer has no answer, or with the very first epoch: the same three counts."""
    epochs, streams = Epochs(made), []
    inside = beyond = known = 0
    disk, once, plan = f"{folder}/streamed", f"{folder}/streamed_once", f"{folder}/plan"
    for file in (disk, once):
        td("format", file, plan, *SHAPE)
    kept, told, _ = shown(disk, plan, epochs)
    for kill in range(1, KILLS_OF_STREAMS + 1):
        first = 1 if kill % KILLS_OF_A_BEGINNING == 0 else known + 1
        last, every = known + EPOCHS_OF_A_STREAM, made.choice((EPOCHS_OF_A_CUT, CELLS))
        said = said_of(epochs, first, last, kept, told, every)
        pieces = pieces_of(first, last, known, made)
        texts = [epochs.streamed_text(begin + 1, end) for begin, end in zip([first - 1, *pieces], pieces)]
        before = [counts_before(said)[begin - first + 2] for begin in [first - 1, *pieces[:-1]]]
        wanted = lines_before_kill(said, known - first + 1, made)
        written, given, status = killed_stream(disk, plan, every, list(zip(texts, before)), wanted, made)
        streams.append((kept, written))
        was_told = told
        acknowledged = max([told, *numbers_after("ack ", written)])
        kept, told, _ = shown(disk, plan, epochs)
        count = check_stream(written, status, said, first, pieces[:given], kept, told, was_told, kill)
        inside += status is None and 0 < count < last - first + 1
        beyond += told > acknowledged
        known = max(known, first - 1 + count)
    stream_all(disk, once, plan, epochs, kept, told)
    check_once(disk, once, plan, epochs, streams, told + 1)
    return inside, beyond, told + 1


def stream_all(disk, once, plan, epochs, kept, told):
    """Streams all epochs and one more from the very first on, to the disk of the streams that were killed and to a fresh one."""
    last = told + 1
    for file, kept, told in ((disk, kept, told), (once, 0, 0)):
        written = td("stream", file, plan, text=epochs.streamed_text(1, last) + "cut\n")
        said = said_of(epochs, 1, last, kept, told, CELLS)
        if written[-1:] != [f"cut {last}"] or told_after(written[:-1], said, 1, [last]) != {len(said)}:
            lib.fail(f"a stream that was let end, with a checkpoint at {kept} and {told} told, wrote {written}, and not {said}, and a cut")


def main():
    lib.built(TD)
    seed = int(sys.argv[1]) if sys.argv[1:] else 1
    made = random.Random(seed)
    with lib.folder() as folder:
        pathlib.Path(f"{folder}/plan").write_text(PLAN)
        measure(folder)
        ways = [(KILLS_OF_A_HALF, "feeds", "fed on where the disk ended", kill_half(made, folder)),
                (KILLS_OF_A_HALF, "feeds", "fed again from their beginning by their request numbers", kill_numbered_half(made, folder)),
                (KILLS_OF_STREAMS, "streams", "sent again by a producer that waits for answers", kill_streams(made, folder))]
    for kills, what, way, (inside, beyond, told) in ways:
        if 2 * inside < kills:
            lib.fail(f"{way}: {inside} of {kills} kills alone came between two epochs")
        print(f"{kills} {what} killed, and {way}: {inside} of them between two epochs, and {beyond} told epochs that were "
              f"not yet acknowledged: {told} epochs, none lost and none twice (seed {seed})")


main()
