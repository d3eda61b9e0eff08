#!/usr/bin/env python3
"""Compares `td batch` with a reading of docs/FORMATS.md, REFUSALS.md and CATALOGUE.md in Python, on random inputs, most of them with a mistake.

    tests/random_inputs.py [--every-plan] [--hall] [--feeds] [COUNT [SEED]]     needs crates/td/out/td (see the README);
                                                                                by default 2000 inputs

The reading shares nothing with the program; that of the catalogue stands in tests/answers.py. Status, output and error text must be equal; the
first input at which one is not is printed. With --every-plan it reads loops, folds, distinct and several sources; without, it refuses these as
syntax, as a reader of flat plans does. With --hall each input is answered by `td run` and by `td sim` too, with a random
number of workers and random picks; of `sim` the lines of notifications are left out.

With --feeds (docs/COMMANDS.md) a disk is made for one input in ten more, of random plans without faults, each third of them of version 1: it is fed a few
times, by epochs some of which have request numbers, new, repeated or lower ones, with cuts and with mistakes between them; it may be
raised to version 2; and after each command `td show` must tell what the reading says, and `td dump` write it; what is dumped at the end is
fed to a fresh disk. What `td states` writes (docs/STATES.md) is loaded to another one, to which the dump is fed then; and once more with mistakes, with
vertices by other numbers, and with less room. Between epochs of `td stream --ask --copies` random questions are asked, some without a form (docs/QUESTIONS.md), and copies are made, some without room or
of a name that is there (docs/COPIES.md): each must have then what the reading says."""

import collections
import random
import re
import subprocess
import sys

import lib
from answers import HALF, SHELVES, STORED

# So many records on one edge are enough: a random loop may double them at each turn.
ENOUGH = 500
WORKERS = [1, 2, 3, 4, 7, 16]
# Of so many inputs each, one disk is fed.
INPUTS_OF_A_DISK = 10
PICKS = [0, 0, 1, 2, 3, 5, 8, 100, 2**64 - 1]


class Fault(Exception):
    """The text of an input's first fault."""


class TooManyKeys(Fault):
    """At a cut there are more states than find room."""

    def __init__(self, most):
        super().__init__("too many keys")
        self.numbers = f": K is {most}"


class TooLarge(Exception):
    """An input whose answer takes long."""


# Lines, words and numbers


def lines_of(text):
    lines = text.split(b"\n")
    return lines[:-1] if lines[-1] == b"" else lines


def is_printable(line):
    return all(32 <= byte <= 126 for byte in line)


def words(line):
    return [word for word in line.split(b" ") if word]


def is_passed_over(line):
    return is_printable(line) and (not words(line) or words(line)[0].startswith(b"#"))


def natural(word, bound=2**64):
    """The number below the bound that a word writes, or None."""
    if not word.isdigit() or (len(word) > 1 and word.startswith(b"0")):
        return None
    return int(word) if int(word) < bound else None


def number(word):
    return natural(word, 10**9)


def integer(word):
    if word.startswith(b"-"):
        size = natural(word[1:])
        return -size if size and size <= HALF else None
    return natural(word, HALF)


# Plans


FLAT_KINDS = {"input", "map", "group", "output"}
# Whether a kind has a code, and how many sources it may have.
CODED = {"map", "group", "fold"}
SOURCES = {"input": (0, 0), "enter": (1, 1), "leave": (1, 1), "feedback": (0, 10**9)}

Vertex = collections.namedtuple("Vertex", "number kind code sources block line")


class Block:
    """A loop, or the outermost block; its items are vertices and blocks, in their order."""

    def __init__(self, above, first, bound):
        self.above, self.first, self.bound = above, first, bound
        self.depth = 0 if above is None else above.depth + 1
        self.items = []

    def has_vertices(self):
        return any(isinstance(item, Vertex) or item.has_vertices() for item in self.items)


def read_on(vertex):
    """The block on which a vertex is read, or None."""
    return {"leave": vertex.block.above, "output": None}.get(vertex.kind, vertex.block)


def vertex_of(said, every_plan):
    """Number, kind, code and sources from the words of a line, or None."""
    n, kind = number(said[0]), said[1].decode()
    if kind not in FLAT_KINDS | {"fold", "distinct", "enter", "leave", "feedback"}:
        return None
    rest = said[2:]
    code = None
    if kind in CODED:
        code = natural(rest[0], 2**16) if rest else None
        rest = rest[1:]
    sources = [number(word) for word in rest]
    least, most = SOURCES.get(kind, (1, 10**9))
    if n is None or None in sources or (kind in CODED and code is None) or not least <= len(sources) <= most:
        return None
    if not every_plan and (kind not in FLAT_KINDS or len(sources) > 1):
        return None
    return n, kind, code, sources


class Reading:
    """A plan, line by line: the first pass."""

    def __init__(self, every_plan):
        self.every_plan = every_plan
        self.outermost = self.block = Block(None, 0, 1)
        self.vertices = []
        self.edges = 0

    def line(self, at, line):
        """Takes a line; its refusal with the smallest number is raised."""
        said = words(line) if is_printable(line) else []
        if said == [b"end"] and self.every_plan:
            self.end(at)
        elif len(said) == 2 and said[0] == b"loop" and number(said[1]) is not None and self.every_plan:
            self.loop(at, number(said[1]))
        else:
            read = vertex_of(said, self.every_plan) if len(said) > 1 else None
            self.vertex(at, *(read or refuse(at, "syntax")))

    def end(self, at):
        if self.block is self.outermost or not self.block.has_vertices():
            refuse(at, "syntax")
        self.block = self.block.above

    def loop(self, at, bound):
        if not 1 <= bound <= 1000:
            refuse(at, "bound")
        if self.block.depth == 3:
            refuse(at, "too many")
        inner = Block(self.block, len(self.vertices), bound)
        self.block.items.append(inner)
        self.block = inner

    def vertex(self, at, n, kind, code, sources):
        in_loop = self.block is not self.outermost
        if n != len(self.vertices):
            refuse(at, "number")
        below = self.block.first if kind == "enter" and in_loop else n
        if kind != "feedback" and any(source >= below for source in sources):
            refuse(at, "order")
        if kind in ("input", "output") and in_loop or kind in ("enter", "leave", "feedback") and not in_loop:
            refuse(at, "nest")
        reads_on = self.block.above if kind == "enter" else self.block
        if kind != "feedback" and not (kind == "fold" and in_loop):
            if any(read_on(self.vertices[source]) is not reads_on for source in sources):
                refuse(at, "nest")
        if kind == "fold" and in_loop:
            refuse(at, "fold in loop")
        if kind == "feedback" and len(sources) != 1:
            refuse(at, "again")
        self.edges += len(sources)
        if n >= 64 or len(sources) > 8 or self.edges > 128:
            refuse(at, "too many")
        new = Vertex(n, kind, code, sources, self.block, at)
        self.vertices.append(new)
        self.block.items.append(new)

    def finish(self, at):
        """What is refused at the end of the text, and the second pass."""
        if self.block is not self.outermost:
            refuse(at, "syntax")
        for vertex in self.vertices:
            if vertex.kind == "feedback":
                source = vertex.sources[0]
                if source >= len(self.vertices) or read_on(self.vertices[source]) is not vertex.block:
                    refuse(vertex.line, "again")
        if not {"input", "output"} <= {vertex.kind for vertex in self.vertices}:
            raise Fault("plan: no input or output")


def refuse(at, what):
    raise Fault(f"plan line {at}: {what}")


def read_plan(lines, every_plan):
    reading = Reading(every_plan)
    for at, line in enumerate(lines, 1):
        if not is_passed_over(line):
            reading.line(at, line)
    reading.finish(len(lines) + 1)
    return reading


# Closures


def check_codes(plan):
    for vertex in plan.vertices:
        if vertex.kind in CODED and vertex.code not in STORED[vertex.kind]:
            raise Fault(f"vertex {vertex.number}: no closure {vertex.code}")


# Data lines


def read_epochs(plan, lines, first):
    """The batches of the epochs, of lines of which the first has this number."""
    closed, current = [], []
    for at, line in enumerate(lines, first):
        if is_passed_over(line):
            continue
        said = words(line)
        if is_printable(line) and said == [b"."]:
            closed.append(current)
            current = []
            continue
        current.append(record_of(plan, at, line))
    if current:
        raise Fault(f"line {first + len(lines)}: epoch not closed")
    return closed


def record_of(plan, at, line):
    """The record that a line with this number writes."""
    said = words(line)
    if not is_printable(line) or len(said) != 3:
        raise Fault(f"line {at}: syntax")
    record = (number(said[0]), natural(said[1]), integer(said[2]))
    if None in record:
        raise Fault(f"line {at}: syntax")
    if record[0] >= len(plan.vertices) or plan.vertices[record[0]].kind != "input":
        raise Fault(f"line {at}: no such input")
    return record


# The meaning of a plan: whole bags, turn by turn


class Epoch:
    """One epoch: the batch, the kept states (which it changes), and the outputs."""

    def __init__(self, batch, states):
        self.batch, self.states, self.outputs = batch, states, []

    def turn(self, block, turn, before, sent):
        """One turn of a block: adds to `sent` what each of its vertices emits. `before` is the turn before it."""
        for item in block.items:
            if isinstance(item, Block):
                self.loop(item, sent)
            else:
                sent[item.number] = self.emitted(item, turn, before, sent)
                if len(sent[item.number]) > ENOUGH:
                    raise TooLarge

    def loop(self, block, sent):
        """All turns of a loop within one of the block around it; its leaves send what they had in all turns."""
        left = collections.defaultdict(list)
        before = None
        for turn in range(block.bound):
            inner = dict(sent)
            self.turn(block, turn, before, inner)
            for item in block.items:
                if isinstance(item, Vertex) and item.kind == "leave":
                    left[item.number] += inner[item.number]
            before = inner
        sent.update(left)

    def emitted(self, vertex, turn, before, sent):
        kind = vertex.kind
        if kind == "input":
            return [(key, val) for at, key, val in self.batch if at == vertex.number]
        if kind == "feedback":
            return before[vertex.sources[0]] if turn > 0 else []
        if kind == "enter" and turn > 0:
            return []
        arrived = [(port, key, val) for port, source in enumerate(vertex.sources) for key, val in sent[source]]
        if kind == "map":
            return [record for port, key, val in arrived for record in STORED["map"][vertex.code](port, key, val)]
        if kind == "distinct":
            return sorted({(key, val) for _, key, val in arrived})
        if kind in ("group", "fold"):
            return self.by_key(vertex, arrived)
        if kind == "output":
            self.outputs += [(vertex.number, key, val) for _, key, val in arrived]
            return []
        return [(key, val) for _, key, val in arrived]

    def by_key(self, vertex, arrived):
        items = collections.defaultdict(list)
        for port, key, val in arrived:
            items[key].append((port, val))
        answers = []
        for key in items:
            if vertex.kind == "group":
                answers += STORED["group"][vertex.code](key, items[key])
                continue
            state, records = STORED["fold"][vertex.code](key, self.states.pop((vertex.number, key), None), items[key])
            answers += records
            if state:
                self.states[vertex.number, key] = state
        return answers


def answer(text, every_plan):
    """The output text of an input; or its first fault is raised."""
    lines = lines_of(text)
    separators = [at for at, line in enumerate(lines) if is_printable(line) and words(line) == [b"--"]]
    cut = separators[0] if separators else len(lines)
    for at, line in enumerate(lines, 1):
        if any(byte > 127 for byte in line):
            raise Fault(f"plan line {at}: syntax" if at <= cut else f"line {at}: syntax")
    plan = read_plan(lines[:cut], every_plan)
    check_codes(plan)
    states, told = {}, []
    for at, batch in enumerate(read_epochs(plan, lines[cut + 1:], cut + 2), 1):
        epoch = Epoch(batch, states)
        epoch.turn(plan.outermost, 0, None, {})
        told += [f"{at} {n} {key} {val}\n" for n, key, val in sorted(epoch.outputs)]
    return "".join(told)


def wanted(text, every_plan):
    """Status, output and error text."""
    try:
        return 0, answer(text, every_plan).encode(), b""
    except Fault as fault:
        return 1, b"", f"td: {fault}\n".encode()


# Disks


def read_orders(plan, lines):
    """What a feed's lines ask for: the request number (0 for none) and the batch of an epoch, or None for a cut."""
    orders, request, current = [], 0, []
    for at, line in enumerate(lines, 1):
        if is_passed_over(line):
            continue
        said = words(line) if is_printable(line) else []
        if said == [b"."]:
            orders.append((request, current))
            request, current = 0, []
        elif said == [b"cut"] or len(said) == 2 and said[0] == b"req" and natural(said[1]):
            if request or current:
                raise Fault(f"line {at}: syntax")
            if said == [b"cut"]:
                orders.append(None)
            else:
                request = natural(said[1])
        else:
            current.append(record_of(plan, at, line))
    if request or current:
        raise Fault(f"line {len(lines) + 1}: epoch not closed")
    return orders


class Disk:
    """What a disk of a plan and a shape has: a version, a checkpoint with its states and its request number, and epochs after it."""

    def __init__(self, plan, shape, version):
        self.plan, self.shape, self.version = plan, shape, version
        self.kept, self.states, self.kept_last, self.epochs = 0, {}, 0, []

    def told(self):
        return self.kept + len(self.epochs)

    def last(self):
        return max([self.kept_last, *[request for request, _ in self.epochs]])

    def show(self):
        lines = [f"kept {self.kept}", f"told {self.told()}"] + [f"last {self.last()}"] * (self.last() > 0)
        lines += [f"state {vertex} {key} {a} {b}" for (vertex, key), (a, b) in sorted(self.states.items())]
        return lines + [f"epoch {at} {len(batch)}" for at, (_, batch) in enumerate(self.epochs, self.kept + 1)]

    def dump(self):
        _, cells, most = self.shape
        lines = [f"# kept {self.kept} told {self.told()} last {self.last()}, epochs {len(self.epochs)} of {cells}, states {len(self.states)} of {most}"]
        for request, batch in self.epochs:
            lines += [f"req {request}"] * (request > 0) + [f"{n} {key} {val}" for n, key, val in sorted(batch)] + ["."]
        return lines

    def checkpoint(self):
        lines = [f"kept {self.kept}"] + [f"last {self.kept_last}"] * (self.kept_last > 0)
        return lines + [f"state {vertex} {key} {a} {b}" for (vertex, key), (a, b) in sorted(self.states.items())]

    def load(self, lines, renames):
        """Takes the checkpoint that lines spell, their vertices by other numbers; their first fault is raised."""
        folds, is_begun = {vertex.number for vertex in self.plan.vertices if vertex.kind == "fold"}, False
        for at, line in enumerate(lines, 1):
            if is_passed_over(line):
                continue
            said = words(line) if is_printable(line) else [b""]
            numbers = [*map(natural, said[1:3]), *map(integer, said[3:])]
            if None in numbers or not is_begun and (said[0] != b"kept" or len(said) != 2 or numbers[0] >= HALF):
                raise Fault(f"line {at}: syntax")
            if not is_begun:
                self.kept, is_begun = numbers[0], True
            elif said[0] == b"last" and len(said) == 2 and numbers[0] > 0 and not self.kept_last and not self.states:
                self.kept_last = numbers[0]
            elif said[0] == b"state" and len(said) == 5:
                self.hold(at, folds, (renames.get(numbers[0], numbers[0]), numbers[1]), tuple(numbers[2:]))
            else:
                raise Fault(f"line {at}: syntax")
        if not is_begun:
            raise Fault(f"line {len(lines) + 1}: syntax")
        if len(self.states) > self.shape[2]:
            raise Fault(f"too many keys: {len(self.states)}, K is {self.shape[2]}")

    def hold(self, at, folds, place, state):
        """Has a state, which a line gives, after all others."""
        if place[0] not in folds:
            raise Fault(f"line {at}: no such fold")
        if self.states and place <= max(self.states):
            raise Fault(f"line {at}: order")
        self.states[place] = state

    def meaning(self):
        """The states after the last epoch, and the output lines of each epoch after the checkpoint."""
        states, outputs = dict(self.states), []
        for at, (_, batch) in enumerate(self.epochs, self.kept + 1):
            epoch = Epoch(batch, states)
            epoch.turn(self.plan.outermost, 0, None, {})
            outputs.append([f"{at} {n} {key} {val}" for n, key, val in sorted(epoch.outputs)])
        return states, outputs

    def feed(self, text):
        """The lines that a feed writes, and its first fault or None; the disk has then what it put there."""
        written = []
        try:
            self.obey(read_orders(self.plan, lines_of(text)), written)
        except Fault as fault:
            return written, fault
        return written, None

    def obey(self, orders, written):
        done = self.kept
        for order in orders:
            if order is None:
                done = self.settle(done, written)
                self.cut(written)
            else:
                written.append(self.submit(*order))
        self.settle(done, written)

    def submit(self, request, batch):
        """The line for an epoch."""
        records, cells, _ = self.shape
        if request and self.version == 1:
            raise Fault("old version")
        if request and request <= self.last():
            return f"again {request}"
        if len(batch) > records:
            raise Fault("too many records")
        if len(self.epochs) == cells:
            raise Fault("journal full")
        self.epochs.append((request, batch))
        return f"ack {self.told()}"

    def stream(self, orders, written):
        """Obeys orders as `td stream` does: writes outputs at once, and cuts where the journal is full. Between two epochs stands a question, or a copy."""
        done = self.pace(self.kept, written)
        for order in orders:
            if callable(order):
                written += order(self)
            else:
                written.append(self.submit(*order))
            done = self.pace(done, written)

    def pace(self, done, written):
        done = self.settle(done, written)
        if len(self.epochs) == self.shape[1]:
            self.cut(written)
        return done

    def lack_of(self, shape):
        """What a disk of a shape has no room for, or None."""
        records, cells, most = shape
        if len(self.states) > most:
            return f"too many keys: {len(self.states)}, K is {most}"
        if len(self.epochs) > cells:
            return f"journal full: {len(self.epochs)} epochs, N is {cells}"
        large = [(at, len(batch)) for at, (_, batch) in enumerate(self.epochs, self.kept + 1) if len(batch) > records]
        return f"too many records: epoch {large[0][0]} has {large[0][1]}, M is {records}" if large else None

    def copy(self, shape):
        """A disk of a shape with the same."""
        twin = Disk(self.plan, shape, 2)
        twin.kept, twin.states, twin.kept_last, twin.epochs = self.kept, dict(self.states), self.kept_last, list(self.epochs)
        return twin

    def settle(self, done, written):
        """Writes the output lines of the epochs after one, and answers the last epoch."""
        written += [line for lines in self.meaning()[1][done - self.kept:] for line in lines]
        return self.told()

    def cut(self, written):
        states = self.meaning()[0]
        if len(states) > self.shape[2]:
            raise TooManyKeys(self.shape[2])
        self.kept, self.states, self.kept_last, self.epochs = self.told(), states, self.last(), []
        written.append(f"cut {self.kept}")


# Questions


def answered_by(vertex, line, listed):
    """The lines for states of a fold, which are listed from those of all its keys, (key, a, b) in the order of keys."""

    def lines(disk):
        states, told = disk.meaning()[0], disk.told()
        kept = sorted((key, a, b) for (at, key), (a, b) in states.items() if at == vertex)
        found = [f"state {told} {vertex} {key} {a} {b}" for key, a, b in listed(kept)]
        return (found or [f"{word} {told} {vertex} {key}" for word, key in line]) + [f"asked {told}"]

    return lines


def read_question(plan, at, line):
    """What answers a line: a function of a disk."""
    word, *numbers = [it.decode("latin-1") for it in words(line)] if is_printable(line) else [""]
    numbers = [natural(number.encode("latin-1")) for number in numbers]
    few, many = {"list": (1, 3)}.get(word, (2, 2))
    if word not in ("get", "list", "top", "least", "rank") or None in numbers or not few <= len(numbers) <= many or word == "rank" and numbers[1] > 100:
        raise Fault(f"line {at}: syntax")
    vertex, *numbers = numbers
    if vertex not in {it.number for it in plan.vertices if it.kind == "fold"}:
        raise Fault(f"line {at}: no such fold")

    def up_from(kept):
        return sorted(kept, key=lambda it: (it[1], it[0]))

    if word == "get":
        return answered_by(vertex, [("none", numbers[0])], lambda kept: [it for it in kept if it[0] == numbers[0]])
    if word == "list":
        start, count = (*numbers, *(0, None)[len(numbers):])
        return answered_by(vertex, [], lambda kept: [it for it in kept if start <= it[0]][:count])
    if word == "top":
        return answered_by(vertex, [], lambda kept: sorted(kept, key=lambda it: (-it[1], it[0]))[:numbers[0]])
    if word == "least":
        return answered_by(vertex, [], lambda kept: up_from(kept)[:numbers[0]])
    # The first up to which so many of 100 stand.
    return answered_by(vertex, [], lambda kept: [it for n, it in enumerate(up_from(kept), 1) if 100 * n >= numbers[0] * len(kept)][:1])


# Copies


def read_copy(at, line, folder, made):
    """What a line does that asks for a copy in a folder: a function of a disk, which puts the copy to those that were made."""
    said = words(line) if is_printable(line) else []
    shape = tuple(map(number, said[2:]))
    if len(said) != 5 or said[0] != b"copy" or b"/" in said[1] or said[1] in (b".", b"..") or None in shape or not 1 <= min(shape) or max(shape[:2]) > 65536:
        raise Fault(f"line {at}: syntax")
    name = said[1].decode()

    def copied(disk):
        lack = disk.lack_of(shape) or (f"file: {folder}/{name}: is there" if name in made else None)
        if lack:
            return [f"not copied {name}: {lack}"]
        made[name] = disk.copy(shape)
        return [f"copied {name} {disk.told()}"]

    return copied


# Random inputs


class RandomPlan:
    """The lines of a plan, most of them lawful."""

    def __init__(self, rng, every_plan):
        self.rng, self.every_plan = rng, every_plan
        self.lines, self.kinds = [], []
        # The vertices that are read on each open block, the first number in it, and the lines of its feedbacks.
        self.open = [([], 0, [])]
        self.turns = 1
        for _ in range(rng.randrange(2, 12) if rng.randrange(20) else 66):
            self.step()
        while len(self.open) > 1:
            self.end()
        if "output" not in self.kinds:
            self.vertex("output", "", self.sources(self.open[0][0], 2))

    def step(self):
        read, first, _ = self.open[-1]
        depth = len(self.open) - 1
        what = self.rng.randrange(12 if self.every_plan else 6)
        if what >= 10 and depth < 3 and read and self.turns <= 8:
            self.loop()
        elif what >= 9 and depth and len(self.kinds) > first:
            self.end()
        elif depth:
            self.inner(read)
        elif not read or what == 0:
            self.vertex("input", "", [])
            read.append(len(self.kinds) - 1)
        elif what == 1:
            self.vertex("output", "", self.sources(read, 2))
        else:
            self.plain(["map", "group"] + ["distinct", "fold"] * self.every_plan, read)

    def plain(self, kinds, read):
        kind = self.rng.choice(kinds)
        shelf = self.rng.choice(SHELVES.get(kind, [[]]))
        self.vertex(kind, f" {self.rng.choice(shelf)}" if shelf else "", self.sources(read, 3))
        read.append(len(self.kinds) - 1)

    def inner(self, read):
        """A vertex of a loop."""
        around, _, _ = self.open[-2]
        outside = [n for n in around if n < self.open[-1][1]]
        what = self.rng.randrange(6)
        if not read or what == 0:
            self.vertex("enter", "", [self.rng.choice(outside)])
            read.append(len(self.kinds) - 1)
        elif what == 1:
            self.open[-1][2].append(len(self.lines))
            self.vertex("feedback", "", [0])
            read.append(len(self.kinds) - 1)
        elif what == 2:
            self.vertex("leave", "", [self.rng.choice(read)])
            around.append(len(self.kinds) - 1)
        else:
            self.plain(["map", "map", "group", "distinct"], read)

    def loop(self):
        bound = self.rng.randrange(1, 5)
        self.turns *= bound
        self.lines.append(f"loop {bound}")
        self.open.append(([], len(self.kinds), []))

    def end(self):
        """Ends a loop, and gives its feedbacks their sources."""
        read, first, feedbacks = self.open[-1]
        if len(self.kinds) == first:
            self.inner(read)
        self.open.pop()
        for at in feedbacks:
            source = self.rng.choice(read) if self.rng.randrange(60) else self.rng.randrange(len(self.kinds) + 2)
            self.lines[at] = self.lines[at].rsplit(" ", 1)[0] + f" {source}"
        self.lines.append("end")

    def sources(self, read, most):
        count = self.rng.randrange(1, most + 1) if self.every_plan and self.rng.randrange(3) == 0 else 1
        count = count if self.rng.randrange(80) else 9
        return [self.rng.choice(read) if self.rng.randrange(90) else self.rng.randrange(len(self.kinds) + 1) for _ in range(count)]

    def vertex(self, kind, code, sources):
        self.lines.append(f"{len(self.kinds)} {kind}{code}" + "".join(f" {source}" for source in sources))
        self.kinds.append(kind)

    def inputs(self):
        return [n for n, kind in enumerate(self.kinds) if kind == "input"]


def random_input(rng, every_plan):
    plan = RandomPlan(rng, every_plan)
    lines = [*plan.lines, "--"]
    for _ in range(rng.randrange(5)):
        for _ in range(rng.choice([0, 1, 3, 10, 40])):
            key = rng.choice([rng.randrange(5), rng.randrange(5), 2**64 - 1, rng.randrange(2**64)])
            val = rng.choice([rng.randrange(-4, 5), rng.randrange(-99, 99), HALF - 1, -HALF, rng.randrange(-HALF, HALF)])
            lines.append(f"{rng.choice(plan.inputs())} {key} {val}")
        lines += rng.choice([["."], [".", "# x"], ["", ".", "  #"]])
    return ("\n".join(lines) + rng.choice(["\n", ""])).encode()


ODD_BYTES = b"0123456789 -#.+\n\t\rabx\x7f\x80\xff"
ODD_LINES = [
    b"--", b".", b". .", b"-- --", b" -- ", b"end", b"loop 3", b"63 input", b"1 map 99 0", b"2 distinct 0",
    b"0 1 2", b"1 1 1", b"0 1 -0", b"0 1 01", b"00 1 1", b"0 1 +1", b"0 1 -", b"0 1 2 3", b"1000000000 0 0",
    b"0 18446744073709551616 0", b"0 0 9223372036854775808", b"0 0 -9223372036854775809",
    b"loop 0", b"loop 1001", b"loop", b"2 fold 40 1", b"3 feedback", b"3 feedback 1 2", b"2 enter 0", b"3 leave 1",
]


def with_mistakes(rng, text):
    for _ in range(rng.choice([0, 0, 1, 1, 2, 4])):
        at = rng.randrange(len(text) + 1)
        change = rng.randrange(5)
        if change == 0:
            text = text[:at] + bytes([rng.choice(ODD_BYTES)]) + text[at + rng.randrange(2):]
        elif change == 1:
            text = text[:at] + text[at + 1:]
        elif change == 2:
            lines = text.split(b"\n")
            lines.insert(rng.randrange(len(lines) + 1), rng.choice(ODD_LINES))
            text = b"\n".join(lines)
        elif change == 3:
            lines = text.split(b"\n")
            lines[rng.randrange(len(lines))] = rng.choice(lines)
            text = b"\n".join(lines)
        else:
            text = text[:at] if rng.randrange(3) == 0 else text
    return text


ODD_FEED_LINES = [
    b"req", b"req 0", b"req 01", b"req +5", b"req -5", b"req 5 6", b"req 18446744073709551616", b"req x", b"Req 5", b"req\t5", b"# req 5",
    b" req  7 ", b"req 7", b"req 8", b"cut", b"cut", b" cut ", b"cut 1", b"--", b"0 1", b".",
]


def random_number(rng, last):
    """A request number, 0 for none: most of them rise, and some are repeated or lower."""
    above = rng.choice([last + 1, last + 1, last + rng.randrange(2, 9), last + 2 if rng.randrange(20) else 2**64 - 1])
    return rng.choice([0, last, max(0, last - 1), rng.randrange(last + 1), *[min(above, 2**64 - 1)] * 4])


def random_feed(rng, inputs, disk):
    """The text of a feed of some epochs, with a mistake in some."""
    last, lines = disk.last(), []
    for _ in range(rng.randrange(6)):
        request = random_number(rng, last) if disk.version == 2 or rng.randrange(4) == 0 else 0
        last = max(last, request)
        records = [f"{rng.choice(inputs)} {rng.randrange(4)} {rng.randrange(-9, 10)}" for _ in range(rng.choice([0, 1, 2, 3, 5]))]
        epoch = [f"req {request}"] * (request > 0) + records + ["."]
        lines += epoch * rng.choice([1, 1, 1, 2]) + ["cut"] * (rng.randrange(3) == 0)
    lines = [line.encode() for line in lines]
    for _ in range(rng.choice([0, 0, 0, 0, 0, 1])):
        lines.insert(rng.randrange(len(lines) + 1), rng.choice(ODD_FEED_LINES))
    text = b"\n".join(lines)
    if rng.randrange(12) == 0:
        at = rng.randrange(len(text) + 1)
        text = text[:at] + bytes([rng.choice(ODD_BYTES)]) + text[at + rng.randrange(2):]
    return text + rng.choice([b"\n", b""])


ODD_QUESTIONS = [b"get", b"get 1", b"list 1 2 3 4", b"rank 1 101", b"top 1 -1", b"Get 1 1", b"get 1 1 \xff", b"least 1\t1", b"list 300", b"get 0 0", b"state 1 1"]


def random_question(rng, plan):
    vertex = rng.choice([it.number for it in plan.vertices if it.kind == "fold"] * 9 or [0])
    if rng.randrange(30) == 0:
        return rng.choice(ODD_QUESTIONS)
    word = rng.choice(["get", "list", "list", "top", "least", "rank"])
    number = rng.choice([0, 1, 2, 3, 50, 51, 100, *[2**64 - 1] * (word != "rank")])
    numbers = [vertex, number, rng.choice([0, 1, 2, 9])][:rng.randrange(1, 4) if word == "list" else 2]
    return f"{word} {' '.join(map(str, numbers))}".encode()


ODD_COPIES = [b"copy", b"copy a 1 1", b"copy a 1 1 1 1", b"copy . 1 1 1", b"copy .. 1 1 1", b"copy a/b 1 1 1", b"copy a 0 1 1", b"copy a 01 1 1", b"copy a 65537 1 1"]


def random_copy(rng):
    if rng.randrange(30) == 0:
        return rng.choice(ODD_COPIES)
    name = rng.choice(["a", "b", "c", "...", "x.disk"])
    return f"copy {name} {rng.choice([1, 3, 9])} {rng.choice([1, 3, 12, 100])} {rng.choice([1, 4, 40])}".encode()


def ask_random_disk(inputs, disk, plan, folder, met):
    """Asks a stream of a disk, and has it copied, with an epoch or none between two such lines."""
    rng = random.Random("\n".join(disk.show()))
    lines, orders, fault, made, copies = [], [], None, {}, folder / "copies"
    copies.mkdir()
    for _ in range(rng.randrange(9)):
        if rng.randrange(2) == 0:
            records = [(rng.choice(inputs), rng.randrange(4), rng.randrange(-9, 10)) for _ in range(rng.randrange(min(3, disk.shape[0]) + 1))]
            lines += [f"{n} {key} {val}".encode() for n, key, val in records] + [b"."]
            orders.append((0, records))
        is_copy = rng.randrange(3) == 0
        lines.append(random_copy(rng) if is_copy else random_question(rng, disk.plan))
        try:
            orders.append(read_copy(len(lines), lines[-1], copies, made) if is_copy else read_question(disk.plan, len(lines), lines[-1]))
        except Fault as first:
            fault = first
            break
    written, status, numbers = [], 5 if fault else 0, ""
    try:
        disk.stream(orders, written)
    except TooManyKeys as many:
        fault, status, numbers = many, 4, many.numbers
    text = b"".join(line + b"\n" for line in lines)
    said = ["stream", folder / "disk", plan, "--ask", "--copies", copies, "--workers", str(rng.choice(WORKERS))]
    expect(said, text, (status, "".join(f"{line}\n" for line in written).encode(), f"td: {fault}{numbers}\n".encode() if fault else b""))
    expect(["show", folder / "disk", plan], b"", lines_as(disk.show()))
    for name, twin in made.items():
        expect(["show", copies / name, plan], b"", lines_as(twin.show()))
        expect(["dump", copies / name, plan], b"", lines_as(twin.dump()))
    if {it.name for it in copies.iterdir()} != made.keys():
        lib.fail(f"{said}\n{lines}\nmade {sorted(copies.iterdir())}, not {sorted(made)}")
    met["copies"] += len(made)
    met["answers to questions"] += sum(line.startswith("asked ") for line in written)


def random_disk(rng, every_plan):
    """The text of a plan without faults, its inputs, and an empty disk for it."""
    while True:
        made = RandomPlan(rng, every_plan)
        text = "\n".join(made.lines).encode()
        try:
            plan = read_plan(lines_of(text), every_plan)
            check_codes(plan)
        except Fault:
            continue
        shape = rng.choice([1, 3, 5, 9]), rng.choice([1, 3, 6, 12]), rng.choice([1, 4, 8, 30])
        return text, made.inputs(), Disk(plan, shape, 1 if rng.randrange(3) == 0 else 2)


def expect(said, text, want):
    """The script ends where a command on a disk answers otherwise."""
    got = answered(said, text)
    if got != want:
        lib.fail(f"td {' '.join(map(str, said))}\n{text!r}\nwanted {want}\n   got {got}")


def lines_as(lines, fault=None):
    """What a command answers that writes these lines, and then has a fault or none."""
    output = "".join(f"{line}\n" for line in lines).encode()
    return (0, output, b"") if fault is None else (1, output, f"td: {fault}\n".encode())


def feed_random_disk(rng, every_plan, folder, met):
    """Makes a disk, and feeds and raises it at random."""
    text, inputs, disk = random_disk(rng, every_plan)
    plan, file = folder / "plan", folder / "disk"
    plan.write_bytes(text)
    expect(["format", file, plan, *map(str, disk.shape)], b"", lines_as([]))
    if disk.version == 1:
        with open(file, "r+b") as opened:
            opened.seek(7)
            opened.write(b"\x01")
    for _ in range(rng.randrange(1, 5)):
        if rng.randrange(4) == 0:
            disk.version = 2
            expect(["upgrade", file, plan], b"", lines_as(["version 2"]))
        fed = random_feed(rng, inputs, disk)
        written, fault = disk.feed(fed)
        expect(["feed", file, plan, "--workers", str(rng.choice(WORKERS))], fed, lines_as(written, fault))
        expect(["show", file, plan], b"", lines_as(disk.show()))
        expect(["dump", file, plan], b"", lines_as(disk.dump()))
        what = re.sub(r"\d+", "N", f"td: {fault}") if fault else "no fault"
        met[f"a feed, {what}"] += 1
        met["epochs that were there already"] += sum(line.startswith("again ") for line in written)
    ask_random_disk(inputs, disk, plan, folder, met)
    feed_dumped(disk, plan, folder)
    load_and_feed(disk, plan, folder)
    for _ in range(3):
        fault = load_with_mistakes(rng, disk, plan, folder)
        what = re.sub(r"\d+", "N", f"td: {fault}") if fault else "no fault"
        met[f"a load, {what}"] += 1


def feed_dumped(disk, plan, folder):
    """Feeds what was dumped of a disk to a fresh one of its shape."""
    file, twin = folder / "twin", Disk(disk.plan, disk.shape, 2)
    _, dumped, _ = lines_as(disk.dump())
    written, fault = twin.feed(dumped)
    expect(["format", file, plan, *map(str, disk.shape)], b"", lines_as([]))
    expect(["feed", file, plan], dumped, lines_as(written, fault))
    expect(["show", file, plan], b"", lines_as(twin.show()))
    if disk.kept == 0 and twin.show() != disk.show():
        lib.fail(f"{dumped!r}\nof {disk.show()}\nfed {twin.show()}")


def load_and_feed(disk, plan, folder):
    """Loads what `td states` writes to a fresh disk of the same shape, and feeds it what was dumped: then it stands for the same."""
    file = folder / "loaded"
    said = ["states", folder / "disk", plan]
    done = subprocess.run([lib.TD, *said], capture_output=True, text=True)
    found = done.returncode, done.stdout.splitlines(), done.stderr
    if found != (0, disk.checkpoint(), f"epochs {len(disk.epochs)} after it\n"):
        lib.fail(f"td states of {disk.show()}\nwrote {found}")
    expect(["load", file, plan, *map(str, disk.shape)], done.stdout.encode(), lines_as([]))
    _, dumped, _ = lines_as(disk.dump())
    answered(["feed", file, plan], dumped)
    expect(["show", file, plan], b"", lines_as(disk.show()))
    file.unlink()


ODD_STATE_LINES = [
    b"kept 1", b"kept", b"kept 9223372036854775808", b"last 0", b"last 5", b"last 18446744073709551616", b"state 0 1 2 3", b"state 1 1 2 3", b"state 1 1 2",
    b"state 1 1 2 3 4", b"state 300 1 2 3", b"state 1 01 2 3", b"state 1 1 -0 3", b"state 1 1 9223372036854775808 3", b"told 1", b"", b"# of May", b"# \xff",
    b"state 1\t1 2 3", b"State 1 1 2 3",
]


def load_with_mistakes(rng, disk, plan, folder):
    """Loads the lines of a disk's checkpoint with mistakes, vertices by other numbers, and perhaps less room; answers the fault, or None."""
    file, lines = folder / "loaded", [line.encode() for line in disk.checkpoint()]
    for _ in range(rng.choice([0, 1, 1, 2])):
        at = rng.randrange(len(lines) + 1)
        lines[at:at + rng.randrange(2)] = rng.choice([[], [rng.choice(ODD_STATE_LINES)], lines[:1], lines[at - 1:at] * 2, lines[at:at + 2][::-1]])
    numbers = range(len(disk.plan.vertices) + 1)
    pairs = [(rng.choice(numbers), rng.choice(numbers)) for _ in range(rng.choice([0, 0, 1, 2]))]
    twin = Disk(disk.plan, (*disk.shape[:2], rng.choice([disk.shape[2], 1, 2])), 2)
    said = ["load", file, plan, *map(str, twin.shape)] + ["--map", ",".join(f"{one}={other}" for one, other in pairs)] * bool(pairs)
    text = b"".join(line + b"\n" for line in lines)
    try:
        twin.load(lines, dict(reversed(pairs)))
    except Fault as fault:
        expect(said, text, (4 if str(fault).startswith("too many") else 5, b"", f"td: {fault}\n".encode()))
        if file.exists():
            lib.fail(f"td {' '.join(map(str, said))}\n{text!r}\nis refused, and leaves a file")
        return fault
    expect(said, text, lines_as([]))
    expect(["show", file, plan], b"", lines_as(twin.show()))
    file.unlink()
    return None


def feed_disks(rng, every_plan, count):
    """Feeds so many disks; a plan whose answer takes long is left out."""
    met = collections.Counter()
    for _ in range(count):
        with lib.folder() as folder:
            try:
                feed_random_disk(rng, every_plan, folder, met)
            except TooLarge:
                continue
    print(f"{count} disks, fed as they should be:")
    for what, times in met.most_common():
        print(f"{times:8} {what}")


def commands(rng, hall):
    """The words with which the program is run on an input."""
    yield ["batch"]
    if hall:
        yield ["run", "--workers", str(rng.choice(WORKERS))]
        picks = ",".join(str(rng.choice(PICKS)) for _ in range(rng.randrange(1, 5)))
        yield ["sim", "--workers", str(rng.choice(WORKERS)), "--picks", picks]


def answered(said, text):
    """Status, output without the lines of notifications, and error text."""
    done = subprocess.run([lib.TD, *said], input=text, capture_output=True)
    lines = done.stdout.splitlines(keepends=True)
    return done.returncode, b"".join(line for line in lines if not line.startswith(b"note ")), done.stderr


def main():
    given = sys.argv[1:]
    every_plan = "--every-plan" in given
    hall = "--hall" in given
    feeds = "--feeds" in given
    given = [word for word in given if not word.startswith("--")]
    count = int(given[0]) if given else 2000
    rng = random.Random(given[1] if len(given) > 1 else "td")
    lib.built(lib.TD)
    met = collections.Counter()
    while sum(met.values()) < count:
        text = with_mistakes(rng, random_input(rng, every_plan))
        try:
            want = wanted(text, every_plan)
        except TooLarge:
            continue
        for said in commands(rng, hall):
            got = answered(said, text)
            if got != want:
                lib.fail(f"td {' '.join(said)}\n{text!r}\nwanted {want}\n   got {got}")
        met[re.sub(r"\d+", "N", want[2].decode().strip()) or "no fault"] += 1
    print(f"{count} inputs, all answered alike:")
    for what, times in met.most_common():
        print(f"{times:8} {what}")
    if feeds:
        feed_disks(rng, every_plan, count // INPUTS_OF_A_DISK)


if __name__ == "__main__":
    main()
