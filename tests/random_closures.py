#!/usr/bin/env python3
"""Runs `td batch --closures` on random texts, half of them with a mistake, and compares each answer with a reading of docs/CLOSURES.md in Python.

    tests/random_closures.py [COUNT [SEED]]     needs crates/td/out/td (see the README); 2,000 texts where no COUNT is given

A text has one closure to three, of any kind, and a plan calls each of them for the same records of two inputs and three epochs. A mistake is a word
that is left out, doubled, exchanged with another, or another word in its place. Compared are output, error text and status.

One text in four is also given to a disk (`td format --closures`): its first epoch is fed and cut, the others are streamed, and what comes out of
both is compared with the same answer."""

import collections
import concurrent.futures
import os
import random
import re
import subprocess
import sys

import lib

LEVELS = {"or": 1, "and": 2, "=": 4, "!=": 4, "<": 4, "<=": 4, ">": 4, ">=": 4, "+": 5, "-": 5, "*": 6, "/": 6, "%": 6}
SIGNS = {"not": 3, "-": 7, "abs": 8}
CALLS = ("min", "max")
KINDS = ("map", "group", "fold")
VERBS = ("let", "item", "each", "send", "keep")
RESERVED = {*LEVELS, *SIGNS, *CALLS, *KINDS, *VERBS, "if", "then", "else", "when", "(", ")", ","}
ALWAYS, ITEMS, STATE, END = ("key", "val", "port"), ("items",), ("a", "b", "before_a", "before_b", "known"), ("lost",)
NAMES = {*ALWAYS, *ITEMS, *STATE, *END}
WORD = re.compile(r"[A-Za-z0-9_]+|[<>!]=|[^ ]")
DEEPEST, REGISTERS, SENDS = 64, 8, 8
LOWEST, HIGHEST = -(1 << 127), (1 << 127) - 1


class Fault(Exception):
    """What is wrong with a line."""


# Reading


class Reader:
    """The words of a line, read from left to right; `names` are those that are there, and a `let` adds its own."""

    def __init__(self, words, names, new):
        self.words, self.at, self.names, self.new = words, 0, names, new

    def word(self):
        return self.words[self.at] if self.at < len(self.words) else None

    def take(self, *wanted):
        word = self.word()
        if wanted and word not in wanted:
            raise Fault("syntax")
        self.at += 1
        return word

    def is_name(self, word):
        return word is not None and word not in RESERVED

    def misplaced(self, word):
        """The fault of a word that cannot stand in the place of a value."""
        return Fault("name" if self.is_name(word) and not is_number(word) and word not in self.names else "syntax")

    def expression(self, level=0, depth=0):
        """What binds at least so tight, as a tree."""
        tree = self.operand(level, depth)
        while (binds := LEVELS.get(self.word(), -1)) >= level:
            sign = self.take()
            tree = (sign, tree, self.inner(binds + 1, depth))
        return tree

    def inner(self, level, depth):
        if depth == DEEPEST:
            raise Fault("deep")
        return self.expression(level, depth + 1)

    def operand(self, level, depth):
        word = self.word()
        if word == "(":
            self.take()
            tree = self.inner(0, depth)
            self.take(")")
            return tree
        if word in SIGNS and SIGNS[word] >= level:
            self.take()
            return ("one", word, self.inner(SIGNS[word], depth))
        if word in CALLS:
            self.take()
            if self.word() != "(":
                raise self.misplaced(self.word())
            self.take()
            first = self.inner(0, depth)
            self.take(",")
            second = self.inner(0, depth)
            self.take(")")
            return (word, first, second)
        if word == "if" and level == 0:
            self.take()
            parts = []
            for then in ("then", "else", None):
                parts.append(self.inner(0, depth))
                if then:
                    self.take(then)
            return ("if", *parts)
        if self.is_name(word) and is_number(word):
            return int(self.take())
        if not self.is_name(word) or word not in self.names:
            raise self.misplaced(word)
        return self.take()

    def when(self):
        """The condition, 1 where it is left out."""
        if self.word() != "when":
            return 1
        self.take()
        return self.expression()

    def end(self):
        self.take(None)

    def pair(self):
        first = self.expression()
        self.take(",")
        second = self.expression()
        when = self.when()
        self.end()
        return first, second, when

    def changes(self, may_change, is_let):
        """The names of a line with their values and conditions."""
        found = []
        while True:
            name = self.word()
            if not self.is_name(name) or self.words[self.at + 1:self.at + 2] != ["="]:
                raise Fault("syntax")
            if is_let and (name in NAMES or name in self.names or not re.match("[A-Za-z_]", name)):
                raise Fault("syntax" if is_number(name) else "name")
            if is_let and len(self.new) == REGISTERS:
                raise Fault("too many")
            if not is_let and name not in may_change:
                raise Fault("syntax" if is_number(name) else "name")
            self.take()
            if is_let:
                self.new.append(name)
                self.names.add(name)
            self.take("=")
            value = self.expression()
            found.append((name, value, 1 if is_let else self.when()))
            if self.word() != ",":
                self.end()
                return found
            self.take()


def is_number(word):
    return re.fullmatch("0|[1-9][0-9]*", word) is not None and int(word) < 1 << 64


class Closure:
    """A closure, as far as it is read."""

    def __init__(self, kind, code):
        self.kind, self.code = kind, code
        self.registers, self.lets, self.changes, self.each, self.sends, self.keep = [], [], [], [], [], None


def names_of(kind, registers, first):
    """The names that are there on a line that begins with this word."""
    return {*ALWAYS, *(ITEMS if kind in KINDS[1:] else ()), *(STATE if kind == "fold" else ()), *(END if first in ("send", "keep") else ()), *registers}


def add_line(closures, words):
    """Takes in a line."""
    last = closures[-1] if closures else None
    kind, registers = (last.kind, last.registers) if last else (None, [])
    read = Reader(words, names_of(kind, registers, words[0]), list(registers))
    first = read.take()
    if first in KINDS:
        code = read.word()
        if code is None or not is_number(code):
            raise Fault("syntax")
        read.take()
        read.end()
        if not 10000 <= int(code) <= 65535:
            raise Fault("code")
        if any((it.kind, it.code) == (first, int(code)) for it in closures):
            raise Fault("code")
        closures.append(Closure(first, int(code)))
        return
    if first not in VERBS:
        raise Fault("syntax")
    if first in ("let", "item"):
        found = read.changes({*registers, *(("a", "b") if kind == "fold" else ())}, first == "let")
    else:
        found = read.pair()
    if last is None or kind == "map" and first in ("item", "each") or kind != "fold" and first == "keep":
        raise Fault("syntax")
    if first == "let":
        last.lets += found
        last.registers = read.new
    elif first == "item":
        last.changes += found
    elif first == "each":
        last.each.append(found)
    elif first == "keep":
        if last.keep is not None:
            raise Fault("too many")
        last.keep = found
    else:
        if len(last.sends) == SENDS:
            raise Fault("too many")
        last.sends.append(found)


def read_text(text):
    """The closures of a text; or its first fault is raised, with its line."""
    closures = []
    for at, line in enumerate(text.split("\n"), 1):
        words = WORD.findall(re.sub("[^ -~]", "?", line.partition("#")[0]))
        try:
            if words:
                add_line(closures, words)
        except Fault as fault:
            raise Fault(f"closures line {at}: {fault}: text: {line}") from None
    return closures


# Meaning


def stopped(number, low=LOWEST, high=HIGHEST):
    return min(max(number, low), high)


def divided(one, other):
    """Quotient and remainder, which is never negative; by 0 these are 0 and the first number."""
    if other == 0:
        return 0, one
    rest = one % abs(other)
    return stopped((one - rest) // other), rest


TWO = {
    "or": lambda x, y: int(x != 0 or y != 0), "and": lambda x, y: int(x != 0 and y != 0),
    "=": lambda x, y: int(x == y), "!=": lambda x, y: int(x != y), "<": lambda x, y: int(x < y), "<=": lambda x, y: int(x <= y),
    ">": lambda x, y: int(x > y), ">=": lambda x, y: int(x >= y), "+": lambda x, y: stopped(x + y), "-": lambda x, y: stopped(x - y),
    "*": lambda x, y: stopped(x * y), "/": lambda x, y: divided(x, y)[0], "%": lambda x, y: divided(x, y)[1], "min": min, "max": max,
}
ONE = {"not": lambda x: int(x == 0), "-": lambda x: stopped(-x), "abs": lambda x: stopped(abs(x))}


def value(tree, at):
    if isinstance(tree, int):
        return tree
    if isinstance(tree, str):
        return at[tree]
    if tree[0] == "one":
        return ONE[tree[1]](value(tree[2], at))
    if tree[0] == "if":
        return value(tree[2] if value(tree[1], at) else tree[3], at)
    return TWO[tree[0]](value(tree[1], at), value(tree[2], at))


def sent(pairs, at):
    return [(stopped(value(key, at), 0, (1 << 64) - 1), stopped(value(val, at), -(1 << 63), (1 << 63) - 1)) for key, val, when in pairs if value(when, at)]


def called(closure, key, state, items):
    """The state that a closure keeps, and what it sends: of a map its items are its record."""
    at = collections.Counter(key=key, items=len(items) if closure.kind != "map" else 0)
    if state is not None:
        at.update(a=state[0], b=state[1], before_a=state[0], before_b=state[1], known=1)
    if closure.kind == "map":
        at["port"], at["val"] = items[0]
    for name, tree, _ in closure.lets:
        at[name] = value(tree, at)
    out, room = [], 8 - len(closure.sends)
    for port, val in items if closure.kind != "map" else []:
        at["port"], at["val"] = port, val
        changed = [(name, value(tree, at)) for name, tree, when in closure.changes if value(when, at)]
        for name, number in changed:
            at[name] = number
        out += sent(closure.each, at)
    at["lost"] = max(0, len(out) - room)
    end = closure.keep or ("a", "b", 1)
    kept = [stopped(value(tree, at), -(1 << 63), (1 << 63) - 1) for tree in end[:2]] if value(end[2], at) else None
    return kept, out[:room] + sent(closure.sends, at)


def answer(closures, epochs):
    """The output lines of a plan that calls each closure for the records of both inputs."""
    states, lines = collections.defaultdict(dict), []
    for epoch, records in enumerate(epochs, 1):
        for number, closure in enumerate(closures):
            rows, parts = [], collections.defaultdict(list)
            for port, key, val in records:
                parts[key].append((port, val))
            for key, items in parts.items():
                if closure.kind == "map":
                    rows += [row for item in items for row in called(closure, key, None, [item])[1]]
                else:
                    held = states[number]
                    kept, out = called(closure, key, held.pop(key, None), sorted(items))
                    rows += out
                    if closure.kind == "fold" and kept is not None:
                        held[key] = kept
            lines += [f"{epoch} {2 + 2 * number + 1} {key} {val}\n" for key, val in sorted(rows)]
    return "".join(lines)


# Random texts


def random_expression(some, names, depth, level=0):
    """An expression that binds at least so tight, as its words: in parentheses where it must be, and sometimes where not."""
    if depth == 0 or some.random() < 0.2:
        return [some.choice([*names, *names, "0", "1", "2", "3", "7", "10", "1000", "9223372036854775807", "18446744073709551615"])]
    how = some.randrange(8)
    if how < 5:
        sign, binds = some.choice(list(LEVELS.items()))
        words = [*random_expression(some, names, depth - 1, binds), sign, *random_expression(some, names, depth - 1, binds + 1)]
    elif how == 5:
        sign, binds = some.choice(list(SIGNS.items()))
        words = [sign, *random_expression(some, names, depth - 1, binds)]
    elif how == 6:
        binds = 9
        words = [some.choice(CALLS), "(", *random_expression(some, names, depth - 1), ",", *random_expression(some, names, depth - 1), ")"]
    else:
        parts, binds = [random_expression(some, names, depth - 1) for _ in range(3)], 0
        words = ["if", *parts[0], "then", *parts[1], "else", *parts[2]]
    return ["(", *words, ")"] if binds < level or some.random() < 0.1 else words


def expression(some, names):
    return random_expression(some, sorted(names), some.randrange(5))


def with_when(some, names, words):
    return words + ["when", *expression(some, names)] * (some.random() < 0.4)


def random_closure(some, code):
    """The lines of a closure, each as its words."""
    kind, registers = some.choice(KINDS), []
    lines = [[kind, str(code)]]
    if some.random() < 0.7:
        line = ["let"]
        for name in some.sample(["n", "total", "x", "least", "_y", "K9"], some.randrange(1, 4)):
            line += [name, "=", *expression(some, names_of(kind, registers, "let")), ","]
            registers.append(name)
        lines.append(line[:-1])
    targets = registers + (["a", "b"] if kind == "fold" else [])
    if kind != "map" and targets and some.random() < 0.9:
        line = ["item"]
        for _ in range(some.randrange(1, 4)):
            names = names_of(kind, registers, "item")
            line += [*with_when(some, names, [some.choice(targets), "=", *expression(some, names)]), ","]
        lines.append(line[:-1])
    verbs = ["each"] * some.randrange(0, 3) * (kind != "map") + ["send"] * some.randrange(0, 4) + ["keep"] * (kind == "fold" and some.random() < 0.6)
    for verb in verbs:
        names = names_of(kind, registers, verb)
        lines.append([verb, *with_when(some, names, [*expression(some, names), ",", *expression(some, names)])])
    return lines


def with_mistake(some, lines):
    """The lines with one word otherwise."""
    lines = [list(line) for line in lines]
    line = some.choice(lines)
    at, how = some.randrange(len(line)), some.randrange(4)
    if how == 0:
        del line[at]
    elif how == 1:
        line.insert(at, line[at])
    elif how == 2:
        other = some.randrange(len(line))
        line[at], line[other] = line[other], line[at]
    else:
        line[at] = some.choice([*sorted(RESERVED), *sorted(NAMES), "x", "nobody", "9x", "01", "10000", "70000", "18446744073709551616", "$", "n"])
    return lines


def spelled(some, lines):
    """A text of the lines: blanks are left out, or doubled, where both may be; comments and empty lines stand between them."""
    text = []
    for line in lines:
        said = " " * some.randrange(3)
        for word, after in zip(line, [*line[1:], ""]):
            joins = len(WORD.findall(word + after)) == 1 or WORD.findall(word + after) != [word, after]
            said += word + (" " * some.randrange(1, 3) if joins or some.random() < 0.5 else "")
        text.append(said + some.choice(["", "", "", " # said", "#"]))
        text += some.choice([[], [], [""], ["  # if then else"]])
    return "\n".join(text) + some.choice(["\n", ""])


def random_epochs(some):
    numbers = [0, 1, -1, 2, 5, 100, -(1 << 63), (1 << 63) - 1]
    return [[(some.randrange(2), some.choice([0, 1, 2, 7, (1 << 64) - 1]), some.choice(numbers)) for _ in range(some.randrange(0, 9))] for _ in range(3)]


def wanted(text, epochs, kinds):
    """Output, error text and status."""
    try:
        closures = read_text(text)
    except Fault as fault:
        head, _, line = str(fault).partition(": text: ")
        told = "".join(it if " " <= it <= "~" else "?" for it in line)
        return "", f"td: {head}: text: {told[:80] + ' ..' if len(told) > 80 else told}\n", 1
    for number, (kind, code) in enumerate(kinds):
        if not any((it.kind, it.code) == (kind, code) for it in closures):
            return "", f"td: vertex {2 + 2 * number}: no closure {code}\n", 1
    called_by = [next(it for it in closures if (it.kind, it.code) == each) for each in kinds]
    return answer(called_by, epochs), "", 0


def td(folder, *words, text=""):
    """Output, error text and status of the program in a folder."""
    done = subprocess.run([lib.TD, *words], input=text, capture_output=True, text=True, cwd=folder, timeout=60)
    return done.stdout, done.stderr, done.returncode


def on_disk(folder, plan, epochs, workers):
    """Output lines, error text and status of a disk that has the text beside it: the first epoch is fed and cut, the others are streamed."""
    (folder / "plan").write_text(plan)
    made = td(folder, "format", "disk", "plan", "16", "4", "64", "--closures", "text")
    if made[2] != 0:
        return made
    fed = td(folder, "feed", "disk", "plan", text=f"{epochs[0]}cut\n")
    if fed[2] != 0:
        return fed
    streamed = td(folder, "stream", "disk", "plan", "--workers", str(workers), text="".join(epochs[1:]))
    lines = [line for line in (fed[0] + streamed[0]).splitlines(keepends=True) if line[0].isdigit()]
    return "".join(lines), *streamed[1:]


def tried(folder, seed):
    """Why the answer to a random text differs, or None; and whether the text has a fault."""
    some = random.Random(seed)
    whole = [random_closure(some, 10000 + at) for at in range(some.randrange(1, 4))]
    lines = [line for closure in whole for line in closure]
    kinds = [(closure[0][0], 10000 + at) for at, closure in enumerate(whole)]
    text = spelled(some, with_mistake(some, lines) if some.random() < 0.5 else lines)
    epochs = random_epochs(some)
    plan = "0 input\n1 input\n" + "".join(f"{2 + 2 * at} {kind} {code} 0 1\n{3 + 2 * at} output {2 + 2 * at}\n" for at, (kind, code) in enumerate(kinds))
    texts = ["".join(f"{port} {key} {val}\n" for port, key, val in epoch) + ".\n" for epoch in epochs]
    data = "".join(texts)
    here = folder / str(seed)
    here.mkdir()
    (here / "text").write_text(text)
    want = wanted(text, epochs, kinds)
    got = td(here, "batch", "--closures", "text", text=f"{plan}--\n{data}")
    if got == want and seed % 4 == 0:
        got = on_disk(here, plan, texts, some.randrange(1, 3))
    return (None if got == want else f"seed {seed}: {text!r} on {plan + data!r}: {got}, and not {want}"), want[2]


def main():
    count, first = (int(it) for it in (*sys.argv[1:], *(2000, 1)[len(sys.argv) - 1:])) if len(sys.argv) <= 3 else sys.exit(__doc__)
    lib.built(lib.TD)
    with lib.folder(in_memory=True) as folder, concurrent.futures.ThreadPoolExecutor(os.cpu_count()) as pool:
        ended = list(pool.map(lambda seed: tried(folder, seed), range(first, first + count)))
    wrong = [why for why, _ in ended if why]
    if wrong:
        lib.fail(f"{len(wrong)} of {count} differ; the first: {wrong[0]}")
    print(f"{count} random texts, {sum(status for _, status in ended)} of them refused, as docs/CLOSURES.md says")


if __name__ == "__main__":
    main()
