#!/usr/bin/env python3
"""Asks td_reach all that there is to ask of some plans, compares the answers with a search over paths, and takes its time.

    tests/could.py [PLANS [SEED]]       needs the kit; by default 20 random plans of 64 vertices beside LOOP, NEST and RING
    tests/could.py --steps              needs crates/engine_steps/out/engine_steps (see the README)

It builds tests/could.rattle in a copy of the repository's crates below it, which is proved on the way. The search shares
nothing with td_reach: it goes along edges and keeps the earliest time at each place. Of each plan it compares every pair of
places, at each time of epoch 1 whose counters are 0, 1 or 2. Last come the times: nanoseconds for the table of a plan, and
for one answer, the mean over all pairs of places and times, ten rounds.

With `--steps` no program is built, and no time taken: `engine_steps`, which makes the table for each question, is asked of LOOP,
NEST, RING and 20 random plans of 16 vertices, at most a thousand pairs of each, drawn from all."""

import itertools
import random
import subprocess
import sys

import lib

PAIRS_BY_STEPS = 1000
LOOP = "0 input\nloop 3\n1 enter 0\n2 feedback 3\n3 map 2 1 2\n4 leave 3\nend\n5 output 4\n"
NEST = ("0 input\nloop 2\n1 enter 0\n2 feedback 7\n3 map 1 1 2\nloop 2\n4 enter 3\n5 feedback 6\n6 group 21 4 5\n"
        "7 leave 6\nend\n8 leave 7\nend\n9 output 8\n")
RING = ("0 input\nloop 10\n1 enter 0\n2 feedback 4\n3 distinct 1 2\n4 map 9 3\n5 leave 3\nend\n6 group 20 5\n"
        "7 output 6\n")


# Plans


def read(text):
    """Of each vertex its kind, its sources, and how many loops are open where it reads and where it is read."""
    vertices, loops = [], 0
    for line in text.splitlines():
        words = line.split()
        if words[0] == "loop":
            loops += 1
        elif words[0] == "end":
            loops -= 1
        else:
            kind = words[1]
            sources = [int(word) for word in words[3 if kind in ("map", "group", "fold") else 2:]]
            vertices.append((kind, sources, loops - (kind == "enter"), loops - (kind == "leave")))
    return vertices


class RandomPlan:
    """A plan of so many vertices and at most so many edges, nearly as many where the bounds leave room."""

    def __init__(self, rng, count, edges):
        self.rng, self.count, self.left = rng, count, edges
        self.lines, self.number = [], 0
        outermost = [self.vertex("input")]
        self.block(outermost, 0)
        self.vertex("output", rng.choice(outermost))
        self.text = "\n".join(self.lines) + "\n"

    def vertex(self, words, *sources):
        self.lines.append(" ".join([str(self.number), words, *map(str, sources)]))
        self.left -= len(sources)
        self.number += 1
        return self.number - 1

    def sources(self, read):
        spare = self.left - (self.count - self.number)
        return [self.rng.choice(read) for _ in range(1 + max(0, min(spare, self.rng.randrange(4))))]

    def block(self, read, depth):
        """Vertices of a block; a loop leaves room for its own enter, feedback, leave and one vertex."""
        stop = self.count - 1 - depth
        while self.number < stop:
            if depth < 3 and stop - self.number > 5 and self.rng.random() < 0.25:
                self.loop(read, depth)
            else:
                kinds = ["map 1", "distinct", "group 20"] + (["fold 40"] if depth == 0 else [])
                read.append(self.vertex(self.rng.choice(kinds), *self.sources(read)))
            if depth and self.rng.random() < 0.15:
                return

    def loop(self, outer, depth):
        self.lines.append(f"loop {self.rng.randrange(1, 1001)}")
        own = [self.vertex("enter", self.rng.choice(outer))]
        returns = []
        for _ in range(self.rng.choice([1, 1, 1, 2])):
            returns.append((len(self.lines), self.vertex("feedback", 0)))
            own.append(returns[-1][1])
        self.block(own, depth + 1)
        for line, number in returns:
            self.lines[line] = f"{number} feedback {self.rng.choice(own)}"
        outer.append(self.vertex("leave", self.rng.choice(own)))
        self.lines.append("end")


# The search


def sent(kind, counters):
    """The counters with which a vertex of this kind sends what it read at these, the outermost first."""
    if kind == "enter":
        return counters + (0,)
    if kind == "leave":
        return counters[:-1]
    if kind == "feedback":
        return counters[:-1] + (counters[-1] + 1,)
    return counters


class Search:
    def __init__(self, text):
        self.vertices = read(text)
        self.edges = [(source, reader) for reader, (_, sources, _, _) in enumerate(self.vertices) for source in sources]
        self.places = [("vertex", v, reads) for v, (_, _, reads, _) in enumerate(self.vertices)]
        self.places += [("edge", e, self.vertices[source][3]) for e, (source, _) in enumerate(self.edges)]

    def earliest(self, place, counters):
        """The earliest time at each place to which a path leads."""
        kind, number, _ = place
        start = number if kind == "vertex" else self.edges[number][1]
        at = {(kind, number): counters, ("vertex", start): counters}
        todo = [start]
        while todo:
            vertex = todo.pop()
            after = sent(self.vertices[vertex][0], at["vertex", vertex]) if self.is_read(vertex) else None
            for edge, (source, reader) in enumerate(self.edges):
                if source != vertex:
                    continue
                at["edge", edge] = min(after, at.get(("edge", edge), after))
                if ("vertex", reader) not in at or after < at["vertex", reader]:
                    at["vertex", reader] = after
                    todo.append(reader)
        return at

    def is_read(self, vertex):
        return any(source == vertex for source, _ in self.edges)

    def stamps(self):
        return [(place, time) for place in self.places for time in itertools.product(range(3), repeat=place[2])]

    def answers_from(self, stamp, others):
        """Whether one pointstamp could result in each of others."""
        at = self.earliest(*stamp)
        return "".join("01"[to[:2] in at and at[to[:2]] <= other] for to, other in others)

    def answers(self):
        stamps = self.stamps()
        for stamp in stamps:
            yield self.answers_from(stamp, stamps)


# The program


def run(program, text, *words):
    return subprocess.run([program, *words], input=text, capture_output=True, text=True, check=True).stdout


def compare(program, name, text):
    search = Search(text)
    got = run(program, text).splitlines()
    stamps = search.stamps()
    if len(got) != len(stamps):
        lib.fail(f"{name}: {len(got)} lines for {len(stamps)} pointstamps\n{text}{got[:1]}")
    yes = 0
    for (place, time), line, wanted in zip(stamps, got, search.answers()):
        if line != wanted:
            to = next(i for i, (a, b) in enumerate(zip(line, wanted)) if a != b)
            lib.fail(f"{name}: from {place} {time} to {stamps[to]}: td_reach {line[to]}, the search {wanted[to]}\n{text}")
        yes += line.count("1")
    print(f"{name}: {len(search.vertices)} vertices, {len(search.edges)} edges, {len(stamps) ** 2} pairs, {yes} yes, no difference")


# By `engine_steps`


def worded(stamp):
    (kind, number, _), time = stamp
    return f"{kind} {number} 1" + (f"<{','.join(map(str, time))}>" if time else "")


def drawn_pairs(rng, stamps):
    """Pairs of pointstamps: all, or as many of them as are asked."""
    count = len(stamps) ** 2
    numbers = range(count) if count <= PAIRS_BY_STEPS else rng.sample(range(count), PAIRS_BY_STEPS)
    return [(stamps[number // len(stamps)], stamps[number % len(stamps)]) for number in numbers]


def compare_steps(name, text, rng):
    """Compares what `engine_steps` answers with the search, and answers of how many pairs."""
    search = Search(text)
    pairs = drawn_pairs(rng, search.stamps())
    commands = "".join(f"could {worded(one)} to {worded(other)}\n" for one, other in pairs)
    status, output, errors = lib.steps(f"{text}--\n{commands}")
    got = output.splitlines()
    if status != 0 or len(got) != len(pairs):
        lib.fail(f"{name}: status {status}, {len(got)} answers to {len(pairs)} pairs: {errors}\n{text}")
    for (one, other), answer in zip(pairs, got):
        wanted = {"0": "no", "1": "yes"}[search.answers_from(one, [other])]
        if answer != wanted:
            lib.fail(f"{name}: from {one} to {other}: td_reach {answer}, the search {wanted}\n{text}")
    return len(pairs), got.count("yes")


def compare_by_steps():
    lib.built(lib.STEPS)
    rng = random.Random(1)
    plans = [("LOOP", LOOP), ("NEST", NEST), ("RING", RING)]
    plans += [(f"random {i}", RandomPlan(rng, 16, 32).text) for i in range(1, 21)]
    counts = [compare_steps(name, text, rng) for name, text in plans]
    asked, yes = map(sum, zip(*counts))
    if yes in (0, asked):
        lib.fail(f"all {asked} answers are alike")
    print(f"{len(plans)} plans, {asked} pairs asked of engine_steps, {yes} yes, no difference")


def main():
    if sys.argv[1:] == ["--steps"]:
        return compare_by_steps()
    count = int(sys.argv[1]) if len(sys.argv) > 1 else 20
    rng = random.Random(int(sys.argv[2]) if len(sys.argv) > 2 else 1)
    plans = [("LOOP", LOOP), ("NEST", NEST), ("RING", RING)]
    plans += [(f"random {i}", RandomPlan(rng, 64, 128).text) for i in range(1, count + 1)]
    with lib.folder() as folder:
        program = lib.build_beside("td_reach", lib.ROOT / "tests/could.rattle", folder, given=LOOP)
        for name, text in plans:
            compare(program, name, text)
        for name, text in plans:
            table, answers, pairs = map(int, run(program, text, "time").split()[1::2])
            print(f"{name}: table {table / 1e6:.2f} ms, answer {answers / max(pairs, 1):.0f} ns")


if __name__ == "__main__":
    main()
