#!/usr/bin/env python3
"""The definitions of the batch meaning, written down in Python by hand, beside `td batch` and `td run` on random plans.

    tests/meaning.py [SEED [COUNT]]     needs crates/td/out/td (see the README); by default 20000 plans, and the seed `td`

Each definition has the name, the arguments and the recursion that it has in crates/NAME/specs, file by file, so that a reader can lay both side by side;
what the closures answer is read from docs/CATALOGUE.md (tests/answers.py). What proofs alone use is left out. Numbers, `sorted`, tuples and
dictionaries are Python's own: its numbers have no bounds either, its tuples stand in the orders of the specs, field by field, and a dictionary is a
map. Of tests/random_inputs.py it takes which codes are drawn, and not its reading. Several plans stand side by side in one run of `td`."""

import collections
import concurrent.futures
import itertools
import random
import subprocess
import sys

import lib
import random_inputs
from answers import Item, Rec, catalogue

# So many records in a bag are enough: a random loop may double them at each turn.
ENOUGH = 2000
# So many plans are drawn from one seed, by one process.
PLANS_OF_A_PART = 250
# Plans stand side by side in one run as long as they have no more vertices: a run costs more than a plan, and an engine's tables grow faster.
VERTICES_OF_A_RUN = 32


class TooLarge(Exception):
    """A plan whose meaning takes long: it is passed over."""


# ---- td_stamp/specs: values, Bag, Batch, Groups, States

Arrival = collections.namedtuple("Arrival", "key item")
Entry = collections.namedtuple("Entry", "input rec")
Output = collections.namedtuple("Output", "vertex rec")


def bag_of(xs):
    if len(xs) > ENOUGH:
        raise TooLarge
    return sorted(xs)


def set_of(xs):
    return sorted(set(xs))


def records_for(input, batch):
    return [e.rec for e in batch if e.input == input]


def arrival_of(port, r):
    return Arrival(r.key, Item(port, r.val))


def rec_of(a):
    return Rec(a.key, a.item.val)


def items_of(key, arrivals):
    return bag_of([a.item for a in arrivals if a.key == key])


def groups(arrivals):
    return [(key, items_of(key, arrivals)) for key in set_of([a.key for a in arrivals])]


def state_of(states, vertex, key):
    return states.get((vertex, key))


def with_state(states, vertex, key, state):
    return {**states, (vertex, key): state}


def without_state(states, vertex, key):
    return {place: state for place, state in states.items() if place != (vertex, key)}


# ---- td_plan/specs: Kind, Lines, Tree

Input = collections.namedtuple("Input", "")
Map = collections.namedtuple("Map", "code")
Distinct = collections.namedtuple("Distinct", "")
Group = collections.namedtuple("Group", "code")
Fold = collections.namedtuple("Fold", "code")
Enter = collections.namedtuple("Enter", "")
Feedback = collections.namedtuple("Feedback", "")
Leave = collections.namedtuple("Leave", "")
OutputKind = collections.namedtuple("Output", "")
Vertex = collections.namedtuple("Vertex", "number kind sources")
Loop = collections.namedtuple("Loop", "bound")
End = collections.namedtuple("End", "")
Done = collections.namedtuple("Done", "")
Node = collections.namedtuple("Node", "vertex rest")
Block = collections.namedtuple("Block", "bound body rest")
Rest = collections.namedtuple("Rest", "inside after")


def opened(bound, r):
    match r.after:
        case []:
            return Rest(Block(bound, r.inside, Done()), [])
        case [next, *outer]:
            return Rest(Block(bound, r.inside, next), outer)


def rest_of(lines):
    match lines:
        case []:
            return Rest(Done(), [])
        case [Vertex() as v, *lines]:
            r = rest_of(lines)
            return r._replace(inside=Node(v, r.inside))
        case [Loop(bound), *lines]:
            return opened(bound, rest_of(lines))
        case [End(), *lines]:
            r = rest_of(lines)
            return Rest(Done(), [r.inside, *r.after])


def tree_of(plan):
    return rest_of(plan).inside


def size(nodes):
    match nodes:
        case Done():
            return 0
        case Node(v, rest):
            return 1 + size(rest)
        case Block(bound, body, rest):
            return size(body) + size(rest)


# ---- td_calls/specs: Callbacks

Kept = collections.namedtuple("Kept", "seen buffered")
nothing_kept = Kept(seen=[], buffered=[])


def arrivals(bags):
    return [arrival_of(port, r) for port, bag in enumerate(bags) for r in bag]


def on_notification(answers, kind, key, state, items):
    match kind:
        case Group(code):
            return state, answers.group(code)(key, items)
        case Fold(code):
            return answers.fold(code)(key, state, items)


def sent_when_notified(answers, state, kind, arrived):
    return [r for key, items in groups(arrived) for r in on_notification(answers, kind, key, state(key), items)[1]]


def sends(answers, state, kind, kept, arrived):
    match kind:
        case Input():
            return []
        case Map(code):
            return bag_of([r for a in arrived for r in answers.emit(code)(a.item.port, rec_of(a))])
        case Distinct():
            return [r for r in set_of([rec_of(a) for a in arrived]) if r not in kept.seen]
        case Group() | Fold():
            return bag_of(sent_when_notified(answers, state, kind, kept.buffered + arrived))
        case _:
            return bag_of([rec_of(a) for a in arrived])


# ---- td_batch/specs: Meaning

EpochInput = collections.namedtuple("EpochInput", "answers states batch")
EpochResult = collections.namedtuple("EpochResult", "states outs")
RunResult = collections.namedtuple("RunResult", "states outs")


def emitted(bags, v):
    return bags[v] if v < len(bags) else []


def answer(epoch, v, kind, arrived):
    match kind:
        case Input():
            return bag_of(records_for(v, epoch.batch))
        case _:
            return sends(epoch.answers, lambda key: state_of(epoch.states, v, key), kind, nothing_kept, arrived)


def returned(before):
    match before:
        case None:
            return []
        case earlier:
            return earlier


def entered(before, bags):
    match before:
        case None:
            return bags
        case _:
            return []


def bags_read(kind, before, bags):
    match kind:
        case Enter():
            return entered(before, bags)
        case Feedback():
            return returned(before)
        case _:
            return bags


def emission(epoch, before, bags, v):
    return answer(epoch, v.number, v.kind, arrivals([emitted(bags_read(v.kind, before, bags), s) for s in v.sources]))


def turns(turn, n, before):
    if n == 0:
        return []
    bags = turn(before)
    return [bags, *turns(turn, n - 1, bags)]


def over_turns(each, v, n):
    if n == 0:
        return []
    return [bag_of([r for bags in each for r in emitted(bags, v)]), *over_turns(each, v + 1, n - 1)]


def turn(epoch, nodes, before, bags):
    match nodes:
        case Done():
            return bags
        case Node(v, rest):
            return turn(epoch, rest, before, [*bags, emission(epoch, before, bags, v)])
        case Block(bound, body, rest):
            each = turns(lambda earlier: turn(epoch, body, earlier, bags), bound, None)
            return turn(epoch, rest, before, bags + over_turns(each, len(bags), size(body)))


def epoch_bags(epoch, nodes):
    return turn(epoch, nodes, None, [])


def outputs_at(bag, v, kind):
    match kind:
        case OutputKind():
            return [Output(vertex=v.number, rec=r) for r in bag(v.number)]
        case _:
            return []


def outputs_in(bag, nodes):
    match nodes:
        case Done():
            return []
        case Node(v, rest):
            return outputs_at(bag, v, v.kind) + outputs_in(bag, rest)
        case Block(bound, body, rest):
            return outputs_in(bag, rest)


def with_kept(states, v, key, state):
    match state:
        case None:
            return without_state(states, v, key)
        case _:
            return with_state(states, v, key, state)


def states_by(epoch, v, kind, arrived, states):
    match kind:
        case Fold():
            kept = states
            for key, items in groups(arrived):
                kept = with_kept(kept, v.number, key, on_notification(epoch.answers, kind, key, state_of(epoch.states, v.number, key), items)[0])
            return kept
        case _:
            return states


def states_in(epoch, bag, nodes, states):
    match nodes:
        case Done():
            return states
        case Node(v, rest):
            return states_in(epoch, bag, rest, states_by(epoch, v, v.kind, arrivals([bag(s) for s in v.sources]), states))
        case Block(bound, body, rest):
            return states_in(epoch, bag, rest, states)


def result_of(epoch, nodes, bag):
    return EpochResult(states=states_in(epoch, bag, nodes, epoch.states), outs=bag_of(outputs_in(bag, nodes)))


def epoch_result(epoch, nodes):
    bags = epoch_bags(epoch, nodes)
    return result_of(epoch, nodes, lambda v: emitted(bags, v))


def run(answers, nodes, states, batches):
    match batches:
        case []:
            return RunResult(states=states, outs=[])
        case [batch, *later]:
            first = epoch_result(EpochInput(answers=answers, states=states, batch=batch), nodes)
            rest = run(answers, nodes, first.states, later)
            return RunResult(states=rest.states, outs=[first.outs, *rest.outs])


def numbered(first, outs):
    return list(enumerate(outs, first))


# ---- Texts


def text_of(line):
    match line:
        case End():
            return "end"
        case Loop(bound):
            return f"loop {bound}"
        case Vertex(number, kind, sources):
            return " ".join(map(str, [number, type(kind).__name__.lower(), *kind, *sources]))


def answer_text(outs):
    return "".join(f"{epoch} {o.vertex} {o.rec.key} {o.rec.val}\n" for epoch, recs in numbered(1, outs) for o in recs)


# ---- Random plans and batches

CODED = {"map": Map, "group": Group, "fold": Fold}


class Drawing:
    """A plan without faults, drawn line by line."""

    def __init__(self, rng):
        self.rng, self.plan, self.count = rng, [], 0
        read = [self.vertex(Input()) for _ in range(rng.randrange(1, 3))]
        for _ in range(rng.randrange(1, 6)):
            self.step(read, 0, 1)
        self.vertex(OutputKind(), *self.some(read), read[-1])

    def vertex(self, kind, *sources):
        self.plan.append(Vertex(self.count, kind, list(sources)))
        self.count += 1
        return self.count - 1

    def some(self, read):
        return self.rng.choices(read, k=self.rng.choice([1, 1, 1, 2, 3]))

    def kind(self, depth):
        name = self.rng.choice(["map", "map", "group", "distinct"] + ["fold", "fold"] * (depth == 0))
        return CODED[name](self.rng.choice(self.rng.choice(random_inputs.SHELVES[name]))) if name in CODED else Distinct()

    def step(self, read, depth, turns):
        """A vertex, or a loop, of a block on which these are read."""
        if depth < 3 and turns <= 8 and self.count < 40 and self.rng.randrange(3) == 0:
            read += self.loop(list(read), depth + 1, turns)
        else:
            read.append(self.vertex(self.kind(depth), *self.some(read)))

    def loop(self, outside, depth, turns):
        """A loop, and the numbers of its leaves. Its feedback gets its source when all that it may read stands there."""
        bound = self.rng.randrange(1, 5)
        self.plan.append(Loop(bound))
        read = [self.vertex(Enter(), self.rng.choice(outside)) for _ in range(self.rng.randrange(1, 3))]
        feedbacks = [self.vertex(Feedback(), 0) for _ in range(self.rng.choice([0, 1, 1, 1, 2]))]
        places = [len(self.plan) - at for at in range(1, len(feedbacks) + 1)]
        read += feedbacks
        for _ in range(self.rng.randrange(1, 4)):
            self.step(read, depth, turns * bound)
        for place in places:
            self.plan[place] = self.plan[place]._replace(sources=[self.rng.choice(read)])
        leaves = [self.vertex(Leave(), self.rng.choice(read)) for _ in range(self.rng.randrange(1, 3))]
        self.plan.append(End())
        return leaves


def vertices(plan):
    return [line for line in plan if isinstance(line, Vertex)]


def beside(plan, more):
    """Both as one plan, neither of which reads the other."""
    by = len(vertices(plan))
    return plan + [
        Vertex(line.number + by, line.kind, [source + by for source in line.sources]) if isinstance(line, Vertex) else line for line in more
    ]


def plans_side_by_side(rng, count):
    """So many plans, several of them together as one plan, with how many these are."""
    plan, held = [], 0
    for _ in range(count):
        more = Drawing(rng).plan
        if held and len(vertices(plan) + vertices(more)) > VERTICES_OF_A_RUN:
            yield plan, held
            plan, held = [], 0
        plan, held = beside(plan, more), held + 1
    yield plan, held


def random_batch(rng, inputs):
    """A batch of few keys, so that they meet, and of values that reach to the ends of their range."""
    half = random_inputs.HALF
    keys = [*range(4), 2**64 - 1, rng.randrange(2**64)]
    return [
        Entry(input, Rec(rng.choice(keys), rng.choice([rng.randrange(-4, 5), rng.randrange(-99, 99), half - 1, -half, rng.randrange(-half, half)])))
        for input in inputs for _ in range(rng.choice([0, 1, 2, 3, 12]))
    ]


def said_by(words, text):
    done = subprocess.run([lib.TD, *words], input=text, capture_output=True, text=True)
    return done.returncode, done.stdout, done.stderr


def first_difference(wanted, got):
    """The first lines that are not the same in two texts."""
    lines = itertools.zip_longest(wanted.splitlines(), got.splitlines())
    return next((f"the meaning has the line {mine}, and td {other}" for mine, other in lines if mine != other), "the same lines")


def compare(rng, plan):
    """Compares what `td` answers of a plan, and of some batches, with their meaning, and answers how many lines these have."""
    batches = [random_batch(rng, [v.number for v in vertices(plan) if isinstance(v.kind, Input)]) for _ in range(rng.randrange(1, 6))]
    wanted = answer_text(run(catalogue, tree_of(plan), {}, batches).outs)
    lines = [*map(text_of, plan), "--"]
    for batch in batches:
        lines += [*(f"{e.input} {e.rec.key} {e.rec.val}" for e in batch), "."]
    text = "\n".join([*lines, ""])
    for words in (["batch"], ["run", "--workers", str(rng.choice(random_inputs.WORKERS))]):
        got = said_by(words, text)
        if got != (0, wanted, ""):
            lib.fail(f"{text}\ntd {' '.join(words)}: status {got[0]}: {got[2]}{first_difference(wanted, got[1])}")
    return wanted.count("\n")


def part(seed, count):
    """What was met in so many plans, or why one was answered otherwise."""
    rng, met = random.Random(seed), collections.Counter()
    for plan, held in plans_side_by_side(rng, count):
        try:
            lines = compare(rng, plan)
        except TooLarge:
            met["passed over"] += held
        except SystemExit as wrong:
            return met, str(wrong)
        else:
            met.update({"plans": held, "runs": 2, "lines of output": lines})
            met.update(type(line if isinstance(line, Loop) else line.kind).__name__ for line in plan if not isinstance(line, End))
    return met, None


def main():
    seed, count = (sys.argv[1:3] + ["td", "20000"][len(sys.argv) - 1:])[:2]
    lib.built(lib.TD)
    counts = [min(PLANS_OF_A_PART, int(count) - first) for first in range(0, int(count), PLANS_OF_A_PART)]
    met = collections.Counter()
    with concurrent.futures.ProcessPoolExecutor() as pool:
        for more, wrong in pool.map(part, [f"{seed} {number}" for number in range(len(counts))], counts):
            if wrong:
                pool.shutdown(wait=False, cancel_futures=True)
                lib.fail(wrong)
            met += more
    print(f"{met['plans']} plans in {met['runs']} runs of td, each answered by its meaning; {met['passed over']} were passed over, since they take long")
    print(", ".join(f"{what} {times}" for what, times in met.most_common() if what not in ("plans", "runs", "passed over")))


if __name__ == "__main__":
    main()
