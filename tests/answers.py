"""What each closure of the catalogue answers: docs/CATALOGUE.md, read in Python by hand. The reading shares nothing with the program, its definitions or
its proofs: it is a check of these, and of what the page says. Which codes there are it has from the table (tests/catalogue.py).

A closure stands under the first code of its row. It is given P, how far its code is above that, and then a map the port, the key and the value of a
record, a group a key and its items, and a fold a key, its state and its items. Records are (key, value), items (port, value), states (a, b)."""

import collections
import functools

from catalogue import KINDS, shelves

HALF = 2**63
MILLION = 10**6


def saturated(value):
    return max(-HALF, min(HALF - 1, value))


def wrapped(number):
    """The signed number of the same 64 bits."""
    return (number + HALF) % (2 * HALF) - HALF


MAPS = {
    1: lambda p, port, key, val: [(key, val)],
    2: lambda p, port, key, val: [(key, saturated(val - 1))],
    3: lambda p, port, key, val: [(key, val)] * (val % 2 == 0),
    4: lambda p, port, key, val: [(key, val)] * (val % 2),
    5: lambda p, port, key, val: [(key // 2, val)],
    6: lambda p, port, key, val: [(key, val)] * 2,
    7: lambda p, port, key, val: [(key, port)],
    8: lambda p, port, key, val: [(key, val)] * (val > 0),
    9: lambda p, port, key, val: [((key % 4 + 1) % 4, val)],
    1000: lambda p, port, key, val: [(p, val)],
    2000: lambda p, port, key, val: [(key // (p or 1000), val)],
    3000: lambda p, port, key, val: [(key % (p or 1000), val)],
    4000: lambda p, port, key, val: [(key, val % (p or 1000))],
    5000: lambda p, port, key, val: [(key, val)] * (val > p),
    6000: lambda p, port, key, val: [(key, val)] * (val < p),
    7000: lambda p, port, key, val: [(key, val)] * (val == p),
    8000: lambda p, port, key, val: [(key, val // (p or 1000))],
    9000: lambda p, port, key, val: [(val % 2**64, wrapped(key))],
    9001: lambda p, port, key, val: [(key, saturated(-val))],
    9002: lambda p, port, key, val: [(key, saturated(abs(val)))],
    9003: lambda p, port, key, val: [(key, saturated(saturated(val * MILLION) + key % MILLION))],
    9004: lambda p, port, key, val: [(val % MILLION, val // MILLION)],
    9005: lambda p, port, key, val: [(key, wrapped(key))],
}


def total(items, start=0):
    """The sum of items in their order, by port and val."""
    for _, val in sorted(items):
        start = saturated(start + val)
    return start


def values_of(items, at):
    """The values of a port, from the least on."""
    return sorted(val for port, val in items if port == at)


def join_least(p, key, items):
    vals = [values_of(items, at) for at in (0, 1)]
    return [(key, saturated(min(vals[0]) + min(vals[1])))] if all(vals) else []


def pairs(p, key, items):
    """Eight of the pairs of an item of port 0 and one of port 1."""
    return [(wrapped(other) % 2**64, one) for one in values_of(items, 0) for other in values_of(items, 1)][8 * p:8 * p + 8]


def runs(items):
    """How many values there are that differ from the one before."""
    values = [val for _, val in sorted(items)]
    return sum(at == 0 or values[at - 1] != val for at, val in enumerate(values))


GROUPS = {
    20: lambda p, key, items: [(key, len(items))],
    21: lambda p, key, items: [(key, total(items))],
    22: lambda p, key, items: [(key, min(val for _, val in items))],
    23: lambda p, key, items: [(key, max(val for _, val in items))],
    24: join_least,
    9100: lambda p, key, items: [(key, runs(items))],
    9101: lambda p, key, items: [(key, val) for _, val in sorted(items)[-(p + 1):]],
    9109: lambda p, key, items: [(key, total(items) // len(items))],
    9110: pairs,
}


def totalled(p, key, state, items):
    a, b = state or (0, 0)
    a = total(items, a)
    return (a, saturated(b + len(items))), [(key, a)]


def toggled(p, key, state, items):
    return (None, [(key, 0)]) if state else ((max(items)[1], 0), [(key, 1)])


def sent(key, a, b=0):
    """A fold that keeps a and b, and sends a."""
    return (a, b), [(key, a)]


def so_far(state, items):
    """The values of the items, and the one that is kept."""
    return [val for _, val in items] + ([state[0]] if state else [])


def averaged(p, key, state, items):
    (a, b), _ = totalled(p, key, state, items)
    return (a, b), [(key, a // b)]


def two_greatest(p, key, state, items):
    """Keeps the greatest value and the one after it; the least of all stands for none."""
    kept = sorted([*(state or (-HALF, -HALF)), *[val for _, val in items]])[:-3:-1]
    return tuple(kept), [(key, kept[0])] + [(key, kept[1])] * (kept[1] > -HALF)


def balanced(p, key, state, items):
    a = state[0] if state else 0
    for _, val in sorted(items):
        a = max(0, saturated(a + val))
    return sent(key, a)


def last_of(state, items):
    """The last value of port 1, of these items or before."""
    return values_of(items, 1)[-1] if values_of(items, 1) else state[0] if state else None


def priced(p, key, state, items):
    price, pieces = last_of(state, items), values_of(items, 0)
    if price is None:
        return None, []
    return (price, 0), [(key, saturated(total((0, val) for val in pieces) * price))] if pieces else []


def paired(p, key, state, items):
    last = last_of(state, items)
    if last is None:
        return None, []
    return (last, 0), [(val % 2**64, last) for val in values_of(items, 0)[8 * p:8 * p + 8]]


def visited(p, key, state, items):
    """Keeps the greatest value and how many sessions there were."""
    for _, val in sorted(items):
        state = (max(state[0], val), state[1] + (val > saturated(state[0] + p))) if state else (val, 1)
    return state, [(key, state[1])]


FOLDS = {
    40: totalled,
    41: toggled,
    9200: lambda p, key, state, items: sent(key, max(so_far(state, items))),
    9201: lambda p, key, state, items: sent(key, min(so_far(state, items))),
    9202: lambda p, key, state, items: sent(key, max(items)[1]),
    9203: lambda p, key, state, items: sent(key, saturated((state[0] if state else 0) + len(items))),
    9204: averaged,
    9205: two_greatest,
    9206: balanced,
    9207: priced,
    9210: paired,
    9300: visited,
}

# The answers of each code, and some codes of each row, shelf by shelf.
READ = {"map": MAPS, "group": GROUPS, "fold": FOLDS}
STORED = {
    kind: {code: functools.partial(READ[kind][row.first], code - row.first) for shelf in shelves(kind) for row in shelf for code in range(row.first, row.last + 1)}
    for kind in KINDS
}
SHELVES = {
    kind: [[code for row in shelf for code in sorted({*range(row.first, min(row.first + 4, row.last)), row.last})] for shelf in shelves(kind)] for kind in KINDS
}


# The same as an `Answers` of the definitions is (tests/meaning.py)

Rec = collections.namedtuple("Rec", "key val")
Item = collections.namedtuple("Item", "port val")
Answers = collections.namedtuple("Answers", "emit group fold")


def records(sent):
    return [Rec(*record) for record in sent]


def kept_and_records(answer):
    state, sent = answer
    return state, records(sent)


catalogue = Answers(
    emit=lambda code: lambda port, r: records(STORED["map"][code](port, r.key, r.val)),
    group=lambda code: lambda key, items: records(STORED["group"][code](key, items)),
    fold=lambda code: lambda key, state, items: kept_and_records(STORED["fold"][code](key, state, items)),
)
