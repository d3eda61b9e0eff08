"""One epoch of a plan at a time, by libtd.so, which `./build --library` makes. docs/LIBRARY.md is its reference.

    plan = Plan("0 input\\n1 fold 40 0\\n2 output 1\\n", "/usr/local/lib/libtd.so")
    states, outputs = plan.epoch([], [(0, 7, 5), (0, 7, 3)])
    # states [(1, 7, 8, 2)], outputs [(2, 7, 8)]

A record is (vertex, key, value): the input that it comes to, or the output. A state is (vertex, key, a, b). The caller keeps the states, and
hands those before an epoch in. Nothing else is kept between calls.

So an epoch costs all states. One over a dictionary costs its records alone, since only the states that it asks for are handed in:

    kept = {}
    outputs = plan.epoch_of(kept, [(0, 7, 5), (0, 7, 3)])
    # kept {(1, 7): (8, 2)}, outputs [(2, 7, 8)]

A plan may have closures in text (docs/CLOSURES.md) beside those of the catalogue:

    doubled = Plan("0 input\\n1 map 10000 0\\n2 output 1\\n", closures="map 10000\\n  send key, val * 2\\n")"""

import ctypes

U64, SIGNED_63 = range(2**64), range(-(2**63), 2**63)


class Record(ctypes.Structure):
    _fields_ = [("vertex", ctypes.c_uint64), ("key", ctypes.c_uint64), ("val", ctypes.c_int64)]
    ranges = (U64, U64, SIGNED_63)


class State(ctypes.Structure):
    _fields_ = [("vertex", ctypes.c_uint64), ("key", ctypes.c_uint64), ("a", ctypes.c_int64), ("b", ctypes.c_int64)]
    ranges = (U64, U64, SIGNED_63, SIGNED_63)


class Change(ctypes.Structure):
    _fields_ = [("vertex", ctypes.c_uint64), ("key", ctypes.c_uint64), ("is_kept", ctypes.c_uint64), ("a", ctypes.c_int64), ("b", ctypes.c_int64)]
    ranges = (U64, U64, U64, SIGNED_63, SIGNED_63)


class Counts(ctypes.Structure):
    _fields_ = [("states", ctypes.c_size_t), ("outputs", ctypes.c_size_t)]


DONE, MEMORY, ROOM = 0, 10, 17
# What the place of an answer is.
LINE, VERTEX, RECORD, STATE, CLOSURES = "line {}", "vertex {}", "record {}", "state {}", "closures line {}"
ANSWERS = {
    1: ("syntax", LINE), 2: ("number", LINE), 3: ("order", LINE), 4: ("nest", LINE), 5: ("bound", LINE), 6: ("fold in loop", LINE),
    7: ("again", LINE), 8: ("too many", LINE), 9: ("no input or output", ""), 10: ("memory", ""), 11: ("the text is no UTF-8", ""),
    12: ("no closure", VERTEX), 13: ("no input", RECORD), 14: ("more states than places", ""), 15: ("no fold", STATE),
    16: ("doubled", STATE), 17: ("room", ""), 18: ("syntax", CLOSURES), 19: ("name", CLOSURES), 20: ("code", CLOSURES), 21: ("too many", CLOSURES),
    22: ("deep", CLOSURES), 23: ("the closures are no UTF-8", ""),
}


class Refused(Exception):
    """Why a call did nothing: its number, as in td.h, and the place that goes with it."""

    def __init__(self, number, place):
        what, where = ANSWERS.get(number, (f"answer {number}", "{}"))
        super().__init__(f"{where.format(place)}: {what}" if where else what)
        self.number, self.place = number, place


def array_of(kind, rows, places=0):
    """An array of rows, with at least so many places; a number that its field does not hold is refused."""
    array = (kind * max(len(rows), places, 1))()
    for at, row in enumerate(rows):
        if len(row) != len(kind.ranges) or not all(each in within for each, within in zip(row, kind.ranges)):
            raise ValueError(f"{kind.__name__} {at}: {row}")
        array[at] = kind(*row)
    return array


def rows_of(array, count):
    """The first rows of an array."""
    return [tuple(getattr(row, name) for name, _ in row._fields_) for row in array[:count]]


def changes_of(array, count):
    """The first changes of an array."""
    return [(row.vertex, row.key, (row.a, row.b) if row.is_kept else None) for row in array[:count]]


def folds_of(text):
    """The numbers of a plan's folds: its lines `N fold ..`."""
    lines = (line.split() for line in text.split(b"\n"))
    return [int(words[0]) for words in lines if words[1:2] == [b"fold"] and words[0].isdigit()]


def bytes_of(text):
    return text.encode() if isinstance(text, str) else bytes(text)


class Plan:
    """A plan that the library has read, and found without a fault. `closures` is a text of closures that stand beside those of the catalogue."""

    def __init__(self, text, library="libtd.so", closures=""):
        library, text, closures = ctypes.CDLL(str(library)), bytes_of(text), bytes_of(closures)
        self.both_texts = [text, len(text), closures, len(closures)]
        self.texts = self.both_texts[:4 if closures else 2]
        check, self.call = (library.td_check_with, library.td_epoch_with) if closures else (library.td_check, library.td_epoch)
        self.call_changes = library.td_changes
        size, counts, place = ctypes.c_size_t, ctypes.POINTER(Counts), ctypes.POINTER(ctypes.c_uint64)
        texts = [ctypes.c_char_p, size]
        records, states, changes = ([ctypes.POINTER(kind), size] for kind in (Record, State, Change))
        check.argtypes = [*texts * (len(self.texts) // 2), place]
        self.call.argtypes = [*texts * (len(self.texts) // 2), *records, *states, *records, counts, place]
        self.call_changes.argtypes = [*texts * 2, *records, *states, *changes, *records, counts, place]
        check.restype = self.call.restype = self.call_changes.restype = ctypes.c_uint32
        place = ctypes.c_uint64(0)
        answer = check(*self.texts, place)
        if answer != DONE:
            raise Refused(answer, place.value)
        self.folds = folds_of(text)

    def epoch(self, states, records):
        """One epoch: of the states before it, in any order, and its records, the states after it and its outputs, both sorted. A refusal
        changes nothing."""
        given, wanted, place = array_of(Record, records), Counts(len(states) + len(records), len(records)), ctypes.c_uint64(0)
        while True:
            kept, outputs = array_of(State, states, wanted.states), (Record * max(wanted.outputs, 1))()
            counts = Counts(len(states), 0)
            answer = self.call(*self.texts, given, len(records), kept, len(kept), outputs, len(outputs), counts, place)
            if answer == DONE:
                return rows_of(kept, counts.states), rows_of(outputs, counts.outputs)
            if answer != ROOM:
                raise Refused(answer, place.value)
            wanted = counts

    def changes(self, given, records):
        """What one epoch changes, and its outputs, both sorted. `given` are some of the states before it, in any order. A change is
        (vertex, key, (a, b)), or (vertex, key, None) where the fold keeps nothing for the key after the epoch. Both are those of all states
        that are kept, as long as `given` has each of them that stands where a change is."""
        states, arrived, place = array_of(State, given), array_of(Record, records), ctypes.c_uint64(0)
        wanted = Counts(len(records) * len(self.folds), len(records))
        while True:
            changes, outputs = (Change * max(wanted.states, 1))(), (Record * max(wanted.outputs, 1))()
            counts = Counts(0, 0)
            answer = self.call_changes(*self.both_texts, arrived, len(records), states, len(given), changes, len(changes), outputs, len(outputs),
                                       counts, place)
            if answer == DONE:
                return changes_of(changes, counts.states), rows_of(outputs, counts.outputs)
            if answer != ROOM:
                raise Refused(answer, place.value)
            wanted = counts

    def changes_from(self, look, records, expected=None):
        """The same, of all states that are kept. `look` answers the states of a set of places (vertex, key), of those that have one. It is asked
        once for each place, and first for those that are `expected`: by default each fold with each key of the records."""
        asked = {(fold, key) for _, key, _ in records for fold in self.folds} if expected is None else set(expected)
        given = list(look(asked))
        while True:
            changes, outputs = self.changes(given, records)
            more = {change[:2] for change in changes} - asked
            found = list(look(more))
            if not found:
                return changes, outputs
            asked |= more
            given += found

    def epoch_of(self, kept, records, expected=None):
        """One epoch over a dictionary of states, (a, b) by (vertex, key), which become those after it: its outputs, sorted. It costs its records,
        whatever is kept. A refusal changes nothing."""
        changes, outputs = self.changes_from(lambda places: [(*place, *kept[place]) for place in places if place in kept], records, expected)
        for vertex, key, state in changes:
            if state is None:
                kept.pop((vertex, key), None)
            else:
                kept[vertex, key] = state
        return outputs
