#!/usr/bin/env python3
"""Runs random plans by the proved library, as Python, C and Rust call it, beside `td batch` and the reading of tests/random_inputs.py.

    tests/library.py [COUNT [SEED]]     needs crates/td_c/out/libtd_c.a, crates/td/out/td and a C compiler; by default 300 plans

Each epoch is one call of td_epoch by the Python client, with the states that the call before left: its outputs must be those of `td batch`, its states
those of the reading. The states go in in random order; too little room must change nothing, and tell how much is wanted. The same epoch by td_changes, of
all states and of a random part of them, must come to the same, with one change for each key of a fold at which records arrive. As many plans have closures
in text: td_epoch_with beside `td batch --closures` and the reading of tests/random_closures.py. As many texts with mistakes must be refused by
td_check as `td plan` refuses them, and some texts of closures by their numbers and lines. Then the example of C, and that of Rust where there
is a cargo, must print what `td batch` prints, the test of the Rust client must pass, and valgrind, where there is one, must see nothing amiss in the
example of C."""

import collections
import contextlib
import ctypes
import importlib.machinery
import importlib.util
import os
import random
import re
import shutil
import subprocess
import sys

import lib
import random_closures as written
import random_inputs as inputs

ARCHIVE = lib.ROOT / "crates/td_c/out/libtd_c.a"
CLIENTS = lib.ROOT / "clients"
# Epochs of the running total, by the keys and values of their records.
TOTALS = [[(7, 5), (8, -3), (7, 1)], [], [(8, 3)] * 40, [(key, key - 50) for key in range(200)], [(7, 2**63 - 1), (7, 9)]]
# Texts of closures, each with the number and the line of its refusal.
REFUSED = [
    ("map 10000\n  send key", 18, 2), ("map 10000\n\n  send kye, val", 19, 3), ("map 10000\nmap 10000", 20, 2), ("map 9999", 20, 1),
    ("fold 10000\n  keep a, b\n  keep b, a", 21, 3), ("map 10000\n  send " + "(" * 65 + "key" + ")" * 65 + ", val", 22, 2), (b"map 10000 # \xff", 23, 0),
]


def loaded(name, file):
    """A file of Python as a module."""
    loader = importlib.machinery.SourceFileLoader(name, str(file))
    module = importlib.util.module_from_spec(importlib.util.spec_from_loader(name, loader))
    loader.exec_module(module)
    return module


def run(words, given="", **more):
    """The output of a command; the script ends where it fails."""
    done = subprocess.run([str(word) for word in words], input=given, capture_output=True, text=True, **more)
    if done.returncode != 0:
        lib.fail(f"{' '.join(map(str, words))}: status {done.returncode}\n{done.stdout[-1000:]}{done.stderr[-3000:]}")
    return done.stdout


# Random plans


def outputs_by_epoch(text, *words):
    """The outputs of each epoch that `td batch` prints for an input; or the fault that it prints."""
    status, printed, fault = inputs.answered(["batch", *words], text)
    if status != 0:
        return None, fault.decode().removeprefix("td: ").strip()
    found = collections.defaultdict(list)
    for line in printed.decode().splitlines():
        epoch, *rest = map(int, line.split())
        found[epoch].append(tuple(rest))
    return found, None


def told(client, refused):
    """A refusal of td_check as `td` tells it."""
    what, where = client.ANSWERS[refused.number]
    if where in (client.VERTEX, client.CLOSURES):
        return f"{where.format(refused.place)}: {what}"
    return f"plan {where.format(refused.place)}: {what}".replace("plan :", "plan:")


def without_code(fault):
    """A fault of `td` without the code of a closure that is lacking, and without the line of a text of closures."""
    return re.sub(r"^(closures line \d+: [a-z ]+): .*$", r"\1", re.sub(r"(: no closure) \d+$", r"\1", fault))


def too_little_room(client, plan, states, records, wanted):
    """Whether a call with too little room tells how much is wanted, and changes nothing."""
    given = client.array_of(client.Record, records)
    kept, outputs = client.array_of(client.State, states), client.array_of(client.Record, [(9, 9, 9)])
    counts, place = client.Counts(len(states), 5), ctypes.c_uint64(1)
    room = len(states), 0
    answer = plan.call(*plan.texts, given, len(records), kept, room[0], outputs, room[1], counts, place)
    is_lacking = wanted[0] > room[0] or wanted[1] > room[1]
    if not is_lacking:
        return answer == client.DONE
    same = client.rows_of(kept, len(states)) == states and client.rows_of(outputs, 1) == [(9, 9, 9)]
    return answer == client.ROOM and place.value == 0 and (counts.states, counts.outputs) == wanted and same


class Asked(dict):
    """States of a reading, and those that an epoch has asked for."""

    def __init__(self):
        super().__init__()
        self.places = set()

    def pop(self, place, default):
        self.places.add(place)
        return super().pop(place, default)


def states_of(rows):
    """States by their places, (vertex, key)."""
    return {(vertex, key): (a, b) for vertex, key, a, b in rows}


def rows_of(kept):
    """The rows of states, in order."""
    return [(*place, *state) for place, state in sorted(kept.items())]


def changed(rows, changes):
    """The rows of states after changes, in order."""
    kept = states_of(rows)
    for vertex, key, state in changes:
        kept[vertex, key] = state
    return rows_of({place: state for place, state in kept.items() if state})


def refusal(client, call, *given):
    """The number and the place of a call's refusal; None where it has none."""
    try:
        call(*given)
    except client.Refused as refused:
        return refused.number, refused.place


def too_little_room_for_changes(client, plan, rng, states, records, wanted):
    """Whether a call of td_changes with random room tells how much is wanted, and changes nothing where it is too little."""
    given, kept = client.array_of(client.Record, records), client.array_of(client.State, states)
    room = tuple(rng.randrange(each + 1) for each in wanted)
    before = [(9,) * 5] * room[0], [(9,) * 3] * room[1]
    changes, outputs = client.array_of(client.Change, before[0]), client.array_of(client.Record, before[1])
    counts, place = client.Counts(7, 7), ctypes.c_uint64(1)
    answer = plan.call_changes(*plan.both_texts, given, len(records), kept, len(states), changes, room[0], outputs, room[1], counts, place)
    told = place.value == 0 and (counts.states, counts.outputs) == wanted and client.rows_of(kept, len(states)) == states
    same = (client.rows_of(changes, room[0]), client.rows_of(outputs, room[1])) == before
    return told and (answer == client.DONE if room == wanted else answer == client.ROOM and same)


def amiss_in_changes(client, plan, rng, rows, batch, wanted, places):
    """What is amiss in the changes of an epoch that has these states and outputs, and asks for the states of these places; None where nothing is."""
    changes, outputs = plan.changes(rows, batch)
    if (changed(rows, changes), outputs) != wanted or [change[:2] for change in changes] != sorted(places):
        return f"of all states it has the changes {changes} and outputs {outputs}"
    for expected in (None, [row[:2] for row in rows if rng.random() < 0.5]):
        kept = states_of(rows)
        outputs = plan.epoch_of(kept, batch, expected)
        if (rows_of(kept), outputs) != wanted:
            return f"of some states, at first those of {expected}, it has {rows_of(kept)} and outputs {outputs}"
    if not too_little_room_for_changes(client, plan, rng, rows, batch, (len(changes), len(outputs))):
        return "with too little room for changes it does not answer as it must"
    at = rng.randrange(len(rows) + 1)
    mistakes = [([*rows[:at], (0, 7, 0, 0), *rows[at:]], (15, at)), *[([*rows, row], (16, len(rows))) for row in rows[at:at + 1]]]
    for given, why in mistakes:
        if refusal(client, plan.changes, given, batch) != why:
            return f"the states {given} are not refused by {why}"


def run_plan(client, library, rng, text, closures, met):
    """One random plan: epoch by epoch beside `td batch` and the reading."""
    file = library.with_name("closures")
    file.write_text(closures)
    outputs, fault = outputs_by_epoch(text, *["--closures", file] * bool(closures))
    lines = inputs.lines_of(text)
    cut = lines.index(b"--")
    spelled = b"\n".join(lines[:cut])
    try:
        plan = client.Plan(spelled, library, closures)
    except client.Refused as refused:
        if told(client, refused) != without_code(fault or ""):
            lib.fail(f"{text!r}\n{closures!r}\ntd_check: {refused}\ntd batch: {fault}")
        met["refused alike"] += 1
        return
    if fault is not None:
        lib.fail(f"{text!r}\n{closures!r}\ntd_check takes it\ntd batch: {fault}")
    reading, rows, kept = inputs.read_plan(lines[:cut], True), [], Asked()
    for at, batch in enumerate(inputs.read_epochs(reading, lines[cut + 1:], cut + 2), 1):
        rng.shuffle(rows)
        epoch = inputs.Epoch(batch, kept)
        epoch.turn(reading.outermost, 0, None, {})
        wanted = rows_of(kept)
        if not too_little_room(client, plan, rows, batch, (len(wanted), len(outputs[at]))):
            lib.fail(f"{text!r}\n{closures!r}\nepoch {at}: with too little room it does not answer as it must")
        got = plan.epoch(rows, batch)
        if got != (wanted, outputs[at]):
            lib.fail(f"{text!r}\n{closures!r}\nepoch {at} of {rows} and {batch}:\n   has {got}\nwanted {wanted, outputs[at]}")
        if amiss := amiss_in_changes(client, plan, rng, rows, batch, got, kept.places):
            lib.fail(f"{text!r}\n{closures!r}\nepoch {at} of {rows} and {batch}:\n{amiss}\nwanted {got}, with changes at {kept.places}")
        rows = got[0]
        met["changes"] += len(kept.places)
        kept.places.clear()
        met["epochs"] += 1
        met["states"] += len(rows)
    met["plans"] += 1


def is_short(text):
    """Whether the reading answers an input soon: it leaves out those whose loops double records."""
    try:
        inputs.wanted(text, True)
    except inputs.TooLarge:
        return False
    return True


def run_plans(client, library, count, rng, random_input):
    met = collections.Counter()
    while met["plans"] < count:
        text, closures = random_input(rng)
        with are_read(closures):
            if is_short(text):
                run_plan(client, library, rng, text, closures, met)
            else:
                met["left out, since their loops double records too often"] += 1
    return met


def by_catalogue(rng):
    """A random input, without closures in text."""
    return inputs.random_input(rng, True), ""


# Closures in text


def call_of(closure):
    """A closure in text, as the reading calls those of its kind."""
    if closure.kind == "map":
        return lambda port, key, val: written.called(closure, key, None, [(port, val)])[1]
    if closure.kind == "group":
        return lambda key, items: written.called(closure, key, None, sorted(items))[1]
    return lambda key, state, items: written.called(closure, key, state, sorted(items))


@contextlib.contextmanager
def are_read(text):
    """While it lasts, the reading has the closures of a text, where it spells some."""
    try:
        closures = written.read_text(text)
    except written.Fault:
        closures = []
    for closure in closures:
        inputs.STORED[closure.kind][closure.code] = call_of(closure)
    yield
    for closure in closures:
        del inputs.STORED[closure.kind][closure.code]


def closure_of(rng, kind, code):
    """The lines of a random closure of a kind, each as its words."""
    lines = written.random_closure(rng, code)
    while lines[0][0] != kind:
        lines = written.random_closure(rng, code)
    return lines


def by_text(rng):
    """A random input, most of whose maps, groups and folds call closures of a text, and that text: one in eight has a mistake."""
    lines, closures = inputs.random_input(rng, True).decode().split("\n"), []
    for at, line in enumerate(lines[:lines.index("--")]):
        said = line.split(" ")
        if len(said) > 2 and said[1] in written.KINDS and rng.random() < 0.7:
            code = str(10000 + len(closures))
            closures.append(closure_of(rng, said[1], code))
            lines[at] = " ".join([*said[:2], code, *said[3:]])
    said = [["#", "none"], *[line for closure in closures for line in closure]]
    return "\n".join(lines).encode(), written.spelled(rng, said if rng.random() < 0.875 else written.with_mistake(rng, said))


# Texts with mistakes


def run_mistakes(client, library, count, rng):
    """As many texts of plans with mistakes: td_check refuses what `td plan` refuses, at the same line."""
    refusals = 0
    for _ in range(count):
        text = inputs.with_mistakes(rng, inputs.random_input(rng, True).split(b"\n--")[0]).rstrip(b"\n")
        done = subprocess.run([lib.TD, "batch"], input=text + b"\n--\n", capture_output=True)
        wanted = without_code(done.stderr.decode().removeprefix("td: ").strip())
        if b"--" in text or done.returncode == 0 and wanted:
            continue
        try:
            client.Plan(text, library)
            got = ""
        except client.Refused as refused:
            got = wanted if refused.number == 11 and wanted.endswith(": syntax") else told(client, refused)
        if got != wanted:
            lib.fail(f"{text!r}\ntd_check: {got}\n      td: {wanted}")
        refusals += got != ""
    return refusals


def run_refused(client, library):
    """Each refusal of a text of closures, which comes before those of the plan."""
    for text, number, place in REFUSED:
        try:
            client.Plan("no plan", library, text)
            got = None
        except client.Refused as refused:
            got = refused.number, refused.place
        if got != (number, place):
            lib.fail(f"closures {text!r}:\n   has {got}\nwanted {number, place}")


# The examples


def totals_text():
    """The records of TOTALS as the examples take them, and an input of `td batch`."""
    given = "".join("".join(f"{key} {val}\n" for key, val in epoch) + ".\n" for epoch in TOTALS)
    batch = lib.TOTAL + "--\n" + "".join("".join(f"0 {key} {val}\n" for key, val in epoch) + ".\n" for epoch in TOTALS)
    return given, run([lib.TD, "batch"], batch)


def run_example(what, words, given, wanted, **more):
    got = run(words, given, **more)
    if got != wanted:
        lib.fail(f"the example of {what} prints {got!r}, and td batch {wanted!r}")
    return what


def run_examples(folder):
    """Builds and runs the examples; answers what ran."""
    given, wanted = totals_text()
    program = folder / "totals"
    run([shutil.which("cc") or shutil.which("gcc") or shutil.which("clang"), "-std=c11", "-Wall", "-Wextra", "-Werror", "-I", CLIENTS / "c",
         CLIENTS / "c/example.c", folder / "libtd.a", "-o", program])
    ran = [run_example("C", [program], given, wanted)]
    if shutil.which("valgrind"):
        ran.append(run_example("C under valgrind", ["valgrind", "-q", "--error-exitcode=9", "--leak-check=full", program], given, wanted))
    if shutil.which("cargo"):
        shutil.copytree(CLIENTS / "rust", folder / "rust", ignore=shutil.ignore_patterns("target"))
        run(["cargo", "test", "--offline", "--quiet"], cwd=folder / "rust", env={**os.environ, "TD_LIBRARY": str(folder)})
        ran.append(run_example("Rust", [folder / "rust/target/debug/examples/totals"], given, wanted))
    return ran


def told_of(met):
    return ", ".join(f"{what}: {times}" for what, times in met.items())


def main():
    count = int(sys.argv[1]) if sys.argv[1:] else 300
    rng = random.Random(sys.argv[2] if sys.argv[2:] else "td")
    lib.built(lib.TD)
    if not ARCHIVE.is_file():
        lib.fail(f"{ARCHIVE} is not there: cd crates/td_c && rt lib")
    client = loaded("td_c", CLIENTS / "python/td_c.py")
    with lib.folder() as folder:
        if not loaded("build", lib.ROOT / "build").link_library(ARCHIVE, folder):
            return lib.skip("no C compiler, or no ar")
        met = run_plans(client, folder / "libtd.so", count, rng, by_catalogue)
        beside = run_plans(client, folder / "libtd.so", count, rng, by_text)
        refusals = run_mistakes(client, folder / "libtd.so", count, rng)
        run_refused(client, folder / "libtd.so")
        ran = run_examples(folder)
    print(f"{told_of(met)}; with closures in text {told_of(beside)}; {refusals} texts refused alike; examples: {', '.join(ran)}")


if __name__ == "__main__":
    main()
