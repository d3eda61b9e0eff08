#!/usr/bin/env python3
"""Lists where numbers of the disk's layout stand outside their home, and compares that with what stands here: needs nothing but the files.

    tests/layout_numbers.py            compares
    tests/layout_numbers.py --list     prints the places that it finds

A number of the layout has its home in one crate (HOMES), whose definitions and constants say what it is. Where another crate that works on a
disk writes it down again, a change of the layout must find it there too: so each such place, in src/ and specs/, is one of PLACES, by its file, the
number and how often it stands there, with the reason. A new one fails, and one that is gone; the text of comments and strings is left out, and so
are the tests' crate and the text on faults. A number that is another one of the same value, as the code of a closure, has its line as well."""

import collections
import re
import sys

import lib

# What each number is, and the crate in which it is at home.
HOMES = {
    0xA5: ("td_gate",),  # the gate byte of an open region
    24: ("td_gate", "td_journal"),  # the bytes in front of a payload's members; an entry
    25: ("td_head",),  # a cell without entries, with its gate
    32: ("td_slots", "td_head"),  # a state; the fields before the plan text
    4096: ("td_head",),  # the field of the plan text
    4128: ("td_head",),  # the payload of a head
    4129: ("td_head",),  # where head B begins
    8257: ("td_head",),  # the gate of head B
    8258: ("td_head",),  # where the slots begin
    65_536: ("td_head",),  # the most records of a cell, and the most cells
    1_048_576: ("td_head",),  # the most states of a slot
}
# The crates and files that are left out.
LEFT_OUT = ("td_tests/", "td/src/faults.rt", "td/src/language.rt")
# The reasons: a premise that the shape of a formatted disk meets, repeated at each call for want of an invariant of the type;
LIMIT = "the limit of a shape, as a premise of a call"
# a definition or a clause that says where something is, for want of a name that the crate could cite;
WHERE = "a clause says where bytes are, by their number"
# the number of a layout's part reckoned anew;
ANEW = "reckoned anew, where td_head has no call that answers it"
# where a field of a payload begins: another number of this value, but for one of the two in td_slots/src/payload.rt;
FIELD = "the place of a field of a payload"
# what td_gate says by a constant of its own, in a clause, where a constant cannot stand;
GATE = "an open gate, in a clause or a definition"
# what is shown to a user, or asked of him;
SHAPE = "the limits of a shape, as a command line has them"
# a worked example, whose bytes are written out;
EXAMPLE = "a worked example"
# another number of this value.
SPACE, CODE, PIECE, GROUP, POWER = "the code of a blank", "the code of a closure", "the bytes of a piece that is read or written", "the weight of a hall's cut", "a power of two, or a shift"
CELLS = "the bytes that the cells of a group take at most"
PLACES = {
    LIMIT: [
        "td_store/src/group/cells.rt: 65536, 2",
        "td_journal/specs/Steps.antt: 65536, 2",
        "td_journal/src/journal.rt: 65536, 1",
        "td_journal/src/payload.rt: 65536, 2",
        "td_slots/src/payload.rt: 1048576, 1",
        "td_slots/specs/Steps.antt: 1048576, 1",
    ],
    WHERE: [
        "td_store/src/copy/epochs.rt: 8258, 3",
        "td_store/src/copy/told.rt: 8258, 1",
        "td_store/src/copy/zeros.rt: 4129, 2",
        "td_store/src/copy/zeros.rt: 8257, 2",
        "td_store/src/copy/zeros.rt: 8258, 2",
        "td_slots/src/slots.rt: 24, 2",
    ],
    ANEW: [
        "engine_steps/src/ring_calls.rt: 24, 2",
        "engine_steps/src/ring_calls.rt: 65536, 3",
        "td_feed/src/under_way.rt: 24, 1",
        "td_feed/src/under_way.rt: 25, 1",
        "td_feed/specs/Groups.antt: 24, 1",
        "td_feed/specs/Groups.antt: 25, 1",
        "td_head/src/shape.rt: 24, 1",
        "td_head/specs/Layout.antt: 24, 1",
    ],
    FIELD: [
        "td_head/src/head.rt: 24, 1",
        "td_head/specs/Head.antt: 24, 1",
        "td_slots/src/payload.rt: 24, 2",
        "td_slots/specs/Slot.antt: 24, 1",
    ],
    GATE: [
        "td_store/specs/group/Groups.antt: 165, 1",
        "td_head/src/format.rt: 165, 2",
    ],
    SHAPE: [
        "td/src/disk.rt: 1048576, 1",
        "td/src/disk.rt: 65536, 4",
    ],
    EXAMPLE: [
        "td_slots/specs/Examples.antt: 8258, 2",
        "td_store/specs/standing/Examples.antt: 165, 1",
        "td_store/specs/standing/Examples.antt: 4128, 2",
        "td_store/specs/standing/Examples.antt: 8257, 1",
    ],
    SPACE: [
        "td/src/plan.rt: 32, 1",
        "td_console/specs/Answer.antt: 32, 3",
        "td_console/specs/Turns.antt: 32, 2",
        "td_feed/specs/Said.antt: 32, 1",
        "td_orders/specs/Names.antt: 32, 1",
        "td_orders/specs/Noted.antt: 32, 1",
        "td_orders/src/excerpt.rt: 32, 1",
        "td_orders/src/file_name.rt: 32, 1",
        "td_report/specs/Dumped.antt: 32, 2",
        "td_report/specs/Shown.antt: 32, 5",
        "td_states/specs/Lines.antt: 32, 3",
    ],
    CODE: [
        "engine_steps/specs/Codes.antt: 24, 1",
        "engine_steps/src/catalogue.rt: 24, 2",
    ],
    PIECE: [
        "td/src/disk.rt: 4096, 2",
        "td_console/src/engine.rt: 4096, 1",
        "td_feed/src/under_way.rt: 65536, 1",
        "td_orders/specs/Lines.antt: 4096, 1",
        "td_orders/src/line_reader.rt: 4096, 1",
        "td_orders/src/line_reader.rt: 65536, 1",
        "td_report/src/epoch_lines.rt: 65536, 1",
    ],
    GROUP: [
        "td_console/src/hall.rt: 65536, 1",
    ],
    CELLS: [
        "td_feed/specs/Groups.antt: 1048576, 1",
    ],
    POWER: [
        "td_orders/src/source.rt: 32, 1",
        "td_orders/src/line_reader.rt: 32, 1",
    ],
}
NUMBER = re.compile(r"(?<![\w.])(0x[0-9A-Fa-f_]+|\d[\d_]*)(?:u8|u16|u32|u64|usize)?(?![\w.]*\w)")


def crates_of_disks():
    """The crates that work on a disk: td_gate, and those that use it, directly or not."""
    lines = lib.lines_of_crates()
    return [name for name in lines if name == "td_gate" or "td_gate" in lib.below(name, lines)]


def code_of(line, ending):
    """A line without its comment, its strings and powers of two."""
    code = re.sub(r'"[^"]*"', '""', line)
    return re.sub(r"\b2 \^ \d+", "", code.split("--" if ending == ".antt" else "//")[0])


def numbers_in(line, ending):
    """The numbers that a line of code writes."""
    return [int(found.replace("_", ""), 16 if found.startswith("0x") else 10) for found in NUMBER.findall(code_of(line, ending))]


def places():
    """Of each place outside a number's home its line in PLACES, with the lines of the file in which it stands."""
    found = collections.defaultdict(list)
    for crate in crates_of_disks():
        files = [*(lib.ROOT / "crates" / crate).glob("src/**/*.rt"), *(lib.ROOT / "crates" / crate).glob("specs/**/*.antt")]
        for file in sorted(files):
            name = str(file.relative_to(lib.ROOT / "crates"))
            if name.startswith(LEFT_OUT):
                continue
            for at, line in enumerate(file.read_text(encoding="utf-8").splitlines(), 1):
                for number in numbers_in(line, file.suffix):
                    if crate not in HOMES.get(number, (crate,)):
                        found[name, number].append(at)
    return {f"{name}: {number}, {len(lines)}": lines for (name, number), lines in found.items()}


def main():
    found = places()
    if sys.argv[1:] == ["--list"]:
        return print("\n".join(f"{place}   in lines {', '.join(map(str, lines))}" for place, lines in sorted(found.items())))
    if sys.argv[1:]:
        sys.exit(__doc__)
    known = [place for of_reason in PLACES.values() for place in of_reason]
    wrong = [f"tests/layout_numbers.py has a place twice: {place}" for place, count in collections.Counter(known).items() if count > 1]
    wrong += [f"no reason stands in tests/layout_numbers.py for this number of the layout: {place}, in lines {', '.join(map(str, lines))}"
              for place, lines in sorted(found.items()) if place not in known]
    wrong += [f"tests/layout_numbers.py has a place that is gone: {place}" for place in known if place not in found]
    if wrong:
        lib.fail("\n".join(wrong))
    print(f"{len(HOMES)} numbers of the layout stand in {len(found)} files outside their home, each with its reason")


if __name__ == "__main__":
    main()
