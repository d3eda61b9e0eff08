#!/usr/bin/env python3
"""Compares docs/CATALOGUE.md, and what `td help closures` prints of the catalogue, with the table in td_picture/src/table.rt.

    tests/catalogue.py          compares
    tests/catalogue.py --write  writes the tables of the page anew

A row of the table is a closure, or closures whose codes follow one another. The scripts that draw plans have from here which codes there are.
The status is 1 where something differs."""

import collections
import functools
import json
import re
import subprocess
import sys

import lib

PAGE = lib.ROOT / "docs/CATALOGUE.md"
SOURCE = lib.ROOT / "crates/td_picture/src/table.rt"
LANGUAGE = lib.ROOT / "crates/td/src/language.rt"
# The table's parts, by kinds, and the heading of each shelf's table on the page.
KINDS = {"map": "MAPS", "group": "GROUPS", "fold": "FOLDS"}
SHELVES = ["The first shelf", "The second shelf"]
# Where the second shelf begins.
SECOND = 1000

Row = collections.namedtuple("Row", "kind first last answer")
STRING = r'"(?:[^"\\]|\\.)*"'
ROW = re.compile(rf"\(\s*(\d+),\s*(\d+),\s*Form::\w+,\s*{STRING},\s*{STRING},\s*({STRING}),?\s*\),")


def rows_of(kind, source):
    """The rows of a kind; the script ends where one cannot be read."""
    part = re.search(rf"(?ms)^pub const {KINDS[kind]}: \[Row; (\d+)\] = \[$(.*?)^\];$", source)
    found = [Row(kind, int(first), int(last), json.loads(answer)) for first, last, answer in ROW.findall(part[2])] if part else []
    if not part or len(found) != int(part[1]):
        lib.fail(f"catalogue.py: {SOURCE.relative_to(lib.ROOT)}: the rows of {KINDS[kind]} cannot be read")
    return found


@functools.cache
def rows():
    """The rows of the table, by kinds, those of a kind by their codes."""
    source = SOURCE.read_text(encoding="utf-8")
    return [row for kind in KINDS for row in rows_of(kind, source)]


def shelves(kind=None):
    """The rows of both shelves, or those of a kind."""
    mine = [row for row in rows() if kind in (None, row.kind)]
    return [row for row in mine if row.first < SECOND], [row for row in mine if row.first >= SECOND]


def codes_of(row):
    """The codes of a row, in words."""
    return f"{row.first}" if row.first == row.last else f"{row.first} + P, P to {row.last - row.first}"


# The page


def table_of(shelf):
    """The lines of a shelf's table on the page."""
    answers = [f"| {row.kind} | {codes_of(row)} | {' '.join(row.answer.splitlines())} |" for row in shelf]
    return ["| Kind | Code | Answer |", "|---|---|---|", *answers]


def page_anew(page):
    """The page with both tables as the rows give them."""
    lines = page.split("\n")
    for heading, shelf in zip(SHELVES, shelves()):
        start = next(at for at in range(lines.index(f"## {heading}"), len(lines)) if lines[at].startswith("|"))
        end = next(at for at in range(start, len(lines)) if not lines[at].startswith("|"))
        lines[start:end] = table_of(shelf)
    return "\n".join(lines)


# The help


def lines_of_help(shelf):
    """The lines of a shelf as the help prints them: what is longer than a line goes on below its first line."""
    for row in shelf:
        before = f"{row.kind} {codes_of(row)}"
        for line in row.answer.splitlines():
            yield f"  {before:<26}{line}"
            before = ""


def fault_of_help(printed):
    """What is wrong with what `td help closures` prints, or nothing. Behind the language come two blocks of closures, a shelf each."""
    language = LANGUAGE.read_text(encoding="utf-8").partition('r#"')[2].partition('"#')[0]
    if not printed.startswith(language):
        return "it does not begin with td/src/language.rt"
    blocks = [block.splitlines() for block in printed[len(language):].split("\n\n") if block.startswith("  ")]
    if blocks != [list(lines_of_help(shelf)) for shelf in shelves()]:
        return "its shelves are not those of the table"
    if long := [line for line in printed.splitlines() if len(line) > 142]:
        return f"a line is longer than 142 characters: {long[0]}"


def main():
    page = PAGE.read_text(encoding="utf-8")
    if sys.argv[1:] == ["--write"]:
        PAGE.write_text(page_anew(page), encoding="utf-8")
        return
    if sys.argv[1:]:
        sys.exit(__doc__)
    if page != page_anew(page):
        lib.fail("catalogue.py: docs/CATALOGUE.md has other closures than td_picture/src/table.rt: tests/catalogue.py --write writes its tables anew")
    printed = subprocess.run([lib.built(lib.TD), "help", "closures"], stdin=subprocess.DEVNULL, capture_output=True, text=True)
    if fault := fault_of_help(printed.stdout):
        lib.fail(f"catalogue.py: td help closures: {fault}")
    print(f"docs/CATALOGUE.md and td help closures have the {len(rows())} rows of td_picture/src/table.rt")


if __name__ == "__main__":
    main()
