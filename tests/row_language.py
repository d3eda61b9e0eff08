#!/usr/bin/env python3
"""Sees that rows are read as rows/README.md says: what loops and short forms stand for, and what is refused. Needs nothing but Python.

    tests/row_language.py

Each pair below is read as the gate reads rows: the short form must have the rows of the long one. Each text of REFUSED must be refused. Of an
`either` each of its outputs must pass, and no other."""

import lib
import rows

# Short, and written out.
ALIKE = [
    ("for K in 1..3\n  row K is {K}\n  $ td stop {K}\n  > {K}\n",
     "row K is 1\n$ td stop 1\n> 1\nrow K is 2\n$ td stop 2\n> 2\nrow K is 3\n$ td stop 3\n> 3\n"),
    ("for K in 9..10, FILL in old 00\n  row {K} {FILL}\n  $ td\n",
     "row 9 old\n$ td\nrow 9 00\n$ td\nrow 10 old\n$ td\nrow 10 00\n$ td\n"),
    ("row a\n$ td\nfor K/SAID in 1..2/no 3/yes\n  < {K}\n  > {SAID}\n", "row a\n$ td\n< 1\n> no\n< 2\n> no\n< 3\n> yes\n"),
    ("for K, STEP\n| 1 | the first\n| 2 | and last\n  row {STEP}\n  $ td {K}\n", "row the first\n$ td 1\nrow and last\n$ td 2\n"),
    ("for A in x y\n  row {A}\n  $ td\n\n  for B in 1 {A}\n    # both\n    < {A}{B}\n  > end\n", "row x\n$ td\n< x1\n< xx\n> end\nrow y\n$ td\n< y1\n< yy\n> end\n"),
    ("for A in x y\n  plan T {A}\n  < {A}\nrow a\n$ td\n@ T y\n@ T x\n", "row a\n$ td\n< y\n< x\n"),
    ("row a\n$ td\n* one | two -> three | four\n* five\n", "row a\n$ td\n< one\n< two\n> three\n> four\n< five\n"),
    ("every row\n$ td\n< x\n\nrow a\n# first\n> 1\nrow b\n$ td 2\nrow c\n< y\n", "row a\n$ td\n< x\n> 1\nrow b\n$ td 2\nrow c\n$ td\n< x\n< y\n"),
    ("row braces and blanks stand for themselves outside of loops\n$ td\n<   {K}\n", "row braces and blanks stand for themselves outside of loops\n$ td\n<   \\x7bK}\n"),
]
REFUSED = {
    "a name that no loop has": "for K in 1 2\n  row {K} {L}\n  $ td\n",
    "a name that the body lacks": "for K in 1 2\n  row a\n  $ td\n",
    "a name in small letters": "for k in 1 2\n  row {k}\n  $ td\n",
    "a name twice": "for K in 1, K in 2\n  row {K}\n  $ td\n",
    "a name of a loop around it": "for K in 1\n  row {K}\n  $ td\n  for K in 2\n    < {K}\n",
    "a range that goes down": "for K in 3..1\n  row {K}\n  $ td\n",
    "no values": "for K in \n  row {K}\n  $ td\n",
    "no table": "for K, L\n  row {K} {L}\n  $ td\n",
    "a value too few": "for K/L in 1/2 3\n  row {K} {L}\n  $ td\n",
    "a cell too many": "for K, L\n| 1 | 2 | 3\n  row {K} {L}\n  $ td\n",
    "a table below a list": "for K in 1\n| 1\n  row {K}\n  $ td\n",
    "a table below no loop": "| 1 | 2\nrow a\n$ td\n",
    "no body": "for K in 1 2\nrow a\n$ td\n",
    "a line that is set in by itself": "row a\n  $ td\n",
    "a line that is set in too far": "for K in 1\n  row {K}\n    $ td\n",
    "one text of two": "row a\n$ td\n> either one\n",
    "two texts that are one": "row a\n$ td\n> either one or one\n",
    "too many outputs": "row a\n$ td\n" + "> either 0 or 1\n" * 7,
    "a text that is there already": "plan T\n< a\nplan T\n< b\nrow a\n$ td\n@ T\n",
    "a text that is not there": "row a\n$ td\n@ T\n",
    "a title that is there already": "row a\n$ td\nrow a\n$ td\n",
    "a row without a command": "row a\nrow b\n$ td\n",
    "no row": "plan T\n< a\n",
    "nothing below `every row`": "every row\n\nrow a\n$ td\n",
    "no command below `every row`": "every row\n< a\n\nrow a\n",
    "another program": "row a\n$ sh\n",
    "no sign of a row": "row a\n$ td\n% b\n",
    "an escape that stands for nothing": "row a\n$ td\n< \\n\n",
}
# A program that writes its standard input stands for td; its rows, and whether they pass.
EITHER = {
    "row the first\n$ td\n< a\n< b\n> either a or c\n> b\n": True,
    "row the second\n$ td\n< a\n< b\n> either c or a\n> b\n": True,
    "row none\n$ td\n< a\n< b\n> either c or d\n> b\n": False,
    "row both, the other way round\n$ td\n< b\n< a\n> either a or b\n> a\n": True,
    "row behind an arrow\n$ td\n* a -> either c or d or a\n": True,
    "row of a text\n$ td\n< d\n> either c or e\n": False,
    "row nothing is one of them\n$ td\n> either c or d\n": False,
    "row another output\n$ td\n< a\n> b\n": False,
    "row another status\n$ td\n< a\n> a\n= 1\n": False,
    "row another error text\n$ td\n< a\n> a\n! a\n": False,
}


def read(text, folder):
    """The rows of a text, each as its title and what its commands are given and must give."""
    file = folder / "rows.txt"
    file.write_text(text)
    return [(row.title, [vars(step) for step in row.steps]) for row in rows.read_rows(file)]


def is_refused(text, folder):
    try:
        read(text, folder)
    except ValueError:
        return True
    return False


def passes(text, folder):
    """Whether the one row of a text passes with a program that writes what it reads."""
    file, program = folder / "rows.txt", folder / "td"
    file.write_text(text)
    program.write_text("#!/bin/sh\nexec cat\n")
    program.chmod(0o755)
    (row,) = rows.read_rows(file)
    return rows.difference(folder, row, folder, 10) is None


def main():
    with lib.folder() as folder:
        wrong = [f"{short!r} is not {long!r}, but {read(short, folder)}" for short, long in ALIKE if read(short, folder) != read(long, folder)]
        wrong += [f"not refused: {name}: {text!r}" for name, text in REFUSED.items() if not is_refused(text, folder)]
        wrong += [f"{'fails' if must else 'passes'}: {text!r}" for text, must in EITHER.items() if passes(text, folder) != must]
    if wrong:
        lib.fail("\n".join(wrong))
    print(f"{len(ALIKE)} short forms read as written out, {len(REFUSED)} malformed ones refused, and {len(EITHER)} rows passed or failed as they must")


if __name__ == "__main__":
    main()
