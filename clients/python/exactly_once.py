#!/usr/bin/env python3
"""A service by the library libtd: each output of a plan reaches a table of a database once, whatever is killed, and whatever is sent twice.

    clients/python/exactly_once.py DATABASE PLAN LIBRARY      does the requests of standard input; LIBRARY is libtd.so

| Line of standard input | Answer |
|---|---|
| `req NUMBER`, then `INPUT KEY VALUE` for each record, then `.` | `done NUMBER`: the request is in the database |
| a number that is not above the greatest in the database | `again NUMBER`: it was there, and nothing is changed |
| a record that the plan has no input for, or a number out of its range | `refused NUMBER: WHY`: nothing is changed |

**What is guaranteed.** Numbers rise from request to request, from 1 to 2^63 - 1. Let the service and who sends be killed at any moments, or the machine
stop, and all requests be sent again that have no answer, in their order. Then the table `outputs` has the outputs of each request once, in the order of
requests. They are those of the plan over all requests that are done, as `td batch` computes them. A refused request that is mended gets a new number.

**Why.** A request is one epoch of the plan. One transaction of sqlite3 reads the states that it asks for, and writes what becomes of them, its number and
its outputs. So a stop leaves all three or none. Several services may stand on one database: a transaction begins when the one before it has ended.

**What the transaction costs.** It reads the state of each key of its records at each fold, and writes one for each key that arrives there, whatever else
is kept. Each request waits for the device.

In your own program `Service(DATABASE, PLAN TEXT, LIBRARY, emit)` takes a function `emit(base, request, outputs)`. What it does by the connection `base`, to
tables of its own, is done once for each request, if it neither commits nor rolls back: it may add to a balance, too."""

import os
import pathlib
import sqlite3
import sys

from td_c import Plan, Refused

# A key may be above 2^63: it is text here.
TABLES = (
    "create table if not exists standing (plan blob, last integer)",
    "create table if not exists states (vertex integer, key text, a integer, b integer, primary key (vertex, key)) without rowid",
    "create table if not exists outputs (request integer, vertex integer, key text, value integer)",
)
MOST_REQUEST = 2**63 - 1


class Mistake(Exception):
    """What this service cannot go on with."""


def insert_outputs(base, request, outputs):
    """The table that outputs reach where no other is named."""
    base.executemany("insert into outputs values (?, ?, ?, ?)", [(request, vertex, str(key), value) for vertex, key, value in outputs])


class Service:
    """A plan over a database, in which its states stand. What `emit` writes of a request's outputs is of the same transaction."""

    def __init__(self, database, text, library, emit=insert_outputs):
        text = text.encode() if isinstance(text, str) else text
        self.plan, self.emit = Plan(text, library), emit
        # (transactions begin and end where it is said here)
        self.base = sqlite3.connect(database, isolation_level=None, timeout=60)
        # What is committed stays committed, also where the power goes at once.
        self.base.execute("pragma synchronous = extra")
        with self.base:
            self.base.execute("begin immediate")
            for table in TABLES:
                self.base.execute(table)
            self.base.execute("insert into standing select ?, 0 where not exists (select * from standing)", (text,))
            if self.base.execute("select plan from standing").fetchone() != (text,):
                raise Mistake(f"{database} is of another plan")

    def put(self, request, records):
        """Does a request, once: whether it was not there. What is refused changes nothing."""
        with self.base:
            self.base.execute("begin immediate")
            (last,) = self.base.execute("select last from standing").fetchone()
            if request <= last:
                return False
            changes, outputs = self.plan.changes_from(self.states_at, records)
            self.write_changes(changes)
            self.emit(self.base, request, outputs)
            self.base.execute("update standing set last = ?", (request,))
        return True

    def states_at(self, places):
        """The states of places, of those that have one."""
        for vertex, key in places:
            state = self.base.execute("select a, b from states where vertex = ? and key = ?", (vertex, str(key))).fetchone()
            if state:
                yield vertex, key, *state

    def write_changes(self, changes):
        """Writes what an epoch changes."""
        kept = [(vertex, str(key), *state) for vertex, key, state in changes if state]
        gone = [(vertex, str(key)) for vertex, key, state in changes if not state]
        self.base.executemany("insert or replace into states values (?, ?, ?, ?)", kept)
        self.base.executemany("delete from states where vertex = ? and key = ?", gone)


def requests_in(lines):
    """The requests of lines, each a number and its records; one whose `.` has not come is none."""
    request = records = None
    for at, line in enumerate(lines, 1):
        try:
            word, *numbers = line.split() or ["#"]
            if word == "req" and request is None:
                (request,), records = map(int, numbers), []
                if not 0 < request <= MOST_REQUEST:
                    raise ValueError
            elif word == "." and request is not None and not numbers:
                yield request, records
                request = records = None
            elif not word.startswith("#"):
                vertex, key, value = map(int, (word, *numbers))
                records.append((vertex, key, value))
        except (AttributeError, ValueError) as error:
            raise Mistake(f"line {at}: syntax") from error


def answer(service, request, records):
    """Does a request: the line that answers it."""
    try:
        return f"done {request}" if service.put(request, records) else f"again {request}"
    except (Refused, ValueError) as why:
        return f"refused {request}: {why}"


def main():
    if len(sys.argv) != 4:
        sys.exit(__doc__)
    database, plan, library = sys.argv[1:]
    try:
        service = Service(database, pathlib.Path(plan).read_bytes(), os.path.abspath(library))
        for request, records in requests_in(sys.stdin):
            print(answer(service, request, records), flush=True)
    except (Mistake, OSError, Refused, sqlite3.Error) as mistake:
        sys.exit(f"{sys.argv[0]}: {mistake}")


if __name__ == "__main__":
    main()
