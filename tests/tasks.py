#!/usr/bin/env python3
"""Computes what five of the examples must print, by SQL or a few lines of Python that know nothing of plans.

    tests/tasks.py          compares examples/NAME.out with it, for each of the five tasks; status 1 where one differs
    tests/tasks.py NAME     prints the expected output of one

Of examples/NAME.td the records alone are read, epoch by epoch; of its plan a task knows the numbers of its inputs and outputs. Of
`components` it is compared too how many turns are needed, and how many its loop may have. examples/README.md says what each task is."""

import collections
import re
import sqlite3
import sys

import lib

EXAMPLES = lib.ROOT / "examples"


def records_of(name):
    """The records of an example, (epoch, input, key, val), in their order."""
    records, epoch = [], 1
    for line in (EXAMPLES / f"{name}.td").read_text().split("\n--\n", 1)[1].splitlines():
        if line == ".":
            epoch += 1
        elif line and not line.startswith("#"):
            records.append((epoch, *map(int, line.split())))
    return records


def asked(records, query):
    """What sqlite answers to a query about the records, a table `rec` of (epoch, input, key, val)."""
    with sqlite3.connect(":memory:") as base:
        base.execute("create table rec (epoch, input, key, val)")
        base.executemany("insert into rec values (?, ?, ?, ?)", records)
        return base.execute(query).fetchall()


# The tasks: each answers rows (epoch, vertex, key, val)


def topminute(records):
    """After each epoch, the minute with the most records so far, the later one on a tie, and their number."""
    return asked(records, """
        select epoch, 7, minute, count from (
            select e.epoch as epoch, r.key / 60 as minute, count(*) as count,
                   row_number() over (partition by e.epoch order by count(*) desc, r.key / 60 desc) as place
            from (select distinct epoch from rec) e join rec r on r.epoch <= e.epoch
            group by e.epoch, minute)
        where place = 1""")


def lastprice(records):
    """Each order with the price of its article, and each article's pieces of an epoch times it. The price is that of the last epoch that
    has one, this one or before: the greatest of them."""
    return asked(records, """
        with price as (select epoch, key, max(val) as price from rec where input = 2 group by epoch, key),
             sold as (select r.*, (select p.price from price p where p.key = r.key and p.epoch <= r.epoch
                                   order by p.epoch desc limit 1) as price from rec r where input < 2)
        select epoch, 6, val, price from sold where input = 0 and price is not null
        union all
        select epoch, 7, key, sum(val) * price from sold where input = 1 and price is not null group by epoch, key""")


def sessions(records):
    """Of each visitor that clicked in an epoch, how many visits there were so far: clicks without another in the 30 minutes before."""
    return asked(records, """
        with click as (select epoch, key, val - lag(val) over (partition by key order by epoch, val) as gap from rec)
        select e.epoch, 2, e.key, (select count(*) from click c where c.key = e.key and c.epoch <= e.epoch and (gap is null or gap > 30))
        from (select distinct epoch, key from rec) e""")


def floor(records):
    """Of each article that was moved in an epoch, the stock after it: deliveries come first, then what is asked for, the most first."""
    stock, moved = collections.Counter(), collections.defaultdict(list)
    for epoch, at, key, val in records:
        moved[epoch, key].append((at, -val, val))
    rows = []
    for (epoch, key), moves in sorted(moved.items()):
        for at, _, val in sorted(moves):
            stock[key] = stock[key] + val if at == 0 else max(0, stock[key] - val)
        rows.append((epoch, 4, key, stock[key]))
    return rows


def components(records):
    """Each node of the graph with the least number of its component."""
    return [(1, 15, node, least) for node, (least, _) in reached_in(records).items()]


def reached_in(records):
    """Each node with the least number of its component, and how many edges lie between the two at least."""
    beside, reached = collections.defaultdict(set), {}
    for _, _, one, other in records:
        beside[one].add(other)
        beside[other].add(one)
    for least in sorted(beside):
        front, steps = {least} - set(reached), 0
        while front:
            reached.update({node: (least, steps) for node in front})
            front, steps = {other for node in front for other in beside[node]} - set(reached), steps + 1
    return reached


TASKS = [topminute, lastprice, sessions, floor, components]


def text_of(task):
    return "".join(" ".join(map(str, row)) + "\n" for row in sorted(task(records_of(task.__name__))))


def turns_of_components():
    """How many turns the labels of `components` need, and how many its loop may have."""
    farthest = max(steps for _, steps in reached_in(records_of("components")).values())
    bound = re.search(r"(?m)^loop (\d+)$", (EXAMPLES / "components.td").read_text())
    return farthest + 1, int(bound[1])


def main():
    tasks = {task.__name__: task for task in TASKS}
    if sys.argv[1:]:
        if len(sys.argv) != 2 or sys.argv[1] not in tasks:
            sys.exit(__doc__)
        return sys.stdout.write(text_of(tasks[sys.argv[1]]))
    wrong = [f"examples/{name}.out is not what tests/tasks.py {name} prints" for name, task in tasks.items()
             if (EXAMPLES / f"{name}.out").read_text() != text_of(task)]
    needed, bound = turns_of_components()
    if needed > bound:
        wrong.append(f"the loop of examples/components.td has {bound} turns, and {needed} are needed")
    if wrong:
        lib.fail("\n".join(wrong))
    print(f"{len(tasks)} tasks, their outputs as computed; components needs {needed} turns of {bound}")


if __name__ == "__main__":
    main()
