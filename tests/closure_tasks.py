#!/usr/bin/env python3
"""Computes what the examples with closures in text must print, by SQL or a few lines of Python that know neither plans nor closures.

    tests/closure_tasks.py          compares examples/closures/NAME.out with it, for each task; status 1 where one differs
    tests/closure_tasks.py NAME     prints the expected output of one

Of examples/closures/NAME.td the records alone are read, epoch by epoch. examples/README.md says what each task is."""

import collections
import heapq
import sys

import lib
import tasks

FOLDER = lib.ROOT / "examples/closures"
FITS = 1 << 32


def by_key(records):
    """The records of each epoch and key, (epoch, key, records), both in their order."""
    parts = collections.defaultdict(list)
    for record in records:
        parts[record[0], record[2]].append(record)
    return [(epoch, key, parts[epoch, key]) for epoch, key in sorted(parts)]


# The tasks: each answers rows (epoch, vertex, key, val)


def alert(records):
    """The total of a key after each epoch in which it rose above 1000."""
    totals = tasks.asked(records, """
        select epoch, key, sum(val) over (partition by key order by epoch) from
            (select epoch, key, sum(val) as val from rec group by epoch, key)""")
    before, rows = collections.Counter(), []
    for epoch, key, total in sorted(totals):
        rows += [(epoch, 2, key, total)] if total > 1000 >= before[key] else []
        before[key] = total
    return rows


def first(records):
    """The least value of a key in the first epoch that has it."""
    return tasks.asked(records, """
        select epoch, 2, key, min(val) from rec r where epoch = (select min(epoch) from rec where key = r.key) group by epoch, key""")


def distinct(records):
    """Each pair of two numbers below 2^32 in the first epoch that has it; each other record."""
    rows, seen = [], set()
    for epoch, _, key, val in records:
        if key < FITS and 0 <= val < FITS:
            rows += [(epoch, 4, key, val)] if (key, val) not in seen else []
            seen.add((key, val))
        else:
            rows.append((epoch, 6, key, val))
    return rows


def average(records):
    """The average of a key's values up to each epoch that has it."""
    return [(epoch, 2, key, sum(so_far) // len(so_far)) for epoch, key, _ in by_key(records)
            for so_far in [[val for at, _, of, val in records if of == key and at <= epoch]]]


def correction(records):
    """How many bookings that stand a key has, and their total: each taken back is one less of that value."""
    sums = tasks.asked(records, """
        select e.epoch, e.key, sum(case input when 0 then 1 else -1 end), sum(case input when 0 then val else - val end)
        from (select distinct epoch, key from rec) e join rec r on r.key = e.key and r.epoch <= e.epoch group by e.epoch, e.key""")
    return [row for epoch, key, count, total in sums for row in [(epoch, 4, key, count), (epoch, 5, key, total)]]


def closing(records):
    """The sum of an account's bookings after the last epoch that closed it; none in such an epoch."""
    rows, balances = [], collections.Counter()
    for epoch, key, here in by_key(records):
        if any(at == 1 for _, at, _, _ in here):
            del balances[key]
        else:
            balances[key] += sum(val for *_, val in here)
            rows.append((epoch, 3, key, balances[key]))
    return rows


def category(records):
    """What was sold of all articles of a category, each epoch by the greatest category of the last epoch that gave the article one."""
    return tasks.asked(records, """
        with sold as (select epoch, val, (select max(c.val) from rec c where c.input = 1 and c.key = r.key and c.epoch =
                             (select max(epoch) from rec l where l.input = 1 and l.key = r.key and l.epoch <= r.epoch)) as category
                      from rec r where input = 0)
        select e.epoch, 4, e.category, (select sum(val) from sold s where s.category = e.category and s.epoch <= e.epoch)
        from (select distinct epoch, category from sold where category is not null) e""")


def join(records):
    """The two values of each key that both inputs have, at the later epoch of the two."""
    return tasks.asked(records, """
        select max(l.epoch, r.epoch), 3, l.val, r.val from rec l join rec r on l.key = r.key and l.input = 0 and r.input = 1""")


def paths(records):
    """The least distance of each node from those of input 1: Dijkstra's way."""
    edges, front, found = collections.defaultdict(list), [], {}
    for _, at, node, val in records:
        if at == 0:
            edges[node].append((val // 1000000, val % 1000000))
        else:
            front.append((val, node))
    heapq.heapify(front)
    while front:
        distance, node = heapq.heappop(front)
        if node not in found:
            found[node] = distance
            for other, length in edges[node]:
                heapq.heappush(front, (distance + length, other))
    return [(1, 12, node, distance) for node, distance in found.items()]


def pagerank(records):
    """The ranks after twelve turns, in whole millionths, each share rounded down."""
    links = collections.defaultdict(list)
    for _, at, page, val in records:
        if at == 0:
            links[page].append(val)
    shares = {page: val for _, at, page, val in records if at == 1}
    for _ in range(12):
        ranks = {page: 150000 + shares.get(page, 0) * 85 // 100 for page in shares}
        shares = dict.fromkeys(ranks, 0)
        for page, others in links.items():
            for other in others:
                shares[other] += ranks[page] // len(others)
    return [(1, 12, page, rank) for page, rank in ranks.items()]


def percentile(records):
    """The value at place 9/10 of those of a key and an epoch, rounded up, in their order."""
    return [(epoch, 2, key, sorted(val for *_, val in here)[-(-9 * len(here) // 10) - 1]) for epoch, key, here in by_key(records)]


def cents(records):
    """The payments of 50.00 to 200.00; of those above their whole units."""
    return tasks.asked(records, """
        select epoch, 2, key, val from rec where val between 5000 and 20000
        union all select epoch, 4, key, val / 100 from rec where val > 20000""")


def visits(records):
    """Of each visitor that clicked in an epoch how many clicks so far have none in the 30 minutes before."""
    return tasks.sessions(records)


def moving(records):
    """Each value of a key with the one before it, by epoch and value."""
    return tasks.asked(records, """
        select epoch, 2, key, val + before from
            (select epoch, key, val, lag(val) over (partition by key order by epoch, val) as before,
                    row_number() over (partition by epoch, key order by val) as place from rec)
        where before is not null and place <= 8""")


def lost(records):
    """The seven least values of a key in an epoch, and how many there are beside them."""
    return [row for epoch, key, here in by_key(records)
            for row in [*((epoch, 2, key, val) for val in sorted(val for *_, val in here)[:7]), (epoch, 2, key + 1000, max(0, len(here) - 7))]]


TASKS = [alert, first, distinct, average, correction, closing, category, join, paths, pagerank, percentile, cents, visits, moving, lost]


def text_of(task):
    rows = sorted(task(tasks.records_of(f"closures/{task.__name__}")))
    return "".join(" ".join(map(str, row)) + "\n" for row in rows)


def main():
    named = {task.__name__: task for task in TASKS}
    if sys.argv[1:]:
        if len(sys.argv) != 2 or sys.argv[1] not in named:
            sys.exit(__doc__)
        return sys.stdout.write(text_of(named[sys.argv[1]]))
    there = {file.stem for file in FOLDER.glob("*.td")}
    wrong = [f"examples/closures/{name}.td is no task here, or is not there" for name in sorted(there ^ named.keys())]
    wrong += [f"examples/closures/{name}.out is not what tests/closure_tasks.py {name} prints" for name in sorted(there & named.keys())
              if (FOLDER / f"{name}.out").read_text() != text_of(named[name])]
    if wrong:
        lib.fail("\n".join(wrong))
    print(f"{len(named)} tasks with closures in text, their outputs as computed")


if __name__ == "__main__":
    main()
