#!/usr/bin/env python3
"""Lists where the code refuses for want of memory, and compares that with what stands here: needs nothing but the files.

    tests/memory_places.py            compares
    tests/memory_places.py --list     prints the places that it finds

No contract says that `Memory` is told only where a growth was refused, and with ample memory no run shows one that is told on a rare way. So each
place in crates/*/src that makes such a refusal is one of these:

- in a `From<AllocError>` or `From<AllocFailed<..>>`, or in a `From` of another refusal that is for want of memory alone (MEMORY_ALONE);
- in an arm for `Memory`, or for `OutOfMemory` of the system: it is passed on;
- one of PLACES: its file and function, and the calls in the condition on which it stands, each with the reason.

A new place fails, and one that is gone; so does one whose condition calls something else, or compares anything. The tests' crate is left out."""

import collections
import re
import sys

from lib import ROOT, fail

LEFT_OUT = {"td_tests"}
# The refusals that have no other case.
MEMORY_ALONE = {"StampError", "ReachError", "ProgressError", "ShardError", "BatchError", "WatchError"}
# The reasons: a growth of std's, whose one error is AllocError or AllocFailed;
GROWTHS = "a growth was refused"
# a call of this house, whose contract or whose type has no other refusal there;
CALLS = "a call was refused whose one refusal, there, is for want of memory"
# a number that counts what is in memory, or what was, and goes no further;
SUMS = "a number would pass its end"
# a thread, for which the system has no room;
THREADS = "the system starts no thread"
# a refusal that was kept in a value, or whose pattern is `_`;
PASSED_ON = "a refusal for want of memory is passed on"
# a text that is written into memory, where `fmt::Error` comes of its growth alone;
WRITES = "a text could not grow"
# and in the programs of rows a disk in memory, whose making and whose record of calls grow.
FROM = "a disk in memory could not grow"
PLACES = {
    GROWTHS: [
        "td/src/main.rt given_words: collect alloc",
        "td_calls/src/stored.rt add: insert",
        "td_closures/src/draft.rt with_lets: append refuse",
        "td_closures/src/draft.rt with_item: append refuse",
        "td_closures/src/draft.rt with_each: push refuse",
        "td_closures/src/draft.rt with_send: push refuse",
        "td_console/src/engine.rt read_all: extend_from_slice",
        "td_keeper/src/drive.rt drive: Vec::with_capacity len",
        "td_keeper/src/submit.rt submit_next: Vec::with_capacity",
        "td_keeper/src/submit_all.rt put_next: reserve len",
        "td_pool/src/pool.rt new: Vec::with_capacity",
        "td_pool/src/pool.rt new: Vec::from_elem",
        "td_words/src/parse.rt asked_instead: to_string",
    ],
    CALLS: [
        "engine_steps/src/drive.rt drive_pool: Pool::<K, Stock>::new",
        "td/src/plan.rt push_turns: blocks",
        "td/src/progress.rt followed: Watch::new alloc",
        "td_core/src/deliver.rt send_new: see",
        "td_core/src/deliver.rt come_out: come epoch",
        "td_core/src/deliver.rt keep: wait",
        "td_core/src/deliver.rt add_all_and_leave: leave",
        "td_core/src/take.rt take_there: copy",
        "td_core/src/take.rt grouped: KeyedItems::grouped",
        "td_feed/src/copy.rt copied: told",
        "td_feed/src/reply_lines.rt print_entries: print_answer",
        "td_feed/src/feeder.rt serve_by_workers: beside_workers_within refused",
        "td_feed/src/feeder.rt open: Hall::open kept",
        "td_head/src/head.rt is_canonical: text",
        "td_head/src/head.rt told: text",
        "td_head/src/put.rt put_head: text",
        "td_keeper/src/answer.rt answer_own: answer",
        "td_keeper/src/collect.rt bring_in: collect_outputs",
        "td_keeper/src/cut.rt cut_own: cut_at_epoch",
        "td_keeper/src/engine.rt hall_at_base: Hall::open",
        "td_keeper/src/release.rt release_after: release_batch",
        "td_pool/src/pool.rt new: bells",
        "td_reach/src/reach.rt of: copy",
        "td_store/src/standing/format.rt format_device: copy",
        "td_store/src/standing/parts.rt recover_device: copy",
        "td_states/src/read.rt read_input: read_all",
        "td_words/src/parse.rt parsed: command",
        "td_workers/src/workers.rt in_scope: start_all",
    ],
    SUMS: [
        "td_core/src/cut.rt cut_parts: len checked_add places",
        "td_core/src/post.rt count_each: checked_add",
        "td_core/src/post.rt count_once: checked_add",
        "td_core/src/post.rt add_one: checked_add u128::from",
        "td_progress/src/held.rt come: checked_add",
        "td_shard/src/mailbox.rt reserve: checked_add",
        "td_shard/src/mailbox.rt reserve: checked_add",
        "td_shard/src/runs.rt reserve: can_number len",
        "td_shard/src/runs.rt reserve: can_number len",
        "td_stamp/src/bag.rt add: checked_add",
        "td_task/src/run.rt room: checked_mul",
    ],
    THREADS: [
        "engine_steps/src/worker.rt start_each: spawn serve",
        "td/src/progress.rt followed: thread::spawn follow",
    ],
    PASSED_ON: [
        "engine_steps/src/worker.rt drive_and_join: no call",
        "td/src/plan.rt print_plan: no call",
        "td_console/src/question.rt lack_fault: no call",
        "td_feed/src/feeder.rt serve_alone: no call",
        "td_head/src/head.rt is_canonical: no call",
    ],
    WRITES: [
        "td_console/src/faults.rt from: From<fmt::Error>",
        "td_plan/src/error.rt from: From<fmt::Error>",
    ],
    FROM: [
        "engine_steps/src/error.rt from: From<Fault>",
        "engine_steps/src/error.rt from: From<MakeError>",
        "feed_steps/src/error.rt from: From<td_disk::Fault>",
        "feed_steps/src/error.rt from: From<MakeError>",
    ],
}


class Place:
    """A line of a function that refuses for want of memory, and its condition."""

    def __init__(self, file, function, at, condition):
        self.file, self.function, self.number, self.condition = file, function, at + 1, condition

    def key(self):
        calls = re.findall(r"From<[\w:]+>|(?:\w+::(?:<.*?>::)?)?\w+(?=(?:::<[^()]*>)?\()", self.condition)
        calls = [name for name in calls if name not in ("Ok", "Err", "Some", "is_err", "is_none", "map_err", "Refusal::Plain")]
        compared = " compared" * (self.function != "from") * bool(re.search(r"\|\||&&|[=!]=(?!>)|(?<![=-])[<>]=? \w", self.condition.replace("move ||", "")))
        return f"{self.file} {self.function}: {' '.join(dict.fromkeys(calls)) or 'no call'}{compared}"


def indent(line):
    return len(line) - len(line.lstrip())


def condition_of(lines, at):
    """The text of the `if`, `match`, `let .. else` or arm in whose block a line stands, with the line's own pattern, if it is an arm."""
    if lines[at].lstrip().startswith("."):
        first = next(index for index in range(at, -1, -1) if not lines[index].lstrip().startswith("."))
        return " ".join(line.strip() for line in lines[first:at + 1])
    head = next((index for index in range(at - 1, -1, -1) if lines[index].strip() and indent(lines[index]) < indent(lines[at]) and lines[index].rstrip().endswith("{")), at)
    first = head
    while re.match(r"\s*(\)|else\b|\}|\.)", lines[first]) or indent(lines[first]) > indent(lines[head]):
        first -= 1
    own = re.sub(r"\b(return )?(Err\(+)?[\w:]*::Memory\b.*", "", lines[at])
    return " ".join(line.strip() for line in lines[first:head + 1]) + " " + own.strip()


def code_of(line):
    """A line without its comment; nothing of one of a contract, an import or a definition."""
    code = line.split("//")[0]
    return "" if re.search(r"\b(ensures|requires|use|ghost)\b|≡", code) else code


def is_passed_on(code, found):
    """Whether the refusal at this place of a line is a pattern, or is answered in the arm of one that has no other case."""
    before, behind = code[:found.start()], code[found.end():]
    cases = before.partition("=>")[0].split(" | ") if "=>" in before else [""]
    return "=>" in behind or all("Memory" in case for case in cases) or re.search(r"matches!\(|\blet $", before) or "OutOfMemory" in found[0]


def places_in(file):
    """The places of a file that no rule of this script allows by itself."""
    lines, function, block = file.read_text(encoding="utf-8").splitlines(), None, ""
    for at, line in enumerate(lines):
        if re.match(r"(pub )?(unsafe )?(impl|trait)\b", line) or line.startswith("}"):
            block = line
        if head := re.match(r"\s*(?:pub(?:\([\w ]+\))? )?(?:const )?fn (\w+)", line):
            function = head[1]
        code = code_of(line)
        for found in re.finditer(r"\b\w+::(?:Memory|OutOfMemory)\b|(?:[({] ?|return |=> ?|= |\|\| ?)(?:\w+::)*(?:AllocError|AllocFailed)\b", code):
            condition = block if function == "from" else condition_of(lines, at)
            taken = re.search(r"\bFrom<(\w+)", block)
            is_from = taken and taken[1] in MEMORY_ALONE | {"AllocError", "AllocFailed"}
            if function and not is_from and not is_passed_on(code, found) and not re.search(r"\bMemory\b.*=> \{", condition):
                yield Place(str(file.relative_to(ROOT / "crates")), function, at, condition)


def main():
    found = [place for file in sorted(ROOT.glob("crates/*/src/**/*.rt")) if file.relative_to(ROOT).parts[1] not in LEFT_OUT for place in places_in(file)]
    if sys.argv[1:] == ["--list"]:
        return print("\n".join(f"{place.number} {place.key()}   {place.condition}" for place in found))
    if sys.argv[1:]:
        sys.exit(__doc__)
    wanted = collections.Counter(place for places in PLACES.values() for place in places)
    there = collections.Counter(place.key() for place in found)
    wrong = [f"{place.file}:{place.number}: no reason stands in tests/memory_places.py for this refusal: {place.key()}" for place in found if there[place.key()] > wanted[place.key()]]
    wrong += [f"tests/memory_places.py has a place that is gone: {key}" for key in wanted if wanted[key] > there[key]]
    if wrong:
        fail("\n".join(wrong))
    print(f"{len(found)} places refuse for want of memory beside those that pass a refusal on, each with its reason")


if __name__ == "__main__":
    main()
