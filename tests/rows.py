"""Rows: what programs must answer, as data. rows/README.md has their form; here they are read and run."""

import itertools
import os
import pathlib
import re
import subprocess
import tempfile

from gate import PROGRAMS, shown
from lib import ROOT

# Seconds for one row.
SECONDS_OF_A_ROW = 20
# A longer output is shown with the line in which it differs.
LINES_SHOWN = 10
# So many outputs may be right for one command, where lines of it say `either .. or ..`.
MOST_OUTPUTS = 64

# How a row says that a stream is not as usual, in words and for the shell.
STREAMS = {
    "standard input is closed": "<&-",
    "standard input is a folder": "</",
    "standard output is closed": ">&-",
    "standard output is full": ">/dev/full",
    "standard error is closed": "2>&-",
    "standard error is full": "2>/dev/full",
}


# What rows are made of


class Command:
    """A program with its words and its standard input, and what they must give: one of its outputs."""

    def __init__(self, program="td", words=()):
        self.program = program
        self.words = list(words)
        self.streams = []
        self.given, self.outputs, self.errors = b"", [b""], b""
        self.status = 0

    def output(self):
        """Its only output."""
        (only,) = self.outputs
        return only

    def add_output(self, each):
        """Adds to its output one of these texts."""
        self.outputs = [before + text for before in self.outputs for text in each]
        if len(self.outputs) > MOST_OUTPUTS:
            raise ValueError(f"more than {MOST_OUTPUTS} outputs would be right")


class Put:
    """A text that is put into a file."""

    def __init__(self, file, text):
        self.file, self.text = file, text

    def do(self, folder):
        (folder / self.file).write_bytes(self.text)


class Cut:
    """A file that is cut to so many bytes."""

    def __init__(self, file, size):
        self.file, self.size = file, size

    def do(self, folder):
        os.truncate(folder / self.file, self.size)


class Poke:
    """Bytes that are written into a file, at an offset."""

    def __init__(self, file, at, said):
        self.file, self.at, self.bytes = file, at, said

    def do(self, folder):
        with open(folder / self.file, "r+b") as file:
            file.seek(self.at)
            file.write(self.bytes)


class Holds:
    """Bytes that must stand in a file, at an offset; or, where there are none, that the file ends there."""

    def __init__(self, file, at, said):
        self.file, self.at, self.bytes = file, at, said

    def do(self, folder):
        found = (folder / self.file).read_bytes()
        if not self.bytes and len(found) != self.at:
            return f"{self.file} has {len(found)} bytes, and not {self.at}"
        here = found[self.at:self.at + len(self.bytes)]
        return None if here == self.bytes else f"{self.file} has {here.hex()} at {self.at}, and not {self.bytes.hex()}"


class Row:
    """Commands that run one after another in a folder of their own, and what is done to files there."""

    def __init__(self, title):
        self.title = title
        self.steps = []

    def commands(self):
        return [step for step in self.steps if isinstance(step, Command)]


# Loops


def rounds_of(head, table):
    """The rounds of a `for`, each the value of each of its names: of lists behind `in`, or of the lines of a table below it."""
    if " in " not in head:
        loops = [(head.split(", "), [[cell.strip() for cell in line[1:].split("|")] for line in table])]
    else:
        if table:
            raise ValueError("a `for` has its values behind `in`, or in a table")
        halves = [loop.partition(" in ") for loop in head.split(", ")]
        loops = [(names.split("/"), [value for word in words.split() for value in values_of(word)]) for names, _, words in halves]
    names = [name for of_loop, _ in loops for name in of_loop]
    if any(not re.fullmatch("[A-Z]+", name) for name in names) or len(set(names)) < len(names):
        raise ValueError("the names of a `for` are capital letters, each once")
    if any(not values or any(len(value) != len(of_loop) for value in values) for of_loop, values in loops):
        raise ValueError("a `for` has a value for each of its names, once or more")
    return [dict(zip(names, itertools.chain(*each))) for each in itertools.product(*(values for _, values in loops))]


def values_of(word):
    """The values of a word of a `for`, each a list with one for each name: `1..10` has ten, and `1..3/old` three of two names."""
    return list(map(list, itertools.product(*map(numbers_or_word, word.split("/")))))


def numbers_or_word(said):
    """The numbers that `1..10` stands for, or the word itself."""
    if (ends := re.fullmatch(r"(\d+)\.\.(\d+)", said)) is None:
        return [said]
    if int(ends[1]) > int(ends[2]):
        raise ValueError(f"{said} goes down")
    return [str(number) for number in range(int(ends[1]), int(ends[2]) + 1)]


def with_values(line, values, used):
    """A line of a loop's body, or of its head, with its names replaced; they are added to those that were used."""
    if not values:
        return line
    used |= set(found := re.findall(r"\{(\w+)\}", line))
    if unknown := set(found) - set(values):
        raise ValueError(f"no `for` has the name {', '.join(sorted(unknown))}")
    return re.sub(r"\{(\w+)\}", lambda name: values[name[1]], line)


def expanded(lines, values, used):
    """Lines, numbered, with each loop written out: a `for`, its table, and its body, which is set in by two blanks."""
    at = 0
    while at < len(lines):
        number, line = lines[at]
        at += 1
        try:
            if line.startswith(" "):
                raise ValueError("it is set in, and no `for` stands above it")
            line = with_values(line, values, used)
            if not line.startswith("for "):
                yield number, line
                continue
            table, body = [], []
            while at < len(lines) and lines[at][1].startswith("|"):
                table.append(with_values(lines[at][1], values, used))
                at += 1
            while at < len(lines) and (lines[at][1].startswith("  ") or not lines[at][1]):
                body.append((lines[at][0], lines[at][1][2:]))
                at += 1
            rounds, here = rounds_of(line.removeprefix("for "), table), set()
            if set(values) & set(rounds[0]):
                raise ValueError("a `for` around it has one of its names")
            # (the rounds are read before the first is handed on, so that all of them are)
            written = [each for names in rounds for each in expanded(body, {**values, **names}, here)]
            if idle := set(rounds[0]) - here:
                raise ValueError(f"its body has no {', '.join(sorted(idle))}")
            used |= here
        except ValueError as error:
            raise error if isinstance(error, Malformed) else Malformed(f"line {number}: {line}: {error}") from error
        yield from written


class Malformed(ValueError):
    """What is wrong with which line."""


def opened(lines):
    """Lines, numbered, in which each row that does not begin with a command begins with those below the last `every row`."""
    opening, is_opening, is_fresh = [], False, False
    for number, line in lines:
        if line == "every row":
            opening, is_opening = [], True
        elif is_opening and line:
            if not opening and not line.startswith("$ "):
                raise Malformed(f"line {number}: {line}: below `every row` stands a command")
            opening.append((number, line))
        elif is_opening and not opening:
            raise Malformed(f"line {number}: nothing stands below `every row`")
        else:
            is_opening = False
            if is_fresh and line and not line.startswith("#"):
                yield from opening if not line.startswith("$") else []
            is_fresh = line.startswith("row ") or is_fresh and (not line or line.startswith("#"))
            yield number, line


# Lines


def text_of(said):
    """The bytes that a line of a row writes: `\\t`, `\\r`, `\\\\` and `\\xHH` stand for one; a `\\` at the end leaves out the line feed."""
    end = b"\n"
    if re.search(r"(?<!\\)(\\\\)*\\$", said):
        said, end = said[:-1], b""
    named = {"t": b"\t", "r": b"\r", "\\": b"\\"}
    parts = re.split(r"\\(x[0-9a-f]{2}|[tr\\])", said)
    if any("\\" in part for part in parts[::2]):
        raise ValueError(f"an escape that stands for nothing in {said}")
    return b"".join(
        (named.get(part) or bytes.fromhex(part[1:])) if odd % 2 else part.encode() for odd, part in enumerate(parts)
    ) + end


def step_of(sign, said, texts):
    """What the line of a row says that is done to a file."""
    if sign == "+":
        name, _, file = said.rpartition(" ")
        return Put(file, texts[name].given)
    file, at, *said = said.split()
    if sign == "-" and not said:
        return Cut(file, int(at))
    if sign == "^" and said:
        return Poke(file, int(at), bytes.fromhex("".join(said)))
    if sign == "?":
        return Holds(file, int(at), bytes.fromhex("".join(said)))
    raise ValueError("no line of a row")


def outputs_of(said):
    """The texts of a line of output of which one is right: of `either A or B` two, and of any other line one."""
    if not said.startswith("either "):
        return [text_of(said)]
    each = said.removeprefix("either ").split(" or ")
    if len(each) < 2 or len(set(each)) < len(each) or "" in each:
        raise ValueError("`either` has two texts or more, which differ, with `or` between them")
    return [text_of(it) for it in each]


def add_call(at, said):
    """Adds lines of input, and those of output that they give."""
    asked, has_answer, answer = said.partition(" -> ")
    for line in asked.split(" | "):
        at.given += text_of(line)
    for line in answer.split(" | ") if has_answer else []:
        at.add_output(outputs_of(line))


def add_line(at, sign, said, texts):
    """Adds what a line says of a command, or of a text."""
    repeated = re.fullmatch(r"([<>!])(?:\*(\d+))?", sign)
    if sign == "@":
        at.given += texts[said].given
        at.add_output(texts[said].outputs)
    elif sign == "*":
        add_call(at, said)
    elif sign == ":":
        at.streams.append(STREAMS[said])
    elif sign == "=":
        at.status = int(said)
    elif repeated:
        count = int(repeated[2] or 1)
        if repeated[1] == "<":
            at.given += text_of(said) * count
        elif repeated[1] == "!":
            at.errors += text_of(said) * count
        else:
            at.add_output([text * count for text in outputs_of(said)])
    else:
        raise ValueError("no line of a row")


def read_lines(lines):
    """The rows of numbered lines without loops."""
    rows, texts, at = [], {}, None
    for number, line in lines:
        sign, _, said = line.partition(" ")
        try:
            if line.startswith("#") or not line:
                continue
            if sign == "plan":
                if said in texts:
                    raise ValueError("a text of this name is there already")
                at = texts[said] = Command()
            elif sign == "row":
                at = None
                rows.append(Row(said))
            elif sign == "$":
                program, *words = said.split()
                PROGRAMS.index(program)
                at = Command(program, [text_of(word + "\\") for word in words])
                rows[-1].steps.append(at)
            elif sign in ("+", "-", "^", "?"):
                at = None
                rows[-1].steps.append(step_of(sign, said, texts))
            else:
                add_line(at, sign, said, texts)
        except (AttributeError, IndexError, KeyError, ValueError) as error:
            raise Malformed(f"line {number}: {line}: {error}") from error
    idle = [row.title for row in rows if not row.commands()]
    if idle or not rows:
        raise Malformed(f"no commands, or no rows: {idle}")
    titles = [row.title for row in rows]
    if twice := {title for title in titles if titles.count(title) > 1}:
        raise Malformed(f"two rows have one title: {', '.join(sorted(twice))}")
    return rows


def read_rows(file):
    """The rows of a file, with its loops written out."""
    lines = list(enumerate(file.read_text(encoding="utf-8").split("\n"), 1))
    try:
        return read_lines(list(opened(expanded(lines, {}, set()))))
    except Malformed as error:
        raise ValueError(f"{file.name} {error}") from error


# Runs


def difference(programs, row, folder, seconds):
    """What the programs of a folder give otherwise than a row says, or None."""
    for step in row.steps:
        try:
            why = run_command(programs, step, folder, seconds) if isinstance(step, Command) else step.do(folder)
        except OSError as error:
            why = f"a file was not there: {error}"
        if why is not None:
            return why
    return None


def run_command(programs, command, folder, seconds):
    """What a command gives otherwise than its row says, or None."""
    line = ["sh", "-c", " ".join(['exec "$0" "$@"', *command.streams]), programs / command.program, *command.words]
    try:
        done = subprocess.run(line, input=command.given, capture_output=True, cwd=folder, timeout=seconds,
                              env={"PATH": os.defpath, "LANG": "C.UTF-8"})
    except subprocess.TimeoutExpired:
        return "it did not end"
    except BrokenPipeError:
        return "it did not take its input"
    given = {"status": done.returncode, "output": done.stdout, "error text": done.stderr}
    wanted = {"status": [command.status], "output": command.outputs, "error text": [command.errors]}
    for what, each in wanted.items():
        if given[what] not in each:
            words = b" ".join([command.program.encode(), *command.words]).decode(errors="backslashreplace")
            return f"the {what} of {words} {first_difference(given[what], each) if what == 'output' else ''}is {shown(given[what])}, and not {' or '.join(map(shown, each))}"
    return None


def first_difference(given, each):
    """Where a long output differs from the one of these that it is like for the most lines: in which line, and by what."""
    lines, others = given.split(b"\n"), [text.split(b"\n") for text in each]
    if len(lines) <= LINES_SHOWN:
        return ""
    at, other = max((alike(lines, other), other) for other in others)
    here, there = (it[at].decode(errors="backslashreplace") if at < len(it) - 1 else "its end" for it in (lines, other))
    return f"differs first in line {at + 1}, which is {here!r} and not {there!r}; it "


def alike(lines, others):
    """How many lines two texts begin with alike."""
    return next((at for at, (one, other) in enumerate(zip(lines, others)) if one != other), min(len(lines), len(others)) - 1)


def run_rows(tally, name, rows, programs):
    """Runs rows on each build of their programs, of which those of `td` are given; the others stand beside them."""
    rows = [row for row in rows if has_programs(programs[0].parent, row)]
    well = 0
    for row in rows:
        if any(stream.endswith("/dev/full") for command in row.commands() for stream in command.streams) and not os.path.exists("/dev/full"):
            tally.skip(f"{name}: {row.title}", "this system has no /dev/full")
            continue
        for build in (td.parent for td in programs):
            if not has_programs(build, row):
                continue
            with tempfile.TemporaryDirectory(prefix="td-row-") as folder:
                why = difference(build, row, pathlib.Path(folder), tally.seconds(SECONDS_OF_A_ROW))
            if why is not None:
                tally.fail(f"{name}: {row.title}", f"built {build.name}: {why}")
                break
        else:
            well += 1
    tally.passed += well
    print(f"check: {name}: {well} of {len(rows)} rows as they should be", flush=True)


def has_programs(build, row):
    """Whether a folder has the programs of a row."""
    return all((build / command.program).is_file() for command in row.commands())


def run_all_rows(tally, programs):
    for file in sorted((ROOT / "rows").glob("*.txt")):
        try:
            rows = read_rows(file)
        except (OSError, ValueError) as error:
            tally.fail(f"rows/{file.name}", error)
            continue
        run_rows(tally, f"rows/{file.name}", rows, programs)


def run_examples(tally, programs):
    """Runs the examples, those with closures in text too."""
    run_rows(tally, "examples", [example_row(file) for file in sorted((ROOT / "examples").rglob("*.td"))], programs)


def example_row(file):
    """The row of an example: `NAME.td` by `td batch`, with `NAME.closures` where that is there, gives `NAME.out`."""
    row, command, closures = Row(file.relative_to(ROOT / "examples").as_posix()), Command("td", [b"batch"]), file.with_suffix(".closures")
    if closures.is_file():
        row.steps.append(Put(closures.name, closures.read_bytes()))
        command.words += [b"--closures", closures.name.encode()]
    command.given, command.outputs = file.read_bytes(), [file.with_suffix(".out").read_bytes()]
    row.steps.append(command)
    return row
