#!/usr/bin/env python3
"""Compares the pages with what they speak of: needs nothing but the files.

    tests/pages.py            compares
    tests/pages.py --write    writes anew what pages quote of definitions; their sentences beside them are then yours to read again

No page has more than 3,000 words outside of code. Each link of a page leads to a file, and to a heading of it where it names one.

Each indented line of docs/CLOSURES.md and docs/SERVICE.md is a line of the crate that the page walks through (of its sources, its definitions, or what it
prints); `..` stands for lines that are left out. Of the pages that quote definitions (docs/MEANING.md, STEPS.md and THEOREM.md) each block stands so in crates/,
and each name and sign in it is explained or quoted up to there (tests/quoted.py).

Each name that a page cites is one of the sources: a path as `Plan::read` or `laws::orders`, in the crate that it names, or that a section of a page of promises
is of (docs/GUARANTEES.md, ENGINE.md and TESTED.md); each word of code with `_` or a capital inside; each file. In a page of promises so is each name behind
`*Contract*`, and what stands in brackets behind a function, as `Plan::read` (`ok`), are clauses of its contract, or definitions of its crate."""

import collections
import re
import sys

from lib import ROOT, fail
from quoted import mistakes_of_definitions, mistakes_of_words, write_definitions

PAGES = [ROOT / "README.md", ROOT / "CHANGELOG.md", *sorted(ROOT.glob("docs/*.md")), *sorted(ROOT.glob("*/README.md"))]
# The pages that quote definitions, in the order in which they are read: each with a block of them.
QUOTING = [page for page in PAGES if "\n```antt\n" in page.read_text(encoding="utf-8")]
# The pages of promises, which name contracts.
PROMISES = [ROOT / "docs" / name for name in ("GUARANTEES.md", "ENGINE.md", "TESTED.md")]
WALKS = {"docs/CLOSURES.md": "example_closures", "docs/SERVICE.md": "example_service"}
# A page is a ten-minute read: so many words outside of code, where a word is what stands between blanks and marks, as `td_feed::stream`.
MOST_WORDS = 3_000
WORD = re.compile(r"[A-Za-z0-9']+(?:[-_.:][A-Za-z0-9]+)*")
# A drawing in a page begins so.
DRAWN = ("producer ──", "(thread)", "release       publishes", "▼", "pool: the hall", "▲", "workers (a thread")


# What pages cite of Rust and its library, and what stands for any name.
OUTSIDE = {"f64::total_cmp", "fmt::Error", "Iterator::any", "thread::scope", "Display", "Result", "Clone", "Send", "sync_data", "RandomState", "posix_fadvise",
           "FILE_FUNCTION_MISTAKE"}
# The files whose words code on a page may be, beside sources and definitions.
SOURCES = ("crates/*/proofs/**/*.antt", "bench/*", "tests/*", "rows/*", "examples/*", "clients/**/*.*", "check", "build",
           "crates.txt", "docs/draw.py")
# Where the files stand that a page names without their folder.
FOLDERS = ("", "crates/", "docs/", "crates/*/")


def anchors_of(page):
    """The names of a page's headings, as GitHub makes them."""
    heads = re.findall(r"(?m)^#+ (.*)$", page.read_text(encoding="utf-8"))
    return {re.sub(r"[^\w\- ]", "", head.lower()).replace(" ", "-") for head in heads}


def mistakes_of_links():
    for page in PAGES:
        for link in re.findall(r"\]\(([^)\s]+)\)", page.read_text(encoding="utf-8")):
            place, _, anchor = link.partition("#")
            target = (page.parent / place).resolve() if place else page
            if re.match(r"\w+:", link):
                continue
            if not target.exists():
                yield f"{page.relative_to(ROOT)}: {link} leads nowhere"
            elif anchor and anchor not in anchors_of(target):
                yield f"{page.relative_to(ROOT)}: {link}: no such heading"


def lines_of(crate):
    """The lines of a crate, without what stands before and behind them."""
    folder = ROOT / "crates" / crate
    files = [*folder.glob("src/**/*.rt"), *folder.glob("specs/*.antt"), folder / "stdout"]
    return {line.strip() for file in files for line in file.read_text(encoding="utf-8").splitlines()}


def mistakes_of_walks():
    for name, crate in WALKS.items():
        lines, is_command = lines_of(crate), False
        for line in (ROOT / name).read_text(encoding="utf-8").splitlines():
            said = line.strip()
            is_command = line.startswith("    ") and (is_command or said.startswith("$ "))
            if line.startswith("    ") and not is_command and said not in lines | {"..", ""} and not said.startswith(DRAWN):
                yield f"{name}: no line of {crate}: {said}"


class Function:
    """A function of a crate, the types or the trait of whose block it is, and the clauses of its contract."""

    def __init__(self, crate, places, name):
        self.crate, self.places, self.name, self.clauses = crate, places, name, set()


def functions_in(file, crate):
    """The functions of a source file, each with the places by which it may be cited: its types, its module, its crate."""
    found, types = [], set()
    for line in file.read_text(encoding="utf-8").splitlines():
        if block := re.match(r"(?:pub )?(?:unsafe )?(?:impl|trait)\b(.*)", line):
            types = set(re.findall(r"(?<!\w)[A-Z]\w*", re.sub(r"<[^<>{]*>", "", re.sub(r"<[^<>{]*>", "", block[1].split(" where ")[0]))))
        elif line.startswith("}"):
            types = set()
        if function := re.match(r'\s*(?:pub(?:\([\w ]+\))? )?(?:const )?(?:ghost )?(?:extern "C" )?fn (\w+)', line):
            found.append(Function(crate, types | {file.stem, file.parent.name, crate}, function[1]))
        for clause in re.findall(r"\b(?:ensures|requires) (\w+) \{", line):
            found[-1].clauses.add(clause)
    return found


class Sources:
    """The names of all crates: what each place, a crate, a module or a type, has, by crate; the definitions of each; the words of the code, and of all sources."""

    def __init__(self):
        self.crates = {file.name for file in ROOT.glob("crates/*") if file.is_dir()}
        self.functions = collections.defaultdict(list)
        self.has = collections.defaultdict(set)
        self.definitions = collections.defaultdict(set)
        self.code = set()
        for file in [*ROOT.glob("crates/*/src/**/*.rt"), *ROOT.glob("crates/*/specs/**/*.antt")]:
            self.read(file, file.relative_to(ROOT).parts[1])
        self.code |= self.crates | {file.stem for file in ROOT.glob("crates/*/must-fail/*.edit")}
        self.words = set(self.code)
        for file in (file for pattern in SOURCES for file in ROOT.glob(pattern) if file.is_file()):
            self.words |= set(re.findall(r"\w+", file.read_text(encoding="utf-8", errors="replace")))

    def read(self, file, crate):
        text = file.read_text(encoding="utf-8")
        self.code |= set(re.findall(r"\w+", text))
        named = set(re.findall(r"\b(?:fn|struct|enum|trait|type|const|static|record|abbrev|data|mod) (?:pub )?(\w+)", text))
        fields = set(re.findall(r"(?m)^\s*(?:pub(?:\(\w+\))? )?(?:ghost )?(\w+) ?:", text)) | set(re.findall(r"(?m)^(?:pub )?(\w+)\b.*(?: :|=)", text))
        for place in (file.stem, file.parent.name, crate):
            self.has[crate, place] |= named | (fields if file.suffix == ".antt" or place == crate else set())
        self.definitions[crate] |= named if file.suffix == ".antt" else set()
        for kind, body in re.findall(r"(?ms)^(?:pub(?:\(\w+\))? )?(?:struct|enum|trait|record) (\w+).*?\{(.*?)^\}", text):
            self.has[crate, kind] |= set(re.findall(r"(?m)^\s*(?:pub(?:\(\w+\))? )?(?:ghost )?(?:fn |type )?(\w+)", body))
        for function in functions_in(file, crate) if file.suffix == ".rt" else []:
            self.functions[function.name].append(function)
            for place in function.places:
                self.has[crate, place].add(function.name)

    def cited(self, path, here):
        """The functions that a path may name, of these crates, or of the crate that it begins with; of all where there are none of these, or the path says of what it is."""
        *places, name = path.split("::")
        if places and places[0] in self.crates:
            here, places = {places[0]}, places[1:]
        all_of_it = [it for it in self.functions[name] if not places or places[-1] in it.places]
        return [it for it in all_of_it if it.crate in here] or (all_of_it if places or not here else [])

    def has_path(self, path, here):
        """Whether a path leads to a name: in its crate, in these crates, or, where there are none of either, in any."""
        *places, name = path.split("::")
        crates = self.crates & {places[0]} or (here if places[-1] == "laws" else set()) or self.crates
        return any(name in self.has[crate, places[-1]] for crate in crates)


def plain(said):
    """A name as code writes it, without the types and the values that it is given."""
    return re.sub(r"\(.*\)$", "", re.sub(r"<[^<>]*>", "", said))


def mistakes_of_files():
    """Files that docs/FILES.md names and the crates of the heading above lack; crates of crates.txt that are not in the table of docs/ARCHITECTURE.md."""
    crates = []
    for number, line in enumerate((ROOT / "docs/FILES.md").read_text(encoding="utf-8").splitlines(), 1):
        if line.startswith("#"):
            crates = re.findall(r"\btd(?:_\w+)?\b", line)
        for name in re.findall(r"`((?:proofs/)?\w+\.(?:rt|antt))`", line) if crates else []:
            named = {*crates, *re.findall(r"\b(?:of|Of) `?(td_\w+)", line), *re.findall(r"`(td(?:_\w+)?)/", line)}
            if not any(list((ROOT / "crates" / crate).glob(folder + name)) for crate in named for folder in ("", "src/", "specs/")):
                yield f"docs/FILES.md:{number}: no file {name} in {', '.join(sorted(named))}"
    table = (ROOT / "docs/ARCHITECTURE.md").read_text(encoding="utf-8")
    for crate in re.findall(r"(?m)^(\w+)[^#\n]*:", (ROOT / "crates.txt").read_text(encoding="utf-8")):
        if f"\n| `{crate}` |" not in table:
            yield f"docs/ARCHITECTURE.md: the table of crates lacks {crate}"


def mistakes_of_names(sources):
    """Paths, words of code and files that a page cites and nothing has."""
    for page in PAGES:
        here = set()
        for number, line in enumerate(page.read_text(encoding="utf-8").splitlines(), 1):
            if line.startswith("## "):
                here = sources.crates & set(re.findall(r"\w+", line)) if page in PROMISES else set()
            for said in re.findall(r"`([^`]+)`", line):
                name = plain(said)
                is_path, is_word = re.fullmatch(r"\w+(::\w+)+", name), re.fullmatch(r"[A-Za-z]\w*(_|[a-z][A-Z])\w*", name)
                is_file = re.fullmatch(r"[a-z_]+/([\w-]+/)*[\w-]+\.\w+|specs/\w+", said) and not re.search(r"[A-Z]{4}", said)
                if said in OUTSIDE or name in OUTSIDE:
                    continue
                if is_path and not sources.has_path(name, here) or is_word and name not in sources.words:
                    yield f"{page.relative_to(ROOT)}:{number}: {said} stands nowhere in the sources"
                elif is_file and not any(list(ROOT.glob(folder + said + ".antt" * ("." not in said))) for folder in FOLDERS):
                    yield f"{page.relative_to(ROOT)}:{number}: there is no file {said}"
    yield from mistakes_of_files()


def mistakes_of_contracts(page, sources):
    """What a page of promises cites of contracts and no contract has."""
    text = page.read_text(encoding="utf-8")
    for section in re.finditer(r"(?ms)^## (.*?)$(.*?)(?=^## |\Z)", text):
        here = sources.crates & set(re.findall(r"\w+", section[1]))

        def place(found):
            return f"{page.relative_to(ROOT)}:{text[:section.start(2) + found.start()].count(chr(10)) + 1}"

        for found in re.finditer(r"`([A-Za-z_][\w:<>]*)`\s*\((`[^()]*)\)", section[2]):
            functions = sources.cited(plain(found[1]), here)
            clauses = set().union(*(it.clauses | sources.definitions[it.crate] for it in functions))
            for clause in re.findall(r"`([a-z]\w*)`", re.split(r";|\b(?:with|by|in|of|which|the)\b", found[2])[0]) if functions else []:
                if clause not in clauses:
                    yield f"{place(found)}: {found[1]} has no clause {clause}"
        for found in re.finditer(r"\*Contract\*:?(.*?)(?=\.\s|\*Only|\*Not|\Z)", section[2], re.S):
            for name in re.findall(r"`([A-Za-z_]\w*)`", found[1]):
                if name not in sources.code | OUTSIDE:
                    yield f"{place(found)}: a contract {name} stands nowhere in the sources"


def mistakes_of_length():
    """Pages that no reader ends in ten minutes: with more than MOST_WORDS outside of code."""
    for page in PAGES:
        text = re.sub(r"(?ms)^```.*?^```", "", page.read_text(encoding="utf-8"))
        words = sum(len(WORD.findall(line)) for line in text.splitlines() if not line.startswith("    "))
        if words > MOST_WORDS:
            yield f"{page.relative_to(ROOT)}: {words} words outside of code, and {MOST_WORDS} are a ten-minute read"


def main():
    if sys.argv[1:] == ["--write"]:
        return write_definitions(QUOTING)
    sources = Sources()
    wrong = [*mistakes_of_length(), *mistakes_of_links(), *mistakes_of_walks(), *mistakes_of_definitions(QUOTING), *mistakes_of_words(QUOTING), *mistakes_of_names(sources),
             *(mistake for page in PROMISES for mistake in mistakes_of_contracts(page, sources))]
    if wrong:
        fail("\n".join(wrong))
    print(f"{len(PAGES)} pages: links lead somewhere, what is quoted of crates stands there, and each name, clause and file that is cited is there")


if __name__ == "__main__":
    main()
