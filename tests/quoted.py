"""What pages quote of definitions, for tests/pages.py: docs/MEANING.md, STEPS.md and THEOREM.md.

Each block of such a page, from a line of three back ticks to the next, is whole definitions, word for word, of the file of crates/ that is named last before it.

The pages are read one after another, with nothing else. So each name of a quoted definition is known where it stands: it is a name or a field that is quoted
before, or in the same block; a variable of its definition; an argument of the module that the definition stands in; or a word that a table of the section, or of
one before, has in its first column, below `Written`, `Word` or `Value`. So is each sign. A name that two files define is one of its own file, or stands in a table."""

import re

from lib import ROOT, fail

BEGINS = re.compile(r"( *)(?:abbrev pub|pub record|pub data|pub fn|pub struct|pub enum) (\w+)")


def definition_of(file, name):
    """The lines of the definition of this name in a file; none where it has none, or several."""
    lines = (ROOT / file).read_text(encoding="utf-8").splitlines() if file and (ROOT / file).is_file() else []
    found = [(at, begin) for at, begin in enumerate(map(BEGINS.match, lines)) if begin and begin[2] == name]
    if len(found) != 1:
        return []
    at, begin = found[0]
    ends = re.compile(rf" *$| {{0,{len(begin[1])}}}(?:--|\{{)")
    return lines[at:next((end for end in range(at + 1, len(lines)) if ends.match(lines[end])), len(lines))]


def quotes_of(lines):
    """The blocks that a page quotes: each from a line of three back ticks to the next, with the file that is named last before it."""
    file, start = None, None
    for at, line in enumerate(lines):
        if start is None and line.startswith("```"):
            start = at + 1
        elif start is not None and line == "```":
            yield file, start, at
            start = None
        elif start is None:
            file = ([file] + re.findall(r"`(crates/[\w/]+\.(?:antt|rt))`", line))[-1]


def names_in(lines):
    """The names of the definitions that begin in some lines."""
    return [begin[2] for begin in map(BEGINS.match, lines) if begin]


def quoted_anew(file, lines):
    """The block with the definitions of these names, as they stand in the file."""
    return [line for name in names_in(lines) for line in ["", *definition_of(file, name)]][1:]


def mistakes_of_definitions(pages):
    """Blocks of the pages that do not stand, definition by definition, in the file that is named last before them."""
    for page in pages:
        lines = page.read_text(encoding="utf-8").splitlines()
        for file, start, end in quotes_of(lines):
            if lines[start:end] != quoted_anew(file, lines[start:end]) or not names_in(lines[start:end]):
                wrong = [name for name in names_in(lines[start:end]) if "\n".join(["", *definition_of(file, name), ""]) not in "\n".join(["", *lines[start:end], ""])]
                yield f"{page.relative_to(ROOT)}:{start}: this does not stand so in {file}: {', '.join(wrong) or 'what is not of a definition'}"


def write_definitions(pages):
    """Writes the quoted blocks of the pages anew, each definition as it stands in its file. What is said beside them stays."""
    for page in pages:
        lines = page.read_text(encoding="utf-8").splitlines()
        for file, start, end in reversed(list(quotes_of(lines))):
            if missing := [name for name in names_in(lines[start:end]) if not definition_of(file, name)]:
                fail(f"{page.relative_to(ROOT)}:{start}: {file} has no definition {', '.join(missing)}")
            lines[start:end] = quoted_anew(file, lines[start:end])
        page.write_text("\n".join([*lines, ""]), encoding="utf-8")


# Words and signs of the notation's own grammar, which no table explains: brackets, and what stands between a name and its type, fields and equations.
GRAMMAR = {"(", ")", "{", "}", "[", "]", ";", ":", "=", ",", ".", "|", "module", "pub", "fn", "ensures", "struct", "enum", "where", "then", "else", "in", "as"}
# A name, a field behind a point, or a sign.
TOKEN = re.compile(r"\.?[A-Za-z_]\w*|\.?\d\w*|\[\]|\+\+|==|&&|\|\||--|[^\s\w]")
# The headings of a table whose first column has words with their meaning.
OF_WORDS = ("Written", "Word", "Value")


def tokens_of(line):
    """The names and signs of a line, without remarks and texts."""
    return TOKEN.findall(re.sub(r'//.*|--.*|#\[.*|"[^"]*"', "", line))


def is_name(token):
    return bool(re.fullmatch(r"[A-Za-z_]\w*", token))


def words_of_tables(lines):
    """The names and signs in the first column of tables of words among these lines."""
    words, is_table = set(), False
    for line in lines:
        cells = re.split(r"(?<!\\)\|", line)
        if not line.startswith("|"):
            is_table = False
        elif cells[1].strip() in OF_WORDS:
            is_table = True
        elif is_table:
            words |= {token.lstrip(".") for said in re.findall(r"`([^`]+)`", cells[1].replace("\\|", "|")) for token in TOKEN.findall(said)}
    return words


def sections_of(lines):
    """The number of the line at which the section of each line begins, and at which it ends."""
    heads = [0, *(at for at, line in enumerate(lines) if line.startswith("## ")), len(lines)]
    return {at: (begin, end) for begin, end in zip(heads, heads[1:]) for at in range(begin, end)}


def definitions_in(block):
    """The definitions of a block, each as its lines."""
    begins = [at for at, line in enumerate(block) if BEGINS.match(line)] + [len(block)]
    return [[line for line in block[begin:end] if line.strip()] for begin, end in zip(begins, begins[1:])]


def members_of(definition):
    """What a definition gives names to beside itself: the fields of a record, the forms of a data type or of an enum."""
    fields = [re.match(r"\s+(?:pub )?(\w+)\s*:", line) or re.match(r"\s{4}(\w+)[,({ ]", line) for line in definition[1:]]
    return {field[1] for field in fields if field} if re.match(r" *pub (record|data|struct|enum)", definition[0]) else set()


def variables_of(definition, forms):
    """The variables of a definition: of its functions and quantifiers, and what the left sides of its equations and cases call by a name."""
    text, found = "\n".join(definition), set()
    for bound in re.findall(r"λ ([^.]+)\.", text) + re.findall(r"[({](\w[\w ]*?)(?: :| =)", text) + re.findall(r"\blet (\w+)", text):
        found |= set(re.findall(r"\w+", bound))
    name = BEGINS.match(definition[0])[2]
    sides = [line.split(" = ")[0] for line in definition[1:] if re.match(rf" *{name}\b", line)]
    sides += re.findall(r"[\[|] ([^|↦\[]+) ↦", text)
    for side in sides:
        heads = set(re.findall(r"\((\w+) (?!∷)", side))
        found |= {token for token in re.findall(r"(?<![\w.])[A-Za-z]\w*", side) if token not in forms | heads | {name} and (token[0].islower() or len(token) == 1)}
    return found


def arguments_around(file, name):
    """The arguments of the module that a definition stands in, in its file."""
    module = ""
    for line in (ROOT / file).read_text(encoding="utf-8").splitlines():
        begin = BEGINS.match(line)
        module = line if line.startswith("module _") else "" if begin and not begin[1] else module
        if begin and begin[2] == name:
            return {word for bound in re.findall(r"[({](\w[\w ]*?) :", module) for word in bound.split()}
    return set()


def unknown_in(file, definition, known, homes):
    """Names and signs of a definition that are not known where it stands."""
    name, members = BEGINS.match(definition[0])[2], members_of(definition)
    free = variables_of(definition, known) | arguments_around(file, name) | members | {name}
    for token in (token for line in definition for token in tokens_of(line)):
        word = token.lstrip(".") if len(token) > 1 else token
        if word in GRAMMAR | free or word.isdigit() or re.fullmatch(r"0x\w+", word):
            continue
        if word not in known:
            yield f"{word}, which is neither quoted nor explained up to here"
        elif is_name(token) and len(homes.get(word, {file}) - {None}) > 1 and not homes[word] & {file, None}:
            yield f"{word}, which {' and '.join(sorted(homes[word]))} define: a table has to say which is meant"


def mistakes_of_words(pages):
    """What is used in the definitions that these pages quote, and is not known there, where the pages are read one after another."""
    known, homes = set(), {}
    for page in pages:
        lines = page.read_text(encoding="utf-8").splitlines()
        sections, seen = sections_of(lines), 0
        for file, start, end in quotes_of(lines):
            words = words_of_tables(lines[seen:sections[start][1]])
            known |= words
            seen = sections[start][0]
            for word in words:
                homes.setdefault(word, set()).add(None)
            block = definitions_in(lines[start:end])
            for definition in block:
                known |= members_of(definition) | {BEGINS.match(definition[0])[2]}
                homes.setdefault(BEGINS.match(definition[0])[2], set()).add(file)
            for definition in block:
                for word in sorted(set(unknown_in(file, definition, known, homes))):
                    yield f"{page.relative_to(ROOT)}:{start}: {BEGINS.match(definition[0])[2]} uses {word}"
