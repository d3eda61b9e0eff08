"""The must-fail edits: mistakes in the code that the prover must refuse, each a file `crates/NAME/must-fail/*.edit`.

`rt ci` tries each edit alone, and then each costs what loading its crate costs, three times what its own function costs. Here
the edits of a crate are made together, one in each function, and one check says of each of these functions whether it is
proved. A function's proof rests on what the functions that it calls state, never on their code; so an edit is refused where
the check does not prove the very function that it changes, by a goal of that function. This asks for more than `rt ci` does,
which passes an edit where anything of the crate is not proved.

An edit says in a line which function it changes, `function: Bag::add` or `function: <Bag as PartialEq>::eq`; the kit reads no such line. One that
names another function is refused.

What such a check does not settle is tried alone, as `rt ci` would: an edit without such a line, and one of a function whose callee is not
proved either. A check in which a function without an edit is not proved, or a text cannot be read, settles nothing: its edits are tried in halves, until few
are left."""

import importlib.machinery
import importlib.util
import os
import pathlib
import re
import shutil
import tempfile


def load_rt():
    """The kit's `rt` as a module: it applies an edit, and checks a copy of a crate with the texts that it changed."""
    path = os.path.realpath(shutil.which("rt") or "/opt/rattle/bin/rt")
    if not os.path.isfile(f"{os.path.dirname(path)}/rtlib.py"):
        path = "/opt/rattle/bin/rt"
    loader = importlib.machinery.SourceFileLoader("rt", path)
    module = importlib.util.module_from_spec(importlib.util.spec_from_loader("rt", loader))
    loader.exec_module(module)
    return module


# How an edit was tried that was not tried alone.
TOGETHER = "together"
# So many edits, of which one check settles none, are tried alone. More are tried in two halves: mostly one edit is at fault.
FEW = 4

# Functions


class Function:
    """The function that an edit names: its module, the type and the trait of its `impl`, where it has one, and its name."""

    def __init__(self, module, kind, trait, name):
        self.module, self.kind, self.trait, self.name = module, kind, trait, name

    def key(self):
        return (*self.module, self.kind, self.trait, self.name)

    def path(self):
        """What names it for `--only`: its whole module, where the check's own name for it cannot be told from the edit."""
        if self.trait:
            return "::".join(self.module)
        return f"{self.kind}::{self.name}" if self.kind else "::".join([*self.module, self.name])

    def said(self, verdicts, crate):
        """What a check says of it, or None. A method stands below the module of its type, and a trait's below that of its `impl`."""
        module = "::".join([crate, *self.module])
        if self.trait:
            name = rf"{module}::{self.kind}[\w+]*{self.trait}[\w+]*"
        else:
            name = rf"{crate}(?:::\w+)*::{self.kind}(?:\+\w+)*" if self.kind else module
        found = [said for it, said in verdicts.items() if re.fullmatch(f"{name}::{self.name}", it)]
        return found[0] if len(found) == 1 else None


# Edits


class Edit:
    """A must-fail edit of a crate, and the function that its line `function: ..` names, or None: the one in which its last change stands. What it
    changes before only makes the last `old:` text stand once, or is of the same function; elsewhere it has to be proved. Where it names another
    function, `wrong` says so."""

    def __init__(self, file, crate, rt):
        self.name = pathlib.Path(file).stem
        self.file = file
        self.crate = crate
        self.text = pathlib.Path(file).read_text(encoding="utf-8")
        self.function = self.wrong = None
        line = re.search(r"(?m)^function: *(.*?)\s*$", self.text)
        if line and rt.edited(self.text, crate.folder)[1] is None:
            named = re.fullmatch(r"(?:<(\w+) as (\w+)>::|(\w+)::)?(\w+)", line[1])
            if named is None or named[4] not in self.heads(crate, rt):
                self.wrong = f"its line says that it changes the function {line[1]}, and it changes another"
            else:
                self.function = Function(module_of(self.path()), named[1] or named[3], named[2], named[4])

    def path(self):
        """The file of its last change."""
        return re.findall(r"(?m)^file: (.*?)\s*$", self.text)[-1]

    def heads(self, crate, rt):
        """The names of the functions in which its last change may stand: the last one whose head stands above it, and those whose heads it changes
        or adds."""
        begin = self.text.rindex("\nold: ") + 1
        earlier, _ = rt.edited(self.text[:begin], crate.folder)
        before = (earlier or {}).get(self.path()) or pathlib.Path(crate.folder, self.path()).read_text(encoding="utf-8")
        old = self.text[begin + len("old: "):].split("\n")[0]
        above = re.findall(r"\bfn (\w+)", before[:before.index(old)])
        return [*above[-1:], *re.findall(r"\bfn (\w+)", self.text[begin:])]


def misread(file, crate, rt):
    """Why an edit cannot be tried as it says: its text cannot be applied, or it names another function than it changes. None where it can."""
    _, why = rt.edited(pathlib.Path(file).read_text(encoding="utf-8"), crate.folder)
    return why or Edit(file, crate, rt).wrong


def module_of(path):
    """The module that a source file is."""
    module = path.removeprefix("src/").removesuffix(".rt").split("/")
    return module[:-1] if module[-1] in ("lib", "main", "mod") else module


def together(edits, crate, rt):
    """As many of these edits as can be made together, one in each function, and the texts that they make."""
    taken, functions, texts = [], set(), {}
    for edit in edits:
        if edit.function.key() not in functions:
            made, why = rt.edited("\n".join([*(it.text for it in taken), edit.text]), crate.folder)
            if why is None:
                taken, texts = [*taken, edit], made
                functions.add(edit.function.key())
    return taken, texts


def is_refused(said):
    """Whether a check does not prove a function for a goal of its own."""
    return said is not None and (said.startswith("not proved") or "did not prove" in said)


def tried_together(edits, texts, crate, rt, kept):
    """Which of these edits one check refuses: none where it cannot be read, or where it does not prove a function without an edit."""
    paths = sorted({it.function.path() for it in edits})
    ran = rt.checked(crate, texts, ["--jobs", "1", *(word for it in paths for word in ("--only", it))], kept)
    verdicts = dict(re.findall(r"(?m)^fn (\S+): (.*)$", ran.stdout))
    if ran.returncode != 1 or rt.rtlib.STALE.search(ran.stdout) or any(rt.unread(it, texts) for it in ran.stdout.split("\n")):
        return []
    said = [(it, it.function.said(verdicts, crate.name)) for it in edits]
    refused = [it for it, verdict in said if is_refused(verdict)]
    if sum(map(is_refused, verdicts.values())) != len(refused):
        return []
    return refused


def tried_alone(edit, crate, rt, kept):
    """Whether an edit by itself is refused, and what the kit says of it: over what was kept, and else from nothing."""
    for start in (kept, None):
        kind, said = rt.must_fail(crate, edit.file, ["--jobs", "1"], start)
        # (a kit says whether the edit is refused, or how)
        if kind if isinstance(kind, bool) else kind in (rt.REFUSED, rt.AT_LIMIT):
            return True, said
    return False, said


def try_edits(crate, files, rt):
    """Tries a crate's edits, and says of each by its name whether it was refused, and how."""
    answers, kept = {}, tempfile.mkdtemp(prefix="td-edits-")
    try:
        edits = [Edit(it, crate, rt) for it in files]
        answers.update({it.name: (False, it.wrong) for it in edits if it.wrong})
        named = [it for it in edits if it.function is not None]
        parts = [named] if named else []
        while parts:
            part = parts.pop()
            taken, texts = together(part, crate, rt)
            refused = tried_together(taken, texts, crate, rt, kept)
            answers.update({it.name: (True, TOGETHER) for it in refused})
            left = [it for it in part if it not in refused]
            if refused and left:
                parts.append(left)
            elif len(left) > FEW:
                parts += [left[::2], left[1::2]]
        for edit in edits:
            if edit.name not in answers:
                answers[edit.name] = tried_alone(edit, crate, rt, kept)
    finally:
        shutil.rmtree(kept, ignore_errors=True)
    return answers
