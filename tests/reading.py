"""The must-fail edits as the front end reads them, before anything is proved. One that does not compile would have each edit of its crate tried alone.

The edits of all crates are made together, as many as can be, and one run of `rattle check` reads all crates with them from their sources. It looks for
mistakes of names and types first, of values let go next, and of moves and borrows last. What it does after that takes ten times as long, and says nothing of
an edit. So the crate above them all, which the run is asked to check, has a mistake of the last kind, and the run ends there."""

import concurrent.futures
import itertools
import pathlib
import re
import shutil
import subprocess
import tempfile

from edits import Edit, together
from gate import processors

# The file of the crate above all others. It moves a value twice.
ABOVE = "src/lib.rt"
TEXT_ABOVE = """#![tactic(auto)]

pub fn moved_twice(given: Box<u8>) -> Box<u8> {
    let _taken = given;
    given
}
"""
ERROR = re.compile(r"(\S+?):\d+:\d+: error\[")


class Reader:
    """The front end, for crates of a tree with and without edits."""

    def __init__(self, rt):
        self.rt = rt

    def refused(self, files):
        """Reads edits, the files of each crate that has some, and answers what the front end says of each that it refuses. Where it refuses the crates
        as they stand, it answers that alone, of None."""
        parts = [self.parts(crate, [Edit(it, crate, self.rt) for it in edits]) for crate, edits in files.items()]
        rounds = [list(itertools.chain(*it)) for it in itertools.zip_longest(*parts, fillvalue=[])]
        with concurrent.futures.ThreadPoolExecutor(processors()) as pool:
            said = list(pool.map(self.errors, rounds))
            if any(said) and (errors := self.errors([], files)):
                return {None: errors}
            found = pool.map(self.culprits, rounds, said)
            return {edit: errors for it in found for edit, errors in it.items()}

    def parts(self, crate, edits):
        """The edits of a crate in parts that can be made together. One that names no function is a part by itself."""
        parts, left = [], [it for it in edits if it.function is not None]
        while left:
            taken, _ = together(left, crate, self.rt)
            parts.append(taken)
            left = [it for it in left if it not in taken]
        return [*parts, *([it] for it in edits if it.function is None)]

    def culprits(self, edits, errors):
        """Those of some edits that are refused, each with what is said of it alone: those of a file that an error names are read apart from the others,
        and else a half of them. An error that two edits make only together is no edit's."""
        if not errors or len(edits) == 1:
            return dict.fromkeys(edits, errors) if errors else {}
        named = {ERROR.match(it)[1] for it in errors}
        first = [it for it in edits if f"{it.crate.name}/{it.path()}" in named]
        if len(first) in (0, len(edits)):
            first = edits[:len(edits) // 2]
        found = {}
        for part in (first, [it for it in edits if it not in first]):
            found.update(self.culprits(part, self.errors(part)))
        return found

    def errors(self, edits, crates=()):
        """The errors that the front end finds in these crates, and in those of some edits, with the edits made together, each a line with its place."""
        texts = {}
        for crate in dict.fromkeys(it.crate for it in edits):
            texts[crate], why = self.rt.edited("\n".join(it.text for it in edits if it.crate is crate), crate.folder)
            if why:
                return [f"{crate.name}/must-fail:1:1: error[edit]: {why}"]
        read = list(dict.fromkeys(it for crate in [*crates, *texts] for it in [*crate.below(), crate]))
        with tempfile.TemporaryDirectory(prefix="td-reading-") as room:
            for crate in read:
                shutil.copytree(f"{crate.folder}/src", f"{room}/{crate.name}/src")
            for crate, path, text in [(crate, *it) for crate, made in texts.items() for it in made.items() if it[0].startswith("src/")]:
                pathlib.Path(room, crate.name, path).write_text(text, encoding="utf-8")
            said = self.said(room, read)
        errors = [it.replace(f"{room}/", "") for it in said.split("\n") if ERROR.match(it)]
        if not errors:
            raise RuntimeError(f"the front end did not read the crates: {said[-1000:]}")
        return [it for it in errors if not it.startswith(ABOVE)]

    def said(self, room, crates):
        """What the front end says of the sources of crates in a folder."""
        above, rtlib = pathlib.Path(room, "reading"), self.rt.rtlib
        (above / "src").mkdir(parents=True)
        (above / ABOVE).write_text(TEXT_ABOVE)
        words = ["--crate-name", above.name, ABOVE, "--jobs", "1", "--only", "", "-L", f"dependency={rtlib.KIT}/rlibs"]
        for name in sorted({"core", "std", *(it for crate in crates for it in crate.of_kit)}):
            words += ["--extern", f"{name}={rtlib.KIT}/rlibs/{name}.rlib"]
        for crate in crates:
            uses = dict.fromkeys(["core", *crate.of_kit, *(it.name for it in crate.deps)])
            words += ["--lib", f"{crate.name}:{','.join(uses)}={room}/{crate.name}/src/lib.rt"]
        words += ["--antt-project", f"{rtlib.KIT}/rattle/logic/antt-project.json", "--logic-built", f"{rtlib.KIT}/logic_built"]
        return subprocess.run([*rtlib.guarded(), rtlib.RATTLE, "check", *words], cwd=above, stdin=subprocess.DEVNULL, stdout=subprocess.PIPE,
                              stderr=subprocess.STDOUT, text=True, errors="replace").stdout
