"""The tracked files: whether each is one that something needs, none is too long, no merge was left half done, crates are laid out, and each
library of this repository in a line of crates.txt is named by the crate's files."""

import os
import re
import subprocess

from lib import ROOT, lines_of_crates

# The files that may be tracked, each kind in its place, and how many bytes one of them and all together may have.
TRACKED = re.compile(r"""
    README\.md|CHANGELOG\.md|LICENSE-\w+|HANDLES|crates\.txt|check|build|install|release|\.gitignore|\.ci/run
    |crates/\w+/(src/.+\.rt|(specs|proofs)/.+\.antt|must-fail/[^/]+\.(edit|md)|stdin|stdout|args|status|data/.+)
    |docs/([^/]+\.(md|svg|dot|txt)|draw\.py)|rows/([^/]+\.txt|README\.md)|(bench|tests)/[^/]+\.(py|rattle|rs|c)|bench/(all|history\.tsv)
    |examples/([^/]+\.(td|out)|README\.md|closures/[^/]+\.(td|closures|out))|tools/\w+
    |clients/(README\.md|\w+\.py|c/\w+\.[ch]|python/\w+\.py|rust/(Cargo\.toml|build\.rs|(src|examples|tests)/\w+\.rs))
    """, re.VERBOSE)
BYTES_OF_A_FILE = 200_000
BYTES_OF_ALL = 15_000_000


def tracked():
    """The paths of the files that git tracks and that are here; none where this is no repository of git's."""
    try:
        run = subprocess.run(["git", "-c", "safe.directory=*", "ls-files", "-z"], cwd=ROOT, stdin=subprocess.DEVNULL,
                             stdout=subprocess.PIPE, stderr=subprocess.DEVNULL)
    except OSError:
        return []
    return sorted(name for name in run.stdout.decode(errors="surrogateescape").split("\0") if name and os.path.lexists(ROOT / name))


def are_needed(tally):
    """Whether each tracked file is one that a crate, a row, a document or a script needs, and none is too long: what a prover
    keeps was once committed, 5,297 files."""
    sizes = {name: (ROOT / name).lstat().st_size for name in tracked()}
    stray = [name for name in sizes if not TRACKED.fullmatch(name)]
    long = [f"{name} has {size} bytes" for name, size in sizes.items() if size > BYTES_OF_A_FILE and name not in stray]
    if stray:
        tally.fail("tracked files", f"nothing needs {len(stray)} of them: {', '.join(stray[:3])}{', ..' if len(stray) > 3 else ''}")
    if long:
        tally.fail("tracked files", f"one may have {BYTES_OF_A_FILE} bytes: {', '.join(long)}")
    if sum(sizes.values()) > BYTES_OF_ALL:
        tally.fail("tracked files", f"all of them may have {BYTES_OF_ALL} bytes, and have {sum(sizes.values())}")
    return tally.failed == 0


def are_merged(tally):
    """Whether no line of a tracked file is what git writes between two sides of a merge that nobody has settled."""
    left = [f"{name}:{number}" for name in tracked() if (ROOT / name).is_file() and not (ROOT / name).is_symlink()
            for number in markers_in((ROOT / name).read_bytes())]
    if left:
        tally.fail("merges", f"git's lines between two sides stand in {', '.join(left)}")
    return not left


def markers_in(text):
    """The numbers of the lines that git writes there. A line of seven `=` is none below a line of seven characters, a heading."""
    lines = text.replace(b"\r\n", b"\n").split(b"\n")
    return [number for number, (above, line) in enumerate(zip([b"", *lines], lines), 1)
            if re.match(rb"(<{7}|>{7}|\|{7})( |$)", line) or line == b"=" * 7 and len(above) != 7]


def are_named(tally):
    """Whether each library of this repository in a crate's line of crates.txt stands in one of the crate's files: the kit sums the files of a crate once
    for each way of these lines that leads to it, so that a name too many costs minutes at each check."""
    lines = lines_of_crates()
    for crate, line in lines.items():
        files = [it for part in ("src", "specs", "proofs", "tests", "must-fail") for it in (ROOT / "crates" / crate / part).rglob("*") if it.is_file()]
        names = set(re.findall(r"\w+", "\n".join(it.read_text(encoding="utf-8", errors="replace") for it in files)))
        if unnamed := [it for it in line.split(":")[1].split() if it in lines and it not in names]:
            tally.fail("crates.txt", f"no file of {crate} names {', '.join(unnamed)}: its line needs them not")
    return tally.failed == 0


def are_laid_out(tally):
    """Whether the files of each crate stand in the layout of `rt fmt`: `rt ci` refuses the others too, but only once all
    libraries below are proved."""
    files = sorted(str(it.relative_to(ROOT)) for ending in ("rt", "antt") for part in ("src", "specs", "proofs")
                   for it in ROOT.glob(f"crates/*/{part}/**/*.{ending}"))
    try:
        run = subprocess.run(["rattle", "fmt", "--check", *files], cwd=ROOT, stdin=subprocess.DEVNULL, stdout=subprocess.PIPE,
                             stderr=subprocess.STDOUT, text=True, errors="replace")
    except OSError:
        # (a machine where the compiler stands elsewhere: `rt ci` tells)
        return True
    if run.returncode != 0:
        tally.fail("the layout", f"run rt fmt in the crate's folder: {run.stdout.strip()}")
    return run.returncode == 0
