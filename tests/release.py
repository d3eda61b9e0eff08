#!/usr/bin/env python3
"""Makes releases of the program by ./release, and runs their `verify` on a few row files.

    tests/release.py [TD]       of the program TD; of crates/td/out/td where none is given

Of a program without td.proof, or with one that is older than it, none is made and none is verified, but with --unproved. With td.proof `verify` says what
stands there. Each link of a page of a release leads to a file, and `verify` leaves no file behind. It must fail where an output differs, where a file has
changed or is lacking, where the program has another logic than td.proof names, and where libtd.so answers otherwise, if crates/td_c/out/libtd_c.a is
there. A td.proof that does not come from ./build is written here for that."""

import os
import re
import shutil
import subprocess
import sys

import lib
from library import ARCHIVE, loaded

ROWS = ("rows/batch.txt", "rows/plan.txt", "rows/dump.txt")
# What a release has, among others; and what no release has.
HAS = ("bin/td", "share/man/man1/td.1", "README.md", "LICENSE-MIT", "docs/TUTORIAL.md", "docs/draw.py", "examples/count.td", "examples/closures/join.out",
       "clients/td.py", "clients/words.py", "clients/python/exactly_once.py", "clients/c/exactly_once.c", "clients/c/td.h", "rows/batch.txt", "tests/rows.py", "SHA256SUMS")
HAS_NOT = ("crates", "build", "check", "docs/CHANGING.md", "tests/library.py", "clients/__pycache__", "clients/rust/target")
LINK = re.compile(r"\]\(([^)\s#]+)(?:#[^)\s]*)?\)")
COMMIT = "0123456789abcdef0123456789abcdef01234567"


def run(*words):
    """Status and output of a command of Python."""
    done = subprocess.run([sys.executable, "-B", *words], stdin=subprocess.DEVNULL, stdout=subprocess.PIPE, stderr=subprocess.STDOUT, text=True)
    return done.returncode, done.stdout


def require(is_so, what, said):
    if not is_so:
        lib.fail(f"{what}: {said}")


def release(folder, td, *words):
    return run(lib.ROOT / "release", folder, td, *words)


def refuse_unproved(folder, td):
    """Without td.proof, and with an old one, no release is made."""
    proof = td.with_name("td.proof")
    for is_old in (False, True):
        if is_old:
            proof.write_text("kit: an older one\n")
            os.utime(proof, (1, 1))
        status, said = release(folder, td)
        require(status == 1 and "td.proof" in said and not folder.exists(), "a program without its td.proof is released", said)


def check_files(folder):
    """A release has what it should, and links that lead to its files."""
    lacks = [name for name in HAS if not (folder / name).is_file()] + [name for name in HAS_NOT if (folder / name).exists()]
    dead = [f"{page.relative_to(folder)}: {link}" for page in folder.rglob("*.md") for link in LINK.findall(page.read_text(encoding="utf-8"))
            if not re.match(r"\w+:", link) and not (page.parent / link).exists()]
    built = all((lib.ROOT / "crates/td_c/out" / name).is_file() for name in ("libtd.a", "libtd.so"))
    library = [(folder / name).is_file() for name in ("lib/libtd.a", "lib/libtd.so", "include/td.h")]
    require(not lacks and not dead and library == [built] * 3, "the files of a release", f"{lacks} {dead} {library}")


def verified(folder, *words):
    """Status and output of a release's verify, and how much it says that passed and failed."""
    status, said = run(folder / "verify", *words)
    counts = re.search(r"(?m)^(\d+) passed, (\d+) failed\n\Z", said)
    require(counts, "verify has no last line", said)
    return status, said, *map(int, counts.groups())


def check_verify(folder):
    """Verifies an unproved release: how much passed."""
    before = sorted(folder.rglob("*"))
    status, said = run(folder / "verify", ROWS[0])
    require(status == 1 and "--unproved" in said, "an unproved program is verified", said)
    status, said, passed, failed = verified(folder, "--unproved", *ROWS)
    require((status, failed) == (0, 0) and passed > 200 and all(f"{name}: " in said for name in ROWS), "verify", said)
    require(sorted(folder.rglob("*")) == before, "verify leaves", sorted(set(folder.rglob("*")) - set(before)))
    return passed


def check_failures(folder, td):
    """Verify fails where something is amiss, and names it."""
    changes = {
        "rows/batch.txt": lambda file: file.write_text(re.sub(r"(?m)^> (\d+ \d+ \d+) \d+$", r"> \1 77777", file.read_text(), count=1)),
        "docs/TUTORIAL.md": lambda file: file.unlink(),
        "bin/td": lambda file: file.write_bytes(b"#!/bin/sh\necho td 0.1 '(logic dac8208d650f15bf)'\n"),
    }
    for name, change in changes.items():
        shutil.copy(folder / name, td.with_name("kept"))
        change(folder / name)
        status, said, _, failed = verified(folder, "--unproved", "rows/batch.txt")
        require(status == 1 and failed > 0 and f"FAILED: {name}: it is not there, or not as it was released" in said, f"verify, where {name} differs", said)
        require(name == "docs/TUTORIAL.md" or re.search("FAILED: rows/batch.txt: (?!it is not there)", said), f"no row fails, and {name} differs", said)
        shutil.copy(td.with_name("kept"), folder / name)
    require(verified(folder, "--unproved", "rows/batch.txt")[::3] == (0, 0), "verify fails for what was put back", folder)


def check_library(folder):
    """Verify runs the library of a release, where it could be built: what it says then."""
    if not (folder / "lib/libtd.so").is_file():
        (folder / "lib").mkdir(exist_ok=True)
        if not ARCHIVE.is_file() or not loaded("build", lib.ROOT / "build").link_library(ARCHIVE, folder / "lib"):
            return "no library"
    status, said, _, failed = verified(folder, "--unproved", "rows/dump.txt")
    require((status, failed) == (0, 0) and re.search(r"lib/libtd.so: (\d+) of \1 examples", said), "verify of the library", said)
    shutil.copy(folder / "examples/count.out", folder / "examples/join.out")
    status, said, _, failed = verified(folder, "--unproved", "rows/dump.txt")
    require((status, failed) == (1, 2) and "FAILED: lib/libtd.so: join.td: " in said, "verify of a library that answers otherwise", said)
    return "its library too"


def check_proof(folder, td):
    """With td.proof a release says what stands there; it must be of the program's own logic."""
    version = subprocess.run([td, "--version"], stdin=subprocess.DEVNULL, capture_output=True, text=True).stdout
    logic = re.search(r"logic \w+", version)[0]
    for said_logic, wanted in ((logic, 0), ("logic 0000000000000000", 1)):
        td.with_name("td.proof").write_text(f"kit: rattle-kit-test {said_logic}\ncommit: {COMMIT}\nfunctions proved: 7\n")
        status, said = release(folder, td)
        require(status == 0 and f"of commit {COMMIT}" in said, "a release of a proved program", said)
        status, said, _, failed = verified(folder, "rows/dump.txt")
        lines = [f"verify: proved: kit: rattle-kit-test {said_logic}", f"verify: proved: commit: {COMMIT}"]
        require((status, failed) == (wanted, wanted) and all(line in said.splitlines() for line in lines), f"verify of a program by {said_logic}", said)
        status, said = release(folder, td)
        require(status == 1 and "is there already" in said, "a release is written over", said)
        shutil.rmtree(folder)


def main():
    asked = lib.asked_td()
    with lib.folder() as place:
        td, folder = place / "out/td", place / "release"
        td.parent.mkdir()
        shutil.copy(asked, td)
        refuse_unproved(folder, td)
        status, said = release(folder, td, "--unproved")
        require(status == 0, "./release", said)
        check_files(folder)
        passed = check_verify(folder)
        check_failures(folder, td)
        library = check_library(folder)
        shutil.rmtree(folder)
        check_proof(folder, td)
        require(sorted(place.iterdir()) == [td.parent], "there is left", list(place.iterdir()))
    print(f"a release of {asked.name}: verify says {passed} passed, 0 failed for {len(ROWS)} files of rows, and fails where something is amiss; {library}")


main()
