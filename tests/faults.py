#!/usr/bin/env python3
"""Compares docs/FAULTS.md, byte for byte, with what `td help faults` prints.

    tests/faults.py          the document with the constant in td/src/faults.rt, and with what the program prints
    tests/faults.py --write  writes that constant anew from the document

The program has the text as a constant, since Rattle has nothing that takes up a file when it compiles. The status is 1 where they differ."""

import subprocess
import sys

import lib

DOCUMENT = lib.ROOT / "docs/FAULTS.md"
SOURCE = lib.ROOT / "crates/td/src/faults.rt"

# (the head of the file is this script's word for itself: what is compared begins with the constant)
HEAD = """\
//! What `td help faults` prints: docs/FAULTS.md, byte for byte. `tests/faults.py` compares them, and
//! `tests/faults.py --write` writes this file anew.

"""
BEFORE = """\
/// The text that explains each fault.
pub(crate) const FAULTS: &str = r#\""""
AFTER = '"#;\n'


def main():
    text = DOCUMENT.read_text(encoding="ascii")
    if '"#' in text or "\r" in text:
        lib.fail("faults.py: a raw string of Rattle cannot hold the document")
    if sys.argv[1:] == ["--write"]:
        SOURCE.write_text(HEAD + BEFORE + text + AFTER, encoding="ascii")
        return
    if sys.argv[1:]:
        sys.exit(__doc__)
    if SOURCE.read_text(encoding="utf-8").partition("\n\n")[2] != BEFORE + text + AFTER:
        lib.fail("faults.py: td/src/faults.rt has another text than docs/FAULTS.md: tests/faults.py --write writes it anew")
    printed = subprocess.run([lib.built(lib.TD), "help", "faults"], stdin=subprocess.DEVNULL, capture_output=True)
    if printed.stdout != text.encode() or printed.stderr or printed.returncode != 0:
        lib.fail("faults.py: td help faults prints another text than docs/FAULTS.md")
    print(f"td help faults prints the {len(text)} bytes of docs/FAULTS.md")


if __name__ == "__main__":
    main()
