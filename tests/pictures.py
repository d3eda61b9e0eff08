#!/usr/bin/env python3
"""Compares the pictures of docs/ with their sources, and those of plans with the plans.

    tests/pictures.py [TD]      by the program TD; needs crates/td/out/td where none is given

Each docs/NAME.svg is what docs/draw.py makes of docs/NAME.dot or docs/NAME.txt, byte by byte; where there is an examples/NAME.td,
docs/NAME.dot is what `td plan examples/NAME.td --dot` writes; and each picture stands in a page."""

import subprocess
import sys

import lib
from lib import ROOT

sys.dont_write_bytecode = True
sys.path.insert(0, str(ROOT / "docs"))
import draw

PAGES = [ROOT / "README.md", *ROOT.glob("docs/*.md"), *ROOT.glob("examples/*.md")]


def mistakes_of_pictures():
    """What is wrong with the pictures as such."""
    texts = "".join(page.read_text(encoding="utf-8") for page in PAGES)
    sources = draw.sources()
    for source in sources:
        picture = source.with_suffix(".svg")
        if not picture.exists() or picture.read_text(encoding="utf-8") != draw.picture_of(source):
            yield f"docs/{picture.name} is not that of docs/{source.name}: docs/draw.py makes it anew"
        if f"{picture.name})" not in texts:
            yield f"docs/{picture.name} stands in no page"
    for picture in set(ROOT.glob("docs/*.svg")) - {source.with_suffix(".svg") for source in sources}:
        yield f"docs/{picture.name} has no source"


def plans():
    """The plans of the examples that have a picture, each with its source."""
    pairs = [(plan, ROOT / "docs" / f"{plan.stem}.dot") for plan in sorted(ROOT.glob("examples/*.td"))]
    return [(plan, source) for plan, source in pairs if source.exists()]


def mistakes_of_plans(td):
    """What the program draws otherwise than the sources say."""
    for plan, source in plans():
        done = subprocess.run([td, "plan", plan, "--dot"], stdin=subprocess.DEVNULL, capture_output=True, text=True)
        if done.returncode != 0 or done.stdout != source.read_text(encoding="utf-8"):
            yield f"docs/{source.name} is not what td plan examples/{plan.name} --dot writes: {done.stderr.strip() or 'other lines'}"


def main():
    wrong = [*mistakes_of_pictures(), *mistakes_of_plans(lib.asked_td())]
    if wrong:
        lib.fail("\n".join(wrong))
    print(f"{len(draw.sources())} pictures, {len(plans())} of them of plans, as their sources say")


if __name__ == "__main__":
    main()
