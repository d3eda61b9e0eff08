#!/usr/bin/env python3
"""Installs the program into a folder of its own, and looks at what ./install made there.

    tests/install.py [TD]       of the program TD; of crates/td/out/td where none is given

The program answers from its new place; the man page has each command and is set by `man` without a warning; bash completes commands,
options and files, and zsh reads its file, where they are there."""

import pathlib
import re
import shutil
import subprocess
import sys

import lib

# Words of a command line, the last of which is completed, and some of what must come.
COMPLETIONS = [
    (["td", "st"], ["states", "stream"]),
    (["td", "str"], ["stream"]),
    (["td", "load", "--"], ["--map", "--closures", "--help"]),
    (["td", "f"], ["format", "feed"]),
    (["td", "--"], ["--help", "--version"]),
    (["td", "help", "dum"], ["dump"]),
    (["td", "help", "fa"], ["faults"]),
    (["td", "plan", "--d"], ["--dot"]),
    (["td", "plan", "total.p"], ["total.plan"]),
    (["td", "feed", "--w"], ["--workers"]),
    (["td", "stream", "--"], ["--workers", "--cut-every", "--most", "--progress", "--marks", "--refuse", "--at", "--hold", "--room", "--ask", "--status", "--copies", "--help"]),
    (["td", "stream", "--workers", ""], []),
    (["td", "feed", "tot"], ["total.disk", "total.plan"]),
    (["td", "feed", "--workers", "4", "total.disk", "total.p"], ["total.plan"]),
    (["td", "format", "total.disk", "total.plan", ""], []),
    (["td", "copy", "total.disk", "total.plan", "total.d"], ["total.disk"]),
    (["td", "batch", "tot"], []),
]


def run(words, **more):
    return subprocess.run(words, stdin=subprocess.DEVNULL, capture_output=True, text=True, **more)


def commands_of(td):
    """The commands that the program's help lists."""
    text = run([td, "help"]).stdout.split("\nCommands:\n")[1].split("\n\n")[0]
    return re.findall(r"(?m)^  (\w+)  ", text)


def mistakes_of_page(page, commands):
    """What is wrong with the man page."""
    if shutil.which("man") is None:
        return ["skipped: no man"]
    done = run(["man", "--warnings", "-E", "UTF-8", "-l", page], env={"PATH": "/usr/bin:/bin", "MANWIDTH": "120", "LANG": "C.UTF-8"})
    if done.returncode != 0 or done.stderr:
        return [f"man says: {done.stderr.strip()}"]
    text = re.sub(r".\x08|\x1b\[[\d;]*m", "", done.stdout)
    if not re.search(r"(?m)^NAME$", text):
        return ["skipped: man shows no pages here"]
    return [f"the man page has no {name}" for name in commands if name != "help" and not re.search(rf"(?m)^ +{name}$", text)]


def completed(file, words, folder):
    """What bash offers for the last of some words."""
    script = 'source "$1"; shift; COMP_WORDS=("$@"); COMP_CWORD=$(($# - 1)); _td; printf "%s\\n" "${COMPREPLY[@]}"'
    done = run(["bash", "-c", script, "bash", file, *words], cwd=folder)
    return [line for line in done.stdout.splitlines() if line], done.stderr


def mistakes_of_bash(file, folder):
    for name in ("total.disk", "total.plan"):
        (folder / name).touch()
    for words, wanted in COMPLETIONS:
        got, said = completed(file, words, folder)
        if said or sorted(got) != sorted(wanted):
            yield f"bash completes {' '.join(words)} by {got}, and not {wanted} {said}"


def mistakes_of_zsh(file):
    if shutil.which("zsh") is not None:
        done = run(["zsh", "-n", file])
        if done.returncode != 0:
            yield f"zsh says: {done.stderr.strip()}"


def main():
    td = lib.asked_td()
    with lib.folder() as folder:
        done = run([sys.executable, "-B", lib.ROOT / "install", folder / "prefix", td])
        installed = [pathlib.Path(line) for line in done.stdout.splitlines()]
        library = [file.name for file in installed[4:]]
        if done.returncode != 0 or len(installed) < 4 or library not in ([], ["td.h", "libtd.a", "libtd.so"]):
            lib.fail(f"./install: {done.stdout}{done.stderr}")
        program, page, bash, zsh = installed[:4]
        commands = commands_of(program)
        wrong = [*mistakes_of_page(page, commands), *mistakes_of_bash(bash, folder), *mistakes_of_zsh(zsh)]
    if any(not it.startswith("skipped: ") for it in wrong):
        lib.fail("\n".join(wrong))
    print("\n".join(wrong) or f"installed: {len(commands)} commands in the man page, {len(COMPLETIONS)} completions")


if __name__ == "__main__":
    main()
