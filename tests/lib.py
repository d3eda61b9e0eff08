"""What the scripts of tests/ and bench/ share: places, the programs, how a script ends, temporary folders, and programs that are built beside a crate."""

import contextlib
import os
import pathlib
import shutil
import subprocess
import sys
import tempfile

ROOT = pathlib.Path(__file__).resolve().parent.parent
TD = ROOT / "crates/td/out/td"
STEPS = ROOT / "crates/engine_steps/out/engine_steps"
FEEDS = ROOT / "crates/feed_steps/out/feed_steps"
# A file system in memory, if there is one: no device is waited for.
MEMORY = "/dev/shm"
# A running total of each key.
TOTAL = "0 input\n1 fold 40 0\n2 output 1\n"


def fail(why):
    """Ends the script with status 1: something is not as it must be."""
    sys.exit(str(why))


def skip(why):
    """Says what this machine lacks: ./check counts it, and it is no failure."""
    print(f"skipped: {why}")


# The programs


def built(program):
    """The path of a program; the script ends where it is not built."""
    if not program.is_file():
        fail(f"{program} is not there: cd {program.parent.parent} && rt run")
    return program


def asked_td():
    """The program that the script's first word names, or `td` as it was built."""
    return built(pathlib.Path(sys.argv[1]).resolve() if sys.argv[1:] else TD)


def td(*words, text=""):
    """The lines that `td` prints; the script ends where it is refused."""
    done = subprocess.run([TD, *words], input=text, capture_output=True, text=True)
    if done.returncode != 0:
        fail(f"td {' '.join(map(str, words))}: status {done.returncode}: {done.stderr}")
    return done.stdout.splitlines()


def steps(text):
    """Status, output and error text of `engine_steps` for a plan and commands."""
    done = subprocess.run([STEPS], input=text, capture_output=True, text=True)
    return done.returncode, done.stdout, done.stderr


def is_traced():
    """Whether there is a strace that may trace here."""
    return bool(shutil.which("strace")) and subprocess.run(["strace", "-o", os.devnull, "true"], capture_output=True).returncode == 0


# Folders, and programs that are built


@contextlib.contextmanager
def folder(in_memory=False, within=None):
    """A folder that is there for a while: in memory, where there is a file system of that kind, or in another folder."""
    with tempfile.TemporaryDirectory(prefix="td-", dir=MEMORY if in_memory and os.access(MEMORY, os.W_OK) else within) as name:
        yield pathlib.Path(name).resolve()


def compiled(source, program, *words):
    """The program that a C compiler makes of a file; None where there is no compiler."""
    compiler = next(filter(None, map(shutil.which, ("cc", "gcc", "clang"))), None)
    if compiler is None:
        return None
    subprocess.run([compiler, "-O2", "-o", program, source, *words], check=True)
    return program


def library(name, place):
    """The library that tests/NAME.c makes, to stand before the C library's calls; None where there is no compiler."""
    return compiled(ROOT / f"tests/{name}.c", place / f"{name}.so", "-shared", "-fPIC")


def lines_of_crates():
    """The line of each crate of this repository in crates.txt, by the crate's name."""
    lines = (ROOT / "crates.txt").read_text(encoding="utf-8").splitlines()
    return {line.split(":")[0].split()[0]: line for line in lines if ":" in line and line[0] != "#"}


def below(crate, lines):
    """The libraries that a crate uses, directly or not, by the lines of crates.txt: those of the kit are not followed."""
    found, left = {}, [crate]
    while left:
        line = lines.get(left.pop(), ":")
        new = [name for name in line.split(":")[1].split() if name not in found]
        found.update(dict.fromkeys(new))
        left += new
    return list(found)


def libraries_of(crates):
    """The libraries that some crates use, directly or not, without these crates; and the lines of those of this repository, with their own."""
    lines = lines_of_crates()
    used = [name for name in dict.fromkeys(name for crate in crates for name in below(crate, lines)) if name not in crates]
    return used, [line for name, line in lines.items() if name in crates or name in used]


def build_beside(crates, source, place, name=None, more=(), parts=(), given=""):
    """Builds a file as the program of a crate, of its name or another, beside copies of some crates and of those below them with what earlier checks kept:
    they are proved on the way. More libraries, further parts (paths in the crate, and texts) and its input may be given. Answers the program's path."""
    name = name or source.stem
    crates = crates.split()
    used, lines = libraries_of(crates)
    for it in (line.split(":")[0].split()[0] for line in lines):
        shutil.copytree(ROOT / "crates" / it, place / "crates" / it, ignore=shutil.ignore_patterns("edit_times"))
    own = place / "crates" / name
    for part, text in (("src/main.rt", source.read_text()), *parts):
        (own / part).parent.mkdir(parents=True, exist_ok=True)
        (own / part).write_text(text)
    (place / "crates.txt").write_text("\n".join([*lines, f"{name}: {' '.join([*crates, *used, *more])}", ""]))
    shutil.copy(ROOT / "HANDLES", place / "HANDLES")
    subprocess.run(["git", "init", "-q", place], check=True)
    done = subprocess.run(["rt", "run"], cwd=own, input=given, capture_output=True, text=True)
    if done.returncode != 0:
        fail(done.stdout + done.stderr)
    return own / "out" / name


def fill(program, disk, plan, keys, batch):
    """Feeds a disk a record of each key, so many a batch, and a cut."""
    with subprocess.Popen([program, "feed", disk, plan], stdin=subprocess.PIPE, stdout=subprocess.DEVNULL, text=True) as feed:
        for begin in range(0, keys, batch):
            feed.stdin.write("".join(f"0 {key} 1\n" for key in range(begin, min(begin + batch, keys))) + ".\n")
        feed.stdin.write("cut\n")
    if feed.returncode != 0:
        fail(f"td feed ended with status {feed.returncode}")


def states_after(epochs):
    """The lines of the states that the feeds' plan keeps after epochs, each its records and its outputs (vertex, key, value): of fold 1 the last total
    of a key and how many records it had, of fold 2 the greatest value of the epoch in which it last sent 1, where it did not send 0 since."""
    totals, toggled, counts = {}, {}, {}
    for records, outputs in epochs:
        for key, _val in records:
            counts[key] = counts.get(key, 0) + 1
        for vertex, key, val in outputs:
            if vertex == 4:
                totals[key] = val
            elif vertex == 5 and val == 1:
                toggled[key] = max(val for each, val in records if each == key)
            elif vertex == 5:
                del toggled[key]
    return [f"state 1 {key} {totals[key]} {counts[key]}" for key in sorted(totals)] + [
        f"state 2 {key} {toggled[key]} 0" for key in sorted(toggled)]
