#!/usr/bin/env python3
"""Looks at the files of disks: what `td copy` and `td load` leave where their new file cannot be written, whether it has all its room, and a pipe for a disk.

    tests/disk_files.py [TD]        needs crates/td/out/td (see the README), or the program that is named, and strace; without it says so

- Each write and each sync of NEW of a copy or a load fails in turn, alone, and with all that follow, as on a full device. It is then refused with NEW's path,
  and with the cause where a second look meets it too; NEW is not there any more, nor NEW.closures, and DISK is as it was, byte for byte. So it is where a
  call of NEW.closures fails.
- One that succeeds takes as much room of its file system as a formatted disk of the same shape, so that none of it is lacking later.
- A copy of three epochs makes as many syncs as one of two: the cells of all but the last are on the device by one.
- A pipe is no disk: each command refuses it at once, by the words for files, and it stays."""

import os
import re
import subprocess

import lib

TD = lib.asked_td()
SHAPE = ("4", "64", "1000")
SECONDS = 10
CALLS = {"pwrite64": ("write", "ENOSPC", "no space left on device"), "fsync": ("sync", "EIO", "input/output error")}


# What is loaded: a checkpoint in text.
STATES = "kept 4\nlast 2\nstate 1 7 5 2\nstate 1 8 -1 1\n"


def words_of(command, folder):
    """The words by which a command makes NEW, with the closures of DISK where it has some."""
    disk, plan, new, closures = (folder / name for name in ("disk", "plan", "new", "disk.closures"))
    if command == "copy":
        return ["copy", disk, plan, new, *SHAPE]
    return ["load", new, plan, *SHAPE, *(["--closures", closures] if closures.exists() else [])]


def make(command, folder, *inject, file="new"):
    """What a command ends with, its error text, and how often it called NEW, or another file, by each call."""
    calls = folder / "calls"
    strace = ["strace", "-qq", "-P", folder / file, "-e", "signal=none", "-e", f"trace={','.join(CALLS)}", *inject, "-o", calls]
    done = subprocess.run([*strace, TD, *words_of(command, folder)], input=STATES, capture_output=True, text=True)
    return done.returncode, done.stderr, {name: len(re.findall(rf"(?m)^{name}\(", calls.read_text())) for name in CALLS}


def made(folder, epochs):
    """A disk with a checkpoint and so many epochs after it, 3 at most."""
    fed = "0 7 5\n.\ncut\n" + "".join(f"req {number}\n0 7 {number}\n0 8 2\n.\n" for number in range(1, epochs + 1))
    (folder / "plan").write_text(lib.TOTAL)
    subprocess.run([TD, "format", folder / "disk", folder / "plan", "4", "3", "3"], check=True)
    subprocess.run([TD, "feed", folder / "disk", folder / "plan"], input=fed, text=True, stdout=subprocess.DEVNULL, check=True)
    return (folder / "disk").read_bytes()


def wanted(folder, name, number, is_alone):
    """The status and the error text of a command whose call of NEW of this number fails: the first sync is of its making."""
    call, _, cause = CALLS[name]
    if name == "fsync" and number == 1:
        return 7, f"td: file: {folder / 'new'}: cannot be made\n"
    return 3, f"td: device: {folder / 'new'}{'' if is_alone else f': {call}: {cause}'}\n"


def make_whole(command, folder):
    """Makes NEW, and answers how often it was called by each call; the script ends where it lacks room that it will need."""
    (folder / "new").unlink(missing_ok=True)
    status, _, counts = make(command, folder)
    subprocess.run([TD, "format", folder / "formatted", folder / "plan", *SHAPE], check=True)
    room, wanted_room = ((folder / name).stat().st_blocks for name in ("new", "formatted"))
    if status != 0 or min(counts.values()) < 2 or room < wanted_room:
        lib.fail(f"a {command} ended with status {status}, after {counts}, and takes {room} blocks; a formatted disk takes {wanted_room}")
    return counts


def fail_each(command, folder, image, counts):
    """Has each call of NEW fail; the script ends where the command then ends otherwise than it should."""
    new = folder / "new"
    for call, number, is_alone in ((call, number, is_alone) for call in CALLS for number in range(1, counts[call] + 1) for is_alone in (True, False)):
        new.unlink(missing_ok=True)
        *found, _ = make(command, folder, "-e", f"inject={call}:error={CALLS[call][1]}:when={number}{'' if is_alone else '+'}")
        if tuple(found) != wanted(folder, call, number, is_alone) or new.exists() or (folder / "disk").read_bytes() != image:
            lib.fail(f"{call} {number} of NEW of a {command} failed{' alone' if is_alone else ''}: {found}, and NEW is {'' if new.exists() else 'not '}there")


def fail_closures(command, folder):
    """Has each call of NEW.closures fail, alone: its last write and sync say what failed, and its first sync is of its making. A write of NEW that
    fails takes NEW.closures away as well."""
    (folder / "new").unlink(missing_ok=True)
    (folder / "disk.closures").write_text("map 10000\n  send key, val\n")
    status, _, counts = make(command, folder, file="new.closures")
    new, closures = folder / "new", folder / "new.closures"
    if (status, counts) != (0, {"pwrite64": 1, "fsync": 2}) or closures.read_bytes() != (folder / "disk.closures").read_bytes():
        lib.fail(f"a {command} with closures ended with status {status}, after {counts} of NEW.closures")
    made = (7, f"td: file: {closures}: cannot be made\n")
    for call, number, wanted_end in (("pwrite64", 1, None), ("fsync", 1, made), ("fsync", 2, None)):
        new.unlink(missing_ok=True)
        closures.unlink(missing_ok=True)
        *found, _ = make(command, folder, "-e", f"inject={call}:error={CALLS[call][1]}:when={number}", file="new.closures")
        named, _, cause = CALLS[call]
        if tuple(found) != (wanted_end or (3, f"td: device: {closures}: {named}: {cause}\n")) or new.exists() or closures.exists():
            lib.fail(f"{call} {number} of NEW.closures of a {command} failed: {found}, and of NEW and NEW.closures are there {[it.name for it in (new, closures) if it.exists()]}")
    closures.unlink(missing_ok=True)
    *found, _ = make(command, folder, "-e", "inject=pwrite64:error=ENOSPC:when=1")
    if tuple(found) != wanted(folder, "pwrite64", 1, True) or new.exists() or closures.exists():
        lib.fail(f"a write of NEW of a {command} with closures failed: {found}, and of NEW and NEW.closures are there {[it.name for it in (new, closures) if it.exists()]}")
    (folder / "disk.closures").unlink()


def take_pipe(folder):
    """Gives each command a pipe for a disk; the script ends where one does otherwise than refuse it."""
    pipe, plan = folder / "pipe", folder / "plan"
    os.mkfifo(pipe)
    told = (7, f"td: file: {pipe}: no file\n")
    for name, words, wanted_end in (("format", SHAPE, (1, "td: file\n")), ("feed", (), (1, "td: file\n")), ("show", (), (1, "td: file\n")),
                                    ("upgrade", (), (1, "td: file\n")), ("stream", (), told), ("dump", (), told), ("states", (), told),
                                    ("copy", (folder / "other", *SHAPE), told)):
        done = subprocess.run([TD, name, pipe, plan, *words], input="", capture_output=True, text=True, timeout=SECONDS)
        if (done.returncode, done.stderr) != wanted_end or done.stdout or not pipe.is_fifo() or (folder / "other").exists():
            lib.fail(f"td {name} of a pipe for a disk: {done}")


def main():
    with lib.folder() as folder:
        image = made(folder, 3)
        take_pipe(folder)
        print("a pipe for a disk is refused by each command")
        if not lib.is_traced():
            return lib.skip("the copies of disk_files, since there is no strace that may trace here")
        calls = {}
        for command in ("copy", "load"):
            calls[command] = make_whole(command, folder)
            fail_each(command, folder, image, calls[command])
            fail_closures(command, folder)
    with lib.folder() as folder:
        made(folder, 2)
        fewer = make_whole("copy", folder)
        if fewer["fsync"] != calls["copy"]["fsync"]:
            lib.fail(f"a copy of 2 epochs makes {fewer['fsync']} syncs, and one of 3 makes {calls['copy']['fsync']}")
    for command, counts in calls.items():
        print(f"a {command} whose {counts['pwrite64']} writes and {counts['fsync']} syncs of NEW fail in turn is refused with NEW's path, and NEW is gone; so it is "
              "where those of NEW.closures fail; what it makes has all its room")
    return None


main()
