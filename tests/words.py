#!/usr/bin/env python3
"""Kills clients/words.py, its stream, and both at once, at 30 moments: each word of the files is counted, once.

    tests/words.py [SEED [TD]]      needs crates/td/out/td, or the program TD

The files have words of several alphabets between random signs, and a line with more words that differ than a batch may have. `collections.Counter` counts the
words that they are made of, and does not read them. After a kill a piece of a line, or zeros, may be put behind the dictionary, as a stop of the machine
leaves them. Every second disk has few cells, so that cuts are many. It is required that

- no line of the dictionary is changed or taken away, and none stands there twice;
- at the end the counts are those of `Counter`, each word once, and the last request number on the disk is the number of batches;
- a further start, with one more file behind the others, adds just the words of that file;
- a key is in a batch only once its line is synced, nothing is added after a sync that failed, and an epoch that comes again leaves later counts. For
  that the source and the store are asked without a stream."""

import collections
import contextlib
import errno
import importlib.util
import os
import pathlib
import random
import shutil
import signal
import sqlite3
import subprocess
import sys
import time

import lib

sys.path.insert(0, str(lib.ROOT / "clients"))
SEED = int(sys.argv[1]) if sys.argv[1:] else 1
TD = lib.built(pathlib.Path(sys.argv[2]).resolve() if sys.argv[2:] else lib.TD)
CLIENT = lib.ROOT / "clients/words.py"
KILLS, KILLS_OF_A_ROUND, LINES, WORDS, SECONDS = 30, 6, 60000, 900, 60
# Records of a batch, cells and states of a disk with few cells.
SHAPE = ("4096", "4", "20000")
WAYS = ("the stream", "words.py", "both")
ALPHABETS = ("abcdefghij", "éüßñçåø", "бвгджзк", "αβγδεζ")
BETWEEN, BEFORE_A_LINE_FEED = (" ", ", ", " -- ", " 12 ", "_"), ("", "'", "\t", ".\x0b", " \x85", "\u2028", "\0")
# What a stop may leave behind the last whole line.
TORN = (b"", b"tor", b"\0\0\0\0", b"to\0\0n\nnext\n", "é".encode()[:1])


def random_word(made):
    letters = made.choice(ALPHABETS)
    word = "".join(made.choices(letters, k=made.randint(2, 7)))
    return f"{word}'{made.choice(letters)}" if made.randrange(20) == 0 else word


def as_written(made, word):
    """A word in some of its spellings."""
    return word if "ß" in word else made.choice((word, word.title(), word.upper()))


class File:
    """A file with these words in its lines: what Counter counts of them, and in how many batches they come."""

    def __init__(self, place, made, lines, batches):
        self.place, self.batches, self.counts = place, batches, collections.Counter(word for line in lines for word in line)
        texts = ("".join(f"{as_written(made, word)}{made.choice(BETWEEN)}" for word in line) + made.choice(BEFORE_A_LINE_FEED) for line in lines)
        place.write_text("\n".join(texts), encoding="utf-8", newline="\n")


def random_files(folder, made, client):
    """Files of many lines, of one line with more words than two batches may have, of few lines, and the one that is added behind them."""
    words = sorted({random_word(made) for _ in range(WORDS)})
    chances = [1 / rank for rank in range(1, len(words) + 1)]
    many = ["a" + "".join("bcdefghijk"[int(digit)] for digit in str(at)) for at in range(2 * client.RECORDS + 1)]
    lines = [made.choices(words, chances, k=made.randrange(1, 5)) for _ in range(LINES)]
    few = [made.choices(words, chances, k=made.randrange(1, 9)) for _ in range(client.LINES + 50)]
    each = [(lines, LINES // client.LINES), ([many], 3), (few, 2), (few[:2] + [["late", "words"]], 1)]
    return [File(folder / f"file{at}", made, *of) for at, of in enumerate(each)]


class Folder:
    """A folder of clients/words.py, and the program at work there."""

    def __init__(self, folder, files):
        self.folder, self.errors, self.lines = folder, folder.parent / "errors", []
        self.start(files)

    def start(self, files):
        self.files, words = files, [sys.executable, "-B", CLIENT, self.folder, *(file.place for file in files), "--td", TD]
        with open(self.errors, "a") as errors:
            self.program = subprocess.Popen(words, stdin=subprocess.DEVNULL, stdout=errors, stderr=errors, start_new_session=True)

    def stream(self):
        """The process of its stream, once it is there; None where the program has ended."""
        end = time.monotonic() + SECONDS
        while self.program.poll() is None:
            for pid in bytes_of(f"/proc/{self.program.pid}/task/{self.program.pid}/children").split():
                if b"\0stream\0" in bytes_of(f"/proc/{int(pid)}/cmdline"):
                    return int(pid)
            if time.monotonic() > end:
                lib.fail(f"no stream was started in {SECONDS} s: {self.errors.read_text()[-2000:]}")
            time.sleep(0.002)
        return None

    def kill(self, way):
        """Kills the stream, the program or both: whether what is killed was there."""
        pid = self.stream() if way == "the stream" else self.program.pid
        if pid is None or self.program.poll() is not None:
            return False
        try:
            (os.killpg if way == "both" else os.kill)(pid, signal.SIGKILL)
        except ProcessLookupError:
            return False
        return way == "the stream" or self.program.wait() < 0

    def tear(self, made):
        """Compares the dictionary with what it was, and puts behind it what a stop of the machine may leave."""
        self.compare_dictionary()
        if (self.folder / "words").exists():
            with open(self.folder / "words", "ab") as dictionary:
                dictionary.write(made.choice(TORN))

    def compare_dictionary(self):
        """Takes note of its whole lines: those that were there must be there still, each once."""
        text = bytes_of(self.folder / "words").partition(b"\0")[0]
        lines, before = text.split(b"\n")[:-1], self.lines
        if lines[:len(before)] != before or len(set(lines)) < len(lines):
            lib.fail(f"the dictionary had {len(before)} lines, and has {len(lines)}, {len(set(lines))} that differ: {before[-3:]}, {lines[-3:]}")
        self.lines = lines

    def check_end(self):
        """Waits until the program has ended: what is counted is what Counter counts."""
        if self.program.wait(SECONDS) != 0:
            lib.fail(f"it ended with status {self.program.returncode}: {self.errors.read_text()[-2000:]}")
        self.compare_dictionary()
        wanted, batches = sum((file.counts for file in self.files), collections.Counter()), sum(file.batches for file in self.files)
        said = subprocess.run([sys.executable, "-B", CLIENT, self.folder, "--top", "1000000"], capture_output=True, text=True)
        counts = [(word, int(count)) for count, word in (line.split(" ") for line in said.stdout.split("\n")[:-1])]
        if sorted(counts) != sorted(wanted.items()) or [count for _, count in counts] != sorted(wanted.values(), reverse=True):
            lib.fail(f"{len(counts)} words are counted, and not {len(wanted)}: {sorted(set(counts) ^ set(wanted.items()))[:6]} {said.stderr}")
        shown = subprocess.run([TD, "show", self.folder / "disk", self.folder / "plan"], capture_output=True, text=True).stdout
        if f"\ntold {batches}\nlast {batches}\n" not in shown:
            lib.fail(f"{batches} batches were to come, and the disk shows {shown[:100]}")
        return sum(wanted.values()), len(wanted), batches


def bytes_of(path):
    """What such a file has; nothing where it is not there."""
    try:
        return pathlib.Path(path).read_bytes()
    except OSError:
        return b""


def check_syncs(folder, files, client):
    """A batch's keys are of lines that were synced before; after a sync that failed nothing is added."""
    file, synced, is_failing, sync = folder / "dictionary", 0, False, os.fsync

    def recorded(descriptor):
        nonlocal synced
        if is_failing:
            raise OSError(errno.EIO, "no sync")
        sync(descriptor)
        synced = file.read_bytes().count(b"\n")

    os.fsync = recorded
    try:
        dictionary = client.Dictionary(file)
        for number, records in client.source([each.place for each in files], dictionary, 1):
            if max(key for _, key, _ in records) > synced:
                lib.fail(f"batch {number} has a key above {synced}, the number of lines that are synced")
        for is_failing in (True, False):
            try:
                lib.fail(f"after a sync that failed a word has the key {dictionary.keys_of(['lost'])}")
            except (OSError, client.Stopped):
                pass
    finally:
        os.fsync = sync
    if file.read_bytes().count(b"\n") > synced + 1:
        lib.fail("a word was added after a sync that failed")


def check_store(client):
    """An epoch that comes again leaves the counts of later ones."""
    with contextlib.closing(sqlite3.connect(":memory:")) as table:
        table.execute("create table counts (key integer primary key, count integer, epoch integer)")
        for epoch, count in ((1, 5), (2, 7), (1, 5)):
            client.store(table, epoch, [(2, 1, count), (2, epoch + 1, 1)])
        if (found := table.execute("select * from counts order by key").fetchall()) != [(1, 7, 2), (2, 1, 1), (3, 1, 2)]:
            lib.fail(f"of two epochs, the first of which comes again, {found} is stored")


def kill_round(here, made, longest, ways):
    """Kills after random whiles, in these ways, as long as there is what is killed: how many kills there were."""
    for kills, way in enumerate(ways):
        if way == "the stream":
            here.stream()
        time.sleep(made.random() * longest)
        if not here.kill(way):
            return kills
        if way != "the stream":
            here.tear(made)
            here.start(here.files)
    return len(ways)


def main():
    if not pathlib.Path(f"/proc/{os.getpid()}/task/{os.getpid()}/children").exists():
        return lib.skip("this system does not list a process's children")
    spec = importlib.util.spec_from_file_location("client", CLIENT)
    client = importlib.util.module_from_spec(spec)
    spec.loader.exec_module(client)
    made = random.Random(SEED)
    with lib.folder(in_memory=True) as folder:
        *files, more = random_files(folder, made, client)
        check_syncs(folder, files, client)
        check_store(client)
        begun, alone = time.monotonic(), folder / "alone"
        Folder(alone, files).check_end()
        longest = (time.monotonic() - begun) / 2
        shutil.rmtree(alone)
        kills = rounds = 0
        while kills < KILLS:
            rounds += 1
            with lib.folder(in_memory=True) as parent:
                place = parent / "counted"
                if rounds % 2:
                    place.mkdir()
                    (place / "plan").write_text(client.PLAN)
                    subprocess.run([TD, "format", place / "disk", place / "plan", *SHAPE], check=True)
                here = Folder(place, files)
                kills += kill_round(here, made, longest, [WAYS[at % len(WAYS)] for at in range(kills, min(kills + KILLS_OF_A_ROUND, KILLS))])
                here.check_end()
                here.start([*files, more])
                words, differ, batches = here.check_end()
    print(f"{KILLS} kills of words.py, its stream and both, in {rounds} rounds of {batches} batches: {words} words, {differ} that differ, are counted "
          f"once (seed {SEED})")


main()
