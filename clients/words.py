#!/usr/bin/env python3
"""Counts the words of text files by `td stream` and the client clients/td.py, with a durable dictionary that has a number for each word.

    clients/words.py FOLDER FILE.. [--td TD] [--top N]    counts the words of the files, or goes on where it was stopped
    clients/words.py FOLDER --top N                       prints the N most frequent words so far, each behind its count

**What is guaranteed.** Let this program, its stream or both be killed at any moments, or the machine stop, and the program be started again with the same
files. When it ends with status 0, each word of the files is counted once. The files may not change between starts. More may be added behind them.

**The dictionary** is FOLDER/words, a word a line. Lines are added, and none is ever changed. A word's key is the number of its line, from 1. The line is
synced before the key is in a batch, so what the disk has under a key is that word's. What a stop left behind the last whole line is cut off at the next start.

**Batches** have the numbers 1, 2, .. in the order of the files, and are the same at each start: those that are on the disk are passed over. A batch has the
words of 1,000 lines of one file; where more than 4,096 differ, several batches have them. A record is a word's key, and how often the batch has the word.

**The counts** are in FOLDER/counts, a table of sqlite3: a word's key, its count, and the epoch that changed it last. The disk has room for 262,144 words, in
23 MB; `td copy` makes a larger one."""

import argparse
import collections
import fcntl
import itertools
import os
import pathlib
import re
import sqlite3
import subprocess
import sys
import threading
from functools import partial

from td import Client, Stopped

# A running total of each key.
PLAN = "0 input\n1 fold 40 0\n2 output 1\n"
# For so many records of an epoch, epochs between two cuts, and words the disk has room. So many lines make a batch.
RECORDS, EPOCHS, WORDS, LINES = 4096, 64, 1 << 18, 1000
# Letters, and apostrophes within them.
WORD = re.compile(r"[^\W\d_]+(?:['’][^\W\d_]+)*")


class Dictionary:
    """The keys of words, in a file that only grows. Several threads may ask it: the source of a stream that has ended may be at work still."""

    def __init__(self, file):
        self.file, self.is_sound, self.lock = open(file, "ab"), True, threading.Lock()
        words, size = whole_lines(file)
        self.keys = {word: key for key, word in enumerate(words, 1)}
        if len(self.keys) < len(words):
            raise Stopped(f"{file} has a word twice")
        self.file.truncate(size)
        # (also of lines that are there: a program that was killed may not have come to it)
        os.fsync(self.file.fileno())

    def keys_of(self, words):
        """The keys of words that differ. A new word's line is on the device before its key is known."""
        with self.lock:
            if new := [word for word in words if word not in self.keys]:
                self.append(new)
            self.keys.update((word, key) for key, word in enumerate(new, len(self.keys) + 1))
            return [self.keys[word] for word in words]

    def append(self, words):
        if not self.is_sound:
            raise Stopped("a write of the dictionary failed", 3)
        self.is_sound = False
        self.file.write("".join(f"{word}\n" for word in words).encode())
        self.file.flush()
        os.fsync(self.file.fileno())
        self.is_sound = True


def whole_lines(file):
    """The whole lines of a dictionary, and how many bytes they have. Zeros may stand where bytes did not reach the device."""
    text = file.read_bytes().partition(b"\0")[0]
    size = text.rfind(b"\n") + 1
    return text[:size].decode().split("\n")[:-1], size


def batches_of(files):
    """The words of each batch, with how often it has each."""
    for file in files:
        with open(file, encoding="utf-8", errors="replace", newline="\n") as text:
            while lines := list(itertools.islice(text, LINES)):
                counts = list(collections.Counter(WORD.findall("".join(lines).lower())).items())
                yield from (dict(counts[at:at + RECORDS]) for at in range(0, len(counts), RECORDS))


def source(files, dictionary, first):
    """The batches of files from a number on, as the client asks for them."""
    for number, batch in itertools.islice(enumerate(batches_of(files), 1), first - 1, None):
        yield number, [(0, key, count) for key, count in zip(dictionary.keys_of(batch), batch.values())]


def store(table, epoch, outputs):
    """Stores the counts of an epoch in one transaction. An epoch that comes again leaves the counts of later ones as they are."""
    with table:
        table.executemany("insert into counts values (?, ?, ?) on conflict (key) do update set count = excluded.count, epoch = excluded.epoch "
                          "where excluded.epoch > counts.epoch", [(key, count, epoch) for _, key, count in outputs])


def count_words(folder, files, td):
    """Counts the words of files, by what stands in the folder. Another program that does so there is waited for."""
    folder.mkdir(exist_ok=True)
    fcntl.flock(lock := os.open(folder, os.O_RDONLY), fcntl.LOCK_EX)
    plan, disk, new = (folder / name for name in ("plan", "disk", "disk.new"))
    plan.write_text(PLAN)
    if not disk.exists():
        subprocess.run([td, "format", new, plan, *map(str, (RECORDS, EPOCHS, WORDS))], check=True, pass_fds=[lock])
        new.replace(disk)
    dictionary, table = Dictionary(folder / "words"), sqlite3.connect(folder / "counts")
    # (what is stored stays stored, also where the power goes at once: a cut may follow)
    table.execute("pragma synchronous = extra")
    table.execute("create table if not exists counts (key integer primary key, count integer, epoch integer)")
    if table.execute("select key from counts where key > ?", (len(dictionary.keys),)).fetchone():
        raise Stopped(f"{folder / 'words'} lacks words that are counted")
    # (the names of the dictionary and the disk)
    os.fsync(lock)
    Client(disk, plan, partial(source, files, dictionary), partial(store, table), td).run()


def most_frequent(folder, most):
    """Counts, and the words that have them: the greatest counts so far, and of one count first the word that came first."""
    table = sqlite3.connect(f"{(folder / 'counts').resolve().as_uri()}?mode=rw", uri=True)
    counts = table.execute("select key, count from counts order by count desc, key limit ?", (most,)).fetchall()
    words, _ = whole_lines(folder / "words")
    return [(count, words[key - 1]) for key, count in counts]


def main():
    parser = argparse.ArgumentParser(usage=__doc__.split("\n\n")[1].strip(), add_help=False)
    parser.add_argument("folder", type=pathlib.Path)
    parser.add_argument("files", nargs="*", type=pathlib.Path)
    parser.add_argument("--td", default="td")
    parser.add_argument("--top", type=int, default=0)
    words = parser.parse_args()
    if not words.files and not words.top:
        parser.error("a FILE, or --top N")
    try:
        if words.files:
            count_words(words.folder, words.files, words.td)
        for line in most_frequent(words.folder, words.top):
            print(*line)
    except (OSError, sqlite3.Error, subprocess.CalledProcessError, Stopped) as failure:
        print(f"{parser.prog}: {failure}", file=sys.stderr)
        sys.exit(getattr(failure, "status", 1))


if __name__ == "__main__":
    main()
