#!/usr/bin/env python3
"""A live client of `td stream`: it sends batches, and stores the outputs of each, whatever dies at whatever moment.

    clients/td.py DISK PLAN BATCHES TABLE [TD [OPTION..]]

sends the batches of a file, and stores their outputs in a table of sqlite3. Options are more words of `td stream`, as `--hold`.

**What is guaranteed.** Let the stream, the client, or both be killed at any moments, and the client be started again. When `Client.run` returns,
each batch of the source is on the disk once, and all outputs of each epoch are stored once, under the epoch's number.

**What the caller gives.**

- A disk with N of at least 2, fed by this client alone.
- `source(first)`: the batches from request number `first` on, each a number and its records (input, key, value). Numbers rise, and are 1 or more. Each
  call gives the same batches, also while an earlier one goes on. It may wait for a batch that is to come.
- `store(epoch, outputs)`: puts all outputs (vertex, key, value) of an epoch in the place of those that it has of that epoch. They are durable when it
  returns. An epoch may come again, with the same outputs. It may have none, or two of one vertex and key.
- `refused(number, why)`, where a batch with a fault is to be passed over: it is called for each, with what the stream says of it. It may be called again
  after a stop. Without it such a batch ends the client.

**What it may be asked.** With `--ask` among the options, `Client.ask` answers a question about what folds keep (docs/QUESTIONS.md), while `run` goes on.

**Why nothing is lost.** A stream begins with the outputs of all epochs since the last cut. So an epoch that is not stored comes again, as long as no cut was
taken after it. The client sends `cut` only where all that was sent, and all that was on the disk, is stored. A stream cuts by itself only where N epochs
stand since the last cut; the client lets at most N - 1 stand there.

**Why nothing is doubled.** The client begins after the greatest request number on the disk, which `td dump` tells. What was sent before and is not there
is sent again. A client and its stream have a lock, the file DISK.lock; the next client waits until both have ended."""

import collections
import fcntl
import re
import sqlite3
import subprocess
import sys
import threading
import time

# Statuses of `td` after which another start would end alike: its words, the device, an operator is wanted, a line of the input, too much work.
FINAL = {2, 3, 4, 5, 8}
# The first line of `td dump`: the epoch of the last cut, the last epoch, the greatest request number, and N.
STANDING = re.compile(r"# kept (\d+) told (\d+) last (\d+), epochs \d+ of (\d+),")
SHORTEST_PAUSE, LONGEST_PAUSE = 0.01, 5.0


class Stopped(Exception):
    """An operator is wanted: why, and the status that `td` has for it."""

    def __init__(self, why, status=4):
        super().__init__(why)
        self.status = status


class Client:
    """Has the batches of `source` put on a disk, and their outputs stored by `store`. At most `window` epochs are under way, sent or on the disk and not
    stored. A stream that ends is started again, at most `tries` times while nothing new comes on the disk. `options` are more words of `td stream`.
    With `--hold` among them the stream itself takes no cut of what is not stored, and `--cut-every` may stand beside."""

    def __init__(self, disk, plan, source, store, td="td", window=64, tries=10, options=(), refused=None):
        self.holds = "--hold" in options
        if not self.holds and any(word.startswith("--cut-every") for word in options):
            raise ValueError("--cut-every takes cuts before outputs are stored")
        self.disk, self.plan, self.source, self.store = disk, plan, source, store
        self.td, self.window, self.tries, self.refused = td, window, tries, refused
        self.options = (*options, "--refuse") if refused else options
        # The stream that runs, and whether no other comes.
        self.stream, self.is_over, self.streams = None, False, threading.Condition()

    def ask(self, question):
        """What answers a question, as `top 1 10`: the epoch, and the states in order, each (vertex, key, a, b). It is called from other threads than that of `run`,
        any number of them. It waits for the answer, of the next stream where one ends before. Raises `Stopped` where `run` ends before."""
        stream = None
        while True:
            with self.streams:
                self.streams.wait_for(lambda: self.is_over or self.stream not in (None, stream))
                if self.is_over:
                    raise Stopped(f"no stream answers {question!r}", 1)
                stream = self.stream
            answer = stream.ask(question)
            if answer:
                return answer

    def begin(self, stream):
        with self.streams:
            self.stream = stream
            self.streams.notify_all()
        return stream

    def end(self):
        with self.streams:
            self.is_over = True
            self.streams.notify_all()

    def run(self):
        """Returns when the source has ended, and all is stored and cut. Raises `Stopped`, and what `source` and `store` raise."""
        with open(f"{self.disk}.lock", "w") as lock:
            fcntl.flock(lock, fcntl.LOCK_EX)
            try:
                self.run_locked(lock)
            finally:
                self.end()

    def run_locked(self, lock):
        before, in_vain = None, 0
        while in_vain < self.tries:
            status, standing = self.look()
            if standing:
                status, is_all = self.begin(Stream(self, lock, *standing)).run()
                if is_all:
                    return
            if status in FINAL:
                raise Stopped(f"td ended with status {status}", status)
            before, in_vain = standing, 0 if standing and standing != before else in_vain + 1
            time.sleep(min(SHORTEST_PAUSE * 2 ** in_vain, LONGEST_PAUSE))
        raise Stopped(f"td ended {in_vain} times, and nothing came of it; the last status is {status}", 1)

    def look(self):
        """The status of `td dump`, and where the disk stands; None in its place where `td` was refused."""
        with subprocess.Popen([self.td, "dump", self.disk, self.plan], stdout=subprocess.PIPE, text=True) as dump:
            found = STANDING.match(dump.stdout.readline())
            if found:
                dump.kill()
        return dump.returncode, found and tuple(map(int, found.groups()))


class Stream:
    """One `td stream`. A thread of its own sends batches; the thread of `run` reads lines, and stores."""

    def __init__(self, client, lock, kept, told, last, cells):
        self.client, self.last, self.most = client, last, cells - 1
        # Epochs: the last that was sent, is on the disk, is stored, and was cut. All up to the last cut are stored.
        self.sent = self.acknowledged = told
        self.stored = self.seen = self.cut = kept
        if not told - kept <= self.most >= 1:
            raise Stopped(f"{told - kept} epochs stand since the last cut, and N is {cells}")
        self.outputs, self.error, self.is_all, self.is_over = [], None, False, False
        self.changed = threading.Condition()
        # What is written to the stream is written by one thread at a time; questions wait in the order in which they were written.
        self.writing, self.asked, self.states = threading.Lock(), collections.deque(), []
        words = [client.td, "stream", client.disk, client.plan, "--marks", *client.options]
        self.child = subprocess.Popen(words, stdin=subprocess.PIPE, stdout=subprocess.PIPE, text=True, pass_fds=[lock.fileno()])

    def run(self):
        """Sends and stores until the stream ends: its status, and whether all was sent and stored."""
        threading.Thread(target=self.send_all, daemon=True).start()
        try:
            for line in self.child.stdout:
                # The last line of a stream that was killed may be the beginning of one.
                if line.startswith("no ") and line.endswith("\n"):
                    self.refuse(*line.split(maxsplit=2)[1:])
                elif line.endswith("\n"):
                    word, *numbers = line.split()
                    self.obey(word, *map(int, numbers))
        finally:
            self.child.kill()
            status = self.child.wait()
            with self.changed:
                self.is_over = True
                self.changed.notify()
            with self.writing:
                for answer in self.asked:
                    answer.give(None)
        if self.error:
            raise self.error
        return status, self.is_all and status == 0

    def obey(self, word, number, *numbers):
        """Does what a line of the stream says."""
        if word == "ack" and number == self.acknowledged + 1:
            self.acknowledged = number
        elif word in ("ack", "again"):
            raise Stopped(f"{word} {number} after epoch {self.acknowledged}: somebody else feeds this disk")
        elif word == "done":
            self.client.store(number, self.outputs)
            self.outputs = []
            with self.changed:
                self.stored = number
                self.changed.notify()
        elif word == "state":
            self.states.append(tuple(numbers))
        elif word == "asked":
            self.asked.popleft().give((number, self.states))
            self.states = []
        elif word not in ("cut", "full", "none"):
            self.outputs.append((number, *numbers))

    def ask(self, question):
        """What answers a question; None where the stream has ended before."""
        answer = Answer()
        try:
            with self.writing:
                if self.is_over:
                    return None
                self.asked.append(answer)
                self.child.stdin.write(f"{question}\n")
                self.child.stdin.flush()
        except (BrokenPipeError, ValueError):
            # The stream has ended, or all was sent to it.
            pass
        return answer.wait()

    def refuse(self, number, why):
        """Passes over a batch that the stream refused: it is no epoch."""
        if not self.client.refused:
            raise Stopped(f"no {number} {why}".rstrip("\n"), 5)
        self.client.refused(int(number), why.rstrip("\n"))
        with self.changed:
            self.sent -= 1
            self.changed.notify()

    def send_all(self):
        """Sends the batches of the source, and cuts."""
        try:
            with self.child.stdin:
                for number, records in self.client.source(self.last + 1):
                    self.send_batch(number, records)
                self.send_cut()
                self.is_all = True
        except BrokenPipeError:
            # The stream has ended: its status says why.
            pass
        except BaseException as error:
            self.error = error
            self.child.kill()

    def send_batch(self, number, records):
        """Sends a batch, and a cut before it where the journal would else be full."""
        if number <= self.last:
            raise Stopped(f"the source gives number {number} after {self.last}", 5)
        if self.sent - self.cut == self.most:
            self.send_cut()
        self.wait_until(lambda: self.sent - self.stored < self.client.window)
        self.last = number
        with self.changed:
            self.sent += 1
        self.send_seen()
        self.send(f"req {number}", *("%d %d %d" % record for record in records), ".")

    def send_cut(self):
        """Sends `cut`, once all that was sent is stored."""
        self.wait_until(lambda: self.sent == self.stored)
        self.cut = self.sent
        self.send_seen()
        self.send("cut")

    def send_seen(self):
        """Says which epochs are stored, where the stream holds the others."""
        if self.client.holds and self.seen < self.stored:
            self.seen = self.stored
            self.send(f"seen {self.seen}")

    def wait_until(self, is_so):
        """Waits until this is so; where the stream has ended, that is told as a write would."""
        with self.changed:
            self.changed.wait_for(lambda: self.is_over or is_so())
        if self.is_over:
            raise BrokenPipeError

    def send(self, *lines):
        with self.writing:
            self.child.stdin.write("".join(f"{line}\n" for line in lines))
            self.child.stdin.flush()


class Answer:
    """What one thread waits for, and another gives."""

    def __init__(self):
        self.is_there, self.said = threading.Event(), None

    def give(self, said):
        self.said = said
        self.is_there.set()

    def wait(self):
        self.is_there.wait()
        return self.said


# An example: the batches of a file, and a table.


def batches_of(file):
    """The source of a file with lines `req NUMBER`, `INPUT KEY VALUE` and `.`."""

    def source(first):
        records = []
        with open(file) as lines:
            for word, *numbers in filter(None, map(str.split, lines)):
                if word == "req":
                    request = int(numbers[0])
                elif word != ".":
                    records.append((int(word), *map(int, numbers)))
                else:
                    if request >= first:
                        yield request, records
                    records = []

    return source


def table_of(file):
    """What stores outputs in a table of sqlite3, each epoch in one transaction. A key is text there, since it may be above 2^63."""
    table = sqlite3.connect(file)
    # (by default a loss of power may take the last commit back, which is durable when `store` returns)
    table.execute("pragma synchronous = extra")
    table.execute("create table if not exists outputs (epoch integer, place integer, vertex integer, key text, value integer, primary key (epoch, place))")

    def store(epoch, outputs):
        with table:
            table.execute("delete from outputs where epoch = ?", (epoch,))
            rows = [(epoch, place, vertex, str(key), value) for place, (vertex, key, value) in enumerate(outputs)]
            table.executemany("insert into outputs values (?, ?, ?, ?, ?)", rows)

    return store


def main():
    if len(sys.argv) < 5:
        sys.exit(__doc__)
    disk, plan, batches, table, td, *options = [*sys.argv[1:], *["td"] * (len(sys.argv) == 5)]
    try:
        Client(disk, plan, batches_of(batches), table_of(table), td, options=tuple(options)).run()
    except Stopped as stop:
        print(f"{sys.argv[0]}: {stop}", file=sys.stderr)
        sys.exit(stop.status)


if __name__ == "__main__":
    main()
