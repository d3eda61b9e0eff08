#!/usr/bin/env python3
"""Reads a disk beside the stream that writes it: `td show --live` and `td dump --live`; and waits for a disk that is locked: `td --wait`.

    tests/live.py [TD]        needs crates/td/out/td (see the README), or the program that is named

- A producer sends a stream one epoch after another, with a cut after each third one, on a disk of four cells, and meanwhile the disk is read 200 times,
  in turn by `show --live` and by `dump --live`. Each reading ends as a reading of a disk at rest, or with `busy`, and at least one in ten does not. What
  it shows is one epoch E, which is not before the last one that was acknowledged when the reading began, nor after the last one that was sent when it
  ended. Epoch e has one record, of key e mod 5 and value e: so the states, the records and the request numbers after E are known, and no mix of two
  epochs has them.
- Without --live each is refused meanwhile, and with `--wait 1` a second later, and no sooner.
- A `show` that waits for a stream's disk gets it when the stream ends; two readers have a disk at a time; and one that may only be read is read."""

import fcntl
import os
import re
import subprocess
import sys
import threading
import time

import lib

TD = lib.asked_td()
READINGS, KEYS, SECONDS = 200, 5, 60
CUT_AFTER = 3
LOCKED = "locked by another process"


def td(*words):
    """What the program prints; the script ends where it is refused."""
    done = subprocess.run([TD, *words], stdin=subprocess.DEVNULL, capture_output=True, text=True, timeout=SECONDS)
    if done.returncode != 0:
        lib.fail(f"td {' '.join(map(str, words))}: status {done.returncode}: {done.stderr}")
    return done.stdout


class Producer(threading.Thread):
    """Sends epochs to a stream, one after another, each once the one before it is acknowledged, until it is told to stop."""

    def __init__(self, disk, plan):
        super().__init__(daemon=True)
        self.stream = subprocess.Popen([TD, "stream", disk, plan], stdin=subprocess.PIPE, stdout=subprocess.PIPE, text=True)
        self.sent = self.acked = 0
        self.is_stopped = False

    def run(self):
        while not self.is_stopped:
            self.sent += 1
            self.stream.stdin.write(f"req {10 * self.sent}\n0 {self.sent % KEYS} {self.sent}\n.\n" + "cut\n" * (self.sent % CUT_AFTER == 0))
            self.stream.stdin.flush()
            while (line := self.stream.stdout.readline()) and line != f"ack {self.sent}\n":
                pass
            if not line:
                return
            self.acked = self.sent
            time.sleep(0.002 * (self.sent % 4))

    def stop(self):
        """Ends the stream; the script ends where it ended before, or with a fault."""
        self.is_stopped = True
        self.join(SECONDS)
        self.stream.stdin.close()
        self.stream.stdout.read()
        if self.stream.wait(SECONDS) != 0 or self.acked != self.sent:
            lib.fail(f"the stream ended with {self.stream.returncode}, {self.acked} of {self.sent} epochs acknowledged")


def states_at(epoch):
    """The lines of the states after so many epochs: of each key its total and how many records it had."""
    values = [[e for e in range(1, epoch + 1) if e % KEYS == key] for key in range(KEYS)]
    return [f"state 1 {key} {sum(its)} {len(its)}" for key, its in enumerate(values) if its]


def shown_at(kept, told):
    """What `show` writes of a disk with that checkpoint and that last epoch."""
    epochs = [f"epoch {e} 1" for e in range(kept + 1, told + 1)]
    return [f"kept {kept}", f"told {told}", *[f"last {10 * told}"] * (told > 0), *states_at(kept), *epochs]


def dumped_at(kept, told):
    """The same of `dump`."""
    epochs = [line for e in range(kept + 1, told + 1) for line in (f"req {10 * e}", f"0 {e % KEYS} {e}", ".")]
    return [f"# kept {kept} told {told} last {10 * told}, epochs {told - kept} of 4, states {len(states_at(kept))} of 8", *epochs]


def reading(producer, command, disk, plan):
    """Reads the disk once; whether it was busy. The script ends where anything else is amiss."""
    before = producer.acked
    done = subprocess.run([TD, command, disk, plan, "--live"], capture_output=True, text=True, timeout=SECONDS)
    after = producer.sent
    if (done.returncode, done.stdout, done.stderr) == (1, "", f"td: busy: {disk} changes while it is read\n"):
        return True
    found = re.match(r"kept (\d+)\ntold (\d+)\n|# kept (\d+) told (\d+) ", done.stdout)
    if done.returncode != 0 or done.stderr or not found:
        lib.fail(f"td {command} --live ended with {done.returncode}: {done.stderr}{done.stdout}")
    kept, told = (int(number) for number in found.groups() if number)
    wanted = (shown_at if command == "show" else dumped_at)(kept, told)
    if not before <= told <= after or kept > told or done.stdout.splitlines() != wanted:
        lib.fail(f"td {command} --live between epoch {before}, acknowledged, and epoch {after}, sent: {done.stdout}")
    return False


def read_beside(folder):
    """Reads a disk beside a stream, over and over, and by commands that are refused."""
    disk, plan = folder / "disk", folder / "plan"
    td("format", disk, plan, "4", "4", "8")
    producer = Producer(disk, plan)
    producer.start()
    try:
        busy = sum(reading(producer, ("show", "dump")[number % 2], disk, plan) for number in range(READINGS))
        if busy > READINGS * 9 // 10:
            lib.fail(f"{busy} of {READINGS} readings were busy")
        refuse(disk, plan)
    finally:
        if sys.exc_info()[0]:
            producer.stream.kill()
    producer.stop()
    print(f"live: {READINGS} readings beside {producer.sent} epochs, {busy} of them busy")


def refuse(disk, plan):
    """Reads a locked disk without --live, with and without a wait."""
    for wait, least in (((), 0), (("--wait", "1"), 1)):
        for command, wanted in (("show", (1, "td: file\n")), ("dump", (7, f"td: file: {disk}: {LOCKED}\n"))):
            start = time.monotonic()
            done = subprocess.run([TD, *wait, command, disk, plan], capture_output=True, text=True, timeout=SECONDS)
            took = time.monotonic() - start
            if (done.returncode, done.stderr) != wanted or done.stdout or took < least:
                lib.fail(f"td {' '.join(wait)} {command} of a locked disk: {done}, after {took:.2f} s")


def wait_for(folder):
    """Waits for a disk that a process has locked, and lets go."""
    disk, plan = folder / "disk", folder / "plan"
    with open(disk, "rb") as held:
        for lock, words in ((fcntl.LOCK_EX, ("show",)), (fcntl.LOCK_EX, ("dump",)), (fcntl.LOCK_SH, ("stream",)), (fcntl.LOCK_SH, ("feed",))):
            fcntl.flock(held, lock)
            waiting = subprocess.Popen([TD, "--wait", str(SECONDS), *words, disk, plan], stdin=subprocess.DEVNULL, stdout=subprocess.PIPE, stderr=subprocess.PIPE, text=True)
            try:
                waiting.wait(0.5)
                lib.fail(f"td --wait {words} of a locked disk did not wait: {waiting.communicate()}")
            except subprocess.TimeoutExpired:
                fcntl.flock(held, fcntl.LOCK_UN)
            if waiting.wait(SECONDS) != 0:
                lib.fail(f"td --wait {words} of a disk that was let go: {waiting.communicate()}")
            waiting.communicate()


def share(folder):
    """Reads a disk that another reader has open, and one that may only be read."""
    disk, plan = folder / "disk", folder / "plan"
    shown = td("show", disk, plan)
    with open(disk, "rb") as held:
        fcntl.flock(held, fcntl.LOCK_SH)
        if td("show", disk, plan) != shown:
            lib.fail("td show beside another reader writes something else")
    os.chmod(disk, 0o444)
    for words in (("show",), ("show", "--live"), ("dump",), ("dump", "--live"), ("states",)):
        td(*words, disk, plan)
    td("copy", disk, plan, folder / "new", "4", "4", "8")
    if td("show", folder / "new", plan) != shown:
        lib.fail("a copy of a disk that may only be read shows something else")


def main():
    with lib.folder() as folder:
        (folder / "plan").write_text(lib.TOTAL)
        read_beside(folder)
        wait_for(folder)
        share(folder)


if __name__ == "__main__":
    main()
