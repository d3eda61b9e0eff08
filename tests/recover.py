#!/usr/bin/env python3
"""Asks td_keeper what it recovers of many disks, and compares each answer with a reading of the format in this file.

    tests/recover.py [PROGRAM]          needs the kit, or a PROGRAM that an earlier run built
    tests/recover.py --steps            needs crates/engine_steps/out/engine_steps (see the README)

It builds tests/recover.rattle in a copy of the repository's crates below it, which is proved on the way: that takes minutes,
and all that comes after it half a minute. With `--keep FOLDER` the copy is made there and stays. The reading shares nothing
with the crates. The disks are:

- one that the keeper itself formats and writes, which is compared byte for byte with one that is written here;
- the named cases below, the parts that the documents print byte by byte among them;
- of a disk with two epochs and a checkpoint, in version 1 and in version 2, each beginning of its bytes, and each single
  byte of it changed to 00, 01, 5a, a5 and ff;
- crafted ones, of the seeds 1, 2, ..: other shapes, and in each field now and then what should not stand there.

Last, with a C compiler: one disk is recovered with each allocation refused in turn, alone and with all that follow, and the
answer is what is told, or `memory`; and a file is formatted and recovered with each read, write and sync failing in turn:
the answer is then `device`, and the disk that comes back is of use, but after a sync that failed. The last line says what was
compared; at a difference the status is 1.

With `--steps` no program is built: `engine_steps` recovers the disks, each byte is changed to one value alone, and there are
fewer crafted ones. It tells neither versions nor requests, but refuses a disk for them as the other program does; no call fails."""

import os
import pathlib
import random
import re
import struct
import subprocess
import sys
import time

import lib

TOTAL = lib.TOTAL.encode()
COUNT = b"0 input\n1 group 20 0\n2 output 1\n"
M, N, K = 4, 2, 3
OPEN = 0xA5
CHANGED = (0x00, 0x01, 0x5A, 0xA5, 0xFF)
CRAFTED = 4000
CRAFTED_BY_STEPS = 500
TOP = 1 << 63
# So many runs in a row that meet no refusal end the count.
UNTOUCHED = 40


# The layout: parts of a payload and a gate byte, one after the other


def parts(m, n, k):
    """Of each part its offset and the length of its payload."""
    at, found = 0, {}
    for name, length in [("head A", 4128), ("head B", 4128), ("slot 0", 24 + 32 * k), ("slot 1", 24 + 32 * k),
                         *[(f"cell {i}", 24 + 24 * m) for i in range(n)]]:
        found[name] = at, length
        at += length + 1
    return found, at


# Writing


class Disk:
    """A formatted disk's bytes, all parts closed."""

    def __init__(self, version=2, plan=TOTAL):
        self.parts, size = parts(M, N, K)
        self.bytes = bytearray(size)
        self.version = version
        self.slot(0, 0, 0, [])
        self.head("A", 1, plan)

    def put(self, part, payload):
        at, length = self.parts[part]
        self.bytes[at:at + length + 1] = payload.ljust(length, b"\0") + bytes([OPEN])

    def head(self, side, generation, plan=TOTAL, version=None):
        fields = struct.pack(">4sIQIIII", b"TDFL", version or self.version, generation, M, N, K, len(plan))
        self.put(f"head {side}", fields + plan)

    def slot(self, side, epoch, last, states):
        entries = b"".join(struct.pack(">QQqq", *state) for state in states)
        self.put(f"slot {side}", struct.pack(">QQII", epoch, last, len(states), 0) + entries)

    def cell(self, epoch, request, records):
        entries = b"".join(struct.pack(">QQq", *record) for record in records)
        self.put(f"cell {epoch % N}", struct.pack(">QQII", epoch, request, len(records), 0) + entries)

    def changed(self, *changes):
        image = bytearray(self.bytes)
        for at, value in changes:
            image[at] = value
        return bytes(image)


# Reading


class Refused(Exception):
    pass


def opened(image, part):
    at, length = part
    return image[at:at + length] if image[at + length] == OPEN else None


def is_canonical(text):
    """Whether a text is the canonical one of a plan, as far as it is asked here."""
    if text in (TOTAL, COUNT):
        return True
    if not text.endswith(b"\n") or any(chr(byte) not in "\n abcdefghijklmnopqrstuvwxyz0123456789" for byte in text):
        return False
    lib.fail(f"is this a plan? {text}")


def read_head(image):
    if len(image) < 8258:
        raise Refused("not formatted")
    heads = [payload for payload in (opened(image, (0, 4128)), opened(image, (4129, 4128)))
             if payload is not None and payload[:4] == b"TDFL"]
    if not heads:
        raise Refused("not formatted")
    head = max(heads, key=lambda payload: struct.unpack_from(">Q", payload, 8))
    version, generation, m, n, k, length = struct.unpack_from(">IQIIII", head, 4)
    text = head[32:32 + length]
    if (version not in (1, 2) or generation == 0 or not 1 <= m <= 65536 or not 1 <= n <= 65536 or not 1 <= k <= 1048576
            or length > 4096 or not is_canonical(text) or len(image) < parts(m, 0, k)[1] + n * (25 + 24 * m)):
        raise Refused("damaged: head")
    if text != TOTAL:
        raise Refused("another plan")
    return version, parts(m, n, k)[0], (m, n, k)


def rows(form, count, payload):
    size = struct.calcsize(form)
    return [struct.unpack_from(form, payload, 24 + size * i) for i in range(count)]


def read_slot(version, k, payload):
    """The epoch, the last request and the states of a slot's payload, or nothing where it is not valid."""
    epoch, last, count, zero = struct.unpack_from(">QQII", payload)
    if epoch >= TOP or version == 1 and last != 0 or zero != 0 or count > k:
        return None
    states = rows(">QQqq", count, payload)
    places = [state[:2] for state in states]
    rising = all(one < other for one, other in zip(places, places[1:]))
    return (epoch, last, states) if rising and all(vertex == 1 for vertex, _ in places) else None


def read_slots(version, layout, k, image):
    found = []
    for side in (0, 1):
        payload = opened(image, layout[f"slot {side}"])
        if payload is not None:
            found.append((side, read_slot(version, k, payload)))
    if not found:
        raise Refused("damaged: no slot")
    for side, slot in found:
        if slot is None:
            raise Refused(f"damaged: slot {side}")
    return max(found, key=lambda each: (each[1][0], -each[0]))[1]


def read_cell(version, m, last, payload):
    """The request and the records of a cell's payload, or nothing where it is not valid after requests up to the last."""
    _, request, count, zero = struct.unpack_from(">QQII", payload)
    if zero != 0 or count > m or request != 0 and (version == 1 or request <= last):
        return None
    records = rows(">QQq", count, payload)
    fallen = any(one > other for one, other in zip(records, records[1:]))
    return None if fallen or any(record[0] != 0 for record in records) else (request, records)


def read_cells(version, layout, shape, image, epoch, last):
    m, n, _ = shape
    told = []
    for next_epoch in range(epoch + 1, epoch + 1 + n):
        cell = next_epoch % n
        payload = opened(image, layout[f"cell {cell}"])
        if payload is None or next_epoch >= TOP or struct.unpack_from(">Q", payload)[0] != next_epoch:
            break
        found = read_cell(version, m, last, payload)
        if found is None:
            raise Refused(f"damaged: cell {cell}")
        last = max(last, found[0])
        told.append(found)
    return told


def spelled(members):
    return ",".join(" ".join(map(str, member)) for member in members)


def told(image):
    try:
        version, layout, shape = read_head(image)
        epoch, last, states = read_slots(version, layout, shape[2], image)
        cells = read_cells(version, layout, shape, image, epoch, last)
    except Refused as refusal:
        return str(refusal)
    after = ";".join(f"{request}:{spelled(records)}" for request, records in cells)
    return f"{version} {epoch} {last}|{spelled(states)}|{after}"


# The cases


def disks(version):
    """A disk with two epochs after a checkpoint, and one with the first epoch alone."""
    full, one = Disk(version), Disk(version)
    request = [5, 9, 0] if version == 2 else [0, 0, 0]
    full.cell(1, request[0], [(0, 7, 5)])
    full.slot(1, 1, request[0], [(1, 7, 5, 1)])
    full.cell(2, request[1], [(0, 7, -2), (0, 8, 1)])
    full.cell(3, request[2], [])
    one.cell(1, request[0], [(0, 7, 5)])
    return full, one


def named_cases():
    """Lines of a name, an image and what is told, as the documents have it."""
    for version in (1, 2):
        _, one = disks(version)
        request = 5 if version == 2 else 0
        start = f"{version} 0 0||"
        yield f"one epoch, version {version}", bytes(one.bytes), f"{start}{request}:0 7 5"
        for size in (0, 100, 8257):
            yield f"cut to {size}", bytes(one.bytes[:size]), "not formatted"
        for size in (8258, 8741):
            yield f"cut to {size}", bytes(one.bytes[:size]), "damaged: head"
        yield "no head is open", one.changed((4128, 0)), "not formatted"
        yield "version 9", one.changed((7, 9)), "damaged: head"
        yield "no slot is open", one.changed((8378, 0)), "damaged: no slot"
        yield "a number in slot 0", one.changed((8273, 1)), "damaged: slot 0" if version == 1 else "2 0 1||5:0 7 5"
        yield "five records", one.changed((8640, 5)), "damaged: cell 1"
        yield "epoch 7 in cell 1", one.changed((8628, 7)), start
        yield "cell 1 closed", one.changed((8741, 0)), start
        yield "zeros", bytes(8742), "not formatted"
        yield "another plan", bytes(Disk(version, COUNT).bytes), "another plan"
    yield from cases_of_parts()
    yield from cases_of_requests()
    yield from cases_of_heads()


def cases_of_parts():
    """Parts as they are printed, byte by byte, in the place in which they stand."""
    less, more = "0000000000000000 0000000000000007 fffffffffffffffe", "0000000000000000 0000000000000007 0000000000000005"
    cells = [(1, 0, f"0000000000000001 0000000000000000 00000002 00000000 {less} {more}", "0:0 7 -2,0 7 5"),
             (2, 5, f"0000000000000001 0000000000000005 00000002 00000000 {less} {more}", "5:0 7 -2,0 7 5"),
             (2, 5, f"0000000000000001 0000000000000005 00000001 00000000 {more}", "5:0 7 5")]
    for version, request, printed, wanted in cells:
        disk, same = Disk(version), Disk(version)
        place(disk, 8621, 120, printed)
        same.cell(1, request, [(0, 7, -2), (0, 7, 5)] if "-2" in wanted else [(0, 7, 5)])
        yield f"cell 1 as it is printed, version {version}", same_bytes(disk, same), f"{version} 0 0||{wanted}"
    for version, last in ((1, 0), (2, 5)):
        disk, same = Disk(version), Disk(version)
        place(disk, 8379, 120, f"0000000000000001 {last:016x} 00000001 00000000"
                               "0000000000000001 0000000000000007 0000000000000005 0000000000000001")
        same.slot(1, 1, last, [(1, 7, 5, 1)])
        yield f"slot 1 as it is printed, version {version}", same_bytes(disk, same), f"{version} 1 {last}|1 7 5 1|"


def place(disk, at, length, printed):
    disk.bytes[at:at + length + 1] = bytes.fromhex(printed).ljust(length, b"\0") + bytes([OPEN])


def same_bytes(disk, same):
    if disk.bytes != same.bytes:
        lib.fail("this file writes other bytes than are printed")
    return bytes(disk.bytes)


def cases_of_requests():
    for name, slot, requests, wanted in [
            ("requests rise", 0, (5, 9), "2 0 0||5:;9:"), ("a request again", 0, (5, 5), "damaged: cell 0"),
            ("requests fall", 0, (9, 5), "damaged: cell 0"), ("none between", 0, (5, 0), "2 0 0||5:;0:"),
            ("as the slot's", 5, (5, 6), "damaged: cell 1"), ("above the slot's", 5, (6, 7), "2 0 5||6:;7:"),
            ("the greatest", 0, (2**64 - 1, 0), f"2 0 0||{2**64 - 1}:;0:")]:
        disk = Disk()
        disk.slot(0, 0, slot, [])
        disk.cell(1, requests[0], [])
        disk.cell(2, requests[1], [])
        yield name, bytes(disk.bytes), wanted


def cases_of_heads():
    disk = Disk()
    disk.cell(1, 5, [])
    disk.head("B", 1, COUNT)
    yield "a tie of heads", bytes(disk.bytes), "2 0 0||5:"
    disk.head("B", 2, TOTAL, 1)
    yield "the later head has version 1", bytes(disk.bytes), "damaged: cell 1"
    disk.head("B", 2, COUNT)
    yield "the later head has another plan", bytes(disk.bytes), "another plan"
    disk = Disk()
    disk.slot(1, 0, 0, [(1, 7, 5, 1)])
    yield "a tie of slots", bytes(disk.bytes), "2 0 0||"
    disk.cell(2, 0, [])
    yield "a gap", bytes(disk.bytes), "2 0 0||"


# Crafted disks


def crafted(seed):
    """A disk's bytes: a good disk in most fields, with another shape, and now and then a field that no keeper writes."""
    draw = random.Random(seed)
    def either(usual, *others, one_in=12):
        return draw.choice(others) if draw.randrange(one_in) == 0 else usual
    m, n, k = (draw.randint(1, most) for most in (3, 4, 3))
    layout, size = parts(m, n, k)
    image = bytearray(draw.choice((b"\0", b"\xff", b"\xa5")) * size) if draw.randrange(4) == 0 else bytearray(size)

    def put(name, payload):
        at, length = layout[name]
        image[at:at + length + 1] = payload[:length].ljust(length, bytes([either(0, 0x5A)])) + bytes([either(OPEN, 0x5A, 0)])

    version = draw.choice((1, 2, 2))
    for side in "AB":
        if side == "A" or draw.randrange(3) == 0:
            plan = either(TOTAL, COUNT, TOTAL.upper(), TOTAL[:-1], b"")
            put(f"head {side}", struct.pack(">4sIQIIII", either(b"TDFL", b"TDFM"), either(version, 0, 1, 2, 3, one_in=20),
                                            draw.randint(1, 2) if draw.randrange(20) else 0, either(m, 0, m + 1, 65537, one_in=40),
                                            either(n, 0, n + 1, 65537, one_in=40), either(k, 0, k + 1, 1048577, one_in=40),
                                            either(len(plan), len(plan) - 1 if plan else 1, 4097, one_in=40)) + plan)
    epoch, last = draw.randint(0, 3), draw.choice((0, 0, 4)) if version == 2 else 0
    for side in (0, 1):
        if side == epoch % 2 or draw.randrange(2) == 0:
            count = draw.randint(0, k)
            states = sorted((either(1, 0, 2), draw.randint(0, 3), draw.randint(-2, 2), draw.randint(0, 9)) for _ in range(count))
            if draw.randrange(20):
                states = list({state[:2]: state for state in states}.values())
            put(f"slot {side}", struct.pack(">QQII", either(epoch if side == epoch % 2 else draw.randint(0, 4), TOP - 1, TOP, one_in=30), last,
                                            either(len(states), k + 1, one_in=30), either(0, 1, one_in=40))
                + b"".join(struct.pack(">QQqq", *state) for state in states))
    request = last
    for after in range(1, draw.randint(0, n) + 1):
        request += draw.randint(1, 3)
        records = [(either(0, 1, one_in=40), draw.randint(0, 3), draw.randint(-2, 2)) for _ in range(draw.randint(0, m))]
        records = sorted(records) if draw.randrange(20) else records
        number = 0 if version == 1 else either(request, 0, request - 3 if request > 3 else 0, one_in=4)
        put(f"cell {(epoch + after) % n}", struct.pack(">QQII", either(epoch + after, epoch + after + n, one_in=20), either(number, 7, one_in=30),
                                                       either(len(records), m + 1, one_in=30), either(0, 1, one_in=40))
            + b"".join(struct.pack(">QQq", *record) for record in records))
    return bytes(image[:either(size, size - 1, one_in=40)]) + b"\xa5" * either(0, 3)


# The program


def build(folder):
    """The program's path, in a repository of its own."""
    return lib.build_beside("td_keeper", lib.ROOT / "tests/recover.rattle", folder, more=["hex"])


def asked(program, lines):
    done = subprocess.run([program], input="\n".join(lines) + "\n", capture_output=True, text=True, check=True)
    return done.stdout.splitlines()


def compare(program, name, lines, images):
    """What the program tells of each image, of which a line asks, against what is told here."""
    wanted = [told(image) for image in images]
    got = asked(program, lines)
    if len(got) != len(wanted):
        lib.fail(f"{name}: {len(got)} answers to {len(wanted)} images")
    for line, mine, theirs in zip(lines[-len(wanted):], wanted, got):
        if mine != theirs:
            lib.fail(f"{name}: {line[:60]}: told {mine}, and td_keeper answers {theirs}")
    return print_compared(name, wanted)


def print_compared(name, wanted):
    kinds = {}
    for answer in wanted:
        kind = answer if answer[0].isalpha() else "told"
        kinds[kind] = kinds.get(kind, 0) + 1
    print(f"{name}: {len(wanted)} images, no difference;", ", ".join(f"{kinds[kind]} {kind}" for kind in sorted(kinds)))
    return len(wanted)


# By `engine_steps`


def steps_to(image, before):
    """The commands that make one image of another, and recover it."""
    size, same = len(image), min(len(image), len(before))
    differs = int.from_bytes(image, "little") ^ int.from_bytes(before[:same], "little")
    changed = re.finditer(rb"[^\0]", differs.to_bytes(size, "little"))
    return [f"size {size}"] * (size != len(before)) + [f"byte {it.start()} {image[it.start()]:02x}" for it in changed] + ["recover"]


def as_steps(answer):
    """What `recover` prints where this is told."""
    if answer[0].isalpha():
        return [f"refused: {answer}"]
    head, states, batches = answer.split("|")
    epoch = int(head.split()[1])
    lists = [states, *[batch.split(":")[1] for batch in batches.split(";") if batch]]
    return [f"{f'epoch {epoch + i}' if i else f'kept {epoch}'}:" + "".join(f" ({each})" for each in members.split(",") if each)
            for i, members in enumerate(lists)]


def compare_steps(name, images):
    """What `engine_steps` recovers of each image against what is told here."""
    wanted, commands, before = [told(image) for image in images], ["blank 0"], b""
    for image in images:
        commands += steps_to(image, before)
        before = image
    text = TOTAL.decode() + "--\n" + "\n".join(commands) + "\n"
    status, output, errors = lib.steps(text)
    answers = re.split(r"\n(?=kept |refused: )", output.removesuffix("\n"))
    if status != 0 or len(answers) != len(images):
        lib.fail(f"{name}: status {status}, {len(answers)} answers to {len(images)} images: {errors}")
    for number, (mine, theirs) in enumerate(zip(wanted, answers)):
        if "\n".join(as_steps(mine)) != theirs:
            lib.fail(f"{name}: image {number}: told {mine}, and td_keeper answers {theirs}")
    return print_compared(name, wanted)


def library_of(folder, source):
    """A library to stand before the C library's calls, or None where no compiler is."""
    library = lib.library(source, folder)
    if library is None:
        print(f"{source}: skipped, no C compiler is here")
    return library


def refuse_each(program, folder, image):
    """The number of allocations. Where a run ends with a status, it is the driver that had no memory."""
    library = library_of(folder, "refuse_allocation")
    if library is None:
        return 0
    wanted, refused, untouched, number = told(image) + "\n", 0, 0, 0
    while untouched < UNTOUCHED:
        number, untouched = number + 1, untouched + 1
        for more in ({}, {"REFUSED_ON": "1"}):
            done = subprocess.run([program], input=f"image {image.hex()}\n", capture_output=True, text=True,
                                  env={**os.environ, "LD_PRELOAD": str(library), "REFUSED": str(number), **more})
            if done.returncode != 0 or done.stdout == "memory\n":
                refused, untouched = refused + (done.returncode == 0), 0
            elif done.stdout != wanted:
                lib.fail(f"with allocation {number} refused: {done.stdout}")
    print(f"allocations: {number - UNTOUCHED}, {refused} runs answered memory, no other answer")
    return number - UNTOUCHED


def fail_each(program, folder, image):
    """A file is formatted and recovered with each of its calls failing in turn; the number of these."""
    library = library_of(folder, "fail_call")
    if library is None:
        return 0
    file, fresh, failed, final = folder / "disk", told(bytes(Disk(2).bytes)), 0, 0
    for words, before, wanted, after in [("format", image, "formatted", fresh), ("format", bytes(len(image)), "formatted", fresh),
                                         ("recover", image, told(image), told(image))]:
        number, said = 0, "device"
        while said.startswith("device"):
            number += 1
            file.write_bytes(before)
            said = ask_file(program, words, file, {"LD_PRELOAD": str(library), "FAILED": str(number)})
            # After a sync that failed each later call of the disk fails, and a call that comes late is one of the second answer.
            if said not in (f"device, {wanted}", "device, device", f"{wanted}, device"):
                lib.fail(f"{words} with call {number} failed: {said}")
            failed, final = failed + said.startswith("device"), final + (said == "device, device")
            found = ask_file(program, "recover", file, {})
            if words == "recover" and found != f"{after}, {after}" or said == f"device, {wanted}" and found != f"{after}, {after}":
                lib.fail(f"{words} with call {number} failed: the disk tells {found}")
    print(f"calls on a file: {failed} failed in turn, each answered device; the disk that came back was of use but for {final} syncs")
    return failed


def ask_file(program, words, file, more):
    done = subprocess.run([program], input=f"{words} {file}\n", capture_output=True, text=True, check=True, env={**os.environ, **more})
    return done.stdout.rstrip("\n")


def compare_all(program):
    """Compares all images, and answers how many they are."""
    cases = [image for _, image, _ in named_cases()]
    images = compare(program, "named", [f"image {image.hex()}" for image in cases], cases)
    for version in (1, 2):
        full, _ = disks(version)
        base = bytes(full.bytes)
        beginnings = range(len(base) + 1)
        images += compare(program, f"version {version}, beginnings", [f"base {base.hex()}", *[f"cut {n}" for n in beginnings]],
                          [base[:n] for n in beginnings])
        changes = [(at, value) for at in range(len(base)) for value in CHANGED]
        images += compare(program, f"version {version}, single bytes", [f"base {base.hex()}", *[f"set {at} {value}" for at, value in changes]],
                          [full.changed(change) for change in changes])
    crafts = [crafted(seed) for seed in range(1, CRAFTED + 1)]
    return images + compare(program, "crafted", [f"image {image.hex()}" for image in crafts], crafts)


def compare_by_steps():
    """Compares fewer images by `engine_steps`."""
    lib.built(lib.STEPS)
    images = compare_steps("named", [image for _, image, _ in named_cases()])
    for version in (1, 2):
        full, _ = disks(version)
        base = bytes(full.bytes)
        images += compare_steps(f"version {version}, beginnings", [base[:n] for n in range(len(base), -1, -1)])
        changed = [full.changed((at, CHANGED[(at + version) % len(CHANGED)])) for at in range(len(base))]
        images += compare_steps(f"version {version}, single bytes", changed)
    images += compare_steps("crafted", [crafted(seed) for seed in range(1, CRAFTED_BY_STEPS + 1)])
    print(f"{images} images read alike by engine_steps")


def main():
    for name, image, wanted in named_cases():
        if told(image) != wanted:
            lib.fail(f"{name}: wanted {wanted}, and this file tells {told(image)}")
    words = sys.argv[1:]
    if words == ["--steps"]:
        return compare_by_steps()
    if len(words) > 2 or words[:1] == ["--keep"] and len(words) != 2:
        sys.exit(__doc__)
    with lib.folder() as folder:
        if words[:1] == ["--keep"]:
            program = build(pathlib.Path(words[1]))
        else:
            program = pathlib.Path(words[0]).resolve() if words else build(folder)
        start = time.monotonic()
        full, _ = disks(2)
        made = asked(program, ["make"])
        if made != [bytes(full.bytes).hex()]:
            lib.fail("the keeper writes other bytes")
        images = compare_all(program)
        image = bytes(disks(2)[0].bytes)
        refused, failed = refuse_each(program, folder, image), fail_each(program, folder, image)
        print(f"{images} images read alike; {refused} allocations refused and {failed} calls failed in turn; "
              f"{time.monotonic() - start:.0f} s after the build")


if __name__ == "__main__":
    main()
