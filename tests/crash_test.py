#!/usr/bin/env python3
"""Tries that a crash at any moment leaves the segments of the last commit.

    tests/crash_test.py FOLDER [--images N] [--kills N] [--seed N]      FOLDER has hd

Decks, served programs and recovery itself run with a shim that keeps each write, change of a length, sync, new name and removed name, in order. Then
images are made: the run is cut at some moment, and each write behind the last sync of its file is there, is lost, or is torn, in any mix. Each image is
unloaded, which recovers it first: the stream must be the one from before the run or that of one of its commits, and behind the last answer that of the last. A volume that
lost its log has one of them or a fault. Beside that, runs are killed at random moments, with commits on their way and without.

Its last line tells how many cases there were, and how many were wrong; its status is 1 if any was.
"""
import argparse
import os
import random
import re
import shutil
import signal
import struct
import subprocess
import sys
import tempfile
import time

HERE = os.path.dirname(os.path.abspath(__file__))
PARTS = os.path.join(os.path.dirname(HERE), "examples", "parts")
sys.path.insert(0, os.path.join(os.path.dirname(HERE), "dli"))
import hd as dli
from playing import Count, read, write

ROOTS = 300
VOLUME, LOG = "v", "v-log"

count = Count()
expect = count.expect


def part_key(number):
    return b"P%05d" % number


def stream_of(roots):
    """An unload stream of so many parts, each with two stocks."""
    records = []
    for number in range(roots):
        records.append(b"\1\0\x20%s%-26d" % (part_key(number), number))
        records += [b"\2\0\x09%s%06d" % (place, number) for place in (b"HAM", b"KIL")]
    return b"HDUNLOAD\0\1PARTS   " + b"".join(records) + b"\0" + struct.pack(">I", len(records))


# The decks


def replaced(rng, number):
    return b"L     GHU  PART    (PARTNO  EQ%s)\nL     REPL\nD%-32b\n" % (part_key(number), part_key(number) + b"%08d" % rng.randrange(10**8))


def inserted(rng, number):
    new = ROOTS + rng.randrange(10**4)
    return b"L     ISRT PART    *-\nD%-32b\n" % (part_key(new) + b"new %08d" % rng.randrange(10**8))


def deleted(rng, number):
    return b"L     GHU  PART    (PARTNO  EQ%s)\nL     DLET\n" % part_key(number)


def deck_of(rng, kinds, calls):
    return b"".join(rng.choice(kinds)(rng, rng.randrange(ROOTS)) for _ in range(calls))


DECKS = [("REPL", [replaced]), ("ISRT", [inserted]), ("DLET", [deleted]), ("mixed", [replaced, inserted, deleted])]


class Place:
    """A folder with a database and a volume of it; the working folder while it lasts."""

    def __init__(self, program):
        self.hd = os.path.join(os.path.abspath(program), "hd")
        self.folder = tempfile.mkdtemp(prefix="hd-crash-")
        os.chdir(self.folder)
        for name in ("parts.dbd", "parts.psb"):
            shutil.copy(os.path.join(PARTS, name), name)
        write("parts.in", stream_of(ROOTS))
        self.must("reload", "parts.dbd", "parts.in", VOLUME, "4096")
        self.first = read(VOLUME)
        done = subprocess.run(["gcc", "-shared", "-fPIC", "-O1", "-o", "shim.so", os.path.join(HERE, "shim.c"), "-ldl"])
        if done.returncode:
            sys.exit("the shim wants gcc")

    def must(self, *words):
        done = subprocess.run([self.hd, *words], capture_output=True)
        if done.returncode:
            sys.exit(f"hd {' '.join(words)}: {done}")
        return done

    def put(self, volume, log):
        """These bytes in the volume's file, which stays the same file, and in its log."""
        with open(VOLUME, "r+b") as file:
            file.write(volume)
            file.truncate()
        if log is None:
            os.path.exists(LOG) and os.remove(LOG)
        else:
            write(LOG, log)

    def stream(self):
        """The unload stream of the volume as it stands; None where it is refused."""
        done = subprocess.run([self.hd, "unload", "parts.dbd", VOLUME, "out", "--no-sync"], capture_output=True)
        return read("out") if done.returncode == 0 else done

    def remove(self):
        os.chdir("/")
        shutil.rmtree(self.folder)


# The images that a crash may leave


def records(name):
    """The records of a trace: a letter, a name without its folder, a place or length, and bytes."""
    data, at, found = read(name) or b"", 0, []
    while at < len(data):
        letter = chr(data[at])
        place, name_length, length = struct.unpack_from("=qqq", data, at + 1)
        at += 25
        file = os.path.basename(data[at : at + name_length].decode())
        at += name_length
        found.append((letter, file, place, data[at : at + length]))
        at += length
    return found


class File:
    """What a disk has of a file, and what was done to it since its last sync."""

    def __init__(self, data):
        self.data, self.waiting = data, []

    def sync(self):
        self.data = self.left(None)
        self.waiting = []

    def left(self, rng):
        """The bytes that a crash leaves; without rng those that reads see."""
        if self.data is None and not self.waiting:
            return None
        data = bytearray(self.data or b"")
        mix = rng.choice(("all", "none", "each", "each", "each")) if rng else "all"
        for letter, place, new in self.waiting:
            fate = {"all": "there", "none": "lost"}.get(mix) or rng.choice(("there", "lost", "torn"))
            if fate == "lost":
                continue
            if letter == "T":
                data[place:] = bytes(max(0, place - len(data)))
                continue
            if len(data) < place + len(new):
                data += bytes(place + len(new) - len(data))
            if fate == "torn":
                first, last = sorted((rng.randrange(len(new) + 1), rng.randrange(len(new) + 1)))
                new = new[:first] + bytes(data[place + first : place + last]) + new[last:] if rng.randrange(2) else bytes(data[place : place + first]) + new[first:last] + bytes(data[place + last : place + len(new)])
            data[place : place + len(new)] = new
        return bytes(data)


class Disk:
    """The volume and its log while a trace is played."""

    def __init__(self, volume, log):
        self.files = {VOLUME: File(volume), LOG: File(log)}
        # Whether the log's name is there: as reads see it, and what a crash may leave
        self.named, self.may_be_named = log is not None, {log is not None}

    def play(self, record):
        letter, name, place, data = record
        if letter == "C" and name == LOG:
            self.named = True
            self.may_be_named.add(True)
            self.files[LOG] = File(b"")
        elif letter == "U" and name == LOG:
            self.named = False
            self.may_be_named.add(False)
        elif letter == "S" and name in self.files:
            self.files[name].sync()
        elif letter == "S":
            self.may_be_named = {self.named}
        elif letter in "WT" and name in self.files:
            self.files[name].waiting.append((letter, place, data))

    def left(self, rng):
        log = self.files[LOG].left(rng) if rng.choice(sorted(self.may_be_named)) else None
        return self.files[VOLUME].left(rng), log


def answered_at(trace):
    """The record with which the last output went out, behind the commit; that behind the last where there was none."""
    outputs = [index for index, record in enumerate(trace) if record[0] == "O"]
    return outputs[-1] if outputs else len(trace)


def try_images(place, what, rng, trace, before, commits, images):
    """Images of a run over these files that committed what these streams say, one behind the other, the one from before it the first. Gives those that were found."""
    answered = answered_at(trace)
    seen = set()
    for _ in range(images):
        cut = rng.randrange(len(trace) + 1)
        disk = Disk(*before)
        for record in trace[:cut]:
            disk.play(record)
        volume, log = disk.left(rng)
        place.put(volume, log)
        found = place.stream()
        is_right = found == commits[-1] if cut > answered else found in commits
        expect(f"{what} cut at {cut} of {len(trace)}, answered at {answered}", is_right, found if not isinstance(found, bytes) else "a stream that never was")
        seen.add(found if isinstance(found, bytes) else None)
        if not is_right:
            for name in (VOLUME, LOG):
                os.path.exists(name) and shutil.copy(name, f"/tmp/wrong-{name}")
    return seen


def try_parted(place, what, rng, trace, before, commits, images):
    """Images of a run whose log is lost: the volume is that of a commit, or it has a fault; it never passes half new."""
    for _ in range(images):
        cut = rng.randrange(len(trace) + 1)
        disk = Disk(*before)
        for record in trace[:cut]:
            disk.play(record)
        place.put(disk.left(rng)[0], None)
        found = place.stream()
        is_right = found in commits if isinstance(found, bytes) else found.returncode == 1
        expect(f"{what} cut at {cut} of {len(trace)} without its log", is_right, found if not isinstance(found, bytes) else "a stream that never was")


def traced(place, words, **more):
    """The records of a run with the shim."""
    os.path.exists("trace") and os.remove("trace")
    environment = dict(os.environ, LD_PRELOAD=os.path.abspath("shim.so"), HD_SHIM_TRACE=os.path.abspath("trace"))
    done = subprocess.run([place.hd, *words], env=environment, capture_output=True, **more)
    expect(f"{words} ends well", done.returncode == 0, done)
    return records("trace")


def try_decks(place, rng, images, runs):
    for what, kinds in DECKS:
        for _ in range(runs):
            write("deck", deck_of(rng, kinds, rng.choice((1, 5, 60))))
            place.put(place.first, None)
            old = place.stream()
            trace = traced(place, ["deck", "parts.dbd", "parts.psb", VOLUME, "deck"])
            new = place.stream()
            expect(f"{what} leaves no log", not os.path.exists(LOG))
            seen = try_images(place, what, rng, trace, (place.first, None), [old, new], images)
            expect(f"{what} is seen as it was and as it is then", {old, new} <= seen)
            try_parted(place, what, rng, trace, (place.first, None), [old, new], images // 4)
            try_recovery(place, f"recovery of {what}", rng, trace, old, new, images // 4)


def try_recovery(place, what, rng, trace, old, new, images):
    """Recovery itself is cut: of an image whose log is open."""
    for _ in range(200):
        disk = Disk(place.first, None)
        for record in trace[: rng.randrange(len(trace) + 1)]:
            disk.play(record)
        before = disk.left(rng)
        if before[1] and before[1][0] == 1:
            break
    else:
        return
    place.put(*before)
    again = traced(place, ["recover", "parts.dbd", VOLUME])
    try_images(place, what, rng, again, before, [new], images)


def first_calls(deck, calls):
    """The first calls of a deck, so many of them, each with its data."""
    at = [match.start() for match in re.finditer(rb"^L", deck, re.M)]
    return deck[: at[calls]] if calls < len(at) else deck


def streams_of(place, deck, every):
    """The streams that a deck with a commit behind every so many calls commits, and before them that from before it."""
    streams = []
    for calls in range(0, deck.count(b"\nL") + 1 + every, every):
        write("deck", first_calls(deck, calls))
        place.put(place.first, None)
        place.must("deck", "parts.dbd", "parts.psb", VOLUME, "deck")
        streams.append(place.stream())
    return streams


def try_commits(place, rng, images):
    """Decks with commits on their way: a crash leaves one of them."""
    for what, kinds in DECKS:
        for every in (1, 5, 40):
            deck = deck_of(rng, kinds, 12)
            commits = streams_of(place, deck, every)
            write("deck", deck)
            place.put(place.first, None)
            trace = traced(place, ["deck", "parts.dbd", "parts.psb", VOLUME, "deck", "--commit", str(every)])
            expect(f"{what} is played with a commit behind every {every}", place.stream() == commits[-1])
            seen = try_images(place, f"{what} with commits behind every {every}", rng, trace, (place.first, None), commits, images)
            expect(f"{what} is seen between its commits", len(seen) > 2 or every == 40 or images < 40, len(seen))
            try_parted(place, f"{what} with commits", rng, trace, (place.first, None), commits, images // 4)


def try_reading_deck(place):
    """A deck that only reads writes nothing, and commits nothing."""
    write("deck", b"L     GU   PART\nL  20 GN\n")
    for words in ([], ["--commit", "1"]):
        place.put(place.first, None)
        trace = traced(place, ["deck", "parts.dbd", "parts.psb", VOLUME, "deck", *words])
        expect("a deck that reads writes nothing", not [record for record in trace if record[0] in "WTCU"], trace)


def try_killed_commits(place, rng, kills):
    """Decks with a commit behind every hundred calls, which are killed."""
    for _ in range(kills):
        what, kinds = rng.choice(DECKS)
        deck = deck_of(rng, kinds, 400)
        commits = streams_of(place, deck, 100)
        write("deck", deck)
        place.put(place.first, None)
        process = subprocess.Popen([place.hd, "deck", "parts.dbd", "parts.psb", VOLUME, "deck", "--commit", "100"], stdout=subprocess.DEVNULL, stderr=subprocess.DEVNULL)
        time.sleep(rng.random() * 0.06)
        process.kill()
        process.wait()
        found = place.stream()
        expect(f"{what} with commits killed", found in commits, found if not isinstance(found, bytes) else "a stream that never was")


def try_kills(place, rng, kills):
    for number in range(kills):
        what, kinds = rng.choice(DECKS)
        write("deck", deck_of(rng, kinds, 3000))
        place.put(place.first, None)
        old = place.stream()
        process = subprocess.Popen([place.hd, "deck", "parts.dbd", "parts.psb", VOLUME, "deck"], stdout=subprocess.DEVNULL, stderr=subprocess.DEVNULL)
        time.sleep(rng.random() * 0.06)
        process.kill()
        status = process.wait()
        found = place.stream()
        place.put(place.first, None)
        place.must("deck", "parts.dbd", "parts.psb", VOLUME, "deck") if status != 0 else None
        new = place.stream() if status != 0 else found
        is_right = found in (old, new) if status else found != old or b"REPL" not in read("deck")
        expect(f"{what} killed", is_right, found if not isinstance(found, bytes) else "a stream that never was")


def try_served(place, rng, kills):
    """Served programs that are killed in the midst leave the volume as it was; one that ends leaves what it did."""
    for number in range(kills):
        place.put(place.first, None)
        old = place.stream()
        session = dli.open("parts.dbd", "parts.psb", VOLUME, program=place.hd)
        pcb = session.pcb(1)
        for _ in range(rng.randrange(1, 30)):
            key = part_key(rng.randrange(ROOTS))
            pcb.ghu(dli.ssa("PART", PARTNO=key))
            pcb.repl(key + b"%-26d" % rng.randrange(10**8))
        session._server.send_signal(signal.SIGKILL)
        session._server.wait()
        found = place.stream()
        expect("a served program killed", found == old, found if not isinstance(found, bytes) else "a stream that never was")


def main():
    words = argparse.ArgumentParser()
    words.add_argument("folder")
    words.add_argument("--images", type=int, default=2000)
    words.add_argument("--kills", type=int, default=100)
    words.add_argument("--seed", type=int, default=1)
    given = words.parse_args()
    rng = random.Random(given.seed)
    place = Place(given.folder)
    try:
        try_reading_deck(place)
        try_decks(place, rng, max(1, given.images // 24), 4)
        try_commits(place, rng, max(1, given.images // 90))
        try_kills(place, rng, given.kills)
        try_killed_commits(place, rng, max(1, given.kills // 10))
        try_served(place, rng, max(1, given.kills // 10))
    finally:
        place.remove()
    sys.exit(count.status())


main()
