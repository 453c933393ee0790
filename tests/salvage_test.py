#!/usr/bin/env python3
"""Damages volumes of several databases, and sees what `hd salvage` keeps of them.

    tests/salvage_test.py HD [--cases N] [--seed N]

Of each damaged volume: salvage writes a stream, which reloads and passes; where the volume passes a check the stream is the one that unload writes; where the
index alone is damaged no row is lost; and where blocks are lost, by zeros or a cut, the stream has at least the rows that no lost pointer cuts off, each below
its own parent. Those are told here from the rule alone, of the volume as it was before. The file of --orphans has all other segments of the volume that are read
from the front of its blocks, each with its address and its row, in the order that the rule gives. The last line tells how many cases there were, and how many
were wrong; its status is 1 if any was.
"""
import collections
import os
import random
import sys

from model import Field, Type
from player import Database, Program, read, rows_of, write
from playing import try_cases
from random_calls import Random

DATA, INDEX, FREE = 1, 2, 3
Row = collections.namedtuple("Row", "code data parent address")


class Layout:
    """Where the segments of a database have their fields."""

    def __init__(self, database):
        self.database, self.types = database, database.types
        self.children = {type.code: [child for child in self.types if child.parent is type] for type in self.types}

    def keeps_backward(self, code):
        return code == 1 or self.types[code - 1] in self.database.backward

    def keeps_last(self, child):
        return child in self.database.last

    def places(self, code):
        """The places of a type's pointers, and the length of its prefix."""
        at, places = 6, {"forward": 2}
        if self.keeps_backward(code):
            places["backward"], at = at, at + 4
        for child in self.children[code]:
            places["first", child.code], at = at, at + 4
            if self.keeps_last(child):
                places["last", child.code], at = at, at + 4
        return places, at

    def size_at(self, block, place):
        """The bytes that the segment at a place takes, and those of its own; None where there is none."""
        code = block[place]
        if not 1 <= code <= len(self.types):
            return None
        type, prefix = self.types[code - 1], self.places(code)[1]
        length = type.most
        if type.least:
            length = int.from_bytes(block[place + prefix : place + prefix + 2], "big")
            if length < 2 or not type.least <= length <= type.most:
                return None
        return -(-(prefix + length) // 8) * 8, prefix, length

    def segments(self, block):
        """The places of a data block's segments, read from its front up to the first fault; and whether it has none."""
        place, free, found = 8, int.from_bytes(block[:2], "big"), []
        while place < len(block):
            if place == free:
                if len(block) - place < 8:
                    return found, False
                free, length, task = (int.from_bytes(block[at : at + n], "big") for at, n in ((place, 2), (place + 2, 2), (place + 4, 4)))
                if length < 8 or length % 8 or task or place + length > len(block):
                    return found, False
                place += length
                continue
            taken = self.size_at(block, place)
            if not taken or place + taken[0] > len(block) or place < free < place + taken[0]:
                return found, False
            found.append(place)
            place += taken[0]
        return found, free == 0


class Volume:
    """The bytes of a volume, with the segments that are read in it."""

    def __init__(self, layout, image):
        self.layout, self.image, self.size = layout, image, layout.database.block_size
        self.found = {}
        for number in range(1, len(image) // self.size):
            block = image[number * self.size : (number + 1) * self.size]
            if block[2] == DATA:
                for place in layout.segments(block)[0]:
                    self.found[number * self.size + place] = block[place]

    def number(self, place):
        return int.from_bytes(self.image[place : place + 4], "big")

    def pointer(self, address, name):
        if not address:
            return self.number({("first", 1): 28, ("last", 1): 32}[name])
        place = self.layout.places(self.found[address])[0].get(name)
        return 0 if place is None else self.number(address + place)

    def data(self, address):
        block = self.image[address // self.size * self.size :][: self.size]
        _, prefix, length = self.layout.size_at(block, address % self.size)
        return self.image[address + prefix : address + prefix + length]

    def twins(self, parent, code):
        """The addresses of the twins of a type below a parent of a sound volume."""
        address, twins = self.pointer(parent, ("first", code)), []
        while address:
            twins.append(address)
            address = self.pointer(address, "forward")
        return twins

    def kept(self, damaged, parent=0, codes=(1,)):
        """The rows of this sound volume that no lost pointer cuts off in the same volume with some segments lost, each with its parent's address."""
        kept = []
        for code in codes:
            for address in self.linked(damaged, self.twins(parent, code), parent, code):
                kept.append(Row(code, self.data(address), parent, address))
                kept += self.kept(damaged, address, [child.code for child in self.layout.children[code]])
        return kept

    def linked(self, damaged, twins, parent, code):
        """Of twins those to which a chain leads: from the front up to the first that is lost, and, where the pointers are there, from the back. Roots are found by
        the index, and where that breaks too by their type."""
        here = [address in damaged.found for address in twins]
        if not parent:
            return [address for address, is_here in zip(twins, here) if is_here]
        front = here.index(False) if False in here else len(here)
        back = len(here)
        if self.layout.keeps_last(self.layout.types[code - 1]):
            backward = self.layout.keeps_backward(code)
            while back > front and here[back - 1]:
                back -= 1
                if not backward:
                    break
        return twins[:front] + twins[max(front, back) :]


# ---- what is left out, as text

def shown(value, is_open):
    """A value as a line of rows has it."""
    if not is_open and all(32 <= byte <= 126 for byte in value):
        value = value.rstrip(b" ")
    text = b"".join(
        b"\\" + bytes([byte]) if byte in b'"\\' else bytes([byte]) if 32 <= byte <= 126 else b"\\x%02x" % byte for byte in value
    )
    return b'"%b"' % text if not value or b" " in value or b'"' in value else text


def parts_of(type):
    """The parts of a type's rows: what they are called, where they begin, from 0, where they end, and whether that is open."""
    fields = sorted(((name.rstrip(), field.start - 1, field.start - 1 + field.length) for name, field in type.fields.items()), key=lambda field: field[1])
    covered, parts = 2 if type.least else 0, []
    for name, start, end in fields:
        if start > covered:
            parts.append((b"%d-%d" % (covered + 1, start), covered, start, False))
        parts.append((name, start, end, False))
        covered = max(covered, end)
    if covered < type.most:
        parts.append((b"%d-" % (covered + 1) if type.least else b"%d-%d" % (covered + 1, type.most), covered, type.most, bool(type.least)))
    return parts


def line_of(type, data):
    """A row as a line."""
    parts = (b" %b=%b" % (name, shown(data[start:end], is_open)) for name, start, end, is_open in parts_of(type))
    return b"  " * (type.level - 1) + type.name.encode() + b"".join(parts) + b"\n"


def orphans_of(volume, left):
    """The addresses of segments that are left out, in the order in which they are told: each that hangs below none by its address, and behind it those below it."""
    below, hung = {address: [] for address in left}, set()
    for address in sorted(left):
        for child in volume.layout.children[volume.found[address]]:
            twin = volume.pointer(address, ("first", child.code))
            while twin in left and twin not in hung and volume.found[twin] == child.code:
                below[address].append(twin)
                hung.add(twin)
                twin = volume.pointer(twin, "forward")

    def told(address):
        return [address] + [each for twin in below[address] for each in told(twin)]

    return [each for address in sorted(left - hung) for each in told(address)]


# ---- databases

def text(name, most, key, unique, parent, code, least=None, rule="LAST"):
    fields = [Field("KEY", key[0], key[1])] if key else []
    return Type(code, name, parent, most, least, fields[0] if fields else None, unique, rule, fields)


def courses():
    """Unique keys, all pointers."""
    course = text("COURSE", 16, (1, 4), True, None, 1)
    clas = text("CLASS", 14, (1, 4), True, course, 2)
    student = text("STUDENT", 12, (1, 4), True, clas, 3)
    book = text("BOOK", 20, None, False, course, 4)
    return Database("EDU", [course, clas, student, book], 256, backward=(course, clas, student, book), last=(clas, student, book))


def lists():
    """Forward pointers alone, keys that are not unique, and some segments without."""
    order = text("ORDER", 20, (5, 10), True, None, 1)
    item = text("ITEM", 18, (1, 2), False, order, 2)
    note = text("NOTE", 30, None, False, item, 3)
    bill = text("BILL", 12, (3, 4), True, order, 4)
    return Database("ORDERS", [order, item, note, bill], 128)


def tickets():
    """Segments that vary, roots with a long key in an index of several levels."""
    ticket = text("TICKET", 60, (3, 30), True, None, 1, least=36)
    reply = text("REPLY", 40, (3, 4), False, ticket, 2, least=10)
    return Database("TICKETS", [ticket, reply], 256, backward=(reply,), last=(reply,))


def trees():
    """A chain of types six levels deep."""
    types = []
    for code in range(1, 7):
        types.append(text(f"LEVEL{code}", 12, (1, 2), code == 1, types[-1] if types else None, code))
    return Database("TREES", types, 512, spacing=(0, 10), backward=types[2:4], last=types[3:5])


class Maker:
    """Rows whose bytes have a number of their own, so that each is known again."""

    def __init__(self, database, chance):
        self.database, self.chance, self.serial = database, chance, 0

    def data(self, type):
        self.serial += 1
        length = self.chance.randint(type.least or type.most, type.most)
        data = bytearray(self.chance.choice(b"ABCDEFGH") for _ in range(length))
        if type.least:
            data[:2] = length.to_bytes(2, "big")
        data[-4:] = b"%04d" % (self.serial % 10_000)
        return bytes(data)

    def twins(self, type, count):
        keys, made = set(), []
        for _ in range(count):
            data = self.data(type)
            if type.unique and type.key_of(data) in keys:
                continue
            keys.add(type.key_of(data))
            made.append(data)
        return sorted(made, key=type.key_of) if type.key else made

    def rows(self, type, count, most):
        rows = []
        for data in self.twins(type, count):
            rows.append((type.code, data))
            for child in self.database.types:
                if child.parent is type:
                    rows += self.rows(child, self.chance.choice([0, 0, 1, 2, self.chance.randint(0, most)]), most)
        return rows


# ---- damage

def changed(chance, image, size):
    """A few bytes are changed."""
    image = bytearray(image)
    for _ in range(chance.choice([1, 1, 2, 5, 20])):
        at = chance.randrange(len(image))
        image[at] = chance.choice([0, 1, 2, image[at] ^ 1, image[at] ^ 8, 255, chance.randrange(256)])
    return bytes(image)


def zeroed(chance, image, size):
    """Some blocks are zeros."""
    image, count = bytearray(image), len(image) // size
    for _ in range(chance.choice([1, 1, 1, 2, 3, 8])):
        at = chance.randrange(count) * size
        image[at : at + size] = bytes(size)
    return bytes(image)


def cut(chance, image, size):
    """The end is lost."""
    return image[: chance.choice([chance.randrange(len(image) + 1), chance.randrange(len(image) // size + 1) * size])]


def swapped(chance, image, size):
    """Two blocks stand in each other's place."""
    image, count = bytearray(image), len(image) // size
    one, other = (chance.randrange(count) * size for _ in range(2))
    image[one : one + size], image[other : other + size] = image[other : other + size], image[one : one + size]
    return bytes(image)


def index_alone(chance, image, size):
    """Bytes of index blocks, but for their kind, or whole index blocks, or the header's top and height."""
    image = bytearray(image)
    blocks = [number for number in range(1, len(image) // size) if image[number * size + 2] == INDEX]
    for _ in range(chance.choice([1, 1, 2, 4])):
        at = chance.choice(blocks + [0]) * size if blocks else 0
        if not at:
            image[36 + chance.randrange(8)] = chance.randrange(256)
        elif chance.random() < 0.3:
            image[at : at + size] = bytes(size)
        else:
            place = chance.choice([3, 4, 5, 8, 9, 10, 11, chance.randrange(12, size)])
            image[at + place] = chance.randrange(256)
    return bytes(image)


def whole(chance, image, size):
    """Nothing is damaged."""
    return image


KINDS = [changed, changed, zeroed, zeroed, zeroed, cut, swapped, index_alone, index_alone, whole]


class Tester:
    """hd over damaged volumes, in a folder of its own."""

    def __init__(self, program, seed):
        self.hd, self.chance, self.cases, self.wrong, self.orphans = Program(program), random.Random(seed), 0, 0, 0

    def must(self, words, status=0):
        done = self.hd.run(*words)
        if done.status != status:
            raise AssertionError(f"{' '.join(map(str, words))}: status {done.status}, {done.out.decode(errors='replace')}")
        return done.out

    def volume(self, number):
        """A database and a sound volume of it."""
        chance = self.chance
        maker = [courses, lists, tickets, trees, None][number % 5]
        if maker:
            database = maker()
            rows = Maker(database, chance).rows(database.types[0], chance.choice([0, 1, 5, 20, 60, 150]), 8)
        else:
            other = Random(chance.randrange(1 << 30))
            database = other.database()
            rows = other.rows(database, 120)
        write("a.dbd", database.source())
        write("a.stream", database.stream(rows))
        self.must(["reload", "--no-sync", "a.dbd", "a.stream", "a.volume", 65_536])
        return database, read("a.volume"), maker is not None

    def try_one(self, database, image, damage, is_numbered):
        chance = self.chance
        damaged = damage(chance, image, database.block_size)
        write("b.volume", damaged)
        said = self.must(["salvage", "--no-sync", "a.dbd", "b.volume", "b.stream", "--orphans", "b.orphans"])
        stream = read("b.stream")
        self.must(["reload", "--no-sync", "a.dbd", "b.stream", "c.volume", 65_536])
        self.must(["check", "a.dbd", "c.volume"])
        rows = rows_of(stream)
        if not said.splitlines()[-1].startswith(b"salvaged %d segments, left out " % len(rows)):
            raise AssertionError(f"says {said!r}")
        if self.hd.run("check", "a.dbd", "b.volume").status == 0:
            self.must(["unload", "--no-sync", "a.dbd", "b.volume", "d.stream"])
            if stream != read("d.stream"):
                raise AssertionError("another stream than unload's")
        if damage in (index_alone, whole) and stream != read("a.stream"):
            raise AssertionError("rows are lost")
        volume = Volume(Layout(database), damaged)
        self.see_orphans(volume, rows, read("b.orphans"), said)
        if is_numbered:
            there = {(code, volume.data(address)) for address, code in volume.found.items()}
            if not set(rows) <= there:
                raise AssertionError("a row that is no record")
            if damage in (zeroed, cut):
                self.see_kept(Volume(Layout(database), image), volume, rows)

    def see_orphans(self, volume, rows, text, said):
        """What is not in the stream is told, by address, and nothing else."""
        lines = text.splitlines(keepends=True)
        told = [int(line.split(b" ")[0]) for line in lines]
        if len(set(told)) != len(told) or not set(told) <= set(volume.found):
            raise AssertionError("an orphan that is no segment, or is told twice")
        segments = {address: (code, volume.data(address)) for address, code in volume.found.items()}
        if collections.Counter(rows) + collections.Counter(segments[address] for address in told) != collections.Counter(segments.values()):
            raise AssertionError("stream and orphans together are not what is read")
        if told != orphans_of(volume, set(told)):
            raise AssertionError("orphans out of order")
        types = volume.layout.types
        for line, address in zip(lines, told):
            code, data = segments[address]
            if line != b"%d %b" % (address, line_of(types[code - 1], data)):
                raise AssertionError(f"orphan {line!r} at {address}")
        if not said.endswith(b", left out %d\n" % len(told)):
            raise AssertionError(f"{len(told)} orphans, but says {said!r}")
        self.orphans += len(told)

    def see_kept(self, sound, damaged, rows):
        """Each row that no lost pointer cuts off is in the stream, below its own parent."""
        level = {type.code: type.level for type in sound.layout.types}
        path, have = [], set()
        for code, data in rows:
            path[level[code] - 1 :] = [data]
            have.add((code, data, path[-2] if len(path) > 1 else None))
        for row in sound.kept(damaged):
            if (row.code, row.data, sound.data(row.parent) if row.parent else None) not in have:
                raise AssertionError(f"lost the row of type {row.code} at {row.address}")

    def play(self, cases):
        volumes = 0
        while self.cases < cases:
            database, image, is_numbered = self.volume(volumes)
            volumes += 1
            for damage in KINDS:
                state = self.chance.getstate()
                try:
                    self.try_one(database, image, damage, is_numbered)
                except AssertionError as error:
                    self.wrong += 1
                    keep = f"/tmp/salvage-wrong-{self.wrong}"
                    os.makedirs(keep, exist_ok=True)
                    for name in ("a.dbd", "a.stream", "a.volume", "b.volume", "b.stream", "b.orphans"):
                        if os.path.exists(name):
                            write(os.path.join(keep, name), read(name))
                    print(f"case {self.cases}, {damage.__name__} of {database.name}: {error}; see {keep}")
                    if self.wrong > 20:
                        return
                self.cases += 1


if __name__ == "__main__":
    sys.exit(try_cases(Tester, lambda tester: f"{tester.orphans} segments were left out"))
