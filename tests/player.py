"""Databases, programs, streams and decks as the texts and files that hd takes; and a deck played by hd and by the model."""
import collections
import os
import shutil
import subprocess

from model import Model, Pcb

Call = collections.namedtuple("Call", "pcb function ssas area")
Done = collections.namedtuple("Done", "status out")

# The bytes of an area that one H line has.
PIECE = 100


def read(name):
    with open(name, "rb") as file:
        return file.read()


def write(name, data):
    with open(name, "wb") as file:
        file.write(data)


def rows_of(stream):
    """The codes and bytes of the rows of an unload stream."""
    rows, at = [], 18
    while stream[at]:
        end = at + 3 + int.from_bytes(stream[at + 1 : at + 3], "big")
        rows.append((stream[at], stream[at + 3 : end]))
        at = end
    return rows


class Program:
    """hd, called by its words."""

    def __init__(self, path):
        self.path = os.path.abspath(path)

    def run(self, *words, text=b""):
        done = subprocess.run([self.path, *map(str, words)], input=text, stdout=subprocess.PIPE, stderr=subprocess.STDOUT, close_fds=False)
        return Done(done.returncode, done.stdout)


def statement(operation, *operands):
    """A statement of a source, an operand a line."""
    lines = [f"{operation:>14} {operands[0]}"] + [f"{'':15}{operand}" for operand in operands[1:]]
    return "".join(f"{line + ',':71}X\n" for line in lines[:-1]) + lines[-1] + "\n"


class Database:
    """Segment types, and how their segments lie in a volume: which types keep twin backward, and of which the parent keeps the last child."""

    def __init__(self, name, types, block_size=128, spacing=(0, 0), backward=(), last=()):
        self.name, self.types, self.block_size, self.spacing, self.backward, self.last = name, types, block_size, spacing, backward, last

    def source(self):
        free = [f"FRSPC=({self.spacing[0]},{self.spacing[1]})"] if any(self.spacing) else []
        text = statement("DBD", f"NAME={self.name}", "ACCESS=HIDAM") + statement("DATASET", f"SIZE={self.block_size}", *free)
        for type in self.types:
            parent = f"(({type.parent.name},{'DBLE' if type in self.last else 'SNGL'}))" if type.parent else "0"
            length = f"({type.most},{type.least})" if type.least else type.most
            pointer = "TB" if type in self.backward else "T"
            text += statement("SEGM", f"NAME={type.name}", f"PARENT={parent}", f"BYTES={length}", f"PTR={pointer}", f"RULES=(,{type.rule})")
            if not type.parent:
                text += statement("LCHILD", "NAME=(X,Y)", "POINTER=INDX")
            for field in type.fields.values():
                sequence = f"({field.name},SEQ,{'U' if type.unique else 'M'})" if field is type.key else field.name
                text += statement("FIELD", f"NAME={sequence}", f"BYTES={field.length}", f"START={field.start}")
        return (text + "         DBDGEN\n").encode()

    def program_source(self, pcbs):
        """The source of a program, each PCB of which is letters of PROCOPT, and those of each type that it sees, or none."""
        text = ""
        for procopt, seen in pcbs:
            text += statement("PCB", "TYPE=DB", f"DBDNAME={self.name}", f"PROCOPT={procopt}")
            for type, own in seen.items():
                text += statement("SENSEG", f"NAME={type.name}", f"PARENT={type.parent.name if type.parent else 0}", *([f"PROCOPT={own}"] if own else []))
        return (text + "         PSBGEN\n").encode()

    def stream(self, rows):
        records = b"".join(b"%c%b%b" % (code, len(data).to_bytes(2, "big"), data) for code, data in rows)
        return b"HDUNLOAD\0\1%-8b%b\0%b" % (self.name.encode(), records, len(rows).to_bytes(4, "big"))

    def stored(self, type, data):
        """The bytes that a segment takes in a volume."""
        children = [child for child in self.types if child.parent is type]
        twins = 2 if type in self.backward or not type.parent else 1
        return -(-(2 + 4 * (twins + len(children) + sum(child in self.last for child in children)) + len(data)) // 8) * 8


def line(number, call, answer):
    """What is printed of a call."""
    return b"%d %d %-4b %b" % (number, call.pcb, call.function, answer)


def deck(calls):
    """The text of a deck."""
    lines, pcb = [], 1
    for call in calls:
        if call.pcb != pcb:
            lines.append(b"S %d" % call.pcb)
        pcb = call.pcb
        lines.append(b"L     %-4b %b" % (call.function, call.ssas[0]) if call.ssas and call.ssas[0] else b"L     " + call.function)
        lines += [b"C          " + ssa for ssa in call.ssas[1 if call.ssas and call.ssas[0] else 0 :]]
        if call.area.isascii() and call.area.decode().isprintable():
            lines += [b"D" + call.area] if call.area else []
        else:
            lines += [b"H" + call.area[at : at + PIECE].hex().encode() for at in range(0, len(call.area), PIECE)]
    return b"".join(line + b"\n" for line in lines)


def has_no_room(database, image, unstored):
    """Whether the bytes of a volume show that a call may be answered Full: its blocks do not suffice for the rows that are to be stored, and a root is among
    them or no hole is as large as all of them."""
    if not unstored:
        return False
    size, is_root = database.block_size, not unstored[0][0].parent

    def number(place, length):
        return int.from_bytes(image[place : place + length], "big")

    count, kinds = number(12, 4), image[2::size]
    holes = [0]
    for block in range(1, count):
        start = block * size
        hole = number(start, 2) if kinds[block] == 1 else 0
        while hole:
            holes.append(number(start + hole + 2, 2))
            hole = number(start + hole, 2)
    spare = number(16, 4) - count + kinds[1:count].count(3)
    index = number(40, 4) + 1 if is_root else 0
    return spare < len(unstored) + index and (is_root or max(holes) < sum(database.stored(type, data) for type, data in unstored))


class Game:
    """Calls of a program over a volume of rows of a database; how many blocks it may have, or by how many more than it needs it may grow; and how many of
    them are kept in memory in each of some plays."""

    def __init__(self, database, pcbs, rows, calls, blocks=65536, spare=None, caches=(1, 64), image=None):
        self.database, self.pcbs, self.rows, self.calls, self.image = database, pcbs, rows, calls, image
        self.blocks, self.spare, self.caches = blocks, spare, caches
        self.full, self.answered = [], None

    def model(self):
        return Model(self.database.types, [Pcb(*pcb) for pcb in self.pcbs], self.rows)

    def lines(self, told=()):
        """The lines that the calls are to print, and the model that they leave. A call that was told to be Full is so, if it may be."""
        model, lines, self.full = self.model(), [], []
        for place, call in enumerate(self.calls):
            is_full = place < len(told) and told[place].endswith(b"[!!] Full")
            answer = model.answer(*call, is_full)
            if is_full and answer == b"[!!] Full":
                self.full.append((place, model.unstored))
            lines.append(line(place + 1, call, answer))
        return lines, model

    def load(self, hd):
        """Makes the files and the volume, which is handed in, or reloaded."""
        write("dbd", self.database.source())
        write("psb", self.database.program_source(self.pcbs))
        if self.image:
            return write("begun", self.image)
        write("in", self.database.stream(self.rows))
        done = hd.run("reload", "dbd", "in", "begun", self.blocks, "--no-sync")
        if self.spare is not None and done.status == 0:
            blocks = int(done.out.split()[-2]) + self.spare
            done = hd.run("reload", "dbd", "in", "begun", blocks, "--no-sync")
        if not done.out.startswith(b"reloaded %d segments" % len(self.rows)):
            return f"the rows are not reloaded: {done.out}"

    def play(self, hd, cache, calls):
        """The lines that hd prints for calls, and the bytes of the volume that they leave."""
        shutil.copyfile("begun", "volume")
        write("deck", deck(calls))
        done = hd.run("deck", "dbd", "psb", "volume", "deck", "--no-sync", *(["--cache", cache] if cache else []))
        return done.out.split(b"\n")[:-1], read("volume")

    def fault(self, hd):
        """What is wrong with a play of the calls, with what they leave, or with what is reloaded of that; None where nothing is."""
        wrong = self.load(hd)
        if wrong:
            return wrong
        told, left = self.play(hd, self.caches[0], self.calls)
        self.told = told
        lines, model = self.answered if self.answered and self.answered[0] == told else self.lines(told)
        for printed, wanted in zip(told + [b"nothing"] * len(lines), lines + [b"nothing"] * len(told)):
            if printed != wanted:
                return f"hd prints   {printed.decode('latin-1')}\nand not     {wanted.decode('latin-1')}"
        for cache in self.caches[1:]:
            if self.play(hd, cache, self.calls) != (told, left):
                return f"a cache of {cache} blocks leaves other lines or bytes than one of {self.caches[0]}"
        if all(b"[!!]" in printed for printed in told) and left != read("begun"):
            return "refused calls leave other bytes"
        wrong = self.fault_of_volume(hd, model, "volume")
        for place, unstored in self.full[:1] + self.full[1:][-1:]:
            if not has_no_room(self.database, self.play(hd, 64, self.calls[: place + 1])[1], unstored):
                wrong = wrong or f"call {place + 1} is answered Full, and there is room"
        if not wrong:
            done = hd.run("reload", "dbd", "out", "fresh", 65536, "--no-sync")
            wrong = self.fault_of_volume(hd, model, "fresh") if done.status == 0 else f"what is left is not reloaded: {done.out}"
        return wrong

    def fault_of_volume(self, hd, model, name):
        rows = [(row.type.code, row.data) for row in model.rows]
        roots = sum(code == 1 for code, _ in rows)
        done = hd.run("check", "dbd", name)
        if done.status or not done.out.endswith(b" blocks, %d segments, %d roots\n" % (len(rows), roots)):
            return f"check of {name}, with {len(rows)} segments and {roots} roots: {done.out}"
        done = hd.run("unload", "dbd", name, "out", "--no-sync")
        if done != (0, b"unloaded %d segments\n" % len(rows)) or read("out") != self.database.stream(rows):
            return f"unload of {name} gives other rows: {done.out}"

    def smallest(self, hd, tries=400):
        """A game with few of these calls and rows that still shows a fault, and what it is."""
        game, wrong = self, self.fault(hd)
        for what in ("calls", "rows", "calls"):
            step = max(len(getattr(game, what)) // 2, 1)
            while step and tries:
                at = 0
                while at < len(getattr(game, what)) and tries:
                    tries -= 1
                    items = getattr(game, what)
                    fewer = Game(*(getattr(game, name) for name in ("database", "pcbs", "rows", "calls", "blocks", "spare", "caches", "image")))
                    setattr(fewer, what, items[:at] + items[at + step :])
                    try:
                        found = fewer.fault(hd)
                    except (IndexError, AttributeError):
                        found = None
                    if found and not found.startswith("the rows"):
                        game, wrong = fewer, found
                    else:
                        at += step
                step //= 2
        return game, wrong

    def text(self):
        """The sources, rows and deck."""
        rows = "".join(f"{'  ' * self.database.types[code - 1].level}{self.database.types[code - 1].name:8} {data}\n" for code, data in self.rows)
        sources = self.database.source() + self.database.program_source(self.pcbs) + deck(self.calls)
        return f"rows, in at most {self.blocks} blocks:\n{rows}{sources.decode('latin-1')}"
