#!/usr/bin/env python3
"""Random databases go out as rows and as tables, and come back: the stream that is made of them is the one of which they were loaded, byte for byte.

    tests/rows_test.py HD [--cases N] [--seed N]

A case is one way of one database: `hd rows` and `hd stream`, `hd rows --tables` and `hd stream --csv`, and both with --types. Fields have any TYPE and length and may
overlap, some types vary in length, keys are of any bytes, some not unique, and values are text, numbers of all signs, and bytes of every kind. What goes out is
compared with what this script makes of the same bytes, by the rules of FORMATS.md; which number a field's bytes are is asked of dli/hd.py, by which programs in Python
read them. Where a type stands below one without a unique key its table can't name its parents, and `hd stream --csv` refuses it: this is seen too.
The last line tells how many cases there were, and how many were wrong; the status is 1 if any was.
"""
import os
import shutil
import sys

sys.dont_write_bytecode = True
sys.path.insert(0, os.path.join(os.path.dirname(os.path.dirname(os.path.abspath(__file__))), "dli"))
import hd as dli
from model import Field, Type
from player import Database, Program, read, statement, write
from playing import try_cases
from random_calls import NAMES, Random, says_length
from salvage_test import parts_of, shown

FIELD_NAMES = ["KEY", "A", "FIELD#2", "AMOUNT", "X@$", "LONGNAME"]

# Signs of packed numbers, those that are written oftener than others.
SIGNS = [0xC, 0xC, 0xC, 0xD, 0xD, 0xD, 0xF, 0xA, 0xB, 0xE, 0, 9]

# Bytes that a text treats in their own way.
SPECIAL = b' "\\,\r\n\0x-+0123456789;=#\x7f\xef\xbb\xbf'

# The least and the most of the binary numbers that are written as such.
LEAST, MOST = -(1 << 63), (1 << 63) - 1


class TypedField(Field):
    """A field with the letter of its TYPE."""

    def __init__(self, name, start, length, letter):
        super().__init__(name, start, length)
        self.letter = letter

    def number(self, own):
        """The number that its bytes are, as text, where a reader makes the same bytes of that; None else."""
        if self.letter in "CX":
            return None
        field = dli.Field(self.name, self.start, self.length, self.letter)
        try:
            number = field.value(own)
        except ValueError:
            return None
        if field.bytes(number) != own or self.letter in "FH" and not LEAST <= number <= MOST:
            return None
        return b"%d" % number


class TypedDatabase(Database):
    """A database whose fields have a TYPE."""

    def source(self):
        text = statement("DBD", f"NAME={self.name}", "ACCESS=HIDAM") + statement("DATASET", f"SIZE={self.block_size}")
        for type in self.types:
            length = f"({type.most},{type.least})" if type.least else type.most
            text += statement("SEGM", f"NAME={type.name}", f"PARENT={type.parent.name if type.parent else 0}", f"BYTES={length}")
            for field in type.fields.values():
                sequence = f"({field.name},SEQ,{'U' if type.unique else 'M'})" if field is type.key else field.name
                text += statement("FIELD", f"NAME={sequence}", f"BYTES={field.length}", f"START={field.start}", *([f"TYPE={field.letter}"] if field.letter != "C" else []))
        return (text + "         DBDGEN\n").encode()


class Maker(Random):
    """Databases and rows by chance."""

    def field(self, name, shortest):
        letter = self.choice("CXPPPHF")
        length = {"H": self.choice([2, 2, 2, 2, 3, 1]), "F": self.choice([4, 4, 4, 4, 3, 8, 9])}.get(letter, 1 + self.below(9))
        length = min(length, shortest)
        return TypedField(name, 1 + self.below(shortest - length + 1), length, letter)

    def type(self, code, parent):
        most = 2 + self.below(60 if self.chance(20) else 24)
        least = 2 + self.below(most - 1) if self.chance(30) else None
        fields = [self.field(name, least or most) for name in FIELD_NAMES[: self.below(len(FIELD_NAMES) + 1)]]
        if not parent and not fields:
            fields = [self.field("KEY", least or most)]
        key = fields[0] if fields and (not parent or self.chance(85)) else None
        self.shuffle(fields)
        return Type(code, NAMES[code - 1], parent, most, least, key, bool(key) and (not parent or self.chance(85)), "LAST", fields)

    def database(self):
        types = [self.type(1, None)]
        for code in range(2, 2 + self.below(6)):
            parent = self.choice(types)
            types.append(self.type(code, parent if parent.level < 4 else types[0]))
        return TypedDatabase("RANDOM", types, 512)

    def any_bytes(self, count):
        kind = self.below(5)
        if kind == 0:
            return bytes(self.below(256) for _ in range(count))
        if kind == 1:
            return bytes(self.choice(SPECIAL) for _ in range(count))
        if kind == 2:
            return bytes([self.choice(b" \0\x0c\xff0")]) * count
        text = bytes(self.choice(b"ABCDEFGHIJ 0123456789") for _ in range(self.below(count + 1)))
        return text.ljust(count)

    def number_bytes(self, field):
        """Bytes of a field, which are mostly a number of its TYPE."""
        if field.letter in "CX" or self.chance(15):
            return self.any_bytes(field.length)
        if field.letter == "P":
            digits = 2 * field.length - 1
            number = self.choice([0, self.below(10**digits), self.below(1000), 10**digits - 1]) % 10**digits
            return bytes.fromhex(f"{number:0{digits}}{self.choice(SIGNS):x}")
        bits = 8 * field.length
        number = self.choice([0, 1, -1, self.below(1 << bits), (1 << bits - 1) - 1, 1 << bits - 1]) % (1 << bits)
        return number.to_bytes(field.length, "big")

    def segment(self, type):
        length = self.randint(type.least, type.most) if type.least else type.most
        data = bytearray(self.any_bytes(length))
        for field in type.fields.values():
            data[field.start - 1 : field.start - 1 + field.length] = self.number_bytes(field)
        return says_length(type, bytes(data))


# ---- what goes out

def fields_by_name(type):
    return {name.rstrip(): field for name, field in type.fields.items()}


def escaped(data):
    """Bytes as a cell of a table has them with --types."""
    return b"".join(b"\\\\" if byte == 92 else bytes([byte]) if 32 <= byte <= 126 else b"\\x%02x" % byte for byte in data)


def cut(own, is_open):
    """A value without the blanks at the end of text."""
    return own.rstrip(b" ") if not is_open and all(32 <= byte <= 126 for byte in own) else own


def typed_value(field, own, is_open):
    """A value of a line with --types."""
    number = field.number(own) if field else None
    if number is not None:
        return number
    if not field or field.letter in "CX":
        return shown(own, is_open)
    rest = shown(own[1:], True) if len(own) > 1 else b""
    text = b"\\x%02x" % own[0] + (rest[1:-1] if rest.startswith(b'"') else rest)
    return b'"%b"' % text if b" " in own or b'"' in own else text


def typed_cell(field, own, is_open):
    """A cell with --types, without its quotes."""
    number = field.number(own) if field else None
    if number is not None:
        return number
    if not field or field.letter in "CX":
        return escaped(cut(own, is_open))
    return b"\\x%02x" % own[0] + escaped(own[1:])


def row_line(type, data, is_typed):
    fields, line = fields_by_name(type), b"  " * (type.level - 1) + type.name.encode()
    for name, start, end, is_open in parts_of(type):
        own = data[start:end]
        value = typed_value(fields.get(name), own, is_open) if is_typed else shown(own, is_open)
        line += b" %b=%b" % (name, value)
    return line + b"\n"


def quoted(cells):
    """Cells as a line of CSV."""
    line = b",".join(b'"%b"' % cell.replace(b'"', b'""') if any(byte in cell for byte in b'",\r\n') else cell for cell in cells)
    return (line or b'""' if len(cells) == 1 else line) + b"\n"


def columns_of(type):
    """The parts of a type in the order of a table: its fields, and then the ranges."""
    fields = fields_by_name(type)
    return sorted(parts_of(type), key=lambda part: part[0] not in fields)


def path_of(type):
    return (path_of(type.parent) if type.parent else []) + [type]


def key_field(type):
    """The field by which a key is called: the first in the DBD that has its bytes."""
    return next(field for field in type.fields.values() if (field.start, field.length) == (type.key.start, type.key.length))


def table(database, type, rows, is_typed):
    """The table of a type."""
    above = [each for each in path_of(type)[:-1] if each.key]
    parts = columns_of(type)
    names = [b"%b.%b" % (each.name.encode(), key_field(each).name.encode()) for each in above] + [part[0] for part in parts]
    text, path, fields = b",".join(names) + b"\n", {}, fields_by_name(type)
    for code, data in rows:
        path[code] = data
        if code != type.code:
            continue
        own = [(key_field(each), each.key.of(path[each.code]), False) for each in above]
        own += [(fields.get(name), data[start:end], is_open) for name, start, end, is_open in parts]
        text += quoted([typed_cell(*cell) if is_typed else cut(*cell[1:]) for cell in own])
    return text


class Tester:
    """hd over random databases, in a folder of its own."""

    def __init__(self, program, seed):
        self.hd, self.seed, self.cases, self.wrong, self.refused = Program(program), seed, 0, 0, 0

    def must(self, *words):
        done = self.hd.run(*words)
        if done.status:
            raise AssertionError(f"{' '.join(map(str, words))}: status {done.status}, {done.out.decode(errors='replace')}")
        return done.out

    def see(self, what, found, wanted):
        if found != wanted:
            for number, (one, other) in enumerate(zip(found.split(b"\n"), wanted.split(b"\n")), 1):
                if one != other:
                    raise AssertionError(f"{what}, line {number}: {one!r}, and not {other!r}")
            raise AssertionError(f"{what}: {len(found)} bytes, and not {len(wanted)}")

    def try_rows(self, database, rows, options):
        text = self.must("rows", "a.dbd", "a.volume", *options)
        self.see("rows", text, b"".join(row_line(database.types[code - 1], data, bool(options)) for code, data in rows))
        write("a.rows", text)
        self.must("stream", "a.dbd", "a.rows", "b.stream", "--no-sync", *options)
        self.see("the stream of rows", read("b.stream"), read("a.stream"))

    def try_tables(self, database, rows, options):
        shutil.rmtree("tables", ignore_errors=True)
        os.mkdir("tables")
        said = self.must("rows", "a.dbd", "a.volume", "--tables", "tables", "--no-sync", *options)
        self.see("its line", said, b"wrote %d tables with %d segments\n" % (len(database.types), len(rows)))
        if sorted(os.listdir("tables")) != sorted(f"{type.name}.csv" for type in database.types):
            raise AssertionError(f"the folder has {sorted(os.listdir('tables'))}")
        for type in database.types:
            self.see(f"the table of {type.name}", read(f"tables/{type.name}.csv"), table(database, type, rows, bool(options)))
        last = database.types[-1]
        self.see("--csv", self.must("rows", "a.dbd", "a.volume", "--csv", last.name, *options), read(f"tables/{last.name}.csv"))
        nameless = [type for type in database.types if any(not above.unique for above in path_of(type)[:-1])]
        if nameless:
            self.refused += 1
            done = self.hd.run("stream", "a.dbd", "tables", "b.stream", "--csv", "--no-sync", *options)
            wanted = b"IN refused: %b.csv, line 1, a type above it has no unique key\n" % nameless[0].name.encode()
            if done != (2, wanted):
                raise AssertionError(f"stream --csv: status {done.status}, {done.out!r}, and not {wanted!r}")
            return
        self.must("stream", "a.dbd", "tables", "b.stream", "--csv", "--no-sync", *options)
        self.see("the stream of tables", read("b.stream"), read("a.stream"))

    def load(self, seed):
        """A database and its rows, with their volume."""
        maker = Maker(seed)
        database = maker.database()
        rows = maker.rows(database, 60)
        write("a.dbd", database.source())
        write("a.stream", database.stream(rows))
        self.must("reload", "--no-sync", "a.dbd", "a.stream", "a.volume", 65_536)
        return database, rows

    def play(self, cases):
        while self.cases < cases and self.wrong < 5:
            seed = self.seed + self.cases
            database, rows = self.load(seed)
            for try_one in (self.try_rows, self.try_tables):
                for options in ([], ["--types"]):
                    self.cases += 1
                    try:
                        try_one(database, rows, options)
                    except AssertionError as error:
                        self.wrong += 1
                        keep = f"/tmp/rows-wrong-{self.wrong}"
                        shutil.rmtree(keep, ignore_errors=True)
                        shutil.copytree(".", keep)
                        print(f"seed {seed}, {' '.join([try_one.__name__, *options])}: {error}; see {keep}")


if __name__ == "__main__":
    sys.exit(try_cases(Tester, lambda tester: f"{tester.refused} folders of tables were refused, whose types stand below one without a unique key"))
