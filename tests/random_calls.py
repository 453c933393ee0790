"""Random databases, programs, rows and calls, most of which find what they ask."""
import random

from model import OPERATORS, Field, Type
from player import Call, Database, Game, line

NAMES = ["R", "CHILD", "B2", "LONGNAME", "X#$@", "CHILDREN", "Z", "LEAF999"]
LEVELS = 5

# Letters of PROCOPT, those that give most oftener than others.
LETTERS = ["A", "AP", "AP", "A", "GIP", "GRP", "GD", "GIRD", "G", "GP", "I", "RP", "DP", "IRDP"]


class Random(random.Random):
    def chance(self, part):
        """True so many times of a hundred."""
        return self.random() * 100 < part

    def below(self, limit):
        return self.randrange(limit) if limit > 0 else 0

    def byte(self):
        """A byte of few, so that keys and values meet; now and then any other, but none that ends a line of a deck."""
        byte = self.below(256) if self.chance(4) else 10
        return self.choice(b"ABCD") if byte in b"\n\r" else byte

    def bytes(self, count):
        return bytes(self.byte() for _ in range(count))

    # Databases and programs

    def span(self, name, length, most):
        start = self.below(length)
        return Field(name, start + 1, 1 + self.below(min(length - start, most)))

    def type(self, code, parent):
        most = 2 + self.below(50 if self.chance(10) else 10)
        least = 2 + self.below(most - 1) if self.chance(30) else None
        shortest = least or most
        key = self.span("KEY", shortest, 3) if code == 1 or self.chance(70) else None
        fields = [key] * bool(key) + [self.span(name, shortest, 4) for name in ("F", "FIELD#2")[: self.below(3)]]
        self.shuffle(fields)
        return Type(code, NAMES[code - 1], parent, most, least, key, code == 1 or bool(key) and self.chance(57), self.choice(["FIRST", "LAST", "HERE"]), fields)

    def database(self):
        """A database of one to eight types on at most five levels."""
        types = [self.type(1, None)]
        for code in range(2, 2 + self.below(8)):
            parent = self.choice(types)
            types.append(self.type(code, parent if parent.level < LEVELS else types[0]))
        spacing = (self.choice([0, 0, 0, 2, 5]), self.choice([0, 0, 0, 10, 40]))
        backward, last = ([type for type in types if self.chance(50)] for _ in range(2))
        return Database("RANDOM", types, self.choice([128, 128, 256, 512]), spacing, backward, last)

    def letters(self):
        return "AP" if self.chance(60) else self.choice(LETTERS)

    def pcb(self, database):
        """A PCB that sees the root and some of the types below those that it sees."""
        seen = {}
        for type in database.types:
            if not type.parent or type.parent in seen and self.chance(85):
                seen[type] = self.letters() if self.chance(12) else None
        return self.letters(), seen

    # Rows

    def length(self, type):
        return self.randint(type.least, type.most) if type.least else type.most

    def segment(self, type):
        return says_length(type, self.bytes(self.length(type)))

    def rows(self, database, most):
        """At most so many rows, in hierarchic sequence."""
        made, keys = [], set()
        for _ in range(self.below(most)):
            parent, type = self.spot(made, database)
            data = self.segment(type)
            name = (id(parent), type, type.key_of(data))
            if not type.unique or name not in keys:
                keys.add(name)
                made.append(Node(parent, type, data))
        return list(in_sequence(made, None))

    def spot(self, rows, database):
        """A row and a type that may stand below it; no row and the root's type where none was met."""
        if rows and self.chance(85):
            for _ in range(4):
                row = self.choice(rows)
                children = [type for type in database.types if type.parent is row.type]
                if children:
                    return row, self.choice(children)
        return None, database.types[0]

    # Arguments

    def argument(self, type, data=b"", codes="", others=0, qualified=1):
        """An argument of a type, with these command codes and, so many times of a hundred, others, and so often with a qualification, which takes most
        values from bytes."""
        more = [code for code, part in zip("DFLN-", (15, 12, 12, 4, 4)) if self.chance(part) and self.chance(others)]
        ssa = f"{type.name:8}".encode()
        if codes or more or self.chance(3):
            ssa += f"*{codes}{''.join(more)}".encode()
        if type.fields and self.chance(qualified):
            return ssa + self.qualification(type, data)
        return ssa + b" " if self.chance(30) else ssa

    def qualification(self, type, data):
        """Up to four comparisons."""
        text = b"("
        for place in range(4):
            name, field = self.choice(list(type.fields.items()))
            name = b"UNKNOWN " if self.chance(1) else name
            value = field.of(data)
            if self.chance(15) or len(value) < field.length or b"\n" in value or b"\r" in value:
                value = self.bytes(field.length)
            text += name + (b"EQ" if self.chance(65) else self.choice(list(OPERATORS))) + value
            if place == 3 or self.chance(65):
                return text + b")"
            text += self.choice([b"*", b"&", b"+", b"|"])

    def spoiled(self, ssa):
        """An argument of which a byte is changed, or the end is cut off."""
        at = self.below(len(ssa))
        return ssa[:at] if self.chance(50) else ssa[:at] + bytes([self.choice(b" *(D)E+AZ0Q")]) + ssa[at + 1 :]


class Node:
    """A row that is not yet in sequence."""

    def __init__(self, parent, type, data):
        self.parent, self.type, self.data = parent, type, data


def in_sequence(made, parent):
    """Codes and bytes of rows below a parent in hierarchic sequence."""
    for row in sorted((row for row in made if row.parent is parent), key=lambda row: (row.type.code, row.type.key_of(row.data))):
        yield row.type.code, row.data
        yield from in_sequence(made, row)


def says_length(type, data):
    """Bytes of which the first two say how many they are, where those of their type vary."""
    return len(data).to_bytes(2, "big") + data[2:] if type.least else data


def types_above(type):
    """The types on the path of a type, root first."""
    return (types_above(type.parent) if type.parent else []) + [type]


class Caller:
    """Makes random calls over the rows and positions of a model."""

    def __init__(self, random, database, model, to_load=()):
        self.random, self.database, self.model, self.to_load, self.calls = random, database, model, to_load, 0

    def next(self):
        number = self.random.below(len(self.model.pcbs))
        self.pcb = self.model.pcbs[number]
        call = self.load() if self.pcb.loads and self.random.chance(97) else self.plain()
        self.calls += 1
        return Call(number + 1, *self.spoil(*call))

    def spoil(self, function, ssas, area):
        """A call that is spoiled a little, now and then."""
        chance = self.random.chance
        if ssas and chance(3):
            at = self.random.below(len(ssas))
            ssas[at] = self.random.spoiled(ssas[at])
        elif chance(1):
            ssas = []
        if chance(2):
            area = area + b"A" if chance(50) else area[:-1]
        return b"GXX" if chance(1) else function, ssas, area

    def load(self):
        """ISRT of the next row of a list, or of a random one."""
        code, data = 1, b""
        if self.to_load:
            next = self.calls if self.random.chance(85) else self.random.below(len(self.to_load))
            code, data = self.to_load[min(next, len(self.to_load) - 1)]
        type = self.database.types[code - 1]
        ssas = [self.random.argument(type)] + [self.random.argument(type, codes="D")] * self.random.chance(3)
        return b"ISRT", ssas, data

    def plain(self):
        sort, holds = self.random.below(100), bool(self.pcb.held)
        if sort < (35 if holds else 2):
            return self.replace()
        if sort < (50 if holds else 4):
            return self.delete()
        return self.insert() if sort < 30 else self.get()

    # Gets

    def get(self):
        chance, parent = self.random.chance, self.pcb.parent
        has_below = parent and self.model.end_of(parent) > self.model.rows.index(parent) + 1
        in_parent = chance(60 if has_below else 6)
        functions = [(b"GNP", 30), (b"GHNP", 30)] if in_parent else [(b"GU", 5), (b"GHU", 2), (b"GHU", 2), (b"GN", 45), (b"GHN", 45)]
        function, bare = self.random.choice(functions)
        target = self.busy_row() if chance(15) else self.target(85 if in_parent else 20)
        return function, [] if chance(bare) else self.get_arguments(target), b""

    def busy_row(self):
        """A row that some PCB holds, or on which it stands, if there is one."""
        pcb = self.random.choice(self.model.pcbs)
        return self.random.choice(pcb.held) if pcb.held else pcb.at

    def target(self, in_parent):
        """A row that a get may well return: behind the position, below the parent, or any."""
        rows, sort = self.model.rows, self.random.below(100)
        if self.pcb.parent and sort < in_parent:
            first = rows.index(self.pcb.parent) + 1
            at = first + self.random.below(self.model.end_of(self.pcb.parent) - first)
        elif sort < 75:
            at = self.pcb.passed + self.random.below(min(len(rows) - self.pcb.passed, 12))
        else:
            at = self.random.below(len(rows))
        return rows[at] if at < len(rows) else None

    def get_arguments(self, target):
        """Arguments for a row's path, the last of which names its type."""
        chance = self.random.chance
        type = self.random.choice(self.database.types) if not target or chance(5) else target.type
        ssas = []
        for above in types_above(type):
            if above is type or chance(55):
                row = target and target.on_path(above)
                codes = "D" if above is not type and self.pcb.may(above, "P") and chance(20) else ""
                ssas.append(self.random.argument(above, row.data if row else b"", codes, 60, 55))
        return ssas

    # Updates

    def insert(self):
        """ISRT of a row or a path, below the path of a row that is there."""
        chance, below, at = self.random.chance, self.random.below, self.pcb.at
        parent, type = (at.parent, at.type) if at and chance(45) else self.random.spot(self.model.rows, self.database)
        types = types_above(type)
        first = below(len(types)) if chance(25) else len(types) - 1
        named, qualified, ssas, area = below(10), self.random.choice([0, 30, 100]), [], b""
        for place, above in enumerate(types):
            if place == first:
                codes = self.random.choice([b"DL", b"FD"] + 8 * [b"D"] if first + 1 < len(types) else [b"L", b"F", b"FL", b"D"] + 6 * [b""])
                ssas.append(self.random.argument(above, codes=codes.decode()))
            elif place > first:
                ssas.append(self.random.argument(above, codes="D" if chance(10) else ""))
            elif chance(1) if named < 3 else place + 1 == first or chance(50):
                row = parent and parent.on_path(above)
                codes = self.random.choice(["L", "F", "N"] + 9 * [""])
                ssas.append(self.random.argument(above, row.data if row else b"", codes, 0, 0 if named < 3 else qualified))
            if place >= first:
                area += self.twin(above, at.data if at and at.type is above else b"")
        if len(ssas) > 2 and chance(5):
            del ssas[below(len(ssas) - 1)]
        return b"ISRT", ssas, area

    def twin(self, type, other):
        """Random bytes of a segment, sometimes with those of another where its key is."""
        data = bytearray(self.random.segment(type))
        if type.key and other and self.random.chance(40):
            key = slice(type.key.start - 1, type.key.start - 1 + type.key.length)
            data[key] = other[key]
            if self.random.chance(90):
                data = says_length(type, data)
        return bytes(data)

    def replace(self):
        """REPL of the held rows, now and then with N for some of them."""
        chance, ssas, area = self.random.chance, [], b""
        naming = chance(30)
        for row in self.pcb.held:
            kept = naming and chance(50)
            if naming and (kept or chance(20)):
                ssas.append(self.random.argument(row.type, codes="N" if kept else ""))
            area += self.changed(row, len(row.data), 40) if kept else self.new_bytes(row)
        return b"REPL", ssas, area

    def changed(self, row, count, keys):
        """A row's bytes, so many, with some changed, those of its key so many times of a hundred."""
        key, data = row.type.key, b""
        for place in range(count):
            is_key = key and key.start <= place + 1 < key.start + key.length
            new = self.random.byte()
            is_new = place >= len(row.data) or self.random.chance(keys if is_key else 40)
            data += bytes([new if is_new else row.data[place]])
        return data

    def new_bytes(self, row):
        """New bytes of a row, of another length now and then."""
        count = self.random.length(row.type) if self.random.chance(50) else len(row.data)
        data = self.changed(row, count, 1)
        return says_length(row.type, data) if self.random.chance(95) else data

    def delete(self):
        """DLET of a held row, which is named now and then."""
        ssas = []
        if self.random.chance(50):
            rows = self.pcb.held or self.model.rows
            type = self.random.choice(rows).type if rows else self.database.types[0]
            ssas.append(self.random.argument(type, codes="FL" if self.random.chance(10) else ""))
        return b"DLET", ssas, b""


def random_calls(random, game, to_load, count):
    """Adds so many random calls to a game, made for a volume that is never full."""
    model, lines = game.model(), []
    caller = Caller(random, game.database, model, to_load)
    for place in range(count):
        call = caller.next()
        game.calls.append(call)
        lines.append(line(place + 1, call, model.answer(*call)))
    game.answered = lines, model


def random_game(seed, count):
    """A game of a random database, program, rows and calls."""
    random = Random(seed)
    database = random.database()
    loads = random.chance(8)
    rows = random.rows(database, 200 if loads or random.chance(5) else 60)
    pcbs = [("L", dict.fromkeys(database.types))] if loads else [random.pcb(database) for _ in range(1 + random.below(4))]
    game = Game(database, pcbs, [] if loads else rows, [])
    game.caches = random.sample([1, 2, 3, 7, 64, None], 2)
    game.spare = random.choice([0, 0, 1, 1, 2, 4]) if random.chance(35) else None
    random_calls(random, game, rows, count)
    return game


# The fields of the database of arguments, with values, of which some have the signs of arguments in them.
VALUES = {
    "COURSE": [(b"NUM     ", [b"101", b"205", b"150", b"1)1"]), (b"TITLE   ", [b"ALGEB", b"LOGIC", b"(*+&)"])],
    "CLASS": [(b"ED      ", [b"01", b"02", b"03", b"))"])],
    "STUD": [(b"SNAME   ", [b"ADAM", b"EVE ", b"+++)"])],
    "BOOK": [],
}
ARGUED = [
    (1, b"1)1LOGIC"), (2, b"))03"), (3, b"+++)02"), (4, b"*+&)("), (1, b"101ALGEB"), (2, b"01AB"), (3, b"ADAM01"), (3, b"EVE 02"),
    (2, b"02CD"), (4, b"EULER"), (1, b"150(*+&)"), (2, b"03EF"), (3, b"ADAM03"), (1, b"205LOGIC"), (2, b"01GH"),
]


class Arguer:
    """Makes calls with arguments that a program may write, and some that none should."""

    def __init__(self, random, database, loads):
        self.random, self.types, self.loads = random, database.types, loads

    def comparison(self, type):
        """A comparison of a field that the type has, more often than not."""
        fields = [field for some in VALUES.values() for field in some] + [(b"NONE    ", [b"01"])]
        if VALUES[type.name] and self.random.chance(80):
            fields = VALUES[type.name]
        name, values = self.random.choice(fields)
        return name + (b"XX" if self.random.chance(4) else self.random.choice(list(OPERATORS))) + self.random.choice(values)

    def argument(self, type):
        text = b"%-8b" % (b"OTHER" if self.random.chance(5) else type.name.encode())
        text += self.random.choice([b"", b"", b"", b"*D", b"*L", b"*FL", b"*-N", b"*", b"*X"])
        if self.random.chance(25):
            return text
        if self.random.chance(30):
            return text + b" "
        text += b"(" + self.comparison(type)
        for _ in range(self.random.below(3)):
            text += self.random.choice([b"*", b"&", b"+", b"|", b"*", b"+", b"x"]) + self.comparison(type)
        return text + self.random.choice([b")"] * 8 + [b")*", b""])

    def damaged(self, text):
        """An argument that is changed or cut, one of four times."""
        at, sort = self.random.below(len(text)), self.random.below(8)
        if sort == 0:
            return text[:at]
        return text[:at] + self.random.choice([b" ", b"*", b"(", b")", b"A", b"0", b"\xff"]) + text[at + 1 :] if sort == 1 else text

    def call(self, number):
        """A call of a PCB, with up to three arguments of types that descend more often than not."""
        function = self.random.choice([b"GU", b"GN", b"GHU", b"GHN", b"GNP", b"GHU", b"ISRT", b"ISRT", b"REPL", b"DLET"])
        types, ssas = list(self.types), []
        for _ in range(self.random.below(4)):
            type = self.random.choice(types)
            below = [other for other in self.types if other.is_below(type)]
            types = below if below and self.random.chance(80) else list(self.types)
            ssas.append(self.damaged(self.argument(type)))
        area = self.random.choice([b"", b"101ALGEB", b"02XY", b"ADAM77", b"GAUSS", b"01XYADAM99", b"303MUSIC04ZZ", b"150GRAPH"])
        return Call(number, b"ISRT" if self.loads and self.random.chance(80) else function, ssas, area)


def argument_game(seed, count):
    """A game of calls whose arguments are made and damaged by chance, and how many of them have arguments that mean something: by a PCB that sees all, one that
    does not see students, and one that loads."""
    random = Random(f"arguments {seed}")
    number, title, edition, person = Field("NUM", 1, 3), Field("TITLE", 4, 5), Field("ED", 1, 2), Field("SNAME", 1, 4)
    course = Type(1, "COURSE", None, 8, key=number, unique=True, fields=[number, title])
    clas = Type(2, "CLASS", course, 4, key=edition, unique=True, fields=[edition])
    types = [course, clas, Type(3, "STUD", clas, 6, key=person, fields=[person]), Type(4, "BOOK", course, 5)]
    database, loads = Database("EDU", types), seed % 3 == 2
    pcbs = [("L", dict.fromkeys(types))] if loads else [("AP", dict.fromkeys(types)), ("A", dict.fromkeys([course, clas, types[3]]))]
    game = Game(database, pcbs, [] if loads else ARGUED, [])
    model, lines, meant, arguer = game.model(), [], 0, Arguer(random, database, loads)
    for place in range(count):
        call = arguer.call(random.below(len(pcbs)) + 1)
        game.calls.append(call)
        lines.append(line(place + 1, call, model.answer(*call)))
        meant += not lines[-1].split(b"[")[1].startswith((b"AJ", b"AC", b"AK"))
    game.answered = lines, model
    return game, meant


def changed(random, image):
    """A volume with a byte, or two, changed: a bit is another, it is 0 or 255, one more or less, or any."""
    image = bytearray(image)
    for _ in range(random.choice([1, 1, 2])):
        at = random.below(len(image))
        own = image[at]
        image[at] = random.choice([own ^ 1 << random.below(8), own ^ 1 << random.below(8), 0, 255, (own + 1) % 256, (own - 1) % 256, random.below(256)])
    return bytes(image)
