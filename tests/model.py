"""A hierarchical database as a plain list of rows, which answers DL/I calls.

It is written from the rules of the calls alone, apart from the program: rows stand in hierarchic sequence, and a call looks at as many of them
as it likes. There are no addresses, pointers, blocks or index.
"""
import operator
import re

FUNCTIONS = {b"GU", b"GN", b"GNP", b"GHU", b"GHN", b"GHNP", b"ISRT", b"REPL", b"DLET"}
OPERATORS = {
    b"EQ": operator.eq, b"= ": operator.eq, b" =": operator.eq,
    b"GE": operator.ge, b">=": operator.ge, b"=>": operator.ge,
    b"LE": operator.le, b"<=": operator.le, b"=<": operator.le,
    b"GT": operator.gt, b"> ": operator.gt, b" >": operator.gt,
    b"LT": operator.lt, b"< ": operator.lt, b" <": operator.lt,
    b"NE": operator.ne,
}


class Field:
    """Some bytes of a segment, counted from 1."""

    def __init__(self, name, start, length):
        self.name, self.start, self.length = name, start, length

    def of(self, data):
        return data[self.start - 1 : self.start - 1 + self.length]


class Type:
    """A segment type. `least` is None where its segments do not vary in length, and `key` where it has no sequence field."""

    def __init__(self, code, name, parent, most, least=None, key=None, unique=False, rule="LAST", fields=()):
        self.code, self.name, self.parent = code, name, parent
        self.most, self.least, self.key, self.unique, self.rule = most, least, key, unique, rule
        self.fields = {b"%-8b" % field.name.encode(): field for field in fields}
        self.level = parent.level + 1 if parent else 1

    def key_of(self, data):
        return self.key.of(data) if self.key else b""

    def is_below(self, other):
        return self.parent is not None and (self.parent is other or self.parent.is_below(other))


class Row:
    """A segment: its type, the row above it, and its bytes."""

    def __init__(self, type, parent, data):
        self.type, self.parent, self.data = type, parent, data

    @property
    def key(self):
        return self.type.key_of(self.data)

    def path(self):
        return (self.parent.path() if self.parent else []) + [self]

    def on_path(self, type):
        """The row of a type on this row's path."""
        row = self
        while row and row.type is not type:
            row = row.parent
        return row

    def is_twin_of(self, other):
        return self.type is other.type and self.parent is other.parent


class Pcb:
    """What a program may do with the types that it sees, by the letters of PROCOPT; and where it stands."""

    def __init__(self, procopt, seen):
        """`seen` has the letters of each type's own, or None."""
        self.letters = {type: own or procopt for type, own in seen.items()}
        self.loads = "L" in procopt
        self.restart()

    def restart(self):
        self.passed = 0  # how many rows lie before the position
        self.at = None  # the row on which the PCB stands
        self.last = None  # the type of the row last returned or inserted
        self.parent = None  # the row whose dependents GNP returns
        self.held = []  # the rows that REPL and DLET may change

    def may(self, type, right):
        given = {"G": "GRDA", "I": "IA", "R": "RA", "D": "DA", "P": "P"}[right]
        return any(letter in given for letter in self.letters.get(type, ""))

    def type_named(self, name):
        for type in self.letters:
            if b"%-8b" % type.name.encode() == name:
                return type


class Status(Exception):
    """A status that gives no segment."""


class Refused(Exception):
    """A refusal by Area or Full, after which nothing is changed."""


class Argument:
    """A segment search argument. Its qualification is a list of lists of comparisons: it is true where all of some list are."""

    def __init__(self, ssa):
        self.name, behind = ssa[:8], ssa[8:]
        head = re.match(rb"(?:\*([DFLN-]*))?(?:\Z|[ (])", behind)
        if not re.fullmatch(rb"(?=.{8}\Z)[A-Z][A-Z0-9$#@]* *", self.name) or not head:
            raise Status("AJ")
        self.codes = head[1] or b""
        self.text = behind[head.end() :] if behind[: head.end()].endswith(b"(") else None
        self.either = []

    def has(self, code):
        return code in self.codes

    def qualify(self):
        """Reads the qualification, if there is one."""
        text, part = self.text, []
        while text is not None:
            if len(text) < 8:
                raise Status("AJ")
            field = self.type.fields.get(text[:8])
            if not field:
                raise Status("AK")
            compare, value, behind = OPERATORS.get(text[8:10]), text[10 : 10 + field.length], text[10 + field.length :]
            if not compare or behind[:1] not in (b")", b"*", b"&", b"+", b"|"):
                raise Status("AJ")
            if not part:
                self.either.append(part)
            part.append((field, compare, value))
            if behind[:1] in b"+|":
                part = []
            text = None if behind[:1] == b")" else behind[1:]

    def is_true_of(self, data):
        return not self.either or any(all(compare(field.of(data), value) for field, compare, value in part) for part in self.either)


class Model:
    """Rows in hierarchic sequence, and the PCBs of a program."""

    def __init__(self, types, pcbs, rows=()):
        """`rows` are pairs of a code and bytes, in hierarchic sequence."""
        self.pcbs, self.rows = pcbs, []
        for code, data in rows:
            self.rows.append(Row(types[code - 1], self.last_of(types[code - 1].parent), data))

    def last_of(self, type):
        """The row of a type on the path of the last row."""
        return self.rows[-1].on_path(type) if self.rows and type else None

    def end_of(self, row):
        """The number of the first row behind a row and its dependents."""
        number = self.rows.index(row) + 1
        while number < len(self.rows) and self.rows[number].type.level > row.type.level:
            number += 1
        return number

    def answer(self, number, function, ssas, area, is_full=False):
        """What a call of a PCB, counted from 1, prints behind its function. `is_full` says that the volume has no room for what the call stores."""
        pcb, self.unstored = self.pcbs[number - 1], []
        try:
            return self.call(pcb, function, ssas, area, is_full)
        except Status as status:
            if status.args[0] != "GB":
                pcb.held = []
            else:
                pcb.restart()
            return b"[%b] 00          key= area=" % status.args[0].encode()
        except Refused as refused:
            return b"[!!] " + refused.args[0].encode()

    # The tests of a call, in their order

    def call(self, pcb, function, ssas, area, is_full):
        if function not in FUNCTIONS:
            raise Status("AD")
        arguments = [Argument(ssa) for ssa in ssas]
        inserted = next((place for place, argument in enumerate(arguments) if argument.has(b"D")), max(len(arguments) - 1, 0))
        self.test_shape(pcb, function, arguments, inserted)
        self.name_types(pcb, function, arguments, inserted)
        for argument in arguments:
            argument.qualify()
        if not self.is_allowed(pcb, function, arguments, inserted):
            raise Status("AM")
        if function == b"ISRT":
            return self.insert(pcb, arguments[:inserted], arguments[inserted:], area, is_full)
        if function == b"REPL":
            return self.replace(pcb, arguments, area, is_full)
        if function == b"DLET":
            return self.delete(pcb, arguments)
        return self.get(pcb, function, arguments)

    def test_shape(self, pcb, function, arguments, inserted):
        changed = {b"ISRT": arguments[inserted:], b"REPL": arguments, b"DLET": arguments}.get(function, [])
        one = function == b"DLET" or function == b"ISRT" and pcb.loads
        if any(argument.text is not None for argument in changed) or one and len(arguments) > 1:
            raise Status("AJ")

    def name_types(self, pcb, function, arguments, inserted):
        if len(arguments) > 15:
            raise Status("AC")
        above = None
        for place, argument in enumerate(arguments):
            argument.type = pcb.type_named(argument.name)
            if not argument.type or above and not argument.type.is_below(above):
                raise Status("AC")
            if function == b"ISRT" and place >= inserted and above and argument.type.parent is not above:
                raise Status("AC")
            above = argument.type

    def is_allowed(self, pcb, function, arguments, inserted):
        if pcb.loads:
            return function == b"ISRT"
        if function == b"ISRT":
            return all(pcb.may(argument.type, "I") for argument in arguments[inserted:])
        if function == b"REPL":
            kept = {argument.type for argument in arguments if argument.has(b"N")}
            return all(row.type in kept or pcb.may(row.type, "R") for row in pcb.held)
        if function == b"DLET":
            target = self.target(pcb, arguments)
            return not target or pcb.may(target.type, "D")
        if not arguments:
            return any(pcb.may(type, "G") for type in pcb.letters)
        paths = [argument.type for argument in arguments[:-1] if argument.has(b"D")]
        return pcb.may(arguments[-1].type, "G") and all(pcb.may(type, "G") and pcb.may(type, "P") for type in paths)

    # Gets

    def get(self, pcb, function, arguments):
        in_parent, unique = function.endswith(b"P"), function.endswith(b"U")
        if in_parent and (not pcb.parent or arguments and not arguments[-1].type.is_below(pcb.parent.type)):
            raise Status("GP")
        first = self.rows.index(pcb.parent) + 1 if in_parent else 0
        end = self.end_of(pcb.parent) if in_parent else len(self.rows)
        begin = 0 if unique else min([pcb.passed] + [self.front(pcb, argument) for argument in arguments if argument.has(b"F")])
        for number in range(max(begin, first), end):
            row = self.rows[number]
            if pcb.may(row.type, "G") and self.satisfies(row, arguments):
                break
        else:
            qualified = any(argument.either for argument in arguments)
            raise Status("GE" if unique or in_parent or qualified else "GB")
        status = self.crossing(pcb.last, row.type) if not unique and not arguments else "  "
        path = [row.on_path(argument.type) for argument in arguments[:-1] if argument.has(b"D")] + [row]
        pcb.passed, pcb.at, pcb.last = number + 1, row, row.type
        pcb.held = path if function.startswith(b"GH") else []
        if not in_parent:
            pcb.parent = row
        return self.given(status, row, b"".join(row.data for row in path))

    def front(self, pcb, argument):
        """The first occurrence of a type below its parent on the path of the position, to which F lets a search go back."""
        above = pcb.at and argument.type.parent and pcb.at.on_path(argument.type.parent)
        if above:
            for number, row in enumerate(self.rows):
                if row.type is argument.type and row.parent is above:
                    return number
        return pcb.passed

    def satisfies(self, row, arguments):
        """Whether a row is of the last argument's type, and each argument holds of the row of its type on the path."""
        return not arguments or row.type is arguments[-1].type and all(self.holds(row.on_path(argument.type), argument) for argument in arguments)

    def holds(self, row, argument):
        if not argument.is_true_of(row.data):
            return False
        if not argument.has(b"L") or not row.parent:
            return True
        later = self.rows[self.rows.index(row) + 1 :]
        return not any(twin.is_twin_of(row) and argument.is_true_of(twin.data) for twin in later)

    @staticmethod
    def crossing(last, type):
        if last and type.level < last.level:
            return "GA"
        return "GK" if last and type.level == last.level and type is not last else "  "

    @staticmethod
    def given(status, row, area=b""):
        key = b"".join(above.key for above in row.path())
        return b"[%b] %02d %-8b key=%b area=%b" % (status.encode(), row.type.level, row.type.name.encode(), shown(key), shown(area))

    # The area of an ISRT or a REPL

    @staticmethod
    def parts(area, wanted):
        """The bytes of an area, taken apart: for each type, or kept row, those of its segment."""
        parts = []
        for one in wanted:
            length = len(one.data) if isinstance(one, Row) else one.most
            if isinstance(one, Type) and one.least is not None:
                length = int.from_bytes(area[:2], "big")
                if not one.least <= length <= min(one.most, len(area)):
                    raise Status("V1")
            if length > len(area):
                raise Refused("Area")
            parts.append(area[:length])
            area = area[length:]
        if area:
            raise Refused("Area")
        return parts

    # Updates

    def insert(self, pcb, above, inserted, area, is_full):
        if not inserted:
            raise Status("AH")
        upper = inserted[0]
        parts = self.parts(area, [argument.type for argument in inserted])
        key = upper.type.key_of(parts[0])
        if pcb.loads:
            parent, place = self.last_of(upper.type.parent), len(self.rows)
            self.test_load(upper.type, parent, key)
        else:
            parent = self.parent_for(pcb, above, upper.type)
            place = self.place_for(pcb, upper, parent, key)
        if is_full:
            self.unstored = [(argument.type, part) for argument, part in zip(inserted, parts)]
            raise Refused("Full")
        for other in self.pcbs:
            if place < other.passed:
                other.passed += len(parts)
        for argument, part in zip(inserted, parts):
            parent = Row(argument.type, parent, part)
            self.rows.insert(place, parent)
            place += 1
        lowest = parent
        pcb.passed, pcb.at, pcb.last, pcb.held = place, lowest, lowest.type, []
        if pcb.parent not in lowest.path()[:-1]:
            pcb.parent = lowest
        return self.given("  ", lowest)

    def parent_for(self, pcb, above, type):
        """The row below which an ISRT puts in: that on the path of the position, or the first that the arguments above name."""
        if not type.parent:
            return None
        parent = pcb.at and pcb.at.on_path(type.parent)
        if above and (not parent or any(argument.either or argument.has(b"L") for argument in above)):
            parent = next((row for row in self.rows if self.satisfies(row, above)), None)
        if not parent:
            raise Status("GE")
        return parent

    def place_for(self, pcb, argument, parent, key):
        """The number that a new row gets."""
        type, rule = argument.type, argument.type.rule
        if rule == "HERE" and argument.has(b"F"):
            rule = "FIRST"
        elif rule != "LAST" and argument.has(b"L") and not argument.has(b"F"):
            rule = "LAST"
        siblings = [row for row in self.rows if row.parent is parent]
        equal = [row for row in siblings if row.type is type and row.key == key]
        if equal and type.unique:
            raise Status("II")
        behind = [row for row in siblings if (row.type.code, row.key) > (type.code, key)]
        if rule == "HERE" and pcb.at in equal:
            behind = equal[equal.index(pcb.at) :] + behind
        elif rule != "LAST":
            behind = equal + behind
        if behind:
            return self.rows.index(behind[0])
        return self.end_of(parent) if parent else len(self.rows)

    def test_load(self, type, parent, key):
        """LB to LE where a row may not come behind all others."""
        if type.parent and not parent:
            raise Status("LD")
        before = next((row for row in reversed(self.rows) if row.parent is parent), None)
        if before and before.type.code > type.code:
            raise Status("LE")
        if before and before.type is type and type.key:
            if key < before.key:
                raise Status("LC")
            if key == before.key and type.unique:
                raise Status("LB")

    def replace(self, pcb, arguments, area, is_full):
        if not pcb.held:
            raise Status("DJ")
        kept = {argument.type for argument in arguments if argument.has(b"N")}
        parts = self.parts(area, [row if row.type in kept else row.type for row in pcb.held])
        changes = [(row, part) for row, part in zip(pcb.held, parts) if row.type not in kept]
        if any(row.type.key_of(part) != row.key for row, part in changes):
            raise Status("DA")
        if is_full:
            self.unstored = [(row.type, part) for row, part in changes if len(part) > len(row.data)]
            raise Refused("Full")
        for row, part in changes:
            row.data = part
            self.end_holds(row, pcb)
        lowest, pcb.held = pcb.held[-1], []
        return self.given("  ", lowest)

    def end_holds(self, row, but=None):
        for pcb in self.pcbs:
            if pcb is not but and row in pcb.held:
                pcb.held = []

    def target(self, pcb, arguments):
        """The held row that a DLET deletes: the highest, or that which its argument names."""
        return next((row for row in pcb.held if not arguments or row.type is arguments[0].type), None)

    def delete(self, pcb, arguments):
        row = self.target(pcb, arguments)
        if not row:
            raise Status("DJ")
        answer = self.given("  ", row)
        first, end = self.rows.index(row), self.end_of(row)
        gone = self.rows[first:end]
        del self.rows[first:end]
        pcb.held = []
        for other in self.pcbs:
            if other.passed > first:
                other.passed = max(other.passed - len(gone), first)
            if other.at in gone:
                other.at = row.parent
            if other.parent in gone:
                other.parent = None
        for out in gone:
            self.end_holds(out)
        return answer


def shown(data):
    """Bytes as they are printed."""
    return b"".join(b"\\\\" if byte == 92 else b"%c" % byte if 32 <= byte < 127 else b"\\x%02x" % byte for byte in data)
