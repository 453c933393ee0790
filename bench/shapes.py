"""The databases, streams and decks that the benchmark plays, and the same rows for SQLite."""
import random

BLOCK_SIZE = 2048
CLASSES = 10
STUDENTS = 99

DBD = f"""         DBD   NAME=BENCH,ACCESS=(HIDAM,VSAM)
         DATASET DD1=BENCHDD,DEVICE=3390,SIZE={BLOCK_SIZE}
         SEGM  NAME=COURSE,PARENT=0,BYTES=12,POINTER=TWINBWD
         LCHILD NAME=(BENCHXS,BENCHX),POINTER=INDX
         FIELD NAME=(NUM,SEQ,U),BYTES=7,START=1,TYPE=C
         SEGM  NAME=CLASS,PARENT=((COURSE,DBLE)),BYTES=4,PTR=TB
         FIELD NAME=(ED,SEQ,U),BYTES=2,START=1,TYPE=C
         SEGM  NAME=STUD,PARENT=((CLASS,DBLE)),BYTES=6,PTR=TB
         FIELD NAME=(SNAME,SEQ,U),BYTES=4,START=1,TYPE=C
         SEGM  NAME=BOOK,PARENT=((COURSE,DBLE)),BYTES=5,PTR=TB,        X
               RULES=(,LAST)
         DBDGEN
         FINISH
         END
"""

PSB = """         PCB   TYPE=DB,DBDNAME=BENCH,PROCOPT=AP,KEYLEN=13
         SENSEG NAME=COURSE,PARENT=0
         SENSEG NAME=CLASS,PARENT=COURSE
         SENSEG NAME=STUD,PARENT=CLASS
         SENSEG NAME=BOOK,PARENT=COURSE
         PSBGEN LANG=COBOL,PSBNAME=BENCHP
         END
"""

CODES = {"COURSE": 1, "CLASS": 2, "STUD": 3, "BOOK": 4}


def course(number):
    return "COURSE", f"{number:07}ALGEB"


def deep(segments):
    """Courses of 10 classes of 99 students."""
    for number in range(max(1, segments // (1 + CLASSES * (1 + STUDENTS)))):
        yield course(number)
        for edition in range(CLASSES):
            yield "CLASS", f"{edition:02}AB"
            for student in range(STUDENTS):
                yield "STUD", f"{student:04}77"


def wide(segments):
    """Ten courses with all the books."""
    for number in range(10):
        yield course(number)
        for book in range(segments // 10 - 1):
            yield "BOOK", f"{book % 100000:05}"


def roots(segments):
    """Courses without dependents."""
    for number in range(segments):
        yield course(number)


SHAPES = {"deep": deep, "wide": wide, "roots": roots}


def stream(rows):
    """The unload stream of rows."""
    parts = [b"HDUNLOAD\0\1BENCH   "]
    count = 0
    for name, text in rows:
        parts.append(bytes([CODES[name]]) + len(text).to_bytes(2, "big") + text.encode())
        count += 1
    parts.append(b"\0" + count.to_bytes(4, "big"))
    return b"".join(parts)


def tables(rows):
    """The rows as lines for SQLite, a list for each table."""
    lines = {name: [] for name in CODES}
    number = edition = ""
    for place, (name, text) in enumerate(rows):
        if name == "COURSE":
            number = text[:7]
            lines[name].append(f"{number}|{text[7:]}")
        elif name == "CLASS":
            edition = text[:2]
            lines[name].append(f"{number}|{edition}|{text[2:]}")
        elif name == "STUD":
            lines[name].append(f"{number}|{edition}|{text[:4]}|{text[4:]}")
        else:
            lines[name].append(f"{number}|{place}|{text}")
    return {name: "".join(line + "\n" for line in these) for name, these in lines.items()}


def call(function, *ssas, area=""):
    """A call as lines of a deck."""
    first, others = (ssas[:1], ssas[1:])
    text = f"L     {function:4} {first[0] if first else ''}\n"
    text += "".join(f"C          {ssa}\n" for ssa in others)
    return text + (f"D{area}\n" if area else "")


def scattered(segments):
    """A deck that puts in the rows of `deep`, those of each type in random order behind all of its parents', so that they lie scattered."""
    calls = {"COURSE": [], "CLASS": [], "STUD": []}
    number = edition = ""
    for name, text in deep(segments):
        above = []
        if name == "COURSE":
            number = text[:7]
        else:
            above = [f"COURSE  (NUM     EQ{number})"]
        if name == "CLASS":
            edition = text[:2]
        elif name == "STUD":
            above.append(f"CLASS   (ED      EQ{edition})")
        calls[name].append(call("ISRT", *above, f"{name:8}", area=text))
    random_number = random.Random("scattered")
    for rows in calls.values():
        random_number.shuffle(rows)
    return "".join(text for rows in calls.values() for text in rows)


def number_of(course):
    return f"COURSE  (NUM     EQ{course:07})"


def class_path(course, edition):
    return number_of(course), f"CLASS   (ED      EQ{edition:02})"


def courses_of(segments):
    """How many courses `deep` has."""
    return max(1, segments // (1 + CLASSES * (1 + STUDENTS)))


def repeated(function, count):
    """A call that is made so often."""
    whole, rest = divmod(count, 9999)
    return f"L9999 {function}\n" * whole + (f"L{rest:4} {function}\n" if rest else "")


class Deep:
    """The calls over students below classes below courses."""

    def __init__(self, segments, random_number):
        self.segments, self.random = segments, random_number
        self.courses = courses_of(segments)

    def count(self):
        return self.courses * (1 + CLASSES * (1 + STUDENTS))

    def path(self):
        """The arguments of a random student."""
        course, edition = self.random.randrange(self.courses), self.random.randrange(CLASSES)
        return (*class_path(course, edition), f"STUD    (SNAME   EQ{self.random.randrange(STUDENTS):04})")

    def get(self):
        return call("GU", *self.path())

    def below(self, calls):
        """GNP over all dependents of random courses."""
        dependents = CLASSES * (1 + STUDENTS)
        return "".join(call("GU", number_of(self.random.randrange(self.courses))) + f"L{dependents:4} GNP\n" for _ in range(calls // dependents))

    def insert(self, calls):
        """Students that are not there, of keys behind and between the others."""
        paths = set()
        while len(paths) < calls:
            paths.add((self.random.randrange(self.courses), self.random.randrange(CLASSES), f"{self.random.randrange(STUDENTS, 9999):04}"))
        order = sorted(paths)
        self.random.shuffle(order)
        return "".join(call("ISRT", *class_path(course, edition), "STUD    ", area=key + "55") for course, edition, key in order)

    def replace(self):
        arguments = self.path()
        return call("GHU", *arguments) + call("REPL", area=arguments[2][19:23] + "66")

    def delete(self, calls):
        """Random classes with their students, each once."""
        classes = [(course, edition) for course in range(self.courses) for edition in range(CLASSES)]
        self.random.shuffle(classes)
        return "".join(call("GHU", *class_path(*place)) + call("DLET") for place in classes[:calls])


class Wide:
    """The calls over books, which have no key, below ten courses: a new book goes in behind the last."""

    def __init__(self, segments, random_number):
        self.segments, self.random = segments, random_number

    def count(self):
        return self.segments

    def get(self):
        return call("GU", number_of(self.random.randrange(10)), "BOOK    *L")

    def below(self, calls):
        books = self.segments // 10 - 1
        return "".join(call("GU", number_of(self.random.randrange(10))) + repeated("GNP", books) for _ in range(max(1, calls // books)))

    def insert(self, calls):
        return "".join(call("ISRT", number_of(self.random.randrange(10)), "BOOK    ", area=f"{book % 100000:05}") for book in range(calls))

    def replace(self):
        return call("GHU", number_of(self.random.randrange(10)), "BOOK    *L") + call("REPL", area=f"{self.random.randrange(100000):05}")

    def delete(self, calls):
        """The last books."""
        return "".join(call("GHU", number_of(self.random.randrange(10)), "BOOK    *L") + call("DLET") for _ in range(min(calls, self.segments // 2)))


class Roots:
    """The calls over courses without dependents."""

    def __init__(self, segments, random_number):
        self.segments, self.random = segments, random_number

    def count(self):
        return self.segments

    def get(self):
        return call("GU", number_of(self.random.randrange(self.segments)))

    def insert(self, calls):
        """Courses that are not there, in random order."""
        numbers = list(range(self.segments, self.segments + calls))
        self.random.shuffle(numbers)
        return "".join(call("ISRT", "COURSE  ", area=f"{number:07}ALGEB") for number in numbers)

    def replace(self):
        number = self.random.randrange(self.segments)
        return call("GHU", number_of(number)) + call("REPL", area=f"{number:07}OTHER")

    def delete(self, calls):
        numbers = list(range(self.segments))
        self.random.shuffle(numbers)
        return "".join(call("GHU", number_of(number)) + call("DLET") for number in numbers[:calls])


PLAYERS = {"deep": Deep, "scattered": Deep, "wide": Wide, "roots": Roots}


def mixed(player, calls):
    """Of ten calls six GU, two GN, one GHU with REPL."""
    return "".join("".join(player.get() for _ in range(6)) + "L   2 GN\n" + player.replace() for _ in range(calls // 10))


DECKS = {
    "open": lambda player, calls: "L     GN\n",
    "scan": lambda player, calls: repeated("GN", player.count() + 1),
    "GU": lambda player, calls: "".join(player.get() for _ in range(calls)),
    "GNP": lambda player, calls: player.below(calls),
    "ISRT": lambda player, calls: player.insert(calls),
    "REPL": lambda player, calls: "".join(player.replace() for _ in range(calls)),
    "DLET": lambda player, calls: player.delete(calls),
    "mixed": mixed,
}

# the decks that the limit in C plays
LIMITED = ("scan", "GU")


def decks_of(shape):
    """The decks that a shape has; there is nothing below roots alone."""
    return [name for name in DECKS if name != "GNP" or shape != "roots"]


def deck(shape, name, segments, calls):
    """The text of a deck, and how many calls it has."""
    text = DECKS[name](PLAYERS[shape](segments, random.Random(name)), calls)
    made = 0
    for line in text.split("\n"):
        if line.startswith("L"):
            made += int(line[1:5]) if line[1:5].strip() else 1
    return text, made
