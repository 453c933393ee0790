#!/usr/bin/env python3
"""Plays `hd serve`: what it writes is compared with frames that are put together here, as docs/FORMATS.md has them.

    tests/serve_test.py PROGRAM

The last line tells how many cases there were, and how many were wrong; the status is 1 if any was.
"""
import os
import select
import subprocess
import sys

sys.dont_write_bytecode = True
from playing import Count, Done, read, write
from program_test import Place, Player

# Frames, from their layout


def number(value, size):
    return value.to_bytes(size, "big")


def counted(data, size=2):
    """Bytes behind their number."""
    return number(len(data), size) + data


def frame(*parts):
    return counted(b"".join(parts), 4)


def hello(types, pcbs):
    """The first frame, of types and PCBs."""
    told = [b"HD", number(3, 2), number(len(pcbs), 1), number(len(types), 1)]
    for name, level, varies, most, least, fields in types:
        told += [b"%-8b" % name, number(level, 1), number(varies, 1), number(most, 2), number(least, 2), number(len(fields), 1)]
        told += [b"%-8b" % field + number(start, 2) + number(length, 2) + letter for field, start, length, letter in fields]
    for database, letters, segments, key in pcbs:
        told += [b"%-8b" % database, b"%-4b" % letters[:4], number(segments, 2), number(key, 2)]
    return frame(*told)


def call(pcb, function, *ssas, area=b"", kind=1):
    return frame(number(kind, 1), number(pcb, 1), b"%-4b" % function, number(len(ssas), 1), *map(counted, ssas), area)


def answer(status, level=0, name=b"", key=b"", area=b""):
    return frame(b"\0", b"%-2b" % status, number(level, 1), b"%-8b" % name, counted(key), area)


def make(count, one):
    """A call that is made so often and not answered."""
    return frame(b"\4", number(count, 1), one[4:])


def foretell(count, one):
    """A call of which is asked what it would answer now, and then again and again, so often at most."""
    return frame(b"\5", number(count, 1), one[4:])


def tells(*answers):
    """What is foretold."""
    return frame(b"\7", *answers)


def refusal(number_of_it):
    return frame(number(number_of_it, 1), b"  ", number(0, 1), b" " * 8, counted(b""))


AREA = 2

# What is asked beside calls, and what both are answered
COMMIT, ROLL_BACK, DONE = frame(b"\2"), frame(b"\3"), frame(b"\6")

# A program of the sample database: its first PCB sees all, and the second, which has five letters, no students.
PSB = b"""         PCB   TYPE=DB,DBDNAME=EDU,PROCOPT=AP
         SENSEG NAME=COURSE,PARENT=0
         SENSEG NAME=CLASS,PARENT=COURSE
         SENSEG NAME=STUD,PARENT=CLASS
         SENSEG NAME=BOOK,PARENT=COURSE
         PCB   TYPE=DB,DBDNAME=EDU,PROCOPT=GIRDP
         SENSEG NAME=COURSE,PARENT=0
         SENSEG NAME=CLASS,PARENT=COURSE
         SENSEG NAME=BOOK,PARENT=COURSE
         PSBGEN LANG=COBOL,PSBNAME=EDUP
"""

HELLO = hello(
    [
        (b"COURSE", 1, 0, 8, 8, [(b"NUM", 1, 3, b"C")]),
        (b"CLASS", 2, 0, 4, 4, [(b"ED", 1, 2, b"C")]),
        (b"STUD", 3, 0, 6, 6, [(b"SNAME", 1, 4, b"C")]),
        (b"BOOK", 2, 0, 5, 5, []),
    ],
    [(b"EDU", b"AP", 4, 9), (b"EDU", b"GIRDP", 3, 5)],
)

# A database with a field of each TYPE, and one of none, and what is told of it
KINDS = b"""         DBD   NAME=KINDS,ACCESS=HIDAM
         SEGM  NAME=KIND,PARENT=0,BYTES=300
         FIELD NAME=(NUMBER,SEQ,U),BYTES=2,START=1,TYPE=H
         FIELD NAME=TEXT,BYTES=256,START=3,TYPE=C
         FIELD NAME=BITS,BYTES=3,START=259,TYPE=X
         FIELD NAME=AMOUNT,BYTES=3,START=262,TYPE=P
         FIELD NAME=WHOLE,BYTES=4,START=265,TYPE=F
         FIELD NAME=PLAIN,BYTES=1,START=300
         DBDGEN
"""
KINDS_PSB = b"""         PCB   TYPE=DB,DBDNAME=KINDS,PROCOPT=G
         SENSEG NAME=KIND
         PSBGEN
"""
FIELDS = [(b"NUMBER", 1, 2, b"H"), (b"TEXT", 3, 256, b"C"), (b"BITS", 259, 3, b"X"), (b"AMOUNT", 262, 3, b"P"), (b"WHOLE", 265, 4, b"F"), (b"PLAIN", 300, 1, b"C")]

# Calls of all nine functions and of another, and what they answer by the rules of DL/I
CLASS01 = b"CLASS   (ED      EQ01)"
TALK = [
    (call(1, b"GU", b"COURSE  *D(NUM     EQ101)", b"BOOK    "), answer(b"", 2, b"BOOK", b"101", b"101ALGEBEULER")),
    (call(1, b"GU", CLASS01), answer(b"", 2, b"CLASS", b"10101", b"01AB")),
    (call(1, b"GNP"), answer(b"", 3, b"STUD", b"10101ADAM", b"ADAM01")),
    (call(1, b"GN"), answer(b"", 3, b"STUD", b"10101EVE ", b"EVE 02")),
    (call(2, b"GN"), answer(b"", 1, b"COURSE", b"101", b"101ALGEB")),
    (call(2, b"GN", b"STUD    "), answer(b"AC")),
    (call(1, b"GHU", b"STUD    (SNAME   EQADAM)"), answer(b"", 3, b"STUD", b"10101ADAM", b"ADAM01")),
    (call(1, b"REPL", area=b"ADAM77"), answer(b"", 3, b"STUD", b"10101ADAM")),
    (call(1, b"GHN"), answer(b"", 3, b"STUD", b"10101EVE ", b"EVE 02")),
    (call(1, b"REPL", area=b"EVE"), refusal(AREA)),
    (call(1, b"ISRT", CLASS01, b"STUD    ", area=b"CARL03"), answer(b"", 3, b"STUD", b"10101CARL")),
    (call(1, b"GU", CLASS01), answer(b"", 2, b"CLASS", b"10101", b"01AB")),
    (call(1, b"GHNP", b"STUD    "), answer(b"", 3, b"STUD", b"10101ADAM", b"ADAM77")),
    (call(1, b"DLET"), answer(b"", 3, b"STUD", b"10101ADAM")),
    (call(1, b"DLET"), answer(b"DJ")),
    (call(1, b"GXX"), answer(b"AD")),
    (call(2, b"GN", b"CLASS   "), answer(b"", 2, b"CLASS", b"10101", b"01AB")),
]

# How many of them are answered where the first has changed something
FIRST_CHANGE = 8

# The rows that they leave, as an unload stream
LEFT = b"HDUNLOAD\0\1EDU     " + b"".join(
    number(code, 1) + counted(row)
    for code, row in [(1, b"101ALGEB"), (2, b"01AB"), (3, b"CARL03"), (3, b"EVE 02"), (2, b"02CD"), (4, b"EULER"), (1, b"205LOGIC")]
) + b"\0" + number(7, 4)

# A call and its answer, byte by byte
GET = (b"\0\0\0\x11\1\1GU  \1\0\x08CLASS   ", b"\0\0\0\x17\0  \2CLASS   \0\x051010101AB")

# Two sessions, of which the second goes on where the first ended
FIRST = [
    (call(1, b"GHU", b"STUD    "), answer(b"", 3, b"STUD", b"10101ADAM", b"ADAM01")),
    (call(1, b"REPL", area=b"ADAM77"), answer(b"", 3, b"STUD", b"10101ADAM")),
]
SECOND = [(call(1, b"GU", b"STUD    "), answer(b"", 3, b"STUD", b"10101ADAM", b"ADAM77"))]

# What is committed, and what is taken back. A commit leaves the PCBs where they are, and what is held; behind a roll back they are before all rows
HOLD = call(1, b"GHU", CLASS01, b"STUD    ")


def held(age):
    return answer(b"", 3, b"STUD", b"10101ADAM", b"ADAM" + age)


REPLACED = answer(b"", 3, b"STUD", b"10101ADAM")
UNITS = [
    (HOLD, held(b"01")),
    (COMMIT, DONE),
    (call(1, b"REPL", area=b"ADAM02"), REPLACED),
    (call(1, b"GHN"), answer(b"", 3, b"STUD", b"10101EVE ", b"EVE 02")),
    (COMMIT, DONE),
    (COMMIT, DONE),
    (call(1, b"DLET"), answer(b"", 3, b"STUD", b"10101EVE ")),
    (HOLD, held(b"02")),
    (call(1, b"REPL", area=b"ADAM03"), REPLACED),
    (ROLL_BACK, DONE),
    (call(1, b"REPL", area=b"ADAM04"), answer(b"DJ")),
    (call(1, b"GN", b"CLASS   "), answer(b"", 2, b"CLASS", b"10101", b"01AB")),
    (call(1, b"GNP"), answer(b"", 3, b"STUD", b"10101ADAM", b"ADAM02")),
    (ROLL_BACK, DONE),
    (ROLL_BACK, DONE),
    (call(1, b"GHU", b"STUD    (SNAME   EQEVE )"), answer(b"", 3, b"STUD", b"10101EVE ", b"EVE 02")),
    (COMMIT, DONE),
    (call(1, b"REPL", area=b"EVE 05"), answer(b"", 3, b"STUD", b"10101EVE ")),
]

# The students that they leave, where the end of the input is a commit and where it is none
ROWS = {True: (b"ADAM02", b"EVE 05"), False: (b"ADAM02", b"EVE 02")}

# Each segment that a GN of the first PCB gives, and the end behind them
GN = call(1, b"GN")
SCAN = [
    answer(b"", 1, b"COURSE", b"101", b"101ALGEB"),
    answer(b"", 2, b"CLASS", b"10101", b"01AB"),
    answer(b"", 3, b"STUD", b"10101ADAM", b"ADAM01"),
    answer(b"", 3, b"STUD", b"10101EVE ", b"EVE 02"),
    answer(b"GA", 2, b"CLASS", b"10102", b"02CD"),
    answer(b"GK", 2, b"BOOK", b"101", b"EULER"),
    answer(b"GA", 1, b"COURSE", b"205", b"205LOGIC"),
    answer(b"GB"),
]
EVE = answer(b"", 3, b"STUD", b"10101EVE ", b"EVE 02")
NEW = call(1, b"ISRT", b"COURSE  ", area=b"300GRAPH")

# What is foretold, and what is made without an answer
AHEAD = [
    # a whole frame, byte by byte
    (b"\0\0\0\x09\5\1\1\1GN  \0", b"\0\0\0\x1e\7\0\0\0\x19\0  \1COURSE  \0\x03101101ALGEB"),
    # nothing changes by what is foretold
    (foretell(3, GN), tells(*SCAN[:3])),
    (foretell(3, GN), tells(*SCAN[:3])),
    (GN, SCAN[0]),
    (foretell(0, GN), tells()),
    (GN, SCAN[1]),
    # what is made has no answer, and moves the PCB
    (make(2, GN), b""),
    (make(0, GN), b""),
    (GN, SCAN[4]),
    # the end of the database is told last, and where it is made, the next one begins again
    (foretell(3, GN), tells(*SCAN[5:])),
    (foretell(4, GN), tells(*SCAN[5:])),
    (foretell(255, GN), tells(*SCAN[5:])),
    (make(2, GN), b""),
    (foretell(255, GN), tells(SCAN[7])),
    (make(1, GN), b""),
    (GN, SCAN[0]),
    (make(9, GN), b""),
    (GN, SCAN[2]),
    # an answer without a segment is told alone; one PCB has no parent and no position by what another one does
    (foretell(3, call(2, b"GNP")), tells(answer(b"GP"))),
    (foretell(2, call(2, b"GN")), tells(SCAN[0], SCAN[1])),
    (foretell(3, call(1, b"GN", b"NOWHERE ")), tells(answer(b"AC"))),
    (foretell(3, call(2, b"GN", b"STUD    ")), tells(answer(b"AC"))),
    (foretell(3, call(1, b"GN", b"CLASS")), tells(answer(b"AJ"))),
    (foretell(3, call(1, b"GN", b"COURSE  ", b"CLASS   ", b"STUD    ", b"STUD    ")), tells(answer(b"AC"))),
    # none of five arguments, and none where the function is no get
    (foretell(3, call(1, b"GN", b"COURSE  ", b"CLASS   ", b"STUD    ", b"STUD    ", b"STUD    ")), tells()),
    (foretell(3, NEW), tells()),
    (foretell(3, call(1, b"REPL", area=b"ADAM99")), tells()),
    (foretell(3, call(1, b"DLET")), tells()),
    (foretell(3, call(1, b"GXX")), tells()),
    # a GU gives the same again and again
    (foretell(2, call(1, b"GU", CLASS01)), tells(SCAN[1], SCAN[1])),
    (foretell(3, call(1, b"GU", b"COURSE  (NUM     EQ300)")), tells(answer(b"GE"))),
    (GN, SCAN[3]),
    # what is held stays so
    (HOLD, held(b"01")),
    (foretell(9, call(1, b"GHN", b"STUD    ")), tells(EVE, answer(b"GB"))),
    (call(1, b"REPL", area=b"ADAM02"), REPLACED),
    # a parent stays one; by a call that is made, another becomes it, and what was held no longer is
    (call(1, b"GHU", CLASS01), SCAN[1]),
    (foretell(9, call(1, b"GNP")), tells(held(b"02"), EVE, answer(b"GE"))),
    (foretell(1, GN), tells(held(b"02"))),
    (call(1, b"GNP", b"STUD    "), held(b"02")),
    (foretell(9, call(1, b"GNP")), tells(EVE, answer(b"GE"))),
    (make(1, call(1, b"GNP")), b""),
    (call(1, b"GNP"), answer(b"GE")),
    (HOLD, held(b"02")),
    (make(1, call(1, b"GN", b"COURSE  ")), b""),
    (call(1, b"REPL", area=b"ADAM03"), answer(b"DJ")),
    (foretell(9, call(1, b"GNP")), tells(answer(b"GE"))),
    # what is made may change rows, and another PCB's rows are foretold as they are then
    (make(2, NEW), b""),
    (foretell(9, call(2, b"GN", b"COURSE  ")), tells(SCAN[0], answer(b"", 1, b"COURSE", b"205", b"205LOGIC"), answer(b"", 1, b"COURSE", b"300", b"300GRAPH"), answer(b"GB"))),
    (COMMIT, DONE),
    (call(1, b"GHU", b"COURSE  (NUM     EQ205)"), answer(b"", 1, b"COURSE", b"205", b"205LOGIC")),
    (make(1, call(1, b"DLET")), b""),
    (foretell(9, call(2, b"GN", b"COURSE  ")), tells(SCAN[0], answer(b"", 1, b"COURSE", b"300", b"300GRAPH"), answer(b"GB"))),
    (ROLL_BACK, DONE),
    (make(1, call(2, b"GN", b"COURSE  ")), b""),
    (call(2, b"GN", b"COURSE  "), answer(b"", 1, b"COURSE", b"205", b"205LOGIC")),
    (make(1, call(2, b"GN")), b""),
]

# Databases of one type, and how many answers are told of 255: their lengths, of four bytes each, and they have 32,768 bytes at most
ROOM = b"""         DBD   NAME=ROOM,ACCESS=HIDAM
         DATASET DD1=ROOMDD,SIZE=32768
         SEGM  NAME=LONG,PARENT=0,BYTES=%d
         FIELD NAME=(NUMBER,SEQ,U),BYTES=%d,START=1
         DBDGEN
"""
ROOM_PSB = b"""         PCB   TYPE=DB,DBDNAME=ROOM,PROCOPT=%b
         SENSEG NAME=LONG
         PSBGEN
"""
ROOMS = [(236, 2, 128), (237, 2, 127), (32495, 255, 1), (32496, 255, 0)]

# What is said of an input that ends inside a frame, and of what was changed before it
CUT = b"frame refused: input ends inside a frame\n"
BACK = b"taken back: what was changed since the last commit is gone\n"

# The bytes of the longest path, and of the longest right body: a kind, how often, and a call of fifteen arguments as long as two bytes say, and that path
PATH = 8 + 4 + 6
BODY = 2 + 7 + 15 * (2 + 65535) + PATH
LONGEST = call(2, b"GU", *[b"%-65535b" % b"COURSE"] * 15, area=b"x" * PATH)

# Calls at the limits of a frame: the longest area, which no type has; the most arguments, of which the second is no argument; and both as long as they may be, where
# the second names the type of the first
LIMITS = [
    (call(1, b"ISRT", b"COURSE  ", area=b"abcdefghijklmnopqr"), refusal(AREA)),
    (call(2, b"GU", b"COURSE  ", *[b""] * 14), answer(b"AJ")),
    (LONGEST, answer(b"AC")),
    (make(255, LONGEST), b""),
    (foretell(255, LONGEST), tells()),
]

# Frames that are no right ones, and what is said of each
WRONG = [
    (frame(b""), "a body that ends before its parts"),
    (frame(b"\1\1GU  "), "a body that ends before its parts"),
    (call(1, b"GU", kind=0), "a frame of kind 0"),
    (call(1, b"GU", kind=6), "a frame of kind 6"),
    (call(1, b"GU", kind=7), "a frame of kind 7"),
    (frame(b"\6"), "a body that ends before its parts"),
    (frame(b"\4"), "a body that ends before its parts"),
    (frame(b"\5"), "a body that ends before its parts"),
    (frame(b"\4\1"), "a body that ends before its parts"),
    (call(1, b"GU", kind=4), "a body that ends before its parts"),
    (foretell(1, call(1, b"GU")[:-1]), "a body that ends before its parts"),
    (foretell(1, make(1, call(1, b"GU"))), "a frame of kind 4"),
    (make(1, call(1, b"GU", kind=2)), "a frame of kind 2"),
    (make(0, call(3, b"GU")), "no PCB 3"),
    (foretell(0, frame(b"\1\1GU  \x10")), "16 segment search arguments"),
    (foretell(1, frame(b"\1\1GU  \1\0\x08CLASS  ")), "a body that ends before its parts"),
    (make(1, call(1, b"ISRT", area=b"a" * (PATH + 1))), "an area of 19 bytes"),
    (frame(b"\2\x09GU  \xff"), "a frame of kind 2 with further bytes"),
    (frame(b"\2\2"), "a frame of kind 2 with further bytes"),
    (frame(b"\3\0"), "a frame of kind 3 with further bytes"),
    (call(0, b"GU"), "no PCB 0"),
    (frame(b"\1\3GU  \xff"), "no PCB 3"),
    (frame(b"\1\1GU  \x10"), "16 segment search arguments"),
    (frame(b"\1\1GU  \1"), "a body that ends before its parts"),
    (frame(b"\1\1GU  \1\0"), "a body that ends before its parts"),
    (frame(b"\1\1GU  \1\0\x08CLASS  "), "a body that ends before its parts"),
    (call(1, b"ISRT", area=b"a" * (PATH + 1)), "an area of 19 bytes"),
    (number(BODY + 1, 4) + b"\1\1GU  \0", "a body of 983083 bytes"),
    (b"\xff\xff\xff\xff", "a body of 4294967295 bytes"),
    (number(BODY, 4) + b"\1\1GU  \0", "input ends inside a frame"),
    (b"\0", "input ends inside a frame"),
]


def asked(talk):
    return b"".join(one for one, _ in talk)


def told(talk):
    return HELLO + b"".join(one for _, one in talk)


class Trial:
    """Sessions over the volume of the sample, which is a new one each time."""

    def __init__(self, program, count):
        self.place, self.count = Place(Player(program), count), count

    def begin(self):
        self.place.begin()
        write("edu.psb", PSB)

    def serve(self, given):
        return self.place.player.run("serve", "edu.dbd", "edu.psb", "edu.volume", given=given)

    def leaves(self, given, wanted, what):
        """A session over a new volume ends as it is to; the bytes of the volume that it leaves."""
        self.begin()
        done = self.serve(given)
        self.count.expect(what, done == wanted, f"{wanted} is wanted, {done} seen")
        left = read("edu.volume")
        self.place.end()
        return left

    def play_talks(self):
        """Nothing, a call byte by byte, all calls, and those at the limits of frames; and a session that goes on where another ended."""
        for what, talk in [("no call", []), ("a call byte by byte", [GET]), ("all functions", TALK), ("limits", LIMITS), ("what is foretold", AHEAD)]:
            self.leaves(asked(talk), Done(0, told(talk), b""), what)
        self.begin()
        for what, talk in [("a first session", FIRST), ("a second session", SECOND)]:
            self.count.expect(what, self.serve(asked(talk)) == Done(0, told(talk), b""))
        self.place.end()

    def play_types(self):
        """The first frame tells the TYPE of each field."""
        self.begin()
        write("kinds.dbd", KINDS)
        write("kinds.psb", KINDS_PSB)
        self.place.player.run("stream", "kinds.dbd", "/dev/null", "kinds.stream")
        self.place.player.run("reload", "kinds.dbd", "kinds.stream", "kinds.volume", "4")
        done = self.place.player.run("serve", "kinds.dbd", "kinds.psb", "kinds.volume")
        wanted = Done(0, hello([(b"KIND", 1, 0, 300, 300, FIELDS)], [(b"KINDS", b"G", 1, 2)]), b"")
        self.count.expect("TYPEs in the first frame", done == wanted, f"{wanted} is wanted, {done} seen")
        self.place.end()

    def play_rooms(self):
        """As many answers are told as there is room for; and none by a PCB that loads."""
        for length, key, many in ROOMS:
            rows = [number(row, 2) + b" " * (length - 2) for row in range(many + 2)]
            self.play_room(length, key, b"G", rows, [(foretell(255, GN), tells(*(answer(b"", 1, b"LONG", row[:key], row) for row in rows[:many])))])
        self.play_room(236, 2, b"L", [], [(foretell(255, GN), tells()), (GN, answer(b"AM"))])

    def play_room(self, length, key, options, rows, talk):
        self.begin()
        write("room.dbd", ROOM % (length, key))
        write("room.psb", ROOM_PSB % options)
        write("room.stream", b"HDUNLOAD\0\1ROOM    " + b"".join(b"\1" + counted(row) for row in rows) + b"\0" + number(len(rows), 4))
        self.place.player.run("reload", "room.dbd", "room.stream", "room.volume", "8")
        done = self.place.player.run("serve", "room.dbd", "room.psb", "room.volume", given=asked(talk))
        types = [(b"LONG", 1, 0, length, length, [(b"NUMBER", 1, key, b"C")])]
        wanted = Done(0, hello(types, [(b"ROOM", options, 1, key)]) + b"".join(one for _, one in talk), b"")
        self.count.expect(f"segments of {length} bytes, PROCOPT={options}", done == wanted, (len(done.out), len(wanted.out), done.status, done.err))
        self.place.end()

    def play_left(self):
        """The calls leave just their rows."""
        self.begin()
        self.serve(asked(TALK))
        done = self.place.player.run("unload", "edu.dbd", "edu.volume", "left.stream")
        self.count.expect("the rows that are left", done.status == 0 and read("left.stream") == LEFT, read("left.stream"))
        self.place.end()

    def play_cuts(self):
        """The calls end at each of their bytes: those that are whole are answered, and where no frame is cut the volume has what they did."""
        given = asked(TALK)
        ends = [len(asked(TALK[:calls])) for calls in range(len(TALK) + 1)]
        self.begin()
        first = read("edu.volume")
        self.place.end()
        for length in range(len(given) + 1):
            whole = sum(end <= length for end in ends) - 1
            is_cut = length > ends[whole]
            said = CUT if whole < FIRST_CHANGE else BACK + CUT
            wanted = Done(3, told(TALK[:whole]), said) if is_cut else Done(0, told(TALK[:whole]), b"")
            image = self.leaves(given[:length], wanted, f"the first {length} bytes")
            self.count.expect(f"what the first {length} bytes leave", image == first or whole and not is_cut)

    def play_units(self):
        """What was committed stays, and what was taken back is gone; the end of the input commits, and a cut frame does not."""
        for is_whole, behind in [(True, b""), (False, b"\0")]:
            self.begin()
            done = self.serve(asked(UNITS) + behind)
            wanted = Done(0, told(UNITS), b"") if is_whole else Done(3, told(UNITS), BACK + CUT)
            self.count.expect("commits and roll backs", done == wanted, f"{wanted} is wanted, {done} seen")
            self.place.player.run("unload", "edu.dbd", "edu.volume", "left.stream")
            left = read("left.stream")
            self.count.expect("the rows that commits leave", all(counted(row) in left for row in ROWS[is_whole]), left)
            self.place.end()

    def play_wrong(self):
        """A frame that is no right one ends the session, behind the answers of the calls before it."""
        for wrong, text in WRONG:
            behind = b"" if text.startswith("input") else asked([GET])
            wanted = Done(3, told([GET]), f"frame refused: {text}\n".encode())
            self.leaves(asked([GET]) + wrong + behind, wanted, f"the frame {wrong[:40]}")

    def play_refused(self):
        """Nothing is written, and nothing read, where the volume has a fault."""
        self.begin()
        image = bytearray(read("edu.volume"))
        image[177] = 1
        write("edu.volume", bytes(image))
        near, far = os.pipe()
        os.write(far, GET[0])
        os.close(far)
        done = subprocess.run([self.place.player.program, "serve", "edu.dbd", "edu.psb", "edu.volume"], stdin=near, capture_output=True, timeout=60)
        ended = (done.returncode, done.stdout, done.stderr)
        self.count.expect("a fault of the volume", ended == (1, b"", b"fault 6 at 176, other 1\n"), ended)
        self.count.expect("a call that is not read", os.read(near, 1000) == GET[0])
        os.close(near)
        self.place.end()

    def play_in_turn(self, talk, most):
        """A program sends its next request, at most so many bytes in a piece, when the last is answered: no answer waits for what follows."""
        self.begin()
        words = [self.place.player.program, "serve", "edu.dbd", "edu.psb", "edu.volume"]
        with subprocess.Popen(words, stdin=subprocess.PIPE, stdout=subprocess.PIPE, stderr=subprocess.PIPE, bufsize=0) as server:
            is_right = taken(server.stdout, len(HELLO)) == HELLO
            for given, wanted in talk:
                for start in range(0, len(given), most):
                    server.stdin.write(given[start : start + most])
                is_right = is_right and taken(server.stdout, len(wanted)) == wanted
            rest, err = server.communicate(timeout=60)
        self.count.expect(f"requests in turn, {most} bytes in a piece", is_right and (rest, err, server.returncode) == (b"", b"", 0), (rest, err))
        self.place.end()


def taken(stream, length):
    """So many bytes, or those that came before a minute without any."""
    data = b""
    while len(data) < length and select.select([stream], [], [], 60)[0]:
        part = os.read(stream.fileno(), length - len(data))
        if not part:
            break
        data += part
    return data


def main(words):
    if len(words) != 1:
        sys.exit(__doc__)
    count = Count()
    trial = Trial(words[0], count)
    try:
        trial.play_talks()
        trial.play_types()
        trial.play_rooms()
        trial.play_left()
        trial.play_cuts()
        trial.play_units()
        trial.play_wrong()
        trial.play_refused()
        for talk in [TALK, UNITS, AHEAD]:
            trial.play_in_turn(talk, 1000)
            trial.play_in_turn(talk, 1)
    finally:
        trial.place.remove()
    return count.status()


if __name__ == "__main__":
    sys.exit(main(sys.argv[1:]))
