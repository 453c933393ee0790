#!/usr/bin/env python3
"""Compiles the sample programs and runs them over a volume, one after the other; compares what they print, and the volume that they leave.

    dli/test.py FOLDER      FOLDER has hdrun, as `make dli` leaves it in bin; hd is looked for there too

Every program's calls are played once more as a deck over the volume that it began with, and answer the same. Then fields by their names in Python, reading ahead, programs that commit and
take back, programs that die, servers that are killed and two programs at once are tried. It wants gcc, cobc and python3, and installs nothing.
"""
import os
import random
import shlex
import shutil
import signal
import struct
import subprocess
import sys
import tempfile
import time

HERE = os.path.dirname(os.path.abspath(__file__))
sys.dont_write_bytecode = True
sys.path.insert(0, HERE)
import hd

SAMPLES = os.path.join(HERE, "samples")
PARTS = os.path.join(os.path.dirname(HERE), "examples", "parts")

tried = failed = 0


def expect(what, is_right, told=""):
    """Counts a test, and tells of one that fails."""
    global tried, failed
    tried += 1
    if not is_right:
        failed += 1
        print(f"FAILED {what}\n{told}")


def text(name):
    with open(os.path.join(SAMPLES, "expected", name), encoding="ascii") as file:
        return file.read()


class Place:
    """A folder with the programs, a DBD, PSBs and a volume."""

    def __init__(self, folder, programs):
        self.folder = folder
        self.programs = programs
        self.environment = dict(
            os.environ,
            PATH=programs + ":" + os.environ["PATH"],
            HD_PSBLIB=SAMPLES,
            HD_DBDLIB=PARTS,
            HD_PGMLIB=folder,
            DD_PARTSDD="parts.volume",
            DD_PARTSIN=os.path.join(SAMPLES, "parts.in"),
            DD_MOVES=os.path.join(SAMPLES, "moves.in"),
            PYTHONPATH=HERE,
        )

    def run(self, *words, **more):
        return subprocess.run(words, cwd=self.folder, env={**self.environment, **more}, stdout=subprocess.PIPE, stderr=subprocess.STDOUT, stdin=subprocess.DEVNULL, timeout=120, encoding="latin-1")

    def start(self, *words, **more):
        return subprocess.Popen(words, cwd=self.folder, env={**self.environment, **more}, stdout=subprocess.PIPE, stderr=subprocess.STDOUT, stdin=subprocess.DEVNULL, encoding="latin-1")

    def path(self, name):
        return os.path.join(self.folder, name)

    def compile(self):
        for name in sorted(os.listdir(SAMPLES) + os.listdir(os.path.join(HERE, "tests"))):
            source = os.path.join(SAMPLES if os.path.exists(os.path.join(SAMPLES, name)) else os.path.join(HERE, "tests"), name)
            program, _, kind = name.partition(".")
            made = None
            if kind == "cob":
                made = self.run("cobc", "-m", "-std=ibm", "-o", program + ".so", source)
            elif kind == "c":
                made = self.run("gcc", "-Wall", "-Wextra", "-I", os.path.join(HERE, "include"), "-shared", "-fPIC", "-o", program + ".so", source)
            if made:
                expect(f"{name} compiles", made.returncode == 0 and not made.stdout, made.stdout)

    def write(self, name, text):
        with open(self.path(name), "w" if isinstance(text, str) else "wb") as file:
            file.write(text)
        return self.path(name)

    def fresh(self, most="64"):
        """A volume without segments."""
        self.reload(os.path.join(PARTS, "parts.dbd"), b"PARTS", [], "parts.volume", most)

    def reload(self, dbd, database, rows, volume, most):
        """A volume with segments: of each the number of its type, from 1 in the order of the DBD, and its bytes."""
        records = b"".join(struct.pack(">BH", code, len(data)) + data for code, data in rows)
        self.write("made.stream", b"HDUNLOAD\0\1" + database.ljust(8) + records + struct.pack(">BI", 0, len(rows)))
        made = self.run("hd", "reload", dbd, "made.stream", volume, most)
        expect(f"a volume of {len(rows)} segments", made.returncode == 0, made.stdout)

    def check(self, after):
        done = self.run("hd", "check", os.path.join(PARTS, "parts.dbd"), "parts.volume")
        expect(f"the volume passes after {after}", done.returncode == 0, done.stdout)


def play(place, program, psb=None):
    """Runs a program, compares what it prints, and plays its calls as a deck over the volume as it was."""
    shutil.copy(place.path("parts.volume"), place.path("before.volume"))
    done = place.run("hdrun", "--deck", "calls.deck", "--answers", "calls.answers", f"DLI,{program},{psb or program}")
    expect(f"{program} prints what it should", done.stdout == text(program), done.stdout)
    expect(f"{program} ends with 0", done.returncode == 0, f"{done.returncode}")
    place.check(program)
    deck = place.run("hd", "deck", os.path.join(PARTS, "parts.dbd"), os.path.join(SAMPLES, (psb or program) + ".psb"), "before.volume", "calls.deck")
    with open(place.path("calls.answers"), encoding="latin-1") as file:
        answers = file.read()
    expect(f"{program}'s calls as a deck answer the same", deck.stdout == answers and answers, deck.stdout)
    with open(place.path("parts.volume"), "rb") as one, open(place.path("before.volume"), "rb") as other:
        expect(f"{program}'s calls as a deck leave the same volume", one.read() == other.read())


def samples(place):
    place.fresh()
    for program in ("PARTLOAD", "PARTRPT", "STOCKUPD", "ORDERIN", "STOCKLST"):
        play(place, program)
    rows = place.run("hd", "rows", os.path.join(PARTS, "parts.dbd"), "parts.volume")
    expect("the rows after all programs", rows.stdout == text("rows.after"), rows.stdout)
    done = place.run("python3", os.path.join(SAMPLES, "reorder.py"), os.path.join(PARTS, "parts.dbd"), os.path.join(SAMPLES, "PARTRPT.psb"), "parts.volume")
    expect("reorder.py prints what it should", done.stdout == text("reorder"), done.stdout)
    done = place.run("python3", "-c", TWICE, os.path.join(PARTS, "parts.dbd"), os.path.join(SAMPLES, "PARTRPT.psb"), "parts.volume")
    there = [line for line in rows.stdout.splitlines() if "WHOUSE=HAM " in line]
    expect("segments begin at the start each time", done.stdout == f"{len(there)} True\n" and len(there) > 1, done.stdout)


# Iterates twice over the stock of a warehouse, each time from wherever the time before has ended.
TWICE = """import hd, sys
with hd.open(*sys.argv[1:]) as session:
    first, again = ([stock.area for stock in session.pcb(1).segments(hd.ssa("STOCK", WHOUSE="HAM"))] for _ in range(2))
    print(len(first), first == again)
"""

ENTRIES = """CBLTDLI [  ] 01 PART     CG2040 Cog, 40 teeth     
PLITDLI [  ] 01 PART     CG2040 Cog, 40 teeth     
CEETDLI [  ] 01 PART     CG2040 Cog, 40 teeth     
ctdli GE, key of 0 bytes, area of 0
"""

IO_PCB = """0 [  ]
[AD]
[  ] BX1001
"""


def entries(place):
    """Each entry point, and an I/O PCB."""
    done = place.run("hdrun", "DLI,ENTRIES,PARTRPT")
    expect("the entry points answer the same", (done.returncode, done.stdout) == (0, ENTRIES), done.stdout)
    done = place.run("hdrun", "--psb", os.path.join(HERE, "tests", "IOPCB.psb"), "DLI,IOPCB")
    expect("an I/O PCB answers checkpoints", (done.returncode, done.stdout) == (0, IO_PCB), done.stdout)


# PCBs in other words, each of which is that of PARTRPT.psb
PCBS = """
* PCB TYPE=DB,DBDNAME=NONE   CMPAT=YES
         PCB   TYPE=DB,NAME=PARTS,PROCOPT=G,KEYLEN=16   DBDNAME=NONE

         PCB   TYPE=DB,PROCOPT=G,                                      X
               DBDNAME=PARTS,KEYLEN=16
"""


def sources(place):
    """PSBs in other words, and one that hd refuses: hdrun reads them as hd does."""
    with open(os.path.join(SAMPLES, "PARTRPT.psb"), encoding="ascii") as file:
        _, rest = file.read().split("\n", 1)
    as_it_is = place.run("hdrun", "DLI,PARTRPT")
    for pcb in PCBS.strip("\n").split("\n\n"):
        place.write("other.psb", f"{pcb}\n{rest}")
        done = place.run("hdrun", "--psb", "other.psb", "DLI,PARTRPT")
        expect(f"a PSB with {pcb}", (done.returncode, done.stdout) == (0, as_it_is.stdout), done.stdout)
    place.write("other.psb", f"{' ' * 80}X\n{rest}")
    done = place.run("hdrun", "--psb", "other.psb", "DLI,PARTRPT")
    expect("a PSB that is refused", done.returncode == 16 and "source refused: line 1, M1" in done.stdout, done.stdout)


def refusals(place):
    """What is said where no program is run, and by programs that call what DL/I does not answer."""
    for words, part in (
        (("hdrun",), "no program is named"),
        (("hdrun", "BMP,PARTRPT"), "DLI or DBB"),
        (("hdrun", "DLI,PARTREPORT"), "one to eight letters"),
        (("hdrun", "--volume"), "none of these"),
    ):
        done = place.run(*words)
        expect(" ".join(words), done.returncode == 64 and part in done.stdout, done.stdout)
    done = place.run("hdrun", "DLI,NOWHERE,PARTRPT")
    expect("a program that is not there", done.returncode == 16 and "NOWHERE.so" in done.stdout, done.stdout)
    done = place.run("hdrun", "DLI,PARTRPT,NOPSB")
    expect("a PSB that is not there", done.returncode == 16 and "NOPSB.psb" in done.stdout, done.stdout)
    done = place.run("hdrun", "DLI,PARTRPT", DD_PARTSDD="nowhere.volume")
    expect("a volume that is not there", done.returncode == 16 and done.stdout, done.stdout)
    done = place.run("hdrun", "DLI,PARTRPT", HD="/nowhere/hd")
    expect("no hd", done.returncode == 16 and "/nowhere/hd" in done.stdout, done.stdout)
    old = place.write("old", "#!/bin/sh\ncase \" $* \" in *' serve '*) printf '\\0\\0\\0\\6HD\\0\\2\\0\\0' ;; *) exec hd \"$@\" ;; esac\n")
    os.chmod(old, 0o755)
    done = place.run("hdrun", "DLI,PARTRPT", HD=old)
    expect("an older hd", done.returncode == 16 and "they are of different versions" in done.stdout, done.stdout)
    done = place.run("python3", "-c", "import hd; hd.open('parts.dbd', 'parts.psb', 'parts.volume')", HD=old)
    expect("an older hd, in Python", done.returncode == 1 and "hd serve is of another version than hd.py" in done.stdout, done.stdout)
    done = place.run("hdrun", "DLI,STRANGER,PARTRPT")
    expect("a PCB that is none", done.returncode == 16 and "U0476" in done.stdout, done.stdout)
    place.check("a PCB that is none")
    done = place.run("hdrun", "DLI,AIBCALL,PARTRPT")
    expect("a call by an AIB", done.returncode == 16 and "AIBTDLI is not there" in done.stdout, done.stdout)
    done = place.run("hdrun", "DLI,PARTRPT,PARTRPT,0001,Y")
    expect("words behind the PSB are told", done.returncode == 0 and "not read: 0001,Y" in done.stdout, done.stdout)


def deaths(place):
    """Programs that die in the middle, a server that is killed, two programs at once, and a full volume."""
    done = place.run("hdrun", "DLI,DYING,STOCKUPD")
    expect("a program that dies", done.returncode < 0 or done.returncode > 128, f"{done.returncode} {done.stdout}")
    time.sleep(0.5)
    place.check("a program that died")
    one = place.start("hdrun", "DLI,WAITING,PARTRPT")
    expect("a program that waits has begun", one.stdout.readline().startswith("WAITING"))
    done = place.run("hdrun", "DLI,PARTRPT")
    expect("a second program is refused", done.returncode == 16 and "volume is in use" in done.stdout, done.stdout)
    server = subprocess.run(["pgrep", "-P", str(one.pid)], stdout=subprocess.PIPE, encoding="ascii").stdout.split()
    expect("a program has a server", len(server) == 1, str(server))
    if server:
        os.kill(int(server[0]), signal.SIGKILL)
    said, _ = one.communicate(timeout=30)
    expect("a server that is killed", one.returncode == 16 and "has ended before the program" in said, f"{one.returncode} {said}")
    place.check("a server that was killed")
    place.fresh()
    full = place.run("hdrun", "DLI,FILLING,PARTLOAD")
    expect("a full volume ends the program", full.returncode == 16 and "U0844" in full.stdout, full.stdout)
    place.check("a full volume")


# What CHECKPT prints for each thing that DOING asks for, its status, and how many parts are there then.
ENDS = {
    "GOBACK": ("XRST [  ]\nCHKP [  ]\n", 0, 18),
    "STOP": ("XRST [  ]\nCHKP [  ]\n", 0, 18),
    "STATS": ("XRST [  ]\nCHKP [  ]\nSTAT [AD]\n", 0, 18),
    "ROLB": ("XRST [  ]\nCHKP [  ]\nROLB [  ]\nGN [  ] 000001          \n", 0, 17),
    "ROLL": ("XRST [  ]\nCHKP [  ]\n", 16, 15),
    "ABEND": ("XRST [  ]\nCHKP [  ]\n", 1, 15),
}


def parts_in(place):
    """The numbers of the parts of the volume, once no server has it any more."""
    for _ in range(100):
        rows = place.run("hd", "rows", "--explain", "never", os.path.join(PARTS, "parts.dbd"), "parts.volume")
        if "volume is in use" not in rows.stdout:
            break
        time.sleep(0.05)
    return [line.split("PARTNO=")[1][:6] for line in rows.stdout.splitlines() if "PARTNO=" in line]


def numbers(count):
    return [f"{number:06}" for number in range(1, count + 1)]


def commits(place):
    """Programs that take checkpoints: what lasts is what they committed, however they end."""
    psb = os.path.join(HERE, "tests", "CHECKPT.psb")
    for doing, (printed, status, count) in ENDS.items():
        place.fresh()
        done = place.run("hdrun", "--psb", psb, "DLI,CHECKPT", DOING=doing)
        said = "".join(line for line in done.stdout.splitlines(True) if line[4:5] == " " and line[5:6] == "[" or line.startswith("GN"))
        expect(f"{doing} prints what it should", said == printed, done.stdout)
        expect(f"{doing} ends with its status", done.returncode == status, f"{done.returncode} {done.stdout}")
        expect(f"{doing} leaves what was committed", parts_in(place) == numbers(count), done.stdout)
        expect(f"{doing} is told", (count < 18) == ("taken back" in done.stdout) or doing == "ROLB", done.stdout)
    random.seed(1)
    killed(place, "COBOL", 100, lambda: place.start("hdrun", "--psb", psb, "DLI,CHECKPT", DOING="RUN"))
    words = (os.path.join(PARTS, "parts.dbd"), psb, "parts.volume")
    killed(place, "Python", 50, lambda: place.start("python3", "-u", "-c", RUN, *words))
    place.fresh()
    done = place.run("python3", "-c", TAKEN_BACK, *words)
    expect("Python takes back", (done.returncode, done.stdout.splitlines()[:2]) == (1, ["000001", "back"]), done.stdout)
    expect("Python leaves what was committed", parts_in(place) == numbers(12), done.stdout)


def killed(place, language, times, start):
    """A program that commits every ten parts, and is killed at a random moment, or its server is, or it is interrupted: what is left is that of its last commit,
    or of the one that was under way."""
    place.fresh(most="4096")
    for turn in range(times):
        place.fresh(most="4096")
        program = start()
        told = 0
        for _ in range(random.randrange(8)):
            line = program.stdout.readline()
            told = int(line[:6]) if line[:6].isdigit() else told
        time.sleep(random.random() * 0.01)
        servers = subprocess.run(["pgrep", "-P", str(program.pid), "-f", " serve "], stdout=subprocess.PIPE, encoding="ascii").stdout.split()
        if turn % 3 == 1 and servers:
            os.kill(int(servers[0]), signal.SIGKILL)
        else:
            program.send_signal(signal.SIGINT if turn % 3 == 2 else signal.SIGKILL)
        # what readline has read ahead is in the stream's own buffer, which communicate passes over
        said = program.stdout.read()
        program.wait(timeout=60)
        told = max([told] + [int(line[:6]) for line in said.splitlines() if line[:6].isdigit()])
        there = parts_in(place)
        expect(f"{language}, killed: {told} were told, {len(there)} are there", there in (numbers(told), numbers(told + 10)), said)
        place.check(f"{language}, killed")


# Inserts parts, and commits every ten.
RUN = """import hd, sys
session = hd.open(*sys.argv[1:])
for number in range(1, 900001):
    session.pcb(1).isrt(hd.ssa("PART"), area=b"%06d" % number + b" " * 26)
    if number % 10 == 0:
        session.commit()
        print(f"{number:06}")
"""

# Commits, takes back, and leaves by an exception.
TAKEN_BACK = """import hd, sys
with hd.open(*sys.argv[1:]) as session:
    pcb = session.pcb(1)
    insert = lambda number: pcb.isrt(hd.ssa("PART"), area=b"%06d" % number + b" " * 26)
    for number in range(1, 11):
        insert(number)
    session.commit()
    for number in range(11, 15):
        insert(number)
    session.rollback()
    print(pcb.gn()["PARTNO"])
    for number in range(11, 13):
        insert(number)
    session.commit()
    insert(13)
    print("back", flush=True)
    raise ValueError("an exception leaves the with")
"""


KINDS_DBD = """         DBD   NAME=KINDS,ACCESS=(HIDAM,VSAM)
         DATASET DD1=KINDSDD,SIZE=512
         SEGM  NAME=KIND,PARENT=0,BYTES=21
         FIELD NAME=(NUMBER,SEQ,U),BYTES=2,START=1,TYPE=H
         FIELD NAME=TEXT,BYTES=4,START=3,TYPE=C
         FIELD NAME=BITS,BYTES=3,START=7,TYPE=X
         FIELD NAME=AMOUNT,BYTES=3,START=10,TYPE=P
         FIELD NAME=SMALL,BYTES=1,START=13,TYPE=P
         FIELD NAME=WHOLE,BYTES=4,START=14,TYPE=F
         FIELD NAME=HALF,BYTES=2,START=18,TYPE=H
         FIELD NAME=PLAIN,BYTES=2,START=20
         DBDGEN
"""

KINDS_PSB = """         PCB   TYPE=DB,DBDNAME=KINDS,PROCOPT=A
         SENSEG NAME=KIND,PARENT=0
         PSBGEN LANG=COBOL,PSBNAME=KINDSP
"""

# The bytes of a segment behind its number, with all fields blank or 0; and the place in a segment at which each field begins
KIND = b"    " + bytes(3) + b"\0\0\x0c" + b"\x0c" + bytes(4) + bytes(2) + b"  "
BEGIN = {"TEXT": 2, "BITS": 6, "AMOUNT": 9, "SMALL": 12, "WHOLE": 13, "HALF": 17, "PLAIN": 19}

# A field, its bytes and its value: read and written; only read, since for the value other bytes are written; only written, since for the bytes another value is read. A
# packed decimal has a digit in each half of a byte, and in the last one a sign: C, A, E and F for plus, D and B for minus. A binary number is in two's complement.
VALUES = r"""
TEXT    both    41422020    'AB'
TEXT    both    41424344    'ABCD'
TEXT    both    20204120    '  A'
TEXT    both    20202020    ''
TEXT    both    c4d62020    'ÄÖ'
TEXT    both    41000000    'A\0\0\0'
TEXT    write   41422020    b'AB'
TEXT    write   41422020    'AB '
BITS    both    0020ff      b'\0 \xff'
BITS    both    414220      b'AB '
BITS    write   414220      'AB'
BITS    write   ff2020      b'\xff'
PLAIN   both    4120        'A'
AMOUNT  both    00000c      0
AMOUNT  both    00001c      1
AMOUNT  both    00001d      -1
AMOUNT  both    12345c      12345
AMOUNT  both    12345d      -12345
AMOUNT  both    99999c      99999
AMOUNT  both    99999d      -99999
AMOUNT  read    00027a      27
AMOUNT  read    00027b      -27
AMOUNT  read    00027e      27
AMOUNT  read    00027f      27
AMOUNT  read    00000d      0
SMALL   both    9c          9
SMALL   both    9d          -9
WHOLE   both    00000001    1
WHOLE   both    00000100    256
WHOLE   both    7fffffff    2147483647
WHOLE   both    80000000    -2147483648
WHOLE   both    ffffffff    -1
WHOLE   both    fffffefe    -258
HALF    both    0102        258
HALF    both    7fff        32767
HALF    both    8000        -32768
HALF    both    ffff        -1
"""

# Bytes that are no value of their field, and values that a field does not take, with the error that is raised and what it says
NO_VALUES = r"""
AMOUNT  read    202020      ValueError  AMOUNT holds no packed number of 3 bytes: b'   '
AMOUNT  read    000000      ValueError  AMOUNT holds no packed number of 3 bytes: b'\x00\x00\x00'
AMOUNT  read    000279      ValueError  AMOUNT holds no packed number of 3 bytes: b'\x00\x02y'
AMOUNT  read    0a027c      ValueError  AMOUNT holds no packed number of 3 bytes: b'\n\x02|'
AMOUNT  read    f0f2c7      ValueError  AMOUNT holds no packed number of 3 bytes: b'\xf0\xf2\xc7'
SMALL   read    cc          ValueError  SMALL holds no packed number of 1 bytes: b'\xcc'
AMOUNT  write   100000      ValueError  AMOUNT takes -99999 to 99999
AMOUNT  write   -100000     ValueError  AMOUNT takes -99999 to 99999
SMALL   write   10          ValueError  SMALL takes -9 to 9
WHOLE   write   2147483648  ValueError  WHOLE takes -2147483648 to 2147483647
WHOLE   write   -2147483649 ValueError  WHOLE takes -2147483648 to 2147483647
HALF    write   32768       ValueError  HALF takes -32768 to 32767
HALF    write   -32769      ValueError  HALF takes -32768 to 32767
TEXT    write   'ABCDE'     ValueError  TEXT has 4 bytes, and the value 5
BITS    write   b'ABCD'     ValueError  BITS has 3 bytes, and the value 4
TEXT    write   5           TypeError   TEXT takes text or bytes, TYPE=C, and not 5
BITS    write   5           TypeError   BITS takes text or bytes, TYPE=X, and not 5
AMOUNT  write   '27'        TypeError   AMOUNT takes a number, TYPE=P, and not '27'
WHOLE   write   2.5         TypeError   WHOLE takes a number, TYPE=F, and not 2.5
HALF    write   b'ab'       TypeError   HALF takes a number, TYPE=H, and not b'ab'
NOWHERE write   5           KeyError    NOWHERE
"""


def table(text):
    """The lines of a table, in four columns."""
    return [line.split(None, 3) for line in text.split("\n") if line]


def raised(call):
    """The error that a call raises, with what it says."""
    try:
        return f"no error, but {call()!r}"
    except (ValueError, TypeError, KeyError, hd.Refused) as error:
        return f"{type(error).__name__} {error}"


class Row:
    """A segment KIND, whose bytes are stored and read again."""

    def __init__(self, session, number):
        self.pcb, self.number = session.pcb(1), number.to_bytes(2, "big", signed=True)
        self.this = hd.ssa("KIND", NUMBER=session.types[0].fields["NUMBER"].bytes(number))
        self.blank = self.number + KIND
        self.pcb.isrt(hd.ssa("KIND"), area=self.blank)

    def area(self, field, data):
        """The blank segment with these bytes in a field."""
        begin = BEGIN[field]
        return self.blank[:begin] + data + self.blank[begin + len(data) :]

    def stored(self, area):
        self.pcb.ghu(self.this)
        self.pcb.repl(area)
        return self.pcb.ghu(self.this)


def fields(place):
    """Fields by their names in Python, by the TYPE of each: what is read of bytes, and what is written for a value."""
    place.write("kinds.dbd", KINDS_DBD)
    place.write("kinds.psb", KINDS_PSB)
    place.reload("kinds.dbd", b"KINDS", [], "kinds.volume", "64")
    words = [place.path(name) for name in ("kinds.dbd", "kinds.psb", "kinds.volume")]
    with hd.open(*words, program=os.path.join(place.programs, "hd")) as session:
        told = list(session.types[0].fields.values())
        expect("each TYPE is told", "".join(field.type for field in told) == "HCXPPFHC" and told[5] == ("WHOLE", 14, 4, "F"), told)
        lines = table(VALUES)
        for number, (field, ways, data, value) in enumerate(lines, -len(lines) // 2):
            row, value = Row(session, number), eval(value)
            area = row.area(field, bytes.fromhex(data))
            expect(f"the key {number}", row.stored(row.blank)["NUMBER"] == number)
            if ways != "write":
                found = row.stored(area)[field]
                expect(f"{field} of {data}", type(found) is type(value) and found == value, f"{value!r} is wanted, {found!r} seen")
            if ways != "read":
                found = row.stored(row.stored(row.blank).changed(**{field: value})).area
                expect(f"{field} with {value!r}", found == area, f"{area!r} is wanted, {found!r} seen")
        row = Row(session, 1000)
        for field, way, given, error in table(NO_VALUES):
            if way == "read":
                said = raised(lambda: row.stored(row.area(field, bytes.fromhex(given)))[field])
            else:
                said = raised(lambda: row.stored(row.blank).changed(**{field: eval(given)}))
            kind, words = error.split(None, 1)
            expect(f"{way} {given} in {field}", said.startswith(kind) and words in said, said)
        expect("a number as an argument", raised(lambda: hd.ssa("KIND", NUMBER=5)).startswith("TypeError text or bytes are wanted, and not 5"))
        replaced = row.pcb.repl(row.blank)
        expect("an answer without an area", raised(lambda: replaced["WHOLE"]) == "ValueError WHOLE holds no binary number of 4 bytes: b''", replaced)
        expect("the same, changed", raised(lambda: replaced.changed(WHOLE=1)) == "ValueError WHOLE ends at byte 17, and the area has 0", replaced)
        both = row.stored(row.stored(row.blank).changed(AMOUNT=-7, TEXT="neg"))
        expect("two fields at once", (both["AMOUNT"], both["TEXT"], both["WHOLE"]) == (-7, "neg", 0), both)
    expect("the volume of fields passes", place.run("hd", "check", "kinds.dbd", "kinds.volume").returncode == 0)


class Single(hd.Session):
    """A session that reads nothing ahead: each call is a frame, and each answer is one."""

    def __init__(self, *words, **more):
        super().__init__(*words, **more)
        self._ahead.answer = self._single

    def _single(self, call, _):
        self._send(call)
        return self._receive()


# Scripts: a PCB, 0 for the I/O PCB, a function, an area and arguments
CHKP, ROLB = (0, "CHKP", "RUNS0001"), (0, "ROLB", "")


def played(session, script):
    """What a script is answered, in the lines of `hd deck` without what stands in front."""
    lines = []
    for pcb, function, area, *ssas in script:
        if not pcb:
            (session.rollback if function == "ROLB" else session.commit)()
            lines.append(f"{function} [  ]")
            continue
        answer = session.call(function, pcb, *ssas, area=area)
        key, given = answer.key.decode("latin-1"), answer.area.decode("latin-1")
        lines.append(f"[{answer.status}] {answer.level:02} {answer.segment:<8} key={key} area={given}")
    return lines


class Base:
    """A database over which scripts are played: by C, by Python, and by Python with each call by itself. The volume is a new one each time."""

    def __init__(self, place, dbd, psb, database, rows, most="4096"):
        self.place, self.dbd, self.psb, self.database, self.rows, self.most = place, dbd, psb, database, rows, most

    def begin(self):
        self.place.reload(self.dbd, self.database, self.rows, "runs.volume", self.most)

    def left(self):
        return self.place.run("hd", "rows", self.dbd, "runs.volume").stdout

    def python(self, script, make=hd.Session, program=None):
        """What a script is answered in Python, and the rows that it leaves."""
        self.begin()
        with make(self.dbd, self.psb, self.place.path("runs.volume"), program=program or os.path.join(self.place.programs, "hd")) as session:
            lines = played(session, script)
        return lines, self.left()

    def c(self, script, program="hd"):
        """The end of the program in C that plays a script."""
        self.begin()
        path = self.place.write("runs.script", "".join("\t".join([str(pcb), f"{function:<4}", *more]) + "\n" for pcb, function, *more in script))
        words = ["--dbd", self.dbd, "--psb", self.psb, "--volume", "runs.volume", "--deck", "runs.deck", "--answers", "runs.answers"]
        return self.place.run("hdrun", *words, "DLI,RUNS", SCRIPT=path, HD=program)

    def compare(self, what, script):
        """A script is answered the same, and leaves the same, whether or not its calls are read ahead; and so say the traces."""
        wanted, left = self.python(script, Single)
        found, python_left = self.python(script)
        expect(f"{what}: the answers in Python", found == wanted, differing(found, wanted))
        expect(f"{what}: the rows that Python leaves", python_left == left)
        done = self.c(script)
        expect(f"{what}: the answers in C", (done.returncode, done.stdout.splitlines()) == (0, wanted), f"{done.returncode} {differing(done.stdout.splitlines(), wanted)}")
        expect(f"{what}: the rows that C leaves", self.left() == left)
        calls = [(made, line) for made, line in zip(script, wanted) if made[0]]
        traced = [f"{number} {pcb} {function:<4} {line}" for number, ((pcb, function, *_), line) in enumerate(calls, 1)]
        with open(self.place.path("runs.answers"), encoding="latin-1") as file:
            answers = file.read()
        expect(f"{what}: the trace of the answers", answers.splitlines() == traced, differing(answers.splitlines(), traced))
        if ROLB not in script:
            self.begin()
            deck = self.place.run("hd", "deck", self.dbd, self.psb, "runs.volume", "runs.deck")
            expect(f"{what}: the trace as a deck", deck.stdout == answers and self.left() == left, differing(deck.stdout.splitlines(), traced))

    def pieces(self, what, script, wanted):
        """What Python and C write for a script, each piece in one write."""
        program = relay(self.place)
        self.python(script, program=program)
        found = {"Python": written(self.place)}
        self.c(script, program)
        found["C"] = written(self.place)
        for language, pieces in found.items():
            expect(f"{what}: what {language} writes", pieces == wanted, differing([piece.hex() for piece in pieces], [piece.hex() for piece in wanted]))


def differing(found, wanted):
    """The first line that differs."""
    place = next((place for place, (one, other) in enumerate(zip(found, wanted)) if one != other), min(len(found), len(wanted)))
    one, other = (lines[place][:300] if place < len(lines) else "none" for lines in (wanted, found))
    return f"line {place + 1} of {len(wanted)}: {one} is wanted, {other} seen"


def relay(place, refused=0):
    """A program hd that writes down what it reads, and refuses a kind of frame."""
    words = ["exec", "python3", os.path.join(HERE, "tests", "relay.py"), os.path.join(place.programs, "hd"), place.path("pieces"), str(refused)]
    path = place.write("relay", f"#!/bin/sh\n{shlex.join(words)} \"$@\"\n")
    os.chmod(path, 0o755)
    return path


def written(place):
    with open(place.path("pieces"), encoding="ascii") as file:
        return [bytes.fromhex(line) for line in file]


def frame(*parts):
    body = b"".join(parts)
    return struct.pack(">I", len(body)) + body


def call(pcb, function, area, *ssas):
    """The body of a call's frame."""
    arguments = b"".join(struct.pack(">H", len(it)) + it for it in map(str.encode, ssas))
    return struct.pack(">BB4sB", 1, pcb, function.ljust(4).encode(), len(ssas)) + arguments + area.encode()


def made(count, one):
    return frame(b"\4", bytes([count]), call(*one))


def foretold(count, one):
    return frame(b"\5", bytes([count]), call(*one))


def single(*one):
    return frame(call(*one))


COMMIT, ROLL_BACK = frame(b"\2"), frame(b"\3")

GN, GNP, OTHER = (1, "GN", ""), (1, "GNP", ""), (2, "GN", "")
PART, ORDER, ANY = (1, "GN", "", "PART    "), (2, "GNP", "", "ORDER   *-"), (1, "GN", "", "PART    (PARTNO  >=000000)")
HOLD, REPLACE = (1, "GHU", "", "PART    "), (1, "REPL", f"{'000000A part':<32}")

# Scripts over a thousand parts, and what is written for them
PIECES = [
    # 64 calls go to the first ones, and of the others 63 each to fourteen, and 54 to the last
    (
        "a thousand GN",
        [GN] * 1000,
        [single(*GN), single(*GN), foretold(2, GN), *[made(count, GN) + foretold(2 * count, GN) for count in (2, 4, 8, 16)]]
        + [made(32, GN) + foretold(63, GN), *[made(63, GN) + foretold(63, GN)] * 14, made(54, GN) + COMMIT],
    ),
    (
        "other calls between",
        [*[GN] * 5, HOLD, REPLACE, *[GN] * 3, *[OTHER] * 4, *[GN] * 4, CHKP, *[GN] * 3, ROLB, *[GN] * 3, *[PART] * 3, GNP, *[ORDER] * 4],
        [single(*GN), single(*GN), foretold(2, GN), made(2, GN) + foretold(4, GN), made(1, GN) + single(*HOLD), single(*REPLACE)]
        + [single(*GN), single(*GN), foretold(2, GN), made(1, GN) + single(*OTHER), single(*OTHER), foretold(2, OTHER)]
        + [made(2, OTHER) + single(*GN), single(*GN), foretold(2, GN), made(2, GN) + COMMIT]
        + [single(*GN), single(*GN), foretold(2, GN), made(1, GN) + ROLL_BACK, single(*GN), single(*GN), foretold(2, GN)]
        + [made(1, GN) + single(*PART), single(*PART), foretold(2, PART), made(1, PART) + single(*GNP)]
        # (these are answered GP, since their PCB has no parent: each begins a run, and ends it)
        + [*[single(*ORDER)] * 4, COMMIT],
    ),
    ("what is not read ahead", [*[ANY] * 5, *[(1, "GHN", "")] * 5], [*[single(*ANY)] * 5, *[single(1, "GHN", "")] * 5, COMMIT]),
]

# The same over five parts, where the run ends by GB and begins anew; and over one, where a GB in each second place lets none begin
FIVE = (
    [GN] * 12,
    [single(*GN), single(*GN), foretold(2, GN), made(2, GN) + foretold(4, GN), made(2, GN) + single(*GN), single(*GN), foretold(2, GN), made(2, GN) + foretold(4, GN), made(2, GN) + COMMIT],
)
ONE = ([GN] * 6, [*[single(*GN)] * 6, COMMIT])


def held(pcb, number):
    return pcb, "GHU", "", f"PART    (PARTNO  EQ{number:06})"


# What other calls change in the midst of runs, over a thousand parts, and the numbers of the parts that the GN give: nothing is handed out that was foretold before
CHANGES = [
    *[GN] * 5,
    *[held(2, 5), (2, "DLET", "")],
    *[GN] * 5,
    *[held(2, 11), (2, "REPL", f"{'000011new':<32}"), (2, "ISRT", f"{'000005new':<32}", "PART    ")],
    *[GN] * 6,
    ROLB,
    *[GN] * 7,
    (1, "ISRT", f"{'000007new':<32}", "PART    "),
    *[GN] * 4,
    held(1, 3),
    *[GN] * 4,
    *[(1, "REPL", f"{'000003new':<32}"), held(1, 998)],
    *[GN] * 5,
]
CHANGED = [*range(5), *range(6, 17), *range(7), *range(7, 11), *range(4, 8), 999, None, *range(3)]

BIG_DBD = """         DBD   NAME=BIG,ACCESS=(HIDAM,VSAM)
         DATASET DD1=BIGDD,SIZE=32768
         SEGM  NAME=PART,PARENT=0,BYTES=BIGGEST
         FIELD NAME=(PARTNO,SEQ,U),BYTES=255,START=1
         DBDGEN
"""

BIG_PSB = """         PCB   TYPE=DB,DBDNAME=BIG,PROCOPT=A
         SENSEG NAME=PART,PARENT=0
         PSBGEN LANG=C,PSBNAME=RUNS,CMPAT=YES
"""

# How long segments are, how many there are, and what is written for some GN. Of 32,600 bytes none is foretold, for with its key and its length the answer has more than
# 32,768; of 12,000 there is room for two.
BIG = [
    (32600, 9, 6, [single(*GN), single(*GN), foretold(2, GN), single(*GN), single(*GN), foretold(2, GN), single(*GN), single(*GN), COMMIT]),
    (
        12000,
        9,
        12,
        [single(*GN), single(*GN), foretold(2, GN), *[made(2, GN) + foretold(count, GN) for count in (4, 8, 16)], made(2, GN) + single(*GN), single(*GN), COMMIT],
    ),
]


# The arguments of runs, of which some are of no type, or ill formed; the last one is qualified
ARGUMENTS = ("", "", "", "PART    ", "STOCK   ", "SUPPLIER ", "ORDER   ", "ORDER   *D ", "ORDER   *F ", "SUPPLIER*-L", "NOWHERE ", "PART", "ORDER   (QTY     EQ000020)")


def random_script(chance, length, parts):
    """Runs of GN and GNP by two PCBs, of which some go on to the end and behind it, and between them other calls, commits and roll backs."""

    def run():
        pcb, function, argument = chance.choice((1, 2)), chance.choice(("GN", "GNP")), chance.choice(ARGUMENTS)
        first = [(pcb, "GU", "", f"PART    (PARTNO  >={chance.randrange(parts):06})")] * chance.randrange(2)
        return first + [(pcb, function, "", *[argument][: len(argument)])] * chance.choice((1, 2, 3, 4, 5, 6, 7, 8, 10, 12, 20, 40, 100)[: 10 if function == "GNP" else 13])

    def between():
        pcb, number, colour = chance.choice((1, 2)), f"{chance.randrange(parts):06}", chance.choice(("blue", "red", "grey"))
        this, house, supplier = f"PART    (PARTNO  EQ{number})", chance.choice(("BER", "HAM", "MUC")), f"S{chance.randrange(100):03}"
        return chance.choice(
            [
                [CHKP],
                [ROLB],
                [(pcb, "GU", "", this)],
                [(pcb, "GU", "", this, "SUPPLIER ")],
                [(pcb, "GHN", "")],
                [(pcb, "DLET", "")],
                [(pcb, "GHU", "", this), (pcb, "REPL", f"{number}{'Another':<18}{colour:<8}")],
                [(pcb, "GHU", "", this), (pcb, "DLET", "")],
                [(pcb, "GHU", "", this, "SUPPLIER "), (pcb, "DLET", "")],
                [(pcb, "GHN", "", "ORDER   "), (pcb, "DLET", "")],
                [(pcb, "ISRT", f"{number}{'New':<18}{colour:<8}", "PART    ")],
                [(1, "ISRT", f"{house}000100", this, "STOCK   ")],
                [(pcb, "ISRT", f"{supplier}{'Supplier':<16}00000100", this, "SUPPLIER ")],
            ]
        )

    script = []
    while len(script) < length:
        script += run() if chance.randrange(2) else between()
    return script


def parts_with_all(count):
    """Parts, with stock, suppliers and orders below some."""
    for number in range(count):
        yield 1, f"{number:06}{'A part':<18}{'none':<8}".encode()
        for house in (b"BER", b"HAM", b"MUC")[: number % 4]:
            yield 2, house + b"000010"
        for supplier in range(number % 6):
            yield 3, f"S{supplier:03}{'Supplier':<16}00000001".encode()
            for order in range((number + supplier) % 5):
                yield 4, f"{order:06}000020".encode()


def ahead(place):
    """Reading ahead: answers, traces and rows are those of calls one by one, and the frames are what the rules say."""
    psb, dbd = os.path.join(HERE, "tests", "RUNS.psb"), os.path.join(PARTS, "parts.dbd")
    thousand, five, one = (Base(place, dbd, psb, b"PARTS", [(1, f"{number:06}{'':<26}".encode()) for number in range(count)]) for count in (1000, 5, 1))
    for what, script, wanted in PIECES:
        thousand.compare(what, script)
        thousand.pieces(what, script, wanted)
    thousand.compare("changes between", CHANGES)
    found = [line for (pcb, function, *_), line in zip(CHANGES, thousand.python(CHANGES)[0]) if function == "GN"]
    parts = [int(line.split("key=")[1][:6]) if "PART" in line else None for line in found]
    expect("the parts that the GN give", parts == CHANGED and [line for line in found if "new" in line] == [f"[  ] 01 PART     key=000011 area={'000011new':<32}"], found)
    for what, base, (script, wanted) in (("five parts", five, FIVE), ("one part", one, ONE)):
        base.compare(what, script)
        base.pieces(what, script, wanted)
    all_types = Base(place, dbd, psb, b"PARTS", list(parts_with_all(60)))
    for seed in range(12):
        script = random_script(random.Random(f"runs {seed}"), 2000, 70)
        all_types.compare(f"random runs {seed}", [line for line in script if seed % 2 or line != ROLB])
    psb = place.write("big.psb", BIG_PSB)
    for length, count, calls, wanted in BIG:
        dbd = place.write("big.dbd", BIG_DBD.replace("BIGGEST", str(length)))
        big = Base(place, dbd, psb, b"BIG", [(1, f"{number:06}".ljust(length).encode()) for number in range(count)], "64")
        big.compare(f"segments of {length} bytes", [GN] * calls)
        big.pieces(f"segments of {length} bytes", [GN] * calls, wanted)
    refused_ahead(place, thousand)


def refused_ahead(place, base):
    """An access that fails while calls are foretold, or made behind that, is told as that of the call that follows, or of the commit at the end."""
    for what, kind, count, last in (("foretold", 5, 3, "3 1 GN   [!!] Device"), ("made", 4, 5, "5 1 GN   [!!] Device"), ("made at the end", 4, 3, "3 1 GN   [  ] 01 PART ")):
        program = relay(place, kind)
        expect(f"calls that can't be {what}, in Python", raised(lambda: base.python([GN] * count, program=program)) == "Refused an access of the volume failed")
        done = base.c([GN] * count, program)
        expect(f"calls that can't be {what}, in C", done.returncode == 16 and "hdrun: an access of the volume failed" in done.stdout, f"{done.returncode} {done.stdout}")
        with open(place.path("runs.answers"), encoding="ascii") as file:
            lines = file.read().splitlines()
        expect(f"calls that can't be {what}, in the trace", len(lines) == count and lines[-1].startswith(last), lines)


def full_disk(place):
    """A volume on a disk that is full before the program ends; root alone can make such a disk."""
    disk = place.path("disk")
    os.mkdir(disk)
    if subprocess.run(["mount", "-t", "tmpfs", "-o", "size=16k", "tmpfs", disk], stderr=subprocess.DEVNULL).returncode:
        print("(a full disk is not tried: only root can make one)")
        return
    try:
        place.fresh(most="65536")
        shutil.copy(place.path("parts.volume"), os.path.join(disk, "parts.volume"))
        done = place.run("hdrun", "--volume", "disk/parts.volume", "DLI,FILLING,PARTLOAD")
        expect("a full disk ends the program", done.returncode == 16 and "hd serve ended with status 3" in done.stdout, f"{done.returncode} {done.stdout}")
        check = place.run("hd", "check", os.path.join(PARTS, "parts.dbd"), "disk/parts.volume")
        expect("what is left on a full disk is judged", check.returncode in (0, 1), check.stdout)
    finally:
        subprocess.run(["umount", disk], check=True)


def main(words):
    programs = os.path.abspath(words[0] if words else "bin")
    lacking = [it for it in ("gcc", "cobc", "python3") if not shutil.which(it)]
    if lacking:
        print(f"dli/test.py wants {', '.join(lacking)}: the Debian packages gcc, gnucobol and python3 have them")
        return 1
    with tempfile.TemporaryDirectory() as folder:
        place = Place(folder, programs)
        place.compile()
        samples(place)
        fields(place)
        ahead(place)
        entries(place)
        sources(place)
        refusals(place)
        commits(place)
        deaths(place)
        full_disk(place)
    print(f"{tried - failed} passed, {failed} failed")
    return 1 if failed else 0


if __name__ == "__main__":
    sys.exit(main(sys.argv[1:]))
