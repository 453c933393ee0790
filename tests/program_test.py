#!/usr/bin/env python3
"""Plays hd with the words, files and standard input of many cases, and compares its status, its output, its errors and the files that it leaves.

    tests/program_test.py PROGRAM [CASE ..]     the program; parts of the names of cases, where not all are to be played

The cases lie in tests/cases/*.txt, a few by subject. A case begins with `== ` and what it shows; its lines are done from top to bottom in a folder of its
own, which has the files of cases/sample.txt, and those that stand before the first case. Lines with `#` in column 1 and empty lines say nothing.

    text NAME               makes a file of the lines `| ` that follow; `|1-17 ` is such a line for each number, written for %d, %03d and so on
    bytes NAME LENGTH       makes a file of zeros, with bytes in hexadecimal at the places that the lines `| ` name; 3.2 is byte 2 of block 3, of 128 bytes
    copy FROM TO 9=03 ..    a copy with other bytes from the places on; FROM and TO may be one file
    cut NAME LENGTH         leaves the first bytes of a file
    line NAME 3 TEXT        puts other text in place of a line
    link NAME TARGET        a symbolic link; also: folder NAME, mode NAME 0640, move FROM TO
    lock NAME alone         locks a file, as another program does, until `unlock NAME`; also: lock NAME shared
    $ hd WORD ..            plays the program. `<NAME` and `>NAME` give it other streams, `2>terminal` has a terminal for standard error
    < TEXT                  a line of its standard input
    > TEXT                  a line of its standard output; without one there is none. So `! TEXT` of standard error
    >begins TEXT            what the output begins with; also: >ends, >has, >some (anything, but not nothing), >behind (what stands behind the first frame of
                            `hd serve`). So !begins, !ends, !has, !some. An empty TEXT stands for no output
    = 3                     its status, which else is 0
    is NAME none            no file has the name; also: is NAME as OTHER, is NAME mode 0640, is NAME link, is NAME begins TEXT, is NAME ends TEXT,
                            is NAME counts 4 TEXT (it has the text four times), is NAME pairs <a </a> (it has both equally often), is NAME with 9=03 ..
                            (it has these bytes from the places on)
    is NAME text            a file has just the lines `| ` that follow
    : CELL | CELL           a line of a table: the case is played for each with its cells in place of {1} and {2}, and counts so often

In texts \\n, \\r, \\\\ and \\x41 are bytes; a line that ends with a single \\ has no line feed. What is no line of a table is a loop in this script.
"""
import fcntl
import glob
import os
import pty
import re
import shlex
import shutil
import struct
import subprocess
import sys
import tempfile

from playing import Count, Done, read, write

CASES = os.path.join(os.path.dirname(os.path.abspath(__file__)), "cases")

# The most lines of a text that are shown of a case that is wrong.
MOST_SHOWN = 20

ESCAPE = re.compile(rb"\\(x[0-9a-f]{2}|[nr\\])")
LETTERS = {b"n": b"\n", b"r": b"\r", b"\\": b"\\"}


class Malformed(Exception):
    """A case that this script does not understand."""


def unescaped(text):
    """The bytes of a text."""
    return ESCAPE.sub(lambda found: LETTERS.get(found[1]) or bytes.fromhex(found[1][1:].decode()), text.encode())


def line_of(text):
    """The bytes of a line, with the line feed at its end, unless a single backslash ends it."""
    backslashes = len(text) - len(text.rstrip("\\"))
    return unescaped(text[:-1]) if backslashes % 2 else unescaped(text) + b"\n"


def numbered(text, number):
    """A line for a number."""
    return re.sub(r"%0?\d*d", lambda form: form[0] % number, text)


def texts_of(given):
    """The lines of a text, of which some stand for one for each number."""
    for head, text in given:
        if head:
            first, last = head.split("-")
            yield from (numbered(text, number) for number in range(int(first), int(last) + 1))
        else:
            yield text


def lines_of(given):
    """The bytes that lines of a text stand for."""
    return b"".join(line_of(text) for text in texts_of(given))


def place_of(text):
    """A place, by its number or by the block of 128 bytes and the byte in it."""
    block, _, byte = text.rpartition(".")
    return 128 * int(block or 0) + int(byte)


def edited(data, edits):
    """Bytes with others from some places on."""
    data = bytearray(data)
    for edit in edits:
        place, new = edit.split("=")
        place, new = place_of(place), bytes.fromhex(new)
        data[place : place + len(new)] = new
    return bytes(data)


class Stream:
    """What a case wants of standard output, or of standard error."""

    def __init__(self):
        self.lines = b""
        self.parts = []

    def add(self, how, text):
        if how == "":
            self.lines += line_of(text)
        elif how in ("begins", "ends", "has", "some", "behind"):
            self.parts.append((how, unescaped(text)))
        else:
            raise Malformed(f">{how}")

    def is_met(self, found):
        if not self.parts:
            return found == self.lines
        tests = {
            "begins": found.startswith,
            "ends": found.endswith,
            "has": found.__contains__,
            "some": lambda _: found != b"",
            "behind": lambda text: len(found) >= 4 and found[4 + int.from_bytes(found[:4], "big") :] == text,
        }
        return all(tests[how](text) if text or how == "some" else found == b"" for how, text in self.parts)

    def __str__(self):
        return "".join(f"\n    {how} {shown(text)}" for how, text in self.parts) or shown(self.lines)


def shown(data):
    """Bytes as this script prints them."""
    if not data:
        return " nothing"
    lines = data.splitlines(keepends=True)
    return "".join("\n    " + repr(line)[2:-1] for line in lines[:MOST_SHOWN]) + ("\n    .." if lines[MOST_SHOWN:] else "")


def shown_words(words):
    return "".join(f" {repr(word)[2:-1]}" for word in words)


class Player:
    """The program, in the folder of a case."""

    def __init__(self, program):
        self.program = os.path.abspath(program)
        self.environment = dict(os.environ, LC_ALL="C.UTF-8")

    def run(self, *words, given=b"", into=None, source=None, has_terminal=False):
        """How hd ended with these words, its standard input given as bytes or by the name of a file."""
        streams = {"stdout": subprocess.PIPE, "stderr": subprocess.PIPE}
        if source:
            streams["stdin"] = os.open(source, os.O_RDONLY)
        else:
            streams["input"] = given
        if into:
            streams["stdout"] = os.open(into, os.O_WRONLY)
        if has_terminal:
            near, streams["stderr"] = pty.openpty()
        try:
            done = subprocess.run([self.program, *words], env=self.environment, timeout=60, **streams)
        except subprocess.TimeoutExpired:
            return Done("too late", b"", b"")
        finally:
            for stream in ("stdin", "stdout", "stderr"):
                if streams.get(stream, -1) >= 0:
                    os.close(streams[stream])
        return Done(done.returncode, done.stdout or b"", terminal_text(near) if has_terminal else done.stderr)


def terminal_text(near):
    """What a terminal was given."""
    text = b""
    try:
        while part := os.read(near, 65536):
            text += part
    except OSError:
        pass
    os.close(near)
    return text.replace(b"\r\n", b"\n")


class Play:
    """A play of a case: what it is given, and what is wanted of it."""

    def __init__(self, words):
        lexer = shlex.shlex(words, posix=True, punctuation_chars=False)
        lexer.whitespace_split, lexer.escape, lexer.commenters = True, "", ""
        given = list(lexer)[1:]
        streams = [word for word in given if re.match(r"2?[<>]", word)]
        self.words = [unescaped(word) for word in given if word not in streams]
        self.source = next((word[1:] for word in streams if word[0] == "<"), None)
        self.into = next((word[1:] for word in streams if word[0] == ">"), None)
        self.has_terminal = "2>terminal" in streams
        self.given = b""
        self.out, self.err, self.status = Stream(), Stream(), 0

    def told(self, player):
        """What is wrong with how the program ended; nothing where all is right."""
        done = player.run(*self.words, given=self.given, into=self.into, source=self.source, has_terminal=self.has_terminal)
        told = ""
        if done.status != self.status:
            told += f"\n  status {self.status} expected, {done.status} seen"
        for what, wanted, found in (("output", self.out, done.out), ("errors", self.err, done.err)):
            if not wanted.is_met(found):
                told += f"\n  {what} expected:{wanted}\n  {what} seen:{shown(found)}"
        return told and f"\n  $ hd{shown_words(self.words)}{told}"


class Case:
    """A case that is played in the working folder."""

    def __init__(self, player):
        self.player = player
        self.locked = {}
        self.told = ""
        self.plays = 0
        self.play = None
        self.making = None

    def run(self, lines):
        """Does the lines of a case; what is wrong."""
        try:
            for line in lines:
                self.do(line)
            self.end_all()
        finally:
            for file in self.locked.values():
                file.close()
        return self.told

    def do(self, line):
        """Does a line, once what the lines before it gathered is done."""
        if line[0] == "|":
            head, _, text = line[1:].partition(" ")
            self.making[1].append((head, text))
        elif line[0] in "<>!=":
            self.add(line)
        elif line[0] == "$":
            self.end_all()
            self.play = Play(line[1:])
            self.plays += 1
        else:
            self.end_all()
            self.file(*line.split(" "))

    def add(self, line):
        """Adds a line of input, or of what is expected, to the play."""
        how, _, text = line[1:].partition(" ")
        if line[0] == "=":
            self.play.status = int(line[1:])
        elif line[0] == "<":
            self.play.given += line_of(text)
        else:
            (self.play.out if line[0] == ">" else self.play.err).add(how, text)

    def end_all(self):
        """Plays what is gathered, or makes the file, or looks whether a file has such lines."""
        if self.play:
            self.told += self.play.told(self.player)
            self.play = None
        if self.making:
            make, given = self.making
            make(given)
            self.making = None

    def file(self, verb, name, *more):
        """Does something with a file."""
        if verb == "text":
            self.making = (lambda given: write(name, lines_of(given)), [])
        elif verb == "bytes":
            rows = lambda given: [text.replace(" ", "=", 1).replace(" ", "") for text in texts_of(given)]
            self.making = (lambda given: write(name, edited(bytes(int(more[0])), rows(given))), [])
        elif verb == "copy":
            write(more[0], edited(read(name), more[1:]))
        elif verb == "cut":
            write(name, read(name)[: int(more[0])])
        elif verb == "line":
            lines = read(name).split(b"\n")
            lines[int(more[0]) - 1] = unescaped(" ".join(more[1:]))
            write(name, b"\n".join(lines))
        elif verb == "is":
            self.judge(name, *more)
        elif verb in ("lock", "unlock"):
            file = self.locked.setdefault(name, open(name, "rb"))
            fcntl.flock(file, {(): fcntl.LOCK_UN, ("alone",): fcntl.LOCK_EX, ("shared",): fcntl.LOCK_SH}[more])
        elif verb == "mode":
            os.chmod(name, int(more[0], 8))
        elif verb == "link":
            os.symlink(more[0], name)
        elif verb == "folder":
            os.mkdir(name)
        elif verb == "move":
            os.rename(name, more[0])
        else:
            raise Malformed(verb)

    def judge(self, name, how, *more):
        """Tells of a file that is not as it should be."""
        found = read(name) if not os.path.isdir(name) else b""
        text = unescaped(" ".join(more))
        if how == "text":
            self.making = (lambda given: self.differs(name, found, lines_of(given)), [])
        elif how == "as":
            self.differs(name, found, read(more[0]))
        elif how == "none":
            self.differs(name, found, None)
        elif how == "mode":
            self.differs(name, oct(os.stat(name).st_mode & 0o7777), oct(int(more[0], 8)))
        elif how == "link":
            self.differs(name, os.path.islink(name), True)
        elif how == "counts":
            self.differs(f"{name}: {' '.join(more[1:])}", found.count(unescaped(" ".join(more[1:]))), int(more[0]))
        elif how == "pairs":
            self.differs(f"{name}: {more[1]}", found.count(unescaped(more[1])), found.count(unescaped(more[0])))
        elif how == "with":
            self.differs(name, found, edited(found, more))
        elif how in ("begins", "ends"):
            tests = {"begins": found.startswith, "ends": found.endswith}
            self.told += "" if tests[how](text) else f"\n  {name} {how} with{shown(text)}\n  but is{shown(found)}"
        else:
            raise Malformed(how)

    def differs(self, name, found, wanted):
        if found != wanted:
            self.told += f"\n  {name} should be {wanted!r}, and is {found!r}"


def cases_of(text):
    """The cases of a text: each with its name, the rows of its table, and its lines."""
    cases = [("", [], [])]
    for line in text.split("\n"):
        if line != line.rstrip():
            raise Malformed(f"blanks at the end of: {line}")
        if line.startswith("== "):
            cases.append((line[3:], [], []))
        elif line.startswith(": "):
            cases[-1][1].append(re.split(r" *\|(?: |$)", line[2:]))
        elif line and line[0] != "#":
            cases[-1][2].append(line)
    return cases


def filled(line, cells):
    """A line with the cells of a table's row."""
    return re.sub(r"\{(\d)\}", lambda found: cells[int(found[1]) - 1], line)


class Place:
    """The folders of the cases, one after the other the working folder."""

    def __init__(self, player, count):
        self.player, self.count = player, count
        self.base = tempfile.mkdtemp(prefix="hd-program-", dir="/dev/shm" if os.access("/dev/shm", os.W_OK) else None)
        self.number = 0
        with open(os.path.join(CASES, "sample.txt"), encoding="utf-8") as file:
            self.sample = cases_of(file.read())[0][2]

    def begin(self):
        """A new folder with the files of the sample."""
        self.number += 1
        folder = os.path.join(self.base, str(self.number))
        os.mkdir(folder)
        os.chdir(folder)
        Case(self.player).run(self.sample)

    def end(self):
        os.chdir(self.base)
        shutil.rmtree(os.path.join(self.base, str(self.number)))

    def play(self, name, rows, lines):
        """Plays a case, for each row of its table."""
        for cells in rows or [[]]:
            self.begin()
            case = f"{name} ({' | '.join(cells)})" if cells else name
            playing = Case(self.player)
            told = playing.run([filled(line, cells) for line in lines])
            if not playing.plays:
                raise Malformed(f"nothing is played: {name}")
            self.count.expect(case, not told, told)
            self.end()

    def remove(self):
        os.chdir("/")
        shutil.rmtree(self.base)


# What is no line of a table


def try_turned_bits(place):
    """A bit of each byte of the sample volume is turned: check and unload end alike, and what is unloaded loads again."""
    place.begin()
    sample = read("old.volume")
    for at in range(len(sample)):
        write("bit.volume", edited(sample, [f"{at}={sample[at] ^ 1:02x}"]))
        statuses = [place.player.run("check", "edu.dbd", "bit.volume").status, place.player.run("unload", "edu.dbd", "bit.volume", "bit.stream", "--no-sync").status]
        if statuses == [0, 0]:
            statuses.append(place.player.run("reload", "edu.dbd", "bit.stream", "bit.again", "16", "--no-sync").status)
        place.count.expect(f"a turned bit of byte {at}", statuses in ([0, 0, 0], [1, 1]), statuses)
    place.end()


# The records of the sample's stream begin at these bytes, and its end at the last.
RECORDS = (18, 29, 36, 45, 54, 61, 69, 80)


def try_cut_files(place):
    """The sample volume and its stream end at each of their bytes: the one is no volume, and of the other the record is named that is not whole."""
    place.begin()
    volume, stream = read("old.volume"), read("edu.stream")
    for end in range(len(volume)):
        write("cut.volume", volume[:end])
        done = place.player.run("check", "edu.dbd", "cut.volume")
        place.count.expect(f"the volume's first {end} bytes", done == (1, b"", b"fault 1 at 0, other 0\n"), done)
    for end in range(len(stream)):
        write("cut.stream", stream[:end])
        done = place.player.run("reload", "edu.dbd", "cut.stream", "cut.again", "16", "--no-sync")
        record = sum(start <= end for start in RECORDS)
        is_right = done == (1, b"", b"reload refused: U2 at record %d\n" % record) and read("cut.again") is None
        place.count.expect(f"the stream's first {end} bytes", is_right, done)
    place.end()


def blocks_for(roots):
    """The header; a data block for three courses; an index block for sixteen keys; and one above these where they are several."""
    return 1 + -(-roots // 3) + -(-roots // 16) + (roots > 16)


def try_roots(place):
    """Roots take no block that they do not need, and so many suffice; with one less the first is refused that needs it."""
    place.begin()
    for count in range(1, 41):
        records = b"".join(b"\1\0\x08%03dALGEB" % number for number in range(count))
        write("roots.stream", b"HDUNLOAD\0\1EDU     " + records + struct.pack(">BI", 0, count))
        blocks = blocks_for(count)
        first = next(roots for roots in range(1, count + 1) if blocks_for(roots) == blocks)
        made = (0, b"reloaded %d segments into %d blocks\n" % (count, blocks), b"")
        refused = (1, b"", b"reload refused: Full at record %d\n" % first)
        for largest, wanted in ((65536, made), (blocks, made), (blocks - 1, refused)):
            done = place.player.run("reload", "edu.dbd", "roots.stream", "roots.volume", str(largest), "--no-sync")
            place.count.expect(f"{count} roots in at most {largest} blocks", done == wanted, done)
    place.end()


def missing_end(source):
    """The fault of a source's first lines, without the line that ends it, at the line behind the last: M3 where the last goes on by column 72, else G2."""
    lines = source.splitlines()
    goes_on = lines and lines[-1][71:].strip() != b""
    return f"line {len(lines) + 1}, {'M3' if goes_on else 'G2'}".encode()


def try_cut_sources(place):
    """The sample's sources end at each of their bytes: they are refused, or read with all that they should have. At the ends of lines their first fault is known."""
    place.begin()
    play = place.player.run
    dbd, psb = read("edu.dbd"), read("edu.psb")
    write("third.deck", b"S 3\nL     GN\n")
    write("fourth.deck", b"S 4\n")
    wholes = 0
    for end in range(len(dbd)):
        write("cut.dbd", dbd[:end])
        done = play("show", "cut.dbd")
        is_whole = done.status == 0 and done.out.startswith(b"Database EDU, blocks of 128 bytes, 4 segment types\n")
        is_refused = done.status == 2 and done.out == b"" and re.fullmatch(rb"DBD refused: (line|type) \d+, [A-Z]\d+\n", done.err)
        if dbd[:end].endswith(b"\n") and b"DBDGEN" not in dbd[:end]:
            is_refused = is_refused and done.err == b"DBD refused: " + missing_end(dbd[:end]) + b"\n"
        wholes += is_whole
        place.count.expect(f"the DBD's first {end} bytes", is_whole or is_refused, done)
    place.count.expect("a DBD without its last bytes is read", wholes > 0)
    for end in range(len(psb)):
        write("cut.psb", psb[:end])
        done = play("deck", "edu.dbd", "cut.psb", "edu.volume", "third.deck", "--no-sync")
        is_refused = done.status == 2 and done.out == b"" and re.fullmatch(rb"PSB refused: (line|pcb) \d+, [A-Z]\d\n", done.err)
        if psb[:end].endswith(b"\n") and b"PSBGEN" not in psb[:end]:
            is_refused = is_refused and done.err == b"PSB refused: " + missing_end(psb[:end]) + b"\n"
        is_whole = done == (0, b"1 3 GN   [  ] 01 COURSE   key=101 area=101ALGEB\n", b"")
        if is_whole:
            is_whole = play("deck", "edu.dbd", "cut.psb", "edu.volume", "fourth.deck") == (2, b"", b"DECK refused: line 1, K3\n")
        place.count.expect(f"the PSB's first {end} bytes", is_whole or is_refused, done)
    place.end()


def try_cut_decks(place):
    """A deck with a line of each kind ends at each of its bytes: it is played, or refused by its last line."""
    place.begin()
    deck = b"* courses\nS 2\nL   3 GU   COURSE  (NUM     EQ101)\nC          CLASS   *-\n\nL     REPL\nD01XY\nH4142\nL     GN\n"
    gets = b"".join(b"%d 2 GU   [  ] 02 CLASS    key=10101 area=01AB\n" % number for number in (1, 2, 3))
    for end in range(len(deck) + 1):
        write("cut.deck", deck[:end])
        done = place.player.run("deck", "edu.dbd", "edu.psb", "edu.volume", "cut.deck")
        refused = b"DECK refused: line %d, K" % (deck[:end].count(b"\n") + 1)
        is_refused = done.status == 2 and done.out == b"" and done.err[:-2] == refused
        calls = 3 * deck[:end].count(b"L   3 G") + len(re.findall(rb"L     [A-Z]", deck[:end]))
        is_whole = done.status == 0 and done.out.count(b"\n") == calls and done.err == b""
        place.count.expect(f"the deck's first {end} bytes", is_whole or is_refused, done)
    last = b"4 2 REPL [DJ] 00          key= area=\n5 2 GN   [  ] 03 STUD     key=10101ADAM area=ADAM01\n"
    place.count.expect("the whole deck", done == (0, gets + last, b""), done)
    place.end()


# The words of the documents: faults of volumes, sources, decks and streams, statuses, refusals and exit statuses, some in the other case.
EXPLAINED = """1 2 3 4 5 6 7 8 9 10 11 12 13 14 15 16 17 18 19 20 M1 M2 M3 M4 G1 G2 G3 G4 G5 B1 B2 B3 B4 B5 B6 B7 B8 B9 B10 P1 P2 P3 P4 P5 P6
    K1 K2 K3 K4 K5 K6 K7 U1 U2 U3 U4 Blank ga GK gb GE GP II V1 DA DJ LB LC LD LE AC AD AH AJ AK AM full AREA Memory Device Broken
    exit0 exit1 exit2 exit3 exit4 exit64""".split()


def try_explanations(place):
    """Each word of the documents is explained in whole sentences and short lines, and is in the list of all."""
    place.begin()
    done = place.player.run("explain")
    listed = re.findall(r"^(\w+) .", done.out.decode(), re.MULTILINE)
    place.count.expect("a list of all words", done.status == 0 and done.err == b"" and done.out.count(b"\n") > 90, done)
    for word in EXPLAINED:
        done = place.player.run("explain", word)
        first, *lines = done.out.decode().split("\n")
        is_right = done.status == 0 and done.err == b"" and first.lower().startswith(word.lower() + ", ")
        place.count.expect(f"an explanation of {word}", is_right and lines[-2].endswith(".") and lines[-1] == "", done)
        place.count.expect(f"short lines for {word}", all(len(line) <= 100 for line in lines), done)
        place.count.expect(f"{word} in the list", first.split(",")[0] in listed, listed)
    place.end()


def try_lost_names(place):
    """A volume that has lost its name while a program is served is not written."""
    place.begin()
    before = read("edu.volume")
    words = [place.player.program, "serve", "edu.dbd", "edu.psb", "edu.volume"]
    with subprocess.Popen(words, stdin=subprocess.PIPE, stdout=subprocess.PIPE, stderr=subprocess.PIPE) as server:
        length = int.from_bytes(server.stdout.read(4), "big")
        server.stdout.read(length)
        os.rename("edu.volume", "stolen.volume")
        _, err = server.communicate(b"\0\0\0\x11\1\1GHU \1\0\x08BOOK    \0\0\0\7\1\1DLET\0", timeout=60)
    place.count.expect("a volume that has lost its name is not written", (server.returncode, err) == (3, b"device failed\n"), err)
    place.count.expect("what has another name is as it was", read("stolen.volume") == before and read("edu.volume") is None)
    place.end()


def main(words):
    if not words:
        sys.exit(__doc__)
    count = Count()
    place = Place(Player(words[0]), count)
    try:
        for name in sorted(glob.glob(os.path.join(CASES, "*.txt"))):
            with open(name, encoding="utf-8") as file:
                cases = cases_of(file.read())
            for case, rows, lines in cases[1:]:
                if not words[1:] or any(part in case for part in words[1:]):
                    place.play(case, rows, cases[0][2] + lines)
        if not words[1:]:
            for trial in (try_turned_bits, try_cut_files, try_roots, try_cut_sources, try_cut_decks, try_explanations, try_lost_names):
                trial(place)
    finally:
        place.remove()
    return count.status()


if __name__ == "__main__":
    sys.exit(main(sys.argv[1:]))
