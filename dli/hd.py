"""DL/I for Python over hd.

    import hd

    with hd.open("parts.dbd", "parts.psb", "parts.volume") as session:
        pcb = session.pcb(1)
        for part in pcb.segments("PART"):
            print(part.key.decode(), part.area)
        pcb.ghu(hd.ssa("PART", PARTNO="CG2040"), hd.ssa("STOCK", WHOUSE="HAM"))
        pcb.repl("HAM000027")

A call answers an Answer: its status (two letters, "  " where all is well), level, segment, key and area. Statuses are no exceptions, for programs
decide by them; Refused is raised where the database can't answer at all, and Ended where `hd serve` has ended.

What the calls changed lasts from a commit on: session.commit(), session.close(), and the end of `with`. session.rollback() goes back to the last one, and so
does a `with` that an exception leaves, and a program that is killed.

The fields of a segment have names, and a value is what its TYPE in the DBD says: part["COLOUR"] is text where that is C, and stock["ONHAND"] a number where it is
P, F or H; part.changed(COLOUR="blue") is the area with another value. Field says which values there are.
"""
import contextlib
import os
import struct
import subprocess
from collections import namedtuple

__all__ = ["open", "ssa", "Session", "Pcb", "Answer", "Field", "SegmentType", "Refused", "Ended"]


class Field(namedtuple("Field", "name start length type")):
    """A field: its name, the place of its first byte in the segment, from 1, its length in bytes, and the letter of its TYPE.

    C: text, or bytes, of at most its length; read as text without the blanks at its end.
    X: bytes, or text, of at most its length; read as all its bytes.
    P: a number in packed decimal: a digit in each half of a byte but the last, which is the sign.
    F, H: a number in binary, signed, of the field's length, the greatest byte first.

    Text is in Latin-1. A value of C or X that is shorter than its field is padded with blanks.
    """

    def value(self, data):
        """The value that a field's bytes are; ValueError where they are no number of its TYPE."""
        if self.type == "C":
            return data.decode("latin-1").rstrip(" ")
        if self.type == "X":
            return data
        number = None
        if len(data) == self.length:
            number = _packed_number(data) if self.type == "P" else int.from_bytes(data, "big", signed=True)
        if number is None:
            raise ValueError(f"{self.name} holds no {self._said()}: {data!r}")
        return number

    def bytes(self, value):
        """A field's bytes for a value, as an argument of a call wants them too; ValueError where it has no room in the field."""
        if isinstance(value, int) == (self.type in "CX"):
            raise TypeError(f"{self.name} takes {'text or bytes' if self.type in 'CX' else 'a number'}, TYPE={self.type}, and not {value!r}")
        if self.type in "CX":
            data = _bytes(value)
            if len(data) > self.length:
                raise ValueError(f"{self.name} has {self.length} bytes, and the value {len(data)}")
            return data.ljust(self.length)
        least, most = self._bounds()
        if not least <= value <= most:
            raise ValueError(f"{self.name} takes {least} to {most}, as a {self._said()}, and not {value}")
        return _packed(value, self.length) if self.type == "P" else value.to_bytes(self.length, "big", signed=True)

    def _bounds(self):
        """The least and the greatest number that the field has room for."""
        if self.type == "P":
            most = 10 ** (2 * self.length - 1) - 1
            return -most, most
        return -(1 << (8 * self.length - 1)), (1 << (8 * self.length - 1)) - 1

    def _said(self):
        return f"{'packed' if self.type == 'P' else 'binary'} number of {self.length} bytes"


SegmentType = namedtuple("SegmentType", "name level length fields")
SegmentType.__doc__ = "A segment type: its name, its level from 1, the most bytes that a segment has, and its fields by name."

BLANK = "  "


class Answer(namedtuple("Answer", "status level segment key area")):
    """What a call answers: status, level, segment's name, concatenated key, and the bytes of its I/O area.

    answer["NAME"] is a field's value by its TYPE (see Field); KeyError where the segment's type has no such field, ValueError where a field holds no number of its
    TYPE. answer.fields has the fields by name. They are those of one segment: of an area that a path call filled with several they are of no use.
    """

    fields = {}

    def __getitem__(self, name):
        if not isinstance(name, str):
            return super().__getitem__(name)
        field = self.fields[name]
        return field.value(self.area[field.start - 1 : field.start - 1 + field.length])

    def changed(self, **values):
        """The area with other values in some fields, by their TYPEs (see Field); ValueError where a value has no room in its field, or the area lacks the field."""
        area = bytearray(self.area)
        for name, value in values.items():
            field = self.fields[name]
            end = field.start - 1 + field.length
            if end > len(area):
                raise ValueError(f"{name} ends at byte {end}, and the area has {len(area)}")
            area[field.start - 1 : end] = field.bytes(value)
        return bytes(area)


_OUTCOMES = {
    1: "the volume is full, and nothing was inserted",
    2: "the area has another length than its segments",
    3: "no memory for the call, and nothing was changed",
    4: "an access of the volume failed",
    5: "the volume can't be used since an access failed",
}


class Refused(Exception):
    """The database could not answer a call: the volume is full, an access of it failed, or the area has a wrong length."""


class Ended(Exception):
    """`hd serve` has ended: it said why on standard error."""


def _bytes(text):
    """The bytes of text or of bytes. A number has none without a field, which says how it is written."""
    if isinstance(text, int):
        raise TypeError(f"text or bytes are wanted, and not {text}: Field.bytes has those of a number")
    return text.encode("latin-1") if isinstance(text, str) else bytes(text)


def _packed_number(data):
    """The number of a packed decimal, or None: the last half byte is the sign, A, C, E and F for plus, B and D for minus."""
    digits = data.hex()
    if not digits or not digits[:-1].isdecimal() or digits[-1] not in "abcdef":
        return None
    return -int(digits[:-1]) if digits[-1] in "bd" else int(digits[:-1])


def _packed(number, length):
    """A number as a packed decimal, with C or D for its sign."""
    return bytes.fromhex(f"{abs(number):0{2 * length - 1}}{'d' if number < 0 else 'c'}")


def _name(text):
    """A name with its padding."""
    padded = _bytes(text).ljust(8)
    if len(padded) > 8:
        raise ValueError(f"a name of more than eight letters: {text}")
    return padded


def ssa(segment, codes="", **fields):
    """A segment search argument: a segment, its command codes, and fields that are to be equal to values.

    ssa("PART") is any part, ssa("PART", "D", PARTNO="CG2040") is part CG2040 with its bytes in the area. A value is text or bytes, as long as its field:
    Field.bytes makes them of any value. An argument of another form is written by hand: b"PART    (PARTNO  >=CG2040&COLOUR  = steel   )".
    """
    text = _name(segment)
    if codes:
        text += b"*" + _bytes(codes)
    if not fields:
        return text + b" "
    return text + b"(" + b"&".join(_name(field) + b"EQ" + _bytes(value) for field, value in fields.items()) + b")"


_COMMIT, _ROLL_BACK, _MAKE, _FORETELL, _DONE, _TOLD = 2, 3, 4, 5, 6, 7

# How many answers the requests of a run bring, one behind the other, and further ones as many as the last. Where it is one, the request is the call itself: so a program
# without runs makes the requests that it makes anyway.
_BRINGS = (1, 1, 2, 4, 8, 16, 32, 63)


class _Ahead:
    """Reading ahead: where a program makes the same GN or GNP again and again, a run, the server foretells what the next ones will answer, and they are answered from here.

    The server then stands behind the program by the answers that were handed out. It makes those calls before the next frame of any kind, by a request in front of it.
    """

    def __init__(self, send, receive):
        self._send, self._receive = send, receive
        self._call = b""
        # the place of the run's next request, 0 where no run is under way; what was foretold and not handed out; how many answers were handed out and not made
        self._step, self._told, self._handed = 0, iter(()), 0

    def end(self):
        """Ends a run, behind an answer without a segment."""
        self._step = 0

    def made(self):
        """The frame that makes the calls which were handed out, or no bytes. Another frame follows, and ends the run: what was foretold and not handed out is dropped."""
        made = _frame(bytes([_MAKE, self._handed]) + self._call) if self._handed else b""
        self._step, self._told, self._handed = 0, iter(()), 0
        return made

    def answer(self, call, is_read_ahead):
        """The answer of a call: of those that were foretold, or else the server's."""
        step = self._step if call == self._call else 0
        answer = next(self._told, None) if step else None
        if not answer and _BRINGS[step] > 1:
            self._send(bytes([_FORETELL, _BRINGS[step]]) + call)
            told = self._receive()
            if told[0] != _TOLD:
                return told
            self._told = _bodies(told, 1)
            answer = next(self._told, None)
            self._step = min(step + 1, len(_BRINGS) - 1)
            # where none was told, the call is made, and begins a run
            step = 0
        if answer:
            self._handed += 1
            return answer
        self._send(call)
        if is_read_ahead:
            self._call, self._step = call, step + 1
        return self._receive()


def _frame(body):
    """A frame: the length of its body, and the body."""
    return struct.pack(">I", len(body)) + body


def _bodies(frames, begin):
    """The bodies of frames that stand one behind the other, from a place on."""
    while begin < len(frames):
        (length,) = struct.unpack_from(">I", frames, begin)
        yield frames[begin + 4 : begin + 4 + length]
        begin += 4 + length


def _is_read_ahead(function, ssas):
    """Whether a call may be read ahead: a GN or GNP without a qualification, for a search by one may pass thousands of segments for an answer."""
    return function in (b"GN  ", b"GNP ") and len(ssas) < 2 and not any(b"(" in argument for argument in ssas)


class Session:
    """A program's view of a database, while `hd serve` has its volume open: its segment types (types) and its PCBs (pcbs), each in the order of its source."""

    def __init__(self, dbd, psb, volume, program=None):
        words = [program or os.environ.get("HD", "hd"), "serve", "--commit-on-request", dbd, psb, volume]
        self._server = subprocess.Popen([os.fspath(word) for word in words], stdin=subprocess.PIPE, stdout=subprocess.PIPE, bufsize=-1, start_new_session=True)
        self._ahead = _Ahead(self._send, self._receive)
        self._read_hello(self._receive())

    def _read_exact(self, count):
        found = self._server.stdout.read(count)
        if len(found) < count:
            raise Ended(f"hd serve ended with status {self._server.wait()}")
        return found

    def _receive(self):
        (length,) = struct.unpack(">I", self._read_exact(4))
        return self._read_exact(length)

    def _send(self, body):
        """Sends a frame. The calls that were handed out and not made go in front of it, in the same write."""
        try:
            self._server.stdin.write(self._ahead.made() + _frame(body))
            self._server.stdin.flush()
        except BrokenPipeError:
            raise Ended(f"hd serve ended with status {self._server.wait()}") from None

    def _read_hello(self, hello):
        if hello[:2] != b"HD" or hello[2:4] != b"\0\3":
            raise Ended("hd serve is of another version than hd.py")
        pcbs, types = hello[4], hello[5]
        at = 6
        self.types = []
        for _ in range(types):
            name, level, _, most, _, count = struct.unpack_from(">8sBBHHB", hello, at)
            at += 15
            fields = {}
            for _ in range(count):
                field, start, length, letter = struct.unpack_from(">8sHHc", hello, at)
                fields[field.decode().rstrip()] = Field(field.decode().rstrip(), start, length, letter.decode())
                at += 13
            self.types.append(SegmentType(name.decode().rstrip(), level, most, fields))
        self._fields = {type.name: type.fields for type in self.types}
        self.pcbs = []
        for number in range(1, pcbs + 1):
            database, procopt, sensitive, longest = struct.unpack_from(">8s4sHH", hello, at)
            self.pcbs.append(Pcb(self, number, database.decode().rstrip(), procopt.decode().rstrip()))
            at += 16

    def pcb(self, number):
        """A PCB of the program, from 1, in the order of the PSB."""
        return self.pcbs[number - 1]

    def call(self, function, pcb, *ssas, area=b""):
        """A call by its function, with the number of its PCB."""
        function, arguments = _bytes(function).ljust(4), [_bytes(argument) for argument in ssas]
        body = bytes([1, pcb]) + function + bytes([len(arguments)])
        for argument in arguments:
            body += struct.pack(">H", len(argument)) + argument
        answer = self._ahead.answer(body + _bytes(area), _is_read_ahead(function, arguments))
        if answer[0]:
            raise Refused(_OUTCOMES.get(answer[0], f"outcome {answer[0]}"))
        status, level, segment, length = struct.unpack_from(">2sB8sH", answer, 1)
        if not level:
            self._ahead.end()
        segment = segment.decode().rstrip()
        answered = Answer(status.decode(), level, segment, answer[14 : 14 + length], answer[14 + length :])
        answered.fields = self._fields.get(segment, {})
        return answered

    def _request(self, kind):
        self._send(bytes([kind]))
        answer = self._receive()
        if answer[0] != _DONE:
            raise Refused(_OUTCOMES.get(answer[0], f"outcome {answer[0]}"))

    def commit(self):
        """Makes last what the calls so far have changed: whatever happens from now on, it is there. Positions stay."""
        self._request(_COMMIT)

    def rollback(self):
        """Takes back what the calls have changed since the last commit. Every PCB is at the start then, and holds nothing."""
        self._request(_ROLL_BACK)

    def close(self):
        """Commits, and waits for the end of the server."""
        if self._server.stdin.closed:
            return
        try:
            self.commit()
        except (Refused, Ended):
            with contextlib.suppress(Ended):
                self._end()
            raise
        self._end()

    def _end(self):
        """Waits for the end of the server, which goes back to the last commit."""
        if self._server.stdin.closed:
            return
        try:
            self._server.stdin.close()
        except BrokenPipeError:
            pass
        self._server.stdout.close()
        if self._server.wait():
            raise Ended(f"hd serve ended with status {self._server.returncode}")

    def __enter__(self):
        return self

    def __exit__(self, kind, *_):
        if kind is None:
            self.close()
        else:
            self._end()


class Pcb:
    """A program communication block: a position in a database, with the calls that a program makes by it. It has its number, its database and its PROCOPT."""

    def __init__(self, session, number, database, procopt):
        self.session, self.number, self.database, self.procopt = session, number, database, procopt

    def gu(self, *ssas):
        """Get unique: the first segment that satisfies the arguments."""
        return self.session.call("GU", self.number, *ssas)

    def gn(self, *ssas):
        """Get next: the first behind the position."""
        return self.session.call("GN", self.number, *ssas)

    def gnp(self, *ssas):
        """Get next within parent."""
        return self.session.call("GNP", self.number, *ssas)

    def ghu(self, *ssas):
        """Get hold unique: as gu, and what is given may be replaced or deleted by the next call."""
        return self.session.call("GHU", self.number, *ssas)

    def ghn(self, *ssas):
        """Get hold next."""
        return self.session.call("GHN", self.number, *ssas)

    def ghnp(self, *ssas):
        """Get hold next within parent."""
        return self.session.call("GHNP", self.number, *ssas)

    def isrt(self, *ssas, area):
        """Insert the segments of an area."""
        return self.session.call("ISRT", self.number, *ssas, area=area)

    def repl(self, area, *ssas):
        """Replace what is held by the segments of an area."""
        return self.session.call("REPL", self.number, *ssas, area=area)

    def dlet(self, *ssas):
        """Delete what is held, with its dependents."""
        return self.session.call("DLET", self.number, *ssas)

    def segments(self, *ssas):
        """The segments that satisfy the arguments, from the start of the database on, wherever the PCB stands; ValueError at a status but GE and GB."""
        answer = self._next(self.gu, ssas)
        while answer:
            yield answer
            answer = self._next(self.gn, ssas)

    def dependents(self, *ssas):
        """The segments behind the position that satisfy the arguments, below the one that the last gu or gn gave; ValueError as there."""
        return iter(lambda: self._next(self.gnp, ssas), None)

    def _next(self, get, ssas):
        answer = get(*(argument if isinstance(argument, bytes) else ssa(argument) for argument in ssas))
        if answer.level:
            return answer
        if answer.status in ("GE", "GB"):
            return None
        raise ValueError(f"status {answer.status} of {get.__name__}")


def open(dbd, psb, volume, program=None):
    """A session over a volume, by the files of its DBD and of the program's PSB."""
    return Session(dbd, psb, volume, program)
