#!/usr/bin/env python3
"""Plays programs that commit, take back, end and are killed, by `hd serve`, and compares with a plain list of rows.

    tests/commits_test.py PROGRAM [GAMES [SEED]]

Each game is a random database, program and volume. Its events are random calls, most of them, and commits, roll backs, ends of the input without a commit, frames that
are none, and kills, some of them in the midst of a commit. Each answer is compared, and where a server has ended the rows that the volume has then: those of the last commit
that was answered, or, where one was under way, those or the new. The last line tells how many events there were of each sort, and how many games were wrong; the
status is 1 if any was.
"""
import collections
import os
import shutil
import signal
import subprocess
import sys
import tempfile
import time

sys.dont_write_bytecode = True
from model import Model, Pcb, shown
from player import Program, line, read, rows_of
from random_calls import Caller, Random, random_game

GAMES = 30
EVENTS = 120

# Of a hundred events, how many are of each sort; the others are calls.
SORTS = {"commit": 8, "roll back": 5, "end": 1, "wrong frame": 1, "kill": 1, "kill in a commit": 2}

COMMIT, ROLL_BACK, DONE = b"\2", b"\3", b"\6"
REFUSALS = {1: b"Full", 2: b"Area", 3: b"Memory", 4: b"Device", 5: b"Broken"}


class Wrong(Exception):
    """What a game shows that is not as it should be."""


class Server:
    """`hd serve` over a volume, whose end commits nothing."""

    def __init__(self, hd, volume):
        words = [hd.path, "serve", "--commit-on-request", "dbd", "psb", volume]
        self.process = subprocess.Popen(words, stdin=subprocess.PIPE, stdout=subprocess.PIPE, stderr=subprocess.DEVNULL)
        self.receive()

    def receive(self):
        size = self.process.stdout.read(4)
        if len(size) < 4:
            raise Wrong(f"the server has ended with status {self.process.wait()}")
        return self.process.stdout.read(int.from_bytes(size, "big"))

    def send(self, body):
        self.process.stdin.write(len(body).to_bytes(4, "big") + body)
        self.process.stdin.flush()

    def ask(self, body):
        self.send(body)
        return self.receive()

    def end(self, status):
        self.process.stdin.close()
        self.process.stdout.close()
        if self.process.wait() != status:
            raise Wrong(f"the server ends with status {self.process.returncode}, and not {status}")

    def kill(self):
        self.process.send_signal(signal.SIGKILL)
        self.process.wait()
        self.process.stdout.close()
        try:
            self.process.stdin.close()
        except BrokenPipeError:
            pass


def told(answer):
    """An answer's frame as the line that `hd deck` prints of it, behind the function."""
    if answer[0]:
        return b"[!!] " + REFUSALS[answer[0]]
    key = 14 + int.from_bytes(answer[12:14], "big")
    return b"[%b] %02d %b key=%b area=%b" % (answer[1:3], answer[3], answer[4:12], shown(answer[14:key]), shown(answer[key:]))


class Play:
    """A game that is played."""

    def __init__(self, hd, seed):
        self.hd, self.random, self.events = hd, Random(f"commits {seed}"), collections.Counter()
        self.game = random_game(seed, 0)

    def listed(self):
        return [(row.type.code, row.data) for row in self.model.rows]

    def begin(self, rows):
        """Starts a server over the volume, which has these rows."""
        self.committed = rows
        self.forget()
        self.server = Server(self.hd, "volume")

    def forget(self):
        """The model is that of the last commit, with its PCBs at the start."""
        self.model = Model(self.game.database.types, [Pcb(*pcb) for pcb in self.game.pcbs], self.committed)
        self.caller = Caller(self.random, self.game.database, self.model)

    def left(self, *wanted):
        """The rows of the volume that a server has left, which are some of these."""
        done = self.hd.run("unload", "--explain", "never", "dbd", "volume", "out", "--no-sync")
        if done.status:
            raise Wrong(f"the volume is not unloaded: {done.out}")
        rows = rows_of(read("out"))
        if rows not in wanted:
            raise Wrong(f"{len(rows)} rows are left, and they are not those of the last commit, {len(wanted[0])}")
        return rows

    def call(self):
        call = self.caller.next()
        body = b"\1%c%-4b%c" % (call.pcb, call.function, len(call.ssas)) + b"".join(len(ssa).to_bytes(2, "big") + ssa for ssa in call.ssas) + call.area
        if call.area and call.function not in (b"ISRT", b"REPL") or len(call.area) > self.longest():
            return
        answer = told(self.server.ask(body))
        wanted = self.model.answer(*call, answer == b"[!!] Full")
        if answer != wanted:
            raise Wrong(f"{line(self.events['call'], call, answer)} and not {wanted}")

    def longest(self):
        """The bytes of the longest path of the database."""
        return max(sum(above.most for above in types) for types in self.paths())

    def paths(self):
        for type in self.game.database.types:
            path = []
            while type:
                path.append(type)
                type = type.parent
            yield path

    def event(self):
        """One event; whether the game goes on."""
        sort, chance = "call", self.random.below(100)
        for name, part in SORTS.items():
            if 0 <= chance < part:
                sort = name
            chance -= part
        self.events[sort] += 1
        if sort == "call":
            self.call()
        elif sort == "commit":
            if self.server.ask(COMMIT) != DONE:
                raise Wrong("a commit is not answered")
            self.committed = self.listed()
        elif sort == "roll back":
            if self.loads() and self.committed:
                return False
            if self.server.ask(ROLL_BACK) != DONE:
                raise Wrong("a roll back is not answered")
            self.forget()
        else:
            return self.ended(sort)
        return True

    def ended(self, sort):
        """The server ends in one of the ways, and another goes on."""
        rows = [self.committed]
        if sort == "end":
            self.server.end(0)
        elif sort == "wrong frame":
            self.server.send(b"\7")
            self.server.end(3)
        else:
            if sort == "kill in a commit":
                rows.append(self.listed())
                self.server.send(COMMIT)
                time.sleep(self.random.random() * 0.003)
            self.server.kill()
        left = self.left(*rows)
        if self.loads() and left:
            return False
        self.begin(left)
        return True

    def loads(self):
        return any(pcb.loads for pcb in self.model.pcbs)

    def play(self):
        self.game.load(self.hd)
        shutil.copyfile("begun", "volume")
        self.begin([] if self.game.pcbs[0][0] == "L" else self.game.rows)
        goes_on = True
        for _ in range(EVENTS):
            goes_on = goes_on and self.event()
        if self.server.process.poll() is None:
            self.server.end(0)
            self.left(self.committed)


def main():
    if not 2 <= len(sys.argv) <= 4:
        sys.exit(__doc__)
    games = int(sys.argv[2]) if len(sys.argv) > 2 else GAMES
    first = int(sys.argv[3]) if len(sys.argv) > 3 else 0
    hd, events, wrong = Program(sys.argv[1]), collections.Counter(), 0
    folder = tempfile.mkdtemp(prefix="hd-commits-", dir="/dev/shm" if os.path.isdir("/dev/shm") else None)
    os.chdir(folder)
    try:
        for seed in range(first, first + games):
            play = Play(hd, seed)
            try:
                play.play()
            except Wrong as shown_by:
                wrong += 1
                if wrong == 1:
                    print(f"game {seed}, behind {dict(play.events)}: {shown_by}\n{play.game.text()}")
                play.server.kill()
            events += play.events
    finally:
        os.chdir("/")
        shutil.rmtree(folder)
    print(", ".join(f"{count} of {sort}" for sort, count in events.items()) + f" in {games} games, {wrong} wrong")
    sys.exit(1 if wrong else 0)


if __name__ == "__main__":
    main()
