#!/usr/bin/env python3
"""Compares what hd prints for DL/I calls with what a plain list of rows answers.

    tests/calls_test.py PROGRAM [DECKS [SEED]]

Random databases, programs, volumes and decks are played by hd, with several sizes of its cache, and by the model; so are the lists of worked_lists.txt, whose answers
stand there, decks whose arguments are made and damaged by chance, and short decks over volumes of which some bytes were changed, where they pass the check. Each line is compared, and so are the rows that a deck leaves:
they pass the check, are unloaded, and are reloaded. A difference is told with the smallest deck that was found to show it. The last line tells how
many calls there were, and how many decks were wrong; the status is 1 if any was.
"""
import os
import shutil
import sys
import tempfile

sys.dont_write_bytecode = True
import worked
from player import Game, Program, read, rows_of, write
from random_calls import Random, argument_game, changed, random_calls, random_game

DECKS = 500
CALLS = 200

# How many decks of arguments there are for each hundred decks.
ARGUED = 9

# How many volumes are changed for each hundred decks, in how many ways, and how many calls are made over one that passes.
CHANGED = 7
WAYS = 10
CHANGED_CALLS = 12


class Tally:
    def __init__(self, hd):
        self.hd, self.calls, self.decks, self.wrong, self.passing, self.faulty = hd, 0, 0, 0, 0, 0

    def count(self, name, game, wrong):
        """Counts a deck, and tells of the first that is wrong."""
        self.calls += len(game.calls)
        self.decks += 1
        if wrong:
            self.wrong += 1
            if self.wrong == 1:
                smallest, told = game.smallest(self.hd)
                print(f"{name}: {told or wrong}\n{smallest.text()}")

    def play_lists(self):
        for number, game in enumerate(worked.lists(), 1):
            wrong = worked.fault(self.hd, game)
            if not wrong and worked.is_of_program(game):
                wrong = worked.fault_in_memory(self.hd, game)
            self.count(f"list {number}", game, wrong)

    def play_random(self, seed):
        game = random_game(seed, CALLS)
        self.count(f"deck {seed}", game, game.fault(self.hd))

    def play_arguments(self, seed):
        """Plays calls with arguments that are made and damaged by chance, of which a fifth mean something at least."""
        game, meant = argument_game(seed, CALLS)
        self.count(f"arguments {seed}", game, game.fault(self.hd) or (None if meant * 5 > CALLS else f"{meant} arguments mean something"))

    def play_changed(self, seed):
        """Plays over a volume of random rows, with bytes changed in some ways."""
        random = Random(f"changed {seed}")
        game = random_game(seed, 0)
        if not game.load(self.hd):
            image = read("begun")
            for way in range(WAYS):
                self.judge(f"changed volume {seed}, way {way}", random, game, changed(random, image))

    def judge(self, name, random, game, image):
        """A changed volume passes, and answers as the rows that are unloaded of it; or it has a fault, which each command names."""
        write("changed", image)
        done = self.hd.run("check", "dbd", "changed")
        unloaded = self.hd.run("unload", "dbd", "changed", "out", "--no-sync")
        rows = [] if done.status else rows_of(read("out"))
        over = Game(game.database, game.pcbs, rows, [], caches=(1, 64), image=image)
        wrong = None
        if done.status:
            self.faulty += 1
            write("deck", b"L     GN\n")
            opened = self.hd.run("deck", "dbd", "psb", "changed", "deck")
            if not done.out.startswith(b"fault ") or not done == unloaded == opened:
                wrong = f"{done}, {unloaded}, {opened}"
        else:
            self.passing += 1
            if image[8:10] == b"\0\3" and not (rows and game.pcbs[0][0] == "L"):
                random_calls(random, over, [], CHANGED_CALLS)
                wrong = over.fault(self.hd)
        self.count(name, over, wrong)


def main():
    if not 2 <= len(sys.argv) <= 4:
        sys.exit(__doc__)
    decks = int(sys.argv[2]) if len(sys.argv) > 2 else DECKS
    first = int(sys.argv[3]) if len(sys.argv) > 3 else 0
    tally = Tally(Program(sys.argv[1]))
    folder = tempfile.mkdtemp(prefix="hd-calls-", dir="/dev/shm" if os.path.isdir("/dev/shm") else None)
    os.chdir(folder)
    try:
        tally.play_lists()
        for seed in range(first, first + decks):
            tally.play_random(seed)
        for seed in range(first, first + decks * ARGUED // 100):
            tally.play_arguments(seed)
        for seed in range(first, first + decks * CHANGED // 100):
            tally.play_changed(seed)
    finally:
        os.chdir("/")
        shutil.rmtree(folder)
    print(f"{tally.passing} changed volumes pass, and {tally.faulty} have a fault")
    print(f"{tally.calls:,} calls in {tally.decks} decks, {tally.wrong} wrong")
    sys.exit(1 if tally.wrong else 0)


if __name__ == "__main__":
    main()
