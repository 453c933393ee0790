#!/usr/bin/env python3
"""Measures commits of a served program and of a deck, and SQLite's beside them: a WAL with `synchronous=full`, on the same disk.

A turn makes so many commits, of so many updates each at random places, by a program, by a deck and then by SQLite; times are medians over the turns, with the
quartiles behind them, in milliseconds a commit. That of a deck has its start, the check of the volume, and the copy at its end. Where strace is there, a further turn of hd counts the syncs, writes and bytes of a commit.

    bench/commits.py [--commits N] [--turns N] [--updates N ..] [--folder FOLDER]      FOLDER says on which disk
"""
import argparse
import os
import random
import re
import shutil
import sqlite3
import statistics
import subprocess
import sys
import tempfile
import time

HERE = os.path.dirname(os.path.abspath(__file__))
sys.path.insert(0, os.path.join(HERE, "..", "dli"))

import hd

HD = os.environ.get("HD", os.path.join(HERE, "..", "bin", "hd"))
PARTS = 2_000
DBD = """         DBD   NAME=PARTS,ACCESS=(HIDAM,VSAM)
         DATASET DD1=PARTSDD,SIZE=4096
         SEGM  NAME=PART,PARENT=0,BYTES=60
         FIELD NAME=(PARTNO,SEQ,U),BYTES=6,START=1
         DBDGEN
         END
"""
PSB = """         PCB   TYPE=DB,DBDNAME=PARTS,PROCOPT=A
         SENSEG NAME=PART,PARENT=0
         PSBGEN LANG=C,PSBNAME=COMMITS
         END
"""


def number(place):
    return b"%06d" % place


class Hd:
    """The parts in a volume."""

    def __init__(self):
        for name, text in (("parts.dbd", DBD), ("parts.psb", PSB)):
            with open(name, "w", encoding="ascii") as file:
                file.write(text)
        with open("empty.stream", "wb") as file:
            file.write(b"HDUNLOAD\0\1PARTS   \0\0\0\0\0")
        subprocess.run([HD, "reload", "parts.dbd", "empty.stream", "parts.volume", "4096"], stdout=subprocess.DEVNULL, check=True)
        with hd.open("parts.dbd", "parts.psb", "parts.volume", HD) as session:
            for place in range(PARTS):
                session.pcb(1).isrt(hd.ssa("PART"), area=number(place) + b"x" * 54)

    def turn(self, places, updates):
        """Seconds that commits of so many updates take."""
        session = hd.open("parts.dbd", "parts.psb", "parts.volume", HD)
        pcb = session.pcb(1)
        start = time.monotonic()
        for count, place in enumerate(places, 1):
            pcb.ghu(hd.ssa("PART", PARTNO=number(place)))
            pcb.repl(number(place) + b"%054d" % count)
            if count % updates == 0:
                session.commit()
        took = time.monotonic() - start
        session.close()
        return took


class Deck:
    """The parts in a volume of their own, which decks change."""

    def __init__(self):
        shutil.copy("parts.volume", "deck.volume")

    def turn(self, places, updates):
        with open("deck", "wb") as deck:
            for count, place in enumerate(places, 1):
                deck.write(b"L     GHU  PART    (PARTNO  EQ%s)\nL     REPL\nD%s%054d\n" % (number(place), number(place), count))
        start = time.monotonic()
        subprocess.run([HD, "deck", "parts.dbd", "parts.psb", "deck.volume", "deck", "--commit", str(2 * updates)], stdout=subprocess.DEVNULL, check=True)
        return time.monotonic() - start


class SQLite:
    """The parts in a table."""

    def __init__(self):
        with sqlite3.connect("parts.sqlite") as base:
            base.execute("pragma journal_mode=wal")
            base.execute("create table part(partno text primary key, rest text) without rowid")
            base.executemany("insert into part values(?, ?)", ((number(place).decode(), "x" * 54) for place in range(PARTS)))

    def turn(self, places, updates):
        base = sqlite3.connect("parts.sqlite", isolation_level=None)
        base.execute("pragma synchronous=full")
        start = time.monotonic()
        for count, place in enumerate(places, 1):
            if count % updates == 1 or updates == 1:
                base.execute("begin immediate")
            base.execute("select rest from part where partno = ?", (number(place).decode(),)).fetchone()
            base.execute("update part set rest = ? where partno = ?", ("%054d" % count, number(place).decode()))
            if count % updates == 0:
                base.execute("commit")
        took = time.monotonic() - start
        base.close()
        return took


def told(times, commits):
    """The median of some times, with the quartiles, in milliseconds a commit."""
    least, middle, most = statistics.quantiles([1000 * it / commits for it in times], n=4)
    return f"{middle:.3f} ({least:.3f} to {most:.3f})"


def counted(base, places, updates, commits):
    """Syncs, writes and bytes of a commit of hd."""
    if not shutil.which("strace"):
        return "not counted: there is no strace"
    words = ["strace", "-f", "-o", "calls", "-e", "trace=fsync,fdatasync,pwrite64", HD]
    with open("traced", "w", encoding="ascii") as file:
        file.write("#!/bin/sh\nexec " + " ".join(words) + ' "$@"\n')
    os.chmod("traced", 0o755)
    session = hd.open("parts.dbd", "parts.psb", "parts.volume", os.path.abspath("traced"))
    pcb = session.pcb(1)
    for count, place in enumerate(places, 1):
        pcb.ghu(hd.ssa("PART", PARTNO=number(place)))
        pcb.repl(number(place) + b"%054d" % count)
        if count % updates == 0:
            session.commit()
    session.close()
    calls = open("calls", encoding="latin-1").read()
    sizes = [int(it) for it in re.findall(r"pwrite64\(.*= (\d+)$", calls, re.M)]
    return f"{len(re.findall(r'f(?:data)?sync', calls)) / commits:.2f} syncs, {len(sizes) / commits:.2f} writes, {sum(sizes) / commits:.0f} bytes"


def main(words):
    parser = argparse.ArgumentParser(description=__doc__, formatter_class=argparse.RawDescriptionHelpFormatter)
    parser.add_argument("--commits", type=int, default=300)
    parser.add_argument("--turns", type=int, default=9)
    parser.add_argument("--updates", type=int, nargs="*", default=[1, 10])
    parser.add_argument("--folder")
    given = parser.parse_args(words)
    program = os.path.abspath(HD)
    with tempfile.TemporaryDirectory(dir=given.folder) as folder:
        os.chdir(folder)
        globals()["HD"] = program
        bases = (Hd(), Deck(), SQLite())
        random.seed(1)
        for updates in given.updates:
            times = ([], [], [])
            for _ in range(given.turns):
                places = [random.randrange(PARTS) for _ in range(given.commits * updates)]
                for base, took in zip(bases, times):
                    took.append(base.turn(places, updates))
            program, deck, sqlite = (told(it, given.commits) for it in times)
            print(f"{given.commits} commits of {updates}: a program {program} ms, a deck {deck} ms, SQLite {sqlite} ms a commit; ", end="")
            print("hd " + counted(bases[0], places, updates, given.commits))


if __name__ == "__main__":
    main(sys.argv[1:])
