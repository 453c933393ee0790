#!/usr/bin/env python3
"""Measures hd, and SQLite beside it where sqlite3, its library and gcc are there.

It prints the table of docs/MEASURED.md. A turn runs each command of hd, and then SQLite's, so that a busy machine slows both: a ratio is that of one turn. Shown are
medians over the turns, with the quartiles behind them in brackets. Times are processor time, memory is the peak (at least that of this script, some 16 MB), and accesses
are the system's reads and writes of the volume, counted by strace in a run of its own. "scattered" has the rows of "deep", put in at random by calls.

The time of a call leaves out what the same turn took to open the volume: a deck of one call, which checks it first; SQLite's likewise. The time to read the
deck is in it. Where gcc is there, "limit" is a C program that has the rows of "deep" in arrays, reads the same deck and prints the same lines.

With --instructions each command is run once more below valgrind, which counts instructions: these do not depend on what else the machine does.

    bench/bench.py [SEGMENTS ..] [--shape NAME] [--deck NAME] [--calls N] [--turns N] [--instructions]
"""
import argparse
import os
import re
import shutil
import statistics
import subprocess
import sys
import tempfile

import shapes

HERE = os.path.dirname(os.path.abspath(__file__))
HD = os.environ.get("HD", os.path.join(HERE, "..", "bin", "hd"))
SCHEMA = """pragma page_size=2048; pragma journal_mode=off; pragma synchronous=off;
create table course(num text primary key, name text) without rowid;
create table class(num text, ed text, data text, primary key(num, ed)) without rowid;
create table stud(num text, ed text, sname text, grade text, primary key(num, ed, sname)) without rowid;
create table book(num text, place integer, title text, primary key(num, place)) without rowid;
"""


def measured(words, out=None, **files):
    """Processor time in seconds and peak memory of a command."""
    opened = {name: open(path, "rb") for name, path in files.items()}
    with open(out or os.devnull, "wb") as file:
        process = subprocess.Popen(words, stdout=file, **opened)
        _, status, usage = os.wait4(process.pid, 0)
    process.returncode = os.waitstatus_to_exitcode(status)
    if status != 0:
        sys.exit(f"{words}: status {process.returncode}")
    return usage.ru_utime + usage.ru_stime, usage.ru_maxrss / 1024


def apart(work):
    """Does a piece of work in a process of its own, since the peak of a command is at least the memory of the process that starts it."""
    pid = os.fork()
    if pid == 0:
        work()
        os._exit(0)
    if os.waitpid(pid, 0)[1] != 0:
        sys.exit("the benchmark's files are not made")


def accesses(words, volume):
    """How often a command reads or writes the volume."""
    log = "strace.log"
    subprocess.run(["strace", "-f", "-y", "-o", log, "-e", "trace=pread64,pwrite64,read,write", *words], stdout=subprocess.DEVNULL, check=True)
    with open(log, errors="replace") as lines:
        count = sum(1 for line in lines if volume in line)
    os.remove(log)
    return count


def instructions(words, **files):
    """How many instructions a command takes."""
    opened = {name: open(path, "rb") for name, path in files.items()}
    counting = ["valgrind", "--tool=callgrind", "--callgrind-out-file=/dev/null", *words]
    told = subprocess.run(counting, stdout=subprocess.DEVNULL, stderr=subprocess.PIPE, text=True, check=True, **opened).stderr
    return int(re.search(r"Collected : (\d+)", told)[1])


def spread(values, form):
    """The median of some values, and their quartiles in brackets."""
    low, middle, high = statistics.quantiles(values, n=4) if len(values) > 1 else values * 3
    return f"{middle:{form}} ({low:{form}} to {high:{form}})"


class Command:
    """What one side runs, with the files that it reads, and what it took in each turn."""

    def __init__(self, words, **files):
        self.words, self.files, self.times, self.memory, self.counted = words, files, [], 0, 0

    def take_turn(self):
        time, memory = measured(self.words, **self.files)
        self.times.append(time)
        self.memory = max(self.memory, memory)

    def count(self):
        self.counted = instructions(self.words, **self.files)


class Row:
    """One piece of work, by hd and by the others beside it."""

    def __init__(self, name, hd, sqlite, volume, before, calls=0, limit=None):
        """So many calls, where it is a deck; `before` is done before each run of a side."""
        self.name, self.calls, self.volume, self.before = name, calls, volume, before
        self.sides = {name: side for name, side in (("hd", hd), ("SQLite", sqlite), ("limit", limit)) if side}
        self.accesses = None

    def take_turn(self):
        self.before()
        for side in self.sides.values():
            side.take_turn()

    def count(self, has_instructions):
        if shutil.which("strace"):
            self.before()
            self.accesses = accesses(self.sides["hd"].words, self.volume)
        if has_instructions:
            self.before()
            for side in self.sides.values():
                side.count()

    def times(self, name, opening):
        """What each turn took, without what that turn's opening did: seconds, or microseconds a call."""
        if name not in self.sides:
            return []
        own = self.sides[name].times
        if not opening:
            return own
        return [1e6 * (now - then) / self.calls for now, then in zip(own, opening.sides[name].times)]

    def counts(self, name, opening):
        """The instructions of a side, or those of a call, likewise."""
        if name not in self.sides or not self.sides[name].counted:
            return ""
        count = self.sides[name].counted
        return f"{(count - opening.sides[name].counted) / self.calls:,.0f}" if opening else f"{count:,}"

    def show(self, opening):
        """A line of the table; what an opening of the volume took is taken off."""
        unit = " us" if opening else " s"
        hd, sqlite, limit = (self.times(name, opening) for name in ("hd", "SQLite", "limit"))
        ratios = [mine / max(its, 1e-6) for mine, its in zip(hd, sqlite)]
        cells = [self.name, spread(hd, ".3f") + unit]
        cells += [spread(sqlite, ".3f") + unit, spread(ratios, ".2f")] if sqlite else ["", ""]
        cells.append(f"{statistics.median(limit):.3f}{unit}" if limit else "")
        cells.append(" / ".join(filter(None, (self.counts(name, opening) for name in ("hd", "SQLite", "limit")))))
        cells += [f"{self.accesses:,}" if self.accesses is not None else "", f"{self.sides['hd'].memory:.0f} MB"]
        print(f"| {' | '.join(cells)} |", flush=True)


def measure_rows(rows, words):
    """Measures pieces of work in turns, and shows them; the first is the opening of those that are decks."""
    for _ in range(words.turns):
        for row in rows:
            row.take_turn()
    opening = rows[0] if rows[0].calls else None
    for row in rows:
        row.count(words.instructions)
        row.show(opening if row is not opening else None)


def import_sql(rows):
    """The files of the tables, and the words that SQLite imports them with."""
    text = SCHEMA + "begin;\n"
    for name, lines in shapes.tables(rows).items():
        with open(f"{name}.txt", "w") as file:
            file.write(lines)
        text += f".import {name}.txt {name.lower()}\n"
    with open("import.sql", "w") as file:
        file.write(text + "commit;\n")


def remove(*names):
    for name in names:
        if os.path.exists(name):
            os.remove(name)


def write_rows(shape, segments):
    """The database, and the rows of a shape as a stream; those that are to lie scattered as a deck, beside a stream without rows."""
    is_scattered = shape == "scattered"
    rows = list(shapes.SHAPES["deep" if is_scattered else shape](segments))
    print(f"\n| {shape}, {len(rows):,} segments | hd | SQLite | ratio | limit | instructions of hd / SQLite / limit | accesses | memory |", flush=True)
    print("|---|---|---|---|---|---|---|---|", flush=True)
    for name, text in (("b.dbd", shapes.DBD), ("b.psb", shapes.PSB)):
        with open(name, "w") as file:
            file.write(text)
    with open("b.stream", "wb") as file:
        file.write(shapes.stream([] if is_scattered else rows))
    with open("b.rows", "wb") as file:
        file.write(shapes.stream(rows))
    if is_scattered:
        with open("b.deck", "w") as file:
            file.write(shapes.scattered(segments))
    import_sql(rows)


def write_decks(shape, segments, calls):
    """Each deck of a shape, and how many calls it has."""
    for name in shapes.decks_of(shape):
        text, made = shapes.deck(shape, name, segments, calls)
        with open(f"{name}.deck", "w") as file:
            file.write(text)
        with open(f"{name}.count", "w") as file:
            file.write(str(made))


def measure_commands(shape, words, has_sqlite):
    def fresh():
        remove("b.volume", "b.sqlite")

    def sqlite(*given, **files):
        return Command(["sqlite3", *given], **files) if has_sqlite else None

    reload = [HD, "reload", "b.dbd", "b.stream", "b.volume", "65536"]
    rows = []
    if shape == "scattered":
        fresh()
        measured(reload)
        measured([HD, "deck", "--cache", "65536", "b.dbd", "b.psb", "b.volume", "b.deck"])
    else:
        measure_rows([Row("reload", Command(reload), sqlite("b.sqlite", stdin="import.sql"), "b.volume", fresh)], words)
    if has_sqlite:
        remove("b.sqlite")
        measured(["sqlite3", "b.sqlite"], stdin="import.sql")
    dump = "select * from course; select * from class; select * from stud; select * from book;"
    rows.append(Row("check", Command([HD, "check", "b.dbd", "b.volume"]), sqlite("b.sqlite", "pragma integrity_check"), "b.volume", lambda: None))
    rows.append(Row("unload", Command([HD, "unload", "b.dbd", "b.volume", "b.out"]), sqlite("b.sqlite", dump), "b.volume", lambda: remove("b.out")))
    measure_rows(rows, words)


def measure_calls(shape, segments, words, has_sqlite, has_limit):
    apart(lambda: write_decks(shape, segments, words.calls))

    def again():
        for kind, copy in (("b.volume", "c.volume"), ("b.sqlite", "c.sqlite")):
            if os.path.exists(kind):
                shutil.copy(kind, copy)

    rows = []
    for name in shapes.decks_of(shape):
        if name != "open" and words.deck and name not in words.deck:
            continue
        with open(f"{name}.count") as file:
            made = int(file.read())
        hd = Command([HD, "deck", "b.dbd", "b.psb", "c.volume", f"{name}.deck"])
        sqlite = Command(["./calls", "c.sqlite", f"{name}.deck"]) if has_sqlite else None
        limit = Command(["./limit", "b.rows", f"{name}.deck"]) if has_limit and name in ("open", *shapes.LIMITED) and shape in ("deep", "scattered") else None
        if limit:
            again()
            compare(hd.words, limit.words)
        rows.append(Row(name, hd, sqlite, "c.volume", again, made, limit))
    measure_rows(rows, words)


def compare(one, other):
    """Both are to print the same lines."""
    measured(one, out="one.lines")
    measured(other, out="other.lines")
    if subprocess.run(["cmp", "-s", "one.lines", "other.lines"], check=False).returncode:
        sys.exit(f"{one} and {other} print other lines")


def build(name, *libraries):
    """Builds a C program that stands beside this script; says whether it did."""
    if not shutil.which("gcc"):
        return False
    return subprocess.run(["gcc", "-O2", "-o", name, os.path.join(HERE, f"{name}.c"), *libraries], capture_output=True, check=False).returncode == 0


def main():
    parser = argparse.ArgumentParser(description=__doc__.split("\n")[0])
    parser.add_argument("segments", nargs="*", type=int, default=[200_000, 1_000_000])
    all_shapes = [*shapes.SHAPES, "scattered"]
    parser.add_argument("--shape", choices=all_shapes, action="append")
    parser.add_argument("--deck", action="append", help="one deck alone, as GU; may be given again")
    parser.add_argument("--calls", type=int, default=100_000)
    parser.add_argument("--turns", type=int, default=9)
    parser.add_argument("--instructions", action="store_true")
    words = parser.parse_args()
    folder = tempfile.mkdtemp(prefix="hd-bench-")
    os.chdir(folder)
    has_sqlite = bool(shutil.which("sqlite3")) and build("calls", "-lsqlite3")
    has_limit = build("limit")
    for segments in words.segments:
        for shape in words.shape or all_shapes:
            apart(lambda: write_rows(shape, segments))
            measure_commands(shape, words, has_sqlite)
            measure_calls(shape, segments, words, has_sqlite, has_limit)
    shutil.rmtree(folder)


if __name__ == "__main__":
    main()
