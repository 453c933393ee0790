#!/usr/bin/env python3
"""Plays the commands that a page shows, and compares what they print with what the page says.

    examples/check.py PAGE [FOLDER] [+ PAGE ..] ..

A command is a line of a set-off text (four blanks, or seven in a list; of a manual page between .EX and .EE) that begins with `$ `; what it prints on standard output and
standard error stands below it. The commands of a page are played one after another, in a copy of FOLDER, or else of the folder that the page lies in, with the programs of this
repository as `hd` and `hdrun`, in the folder bin too, and its folder as CHECKOUT. A page behind `+` goes on in the folder that the page before has left. For `make run`, which
builds for minutes, the program plays the same deck.
"""
import os
import re
import shutil
import subprocess
import sys
import tempfile

ROOT = os.path.dirname(os.path.dirname(os.path.abspath(__file__)))


# What is played for `make run`.
MAKE = """#!/bin/sh
[ "$*" = run ] || { echo "make $*: only make run is played here"; exit 2; }
exec hd <"$CHECKOUT/crates/hd/stdin"
"""


def examples(text):
    """A manual page as a page: what stands between .EX and .EE is set off, and all else is not."""
    lines, is_inside = [], False
    for line in text.split("\n"):
        is_inside = line == ".EX" or is_inside and line != ".EE"
        lines.append("    " + re.sub(r"\\(.)", lambda found: {"e": "\\", "&": ""}.get(found[1], found[1]), line) if is_inside and line != ".EX" else "-")
    return "\n".join(lines)


def sessions(text):
    """The commands of a page, each with the number of its line and with the lines that it prints."""
    found = []
    inside, off = False, 4
    for number, line in enumerate(text.split("\n"), 1):
        if line.startswith(("    $ ", "       $ ")):
            off = line.index("$")
            found.append((number, line[off + 2 :], []))
            inside = True
        elif inside and line.startswith(" " * off):
            found[-1][2].append(line[off:])
        elif inside and line == "":
            found[-1][2].append("")
        else:
            inside = False
    return found


def trimmed(lines):
    """Lines without the empty ones at their end."""
    while lines and lines[-1] == "":
        lines = lines[:-1]
    return lines


class Place:
    """A copy of a folder, in which commands find the programs."""

    def __init__(self, place, folder):
        self.work = os.path.join(place, "work")
        programs = os.path.join(place, "bin")
        shutil.copytree(folder, self.work)
        os.makedirs(programs)
        for program in ("hd", "hdrun"):
            os.symlink(os.path.join(ROOT, "bin", program), os.path.join(programs, program))
        os.symlink(programs, os.path.join(self.work, "bin"))
        with open(os.path.join(programs, "make"), "w", encoding="ascii") as file:
            file.write(MAKE)
        os.chmod(file.name, 0o755)
        self.environment = dict(os.environ, CHECKOUT=ROOT, PATH=programs + ":" + os.environ["PATH"], LC_ALL="C.UTF-8")

    def run(self, command):
        """What a command prints."""
        done = subprocess.run(["sh", "-c", command], cwd=self.work, env=self.environment, stdout=subprocess.PIPE, stderr=subprocess.STDOUT, timeout=600)
        return done.stdout.decode("utf-8", "replace").split("\n")

    def play(self, page):
        """Plays the commands of a page; says how many there are, and how many printed something else."""
        with open(page, encoding="utf-8") as file:
            text = file.read()
        found = sessions(text if page.endswith(".md") else examples(text))
        wrong = 0
        for number, command, lines in found:
            printed = trimmed(self.run(command))
            if printed != trimmed(lines):
                wrong += 1
                print(f"{page}:{number}: $ {command}\n  the page says:")
                print("\n".join("    " + line for line in trimmed(lines)))
                print("  it prints:")
                print("\n".join("    " + line for line in printed))
        print(f"{page}: {len(found)} commands, {wrong} wrong")
        return wrong


def main(words):
    """Plays each page of the command line, with the folder behind it, if it is one, and then the pages that go on from there."""
    wrong = 0
    places = list(words)
    while places:
        page = places.pop(0)
        folder = places.pop(0) if places and os.path.isdir(places[0]) else os.path.dirname(os.path.abspath(page))
        with tempfile.TemporaryDirectory() as place:
            there = Place(place, folder)
            wrong += there.play(page)
            while places[:1] == ["+"]:
                wrong += there.play(places[1])
                del places[:2]
    return 1 if wrong else 0


if __name__ == "__main__":
    sys.exit(main(sys.argv[1:]))
