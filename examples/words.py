#!/usr/bin/env python3
"""Compares the words of docs/FORMATS.md, faults, statuses and refusals, with those that `hd explain` lists.

    examples/words.py [LIST]

The program is that of this repository, bin/hd, or LIST is a file with what its `hd explain` prints. Each word that stands on one side alone is told, and
then the status is 1.
"""
import os
import re
import subprocess
import sys

ROOT = os.path.dirname(os.path.dirname(os.path.abspath(__file__)))
FORMATS = os.path.join(ROOT, "docs", "FORMATS.md")

# Which tables of the page, by the heading above them and the column, have the words of which list.
TABLES = {
    ("Faults of a volume", "Fault"): "Faults of a volume",
    ("Statements of a source", "Fault"): "Faults of a DBD or PSB source",
    ("DBD and PSB sources", "Fault"): "Faults of a DBD or PSB source",
    ("Deck", "Fault"): "Faults of a deck",
    ("Unload stream", "Fault"): "Faults of an unload stream",
    ("Status codes of a call", "Status"): "Status codes",
    ("The program's lines and statuses", "Status"): "Exit statuses",
}

REFUSALS = "Refusals"

# A refusal that no line of the program has: only programs that make calls themselves meet it.
OF_SESSIONS = {"Broken"}


def cells(line):
    """The cells of a line of a table."""
    return [cell.strip() for cell in line.strip().strip("|").split("|")]


def tables(text):
    """The tables of a page: for each the heading above it, the names of its columns, and its lines of cells."""
    heading, found, inside = "", [], False
    for line in text.split("\n"):
        if line.startswith("#"):
            heading = line.lstrip("#").strip()
        if not line.startswith("|"):
            inside = False
        elif not inside:
            inside = True
            found.append((heading, cells(line), []))
        elif not re.match(r"\|[-| ]*\|$", line):
            found[-1][2].append(cells(line))
    return found


def word_of(cell, kind):
    """A word of a cell as the program lists it."""
    if kind == "Exit statuses":
        return "exit" + cell
    return "blank" if cell == "two blanks" else cell


def words_of_page(text):
    """For each list the words that the page has."""
    words = {kind: set() for kind in list(TABLES.values()) + [REFUSALS]}
    for heading, columns, lines in tables(text):
        for place, column in enumerate(columns):
            kind = TABLES.get((heading, column))
            if kind:
                words[kind] |= {word_of(word, kind) for line in lines for word in line[place].split(", ")}
    words[REFUSALS] |= set(re.findall(r"`\[!!\] (\w+)`", text))
    return words


def words_of_program(text):
    """For each list the words that the program lists under its name."""
    words, kind = {}, None
    for line in text.split("\n"):
        if line.endswith(":") and line[:-1] in list(TABLES.values()) + [REFUSALS]:
            kind = line[:-1]
            words[kind] = set()
        elif line.strip() == "":
            kind = None
        elif kind:
            words[kind].add(line.split()[0])
    return words


def compare(page, program):
    """Tells the words of one side alone, and says how many there are."""
    wrong = 0
    listed = set().union(*program.values())
    for kind in page:
        there = program.get(kind, set())
        # What a stream is refused for may stand in another list: a status of a load, or a refusal.
        missing = {word for word in page[kind] - there if kind != "Faults of an unload stream" or word not in listed}
        for side, words in (("docs/FORMATS.md", missing), ("hd explain", there - page[kind] - OF_SESSIONS)):
            for word in sorted(words):
                wrong += 1
                print(f"{kind}: {word} stands in {side} alone")
    return wrong


def main(words):
    """Compares the page with the program, or with a list of its words."""
    if words:
        with open(words[0], encoding="utf-8") as file:
            listed = file.read()
    else:
        listed = subprocess.run([os.path.join(ROOT, "bin", "hd"), "explain"], stdout=subprocess.PIPE, check=True, timeout=600).stdout.decode("utf-8")
    with open(FORMATS, encoding="utf-8") as file:
        page = words_of_page(file.read())
    wrong = compare(page, words_of_program(listed))
    print(f"docs/FORMATS.md: {sum(len(kind) for kind in page.values())} words, {wrong} on one side alone")
    return 1 if wrong else 0


if __name__ == "__main__":
    sys.exit(main(sys.argv[1:]))
