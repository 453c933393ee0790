#!/usr/bin/env python3
"""Lists the words that contracts cite: each public definition of the crates' specs, with its comment, its shape and its file.

    docs/definitions.py [PART ..]     all, or those whose name has one of these parts; a crate's name stands for all of its words
    docs/definitions.py --check       asks whether the words of docs/DEFINITIONS.md stand in the files that it names
"""
import os
import re
import sys

ROOT = os.path.dirname(os.path.dirname(os.path.abspath(__file__)))

# What begins a definition. Constructors and fields follow it, and are shown with it only where it has no comment of its own.
BEGINS = re.compile(r"\s*(?:abbrev pub|unfoldable pub|pub abbrev|pub record|pub data|pub) (?:record |data )?([^\s:(]+)")
FIELD = re.compile(r"\s+pub (\S+) :")


def crates():
    """The names of the crates, the lowest first."""
    with open(f"{ROOT}/crates.txt", encoding="utf-8") as it:
        return [line.split(":")[0] for line in it if line.strip() and not line.startswith("#")]


def words_of(path):
    """The definitions of a file: each word with the sentences above it. One sentence may say two words, one behind the other."""
    said, found = [], []
    with open(path, encoding="utf-8") as it:
        for line in it:
            text = line.strip()
            if text.startswith("-- ----"):
                said = []
            elif text.startswith("--"):
                said.append(text[2:].strip())
            elif (begun := BEGINS.match(line)) and not FIELD.match(line) and not text.startswith("pub mod"):
                found.append((begun[1], " ".join(said) or (f"said with `{found[-1][0]}`" if found else "")))
                said = []
            elif not text:
                said = []
    return found


def listed(parts):
    """The list, crate by crate and file by file."""
    lines = []
    for crate in crates():
        folder = f"{ROOT}/crates/{crate}/specs"
        if not os.path.isdir(folder):
            continue
        rows = []
        for name in sorted(os.listdir(folder)):
            if not name.endswith(".antt") or name == "Lib.antt":
                continue
            for word, sentence in words_of(f"{folder}/{name}"):
                if not parts or crate in parts or any(part.lower() in word.lower() for part in parts):
                    rows.append(f"| `{word}` | {sentence[:1].upper() + sentence[1:]} | {name[:-5]} |".replace("|  |", "| |"))
        if rows:
            lines += [f"## `{crate}`", "", "| Word | What it is | File |", "|---|---|---|", *rows, ""]
    return lines


def lost():
    """The words of docs/DEFINITIONS.md that do not stand where it says, each with its line."""
    found = []
    with open(f"{ROOT}/docs/DEFINITIONS.md", encoding="utf-8") as it:
        for number, line in enumerate(it, 1):
            row = re.fullmatch(r"\| (.*?) \| .* \| `(hd_\w+)`: (\w+) \|", line.strip())
            if row is None:
                continue
            path = f"{ROOT}/crates/{row[2]}/specs/{row[3]}.antt"
            there = {word for word, _ in words_of(path)} if os.path.exists(path) else set()
            found += [f"docs/DEFINITIONS.md:{number}: {word} does not stand in {row[2]}/specs/{row[3]}" for word in re.findall(r"`(\w+)`", row[1]) if word not in there]
    return found


def main(words):
    if words == ["--check"]:
        found = lost()
        print("\n".join(found) or "each word of docs/DEFINITIONS.md stands where it says")
        return bool(found)
    print("\n".join(listed(words)))
    return False


if __name__ == "__main__":
    sys.exit(main(sys.argv[1:]))
