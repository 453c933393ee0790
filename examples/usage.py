#!/usr/bin/env python3
"""Compares how the documents say that hd is called with what its help says, and lets the formatter read the manual pages.

    examples/usage.py

In README.md and docs/ each `hd COMMAND WORD ..` names a command of hd, words and options that it has, and no other; the table of README.md and the manual page have every command, and the page every
option. Each difference is told, and then the status is 1. Where groff is not there, that is said, and the pages are not read.
"""
import glob
import os
import re
import shutil
import subprocess
import sys

ROOT = os.path.dirname(os.path.dirname(os.path.abspath(__file__)))
sys.path.insert(0, os.path.join(ROOT, "make"))
from commands import commands_of

PAGES = ["README.md", *sorted(glob.glob("docs/*.md", root_dir=ROOT))]
MANUAL = "docs/hd.1"

wrong = 0


def tell(what):
    """Tells a difference."""
    global wrong
    wrong += 1
    print(what)


def fault_of(words, command, options):
    """Why a command of hd is not called with these words; None where it may be."""
    places = []
    words = list(words)
    while words:
        word = words.pop(0)
        if not word.startswith("-"):
            places.append(word.strip("[]"))
        elif word not in options:
            return f"no option {word}"
        elif options[word].value and words:
            words.pop(0)
    names = [word.name for word in command.words]
    needed = [word.name for word in command.words if word.is_needed]
    # a few words in capitals stand for all, as they are in the help; none stand for the command alone
    if places and (places != names[: len(places)] or len(places) < len(needed)):
        return f"its words are {' '.join(names)}"
    return None


def page(name, text, commands):
    """The calls of hd that a page has in backquotes."""
    found = 0
    for line in re.findall(r"`hd ([a-z]+(?: [^`]*)?)`", text):
        command, *words = line.split()
        # of a call with names of files, as in a session, the sessions judge
        if any(not re.match(r"\[?[A-Z]+\]?$|--[a-z-]+$", word) for word in words):
            continue
        found += 1
        fault = fault_of(words, commands[command], {name: option for option in commands[command].options for name in option.names}) if command in commands else "no such command"
        if fault:
            tell(f"{name}: `hd {line}`: {fault}")
    return found


def said_of(text):
    """A manual page without the requests of the formatter."""
    return re.sub(r"\\f[BIR]|\\&|^\.[A-Z]+ ?|\"", "", text, flags=re.M).replace("\\-", "-")


def main():
    program = os.path.join(ROOT, "bin", "hd")
    whole, listed = commands_of(program)
    commands = {command.name: command for command in listed}
    texts = {}
    for name in [*PAGES, MANUAL]:
        with open(os.path.join(ROOT, name), encoding="utf-8") as file:
            texts[name] = file.read()
    found = sum(page(name, texts[name], commands) for name in PAGES)
    manual = said_of(texts[MANUAL])
    synopsis = manual[manual.index("SYNOPSIS") : manual.index("DESCRIPTION")]
    rows = re.findall(r"^\| `hd ?([a-z]*)", texts["README.md"], flags=re.M)
    for command in listed:
        if f"hd {command.name}\n" not in synopsis:
            tell(f"{MANUAL}: its synopsis has no hd {command.name}")
        if not re.search(rf"^hd {command.name}\b", manual[manual.index("COMMANDS") :], flags=re.M):
            tell(f"{MANUAL}: hd {command.name} is not described")
        if command.name not in rows:
            tell(f"README.md: its table has no hd {command.name}")
        for option in command.options:
            for name in option.names:
                if name not in manual:
                    tell(f"{MANUAL}: {name} of hd {command.name} is not described")
    for name in set(rows) - set(commands) - {""}:
        tell(f"README.md: there is no hd {name}")
    pages = [MANUAL, "dli/hdrun.1"]
    made = subprocess.run([sys.executable, "docs/manual.py", "docs/FORMATS.md"], cwd=ROOT, stdout=subprocess.PIPE, check=True, timeout=60).stdout
    if shutil.which("groff"):
        for name, text in [(name, open(os.path.join(ROOT, name), "rb").read()) for name in pages] + [("the manual page of docs/FORMATS.md", made)]:
            done = subprocess.run(["groff", "-ww", "-man", "-Tutf8"], input=text, stdout=subprocess.PIPE, stderr=subprocess.PIPE, timeout=60)
            if done.returncode or done.stderr:
                tell(f"{name}: {done.stderr.decode('utf-8', 'replace')}")
    else:
        print("(no manual page is read: there is no groff)")
    print(f"README.md, docs and the manual page: {len(listed)} commands, {found} calls, {wrong} wrong")
    return 1 if wrong else 0


if __name__ == "__main__":
    sys.exit(main())
