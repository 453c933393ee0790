#!/usr/bin/env python3
"""Writes a page of the documents as a manual page.

    docs/manual.py docs/FORMATS.md >hd-formats.5

It knows what the page has: headings, paragraphs, lists, tables, texts that are set off by four blanks, and words in backquotes.
"""
import re
import sys


def inline(text):
    """A text as the manual's formatter reads it."""
    text = text.replace("\\|", "|").replace("\\", "\\e").replace("-", "\\-")
    text = re.sub(r"\[([^]]*)\]\([^)]*\)", r"\1", text)
    text = re.sub(r"`([^`]*)`", r"\\fB\1\\fR", text)
    text = re.sub(r"\*([^*\s][^*]*)\*", r"\\fI\1\\fR", text)
    return spelled(text)


def plain(text):
    """A line that is set off, as it is."""
    return spelled(text.replace("\\", "\\e").replace("-", "\\-"))


def spelled(text):
    """A text that begins no request of the formatter's, its letters beyond ASCII by their numbers."""
    text = "".join(letter if letter.isascii() else f"\\[u{ord(letter):04X}]" for letter in text)
    return re.sub(r"^([.'])", r"\\&\1", text)


def cells(line):
    """The cells of a table's row."""
    return [cell.strip() for cell in re.split(r"(?<!\\)\|", line.strip().strip("|"))]


def table(rows):
    """The rows of a table: each begins with its first cell, and the others stand behind it."""
    lines = []
    for row in rows[2:]:
        first, *rest = cells(row)
        lines += [".TP", inline(first) or "\\&", inline("; ".join(cell for cell in rest if cell)) or "\\&"]
    return lines


def points(rows):
    """The points of a list, whose further lines are indented."""
    lines = []
    for row in rows:
        lines += [".IP \\(bu 2"] if row.startswith("- ") else []
        lines += [inline(row.removeprefix("- ").strip())]
    return lines


def page(name, section, text):
    """The manual page of a document."""
    lines = [f'.TH {name.upper()} {section} "" "hd" "File Formats"', ".SH NAME", f"{name} \\- what hd reads and writes, byte by byte"]
    for block in re.split(r"\n\s*\n", text.strip()):
        rows = block.split("\n")
        if rows[0].startswith("# "):
            lines += [".SH DESCRIPTION"]
            rows = rows[1:]
        if not rows:
            continue
        if rows[0].startswith("## "):
            lines += [".SH " + inline(rows[0][3:])]
        elif rows[0].startswith("### "):
            lines += [".SS " + inline(rows[0][4:])]
        elif rows[0].startswith("|"):
            lines += table(rows)
        elif rows[0].startswith("- "):
            lines += points(rows)
        elif rows[0].startswith("    "):
            lines += [".PP", ".in +4n", ".EX", *(plain(row[4:]) for row in rows), ".EE", ".in"]
        else:
            lines += [".PP", *(inline(row) for row in rows)]
    return "\n".join(lines) + "\n"


if __name__ == "__main__":
    with open(sys.argv[1], encoding="utf-8") as document:
        sys.stdout.write(page("hd-formats", 5, document.read()))
