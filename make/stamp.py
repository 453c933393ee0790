#!/usr/bin/env python3
"""Copies a program that was proved, and writes into the copy that it was: until then `hd --version` says that no proof stands behind it.

    make/stamp.py PROGRAM OUT
"""
import os
import subprocess
import sys

# What the program's text says (crates/hd_program), as long as what takes its place.
UNPROVED = b"unproved: this is no build that `make` has proved"


def stamp(program, out):
    """Leaves a copy of a proved program that says with which toolchain it was proved."""
    toolchain = subprocess.run(["rt", "version"], stdout=subprocess.PIPE, check=True, encoding="ascii").stdout.strip()
    proved = f"proved with {toolchain}".encode().ljust(len(UNPROVED))
    with open(program, "rb") as file:
        bytes = file.read()
    if bytes.count(UNPROVED) != 1 or len(proved) != len(UNPROVED):
        sys.exit(f"{program}: the words that say that it is unproved stand there {bytes.count(UNPROVED)} times, or are shorter than `{proved.decode()}`")
    with open(out + ".new", "wb") as file:
        file.write(bytes.replace(UNPROVED, proved))
    os.chmod(out + ".new", 0o755)
    said = subprocess.run([out + ".new", "--version"], stderr=subprocess.PIPE, encoding="utf-8").stderr
    if toolchain not in said:
        sys.exit(f"{program}: its copy says of itself: {said}")
    os.replace(out + ".new", out)


if __name__ == "__main__":
    stamp(*sys.argv[1:3])
