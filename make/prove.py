#!/usr/bin/env python3
"""Proves hd and the libraries that it stands on, tells how far that is, and leaves the proved program.

    make/prove.py OUT

What was proved before and has not changed is not proved again. No crate of tests is proved: that is the gate's work.
"""
import os
import subprocess
import sys
import time

from stamp import stamp

ROOT = os.path.dirname(os.path.dirname(os.path.abspath(__file__)))

# Minutes of one processor for a thousand lines of Rattle, proved from nothing, as all crates took them on a machine with other work.
MINUTES = 3.6


def crates_below(name):
    """The crates that a crate stands on, the lowest first, and itself."""
    with open(os.path.join(ROOT, "crates.txt"), encoding="utf-8") as file:
        lines = [line.partition(":") for line in file if not line.startswith("#")]
    needs = {crate.strip(): words.split() for crate, _, words in lines}
    found = []

    def add(crate):
        for below in needs[crate]:
            if below in needs:
                add(below)
        if crate not in found:
            found.append(crate)

    add(name)
    return found


def lines_of(crate):
    """How many lines of code a crate has."""
    source = os.path.join(ROOT, "crates", crate, "src")
    count = 0
    for name in os.listdir(source):
        with open(os.path.join(source, name), encoding="utf-8") as file:
            count += sum(1 for _ in file)
    return count


def minutes(seconds):
    return max(1, round(seconds / 60))


def main(out):
    crates = crates_below("hd")
    lines = {crate: lines_of(crate) for crate in crates}
    whole = sum(lines.values())
    processors = len(os.sched_getaffinity(0))
    print(f"Proving hd: {len(crates)} crates, {whole:,} lines. From nothing that takes about {minutes(60 * MINUTES * whole / 1000 / processors)} minutes on {processors} processors; to try hd at once, unproved: make run", file=sys.stderr)
    begun = time.monotonic()
    with open(out + ".log", "w", encoding="utf-8") as log:
        proving = subprocess.Popen(["rt", "run"], cwd=os.path.join(ROOT, "crates", "hd"), stdin=subprocess.DEVNULL, stdout=subprocess.DEVNULL, stderr=subprocess.PIPE, encoding="utf-8", errors="replace")
        for line in proving.stderr:
            log.write(line)
            # rt's word that it begins with a crate: "rt: chose --jobs 2 for hd_volume"
            name = line.split()[-1] if line.startswith("rt: chose --jobs ") else ""
            if name in lines:
                behind = sum(lines[crate] for crate in crates[: crates.index(name)])
                print(f"  {minutes(time.monotonic() - begun):3} min, {100 * behind // whole:2} in 100: {name}, {crates.index(name) + 1} of {len(crates)}", file=sys.stderr)
    if proving.wait():
        print(f"hd is not proved: {out}.log says why", file=sys.stderr)
        return 1
    stamp(os.path.join(ROOT, "crates", "hd", "out", "hd"), out)
    return 0


if __name__ == "__main__":
    sys.exit(main(os.path.abspath(sys.argv[1])))
