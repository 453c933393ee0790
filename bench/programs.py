#!/usr/bin/env python3
"""Measures programs that call hd through its pipe, beside the same calls as a deck: a scan by GN of all segments in COBOL, C and Python, and GU by three
keys in C and Python.

    bench/programs.py [SEGMENTS]

Each is run three times, and the least elapsed time is shown; what a deck of one call takes, which checks the volume, is left out of all. The system's reads
and writes are the server's, counted by strace in a run of its own. It wants gcc, and cobc for COBOL.
"""
import os
import random
import shutil
import subprocess
import sys
import tempfile
import time

import shapes

ROOT = os.path.dirname(os.path.dirname(os.path.abspath(__file__)))
BIN = os.path.join(ROOT, "bin")
RUNS = 3
UNIQUE = 50_000

COBOL = """       IDENTIFICATION DIVISION.
       PROGRAM-ID. SCAN.
       DATA DIVISION.
       WORKING-STORAGE SECTION.
       77  GN-FUNC             PIC X(4) VALUE 'GN  '.
       77  CALLS               PIC 9(9) COMP VALUE ZERO.
       01  IO-AREA             PIC X(30).
       LINKAGE SECTION.
       01  DB-PCB.
           05  FILLER          PIC X(10).
           05  STATUS-CODE     PIC X(2).
           05  FILLER          PIC X(37).
       PROCEDURE DIVISION USING DB-PCB.
           PERFORM UNTIL STATUS-CODE = 'GB'
               CALL 'CBLTDLI' USING GN-FUNC DB-PCB IO-AREA
               ADD 1 TO CALLS
           END-PERFORM.
           DISPLAY CALLS.
           GOBACK.
"""

C = """#include <ims.h>
#include <stdio.h>
#include <string.h>
int main(void)
{
    PCB_50_TYPE *pcb = (PCB_50_TYPE *)__pcblist[0];
    char area[30], course[32], class[32], student[32];
    long calls = 0;
    FILE *keys = fopen("keys", "r");
    if (!keys) {
        while (strncmp(pcb->stat_code, "GB", 2) && ++calls)
            ctdli("GN  ", pcb, area);
    } else {
        while (fscanf(keys, "%31[^/]/%31[^/]/%31[^\\n]\\n", course, class, student) == 3 && ++calls)
            if (ctdli("GU  ", pcb, area, course, class, student))
                return 8;
    }
    printf("%ld\\n", calls);
    return 0;
}
"""

PYTHON = """import os
import sys
import hd
with hd.open("b.dbd", "b.psb", "b.volume") as session:
    pcb, calls = session.pcb(1), 0
    if not os.path.exists("keys"):
        while pcb.gn().status != "GB":
            calls += 1
        calls += 1
    else:
        for line in open("keys"):
            if pcb.gu(*(key.encode() for key in line.rstrip("\\n").split("/"))).status != "  ":
                sys.exit(8)
            calls += 1
print(calls)
"""


def run(words, printed=None):
    """The elapsed time of a command."""
    begun = time.monotonic()
    done = subprocess.run(words, stdout=subprocess.PIPE, env=ENVIRONMENT, check=True, encoding="ascii")
    took = time.monotonic() - begun
    if printed is not None and int(done.stdout) != printed:
        sys.exit(f"{words}: {done.stdout}")
    return took


def least(words, printed=None):
    return min(run(words, printed) for _ in range(RUNS))


def show(what, calls, took, opening):
    each = max(0.0, took - opening) / calls
    print(f"{what:<30}{took:8.2f} s{each * 1e6:9.1f} us a call{1 / each if each else 0:12,.0f} calls a second", flush=True)


def system_calls(words):
    """The server's reads from the pipe and writes into it."""
    subprocess.run(["strace", "-f", "-c", "-o", "strace.log", "-e", "trace=read,write", *words], stdout=subprocess.DEVNULL, env=ENVIRONMENT, check=True)
    counts = {}
    with open("strace.log", encoding="ascii") as file:
        for line in file:
            parts = line.split()
            if parts and parts[-1] in ("read", "write"):
                counts[parts[-1]] = int(parts[3])
    return counts.get("read", 0), counts.get("write", 0)


def write(name, text):
    with open(name, "w" if isinstance(text, str) else "wb") as file:
        file.write(text)


def main(words):
    segments = int(words[0]) if words else 200_000
    rows = list(shapes.SHAPES["deep"](segments))
    write("b.dbd", shapes.DBD)
    write("b.psb", shapes.PSB)
    write("b.stream", shapes.stream(rows))
    write("one.deck", "L     GN\n")
    write("scan.deck", shapes.repeated("GN", len(rows) + 1))
    run(["hd", "reload", "b.dbd", "b.stream", "b.volume", "65536"])
    opening = least(["hd", "deck", "b.dbd", "b.psb", "b.volume", "one.deck"])
    calls = len(rows) + 1
    print(f"{len(rows):,} segments; a deck of one call {opening:.2f} s")
    show("scan: hd deck", calls, least(["hd", "deck", "b.dbd", "b.psb", "b.volume", "scan.deck"]), opening)
    write("SCAN.c", C)
    write("scan.py", PYTHON)
    hdrun = ["hdrun", "--dbd", "b.dbd", "--psb", "b.psb", "--volume", "b.volume"]
    if shutil.which("cobc"):
        write("SCAN.cob", COBOL)
        subprocess.run(["cobc", "-m", "-std=ibm", "SCAN.cob"], check=True)
        show("scan: COBOL", calls, least([*hdrun, "DLI,SCAN"], calls), opening)
    subprocess.run(["gcc", "-O2", "-I", os.path.join(ROOT, "dli", "include"), "-shared", "-fPIC", "-o", "SCAN.so", "SCAN.c"], check=True)
    show("scan: C", calls, least([*hdrun, "DLI,SCAN"], calls), opening)
    show("scan: Python", calls, least(["python3", "scan.py"], calls), opening)
    if shutil.which("strace"):
        reads, writes = system_calls([*hdrun, "DLI,SCAN"])
        print(f"both sides' reads and writes, a call: {reads / calls:.2f} and {writes / calls:.2f}, two of each where nothing is read ahead")
    random_number = random.Random("keys")
    player = shapes.Deep(segments, random_number)
    keys = [player.path() for _ in range(UNIQUE)]
    write("keys", "".join("/".join(path) + "\n" for path in keys))
    write("keys.deck", "".join(shapes.call("GU", *path) for path in keys))
    show("GU by three keys: hd deck", UNIQUE, least(["hd", "deck", "b.dbd", "b.psb", "b.volume", "keys.deck"]), opening)
    show("GU by three keys: C", UNIQUE, least([*hdrun, "DLI,SCAN"], UNIQUE), opening)
    show("GU by three keys: Python", UNIQUE, least(["python3", "scan.py"], UNIQUE), opening)
    return 0


ENVIRONMENT = dict(os.environ, PATH=BIN + ":" + os.environ["PATH"], PYTHONPATH=os.path.join(ROOT, "dli"), HD_PGMLIB=".")

if __name__ == "__main__":
    with tempfile.TemporaryDirectory() as folder:
        os.chdir(folder)
        sys.exit(main(sys.argv[1:]))
