#!/usr/bin/env python3
"""Builds hd before any proof, as `rt try` does, and keeps the program, which `rt try` throws away.

    make/unproved.py OUT

`rt try` runs the program that it has built once, in a folder that is gone afterwards. Here that run waits for a text of rows that comes through a pipe. Meanwhile the process
that reads the pipe tells how it was started, and the program's file is copied. OUT starts the copy, OUT.program, the same way: by the loader of the toolchain.
"""
import os
import shlex
import shutil
import subprocess
import sys
import tempfile
import threading

ROOT = os.path.dirname(os.path.dirname(os.path.abspath(__file__)))
DBD = os.path.join(ROOT, "examples", "edu", "edu.dbd")


def reader_of(pipe):
    """The number of the process, but for this one, that has a pipe open; None where there is none."""
    for process in filter(str.isdigit, os.listdir("/proc")):
        folder = f"/proc/{process}/fd"
        try:
            if int(process) != os.getpid() and any(os.path.samefile(f"{folder}/{name}", pipe) for name in os.listdir(folder)):
                return process
        except OSError:
            # it has ended, or is another user's
            continue
    return None


def copied(process, words, out):
    """Copies the program of a process that was started with these words at the end; answers the words in front of them, which start the copy."""
    with open(f"/proc/{process}/cmdline", encoding="utf-8") as file:
        *loader, program = file.read().split("\0")[: -len(words) - 1]
    shutil.copyfile(os.path.join(f"/proc/{process}/cwd", program), out + ".program")
    os.chmod(out + ".program", 0o755)
    return [*loader, out + ".program"]


class Trying:
    """`rt try`, whose end is a reader of the pipe too, so that nobody waits for a program that was not built."""

    def __init__(self, words, pipe, log):
        self.pipe = pipe
        self.process = subprocess.Popen(["rt", "try", "--", *words], cwd=os.path.join(ROOT, "crates", "hd"), stdin=subprocess.DEVNULL, stdout=log, stderr=log)
        self.end = threading.Thread(target=self.wait)
        self.end.start()

    def wait(self):
        self.process.wait()
        self.reader = os.open(self.pipe, os.O_RDONLY | os.O_NONBLOCK)


def main(out):
    with tempfile.TemporaryDirectory(prefix="hd-unproved-") as place:
        pipe, stream, log = (os.path.join(place, name) for name in ("rows", "stream", "log"))
        words = ["stream", "--no-sync", DBD, pipe, stream]
        os.mkfifo(pipe)
        with open(log, "wb") as told:
            trying = Trying(words, pipe, told)
        with open(pipe, "wb"):
            reader = reader_of(pipe)
            start = copied(reader, words, out) if reader else []
        trying.end.join()
        if not start or not os.path.exists(stream):
            with open(log, encoding="utf-8", errors="replace") as told:
                sys.exit(f"{told.read()}hd was not built: see above")
    with open(out + ".new", "w", encoding="utf-8") as file:
        file.write(f'#!/bin/sh\nexec {" ".join(map(shlex.quote, start))} "$@"\n')
    os.chmod(out + ".new", 0o755)
    os.replace(out + ".new", out)


if __name__ == "__main__":
    main(os.path.abspath(sys.argv[1]))
