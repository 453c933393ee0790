#!/usr/bin/env python3
"""Tries hd over real files: nothing that it is given, and nothing that ends it, destroys a file or leaves half of one.

    tests/files_test.py FOLDER      FOLDER has hd

Its last line tells how many cases there were, and how many were wrong; its status is 1 if any was. It wants python3; gcc for a shim before the calls of the
system, by which each of them fails in turn; and to be root for a small file system in memory and for files of other users. What is not there is said, and
left out.
"""
import collections
import fcntl
import os
import random
import resource
import shutil
import signal
import struct
import subprocess
import sys
import tempfile
import threading
import time

HERE = os.path.dirname(os.path.abspath(__file__))
PARTS = os.path.join(os.path.dirname(HERE), "examples", "parts")
sys.path.insert(0, os.path.join(os.path.dirname(HERE), "dli"))
import hd as dli
from playing import Count, Done, read, write

# How often a reload, and an unload, is killed, and the bytes of stack in which every command runs.
KILLS = 600
STACK = 98_304
NOBODY = 65534
IN_USE = "volume is in use\n"
DEVICE = "device failed\n"

count = Count()
expect = count.expect


def files():
    """The bytes of each file of the working folder."""
    return {name: read(name) for name in os.listdir(".") if os.path.isfile(name)}


def stream_of(roots, database=b"PARTS   "):
    """An unload stream of so many parts, each with two stocks."""
    records = []
    for number in range(roots):
        records.append(b"\1\0\x20P%05d%-26d" % (number, number))
        records += [b"\2\0\x09%s%06d" % (place, number) for place in (b"HAM", b"KIL")]
    return b"HDUNLOAD\0\1" + database + b"".join(records) + b"\0" + struct.pack(">I", len(records))


class Place:
    """A folder with a DBD, a PSB, streams, rows and volumes; the working folder while it lasts."""

    def __init__(self, program):
        self.hd = os.path.join(os.path.abspath(program), "hd")
        self.folder = tempfile.mkdtemp(prefix="hd-files-")
        os.chmod(self.folder, 0o755)
        os.chdir(self.folder)
        for name in ("parts.dbd", "parts.psb"):
            shutil.copy(os.path.join(PARTS, name), name)
        for name, roots in (("small", 20), ("large", 1500)):
            write(f"{name}.in", stream_of(roots))
            self.must("reload", "parts.dbd", f"{name}.in", f"{name}.volume", "4096")
            self.must("show", "parts.dbd", f"{name}.volume", "--svg", f"{name}.svg")
            write(f"{name}.rows", self.must("rows", "parts.dbd", f"{name}.volume").encode())
        write("change.deck", b"L     GHU  PART    (PARTNO  EQP00003)\nL     REPL\nD%-32b\nL     ISRT PART    *-\nD%-32b\n" % (b"P00003changed", b"P99999new"))
        write("get.deck", b"L     GU   PART\nL  20 GN\n")
        self.results = self.results_of("small")

    def results_of(self, size):
        """The commands whose result replaces a file, OUT, with what it is to have then."""
        return [
            ("reload", ["reload", "parts.dbd", f"{size}.in", "OUT", "4096"], read(f"{size}.volume")),
            ("unload", ["unload", "parts.dbd", f"{size}.volume", "OUT"], read(f"{size}.in")),
            ("stream", ["stream", "parts.dbd", f"{size}.rows", "OUT"], read(f"{size}.in")),
            ("show", ["show", "parts.dbd", f"{size}.volume", "--svg", "OUT"], read(f"{size}.svg")),
        ]

    def start(self, *words, **more):
        more = {"stdin": subprocess.DEVNULL, "stdout": subprocess.PIPE, "stderr": subprocess.PIPE, **more}
        return subprocess.Popen([self.hd, *words], **more)

    def run(self, *words, **more):
        """How hd ended with these words."""
        with self.start(*words, **more) as process:
            try:
                out, err = process.communicate(timeout=60)
            except subprocess.TimeoutExpired:
                process.kill()
                return Done("too late", "", "")
        return Done(process.returncode, (out or b"").decode("utf-8", "replace"), (err or b"").decode("utf-8", "replace"))

    def must(self, *words):
        done = self.run(*words)
        if done.status != 0:
            sys.exit(f"hd {' '.join(words)}: {done}")
        return done.out

    def more(self, *words, **more):
        """The further lines with which hd ended."""
        return self.run("--explain", "always", *words, **more)

    def passes(self, volume):
        return self.run("check", "parts.dbd", volume).status == 0

    def remove(self):
        os.chdir("/")
        shutil.rmtree(self.folder)


def to(words, name):
    """The words of a command whose result goes to a file."""
    return [name if word == "OUT" else word for word in words]


# Standard streams that are closed


def closing(descriptors):
    def close():
        for descriptor in descriptors:
            os.close(descriptor)

    return close


def try_closed_streams(place):
    commands = [(name, words) for name, words, _ in place.results]
    commands += [
        ("deck", ["deck", "parts.dbd", "parts.psb", "changed.volume", "change.deck"]),
        ("serve", ["serve", "parts.dbd", "parts.psb", "changed.volume"]),
        ("check", ["check", "parts.dbd", "changed.volume"]),
        ("rows", ["rows", "parts.dbd", "changed.volume"]),
        ("show text", ["show", "parts.dbd", "changed.volume"]),
        ("a fault", ["check", "parts.dbd", "faulty.volume"]),
        ("explain", ["explain", "14"]),
    ]
    write("faulty.volume", read("small.volume")[:-512])
    for name, words in commands:
        for closed in ((0,), (1,), (2,), (0, 1), (1, 2), (0, 1, 2)):
            shutil.copy("small.volume", "changed.volume")
            write("closed.out", b"older")
            before = files()
            streams = {"stdin": subprocess.DEVNULL, "stdout": subprocess.DEVNULL, "stderr": subprocess.DEVNULL}
            done = place.run(*to(words, "closed.out"), **streams, preexec_fn=closing(closed))
            wanted = 3 if 1 in closed else 0
            if name == "serve" and 0 in closed:
                wanted = 3
            if name == "a fault":
                wanted = 1
            expect(f"{name} with {closed} closed ends with {wanted}", done.status == wanted, done.status)
            expect(f"{name} with {closed} closed leaves a sound volume", place.passes("changed.volume"))
            changed = [file for file, data in files().items() if data != before.get(file)]
            may_change = {"deck": ["changed.volume"]}.get(name, ["closed.out"] if "closed.out" in to(words, "closed.out") else [])
            expect(f"{name} with {closed} closed changes no other file", set(changed) <= set(may_change), changed)
            for out, _, whole in (result for result in place.results if result[0] == name):
                expect(f"{out} with {closed} closed leaves a whole file", read("closed.out") in (b"older", whole))
    os.remove("closed.out")


# Locks


def try_locks(place):
    for name, words, _ in place.results:
        for how in (fcntl.LOCK_EX, fcntl.LOCK_SH):
            for locked in ("locked.out", "locked.out.hd-new"):
                write("locked.out", b"older")
                with open(locked, "ab") as file:
                    fcntl.flock(file, how)
                    done = place.run(*to(words, "locked.out"))
                    expect(f"{name} over {locked} that is locked", done == (3, "", IN_USE) and read("locked.out") == b"older", done)
                if locked != "locked.out":
                    os.remove(locked)
        shutil.copy("small.volume", "open.volume")
        with dli.open("parts.dbd", "parts.psb", "open.volume", program=place.hd) as session:
            session.pcb(1).gn()
            before = read("open.volume")
            done = place.more(*to(words, "open.volume"))
            told = IN_USE + "  open.volume: another program uses it; try again when that one has ended\n"
            expect(f"{name} over a volume that is open", done == (3, "", told) and read("open.volume") == before, done)
    for name in ("locked.out", "open.volume"):
        os.remove(name)


def try_many_at_once(place):
    """Several that write one file at once: each does its work or is refused, and the file is whole whenever it is looked at."""
    for name, words, whole in place.results:
        for _ in range(5):
            write("many.out", b"older")
            processes = [place.start(*to(words, "many.out")) for _ in range(6)]
            seen = {read("many.out") for _ in range(50)}
            ends = [process.communicate() + (process.returncode,) for process in processes]
            statuses = sorted(end[2] for end in ends)
            expect(f"{name} six times at once", set(statuses) <= {0, 3} and 0 in statuses, ends)
            expect(f"{name} six times at once leaves a whole file", seen <= {b"older", whole} and read("many.out") == whole)
            expect(f"{name} six times at once leaves no other file", not os.path.exists("many.out.hd-new"))
    os.remove("many.out")


# Results that replace a file


def try_refusals(place):
    """What is refused leaves what was there."""
    write("bad.in", stream_of(3)[:60])
    write("other.in", stream_of(3, b"OTHER   "))
    write("bad.rows", b"PART no part\n")
    write("bad.volume", read("small.volume")[:-512])
    write("sized.in", stream_of(1500))
    for name, words, statuses in (
        ("a cut stream", ["reload", "parts.dbd", "bad.in", "kept.out", "16"], {1}),
        ("another database's stream", ["reload", "parts.dbd", "other.in", "kept.out", "16"], {1}),
        ("a volume for a stream", ["reload", "parts.dbd", "small.volume", "kept.out", "16"], {1}),
        ("a DBD for a stream", ["reload", "parts.dbd", "parts.psb", "kept.out", "16"], {1}),
        ("a stream without room", ["reload", "parts.dbd", "sized.in", "kept.out", "16"], {1}),
        ("no stream", ["reload", "parts.dbd", "none.in", "kept.out", "16"], {3}),
        ("a PSB for a DBD", ["reload", "parts.psb", "small.in", "kept.out", "16"], {2}),
        ("a volume with a fault", ["unload", "parts.dbd", "bad.volume", "kept.out"], {1}),
        ("a stream for a volume", ["unload", "parts.dbd", "small.in", "kept.out"], {1}),
        ("a stream for a volume that is drawn", ["show", "parts.dbd", "bad.in", "--svg", "kept.out"], {0, 1}),
        ("rows with a fault", ["stream", "parts.dbd", "bad.rows", "kept.out"], {2}),
        ("no rows", ["stream", "parts.dbd", "none.rows", "kept.out"], {3}),
    ):
        for older in (b"older", None):
            if older:
                write("kept.out", older)
            elif os.path.exists("kept.out"):
                os.remove("kept.out")
            done = place.run(*words)
            expect(f"{name} is refused", done.status in statuses and done.status != 0 or name.endswith("drawn"), done)
            expect(f"{name} leaves what was there", name.endswith("drawn") or read("kept.out") == older)
            expect(f"{name} leaves no new file", not os.path.exists("kept.out.hd-new"))
    os.path.exists("kept.out") and os.remove("kept.out")


def try_names(place):
    """Links are followed, rights are kept, and what is no regular file is written as it stands."""
    os.makedirs("deep/er", exist_ok=True)
    for name, words, whole in place.results:
        write("deep/real.out", b"older")
        os.chmod("deep/real.out", 0o640)
        if os.getuid() == 0:
            os.chown("deep/real.out", 1234, 5678)
        os.symlink("../real.out", "deep/er/link")
        os.symlink("deep/er/link", "link")
        done = place.run(*to(words, "link"))
        found = os.stat("deep/real.out")
        expect(f"{name} follows links", done.status == 0 and os.path.islink("link") and os.path.islink("deep/er/link") and read("deep/real.out") == whole, done)
        expect(f"{name} keeps the rights of a file", found.st_mode & 0o7777 == 0o640, oct(found.st_mode))
        expect(f"{name} keeps the owner of a file", os.getuid() != 0 or (found.st_uid, found.st_gid) == (1234, 5678), found)
        os.remove("deep/real.out")
        done = place.run(*to(words, "link"))
        expect(f"{name} follows links that lead nowhere", done.status == 0 and os.path.islink("link") and read("deep/real.out") == whole, done)
        for link in ("link", "deep/er/link", "deep/real.out"):
            os.remove(link)
        os.symlink("loop", "loop")
        expect(f"{name} to a link to itself", place.run(*to(words, "loop"))[:2] == (3, ""))
        os.remove("loop")
        os.mkfifo("pipe")
        taken = []
        reader = threading.Thread(target=lambda: taken.append(read("pipe")))
        if name != "reload":
            reader.start()
            done = place.run(*to(words, "pipe"))
            reader.join()
            expect(f"{name} to a pipe", done.status == 0 and taken == [whole], done)
        os.remove("pipe")
        expect(f"{name} to a full device", place.run(*to(words, "/dev/full")) == (3, "", DEVICE) and not os.path.exists("/dev/full.hd-new"))
        wanted = 3 if name == "reload" else 0
        expect(f"{name} to the device that takes all", place.run(*to(words, "/dev/null")).status == wanted and not os.path.exists("/dev/null.hd-new"))
        expect(f"{name} to a folder", place.run(*to(words, "deep")) == (3, "", DEVICE))
        expect(f"{name} into no folder", place.run(*to(words, "none/out")) == (3, "", DEVICE))
    shutil.rmtree("deep")


def try_left_files(place):
    """A new file that stands already: one that was left is replaced; what is none of these, is not touched."""
    for name, words, whole in place.results:
        write("left.out", b"older")
        write("left.out.hd-new", b"half")
        done = place.run(*to(words, "left.out"))
        expect(f"{name} over a file that was left", done.status == 0 and read("left.out") == whole and not os.path.exists("left.out.hd-new"), done)
        for kind in ("link", "folder", "pipe", "hard link"):
            write("left.out", b"older")
            write("precious", b"precious")
            if kind == "link":
                os.symlink("precious", "left.out.hd-new")
            elif kind == "folder":
                os.mkdir("left.out.hd-new")
            elif kind == "pipe":
                os.mkfifo("left.out.hd-new")
            else:
                os.link("precious", "left.out.hd-new")
            done = place.more(*to(words, "left.out"))
            if kind == "hard link":
                expect(f"{name} beside a {kind}", done.status == 0 and read("left.out") == whole, done)
            else:
                expect(f"{name} beside a {kind}", done == (3, "", f"{DEVICE}  left.out.hd-new: this is a {kind}, where a file is wanted\n"), done)
                expect(f"{name} beside a {kind} leaves what was there", read("left.out") == b"older" and os.path.lexists("left.out.hd-new"))
                os.rmdir("left.out.hd-new") if kind == "folder" else os.remove("left.out.hd-new")
            expect(f"{name} beside a {kind} leaves what is there", read("precious") == b"precious")
    shutil.copy("small.in", "left.out.hd-new")
    done = place.run("reload", "parts.dbd", "left.out.hd-new", "left.out", "4096")
    expect("the input is no file that was left", done.status == 64 and read("left.out.hd-new") == read("small.in"), done)
    for name in ("left.out", "left.out.hd-new", "precious"):
        os.remove(name)


def become_nobody():
    os.setgid(NOBODY)
    os.setuid(NOBODY)


def try_other_users(place):
    if os.getuid() != 0:
        print("not root: files of other users are left out")
        return
    for name, words, whole in place.results:
        for folder, mode, file, status in ((0o755, 0o666, 0, 3), (0o777, 0o644, 0, 3), (0o777, 0o666, 0, 0), (0o777, 0o600, NOBODY, 0), (0o777, 0o400, NOBODY, 3)):
            os.mkdir("users")
            os.chmod("users", folder)
            write("users/out", b"older")
            os.chmod("users/out", mode)
            os.chown("users/out", file, file)
            done = place.more(*to(words, "users/out"), preexec_fn=become_nobody)
            case = f"{name} by nobody over a file of {file} with {oct(mode)} in a folder with {oct(folder)}"
            expect(case, done.status == status and read("users/out") == (whole if status == 0 else b"older"), done)
            expect(f"{case} keeps its rights", os.stat("users/out").st_mode & 0o7777 == mode)
            expect(f"{case} tells why", status == 0 or done.err.endswith(": Permission denied\n"), done)
            shutil.rmtree("users")


def try_full_disk(place):
    if os.getuid() != 0 or not shutil.which("mount"):
        print("not root: a full disk is left out")
        return
    os.mkdir("disk")
    if subprocess.run(["mount", "-t", "tmpfs", "-o", "size=16k", "tmpfs", "disk"], capture_output=True).returncode != 0:
        print("no file system can be mounted: a full disk is left out")
        return
    try:
        for words, why in (
            (["reload", "parts.dbd", "large.in", "disk/out", "4096"], "disk/out"),
            (["unload", "parts.dbd", "large.volume", "disk/out"], "disk/out"),
            (["show", "parts.dbd", "large.volume", "--svg", "disk/out"], "disk/out"),
        ):
            write("disk/out", b"older")
            done = place.more(*words)
            expect(f"{words[0]} to a full disk", done == (3, "", f"{DEVICE}  {why}: No space left on device\n"), done)
            expect(f"{words[0]} to a full disk leaves what was there", read("disk/out") == b"older" and os.listdir("disk") == ["out"], os.listdir("disk"))
        os.remove("disk/out")
        shutil.copy("small.volume", "disk/volume")
        lines = b"".join(b"L     ISRT PART    *-\nD%-32b\n" % (b"Q%05dx" % number) for number in range(2000))
        write("grow.deck", lines)
        done = place.more("deck", "parts.dbd", "parts.psb", "disk/volume", "grow.deck")
        expect("a deck on a full disk", done.status == 3 and done.err == f"{DEVICE}  disk/volume-log: No space left on device\n", done[::2])
        expect("a deck on a full disk leaves the last commit", place.passes("disk/volume") and read("disk/volume") == read("small.volume"))
    finally:
        subprocess.run(["umount", "disk"], check=True)
        os.rmdir("disk")


def try_taken_names(place):
    """A volume whose name another file has taken is written no more, nor is that file."""
    for how in ("another volume", "another file", "no file", "a link"):
        for cache in ((), ("--cache", "1")):
            shutil.copy("small.volume", "taken.volume")
            server = place.start("--explain", "always", "serve", "parts.dbd", "parts.psb", "taken.volume", *cache, stdin=subprocess.PIPE)
            frame(server)
            if how == "another volume":
                place.must("reload", "parts.dbd", "large.in", "other.volume", "4096")
                os.rename("other.volume", "taken.volume")
            elif how == "another file":
                write("other", b"other")
                os.rename("other", "taken.volume")
            else:
                os.rename("taken.volume", "moved.volume")
                if how == "a link":
                    os.symlink("large.volume", "taken.volume")
            before = files()
            call = bytes([1, 1]) + b"ISRT" + bytes([1]) + struct.pack(">H", 9) + b"PART     " + b"%-32b" % b"P99999new"
            server.stdin.write(struct.pack(">I", len(call)) + call)
            _, err = server.communicate()
            told = f"{DEVICE}  taken.volume: another file has taken its name, or none has it\n".encode()
            expect(f"{how} has taken the name of a volume", (server.returncode, err) == (3, told), (server.returncode, err))
            expect(f"{how} has taken the name, and no file is changed", before == files())
            for name in ("taken.volume", "moved.volume"):
                os.path.lexists(name) and os.remove(name)


def frame(server):
    (length,) = struct.unpack(">I", server.stdout.read(4))
    return server.stdout.read(length)


# Kills, and calls of the system that fail


def time_of(place, words):
    """The seconds that a command takes, as the middle of five."""
    times = []
    for _ in range(5):
        begun = time.monotonic()
        place.must(*words)
        times.append(time.monotonic() - begun)
    return sorted(times)[2]


def try_kills(place):
    """Programs that are killed at any moment leave what was there, or the whole result."""
    chance = random.Random(1)
    for name, words, whole in (
        ("reload", lambda size: ["reload", "parts.dbd", f"{size}.in", "killed.out", "4096"], "{}.volume"),
        ("unload", lambda size: ["unload", "parts.dbd", f"{size}.volume", "killed.out"], "{}.in"),
    ):
        results = {size: read(whole.format(size)) for size in ("small", "large")}
        lasts = time_of(place, [*words("large"), "--no-sync"])
        kept, killed, runs = "large", 0, 0
        while killed < KILLS and runs < 10 * KILLS:
            runs += 1
            size = chance.choice(("small", "large", "large"))
            process = place.start(*words(size), *chance.choice([()] + [("--no-sync",)] * 7))
            time.sleep(chance.uniform(0, lasts))
            process.kill()
            _, err = process.communicate()
            killed += process.returncode == -signal.SIGKILL
            found = [size for size, data in results.items() if data == read("killed.out")]
            is_right = found and found[0] in (kept, size) and (process.returncode != 0 or found[0] == size)
            expect(f"{name} that is killed leaves a whole file", is_right and process.returncode in (0, -signal.SIGKILL), (process.returncode, err, found))
            kept = found[0] if found else kept
        expect(f"{name} was killed {KILLS} times", killed == KILLS, killed)
        place.must(*words("small"))
        expect(f"{name} goes on where others were killed", read("killed.out") == results["small"] and not os.path.exists("killed.out.hd-new"))
    os.remove("killed.out")


class Shim:
    """A library before the calls of the system that counts them, and has one of them fail."""

    def __init__(self, place):
        self.place = place
        self.name = os.path.join(place.folder, "shim.so")
        self.log = os.path.join(place.folder, "calls.log")

    def build(self):
        words = ["gcc", "-O1", "-Wall", "-Wextra", "-shared", "-fPIC", "-o", self.name, os.path.join(HERE, "shim.c"), "-ldl"]
        return shutil.which("gcc") is not None and subprocess.run(words).returncode == 0

    def run(self, words, at=0, do="", **more):
        environment = dict(os.environ, LD_PRELOAD=self.name, HD_SHIM_AT=str(at), HD_SHIM_DO=str(do))
        return self.place.run(*words, env=environment, **more)

    def calls(self, words, **more):
        """The calls that a command makes, each with its file."""
        environment = dict(os.environ, LD_PRELOAD=self.name, HD_SHIM_LOG=self.log)
        if os.path.exists(self.log):
            os.remove(self.log)
        done = self.place.run(*words, env=environment, **more)
        with open(self.log) as file:
            return done, [tuple(line.rstrip("\n").split(" ", 1)) for line in file]


def try_failed_calls(place, shim):
    """Each call of the system fails in turn, is short, or is the last."""
    for name, words, whole in place.results:
        words = to(words, "failed.out")
        for older in (b"older", None):
            put = (lambda: write("failed.out", older)) if older else (lambda: os.path.exists("failed.out") and os.remove("failed.out"))
            put()
            _, calls = shim.calls(words)
            for do in (5, 28, "short", "kill"):
                for at, call in enumerate(calls, 1):
                    put()
                    done = shim.run(words, at, do)
                    found = read("failed.out")
                    case = f"{name} with call {at} of {len(calls)}, {call[0]} {os.path.basename(call[1])}, made {do}"
                    expect(f"{case}, leaves a whole file", found in (older, whole) and (done.status != 0 or found == whole), done)
                    expect(f"{case}, ends as it should", ends_well(do, call, done, found == whole), done)
                    left = os.path.exists("failed.out.hd-new")
                    expect(f"{case}, leaves no new file", not left or do == "kill" or call[0] in ("flock", "statx"), done)
                    if left:
                        os.remove("failed.out.hd-new")
    os.path.exists("failed.out") and os.remove("failed.out")


def ends_well(do, call, done, is_whole):
    """Whether a command ended as it should, of which a call failed."""
    if do == "kill":
        return done.status == -signal.SIGKILL
    if do == "short" or call[0] in ("fchmod", "fchown"):
        return done.status == 0 and is_whole
    return done.status == 3


def try_failed_calls_of_decks(place, shim):
    """Each call of the system that a deck makes fails in turn, is short, or is the last. The volume is as it was or as the deck leaves it, and that where the
    deck says that it did its work, or could not write its lines."""
    words = ["deck", "parts.dbd", "parts.psb", "failed.volume", "change.deck"]
    shutil.copy("small.volume", "failed.volume")
    whole, calls = shim.calls(words)
    old, new = read("small.volume"), read("failed.volume")
    expect("a deck changes its volume", whole.status == 0 and old != new and place.passes("failed.volume"), whole)
    for do in (5, 28, "short", "kill"):
        for at, call in enumerate(calls, 1):
            shutil.copy("small.volume", "failed.volume")
            done = shim.run(words, at, do)
            recovered = place.run("recover", "parts.dbd", "failed.volume")
            found = read("failed.volume")
            case = f"a deck with call {at} of {len(calls)}, {call[0]} {os.path.basename(call[1])}, made {do}"
            expect(f"{case}, ends as it may", done == whole if do == "short" else done.status == -signal.SIGKILL if do == "kill" else done.status in (0, 3), done)
            expect(f"{case}, is whole or was not", found in (old, new) and recovered.status == 0, recovered)
            is_written = call == ("write", "output")
            expect(f"{case}, does not lie", found == new or done.status != 0 and not is_written, (done, recovered))
            expect(f"{case}, leaves no log behind a recovery", not os.path.exists("failed.volume-log"))
    os.remove("failed.volume")


def steps_of(calls):
    """The calls that write a file or wait for one, each once where it is made again at once."""
    steps = [call for call in calls if call[0] in ("pwrite", "fsync", "unlink") or call == ("write", "output")]
    return [step for at, step in enumerate(steps) if at == 0 or step != steps[at - 1]]


def try_syncs(place, shim):
    """What was written is on the disk before the last line goes out."""
    folder = os.path.realpath(".")
    for name, words, _ in place.results:
        for older in (True, False):
            if older:
                write("synced.out", b"older")
            elif os.path.exists("synced.out"):
                os.remove("synced.out")
            _, calls = shim.calls(to(words, "synced.out"))
            new = os.path.join(folder, "synced.out.hd-new")
            order = [("fsync", new), ("rename", new), ("fsync", folder), ("write", "output")]
            if not older:
                order[1] = ("rename", "synced.out.hd-new")
            found = [call for at, call in enumerate(calls) if call in order and call != calls[at - 1]]
            expect(f"{name} syncs the file, renames it and syncs the folder before it says so", found == order, calls)
            writes = [at for at, call in enumerate(calls) if call[0] in ("write", "pwrite") and call[1].endswith(".hd-new")]
            expect(f"{name} syncs what it wrote", max(writes) < calls.index(order[0]), calls)
            _, calls = shim.calls(to(words, "synced.out") + ["--no-sync"])
            expect(f"{name} --no-sync does not sync", "fsync" not in [call[0] for call in calls] and "rename" in [call[0] for call in calls], calls)
    volume = os.path.join(folder, "synced.volume")
    log = volume + "-log"
    committed = [("fsync", log), ("pwrite", log), ("fsync", log)]
    # The log is synced once more, the first byte is shut, the blocks are copied, the first byte is written; each is waited for.
    copied = [("fsync", log)] + 3 * [("pwrite", volume), ("fsync", volume)] + [("pwrite", log), ("fsync", log), ("unlink", log)]
    for deck, wanted in (
        ("change.deck", [("fsync", volume), ("fsync", folder), ("pwrite", log), *committed, ("write", "output"), *copied]),
        ("get.deck", [("fsync", volume), ("write", "output")]),
    ):
        shutil.copy("small.volume", "synced.volume")
        words = ["deck", "parts.dbd", "parts.psb", "synced.volume", deck]
        _, calls = shim.calls(words)
        found = steps_of(calls)
        expect(f"{deck} commits before it says what its calls answered, and copies behind that", found == wanted, found)
        shutil.copy("small.volume", "synced.volume")
        _, calls = shim.calls(words + ["--no-sync"])
        expect(f"{deck} --no-sync does not sync", "fsync" not in [call[0] for call in calls], calls)
    for words in (["check", "parts.dbd", "small.volume"], ["rows", "parts.dbd", "small.volume"], ["show", "parts.dbd", "small.volume"]):
        _, calls = shim.calls(words)
        names = [call[0] for call in calls]
        expect(f"{words[0]} writes no file", not {"fsync", "pwrite", "rename", "ftruncate", "unlink"} & set(names), calls)
    shutil.copy("small.volume", "synced.volume")
    call = bytes([1, 1]) + b"ISRT" + bytes([1]) + struct.pack(">H", 9) + b"PART     " + b"%-32b" % b"P99999new"
    write("calls", struct.pack(">I", len(call)) + call)
    with open("calls", "rb") as file:
        done, calls = shim.calls(["serve", "parts.dbd", "parts.psb", "synced.volume"], stdin=file)
    # (two syncs of the log, one behind the other, are one step)
    expect("serve commits at its end", done.status == 0 and steps_of(calls)[-12:] == [*committed, *copied[1:]] and place.passes("synced.volume"), steps_of(calls))
    for name in ("synced.volume", "synced.out", "calls"):
        os.remove(name)


# What is no file


def try_kinds(place):
    os.mkfifo("fifo")
    good = {"dbd": "parts.dbd", "psb": "parts.psb", "volume": "small.volume", "stream": "small.in", "deck": "get.deck"}
    for name, said in (("fifo", "pipe"), (".", "folder"), ("/dev/zero", "device"), ("/dev/null", "device")):
        for words in (
            ["check", name, good["volume"]],
            ["check", good["dbd"], name],
            ["rows", good["dbd"], name],
            ["show", name],
            ["show", good["dbd"], name],
            ["unload", good["dbd"], name, "kinds.out"],
            ["reload", good["dbd"], name, "kinds.out", "16"],
            ["reload", name, good["stream"], "kinds.out", "16"],
            ["deck", name, good["psb"], good["volume"], good["deck"]],
            ["deck", good["dbd"], name, good["volume"], good["deck"]],
            ["deck", good["dbd"], good["psb"], name, good["deck"]],
            ["serve", good["dbd"], good["psb"], name],
            ["stream", name, "small.rows", "kinds.out"],
        ):
            done = place.more(*words)
            told = f"{DEVICE}  {name}: this is a {said}, where a file is wanted\n"
            expect(f"{' '.join(words)}", done == (3, "", told) and not os.path.exists("kinds.out"), done)
    deck, rows = read("get.deck"), read("small.rows")
    for words, text in ((["deck", good["dbd"], good["psb"], good["volume"], "/dev/stdin"], deck), (["stream", good["dbd"], "/dev/stdin", "kinds.out"], rows)):
        with place.start(*words, stdin=subprocess.PIPE) as process:
            _, err = process.communicate(text)
        expect(f"{words[0]} reads a pipe", (process.returncode, err) == (0, b""), err)
    os.remove("kinds.out")
    os.remove("fifo")


def try_further_lines(place):
    write("empty", b"")
    write("short", read("small.volume")[:700])
    write("text", b"a text of some lines\nand more\n")
    write("noise", bytes(range(256)) * 4)
    length = len(read("small.volume"))
    fault = "fault 1 at 0, other 0\n"
    means = ": 1: the file is no whole volume of the DBD's block size"
    more = "; hd explain 1 says more\n"
    for words, told in (
        (["check", "small.volume", "parts.dbd"], "  small.volume: this is a volume, and no DBD source\n"),
        (["check", "small.in", "small.volume"], "  small.in: this is an unload stream, and no DBD source\n"),
        (["deck", "parts.dbd", "small.volume", "parts.psb", "get.deck"], "  small.volume: this is a volume, and no PSB source\n"),
        (["deck", "parts.dbd", "parts.psb", "small.volume", "small.in"], "  small.in: this is an unload stream, and no deck\n"),
        (["check", "parts.dbd", "small.in"], fault + "  small.in: this is an unload stream, and no volume\n"),
        (["check", "parts.dbd", "text"], fault + "  text: this is text, and no volume\n"),
        (["reload", "parts.dbd", "small.volume", "none.volume", "16"], "reload refused: U1 at record 0\n  small.volume: this is a volume, and no unload stream\n"),
        (["reload", "parts.dbd", "text", "none.volume", "16"], "reload refused: U1 at record 0\n  text: this is text, and no unload stream\n"),
        (["check", "parts.dbd", "noise"], f"{fault}  noise{means}; the file does not begin with HDVOLUME{more}"),
        (["check", "parts.dbd", "empty"], f"{fault}  empty{means}; the file has 0 bytes, and a block 512{more}"),
        (["check", "parts.dbd", "short"], f"{fault}  short{means}; the header asks for {length // 512} blocks of 512 bytes, {length} in all, and the file has 700{more}"),
        (["check", "no\nsuch\x1b[31mfile\x7f", "small.volume"], f"{DEVICE}  no\\x0asuch\\x1b[31mfile\\x7f: No such file or directory\n"),
        (["check", "parts.dbd", "ä\x85"], f"{DEVICE}  ä\\x85: No such file or directory\n"),
    ):
        done = place.more(*words)
        expect(f"hd {' '.join(words)} tells why", done.err.endswith(told), done)
    for words in (["rows", "parts.dbd", "large.volume"], ["show", "parts.dbd", "large.volume"], ["deck", "parts.dbd", "parts.psb", "large.volume", "get.deck"]):
        near, far = os.pipe()
        os.close(near)
        with place.start("--explain", "always", *words, stdout=far) as process:
            os.close(far)
            _, err = process.communicate()
        expect(f"{words[0]} to a closed pipe", (process.returncode, err) == (3, DEVICE.encode()), (process.returncode, err))
        with open("/dev/full", "wb") as full:
            done = place.more(*words, stdout=full)
        expect(f"{words[0]} to a full device", done == (3, "", f"{DEVICE}  standard output: No space left on device\n"), done)
    os.mkfifo("pipe")
    reader = threading.Thread(target=lambda: open("pipe", "rb").close())
    reader.start()
    done = place.more("unload", "parts.dbd", "large.volume", "pipe")
    reader.join()
    expect("unload to a pipe that is closed", done == (3, "", DEVICE), done)
    for name in ("empty", "short", "text", "noise", "pipe"):
        os.remove(name)


# Memory and the stack


def limit(which, most):
    return lambda: resource.setrlimit(which, (most, most))


def try_memory(place):
    """A command that finds no memory leaves what was there."""
    begins = next(most for most in range(1 << 20, 1 << 28, 1 << 16) if place.run("explain", "14", preexec_fn=limit(resource.RLIMIT_AS, most)).status == 0)
    for name, words, whole in place.results_of("large"):
        statuses = collections.Counter()
        for most in range(begins, begins + (1 << 22), 1 << 15):
            write("memory.out", b"older")
            done = place.run(*to(words, "memory.out"), "--no-sync", preexec_fn=limit(resource.RLIMIT_AS, most))
            statuses[done.status] += 1
            expect(f"{name} in {most} bytes of memory", done.status in (0, 4) and read("memory.out") == (b"older" if done.status else whole), done)
            expect(f"{name} in {most} bytes of memory leaves no other file", not os.path.exists("memory.out.hd-new"))
        expect(f"{name} ends for want of memory, and does not with more", set(statuses) == {0, 4}, statuses)
    os.remove("memory.out")


def try_stack(place):
    commands = [words for _, words, _ in place.results] + [
        ["reload", "parts.dbd", "large.in", "OUT", "4096"],
        ["unload", "parts.dbd", "large.volume", "OUT"],
        ["deck", "parts.dbd", "parts.psb", "stack.volume", "change.deck"],
        ["serve", "parts.dbd", "parts.psb", "stack.volume"],
        ["check", "parts.dbd", "large.volume"],
        ["rows", "parts.dbd", "large.volume"],
        ["rows", "parts.dbd", "large.volume", "--csv", "STOCK"],
        ["show", "parts.dbd"],
        ["show", "parts.dbd", "large.volume"],
        ["explain"],
        ["explain", "14"],
        ["check", "parts.dbd", "none"],
        ["--help"],
        [],
    ]
    for words in commands:
        shutil.copy("small.volume", "stack.volume")
        wanted = place.more(*to(words, "stack.out"))
        found = read("stack.out")
        shutil.copy("small.volume", "stack.volume")
        done = place.more(*to(words, "stack.out"), preexec_fn=limit(resource.RLIMIT_STACK, STACK), env={"PATH": os.environ["PATH"]})
        expect(f"hd {' '.join(words)} in {STACK} bytes of stack", done == wanted and read("stack.out") == found, done)
    os.remove("stack.out")


def main():
    if len(sys.argv) != 2:
        sys.exit(__doc__)
    place = Place(sys.argv[1])
    try:
        trials = [
            try_closed_streams,
            try_locks,
            try_many_at_once,
            try_refusals,
            try_names,
            try_left_files,
            try_other_users,
            try_full_disk,
            try_taken_names,
            try_kinds,
            try_further_lines,
            try_memory,
            try_stack,
            try_kills,
        ]
        for trial in trials:
            trial(place)
        shim = Shim(place)
        if shim.build():
            for trial in (try_failed_calls, try_failed_calls_of_decks, try_syncs):
                trial(place, shim)
        else:
            print("no gcc: calls of the system that fail are left out")
    finally:
        place.remove()
    sys.exit(count.status())


if __name__ == "__main__":
    main()
