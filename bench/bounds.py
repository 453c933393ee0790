#!/usr/bin/env python3
"""Tries hd at its bounds: the most blocks of the greatest size, types, levels and PCBs, the longest keys, a deck of a million lines, a chain of a million
twins. Each command runs with a stack of 256 kilobytes; what it prints is compared with what it should, and its processor time and peak memory are shown.

    bench/bounds.py [NAME ..]      blocks takes five gigabytes of disk
"""
import os
import resource
import subprocess
import sys
import tempfile

HD = os.path.join(os.path.dirname(os.path.abspath(__file__)), "..", "bin", "hd")
STACK = 256 * 1024
MOST_BLOCKS = 65_536

failed = 0


def run(what, words, printed, stdout=None):
    """Runs hd with these words; the last line of its output is to be this."""
    global failed
    out = stdout or "out"
    with open(out, "wb") as file:
        process = subprocess.Popen([HD, *words], stdout=file, stderr=subprocess.STDOUT, preexec_fn=lambda: resource.setrlimit(resource.RLIMIT_STACK, (STACK, STACK)))
        _, status, usage = os.wait4(process.pid, 0)
    process.returncode = os.waitstatus_to_exitcode(status)
    last = subprocess.run(["tail", "-n", "1", out], stdout=subprocess.PIPE, check=True).stdout.decode("latin-1").rstrip("\n")
    is_right = process.returncode == 0 and last == printed
    failed += not is_right
    print(f"{what:<34}{usage.ru_utime + usage.ru_stime:9.2f} s {usage.ru_maxrss / 1024:8.0f} MB  {'right' if is_right else f'WRONG: {process.returncode} {last[:200]}'}", flush=True)


def write(name, text):
    with open(name, "w", encoding="ascii") as file:
        file.write(text)


def stream(name, database, records):
    """An unload stream of rows, each a type's code and its bytes."""
    count = 0
    with open(name, "wb", buffering=1 << 20) as file:
        file.write(b"HDUNLOAD\0\1" + database.encode().ljust(8))
        for code, row in records:
            file.write(bytes([code]) + len(row).to_bytes(2, "big") + row)
            count += 1
        file.write(b"\0" + count.to_bytes(4, "big"))
    return count


def plain_dbd(segments, size=2048):
    """A DBD: each segment has a name, a parent, a length, the length of its key, and RULES where it has none."""
    lines = ["         DBD   NAME=BOUNDS,ACCESS=(HIDAM,VSAM)", f"         DATASET DD1=BOUNDSDD,DEVICE=3390,SIZE={size}"]
    for name, parent, length, key in segments:
        above = f"(({parent},DBLE))" if parent else "0"
        lines.append(f"         SEGM  NAME={name},PARENT={above},BYTES={length},PTR=TB")
        if not parent:
            lines.append("         LCHILD NAME=(BOUNDSXS,BOUNDSX),POINTER=INDX")
        if key:
            lines.append(f"         FIELD NAME=(KEY,SEQ,U),BYTES={key},START=1,TYPE=C")
    return "\n".join([*lines, "         DBDGEN", "         FINISH", "         END", ""])


def plain_psb(segments, pcbs, key):
    lines = []
    for _ in range(pcbs):
        lines.append(f"         PCB   TYPE=DB,DBDNAME=BOUNDS,PROCOPT=AP,KEYLEN={key}")
        lines += [f"         SENSEG NAME={name},PARENT={parent or 0}" for name, parent, _, _ in segments]
    return "\n".join([*lines, "         PSBGEN LANG=COBOL,PSBNAME=BOUNDSP", "         END", ""])


def made(what, segments, records, size=2048, pcbs=1, key=0):
    """A database with rows in a volume, and how many there are."""
    write("b.dbd", plain_dbd(segments, size))
    write("b.psb", plain_psb(segments, pcbs, key))
    return stream("b.stream", "BOUNDS", records)


def reload_and_check(what, count, blocks, roots):
    run(f"{what}: reload", ["reload", "b.dbd", "b.stream", "b.volume", str(MOST_BLOCKS)], f"reloaded {count} segments into {blocks} blocks")
    run(f"{what}: check", ["check", "b.dbd", "b.volume"], f"BOUNDS passes: {blocks} blocks, {count} segments, {roots} roots")


def blocks():
    """A volume of the greatest size: a segment of a little more than half a block in each block but those of the index. A stream may have 1,073,741,824 bytes."""
    length = 16_371
    segments = [("ROOT", "", length, 4)]
    # block 0; a block of the index has room for 4,094 entries of 8 bytes: 17 of the sequence set, and the top
    rows = MOST_BLOCKS - 1 - 17 - 1
    count = made("blocks", segments, ((1, number.to_bytes(4, "big") + bytes(length - 4)) for number in range(rows)), size=32_768, key=4)
    reload_and_check("blocks", count, MOST_BLOCKS, rows)
    os.rename("b.stream", "b.before")
    run("blocks: unload", ["unload", "b.dbd", "b.volume", "b.stream"], f"unloaded {count} segments")
    if subprocess.run(["cmp", "-s", "b.before", "b.stream"], check=False).returncode:
        print("blocks: the unload gives another stream")
        sys.exit(1)


def types():
    """255 types, 15 levels, keys of 255 bytes: a chain of 15, and the others below the root."""
    segments = [("TYPE1", "", 300, 255)]
    for code in range(2, 256):
        segments.append((f"TYPE{code}", f"TYPE{code - 1}" if code <= 15 else "TYPE1", 300, 255))
    def row(code, number):
        return code, str(number).encode().rjust(255) + bytes(45)
    def records():
        for root in range(50):
            for code in range(1, 256):
                yield row(code, root)
    count = made("types", segments, records(), size=4096, key=255 * 15)
    write("b.deck", f"L{count:>4} GN\n" if count <= 9999 else f"L9999 GN\nL{count - 9999:>4} GN\n")
    run("types: reload", ["reload", "b.dbd", "b.stream", "b.volume", str(MOST_BLOCKS)], reloaded("b.volume", count))
    run("types: check", ["check", "b.dbd", "b.volume"], passes("b.volume", count, 50))
    key = str(49).encode().rjust(255).decode()
    run("types: every segment by GN", ["deck", "b.dbd", "b.psb", "b.volume", "b.deck"], f"{count} 1 GN   [GK] 02 TYPE255  key={key}{key} area={key}" + "\\x00" * 45)


def block_count(volume):
    with open(volume, "rb") as file:
        head = file.read(20)
    return int.from_bytes(head[12:16], "big")


class reloaded:
    """What a reload prints: the number of blocks is read from the volume that it made."""

    def __init__(self, volume, count):
        self.volume, self.count = volume, count

    def __eq__(self, said):
        return said == f"reloaded {self.count} segments into {block_count(self.volume)} blocks"


class passes(reloaded):
    def __init__(self, volume, count, roots):
        super().__init__(volume, count)
        self.roots = roots

    def __eq__(self, said):
        return said == f"BOUNDS passes: {block_count(self.volume)} blocks, {self.count} segments, {self.roots} roots"


def pcbs():
    """255 PCBs, each of which goes through the database by itself."""
    segments = [("ROOT", "", 8, 4), ("CHILD", "ROOT", 6, 4)]
    def records():
        for root in range(10):
            yield 1, b"%04dROOT" % root
            for child in range(20):
                yield 2, b"%04d.." % child
    count = made("pcbs", segments, records(), pcbs=255, key=8)
    run("pcbs: reload", ["reload", "b.dbd", "b.stream", "b.volume", "64"], reloaded("b.volume", count))
    lines = []
    for turn in range(21):
        for pcb in range(1, 256):
            lines.append(f"S {pcb}\nL  10 GN\n")
    write("b.deck", "".join(lines))
    run("pcbs: 255 by turns", ["deck", "b.dbd", "b.psb", "b.volume", "b.deck"], f"{21 * 255 * 10} 255 GN   [  ] 02 CHILD    key=00090019 area=0019..")


def deck():
    """A deck of a million lines."""
    segments = [("ROOT", "", 8, 7)]
    count = made("deck", segments, ((1, b"%07d." % root) for root in range(1000)), key=7)
    run("deck: reload", ["reload", "b.dbd", "b.stream", "b.volume", "64"], reloaded("b.volume", count))
    lines = 1_000_000
    with open("b.deck", "w", encoding="ascii") as file:
        for line in range(lines):
            file.write(f"L     GU   ROOT    (KEY     EQ{line % 1000:07})\n")
    run("deck: a million lines", ["deck", "b.dbd", "b.psb", "b.volume", "b.deck"], f"{lines} 1 GU   [  ] 01 ROOT     key=0000999 area=0000999.")


def twins():
    """A chain of a million twins, and 100 inserted at its end."""
    segments = [("ROOT", "", 8, 4), ("TWIN", "ROOT", 8, 7)]
    def records():
        yield 1, b"0001ROOT"
        for twin in range(1_000_000):
            yield 2, b"%07d." % twin
    count = made("twins", segments, records(), key=11)
    run("twins: reload", ["reload", "b.dbd", "b.stream", "b.volume", str(MOST_BLOCKS)], reloaded("b.volume", count))
    run("twins: check", ["check", "b.dbd", "b.volume"], passes("b.volume", count, 1))
    write("b.deck", "L     GU   TWIN    (KEY     EQ0999999)\nL     GU   TWIN    *L\n")
    run("twins: the last by key, and by L", ["deck", "b.dbd", "b.psb", "b.volume", "b.deck"], "2 1 GU   [  ] 02 TWIN     key=00010999999 area=0999999.")
    run("twins: unload", ["unload", "b.dbd", "b.volume", "b.again"], f"unloaded {count} segments")
    with open("b.stream", "rb") as one, open("b.again", "rb") as other:
        if one.read() != other.read():
            print("twins: the unload gives another stream")
            sys.exit(1)


BOUNDS = [types, pcbs, deck, twins, blocks]


def main(words):
    for bound in BOUNDS:
        if not words or bound.__name__ in words:
            with tempfile.TemporaryDirectory(dir=os.environ.get("TMPDIR", "/tmp")) as folder:
                before = os.getcwd()
                os.chdir(folder)
                bound()
                os.chdir(before)
    return 1 if failed else 0


if __name__ == "__main__":
    sys.exit(main(sys.argv[1:]))
