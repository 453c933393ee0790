"""hd, whose standard input is written down:

    relay.py HD FILE REFUSED WORD ..

Each piece that is read is a line of FILE, in hexadecimal digits: a program that waits for each answer sends one in each write. A piece that begins with a frame of the kind
REFUSED is answered as where an access of the volume fails, and hd ends.
"""
import os
import subprocess
import sys

program, pieces, refused, *words = sys.argv[1:]
if "serve" not in words:
    os.execv(program, [program, *words])
server = subprocess.Popen([program, *words], stdin=subprocess.PIPE, bufsize=0)
with open(pieces, "w", encoding="ascii") as file:
    while piece := os.read(0, 1 << 16):
        file.write(piece.hex() + "\n")
        if piece[4] == int(refused):
            os.write(1, b"\0\0\0\x0e\4  \0        \0\0")
            break
        server.stdin.write(piece)
server.stdin.close()
sys.exit(server.wait())
