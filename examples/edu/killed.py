import os
import signal
import sys

import hd

session = hd.open("edu.dbd", "edu.psb", "edu.volume")
pcb = session.pcb(1)
pcb.isrt(hd.ssa("COURSE"), area=sys.argv[1])
session.commit()
pcb.isrt(hd.ssa("COURSE"), area=sys.argv[2])
with open(f"/proc/self/task/{os.getpid()}/children") as children:
    os.kill(int(children.read()), signal.SIGKILL)
try:
    session.commit()
except hd.Ended:
    print("hd has ended")
