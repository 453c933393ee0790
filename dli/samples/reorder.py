"""Tells which parts run short: fewer than 50 on hand in all warehouses together. reorder.py DBD PSB VOLUME"""
import sys

import hd

with hd.open(*sys.argv[1:4]) as session:
    pcb = session.pcb(1)
    for part in pcb.segments("PART"):
        on_hand = sum(int(stock.area[3:]) for stock in pcb.dependents("STOCK"))
        if on_hand < 50:
            print(part.key.decode(), part.area[6:24].decode().rstrip(), on_hand)
