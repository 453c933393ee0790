import hd

with hd.open("parts.dbd", "parts.psb", "parts.volume") as session:
    pcb = session.pcb(1)
    for part in pcb.segments("PART"):
        stock = [it.area.decode() for it in pcb.dependents("STOCK")]
        print(part.key.decode(), stock)
    held = pcb.ghu(hd.ssa("PART", PARTNO="CG2040"), hd.ssa("STOCK", WHOUSE="HAM"))
    answer = pcb.repl(held.changed(ONHAND="000027"))
    print(held.area.decode(), repr(answer.status))
    session.commit()
