import hd

with hd.open("accounts.dbd", "accounts.psb", "accounts.volume") as session:
    pcb, balance = session.pcb(1), session.types[0].fields["BALANCE"]
    pcb.isrt(hd.ssa("ACCOUNT"), area=b"4711" + balance.bytes(120))
    held = pcb.ghu(hd.ssa("ACCOUNT", NUMBER="4711"))
    pcb.repl(held.changed(BALANCE=held["BALANCE"] - 200))
    now = pcb.gu(hd.ssa("ACCOUNT", BALANCE=balance.bytes(-80)))
    print(now["NUMBER"], now["BALANCE"], now.area[4:].hex())
