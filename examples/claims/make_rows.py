#!/usr/bin/env python3
"""Writes rows for the claims database: 2,000 policies with ten claims each, and four payments for each claim."""
for policy in range(2000):
    print(f"POLICY POLNO=P{policy:07} HOLDER=\"Holder {policy}\"")
    for claim in range(10):
        state = "OC"[(policy + claim) % 2]
        print(f"  CLAIM CLAIMNO=C{policy:04}{claim:03} STATE={state} RESERVE={(policy * 37 + claim * 101) % 9000:08}")
        for payment in range(4):
            print(f"    PAYMENT PAYDATE=2026{payment * 3 + 1:02}{claim + 1:02} AMOUNT={payment * 25 + claim:08}")
