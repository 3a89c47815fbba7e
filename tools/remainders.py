#!/usr/bin/env python3
"""Prints the table of crates/fire_code/src/octets.rt, one entry per line: for each octet, sent least significant bit first, the 40
bits that complete it to a multiple of the Fire code's generator (GSM 05.03 section 4.1.2, today 3GPP TS 45.003)."""

GENERATOR = sum(1 << power for power in (40, 26, 23, 17, 3, 0))

for octet in range(256):
    # The first place of the 48 is the highest power.
    word = sum((octet >> bit & 1) << (47 - bit) for bit in range(8))
    for power in range(47, 39, -1):
        if word >> power & 1:
            word ^= GENERATOR << (power - 40)
    # Place i of the remainder is bit i of the entry.
    entry = sum((word >> (39 - place) & 1) << place for place in range(40))
    print(f"0x{entry >> 32:02x}_{entry >> 16 & 0xffff:04x}_{entry & 0xffff:04x}")
