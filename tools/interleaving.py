#!/usr/bin/env python3
"""Prints the table of crates/interleave/src/table.rt, one entry per line: the coded bits of the eight half bursts of a block, in
transmission order, burst 0 first (GSM 05.03 section 4.1.4, today 3GPP TS 45.003)."""

bursts = [[None] * 114 for _ in range(4)]
for k in range(456):
    bursts[k % 4][2 * (49 * k % 57) + k % 8 // 4] = k
for burst in bursts:
    for k in burst:
        print(k)
