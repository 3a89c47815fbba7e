#!/usr/bin/env python3
"""Writes schedule.out beside itself from the multiframe tables of osmo-bts.

    schedule.py SCHEDULER_MFRAME.C      src/common/scheduler_mframe.c of osmo-bts 1.5.0

A line for each combination, direction and time slot, with a word for each frame of its cycle: CHANNEL.SUBCHANNEL.BURST, or `-` for an idle
frame or traffic. osmo-bts does not number the blocks of CCCH: their subchannel is `*`.
"""
import os
import re
import sys

TABLES = [("bcch_ccch", "bcch", [0]), ("bcch_ccch_sdcch4", "bcch_sdcch4", [0]), ("sdcch8", "sdcch8", [0])]
TABLES += [("tch_f", "tchf_ts%d" % slot, [slot]) for slot in range(8)]


def word(channel, burst):
    name, number = re.fullmatch(r"(?:TRXC_)(FCCH|SCH|BCCH|CCCH|RACH|SDCCH|SACCH|IDLE|TCH)(?:TF|F|[48]_(\d))?", channel).groups()
    if name in ("IDLE", "TCH"):
        return "-"
    return "%s.%s.%s" % (name.lower(), "*" if name == "CCCH" else number or 0, burst)


def main():
    source = open(sys.argv[1], encoding="utf-8").read()
    with open(os.path.join(os.path.dirname(os.path.abspath(__file__)), "schedule.out"), "w", encoding="ascii") as out:
        for name, table, slots in TABLES:
            body = re.search(r"frame_%s\[\d+\] = \{(.*?)\n\};" % table, source, re.S).group(1)
            frames = re.findall(r"\{\s*(TRXC_\w+),\s*(\d),\s*(TRXC_\w+),\s*(\d)\s*\}", body)
            frames *= 2 if len(frames) == 51 else 1
            assert len(frames) in (102, 104)
            for direction, at in ("downlink", 0), ("uplink", 2):
                for slot in slots:
                    out.write("%s %s %d %s\n" % (name, direction, slot, " ".join(word(f[at], f[at + 1]) for f in frames)))


main()
