#!/usr/bin/env python3
"""Writes traffic.out beside itself from the tables in an installed osmo-bts-trx.

    traffic.py /usr/bin/osmo-bts-trx      osmo-bts 1.5.0

For each time slot and direction a line of tch_f and one of tch_h, with a word for each of 104 frames: tch.SUBCHANNEL.BURST, the number that
osmo-bts counts its traffic bursts by, sacch.SUBCHANNEL.BURST, or `-`. Then the frames of the 26-multiframe in which osmo-bts ends a block of
FACCH/H in the uplink, and those in which it begins one in the downlink. Its table of multiframes is found by its relocations, the two of
FACCH/H by their form: 26 octets of 0 and 1, of which six are 1.
"""
import os
import struct
import subprocess
import sys

IDLE, TCHF, TCHH, SACCH_F, SACCH_H = 0, 9, (10, 11), 24, (25, 26)  # its numbers of logical channels


class Program:
    def __init__(self, name):
        with open(name, "rb") as file:
            self.octets = file.read()
        self.sections = {}
        listed = subprocess.run(["readelf", "-SW", name], stdout=subprocess.PIPE, text=True, check=True).stdout
        for words in (line.replace("[ ", "[").split() for line in listed.splitlines()):
            if len(words) > 5 and words[0].startswith("[") and words[1].startswith("."):
                self.sections[words[1]] = [int(word, 16) for word in words[3:6]]
        self.pointers = {}
        _, offset, size = self.sections[".rela.dyn"]
        for where, kind, target in struct.iter_unpack("<QQq", self.octets[offset : offset + size]):
            if kind & 0xFFFFFFFF == 8:
                self.pointers[where] = target

    def at(self, address):
        for base, offset, size in self.sections.values():
            if base and base <= address < base + size:
                return offset + address - base
        raise ValueError("no section has the address %#x" % address)

    def multiframes(self):
        """(name, mask of time slots) to the frames of a multiframe, each (channel, burst) of the downlink and the uplink."""
        base, _, size = self.sections[".data.rel.ro"]
        for where in range(base, base + size - 32, 8):
            if where + 8 in self.pointers and where + 16 in self.pointers and where not in self.pointers:
                _, mask, period = struct.unpack_from("<IBB", self.octets, self.at(where))
                if period == 104:
                    name = self.at(self.pointers[where + 16])
                    rows = self.at(self.pointers[where + 8])
                    frames = struct.iter_unpack("<IB3xIB3x", self.octets[rows : rows + 16 * period])
                    yield self.octets[name : self.octets.index(b"\0", name)].decode(), mask, [(f[:2], f[2:]) for f in frames]

    def facch_tables(self):
        _, offset, size = self.sections[".rodata"]
        for start in range(offset, offset + size - 26, 16):
            table = self.octets[start : start + 26]
            if set(table) <= {0, 1} and sum(table) == 6:
                yield [frame for frame in range(26) if table[frame]]


def word(channel, burst):
    if channel == IDLE:
        return "-"
    kind = "tch" if channel in (TCHF, *TCHH) else "sacch"
    return "%s.%d.%d" % (kind, channel in (TCHH[1], SACCH_H[1]), burst)


def main():
    program = Program(sys.argv[1])
    uplink_ends, downlink_begins = program.facch_tables()
    with open(os.path.join(os.path.dirname(os.path.abspath(__file__)), "traffic.out"), "w", encoding="ascii") as out:
        for name, mask, frames in program.multiframes():
            kind = {"TCH/F+SACCH": "tch_f", "TCH/H+SACCH": "tch_h"}.get(name)
            for slot in range(8):
                for at, direction in enumerate(("downlink", "uplink")):
                    if kind and mask >> slot & 1:
                        out.write("%s %s %d %s\n" % (kind, direction, slot, " ".join(word(*frame[at]) for frame in frames)))
        out.write("facch_h ends uplink %s\nfacch_h begins downlink %s\n" % (" ".join(map(str, uplink_ends)), " ".join(map(str, downlink_begins))))


main()
