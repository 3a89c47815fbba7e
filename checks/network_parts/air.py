"""The radio path: loses blocks and bursts, flips bits, adds noise."""
import random

SOFT = bytes([127, 129]).ljust(256, b"\0")  # 0 and 1 as soft bits 127 and -127, octets in two's complement
POOL = 1 << 20  # octets of noise that are made once; each burst begins at a random one
SURE = 40  # the magnitude of a soft bit without noise, if there is noise


def _octet(value):
    return round(min(127, max(-127, value))) & 255


class Air:
    """Shares of blocks and bursts that are lost and of bits that are flipped; the noise's standard deviation for bits that are -1 and 1."""

    def __init__(self, block=0.0, burst=0.0, bit=0.0, noise=0.0):
        self.block, self.burst, self.noise, self.fades, self.flips = block, burst, noise, {}, None
        if noise:
            values = [random.gauss(0, SURE * noise) for _ in range(POOL)]
            self.zeros = bytes(_octet(SURE + value) for value in values)
            self.ones = bytes(_octet(value - SURE) for value in values)
        if bit:
            self.flips = bytes(random.random() < bit for _ in range(POOL))

    def carry(self, burst, path, first):
        """The soft bits of 148 bits, or None if the burst is lost. `path` and `first` name its block, of which all bursts fade together."""
        if self.fades.get(path, (None,))[0] != first:
            self.fades[path] = first, random.random() < self.block
        if self.fades[path][1] or random.random() < self.burst:
            return None
        size, at = len(burst), random.randrange(POOL - 148)
        if self.flips:
            burst = (int.from_bytes(burst, "big") ^ int.from_bytes(self.flips[at : at + size], "big")).to_bytes(size, "big")
        if not self.noise:
            return burst.translate(SOFT)
        mask = int.from_bytes(burst, "big") * 255  # 255 in each octet whose bit is 1
        zeros, ones = (int.from_bytes(pool[at : at + size], "big") for pool in (self.zeros, self.ones))
        return (zeros ^ (zeros ^ ones) & mask).to_bytes(size, "big")
