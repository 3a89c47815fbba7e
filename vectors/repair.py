#!/usr/bin/env python3
"""Writes repair.in and repair.out beside itself: words of the Fire code with wrong bits, and what `um repair` says of them.

Nothing is walked or trapped here: a table holds what each burst within twelve places leaves, so that a word without a burst in
it has none. Bit i of a number is the coefficient of D^i, and place k of a word is D^(223 - k).
"""
import os
import random

GENERATOR = sum(1 << power for power in (40, 26, 23, 17, 3, 0))
ONES = (1 << 40) - 1


def rest(number):
    """What a polynomial leaves under the generator."""
    for power in range(number.bit_length() - 1, 39, -1):
        if number >> power & 1:
            number ^= GENERATOR << (power - 40)
    return number


# what one wrong place leaves, and each burst by what it leaves
PLACES = [rest(1 << (223 - place)) for place in range(224)]


def bursts():
    table = {}
    for first in range(224):
        for later in range(1 << min(11, 223 - first)):
            wrong = [first] + [first + 1 + i for i in range(11) if later >> i & 1]
            left = 0
            for place in wrong:
                left ^= PLACES[place]
            assert left not in table
            table[left] = wrong
    return table


def hexadecimal(word):
    """The octets of a word, the first place of eight being the bit of value 1."""
    octets = [sum((word >> (223 - (8 * i + j)) & 1) << j for j in range(8)) for i in range(28)]
    digits = "".join("%02x" % octet for octet in octets)
    return digits[:46], digits[46:]


def said(table, word):
    left = rest(word ^ ONES)
    if left == 0:
        return "holds"
    if left not in table:
        return "none"
    wrong = table[left]
    for place in wrong:
        word ^= 1 << (223 - place)
    return "repaired first %d span %d data %s check %s" % (wrong[0], wrong[-1] - wrong[0] + 1, *hexadecimal(word))


def wrong_places(source, kind):
    first = source.randrange(224)
    if kind == 0:
        return []
    if kind == 1:
        return [first] + source.sample(range(224), 3)
    if kind == 2:
        return [first, (first + 12) % 224]
    if kind == 3:
        return [223 - source.randrange(6), source.randrange(6)]
    last = min(223, first + source.randrange(12))
    return [first, last] + [place for place in range(first + 1, last) if source.randrange(2)]


def main():
    source = random.Random(1959)
    table = bursts()
    here = os.path.dirname(os.path.abspath(__file__))
    with open(here + "/repair.in", "w") as lines, open(here + "/repair.out", "w") as answers:
        for number in range(1000):
            data = source.getrandbits(184) << 40
            word = data ^ rest(data) ^ ONES
            assert rest(word ^ ONES) == 0
            for place in set(wrong_places(source, number % 16)):
                word ^= 1 << (223 - place)
            lines.write("word %s %s\n" % hexadecimal(word))
            answers.write(said(table, word) + "\n")


main()
