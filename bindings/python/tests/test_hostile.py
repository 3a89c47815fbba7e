"""Calls with hostile arguments: each raises ValueError or TypeError, or answers as the same call does for the octets that the argument
stands for. Calls on spoiled states raise nothing else either."""
import array
import collections
import ctypes
import math
import random

from common import Case, numpy, um

# for each argument its least and greatest value, after the count and the form of a list
CALLS = {
    "send_block": [(23, "B", 0, 255), (0, 7)],
    "receive_block": [(592, "b", -127, 127)],
    "receive_block_among": [(592, "b", -127, 127), (1, 64)],
    "margin_block": [(592, "b", -127, 127)],
    "repair": [(224, "B", 0, 1)],
    "send_access": [(8, "B", 0, 1), (6, "B", 0, 1)],
    "receive_access": [(88, "b", -127, 127), (6, "B", 0, 1)],
    "send_sync": [(25, "B", 0, 1)],
    "receive_sync": [(148, "b", -127, 127)],
    "read_frame": [(23, "B", 0, 255), (0, 1)],
    "read_b4": [(23, "B", 0, 255)],
    "write_b4": [(19, "B", 0, 255)],
}
ODD = (None, -1, 0.5, math.nan, math.inf, 256, 2**40, "7", "x" * 23, b"", object(), {}, set(), [[]], [None] * 23, 1j, type, iter(()))


class Longer(bytes):
    """Octets that lie about their number."""

    def __len__(self):
        return 592


def forms(draw, values, code):
    """Forms of a list of numbers, with whether they stand for it."""
    raw = bytes(value & 255 for value in values)
    kind = ctypes.c_int8 if code == "b" else ctypes.c_uint8
    yield from ((form, True) for form in (values, tuple(values), raw, bytearray(raw), array.array(code, values), collections.deque(values)))
    yield from ((form, True) for form in (iter(values), (kind * len(values))(*values), memoryview(raw).cast(code)))
    yield from ((form, False) for form in (values[1:], [*values, 0], raw[1:], dict.fromkeys(values), frozenset(values), Longer(raw[:3])))
    yield from ((form, False) for form in (memoryview(raw + raw).cast("h"), array.array("d", values), "".join(map(chr, raw))))
    yield from ((form, False) for form in (values[:-1] + [0.5], draw.choice(ODD)))
    if numpy:
        one = numpy.array(values, numpy.dtype(code))
        wide = numpy.zeros((len(values), 3), one.dtype)
        wide[:, 1] = one
        fixed = one.copy()
        fixed.setflags(write=False)
        yield from ((form, True) for form in (one, one[::-1].copy()[::-1], wide[:, 1], fixed, list(one)))
        yield from ((form, False) for form in (one.astype(">f8"), one.astype(complex), one.astype("S4")))
        yield from ((form, False) for form in (one[None, None], one[:, None], one[:0]))


class Hostile(Case):
    def outcome(self, call):
        try:
            return call()
        except (ValueError, TypeError) as error:
            return error

    def test_arguments(self):
        draw = random.Random(1)
        for _ in range(400):
            name = draw.choice(list(CALLS))
            good = []
            for form in CALLS[name]:
                least, most = form[-2:]
                good.append([draw.randint(least, most) for _ in range(form[0])] if len(form) == 4 else draw.randint(least, most))
            wanted = self.outcome(lambda: getattr(um, name)(*good))
            at = draw.randrange(len(good))
            if len(CALLS[name][at]) == 2:
                given = [(value, False) for value in ODD]
            else:
                given = forms(draw, good[at], CALLS[name][at][1])
            for hostile, stands in given:
                answer = self.outcome(lambda: getattr(um, name)(*(hostile if i == at else value for i, value in enumerate(good))))
                if stands:
                    self.assertEqual(repr(wanted), repr(answer), (name, hostile))
                else:
                    self.assertIsInstance(answer, Exception, (name, hostile))

    def test_states(self):
        """A state whose octets were changed is refused, or is a state that takes every call."""
        draw = random.Random(2)
        restored = 0
        for _ in range(400):
            kind = draw.choice((um.End, um.Side))
            state = kind("mobile", channel=draw.randrange(2))
            state.open(b"ab")
            octets = bytearray(state.to_bytes())
            for _ in range(draw.randrange(4)):
                octets[draw.choice((draw.randrange(12, 25), draw.randrange(len(octets))))] = draw.randrange(256)
            end = self.outcome(lambda: kind.from_bytes(octets))
            if isinstance(end, Exception):
                continue
            restored += 1
            for one in (end,) if kind is um.End else (end.end(0), end.end(3)):
                before = one.to_bytes()
                block = bytes(draw.randrange(256) for _ in range(23))
                calls = (one.timer, one.close, one.idle, lambda: one.send(b"a"), lambda: one.take(block), lambda: one.unit(b""))
                for call in calls:
                    if isinstance(self.outcome(call), Exception):
                        self.assertEqual(before, one.to_bytes())
                    before = one.to_bytes()
                self.assertIn(one.state, um.STATES)
        self.assertGreater(restored, 50)
