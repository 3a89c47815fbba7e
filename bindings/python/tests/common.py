"""What the tests share: the package, from the checkout unless UM_INSTALLED is set, and numpy if it is there."""
import os
import pathlib
import sys
import threading
import time
import unittest

HERE = pathlib.Path(__file__).resolve()
ROOT = HERE.parents[3]
sys.path.insert(0, str(HERE.parents[1])) if "UM_INSTALLED" not in os.environ else None

import um  # noqa: E402

try:
    import numpy
except ImportError:
    numpy = None

FILL = bytes.fromhex("030301" + 20 * "2b")


class Case(unittest.TestCase):
    def refused(self, error, words, call, *arguments):
        """The call raises this error itself, and its message has these words."""
        with self.assertRaises(error) as caught:
            call(*arguments)
        self.assertIs(error, type(caught.exception), caught.exception)
        for word in words:
            self.assertIn(word, str(caught.exception))


    def together(self, seconds, *bodies):
        """Runs each body with a count in a thread of its own, for some seconds. A call may refuse, but not for its state."""
        wrong, end = [], time.monotonic() + seconds

        def loop(body):
            count = 0
            while time.monotonic() < end:
                count += 1
                try:
                    body(count)
                except um.Refused as error:
                    wrong.extend([error] if error.reason in ("noend", "noslot") else [])

        threads = [threading.Thread(target=loop, args=(body,)) for body in bodies]
        for thread in threads:
            thread.start()
        for thread in threads:
            thread.join()
        self.assertEqual(0, len(wrong), wrong[:1])


def digits(text):
    return bytes(int(digit) for digit in text)


def noisy(seed=1):
    """The fill frame with soft bits of many sizes and three wrong bits."""
    soft = um.soft_from_bits(um.send_block(FILL, 5), 90)
    for at in range(592):
        row, place = divmod(at, 148)
        soft[row][place] = soft[row][place] * (1 + (at * 7 + seed) % 5) // 5
    for place in (10, 40, 130):
        soft[1][place] = -soft[1][place]
    return soft
