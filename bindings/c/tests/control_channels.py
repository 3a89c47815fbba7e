"""Cuts libosmocoding's own test to its control channels, with um_osmo.h in place of the include of libosmocoding.

    control_channels.py LIBOSMOCORE TEST.C TEST.OK

reads tests/coding/coding_test.c and coding_test.ok of the sources of libosmocore and writes the test and what it has to print. The
functions for traffic, packet data and RACH of 11 bits go, with their calls and tables. The test codes RACH of 8 bits by
gsm0503_rach_ext_encode with is_11bit = false, which here becomes gsm0503_rach_encode. All else stays as it is."""
import pathlib
import re
import sys

OTHER_FUNCTIONS = ("test_rach_ext", "test_rach_11bit_sample", "test_fr", "test_hr", "test_pdtch")


def between(text, start, end):
    """The text without the part from `start` up to `end`."""
    at = text.index(start)
    return text[:at] + text[text.index(end, at):]


def cut_test(text):
    text = text.replace("#include <osmocom/coding/gsm0503_coding.h>", '#include "um_osmo.h"')
    for name in OTHER_FUNCTIONS:
        text, count = re.subn(rf"static void {name}\(.*?\n}}\n", "", text, flags=re.DOTALL)
        if count != 1:
            sys.exit(f"control_channels: {count} functions {name} in the test; expected 1")
    text = between(text, "struct test_macblock {", "uint8_t test_l2[]")
    text = between(text, "/* 11-bit Access Burst", "uint8_t test_speech_fr")
    text = between(text, "\tfor (i = 0; i < 2048;", '\tprintf("\\n");\n\n\tfor (i = 0; i < len_l2;')
    text = between(text, "\tfor (i = 0; i < sizeof(test_speech_fr)", '\tprintf("Success\\n");')
    text = text.replace("\tlen_mb = ARRAY_SIZE(test_macblock);\n", "").replace("len_l2, len_mb;", "len_l2;")
    return text.replace("gsm0503_rach_ext_encode(bursts_u, ra, bsic, false)", "gsm0503_rach_encode(bursts_u, &ra, bsic)")


def cut_output(lines):
    """The expected lines before the first speech frame: three blocks and three synchronisation bursts."""
    starts = [at for at, line in enumerate(lines) if line.startswith("Encoding:")]
    return [line for line in lines[:starts[6]] if not line.startswith("Decoded RA11:")] + ["Success\n"]


def main(source, test, expected):
    folder = pathlib.Path(source, "tests", "coding")
    pathlib.Path(test).write_text(cut_test((folder / "coding_test.c").read_text()))
    with open(folder / "coding_test.ok") as lines, open(expected, "w") as out:
        out.writelines(cut_output(lines.readlines()))


main(*sys.argv[1:])
