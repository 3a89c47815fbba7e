#!/usr/bin/env python3
"""Draws the channels of 102 frames to standard output as SVG, by the library's own tables.

    pictures/multiframe_svg.py LIBUM.SO > docs/pictures/multiframe.svg
"""
import ctypes
import sys

ROWS = [("BCCH + CCCH", 0, 0), ("BCCH + CCCH + SDCCH/4", 1, 0), ("its uplink", 1, 1), ("SDCCH/8", 2, 0), ("its uplink", 2, 1)]
LETTERS = ["D", "A", "B", "C", "F", "S", ""]
COLOURS = ["#9ecae1", "#fdd0a2", "#a1d99b", "#d9f0d3", "#cccccc", "#bcbddc", "#f4f4f4"]
WIDTH, HEIGHT, LEFT, TOP = 15, 26, 170, 30


class Place(ctypes.Structure):
    _fields_ = [("first", ctypes.c_uint32), ("channel", ctypes.c_uint8), ("subchannel", ctypes.c_uint8), ("burst", ctypes.c_uint8)]


def main():
    library, out, words = ctypes.CDLL(sys.argv[1]), [], []
    for half in range(2):
        top = TOP + half * (len(ROWS) + 2) * HEIGHT
        for frame in range(0, 51, 5):
            out.append('<text class="n" x="%d" y="%d">%d</text>' % (LEFT + frame * WIDTH, top - 6, 51 * half + frame))
        for row, (title, combination, direction) in enumerate(ROWS):
            y = top + row * HEIGHT
            out.append('<text x="4" y="%d">%s</text>' % (y + 16, title))
            for frame in range(51 * half, 51 * half + 51):
                place, x = Place(), LEFT + (frame - 51 * half) * WIDTH
                if library.um_place_frame(combination, direction, 0, frame, ctypes.byref(place)):
                    out.append('<rect class="idle" x="%d" y="%d" width="%d" height="%d"/>' % (x, y, WIDTH, HEIGHT - 4))
                    continue
                out.append('<rect x="%d" y="%d" width="%d" height="%d" fill="%s"/>' % (x, y, WIDTH, HEIGHT - 4, COLOURS[place.channel]))
                if place.channel in (4, 5):
                    words.append((x + WIDTH // 2, y + 15, LETTERS[place.channel]))
                elif place.channel < 4 and place.burst == 1:
                    words.append((x + WIDTH, y + 15, LETTERS[place.channel] + ("" if place.channel == 2 else str(place.subchannel))))
    out += ['<text class="c" x="%d" y="%d">%s</text>' % word for word in words]
    width, height = LEFT + 51 * WIDTH + 4, TOP + 2 * (len(ROWS) + 2) * HEIGHT - 30
    legend = "F FCCH, S SCH, B BCCH, C CCCH (block), D SDCCH and A SACCH (subchannel); white: RACH; hatched: idle"
    print('<svg xmlns="http://www.w3.org/2000/svg" viewBox="0 0 %d %d" font-family="sans-serif" font-size="12">' % (width, height))
    print("<style>rect{stroke:#555;stroke-width:.5}.idle{fill:url(#h)}.c{text-anchor:middle;font-size:11px}"
          ".n{font-size:10px;fill:#555}</style>")
    print('<pattern id="h" width="4" height="4" patternUnits="userSpaceOnUse"><path d="M0 4L4 0" stroke="#999"/></pattern>')
    print('<rect width="%d" height="%d" fill="#fff" style="stroke:none"/>' % (width, height))
    print("\n".join(out))
    print('<text x="%d" y="%d">%s</text></svg>' % (LEFT, height - 8, legend))


main()
