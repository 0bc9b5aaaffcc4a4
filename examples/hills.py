#!/usr/bin/env python3
"""Writes a raw PGM to standard output: three hills and a stream, lit from the upper left. It made hills.pgm."""
import sys
from math import exp, sin

from shading import shade

WIDTH, HEIGHT = 160, 112
HILLS = [(46, 36, 24.0, 520.0), (118, 24, 15.0, 300.0), (124, 84, 22.0, 480.0)]


def height(x, y):
    """The lie of the land, in cells."""
    bed = 78 + 9 * sin(x / 15.0) - 0.14 * x
    stream = -4.0 * exp(-((y - bed) ** 2) / 14.0)
    return stream + sum(rise * exp(-((x - left) ** 2 + (y - top) ** 2) / width) for left, top, rise, width in HILLS)


def main():
    cells = bytes(255 - shade(height, x, y, 0.75, 1.4) for y in range(HEIGHT) for x in range(WIDTH))
    header = f"P5\n# three hills and a stream, lit from the upper left\n{WIDTH} {HEIGHT}\n255\n"
    sys.stdout.buffer.write(header.encode() + cells)


main()
