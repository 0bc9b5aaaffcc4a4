#!/usr/bin/env python3
"""Writes a gray PFM to standard output: a ridge above a hollow, lit from the upper left. It made ridge.pfm."""
import sys
from math import exp
from struct import pack

from shading import light

WIDTH, HEIGHT = 64, 40


def height(x, y):
    """The lie of the land, in cells."""
    ridge = 9.0 * exp(-((y - 13 - 0.15 * x) ** 2) / 40.0) * exp(-((x - 30) ** 2) / 700.0)
    hollow = -4.0 * exp(-((x - 46) ** 2 + (y - 30) ** 2) / 45.0)
    return ridge + hollow


def main():
    samples = [max(0.0, min(1.0, light(height, x, y, 0.75, 1.4))) for y in reversed(range(HEIGHT)) for x in range(WIDTH)]
    sys.stdout.buffer.write(f"Pf\n{WIDTH} {HEIGHT}\n-1.0\n".encode() + pack(f"<{len(samples)}f", *samples))


main()
