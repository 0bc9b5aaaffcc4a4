#!/usr/bin/env python3
"""Prints the sheet of a small relief: two knolls and a ditch, lit from the upper left. It made knolls.sheet."""
from math import exp

from shading import shade

SIDE = 32


def height(x, y):
    """The lie of the land, in cells."""
    knoll = 7.0 * exp(-((x - 11) ** 2 + (y - 13) ** 2) / 60.0)
    lower = 4.0 * exp(-((x - 23) ** 2 + (y - 22) ** 2) / 30.0)
    ditch = -2.0 * exp(-((x + y - 44) ** 2) / 8.0)
    return knoll + lower + ditch


print("width height radius reach start")
print(SIDE, SIDE, 1, 3, 1)
print("psf\n1 2 1\n2 4 2\n1 2 1")
print("gray")
for y in range(SIDE):
    print(*[shade(height, x, y, 0.75, 1.35) for x in range(SIDE)])
