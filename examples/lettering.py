#!/usr/bin/env python3
"""Prints the sheet of a relief with lettering: two knolls and a ditch under a name, lit from the upper left. It made plot.sheet."""
from math import exp

from glyphs import pixels
from shading import shade

WIDTH, HEIGHT = 96, 42
NAME, SCALE = "PLOT 12", 2


def height(x, y):
    """The lie of the land, in cells."""
    knoll = 9.0 * exp(-((x - 22) ** 2 + (y - 24) ** 2) / 150.0)
    lower = 7.0 * exp(-((x - 68) ** 2 + (y - 14) ** 2) / 220.0)
    ditch = -3.0 * exp(-((x - 2 * y - 10) ** 2) / 40.0)
    return knoll + lower + ditch


def main():
    gray = [[shade(height, x, y, 0.7, 1.3) for x in range(WIDTH)] for y in range(HEIGHT)]
    letters = pixels(NAME, SCALE)
    top, left = (HEIGHT - len(letters)) // 2, (WIDTH - len(letters[0])) // 2
    for y, row in enumerate(letters):
        for x, inked in enumerate(row):
            if inked:
                gray[top + y][left + x] = 255
    print("width height radius reach start")
    print(WIDTH, HEIGHT, 2, 4, 1)
    print("psf\n1 4 6 4 1\n4 16 24 16 4\n6 24 36 24 6\n4 16 24 16 4\n1 4 6 4 1")
    print("gray")
    for row in gray:
        print(*row)


main()
