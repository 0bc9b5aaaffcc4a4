"""The reliefs on which bench/defaults measures, each made by a formula and lit from the upper left."""
import sys
from math import cos, exp, hypot, sin
from pathlib import Path

sys.path.insert(0, str(Path(__file__).parent.parent / "examples"))

from glyphs import pixels
from shading import shade

HILLS = [(46, 36, 24.0, 520.0), (118, 24, 15.0, 300.0), (124, 84, 22.0, 480.0)]
NAME = pixels("PLOT 12", 3)
PANELS = [2, 4, 6, 10, 60, 64, 68, 100, 124, 127, 128, 132, 191, 245, 249, 253]


def knolls_height(x, y):
    """The land of examples/relief.py at twice the size."""
    knoll = 14.0 * exp(-((x - 22) ** 2 + (y - 26) ** 2) / 240.0)
    lower = 8.0 * exp(-((x - 46) ** 2 + (y - 44) ** 2) / 120.0)
    ditch = -4.0 * exp(-((x + y - 88) ** 2) / 32.0)
    return knoll + lower + ditch


def hills_height(x, y):
    """The land of examples/hills.py."""
    bed = 78 + 9 * sin(x / 15.0) - 0.14 * x
    stream = -4.0 * exp(-((y - bed) ** 2) / 14.0)
    return stream + sum(rise * exp(-((x - left) ** 2 + (y - top) ** 2) / width) for left, top, rise, width in HILLS)


def quarry_height(x, y):
    """A pit with four steep steps in rolling land."""
    far = hypot(x - 120, 1.2 * (y - 136))
    pit = -sum(16.0 / (1.0 + exp((far - ring) / 1.5)) for ring in (30, 58, 84, 106))
    return pit + 6.0 * sin(x / 40.0) * cos(y / 31.0)


def knolls(x, y):
    return shade(knolls_height, x, y, 0.75, 1.35)


def hills(x, y):
    return shade(hills_height, x, y, 0.75, 1.4)


def lettering(x, y):
    """The hills under a name."""
    row, column = y - 45, x - 18
    inked = 0 <= row < len(NAME) and 0 <= column < len(NAME[0]) and NAME[row][column]
    return 255 if inked else hills(x, y)


def ramp(x, _y):
    return min(x, 255)


def panels(x, y):
    """Sixteen flat fields of 64 by 64, near paper, a quarter, a half and black."""
    return PANELS[4 * min(y // 64, 3) + min(x // 64, 3)]


def quarry(x, y):
    return shade(quarry_height, x, y, 0.7, 1.3)


# the name of each relief with its width, its height and its gray
RELIEFS = {
    "knolls": (64, 64, knolls),
    "hills": (160, 112, hills),
    "lettering": (160, 112, lettering),
    "ramp": (256, 256, ramp),
    "panels": (256, 256, panels),
    "quarry": (256, 256, quarry),
}


def dunes_height(x, y):
    """Waves that bend and die away to the right."""
    return 5.0 * exp(-x / 120.0) * sin((x + 9.0 * sin(y / 17.0)) / 6.0)


def crater_height(x, y):
    """A round rim on a slope."""
    far = hypot(x - 140, y - 118)
    return 18.0 * exp(-((far - 70) ** 2) / 260.0) + 0.12 * x - 0.05 * y


def valley_height(x, y):
    """Two banks with a gully down the middle."""
    return 0.02 * (x - 30 - 0.2 * y) ** 2 - 3.0 * exp(-((y - 40) ** 2) / 30.0)


def dunes(x, y):
    return shade(dunes_height, x, y, 0.75, 1.4)


def crater(x, y):
    return shade(crater_height, x, y, 0.75, 1.35)


def valley(x, y):
    return shade(valley_height, x, y, 0.7, 1.3)


# reliefs that have no part in the choice: they try it afterwards
FRESH = {
    "valley": (64, 64, valley),
    "dunes": (160, 112, dunes),
    "crater": (256, 256, crater),
}


def relief(name, right=0, down=0):
    """The rows of a relief's gray, seen so many cells farther right and down."""
    width, height, gray = (RELIEFS | FRESH)[name]
    return [[gray(x + right, y + down) for x in range(width)] for y in range(height)]


def flat(gray):
    """A flat field of 64 by 64."""
    return [[gray] * 64 for _ in range(64)]
