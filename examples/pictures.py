#!/usr/bin/env python3
"""Draws the pictures of README and GUIDE: plates that the command `plate` settles, with the figures that it tells.

    examples/pictures.py [--check] [NAME...]

writes docs/NAME.png, for all names where none is said; with --check it tests that each file holds just the picture that
is drawn now. Run after `make lib` and `make plate`. The last line is 'N passed, M failed'.
"""
import re
import subprocess
import sys
from math import sqrt
from pathlib import Path

ROOT = Path(__file__).resolve().parent.parent
sys.dont_write_bytecode = True
sys.path += [str(ROOT / "bench"), str(ROOT / "python")]

import settling
from panels import INK, PAPER, keep, panel
from platemaker import DEFAULT_PSF, PSFS, Plate, read_pbm, read_pgm
from reliefs import relief

WIDEST = 830  # pixels that a page shows without scaling them, which would make false patterns


def rows_of(cells, width):
    return [list(cells[i : i + width]) for i in range(0, len(cells), width)]


def part(rows, left, top, width, height):
    return [row[left : left + width] for row in rows[top : top + height]]


def shown(gray):
    """Gray as brightness."""
    return [[255 - cell for cell in row] for row in gray]


def inked(dots):
    """Dots as ink."""
    return [[INK if cell else PAPER for cell in row] for row in dots]


def told(error, gray, psf):
    """The lines of a caption with the squared error, and its root in gray levels."""
    rms = sqrt(error / (len(gray) * len(gray[0]))) / sum(PSFS[psf])
    return [f"E {error:,}", f"RMS {rms:.2f} GRAY LEVELS"]


def settled(gray, psf=DEFAULT_PSF, **options):
    """What `plate settle` makes of gray: the dots, and the lines of a caption."""
    pgm = b"P5\n%d %d\n255\n" % (len(gray[0]), len(gray)) + bytes(255 - cell for row in gray for cell in row)
    words = [word for name, value in options.items() for word in (f"-{name}", str(value))]
    command = [ROOT / "target/bin/plate", "settle", "-p", psf, *words]
    done = subprocess.run(command, input=pgm, capture_output=True, check=True)
    error = int(re.search(rb"^\d+ (\d+)", done.stderr, re.MULTILINE).group(1))
    width, _, dots = read_pbm(done.stdout)
    return rows_of(dots, width), told(error, gray, psf)


def screened(gray, psf=DEFAULT_PSF):
    """The ordered screen that is not settled: the dots, and the lines of a caption."""
    width = len(gray[0])
    plate = Plate(bytes(cell for row in gray for cell in row), width, len(gray), psf, start=1)
    return rows_of(plate.dots, width), told(plate.figures.error, gray, psf)


def hills():
    """The PGM of the README, its ordered screen and its settled plate, whole and a part of it."""
    width, height, cells = read_pgm((ROOT / "examples/hills.pgm").read_bytes())
    gray = rows_of(cells, width)
    screen, screen_told = screened(gray)
    plate, plate_told = settled(gray)
    return [
        [panel(shown(gray), ["GRAY", f"{width} BY {height} CELLS"], 2),
         panel(inked(screen), ["ORDERED SCREEN", *screen_told], 2)],
        [panel(inked(part(plate, 16, 8, 80, 56)), ["A PART OF THE SETTLED", "PLATE, TWICE AS LARGE"], 4),
         panel(inked(plate), ["SETTLED", *plate_told], 2)],
    ]


def psfs():
    """The ready psfs on the hills, with what can be compared: the error as a near eye sees it, and as a far one."""
    settling.build()
    gray = relief("hills")
    ready, reach, start = settling.read_ready()
    near, far = settling.YARDSTICKS[0], settling.YARDSTICKS[-1]
    panels = []
    for name, psf in ready:
        plate, _ = settled(gray, name)
        seen = settling.settle(gray, psf, reach, start).yardsticks
        lines = [f"THROUGH {near:g} CELL {seen[0]:.2f}", f"THROUGH {far:g} CELLS {seen[-1]:.2f}"]
        panels.append(panel(inked(part(plate, 0, 0, 128, 112)), [name.upper(), *lines], 2))
    return [panels[:3], panels[3:]]


def starts():
    """Both starts at the least and at the greatest reach, on a part of the ramp and of the flat fields."""
    ramp, fields = relief("ramp"), relief("panels")

    def one(start, reach):
        upper, lower = (settled(gray, s=start, q=reach)[0] for gray in (ramp, fields))
        between = [[0] * 160] * 2
        rows = part(upper, 16, 0, 160, 40) + between + part(lower, 48, 92, 160, 72)
        return panel(inked(rows), [f"{start} START, REACH {reach}".upper()], 2)

    return [[one(start, reach) for start in ("blank", "ordered")] for reach in (1, 6)]


def reliefs():
    """Five reliefs and their plates; of the large ones a part."""
    places = {"knolls": (0, 0, 64, 64), "lettering": (0, 16, 160, 80), "ramp": (48, 0, 160, 48),
              "panels": (48, 32, 160, 80), "quarry": (40, 60, 160, 112)}
    grid = []
    for name, place in places.items():
        gray = relief(name)
        plate, lines = settled(gray)
        size = f"{len(gray[0])} BY {len(gray)}"
        grid.append([panel(part(shown(gray), *place), [name.upper(), size], 2),
                     panel(part(inked(plate), *place), lines, 2)])
    return grid


DRAWN = {"hills": hills, "psfs": psfs, "starts": starts, "reliefs": reliefs}


def main(words):
    check = words[:1] == ["--check"]
    passed = failed = 0
    for name in words[check:] or DRAWN:
        grid = DRAWN[name]()
        path = ROOT / "docs" / f"{name}.png"
        widest = max(sum(len(one[0]) + 12 for one in row) + 12 for row in grid)
        good = widest <= WIDEST and keep(grid, path, check)
        passed, failed = passed + good, failed + (not good)
        if not good:
            print(f"docs/{name}.png: not the picture that is drawn now" if check else f"docs/{name}.png: too wide")
    print(f"{passed} passed, {failed} failed")
    return 1 if failed else 0


if __name__ == "__main__":
    sys.exit(main(sys.argv[1:]))
