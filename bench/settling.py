"""Plates that are settled and measured by bench/defaults.c: what bench/defaults and bench/guide have in common."""
import os
import subprocess
import sys
from math import sqrt
from pathlib import Path

from reliefs import PANELS, flat

ROOT = Path(__file__).resolve().parent.parent
PROGRAM = ROOT / "target" / "bench-defaults"
YARDSTICKS = [1.0, 1.5, 2.0, 3.0]
BLANK, ORDERED = 0, 1
WORDS = ["blank", "ordered"]
REACHES = range(1, 7)
TONE_LEVELS = [gray for gray in PANELS if 10 <= gray <= 245]
# the ready psfs, and which candidate of bench/spreads.py each of them is
READY = {"eye": "eye 4200", "gauss": "gauss 1.5", "wide": "gauss 2.5", "binomial5": "binomial5",
         "binomial3": "binomial3", "point": "point"}


class Settled:
    """What the program prints of one settling."""

    def __init__(self, printed, gray, psf):
        figures, checked, self.plate = printed.split("\n")[:3]
        *counts, seconds = figures.split()
        self.before, self.after, self.on, self.off, self.swaps, self.scans, self.dots = map(int, counts)
        self.seconds = float(seconds)
        self.good = checked.split()[:3] == ["1", "1", "1"]
        self.yardsticks = [float(rms) for rms in checked.split()[3:]]
        cells = len(gray) * len(gray[0])
        self.rms = sqrt(self.after / cells) / sum(map(sum, psf))
        self.tone = (255 * self.dots - sum(map(sum, gray))) / cells


class Count:
    """Counts cases, and names those that fail."""

    passed = failed = 0

    def case(self, what, good):
        if good:
            self.passed += 1
        else:
            self.failed += 1
            print(f"{what}: wrong")

    def total(self):
        print(f"{self.passed} passed, {self.failed} failed")
        return 0 if self.failed == 0 else 1


def build():
    """The program, with the static library or that of the folder which PLATEMAKER_LIBRARY names."""
    library = Path(os.environ.get("PLATEMAKER_LIBRARY", "target/staticlib")) / "libplatemaker.a"
    if not (ROOT / library).exists():
        subprocess.run(["make", "lib"], cwd=ROOT, stdout=sys.stderr, check=True)
    PROGRAM.parent.mkdir(exist_ok=True)
    flags = "-std=c11 -Wall -Wextra -Wpedantic -Werror -O2 -Iinclude".split()
    sources = ["bench/defaults.c", "command/psfs.c"]
    subprocess.run(["cc", *flags, *sources, library, "-lm", "-o", PROGRAM], cwd=ROOT, check=True)


def text(rows):
    return "\n".join(" ".join(map(str, row)) for row in rows)


def settle(gray, psf, reach, start, turns=1):
    sheet = (f"width height radius reach start\n{len(gray[0])} {len(gray)} {len(psf) // 2} {reach} {start}\n"
             f"psf\n{text(psf)}\ngray\n{text(gray)}\n")
    words = [str(PROGRAM), str(turns), *map(str, YARDSTICKS)]
    done = subprocess.run(words, input=sheet, stdout=subprocess.PIPE, text=True, check=True)
    return Settled(done.stdout, gray, psf)


def palest(psf, reach, start):
    """The palest flat field that keeps a dot."""
    return next(gray for gray in range(256) if settle(flat(gray), psf, reach, start).dots > 0)


def read_ready():
    """The ready psfs as (name, rows), the default reach and the default start, as command/psfs.h has them."""
    printed = subprocess.run([PROGRAM, "--ready"], stdout=subprocess.PIPE, text=True, check=True).stdout.splitlines()
    reach, start = map(int, printed[0].split())
    ready = []
    for line in printed[1:]:
        name, radius, *entries = line.split()
        side = 2 * int(radius) + 1
        rows = [[int(entry) for entry in entries[side * y:side * (y + 1)]] for y in range(side)]
        ready.append((name, rows))
    return ready, reach, start


def markdown(names, rows, words=0):
    """The lines of a table; its first columns, so many, are words and stand to the left."""
    ruled = "|".join(["---"] * words + ["--:"] * (len(names) - words))
    return [f"| {' | '.join(names)} |", f"|{ruled}|", *(f"| {' | '.join(map(str, row))} |" for row in rows)]
