#!/usr/bin/env python3
"""A plate settled scan by scan, each told: `python3 python/scans.py <examples/hills.pgm >hills.pbm`."""
import sys

from platemaker import Plate


def scans(plate):
    """The scans of plate.settle(), made one at a time: yields the changes and the trials of each."""
    while True:
        toggles = plate.toggle_scan()
        yield toggles
        if not toggles.changes:
            swaps = plate.swap_scan()
            yield swaps
            if not swaps.changes:
                return


if __name__ == "__main__":
    plate = Plate.from_pgm(sys.stdin.buffer.read())
    for number, (changes, trials) in enumerate(scans(plate), 1):
        error = plate.figures.error
        print(f"scan {number}: {changes} changes in {trials} trials, squared error {error}", file=sys.stderr)
    sys.stdout.buffer.write(plate.to_pbm())
