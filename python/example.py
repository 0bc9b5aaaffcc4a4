#!/usr/bin/env python3
"""A plate in ten lines: `python3 python/example.py <examples/hills.pgm >hills.pbm` settles a PGM into a PBM."""
import sys

from platemaker import Plate

plate = Plate.from_pgm(sys.stdin.buffer.read())
plate.settle()
print(plate.figures, file=sys.stderr)
sys.stdout.buffer.write(plate.to_pbm())
