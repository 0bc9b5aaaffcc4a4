"""Pictures in rows with captions, as a PNG that is written or held against a file."""
import struct
import zlib

from glyphs import pixels

MARGIN, LETTER, LEADING = 12, 2, 5
PAPER, INK = 255, 0


def panel(rows, caption, enlarged):
    """One picture, each cell so many pixels wide and high, with the lines of its caption below."""
    drawn = [[cell for cell in row for _ in range(enlarged)] for row in rows for _ in range(enlarged)]
    drawn += [[]] * (MARGIN - LEADING)
    for line in caption:
        drawn += [[]] * LEADING
        drawn += [[INK if ink else PAPER for ink in inked] for inked in pixels(line, LETTER)]
    width = max(map(len, drawn))
    return [line + [PAPER] * (width - len(line)) for line in drawn]


def beside(panels):
    """Panels side by side, with a margin before each and after the last."""
    between, height = [PAPER] * MARGIN, max(map(len, panels))
    filled = [part + [[PAPER] * len(part[0])] * (height - len(part)) for part in panels]
    return [sum((between + part[y] for part in filled), []) + between for y in range(height)]


def picture(grid):
    """Rows of panels, one below the other."""
    rows = [beside(panels) for panels in grid]
    width = max(len(row[0]) for row in rows)
    blank = [[PAPER] * width for _ in range(MARGIN)]
    return blank + [line + [PAPER] * (width - len(line)) for row in rows for line in row + blank]


def scanlines(rows):
    return b"".join(b"\0" + bytes(row) for row in rows)


def chunk(name, data):
    return struct.pack(">I", len(data)) + name + data + struct.pack(">I", zlib.crc32(name + data))


def png(rows):
    """A PNG of 8-bit gray."""
    header = struct.pack(">IIBBBBB", len(rows[0]), len(rows), 8, 0, 0, 0, 0)
    return (
        b"\x89PNG\r\n\x1a\n"
        + chunk(b"IHDR", header)
        + chunk(b"IDAT", zlib.compress(scanlines(rows), 9))
        + chunk(b"IEND", b"")
    )


def holds(data, rows):
    """Whether a PNG that `png` wrote, by whatever compressor, is of these rows."""
    at, header, packed = 8, b"", b""
    while at < len(data):
        length, name = struct.unpack(">I4s", data[at : at + 8])
        body = data[at + 8 : at + 8 + length]
        header, packed = header + body * (name == b"IHDR"), packed + body * (name == b"IDAT")
        at += 12 + length
    size = struct.pack(">II", len(rows[0]), len(rows))
    return header[:8] == size and zlib.decompressobj().decompress(packed) == scanlines(rows)


def keep(grid, path, check):
    """Writes the picture of the panels, or answers whether the file holds just this picture."""
    rows = picture(grid)
    if check:
        return path.exists() and holds(path.read_bytes(), rows)
    path.write_bytes(png(rows))
    return True
