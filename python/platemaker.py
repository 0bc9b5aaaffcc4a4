"""Gray to a one-colour plate of dots, over the proved library `libplatemaker` (`make lib`); nothing else is needed.

    from pathlib import Path
    from platemaker import Plate, check

    plate = Plate.from_pgm(Path("examples/hills.pgm").read_bytes())
    scans = plate.settle()
    print("squared error", plate.figures.start_error, "at the start and", plate.figures.error, "settled")
    Path("hills.pbm").write_bytes(plate.to_pbm())
    Path("hills.filed").write_bytes(plate.to_filed(scans))
    print("good" if check(Path("hills.filed").read_bytes()).good else "not good")

What the library refuses is raised as `Refused`, and then nothing has changed. It judges lengths and values; here only
types are judged, and numbers that it cannot be handed (OverflowError). include/platemaker.h says what each call does,
docs/SPECIFICATION.md by which rules, and when a number is drawn.

The library is that of the folder which PLATEMAKER_LIBRARY names, else that of this checkout or of this installation,
else the system's. A Plate is for one thread at a time; different ones can be at work at the same time, since a call
lets other threads run. A call takes less than 1 MiB of stack: where threads have less, see threading.stack_size.
"""
from __future__ import annotations

import ctypes
import os
from array import array
from ctypes import byref, c_char, c_float, c_int64, c_size_t, c_uint64
from math import isqrt
from operator import index
from pathlib import Path
from typing import Any, Iterable, NamedTuple, Optional, Union

VERSION = "3.1.0"
MAX_CELLS, MAX_PSF, MAX_SHEET, MAX_PBM = 65536, 49, 393472, 8203


def _mirrored(*quarter: tuple[int, ...]) -> tuple[int, ...]:
    """A psf that is mirrored both ways, row by row, from its upper left quarter with the middle row and column."""
    upper = [row + row[-2::-1] for row in quarter]
    return sum(upper + upper[-2::-1], ())


# the ready psfs, and what is taken where nothing is said: as the command `plate` has them
PSFS = {
    "eye": _mirrored((7, 8, 10, 11), (8, 12, 18, 23), (10, 18, 44, 63), (11, 23, 63, 94)),
    "gauss": _mirrored((1, 4, 8, 10), (4, 13, 25, 31), (8, 25, 48, 60), (10, 31, 60, 76)),
    "wide": _mirrored((9, 13, 16, 18), (13, 19, 25, 27), (16, 25, 31, 34), (18, 27, 34, 37)),
    "binomial5": _mirrored((1, 4, 6), (4, 16, 24), (6, 24, 36)),
    "binomial3": _mirrored((1, 2), (2, 4)),
    "point": (1,),
}
DEFAULT_PSF, DEFAULT_REACH, DEFAULT_START = "eye", 1, 0

# what a refusal number says
REFUSALS = {
    1: "width or height outside 1 to 256",
    2: "radius above 3",
    3: "reach above 6",
    4: "kind of start above 2",
    5: "buffer of a wrong length",
    6: "psf with a sum of 0 or above 1024",
    7: "dot above 1",
    8: "cell off the plate",
    9: "swap of a cell with itself or beyond the reach",
    10: "no sheet has this byte here, or it ends too early",
    11: "number outside its field",
    12: "buffer too short",
    13: "input too long",
    14: "not one whole raw PBM or PGM of 1 to 256 by 1 to 256 cells",
    15: "maximum of a PGM other than 255",
    16: "dot on gray 0, or none on gray 255, which are locked (1 and 254 are not)",
    17: "not one whole gray PFM of 1 to 256 by 1 to 256 cells with the scale 1.0 or -1.0",
    18: "sample that is no number from 0 to 1",
    20: "table that is not that of the dots",
    21: "ledger that does not fit the dots",
    22: "swap of equal dots",
    23: "attempt on gray 0 or 255, which are locked (1 and 254 are not)",
}

# bytes, bytearray, memoryview, array("B"), a numpy array of uint8: whatever a memoryview can be taken of
Buffer = Any
Psf = Union[str, Iterable[int]]


class Refused(Exception):
    """The library refused a call: `number`, its `text`, and the byte `offset` in a sheet, or of a sample (18) in a PFM
    file; None where there is none."""

    def __init__(self, number: int, offset: Optional[int] = None) -> None:
        super().__init__(number, offset)
        self.number, self.offset = number, offset
        self.text = REFUSALS.get(number, "unknown refusal")

    def __str__(self) -> str:
        place = "" if self.offset is None else f" at byte {self.offset}"
        return f"refused {self.number}{place}: {self.text}"


class Measures(NamedTuple):
    """The measures of a plate; `start` is the kind: 0 blank where not locked, 1 ordered, 2 the dots given."""

    width: int
    height: int
    radius: int
    reach: int
    start: int


class Figures(NamedTuple):
    """The ledger of a plate: squared error at the start and now, dots at the start, toggles on and off, swaps."""

    start_error: int
    error: int
    start_dots: int
    on: int
    off: int
    swaps: int


class Scan(NamedTuple):
    """What a scan came to: how many changes it accepted, and how many it tried, the accepted ones among them."""

    changes: int
    trials: int


class ToneBalance(NamedTuple):
    """By how much a plate is darker than its ground: divmod(D, cells), D being 255 * dots less the sum of gray. The plate
    is lighter exactly when the quotient is below 0, and as dark as its ground exactly when both numbers are 0."""

    quotient: int
    remainder: int

    @property
    def darker(self) -> bool:
        """Whether the plate is darker than its ground."""
        return self.quotient >= 0 and self != (0, 0)


class Verdict(NamedTuple):
    """What a check found: the squared error as filed and of the dots, whether they agree, whether the ledger fits the
    dots, whether no toggle and no swap within reach, of cells that are not locked, lowers the squared error, and the
    number of cells. `unstarted` is the number by which a start would refuse the dots (16: they contradict a locked
    cell); then `rests` is False. Where none would refuse them it is 0."""

    figure: int
    squared: int
    agrees: bool
    fits: bool
    rests: bool
    cells: int
    unstarted: int = 0

    @property
    def good(self) -> bool:
        """Whether figure, ledger and rest are all as they should be."""
        return self.agrees and self.fits and self.rests


def _path() -> str:
    """The library's file, or its name where the system has to find it."""
    name = f"libplatemaker.so.{VERSION.split('.')[0]}"
    named = os.environ.get("PLATEMAKER_LIBRARY")
    if named:
        return os.path.join(os.path.abspath(named), name)
    here = Path(__file__).resolve().parent
    near = here.parent / "target" / "lib" / name, here.parent.parent / "lib" / name
    return next((str(path) for path in near if path.exists()), name)


def _load(path: str) -> ctypes.CDLL:
    """The library, if its major version is that of this file."""
    try:
        library = ctypes.CDLL(path)
        version = library.pm_version()
    except (OSError, AttributeError) as error:
        raise ImportError(f"no library: {error}; `make lib` builds it, PLATEMAKER_LIBRARY names its folder") from error
    if str(version // 1000000) != VERSION.split(".")[0]:
        found = f"{version // 1000000}.{version // 1000 % 1000}.{version % 1000}"
        raise ImportError(f"{path} has version {found}, platemaker.py {VERSION}; `make lib` builds one that fits")
    return library


_library = _load(_path())


def _number(number: Any, most: int = 2 ** (8 * ctypes.sizeof(c_size_t)) - 1) -> int:
    """A whole number from 0 to most. ctypes by itself would wrap any other."""
    number = index(number)
    if not 0 <= number <= most:
        raise OverflowError(f"{number} is not within 0 to {most}")
    return number


def _handed(argument: Any) -> tuple[Any, ...]:
    """An argument as C has it: a buffer as pointer and length, a result as pointer, a number."""
    if isinstance(argument, bytes):
        return argument, c_size_t(len(argument))
    if isinstance(argument, memoryview):
        return byref(c_char.from_buffer(argument)) if argument.nbytes else None, c_size_t(len(argument))
    if isinstance(argument, (c_int64, c_uint64, c_size_t, c_float)):
        return (byref(argument),)
    return (c_size_t(_number(argument)),)


def _call(name: str, *arguments: Any, place: Optional[c_size_t] = None) -> None:
    """Calls a function of the library; one for sheets or for PFM files also has a place for the byte offset."""
    handed = [part for argument in arguments for part in _handed(argument)]
    number = getattr(_library, name)(*handed, *([] if place is None else [byref(place)]))
    if number:
        told = (18,) if name == "pm_read_pfm" else (10, 11, 12)
        raise Refused(number, place.value if place is not None and number in told else None)


def _written(name: str, room: int, *arguments: Any, place: Optional[c_size_t] = None) -> bytes:
    """What a function of the library writes into so much room."""
    out, length = memoryview(bytearray(room)), c_size_t()
    _call(name, *arguments, out, length, place=place)
    return bytes(out[: length.value])


def _readable(data: Buffer) -> Union[bytes, memoryview]:
    """Bytes to be read: the caller's own `bytes`, or a view of memory that can be written; of all else a copy."""
    view = memoryview(data)
    if view.itemsize != 1:
        raise TypeError("a buffer with items of one byte is wanted")
    if isinstance(data, bytes):
        return data
    return bytes(view) if view.readonly or not view.c_contiguous else view.cast("B")


def _writable(data: Buffer) -> memoryview:
    """Bytes to be written: a view of the caller's memory where it can be written, else of a copy."""
    given = _readable(data)
    return memoryview(bytearray(given)) if isinstance(given, bytes) else given


def _numbers(code: str, count: int) -> memoryview:
    """So many numbers of an array's type code, all 0."""
    return memoryview(array(code, bytes(count * array(code).itemsize)))


def _table(table: Buffer) -> memoryview:
    """A view of the caller's table."""
    view = memoryview(table)
    if view.format not in ("i", "l") or view.itemsize != 4:
        raise TypeError("table: a buffer of 32-bit integers is wanted")
    return view.cast("B").cast("i")


def _entries(psf: Psf) -> bytes:
    """The entries of a psf, which may be given by name."""
    if isinstance(psf, str):
        if psf not in PSFS:
            raise ValueError(f"no ready psf {psf!r}: there are {', '.join(PSFS)}")
        psf = PSFS[psf]
    return bytes(_number(entry, 255) for entry in psf)


def _radius(psf: bytes) -> int:
    """The radius of a psf with so many entries. Where they are no square, the library refuses their length."""
    return max(isqrt(len(psf)) - 1, 0) // 2


class Plate:
    """A plate with its gray, dots, table of the filtered error, and ledger, started. `measures` may be replaced.

    gray, dots, table -- views of the buffers, in which all that a call leaves can be seen
    """

    def __init__(
        self, gray: Buffer, width: int, height: int, psf: Psf = DEFAULT_PSF, reach: int = DEFAULT_REACH,
        start: Optional[int] = None, dots: Optional[Buffer] = None, table: Optional[Buffer] = None,
    ) -> None:
        """A plate of width * height gray bytes (0 is paper, 255 black), started.

        A cell of gray 0 or 255 is locked: blank or a dot from the start on, and never changed. Dots that contradict it
        are refused (16). A cell that is to stay free has gray 1 or 254.

        psf is a name in PSFS, or 1, 9, 25 or 49 numbers, row by row. start is 0 blank, 1 ordered, 2 the dots given, or
        blank if there are none; where it is not said, 2 if there are dots, else DEFAULT_START.

        Without a copy: gray in `bytes` or in memory that can be written (bytearray, array, memoryview); dots and table
        (array("i")) in memory that can be written: these are lent, and the plate is seen there. No two of them may
        overlap. With one: gray and dots that can only be read or have gaps, and the psf. A lent bytearray or array
        cannot be resized while the plate is there.
        """
        self._psf = _entries(psf)
        self._gray = _readable(gray)
        cells = min(len(self._gray), MAX_CELLS)
        self._dots = memoryview(bytearray(cells)) if dots is None else _writable(dots)
        self._table = _numbers("i", cells) if table is None else _table(table)
        self._stats = _numbers("q", len(Figures._fields))
        if start is None:
            start = DEFAULT_START if dots is None else 2
        self.measures = Measures(width, height, _radius(self._psf), reach, start)
        self.start()

    @classmethod
    def from_pgm(cls, data: Buffer, **settings: Any) -> Plate:
        """The plate of a raw PGM file: white and black are locked; psf, reach, start, dots, table as in Plate()."""
        width, height, gray = read_pgm(data)
        return cls(gray, width, height, **settings)

    @classmethod
    def from_pfm(cls, data: Buffer, **settings: Any) -> Plate:
        """The plate of a gray PFM file: what is nearest to white or black is locked; settings as in from_pgm()."""
        width, height, _, gray = read_pfm(data)
        return cls(gray, width, height, **settings)

    @classmethod
    def from_sheet(cls, data: Buffer) -> Plate:
        """The plate of a sheet, started as it says: dots of it that contradict a locked cell are refused (16)."""
        psf, gray, dots = (memoryview(bytearray(room)) for room in (MAX_PSF, MAX_CELLS, MAX_CELLS))
        numbers = (c_size_t * len(Measures._fields))()
        _call("pm_read_sheet", _readable(data), psf, gray, dots, memoryview(numbers), place=c_size_t())
        width, height, radius, reach, start = numbers
        cells, entries = width * height, (2 * radius + 1) ** 2
        return cls(bytearray(gray[:cells]), width, height, psf[:entries], reach, start, bytearray(dots[:cells]))

    @property
    def gray(self) -> memoryview:
        """The gray, a byte a cell."""
        return memoryview(self._gray)

    @property
    def dots(self) -> memoryview:
        """The dots, a byte a cell."""
        return self._dots

    @property
    def table(self) -> memoryview:
        """The filtered error, a number a cell."""
        return self._table

    @property
    def figures(self) -> Figures:
        """The ledger as it is now."""
        return Figures(*self._stats)

    def start(self, kind: Optional[int] = None, dots: Optional[Buffer] = None) -> None:
        """Starts the plate anew: dots, table and a fresh ledger.

        dots take the place of the plate's and are lent as in Plate(); without them kind 2 takes the dots as they are.
        Where the kind is not said, it is 2 if there are dots, else that of the start before.
        """
        held = self._dots if dots is None else _writable(dots)
        if kind is None:
            kind = self.measures.start if dots is None else 2
        measures = self.measures._replace(start=kind)
        _call("pm_start", *self._all(measures, held))
        self.measures, self._dots = measures, held

    def settle(self) -> int:
        """Makes toggle scans and swap scans until none lowers the squared error; answers how many scans."""
        return self._made("pm_converge", c_uint64())

    def toggle(self, row: int, col: int) -> int:
        """Attempts to toggle a dot; answers what it adds to the squared error. It is done where that is below 0.

        A locked cell is refused (23).
        """
        return self._made("pm_try_toggle", c_int64(), row, col)

    def swap(self, row: int, col: int, row2: int, col2: int) -> int:
        """Attempts to swap two dots; answers what it adds to the squared error. It is done where that is below 0.

        A locked cell is refused (23).
        """
        return self._made("pm_try_swap", c_int64(), row, col, row2, col2)

    def toggle_scan(self) -> Scan:
        """Attempts a toggle at every cell that is not locked; answers how many were done and how many attempted."""
        return self._scanned("pm_toggle_scan")

    def swap_scan(self) -> Scan:
        """Attempts swaps at every cell that is not locked, up to the first that is done; answers how many were done and
        how many attempted. Cells with the same dot, and locked ones, are no partners and count for nothing.
        """
        return self._scanned("pm_swap_scan")

    def squared_error(self) -> int:
        """The squared error, worked out afresh from the dots."""
        error = c_int64()
        _call("pm_squared_error", *self.measures[:3], self._psf, self._gray, self._dots, error)
        return error.value

    def tone_balance(self) -> ToneBalance:
        """By how much the plate is darker than its ground."""
        quotient, remainder = c_int64(), c_size_t()
        _call("pm_tone_balance", *self.measures[:2], self._gray, self._dots, quotient, remainder)
        return ToneBalance(quotient.value, remainder.value)

    def to_pbm(self) -> bytes:
        """The dots as a raw PBM file."""
        return _written("pm_write_pbm", MAX_PBM, *self.measures[:2], self._dots)

    def to_sheet(self) -> bytes:
        """The plate as a sheet that starts with its dots."""
        return _written("pm_write_sheet", MAX_SHEET, *self._all(self.measures, self._dots)[:4], place=c_size_t())

    def to_filed(self, scans: int) -> bytes:
        """The plate as a filed sheet, with its figures and the scans that settle() answered."""
        start_error, error, _, *counts = self.figures
        figures = " ".join(map(str, [start_error, error, *counts, _number(scans, 2**63 - 1)]))
        return self.to_sheet() + f"before after on off swaps scans\n{figures}\n".encode()

    def _all(self, measures: Measures, dots: memoryview) -> tuple[Any, ...]:
        """What a call on a plate is handed."""
        numbers = (c_size_t * len(measures))(*map(_number, measures))
        return memoryview(numbers), self._psf, self._gray, dots, self._table, self._stats

    def _made(self, name: str, result: Any, *cells: int) -> int:
        """A call that changes the plate, and its result."""
        _call(name, *self._all(self.measures, self._dots), *cells, result)
        return int(result.value)

    def _scanned(self, name: str) -> Scan:
        """A scan of the plate, and its results."""
        changes, trials = c_uint64(), c_uint64()
        _call(name, *self._all(self.measures, self._dots), changes, trials)
        return Scan(changes.value, trials.value)


def check(filed: Buffer) -> Verdict:
    """Checks a filed sheet, as `plate settle --sheet` and Plate.to_filed make it."""
    room = [memoryview(bytearray(size)) for size in (MAX_PSF, MAX_CELLS, MAX_CELLS)]
    verdict = _numbers("q", len(Verdict._fields) - 1)  # a start's refusal stands in the place of rest, below 0
    _call("pm_check_filed", _readable(filed), *room, _numbers("i", MAX_CELLS), verdict, place=c_size_t())
    figure, squared, agrees, fits, rests, cells = verdict
    return Verdict(figure, squared, agrees == 1, fits == 1, rests == 1, cells, max(-rests, 0))


def autocorrelation(psf: Psf) -> list[int]:
    """The autocorrelation of a psf: (4 * radius + 1)^2 numbers, row by row, by rising offset."""
    entries = _entries(psf)
    radius = _radius(entries)
    out = _numbers("i", (4 * radius + 1) ** 2)
    _call("pm_autocorrelation", radius, entries, out)
    return out.tolist()


def read_pbm(data: Buffer) -> tuple[int, int, bytearray]:
    """Width, height and dots of a raw PBM file."""
    return _read_picture("pm_read_pbm", data)


def read_pgm(data: Buffer) -> tuple[int, int, bytearray]:
    """Width, height and gray of a raw PGM file: 255 less each stored value, so that white is 0 and black 255."""
    return _read_picture("pm_read_pgm", data)


def read_pfm(data: Buffer) -> tuple[int, int, float, bytearray]:
    """Width, height, scale and gray of a gray PFM file: 255 less the whole number nearest to 255 times each sample.

    So white, 1, is 0 and black, 0, is 255. The scale is 1.0 in a file that is big-endian, -1.0 in a little-endian one.
    Samples that are no numbers from 0 to 1 are refused (18), with the byte offset of the first in the file.
    """
    scale = c_float()
    width, height, gray = _read_picture("pm_read_pfm", data, scale, place=c_size_t())
    return width, height, scale.value, gray


def _read_picture(name: str, data: Buffer, *more: Any, place: Optional[c_size_t] = None) -> tuple[int, int, bytearray]:
    cells, width, height = memoryview(bytearray(MAX_CELLS)), c_size_t(), c_size_t()
    _call(name, _readable(data), cells, width, height, *more, place=place)
    return width.value, height.value, bytearray(cells[: width.value * height.value])


def count_rows(width: int, height: int, packed: Buffer) -> list[int]:
    """The dots of each row of a PBM file's raster: rows of (width + 7) // 8 bytes, the highest bit leftmost."""
    counts = _numbers("I", min(_number(height), 256))
    _call("pm_count_rows", width, height, _readable(packed), counts)
    return counts.tolist()
