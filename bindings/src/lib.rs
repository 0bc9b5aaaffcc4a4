//! The library platemaker for Rust. Each function of include/platemaker.h has a safe one here, without `pm_` in its name:
//! a slice stands for a pointer and a length, a `&mut` number for a result. It answers 0, or a refusal number
//! ([`refusal_text`] has words for it). On a refusal nothing that was lent changes, save the offset of the three
//! functions for sheets.
//!
//! The calls on a plate, [`start`] to [`converge`] and [`write_sheet`], take the measures first. They draw 5 where
//! these are not [`MEASURES`] numbers, before all else, and then 1 to 4 by these numbers.
//!
//! A cell of gray 0 (bare paper) or 255 (lettering) is locked: blank or a dot from the start on, and never changed. One
//! that is to stay free has 1 or 254.
//!
//! docs/SPECIFICATION.md has the rules, and the exact condition of every refusal number. `make lib` builds the library;
//! this crate links the static one.
//!
//! ```
//! use platemaker::{converge, start, Measures, STATS, STATS_ERROR};
//!
//! let measures = Measures { width: 2, height: 1, radius: 1, reach: 1, start: 0 }.numbers();
//! let (psf, gray) = ([0, 0, 0, 1, 2, 1, 0, 0, 0], [100, 100]);
//! let (mut dots, mut table, mut stats, mut scans) = ([0; 2], [0; 2], [0; STATS], 0);
//! assert_eq!(start(&measures, &psf, &gray, &mut dots, &mut table, &mut stats), 0);
//! assert_eq!(converge(&measures, &psf, &gray, &mut dots, &mut table, &mut stats, &mut scans), 0);
//! assert_eq!((dots, stats[STATS_ERROR], scans), ([1, 0], 80_150, 3));
//! ```

#![allow(clippy::too_many_arguments)]

mod header;
mod refusal;

pub use refusal::*;

/// The version of the header that this crate follows, in words and as a number: 1,000,000 * major + 1,000 * minor +
/// patch.
pub const VERSION_TEXT: &str = "3.1.0";
pub const VERSION: u32 = 3_001_000;

/// Sizes that suffice for every plate: width, and height; cells; the entries of a psf; the bytes of a sheet and of a
/// filed sheet; those of a PBM and of a PGM as they are written, and those of a PFM.
pub const MAX_SIDE: usize = 256;
pub const MAX_CELLS: usize = 65_536;
pub const MAX_PSF: usize = 49;
pub const MAX_SHEET: usize = 393_472;
pub const MAX_FILED: usize = 393_624;
pub const MAX_PBM: usize = 8_203;
pub const MAX_PGM: usize = 65_551;
pub const MAX_PFM: usize = 262_160;

/// The numbers in measures, as [`Measures`] has them.
pub const MEASURE_WIDTH: usize = 0;
pub const MEASURE_HEIGHT: usize = 1;
pub const MEASURE_RADIUS: usize = 2;
pub const MEASURE_REACH: usize = 3;
pub const MEASURE_START: usize = 4;
/// How many numbers there are in measures.
pub const MEASURES: usize = 5;

/// The numbers in stats: the squared error at the start and now, the dots at the start, toggles on, toggles off, swaps.
pub const STATS_START_ERROR: usize = 0;
pub const STATS_ERROR: usize = 1;
pub const STATS_START_DOTS: usize = 2;
pub const STATS_ON: usize = 3;
pub const STATS_OFF: usize = 4;
pub const STATS_SWAPS: usize = 5;
/// How many numbers there are in stats.
pub const STATS: usize = 6;

/// The numbers in verdict, which [`check_filed`] fills: the squared error as filed, and by the sum; whether these are
/// equal, whether the ledger fits and whether the plate rests, each 1 or 0, the last -16 where a start would refuse the
/// filed dots ([`REFUSED_LOCKED_DOT`]); width * height.
pub const VERDICT_FIGURE: usize = 0;
pub const VERDICT_SQUARED: usize = 1;
pub const VERDICT_AGREES: usize = 2;
pub const VERDICT_FITS: usize = 3;
pub const VERDICT_RESTS: usize = 4;
pub const VERDICT_CELLS: usize = 5;
/// How many numbers there are in verdict.
pub const VERDICT: usize = 6;

/// What a plate is measured by: width and height, 1 to 256; the radius of its psf, 0 to 3; the reach of a swap in a scan,
/// 0 to 6; the kind of start, 0 blank where not locked, 1 ordered, 2 the dots given.
#[derive(Clone, Copy, PartialEq, Eq, Debug, Default)]
pub struct Measures {
    pub width: usize,
    pub height: usize,
    pub radius: usize,
    pub reach: usize,
    pub start: usize,
}

impl Measures {
    /// The numbers that the calls on a plate take, and that [`read_sheet`] fills.
    pub fn numbers(self) -> [usize; MEASURES] {
        [self.width, self.height, self.radius, self.reach, self.start]
    }
}

impl From<[usize; MEASURES]> for Measures {
    fn from([width, height, radius, reach, start]: [usize; MEASURES]) -> Measures {
        Measures { width, height, radius, reach, start }
    }
}

// SAFETY of every call below: a pointer is that of a slice or of a number, so it is not null, and comes with the slice's own
// length. What is written overlaps nothing else, since it is borrowed mutably; what is only read may be one slice twice.

/// The version of the library that is linked: [`VERSION`] where crate and library belong together.
///
/// ```
/// assert_eq!(platemaker::version(), platemaker::VERSION);
/// ```
pub fn version() -> u32 {
    unsafe { header::pm_version() }
}

/// The autocorrelation of a psf: (4 * radius + 1)^2 numbers, row by row, offsets rising from -2 * radius. Draws 2, 5, 6.
pub fn autocorrelation(radius: usize, psf: &[u8], out: &mut [i32]) -> u32 {
    unsafe { header::pm_autocorrelation(radius, psf.as_ptr(), psf.len(), out.as_mut_ptr(), out.len()) }
}

/// The filtered error of every cell (the table), into table. Draws 1, 2, 5, 6, 7.
pub fn filtered_error(
    width: usize,
    height: usize,
    radius: usize,
    psf: &[u8],
    gray: &[u8],
    dots: &[u8],
    table: &mut [i32],
) -> u32 {
    unsafe {
        header::pm_filtered_error(
            width,
            height,
            radius,
            psf.as_ptr(),
            psf.len(),
            gray.as_ptr(),
            gray.len(),
            dots.as_ptr(),
            dots.len(),
            table.as_mut_ptr(),
            table.len(),
        )
    }
}

/// The squared error, into error. Draws 1, 2, 5, 6, 7.
pub fn squared_error(
    width: usize,
    height: usize,
    radius: usize,
    psf: &[u8],
    gray: &[u8],
    dots: &[u8],
    error: &mut i64,
) -> u32 {
    unsafe {
        header::pm_squared_error(
            width,
            height,
            radius,
            psf.as_ptr(),
            psf.len(),
            gray.as_ptr(),
            gray.len(),
            dots.as_ptr(),
            dots.len(),
            error,
        )
    }
}

/// The tone balance, by how much the dots are darker than the gray, into quotient and remainder: D = 255 * dots less the
/// sum of gray is quotient * N + remainder, N being the number of cells and the remainder from 0 to N - 1, also where D
/// is negative. The plate is lighter than its ground exactly when the quotient is below 0, as dark as it exactly when
/// both are 0, and else darker. Draws 1, 5, 7.
///
/// ```
/// let (mut quotient, mut remainder) = (0, 0);
/// let (gray, dots) = ([255, 1, 0, 0], [1, 0, 0, 0]);
/// assert_eq!(platemaker::tone_balance(2, 2, &gray, &dots, &mut quotient, &mut remainder), 0);
/// assert_eq!((quotient, remainder), (-1, 3));
/// ```
pub fn tone_balance(
    width: usize,
    height: usize,
    gray: &[u8],
    dots: &[u8],
    quotient: &mut i64,
    remainder: &mut usize,
) -> u32 {
    unsafe {
        header::pm_tone_balance(
            width,
            height,
            gray.as_ptr(),
            gray.len(),
            dots.as_ptr(),
            dots.len(),
            quotient,
            remainder,
        )
    }
}

/// Declares the calls on a plate. Each takes the measures and the plate's slices, then what is its own.
macro_rules! plate_calls {
    ($($(#[$doc:meta])* $name:ident, $function:ident($($own:ident: $type:ty),*);)*) => {
        $($(#[$doc])*
        pub fn $name(
            measures: &[usize],
            psf: &[u8],
            gray: &[u8],
            dots: &mut [u8],
            table: &mut [i32],
            stats: &mut [i64],
            $($own: $type),*
        ) -> u32 {
            unsafe {
                header::$function(
                    measures.as_ptr(),
                    measures.len(),
                    psf.as_ptr(),
                    psf.len(),
                    gray.as_ptr(),
                    gray.len(),
                    dots.as_mut_ptr(),
                    dots.len(),
                    table.as_mut_ptr(),
                    table.len(),
                    stats.as_mut_ptr(),
                    stats.len(),
                    $($own),*
                )
            }
        })*
    };
}

plate_calls! {
    /// A start of the kind given: writes dots, table and fresh stats. Kinds 0 and 1 set the locked cells; with kind 2
    /// the dots are read and stay. Draws 1 to 7, 16 (7 and 16 with kind 2 only).
    start, pm_start();

    /// An attempt to toggle the dot at (row, col). change is what the toggle adds to the squared error. Below 0 it was
    /// accepted: dots, table and stats have changed. Else it was declined, and they have not. Draws 1 to 7, 16, 8, 20,
    /// 21, 23 (the cell is locked), in this order.
    try_toggle, pm_try_toggle(row: usize, col: usize, change: &mut i64);

    /// An attempt to swap the dots at (row, col) and (row2, col2); change as above. Draws 1 to 7, 16, 8, 9, 20, 21, 23
    /// (one of the cells is locked), 22, in this order.
    try_swap, pm_try_swap(row: usize, col: usize, row2: usize, col2: usize, change: &mut i64);

    /// A toggle scan: a toggle is attempted at every cell that is not locked, row by row. changes is how many were
    /// accepted, trials how many were attempted: one for each of these cells, so at most width * height. Draws 1 to 7,
    /// 16, 20, 21.
    toggle_scan, pm_toggle_scan(changes: &mut u64, trials: &mut u64);

    /// A swap scan: at every cell, row by row, the swaps with the cells within reach are attempted, farthest first, up to
    /// the first that is accepted. Locked cells are passed over, as cell and as partner, and so are partners with the
    /// same dot. changes is how many were accepted, trials how many were attempted, those accepted among them, by this
    /// rule and not by what the library can spare itself: at most width * height * ((2 * reach + 1)^2 - 1). Draws 1 to
    /// 7, 16, 20, 21.
    swap_scan, pm_swap_scan(changes: &mut u64, trials: &mut u64);

    /// A settling: toggle scans until one accepts nothing, then a swap scan; if that accepted something, again. scans is
    /// how many scans were made. Draws 1 to 7, 16, 20, 21.
    converge, pm_converge(scans: &mut u64);
}

/// Reads a sheet to the front of the slices; what lies past it stays. With start 0 or 1 dots are not touched. Draws 5
/// (measures of another length than [`MEASURES`]) and 10, 11, 12 with the byte offset, which is written only then.
pub fn read_sheet(
    bytes: &[u8],
    psf: &mut [u8],
    gray: &mut [u8],
    dots: &mut [u8],
    measures: &mut [usize],
    offset: &mut usize,
) -> u32 {
    unsafe {
        header::pm_read_sheet(
            bytes.as_ptr(),
            bytes.len(),
            psf.as_mut_ptr(),
            psf.len(),
            gray.as_mut_ptr(),
            gray.len(),
            dots.as_mut_ptr(),
            dots.len(),
            measures.as_mut_ptr(),
            measures.len(),
            offset,
        )
    }
}

/// Writes a sheet with start 2 to the front of out, and its length. Draws 1 to 5, 7, and 12 where out is too short. The
/// offset is written only on a refusal: the length of out with 12, else 0. The length is written only on success.
///
/// ```
/// use platemaker::{read_sheet, write_sheet, Measures, MEASURES};
///
/// let measures = Measures { width: 2, height: 1, radius: 0, reach: 1, start: 2 };
/// let (mut out, mut length, mut offset) = ([0; 80], 0, 0);
/// assert_eq!(write_sheet(&measures.numbers(), &[1], &[100, 90], &[1, 0], &mut out, &mut length, &mut offset), 0);
/// assert_eq!(&out[..length], b"width height radius reach start\n2 1 0 1 2\npsf\n1\ngray\n100 90\ndots\n1 0\n");
/// let (mut psf, mut gray, mut dots, mut read) = ([0; 1], [0; 2], [0; 2], [0; MEASURES]);
/// assert_eq!(read_sheet(&out[..length], &mut psf, &mut gray, &mut dots, &mut read, &mut offset), 0);
/// assert_eq!(Measures::from(read), measures);
/// ```
pub fn write_sheet(
    measures: &[usize],
    psf: &[u8],
    gray: &[u8],
    dots: &[u8],
    out: &mut [u8],
    length: &mut usize,
    offset: &mut usize,
) -> u32 {
    unsafe {
        header::pm_write_sheet(
            measures.as_ptr(),
            measures.len(),
            psf.as_ptr(),
            psf.len(),
            gray.as_ptr(),
            gray.len(),
            dots.as_ptr(),
            dots.len(),
            out.as_mut_ptr(),
            out.len(),
            length,
            offset,
        )
    }
}

/// Checks a filed sheet: what the program `settle` prints for a plate, a sheet with start 2 and two lines of figures.
/// The sheet, and the table of its dots, then stand at the front of the slices; what lies past stays. Draws 5 (verdict
/// of another length than [`VERDICT`]), 10, 11, 12 and 6 with the byte offset, which is written only then. Dots that
/// contradict a locked cell are not refused here: figure and ledger are judged as ever, and rest is -16.
///
/// ```
/// use platemaker::{check_filed, VERDICT, VERDICT_AGREES, VERDICT_FITS, VERDICT_RESTS};
///
/// let filed = b"width height radius reach start\n2 1 1 1 2\npsf\n0 0 0\n1 2 1\n0 0 0\ngray\n100 100\ndots\n1 0\n\
///     before after on off swaps scans\n200000 80150 1 0 0 3\n";
/// let (mut psf, mut gray, mut dots, mut table) = ([0; 9], [0; 2], [0; 2], [0; 2]);
/// let (mut verdict, mut offset) = ([0; VERDICT], 0);
/// assert_eq!(check_filed(filed, &mut psf, &mut gray, &mut dots, &mut table, &mut verdict, &mut offset), 0);
/// assert_eq!(verdict, [80_150, 80_150, 1, 1, 1, 2]);
/// assert_eq!((verdict[VERDICT_AGREES], verdict[VERDICT_FITS], verdict[VERDICT_RESTS]), (1, 1, 1));
/// assert_eq!(table, [530, 20]);
///
/// let locked = b"width height radius reach start\n1 1 0 0 2\npsf\n1\ngray\n255\ndots\n0\n\
///     before after on off swaps scans\n65025 65025 0 0 0 2\n";
/// assert_eq!(check_filed(locked, &mut psf, &mut gray, &mut dots, &mut table, &mut verdict, &mut offset), 0);
/// assert_eq!(verdict[VERDICT_RESTS], -16);
/// ```
pub fn check_filed(
    bytes: &[u8],
    psf: &mut [u8],
    gray: &mut [u8],
    dots: &mut [u8],
    table: &mut [i32],
    verdict: &mut [i64],
    offset: &mut usize,
) -> u32 {
    unsafe {
        header::pm_check_filed(
            bytes.as_ptr(),
            bytes.len(),
            psf.as_mut_ptr(),
            psf.len(),
            gray.as_mut_ptr(),
            gray.len(),
            dots.as_mut_ptr(),
            dots.len(),
            table.as_mut_ptr(),
            table.len(),
            verdict.as_mut_ptr(),
            verdict.len(),
            offset,
        )
    }
}

/// Reads a raw PBM file (P4) to the front of dots, and its width and height; what lies past the cells stays. A set bit
/// is a dot; spare bits are passed over. Draws 14 (header, length), 12 (dots too short), in this order.
///
/// ```
/// use platemaker::{count_rows, read_pbm, write_pbm};
///
/// let (mut dots, mut width, mut height) = ([0; 6], 0, 0);
/// assert_eq!(read_pbm(b"P4 # two rows\n3 2\n\xa0\x40", &mut dots, &mut width, &mut height), 0);
/// assert_eq!((dots, width, height), ([1, 0, 1, 0, 1, 0], 3, 2));
/// let (mut file, mut length, mut counts) = ([0; 16], 0, [0; 2]);
/// assert_eq!(write_pbm(width, height, &dots, &mut file, &mut length), 0);
/// assert_eq!(&file[..length], b"P4\n3 2\n\xa0\x40");
/// assert_eq!(count_rows(width, height, &file[length - 2..length], &mut counts), 0);
/// assert_eq!(counts, [2, 1]);
/// ```
pub fn read_pbm(file: &[u8], dots: &mut [u8], width: &mut usize, height: &mut usize) -> u32 {
    unsafe { header::pm_read_pbm(file.as_ptr(), file.len(), dots.as_mut_ptr(), dots.len(), width, height) }
}

/// Reads a raw PGM file (P5) to the front of gray, and its width and height; what lies past the cells stays. Gray is
/// 255 less the stored value, so that white and black are locked. Draws 14 (header, or length at one byte a cell), 15 (a
/// maximum other than 255), 12 (gray too short), in this order.
pub fn read_pgm(file: &[u8], gray: &mut [u8], width: &mut usize, height: &mut usize) -> u32 {
    unsafe { header::pm_read_pgm(file.as_ptr(), file.len(), gray.as_mut_ptr(), gray.len(), width, height) }
}

/// Reads a gray PFM file (`Pf`) to the front of gray; what lies past the cells stays. The scale is 1.0 where the
/// samples are big-endian, -1.0 where they are little-endian. A sample v from 0 to 1 becomes gray 255 - k, where k is
/// the whole number nearest to 255 * v, worked out exactly, and 128 at the one tie. Draws 17 (header or length), 12
/// (gray too short), 18 (a sample that is no shade: below 0, above 1, infinite or no number), in this order. With 18
/// the byte offset of the first such sample in the file is written, and otherwise the offset stays; width, height and
/// scale are written only on success.
///
/// ```
/// use platemaker::{read_pfm, REFUSED_SAMPLE};
///
/// let mut file = *b"Pf\n1 2\n-1.0\n\x00\x00\x80\x3f\x00\x00\x00\x3f"; // 1.0 below 0.5
/// let (mut gray, mut width, mut height, mut scale, mut offset) = ([7; 3], 0, 0, 0.0, 7);
/// assert_eq!(read_pfm(&file, &mut gray, &mut width, &mut height, &mut scale, &mut offset), 0);
/// assert_eq!((gray, width, height, scale, offset), ([127, 0, 7], 1, 2, -1.0, 7));
///
/// file[18] = 0x80; // 0.5 turns into 1.0, and its sign into minus
/// file[19] = 0xbf;
/// assert_eq!(read_pfm(&file, &mut gray, &mut width, &mut height, &mut scale, &mut offset), REFUSED_SAMPLE);
/// assert_eq!((gray, offset), ([127, 0, 7], 16));
/// ```
pub fn read_pfm(
    file: &[u8],
    gray: &mut [u8],
    width: &mut usize,
    height: &mut usize,
    scale: &mut f32,
    offset: &mut usize,
) -> u32 {
    unsafe {
        header::pm_read_pfm(file.as_ptr(), file.len(), gray.as_mut_ptr(), gray.len(), width, height, scale, offset)
    }
}

/// Writes a raw PBM file to the front of out, and its length; spare bits are 0. Draws 1, 5, 7, and 12 where out is too
/// short. The length is written only on success.
pub fn write_pbm(width: usize, height: usize, dots: &[u8], out: &mut [u8], length: &mut usize) -> u32 {
    unsafe { header::pm_write_pbm(width, height, dots.as_ptr(), dots.len(), out.as_mut_ptr(), out.len(), length) }
}

/// Writes a raw PGM file to the front of out, and its length; the maximum is 255. Draws 1, 5, and 12 where out is too
/// short. The length is written only on success.
pub fn write_pgm(width: usize, height: usize, gray: &[u8], out: &mut [u8], length: &mut usize) -> u32 {
    unsafe { header::pm_write_pgm(width, height, gray.as_ptr(), gray.len(), out.as_mut_ptr(), out.len(), length) }
}

/// The dots of each row, into counts, one number a row. packed is what follows the header of a raw PBM file: rows of
/// (width + 7) / 8 bytes, the highest bit the leftmost cell. Spare bits are not counted. Draws 1, 5.
pub fn count_rows(width: usize, height: usize, packed: &[u8], counts: &mut [u32]) -> u32 {
    unsafe { header::pm_count_rows(width, height, packed.as_ptr(), packed.len(), counts.as_mut_ptr(), counts.len()) }
}
