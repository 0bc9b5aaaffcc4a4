//! The refusal numbers and what each says, as in include/platemaker.h.

/// Width or height.
pub const REFUSED_SIZE: u32 = 1;
/// Radius.
pub const REFUSED_RADIUS: u32 = 2;
/// Reach.
pub const REFUSED_REACH: u32 = 3;
/// Kind of start.
pub const REFUSED_START: u32 = 4;
/// A buffer of another length than it must have.
pub const REFUSED_LENGTH: u32 = 5;
/// The sum of the psf.
pub const REFUSED_PSF: u32 = 6;
/// A dot byte above 1.
pub const REFUSED_DOT: u32 = 7;
/// A named cell off the plate.
pub const REFUSED_CELL: u32 = 8;
/// A swap of a cell with itself, or farther than the reach.
pub const REFUSED_PAIR: u32 = 9;
/// In a sheet, a byte that none has there, or its end.
pub const REFUSED_BYTE: u32 = 10;
/// In a sheet, a number outside its field.
pub const REFUSED_NUMBER: u32 = 11;
/// A buffer too short for what is read or written.
pub const REFUSED_ROOM: u32 = 12;
/// An input too long: drawn by programs only.
pub const REFUSED_INPUT: u32 = 13;
/// The header or length of a PBM or PGM.
pub const REFUSED_PICTURE: u32 = 14;
/// The maximum of a PGM.
pub const REFUSED_MAXIMUM: u32 = 15;
/// Dots that contradict a locked cell: a dot on gray 0, or none on gray 255.
pub const REFUSED_LOCKED_DOT: u32 = 16;
/// The header or length of a PFM.
pub const REFUSED_PFM: u32 = 17;
/// A sample of a PFM that is no shade: below 0, above 1, or no number.
pub const REFUSED_SAMPLE: u32 = 18;
/// A table entry that is not that of the dots.
pub const REFUSED_TABLE: u32 = 20;
/// Stats that do not fit the dots.
pub const REFUSED_STATS: u32 = 21;
/// A swap of equal dots.
pub const REFUSED_EQUAL: u32 = 22;
/// An attempt that names a locked cell.
pub const REFUSED_LOCKED_CELL: u32 = 23;

/// What a refusal number says.
///
/// ```
/// use platemaker::{autocorrelation, refusal_text, REFUSED_RADIUS};
///
/// let refused = autocorrelation(4, &[1; 81], &mut [0; 289]);
/// assert_eq!((refused, refusal_text(refused)), (REFUSED_RADIUS, "radius above 3"));
/// ```
pub fn refusal_text(number: u32) -> &'static str {
    match number {
        0 => "not refused",
        REFUSED_SIZE => "width or height outside 1 to 256",
        REFUSED_RADIUS => "radius above 3",
        REFUSED_REACH => "reach above 6",
        REFUSED_START => "kind of start above 2",
        REFUSED_LENGTH => "buffer of a wrong length",
        REFUSED_PSF => "psf with a sum of 0 or above 1024",
        REFUSED_DOT => "dot above 1",
        REFUSED_CELL => "cell off the plate",
        REFUSED_PAIR => "swap of a cell with itself or beyond the reach",
        REFUSED_BYTE => "no sheet has this byte here, or it ends too early",
        REFUSED_NUMBER => "number outside its field",
        REFUSED_ROOM => "buffer too short",
        REFUSED_INPUT => "input too long",
        REFUSED_PICTURE => "not one whole raw PBM or PGM of 1 to 256 by 1 to 256 cells",
        REFUSED_MAXIMUM => "maximum of a PGM other than 255",
        REFUSED_LOCKED_DOT => "dot on gray 0, or none on gray 255, which are locked (1 and 254 are not)",
        REFUSED_PFM => "not one whole gray PFM of 1 to 256 by 1 to 256 cells with the scale 1.0 or -1.0",
        REFUSED_SAMPLE => "sample that is no number from 0 to 1",
        REFUSED_TABLE => "table that is not that of the dots",
        REFUSED_STATS => "ledger that does not fit the dots",
        REFUSED_EQUAL => "swap of equal dots",
        REFUSED_LOCKED_CELL => "attempt on gray 0 or 255, which are locked (1 and 254 are not)",
        _ => "unknown refusal",
    }
}
