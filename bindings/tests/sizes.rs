//! The largest plate fills just the sizes that suffice for every plate.

use platemaker::*;

/// 256 by 256, radius 3, every number of as many digits as there are.
const LARGEST: [usize; MEASURES] = [MAX_SIDE, MAX_SIDE, 3, 6, 2];
const PSF: [u8; MAX_PSF] = [255; MAX_PSF];
static GRAY: [u8; MAX_CELLS] = [255; MAX_CELLS];
static DOTS: [u8; MAX_CELLS] = [1; MAX_CELLS];

/// The sheet of the largest plate, written into just as many bytes.
fn largest_sheet() -> Vec<u8> {
    let (mut sheet, mut length, mut offset) = (vec![0; MAX_SHEET], 0, 0);
    assert_eq!(write_sheet(&LARGEST, &PSF, &GRAY, &DOTS, &mut sheet, &mut length, &mut offset), 0);
    assert_eq!(length, MAX_SHEET);
    sheet
}

#[test]
fn the_largest_sheet() {
    let (mut psf, mut gray, mut dots) = ([0; MAX_PSF], vec![0; MAX_CELLS], vec![0; MAX_CELLS]);
    let (mut measures, mut offset) = ([0; MEASURES], 0);
    assert_eq!(read_sheet(&largest_sheet(), &mut psf, &mut gray, &mut dots, &mut measures, &mut offset), 0);
    assert_eq!((measures, psf), (LARGEST, PSF));
    assert!(gray == GRAY && dots == DOTS);
}

/// All of it is read: what it draws is the sum of its psf, which is judged last.
#[test]
fn the_largest_filed_sheet() {
    let figures = [i64::MAX; 6].map(|figure| figure.to_string()).join(" ");
    let lines = format!("before after on off swaps scans\n{figures}\n");
    let filed = [largest_sheet(), lines.into_bytes()].concat();
    assert_eq!(filed.len(), MAX_FILED);
    let (mut psf, mut gray, mut dots) = ([0; MAX_PSF], vec![0; MAX_CELLS], vec![0; MAX_CELLS]);
    let (mut table, mut verdict, mut offset) = (vec![0; MAX_CELLS], [0; VERDICT], 7);
    let refused = check_filed(&filed, &mut psf, &mut gray, &mut dots, &mut table, &mut verdict, &mut offset);
    assert_eq!((refused, offset), (REFUSED_PSF, 0));
}

#[test]
fn the_largest_pictures() {
    let (mut pbm, mut pgm, mut length) = (vec![0; MAX_PBM], vec![0; MAX_PGM], 0);
    assert_eq!(write_pbm(MAX_SIDE, MAX_SIDE, &DOTS, &mut pbm, &mut length), 0);
    assert_eq!(length, MAX_PBM);
    assert_eq!(write_pgm(MAX_SIDE, MAX_SIDE, &GRAY, &mut pgm, &mut length), 0);
    assert_eq!(length, MAX_PGM);
}

/// The longest lines, and all its cells black; a byte less and one more are refused.
#[test]
fn the_largest_pfm() {
    let (lines, samples) = (b"Pf\n256 256\n-1.0\n", vec![0; 4 * MAX_CELLS + 1]);
    let file = [&lines[..], &samples].concat();
    let (mut gray, mut width, mut height, mut scale, mut offset) = (vec![7; MAX_CELLS], 7, 7, 7.0, 7);
    for length in [MAX_PFM - 1, MAX_PFM + 1] {
        let refused = read_pfm(&file[..length], &mut gray, &mut width, &mut height, &mut scale, &mut offset);
        assert_eq!((refused, width, height, scale, offset), (REFUSED_PFM, 7, 7, 7.0, 7));
    }
    assert_eq!(read_pfm(&file[..MAX_PFM], &mut gray, &mut width, &mut height, &mut scale, &mut offset), 0);
    assert_eq!((width, height, scale, offset), (MAX_SIDE, MAX_SIDE, -1.0, 7));
    assert!(gray == GRAY);
}
