//! What scans answer, on plates that are small enough to be counted by hand. Their psf spreads nothing.

use platemaker::*;

type Scan = fn(&[usize], &[u8], &[u8], &mut [u8], &mut [i32], &mut [i64], &mut u64, &mut u64) -> u32;

/// Starts a plate with these dots, adds so much to its squared error, and answers status, changes and trials of a scan.
/// Both hold 7 before.
fn scanned(scan: Scan, (width, reach): (usize, usize), gray: &[u8], dots: &[u8], more: i64) -> (u32, u64, u64) {
    let measures = Measures { width, height: gray.len() / width, radius: 0, reach, start: 2 }.numbers();
    let (mut dots, mut table, mut stats) = (dots.to_vec(), vec![0; gray.len()], [0; STATS]);
    assert_eq!(start(&measures, &[1], gray, &mut dots, &mut table, &mut stats), 0);
    stats[STATS_ERROR] += more;
    let (mut changes, mut trials) = (7, 7);
    let status = scan(&measures, &[1], gray, &mut dots, &mut table, &mut stats, &mut changes, &mut trials);
    (status, changes, trials)
}

/// Each of four cells has two unlike ones beside it, however far a swap may go.
#[test]
fn a_plate_at_rest() {
    let (gray, dots) = ([128, 127, 127, 128], [1, 0, 0, 1]);
    for reach in [1, 6] {
        assert_eq!(scanned(toggle_scan, (2, reach), &gray, &dots, 0), (0, 0, 4));
        assert_eq!(scanned(swap_scan, (2, reach), &gray, &dots, 0), (0, 0, 8));
    }
    assert_eq!(scanned(swap_scan, (2, 0), &gray, &dots, 0), (0, 0, 0));
}

/// The first cell is done with its farthest partner; the second then weighs one swap, and the third two.
#[test]
fn up_to_the_accepted_one() {
    let (gray, dots) = ([10, 10, 200], [1, 0, 0]);
    assert_eq!(scanned(swap_scan, (3, 2), &gray, &dots, 0), (0, 1, 4));
    assert_eq!(scanned(toggle_scan, (3, 2), &gray, &dots, 0), (0, 2, 3));
}

#[test]
fn locked_cells_are_not_tried() {
    let (gray, dots) = ([0, 255, 130], [0, 1, 0]);
    assert_eq!(scanned(toggle_scan, (3, 2), &gray, &dots, 0), (0, 1, 1));
    assert_eq!(scanned(swap_scan, (3, 2), &gray, &dots, 0), (0, 0, 0));
}

#[test]
fn a_refused_scan_writes_neither() {
    for scan in [toggle_scan as Scan, swap_scan] {
        assert_eq!(scanned(scan, (3, 2), &[10, 10, 200], &[1, 0, 0], 1), (REFUSED_STATS, 7, 7));
    }
}
