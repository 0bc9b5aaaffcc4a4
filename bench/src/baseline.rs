//! The baseline: document 01's rules, the locked cells of request C-12 and the trials of C-14, table-driven, in plain
//! Rust. Its calls judge nothing that they are handed; `judge` works out afresh what document 01 demands that a later
//! call compares with.

mod search;
mod sums;

use crate::plate::{is_locked, Job, Plate, Scan, Side, STATS_ERROR, STATS_OFF, STATS_ON, STATS_START_DOTS};

/// With `any_first`, a swap scan goes through the partners of a cell only where a quick pass says that one will do.
pub struct Baseline {
    pub any_first: bool,
}

pub const BASELINE: Baseline = Baseline { any_first: false };

/// Whether the dots fit the locks, and the table and the stats are those of the dots.
pub fn judge(job: &Job, plate: &Plate) -> bool {
    let mut table = vec![0; job.cells()];
    let error = sums::table_and_squared_error(job, &plate.dots, &mut table);
    let dots = plate.stats[STATS_START_DOTS] + plate.stats[STATS_ON] - plate.stats[STATS_OFF];
    let fits = |(&dot, &gray): (&u8, &u8)| !is_locked(gray) || (dot == 1) == (gray == 255);
    let locks = plate.dots.iter().zip(&job.gray).all(fits);
    locks && table == plate.table && error == plate.stats[STATS_ERROR] && dots == count_dots(&plate.dots)
}

/// The first bits of row and column weigh most.
fn threshold(row: usize, col: usize) -> u32 {
    let digit = |i: usize| [[0, 2], [3, 1]][row >> i & 1][col >> i & 1];
    (0..4).map(|i| digit(i) << (2 * (3 - i))).sum()
}

fn ordered_dots(job: &Job, dots: &mut [u8]) {
    let thresholds: Vec<u32> = (0..256).map(|k| threshold(k / 16, k % 16)).collect();
    let rows = dots.chunks_exact_mut(job.width).zip(job.gray.chunks_exact(job.width));
    for (row, (dots, gray)) in rows.enumerate() {
        let cycle = thresholds[row % 16 * 16..][..16].iter().cycle();
        for ((dot, &gray), &threshold) in dots.iter_mut().zip(gray).zip(cycle) {
            *dot = u8::from(256 * u32::from(gray) > 255 * threshold);
        }
    }
}

fn count_dots(dots: &[u8]) -> i64 {
    dots.iter().map(|&dot| i64::from(dot)).sum()
}

/// Turns the dot of a cell and updates its window, up to the edges of the plate.
fn turn(job: &Job, plate: &mut Plate, row: usize, col: usize, c: &[i32]) {
    let (far, span) = (2 * job.radius, 4 * job.radius + 1);
    let dot = &mut plate.dots[row * job.width + col];
    let amount = 255 - 510 * i32::from(*dot);
    *dot = 1 - *dot;
    let cols = col.saturating_sub(far)..job.width.min(col + far + 1);
    for y in row.saturating_sub(far)..job.height.min(row + far + 1) {
        let kernel = &c[(y + far - row) * span..][cols.start + far - col..];
        let table = &mut plate.table[y * job.width..][cols.clone()];
        for (t, c) in table.iter_mut().zip(kernel) {
            *t += amount * c;
        }
    }
}

impl Side for Baseline {
    fn start(&self, job: &Job, plate: &mut Plate) {
        match job.kind {
            0 => plate.dots.iter_mut().zip(&job.gray).for_each(|(dot, &gray)| *dot = u8::from(gray == 255)),
            // the thresholds set locked cells too
            1 => ordered_dots(job, &mut plate.dots),
            _ => (),
        }
        let error = sums::table_and_squared_error(job, &plate.dots, &mut plate.table);
        plate.stats = [error, error, count_dots(&plate.dots), 0, 0, 0];
    }

    fn settle(&self, job: &Job, plate: &mut Plate) -> u64 {
        if self.any_first {
            search::settle::<true>(job, plate)
        } else {
            search::settle::<false>(job, plate)
        }
    }

    fn toggle_scan(&self, job: &Job, plate: &mut Plate) -> Scan {
        search::toggle_scan(job, plate)
    }

    fn swap_scan(&self, job: &Job, plate: &mut Plate) -> Scan {
        search::swap_scan(job, plate)
    }

    fn try_toggle(&self, job: &Job, plate: &mut Plate, row: usize, col: usize) -> i64 {
        let c = sums::autocorrelation(job.radius, &job.psf);
        let cell = row * job.width + col;
        let (sign, count) = if plate.dots[cell] == 0 { (1, STATS_ON) } else { (-1, STATS_OFF) };
        let peak = i64::from(c[c.len() / 2]);
        let change = 255 * (2 * sign * i64::from(plate.table[cell]) + 255 * peak);
        if change < 0 {
            turn(job, plate, row, col, &c);
            plate.stats[STATS_ERROR] += change;
            plate.stats[count] += 1;
        }
        change
    }

    fn table(&self, job: &Job, plate: &mut Plate) {
        sums::table(job, &plate.dots, &mut plate.table);
    }

    fn squared_error(&self, job: &Job, plate: &Plate) -> i64 {
        sums::squared_error(job, &plate.dots)
    }
}
