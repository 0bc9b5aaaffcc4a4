//! The baseline's sums: autocorrelation, table and squared error. The table is the error filtered by the psf twice, once
//! turned over and once as it is; the squared error is the sum of squares after the first.

use crate::plate::Job;

/// A rectangle of numbers, row by row.
struct Grid<T> {
    width: usize,
    numbers: Vec<T>,
}

/// The autocorrelation, (4r+1)² numbers row by row.
pub fn autocorrelation(radius: usize, psf: &[u8]) -> Vec<i32> {
    let (side, span) = (2 * radius + 1, 4 * radius + 1);
    let mut sums = vec![0; span * span];
    for (k, &p) in psf.iter().enumerate() {
        for (n, &q) in psf.iter().enumerate() {
            let down = n / side + 2 * radius - k / side;
            let right = n % side + 2 * radius - k % side;
            sums[down * span + right] += i32::from(p) * i32::from(q);
        }
    }
    sums
}

/// Fills the table.
pub fn table(job: &Job, dots: &[u8], table: &mut [i32]) {
    table_of(job, &spread_error(job, dots), table);
}

/// Fills the table and answers the squared error.
pub fn table_and_squared_error(job: &Job, dots: &[u8], table: &mut [i32]) -> i64 {
    let spread = spread_error(job, dots);
    table_of(job, &spread, table);
    sum_of_squares(&spread)
}

pub fn squared_error(job: &Job, dots: &[u8]) -> i64 {
    sum_of_squares(&spread_error(job, dots))
}

fn table_of(job: &Job, spread: &Grid<i32>, table: &mut [i32]) {
    let taps: Vec<i16> = job.psf.iter().map(|&p| p.into()).collect();
    filter(job.radius, spread, &taps, job.width, table);
}

/// The error filtered by the psf, over the cells of the plate widened by r on each side.
fn spread_error(job: &Job, dots: &[u8]) -> Grid<i32> {
    let taps: Vec<i16> = job.psf.iter().rev().map(|&p| p.into()).collect();
    let width = job.width + 2 * job.radius;
    let mut numbers = vec![0; width * (job.height + 2 * job.radius)];
    filter(job.radius, &widened_error(job, dots), &taps, width, &mut numbers);
    Grid { width, numbers }
}

/// The error of each cell, with 0 for 2r cells beyond each edge.
fn widened_error(job: &Job, dots: &[u8]) -> Grid<i16> {
    let edge = 2 * job.radius;
    let width = job.width + 2 * edge;
    let mut numbers = vec![0; width * (job.height + 2 * edge)];
    let rows = numbers.chunks_exact_mut(width).skip(edge);
    let cells = dots.chunks_exact(job.width).zip(job.gray.chunks_exact(job.width));
    for (out, (dots, gray)) in rows.zip(cells) {
        for (e, (&dot, &gray)) in out[edge..].iter_mut().zip(dots.iter().zip(gray)) {
            *e = 255 * i16::from(dot) - i16::from(gray);
        }
    }
    Grid { width, numbers }
}

fn sum_of_squares(spread: &Grid<i32>) -> i64 {
    let square = |&v: &i32| u64::from(v.unsigned_abs()) * u64::from(v.unsigned_abs());
    spread.numbers.iter().map(square).sum::<u64>() as i64
}

/// Each number of `out`, rows of `width`: the sum of taps times the square of numbers whose first stands at its place.
fn filter<T: Copy + Into<i32>>(radius: usize, input: &Grid<T>, taps: &[i16], width: usize, out: &mut [i32]) {
    match radius {
        0 => filter_by::<T, 1>(input, taps, width, out),
        1 => filter_by::<T, 3>(input, taps, width, out),
        2 => filter_by::<T, 5>(input, taps, width, out),
        _ => filter_by::<T, 7>(input, taps, width, out),
    }
}

fn filter_by<T: Copy + Into<i32>, const SIDE: usize>(input: &Grid<T>, taps: &[i16], width: usize, out: &mut [i32]) {
    for (row, sums) in out.chunks_exact_mut(width).enumerate() {
        sums.fill(0);
        let numbers = input.numbers[row * input.width..].chunks_exact(input.width);
        for (numbers, taps) in numbers.zip(taps.chunks_exact(SIDE)) {
            let taps: &[i16; SIDE] = taps.try_into().expect("a chunk of that length");
            for (sum, near) in sums.iter_mut().zip(numbers.windows(SIDE)) {
                *sum += near.iter().zip(taps).map(|(&n, &tap)| n.into() * i32::from(tap)).sum::<i32>();
            }
        }
    }
}
