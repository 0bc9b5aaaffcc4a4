//! Every pattern of a 32-bit float through the library's reader of PFM files, held against the whole numbers of
//! src/pfm.rs. The shades stand in files of 256 by 256, the byte orders taking turns; each of the others has a file to
//! itself, in one byte order or the other. The library is called as it is, without a record or guards, since there are
//! so many calls.

use crate::pfm::{self, Order, Sample, MINUS_ZERO, ONE, SAMPLE};
use platemaker::read_pfm;
use std::thread;

/// The threads that share the work.
const THREADS: u32 = 2;
/// The side of a file of shades, and its cells.
const SIDE: usize = 256;
const CELLS: u32 = (SIDE * SIDE) as u32;
/// The files of shades: full ones, and one for 1.0 alone.
const FILES: u32 = ONE / CELLS + 1;
/// What lies past the cells.
const PAST: [u8; 8] = [9; 8];
/// The results before a call.
const BEFORE: Results = (7, 7, 7.0, 7);
/// The most patterns that are shown.
const SHOWN: usize = 3;

/// What the patterns are read as.
const KINDS: [&str; 6] = ["0 to 1", "minus zero", "above 1", "below 0", "infinities", "no number"];

/// Width, height, scale and offset.
type Results = (usize, usize, f32, usize);

/// The patterns of each kind: how many were read as they have to be, and those that were not.
#[derive(Default)]
struct Tally {
    passed: [u64; KINDS.len()],
    failed: [u64; KINDS.len()],
    shown: Vec<u32>,
}

impl Tally {
    fn count(&mut self, kind: usize, pattern: u32, right: bool) {
        if right {
            self.passed[kind] += 1;
        } else {
            self.failed[kind] += 1;
            self.shown.push(pattern);
            self.shown.truncate(SHOWN);
        }
    }

    fn add(&mut self, other: Tally) {
        for kind in 0..KINDS.len() {
            self.passed[kind] += other.passed[kind];
            self.failed[kind] += other.failed[kind];
        }
        self.shown.extend(other.shown);
    }
}

/// Which of the kinds a pattern is of.
fn kind(pattern: u32) -> usize {
    match pfm::sample(pattern) {
        Sample::Shade(_) => usize::from(pattern == MINUS_ZERO),
        Sample::Above(_) => 2,
        Sample::Below(_) => 3,
        Sample::Infinite => 4,
        Sample::NoNumber => 5,
    }
}

/// Reads a file: the answer and the results.
fn read(file: &[u8], gray: &mut [u8]) -> (u32, Results) {
    let (mut width, mut height, mut scale, mut offset) = BEFORE;
    let answer = read_pfm(file, gray, &mut width, &mut height, &mut scale, &mut offset);
    (answer, (width, height, scale, offset))
}

/// Reads shades in a file of this size, from a pattern on. Before that each cell holds another gray than it has to get.
fn read_shades((width, height): (usize, usize), from: u32, order: Order, tally: &mut Tally) {
    let patterns: Vec<u32> = (from..).take(width * height).collect();
    let rows = patterns.chunks(width).rev().flatten();
    let wanted: Vec<u8> = rows.map(|&pattern| pfm::gray(pattern).expect("a shade")).collect();
    let mut gray: Vec<u8> = wanted.iter().map(|gray| !gray).chain(PAST).collect();
    let (answer, results) = read(&pfm::file(width, height, order, &patterns), &mut gray);
    let told = answer == 0 && results == (width, height, order.scale(), BEFORE.3) && gray.ends_with(&PAST);
    if told && gray.starts_with(&wanted) {
        tally.passed[kind(from)] += patterns.len() as u64;
        return;
    }
    for (at, &pattern) in patterns.iter().enumerate() {
        let cell = (height - 1 - at / width) * width + at % width;
        tally.count(kind(from), pattern, told && gray[cell] == wanted[cell]);
    }
}

/// The files of shades that fall to a thread.
fn shades(thread: u32) -> Tally {
    let mut tally = Tally::default();
    for number in (thread..FILES).step_by(THREADS as usize) {
        let size = if number == FILES - 1 { (1, 1) } else { (SIDE, SIDE) };
        let order = Order::BOTH[(number / THREADS % 2) as usize];
        read_shades(size, number * CELLS, order, &mut tally);
    }
    tally
}

/// The patterns that are no shades and fall to a thread. A file is refused at its one sample, and all else stays.
fn others(thread: u32) -> Tally {
    let mut tally = Tally::default();
    let mut files = Order::BOTH.map(|order| (order, pfm::file(1, 1, order, &[0])));
    for pattern in (ONE + 1 + thread..=u32::MAX).step_by(THREADS as usize) {
        if pattern == MINUS_ZERO {
            continue;
        }
        let (order, file) = &mut files[(pattern.count_ones() % 2) as usize];
        let place = file.len() - SAMPLE;
        file[place..].copy_from_slice(&order.bytes(pattern));
        let mut gray = PAST;
        let (answer, results) = read(file, &mut gray);
        let stays = results == (BEFORE.0, BEFORE.1, BEFORE.2, place) && gray == PAST;
        let kind = kind(pattern);
        tally.count(kind, pattern, kind > 1 && answer == 18 && stays);
    }
    tally
}

/// Every pattern. Prints a line for each kind, and answers how many patterns passed and how many failed.
pub fn all() -> (u64, u64) {
    let mut tally = Tally::default();
    for part in [shades, others] {
        let threads: Vec<_> = (0..THREADS).map(|number| thread::spawn(move || part(number))).collect();
        threads.into_iter().for_each(|thread| tally.add(thread.join().expect("a thread that ends")));
    }
    read_shades((1, 1), MINUS_ZERO, Order::Little, &mut tally);
    for (kind, name) in KINDS.iter().enumerate() {
        println!("{name:<12} {} as they have to be, {} not", tally.passed[kind], tally.failed[kind]);
    }
    tally.shown.truncate(SHOWN);
    tally.shown.iter().for_each(|pattern| println!("the pattern {pattern:#010x} is not"));
    (tally.passed.iter().sum(), tally.failed.iter().sum())
}
