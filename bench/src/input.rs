//! The psfs and grays that are measured, made by rule.

/// The outer product of the binomials 1 2 1 (radius 1) or 1 6 15 20 15 6 1 (radius 3) with themselves, scaled to a sum
/// of 1,024, each entry rounded down and at most 255.
pub fn psf(radius: usize) -> Vec<u8> {
    let row = binomials(2 * radius);
    let sum: u32 = 1 << (4 * radius);
    let entry = |a: u32, b: u32| (a * b * 1024 / sum).min(255) as u8;
    row.iter().flat_map(|&a| row.iter().map(move |&b| entry(a, b))).collect()
}

fn binomials(n: usize) -> Vec<u32> {
    let mut row = vec![1];
    for _ in 0..n {
        let inner = row.windows(2).map(|w| w[0] + w[1]);
        row = std::iter::once(1).chain(inner).chain(std::iter::once(1)).collect();
    }
    row
}

/// Rises from the left to the right, with noise of up to 8 either way, kept from 1 to 254, so that no cell is locked.
pub fn noisy_ramp(width: usize, height: usize) -> Vec<u8> {
    let mut noise = Noise(1);
    let shade = |cell: usize| {
        let level = (cell % width * 255 / (width - 1)) as i64;
        (level + noise.next() % 17 - 8).clamp(1, 254) as u8
    };
    (0..width * height).map(shade).collect()
}

/// The ramp with a plot and a letter in every 32 by 32 cells. A quarter of the cells is locked.
pub fn lettered(width: usize, height: usize) -> Vec<u8> {
    let mut gray = noisy_ramp(width, height);
    for (cell, gray) in gray.iter_mut().enumerate() {
        *gray = locked(cell / width % 32, cell % width % 32).unwrap_or(*gray);
    }
    gray
}

/// Bare paper with an outline of ink, and beside it the letter H.
fn locked(row: usize, col: usize) -> Option<u8> {
    match (row, col) {
        (3..=14, 3..=14) => Some(0),
        (2..=15, 2..=15) | (4..=15, 20..=21 | 27..=28) | (9..=10, 22..=26) => Some(255),
        _ => None,
    }
}

/// The same with no cell locked: 1 for paper, 254 for ink.
pub fn unlocked(gray: &[u8]) -> Vec<u8> {
    gray.iter().map(|&gray| gray.clamp(1, 254)).collect()
}

pub fn flat(width: usize, height: usize) -> Vec<u8> {
    vec![100; width * height]
}

/// Knuth's 64-bit linear congruential generator; the upper bits are given.
struct Noise(u64);

impl Noise {
    fn next(&mut self) -> i64 {
        self.0 = self.0.wrapping_mul(6364136223846793005).wrapping_add(1442695040888963407);
        (self.0 >> 33) as i64
    }
}
