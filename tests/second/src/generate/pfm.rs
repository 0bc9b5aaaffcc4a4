//! Random gray PFM files: patterns of all kinds of samples, headers with one part spoiled, wrong lengths and single
//! damages.

use super::{damage_file, lend_for_file, picture, size, Random};
use crate::handed::Handed;
use crate::pfm::{self, Order, MINUS_ZERO, ONE, SAMPLE, TIE};

/// The pattern of 2^-9. The shades above it have nearly all brightnesses.
const LIGHT: u32 = 0x3B00_0000;

/// Shades at the ends of what there is: zeros, the least and the largest subnormal, the least that is normal, about 0.5
/// and about 1.
const SHADES: [u32; 10] = [0, MINUS_ZERO, 1, 0x007F_FFFF, 0x0080_0000, TIE - 1, TIE, TIE + 1, ONE - 1, ONE];

/// Samples that are no shades: above 1, by little and by much, infinity and no numbers; then the same below 0.
const NO_SHADES: [u32; 18] = [
    ONE + 1,
    ONE + 0x4000,
    0x4000_0000,
    0x7F7F_FFFF,
    0x7F80_0000,
    0x7F80_0001,
    0x7FBF_FFFF,
    0x7FC0_0000,
    0x7FFF_FFFF,
    MINUS_ZERO + 1,
    0x807F_FFFF,
    0x8080_0000,
    0xBB00_0000,
    0xBF80_0000,
    0xFF7F_FFFF,
    0xFF80_0000,
    0xFF80_0001,
    0xFFC0_0000,
];

/// Spoiled parts of a header.
const MAGICS: [&str; 7] = ["PF", "pf", "P5", "P", "", " Pf", "Pf1"];
const LINE_ENDS: [&str; 8] = ["\r\n", "\r", " \n", "\n\n", "\n ", "", " ", "\n# 1.0\n"];
const SPACES: [&str; 6] = ["  ", "\t", "\n", "", " \t", "\r"];
const SCALES: [&str; 20] = [
    "1",
    "-1",
    "1.",
    "-1.",
    "1.00",
    "-1.00",
    "1.000000",
    "-1.000000",
    "+1.0",
    "01.0",
    "-01.0",
    "2.0",
    "-0.5",
    "0.0",
    "1.0e0",
    "1,0",
    " 1.0",
    "--1.0",
    ".1",
    "",
];

/// The pattern of a shade: any, one that is not dark, one at a boundary or next to it, or a special one.
pub fn shade(random: &mut Random) -> u32 {
    match random.below(5) {
        0 => random.within(0, ONE as usize) as u32,
        1 | 2 => random.within(LIGHT as usize, ONE as usize) as u32,
        3 => {
            let near = near_boundary(random.within(1, 255) as u8);
            random.pick(&near)
        }
        _ => random.pick(&SHADES),
    }
}

/// The pattern at which a brightness begins, the two before it and the two after it.
pub fn near_boundary(k: u8) -> [u32; 5] {
    let boundary = pfm::boundary(k);
    [boundary - 2, boundary - 1, boundary, boundary + 1, boundary + 2]
}

/// The pattern of a sample that is no shade: any, or a special one.
fn no_shade(random: &mut Random) -> u32 {
    let any = random.any() as u32;
    if random.one_in(4) && pfm::gray(any).is_none() {
        any
    } else {
        random.pick(&NO_SHADES)
    }
}

/// A PFM file of these patterns and a slice of just the right length, which holds anything, as results do.
pub fn of(random: &mut Random, size: (usize, usize), order: Order, patterns: &[u32]) -> Handed {
    let handed = picture(random, size);
    let bytes = pfm::file(size.0, size.1, order, patterns);
    Handed { bytes, offset: random.any() as usize, scale: random.within(2, 999) as f32, ..handed }
}

/// A PFM file with none, one or some things wrong with it, and a slice to read it into.
pub fn file(random: &mut Random) -> Handed {
    let (width, height) = if random.one_in(40) { outside(random) } else { size(random) };
    let (cells, order) = (width * height, random.pick(&Order::BOTH));
    let mut patterns: Vec<u32> = (0..cells).map(|_| shade(random)).collect();
    let bad = random.pick(&[0, 0, 0, 0, 1, 1, 2, 3]).min(cells);
    (0..bad).for_each(|_| patterns[random.below(cells)] = no_shade(random));
    let mut handed = of(random, (width, height), order, &patterns);
    if random.one_in(4) {
        let header = handed.bytes.len() - SAMPLE * cells;
        handed.bytes.splice(..header, spoiled_header(random, (width, height), order));
    }
    if random.one_in(8) {
        change_length(random, &mut handed.bytes);
    }
    if random.one_in(10) {
        damage_file(random, &mut handed.bytes);
    }
    lend_for_file(random, &mut handed);
    handed
}

/// A size outside the measures, of few cells.
fn outside(random: &mut Random) -> (usize, usize) {
    let (beyond, few) = (random.pick(&[0, 257]), random.within(1, 2));
    random.pick(&[(beyond, few), (few, beyond)])
}

/// The header of a PFM file with one part spoiled.
fn spoiled_header(random: &mut Random, (width, height): (usize, usize), order: Order) -> Vec<u8> {
    let (width, height) = (width.to_string(), height.to_string());
    let mut parts = ["Pf", "\n", &width, " ", &height, "\n", order.text(), "\n"].map(String::from);
    let at = random.below(parts.len());
    parts[at] = match at {
        0 => random.pick(&MAGICS).to_string(),
        2 | 4 => spoiled_number(random, &parts[at]),
        3 => random.pick(&SPACES).to_string(),
        6 => random.pick(&SCALES).to_string(),
        _ => random.pick(&LINE_ENDS).to_string(),
    };
    parts.concat().into_bytes()
}

/// A number with what none has, or another one: one that whoever keeps 8, 16, 32 or 64 bits takes for the right one.
fn spoiled_number(random: &mut Random, right: &str) -> String {
    let more = |bits: u32| (right.parse::<u128>().expect("a number") + (1 << bits)).to_string();
    match random.below(10) {
        0 => format!("0{right}"),
        1 => format!("000{right}"),
        2 => format!("+{right}"),
        3 => format!("{right}.0"),
        4 => random.pick(&["", "0", "-1", "256", "257", "1e0"]).to_string(),
        5 => format!("{right}0"),
        6 => more(8),
        7 => more(16),
        8 => more(32),
        _ => more(64),
    }
}

/// Another length of a file: by a byte, by a line end, by a sample.
fn change_length(random: &mut Random, file: &mut Vec<u8>) {
    match random.below(6) {
        0 => file.push(random.any() as u8),
        1 => file.push(b'\n'),
        2 => file.extend([0; SAMPLE]),
        3 => file.truncate(file.len() - SAMPLE),
        4 => file.truncate(file.len() - random.within(1, 3)),
        _ => drop(file.pop()),
    }
}
