//! Random filed sheets: plates that rest and plates that do not, ledgers that fit them and ledgers that do not, and
//! single damages to their text.

use super::{contradict, damage, damage_sheet, dot_total, handed, size, state, Random, BYTES};
use crate::filed::Filed;
use crate::handed::{Call, Handed, VERDICT};
use crate::plain::{Plate, Second, MAX_COUNT, MAX_ERROR};
use crate::sheet::{self, FIGURES};

/// Where the figures stand.
const BEFORE: usize = 0;
const AFTER: usize = 1;
const ON: usize = 2;
const OFF: usize = 3;
const SCANS: usize = 5;

/// 0 to whoever keeps 128 bits.
const TWO_TO_128: &str = "340282366920938463463374607431768211456";

/// A plate with a ledger that fits it, often a small one, which settles soon.
pub fn filed(random: &mut Random) -> Filed {
    if random.one_in(4) {
        let size = size(random);
        return as_it_is(random, size);
    }
    if random.one_in(12) {
        return held(random);
    }
    let most = random.pick(&[1, 2, 4, 6, 8]);
    let size = (random.within(1, most), random.within(1, most));
    if random.one_in(3) {
        toggled(random, size)
    } else {
        settled(random, size)
    }
}

/// A plate with dots that no search has come to.
pub fn as_it_is(random: &mut Random, size: (usize, usize)) -> Filed {
    let plate = handed(random, size);
    of(Handed { scans: random.any() >> 1, ..plate })
}

/// A plate that rests, though a toggle of its middle cell, which is locked, would lower E: paper, gray at the four cells
/// beside the middle, all blank; or the reverse. There 2T is 12 times the error, in the middle 16 times, and P is 4.
pub fn held(random: &mut Random) -> Filed {
    let (gray, ink) = (random.within(64, 85) as u8, random.one_in(2));
    let plate = Handed { radius: 1, psf: vec![1, 1, 0, 1, 1, 0, 0, 0, 0], ..handed(random, (3, 3)) };
    let light = (0..9).map(|at| if at % 2 == 1 { gray } else { 0 });
    let gray = if ink { light.map(|gray| 255 - gray).collect() } else { light.collect() };
    let mut plate = Handed { gray, dots: vec![u8::from(ink); 9], scans: 2, ..plate };
    state(random, &mut plate);
    of(plate)
}

/// A plate after toggle scans, the last of which accepted nothing: it rests but for swaps.
pub fn toggled(random: &mut Random, size: (usize, usize)) -> Filed {
    let mut plate = Handed { scans: 0, changes: 1, ..started(random, size) };
    while plate.changes > 0 {
        Second::default().call(Call::ToggleScan, &mut plate);
        plate.scans += 1;
    }
    of(plate)
}

/// A settled plate.
pub fn settled(random: &mut Random, size: (usize, usize)) -> Filed {
    let mut plate = started(random, size);
    Second::default().call(Call::Converge, &mut plate);
    of(plate)
}

/// A plate after a start.
fn started(random: &mut Random, size: (usize, usize)) -> Handed {
    let mut plate = handed(random, size);
    Second::default().call(Call::Start, &mut plate);
    plate
}

/// A plate with the figures of its ledger.
pub fn of(plate: Handed) -> Filed {
    let figures = sheet::figures(&plate);
    Filed { plate, figures }
}

/// What the check of a filed sheet can be handed: the plate or its figures, and then the text, changed or not.
pub fn varied(random: &mut Random, filed: &Filed) -> Handed {
    let mut filed = filed.clone();
    if random.one_in(8) {
        contradict(random, &mut filed.plate);
        mend(&mut filed);
    }
    match random.below(10) {
        0 => turn(random, &mut filed.plate),
        1 => {
            turn(random, &mut filed.plate);
            mend(&mut filed);
        }
        2..=4 => misstate(random, &mut filed),
        5 => damage(random, Call::CheckFiled, 6, &mut filed.plate),
        _ => {}
    }
    let mut bytes = sheet::filed(&filed.plate, filed.figures);
    match random.below(12) {
        0 | 1 => damage_end(random, &mut bytes),
        2 | 3 => change_figure(random, &mut bytes),
        4 => damage_sheet(random, &mut bytes),
        5 => change_start(random, &mut bytes),
        6 => {
            damage_sheet(random, &mut bytes);
            damage_end(random, &mut bytes);
        }
        _ => {}
    }
    lend(random, &filed.plate, bytes)
}

/// Turns a dot over.
fn turn(random: &mut Random, plate: &mut Handed) {
    let at = random.below(plate.cells());
    plate.dots[at] = 1 - plate.dots[at];
}

/// The figure of the plate as it is now, and at least as much at the start.
fn mend(filed: &mut Filed) {
    let error = Plate::new(&filed.plate, None).sum_of_squares();
    filed.figures[BEFORE] += (error - filed.figures[AFTER]).max(0);
    filed.figures[AFTER] = error;
}

/// One figure off by one or at a limit, or a whole ledger at or just beyond a limit of one of the conditions.
fn misstate(random: &mut Random, filed: &mut Filed) {
    let (cells, count) = (filed.plate.cells() as i64, dot_total(&filed.plate));
    let (after, scans, beyond) = (filed.figures[AFTER], filed.figures[SCANS], random.below(2) as i64);
    let figure = &mut filed.figures[random.below(FIGURES)];
    match random.below(10) {
        0 => *figure += 1,
        1 => *figure = (*figure - 1).max(0),
        2 => *figure = random.pick(&[0, cells, MAX_COUNT, MAX_COUNT + 1, MAX_ERROR, MAX_ERROR + 1, i64::MAX]),
        3 => filed.figures = [MAX_ERROR + beyond, after, 0, 0, 0, scans],
        4 => filed.figures = [MAX_ERROR, after, 0, cells - count + beyond, 0, scans],
        5 => filed.figures = [MAX_ERROR, after, count + beyond, 0, 0, scans],
        6 => filed.figures = [after + 255 * 3 - beyond, after, 1, 1, 1, scans],
        7 => filed.figures = [MAX_ERROR, (after + random.pick(&[1, -1, 255])).max(0), 0, 0, 0, scans],
        8 => (filed.figures[ON], filed.figures[OFF]) = random.pick(&[(1 << 62, 1 << 62), (i64::MAX, i64::MAX)]),
        _ => {
            let swaps = random.pick(&[MAX_COUNT, (MAX_ERROR - after) / 255]) + beyond;
            filed.figures = [MAX_ERROR, after, 0, 0, swaps, scans];
        }
    }
}

/// Damages one byte of the two last lines, cuts the text off in them, or appends to it.
fn damage_end(random: &mut Random, bytes: &mut Vec<u8>) {
    let Some(names) = bytes.windows(6).position(|word| word == b"before") else {
        return;
    };
    let at = if random.one_in(4) { bytes.len() - 1 } else { random.within(names, bytes.len() - 1) };
    match random.below(6) {
        0 => bytes.truncate(at),
        1 => bytes.push(random.pick(&BYTES)),
        2 => bytes.insert(at, random.pick(&BYTES)),
        3 => drop(bytes.remove(at)),
        4 => bytes.extend_from_within(names..),
        _ => bytes[at] = random.pick(&BYTES),
    }
}

/// Another number for one of the figures: at and beyond 63 and 64 bits, of many digits, with leading zeros; or none.
fn change_figure(random: &mut Random, bytes: &mut Vec<u8>) {
    let line = bytes.len() - bytes.rsplit(|&byte| byte == b'\n').nth(1).expect("the last line").len() - 1;
    let text = String::from_utf8(bytes.split_off(line)).expect("digits");
    let mut figures: Vec<String> = text.trim_end().split(' ').map(str::to_string).collect();
    let at = random.below(figures.len());
    let value: u128 = figures[at].parse().expect("a figure");
    let beyond = [1 << 63, u128::from(u64::MAX), 1 << 64, value + (1 << 63), value + (1 << 64), value + (1 << 32)];
    figures[at] = match random.below(8) {
        0 => i64::MAX.to_string(),
        1..=3 => random.pick(&beyond).to_string(),
        4 => format!("{value}{}", "7".repeat(24)),
        5 => format!("0{value}"),
        6 => format!("{}{value}", "0".repeat(30)),
        _ => random.pick(&["", "00", "-1", "1.0", "9223372036854775808x", TWO_TO_128]).to_string(),
    };
    bytes.extend(figures.join(" ").bytes());
    bytes.push(b'\n');
}

/// Another kind of start.
fn change_start(random: &mut Random, bytes: &mut Vec<u8>) {
    let end = bytes.windows(4).position(|word| word == b"\npsf").expect("line 3");
    let start = random.pick(&["0", "1", "3", "4", "02", "22", "257", "18446744073709551618", ""]);
    bytes.splice(end - 1..end, start.bytes());
}

/// Slices for a plate, which hold anything: of just the length, longer, one too short, or empty.
pub fn lend(random: &mut Random, plate: &Handed, bytes: Vec<u8>) -> Handed {
    let mut length = |needed: usize| match random.below(32) {
        0 => needed - 1,
        1 => 0,
        2..=12 => needed + random.within(1, 9),
        _ => needed,
    };
    let lengths = [plate.psf.len(), plate.cells(), plate.cells(), plate.cells()].map(&mut length);
    let verdict = if random.one_in(50) { random.below(9) } else { VERDICT };
    Handed {
        bytes,
        psf: random.bytes(lengths[0]),
        gray: random.bytes(lengths[1]),
        dots: random.bytes(lengths[2]),
        table: (0..lengths[3]).map(|_| random.any() as i32).collect(),
        verdict: (0..verdict).map(|_| random.any() as i64).collect(),
        offset: random.any() as usize,
        ..Handed::default()
    }
}

/// Slices of just the length for a filed sheet.
pub fn exact(filed: &Filed) -> Handed {
    let cells = filed.plate.cells();
    Handed {
        bytes: sheet::filed(&filed.plate, filed.figures),
        psf: vec![9; filed.plate.psf.len()],
        gray: vec![9; cells],
        dots: vec![9; cells],
        table: vec![9; cells],
        verdict: vec![9; VERDICT],
        offset: 9,
        ..Handed::default()
    }
}
