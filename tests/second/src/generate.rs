//! Random input: numbers, plates of all shapes with psf, gray, dots, table and stats, single damages to what a call is
//! handed, sheets, filed sheets, Netpbm files and PFM files and single damages to these.

pub mod filed;
pub mod pfm;

use crate::handed::{
    Call, Cell, Handed, MEASURES, STATS, STATS_ERROR, STATS_OFF, STATS_ON, STATS_START_DOTS, STATS_START_ERROR,
    STATS_SWAPS,
};
use crate::picture::{pbm, pgm, row_bytes, PBM, PGM};
use crate::plain::{lock, Plate, Second, MAX_COUNT, MAX_ERROR};
use crate::sheet;
use std::cmp::Reverse;
use std::time::{SystemTime, UNIX_EPOCH};

/// The number in an environment variable, if there is one.
pub fn number_from(name: &str) -> Option<u64> {
    let value = std::env::var(name).ok()?;
    Some(value.parse().unwrap_or_else(|_| panic!("{name} is no number: {value}")))
}

/// The seed of a run: PLATEMAKER_SEED, else one from the clock.
pub fn seed() -> u64 {
    let clock = || SystemTime::now().duration_since(UNIX_EPOCH).unwrap().as_nanos() as u64;
    number_from("PLATEMAKER_SEED").unwrap_or_else(clock)
}

/// The generator splitmix64.
pub struct Random {
    state: u64,
}

impl Random {
    pub fn new(seed: u64) -> Random {
        Random { state: seed }
    }

    pub fn any(&mut self) -> u64 {
        self.state = self.state.wrapping_add(0x9E37_79B9_7F4A_7C15);
        let mut z = self.state;
        z = (z ^ z >> 30).wrapping_mul(0xBF58_476D_1CE4_E5B9);
        z = (z ^ z >> 27).wrapping_mul(0x94D0_49BB_1331_11EB);
        z ^ z >> 31
    }

    /// A number from 0 to `limit` - 1.
    pub fn below(&mut self, limit: usize) -> usize {
        (self.any() % limit as u64) as usize
    }

    /// A number from `least` to `most`.
    pub fn within(&mut self, least: usize, most: usize) -> usize {
        least + self.below(most - least + 1)
    }

    /// True once in `of` times.
    pub fn one_in(&mut self, of: usize) -> bool {
        self.below(of) == 0
    }

    pub fn pick<T: Copy>(&mut self, among: &[T]) -> T {
        among[self.below(among.len())]
    }

    fn bytes(&mut self, length: usize) -> Vec<u8> {
        (0..length).map(|_| self.any() as u8).collect()
    }
}

/// Width and height: 1 by 1, one row, one column, small ones, up to 24 by 24, 256 wide, 256 high.
pub fn size(random: &mut Random) -> (usize, usize) {
    match random.below(100) {
        0..=4 => (1, 1),
        5..=14 => (random.within(1, 24), 1),
        15..=24 => (1, random.within(1, 24)),
        25..=74 => (random.within(1, 6), random.within(1, 6)),
        75..=95 => (random.within(1, 12), random.within(1, 12)),
        96..=97 => (random.within(13, 24), random.within(13, 24)),
        98 => (256, random.within(1, 2)),
        _ => (random.within(1, 2), 256),
    }
}

/// A psf with a sum of 1 to 1,024: a single 1, few large entries, a bell, small lopsided ones, the largest sum.
pub fn psf(random: &mut Random, radius: usize) -> Vec<u8> {
    let side = 2 * radius + 1;
    let entries = side * side;
    let bell = |at: usize| 1 + radius - at.abs_diff(radius);
    match random.below(6) {
        0 => psf_of_sum(random, entries, 1),
        1 => (0..4).fold(vec![0; entries], |mut psf, _| {
            psf[random.below(entries)] = random.within(1, 255) as u8;
            psf
        }),
        2 | 3 => (0..entries).map(|at| (bell(at / side) * bell(at % side)) as u8).collect(),
        4 => {
            let sum = random.within(1, 3 * entries);
            psf_of_sum(random, entries, sum)
        }
        _ => psf_of_sum(random, entries, 1024.min(255 * entries)),
    }
}

/// Entries of a given sum, poured into random places.
fn psf_of_sum(random: &mut Random, entries: usize, sum: usize) -> Vec<u8> {
    let mut psf = vec![0; entries];
    let mut left = sum;
    while left > 0 {
        let at = random.below(entries);
        let room = left.min(255 - usize::from(psf[at]));
        let part = random.within(0, room);
        psf[at] += part as u8;
        left -= part;
    }
    psf
}

/// The grays of locked cells, and the grays of all that are locked or next to it.
const LOCKED: [u8; 2] = [0, 255];
const ENDS: [u8; 4] = [0, 1, 254, 255];

/// Gray: any, one value for all, the ends, near the middle, without locked cells, with a few of them, paper among light
/// cells or ink among dark ones, or in runs, half of which are locked.
fn gray(random: &mut Random, cells: usize) -> Vec<u8> {
    let end = random.pick(&ENDS);
    let mut one = if random.one_in(4) { end } else { random.any() as u8 };
    let (light, kind) = (random.within(30, 110) as u8, random.below(9));
    let among = if random.one_in(2) { [0, light] } else { [255, 255 - light] };
    let cell = |_| match kind {
        0 => random.any() as u8,
        1 => one,
        2 => random.pick(&ENDS),
        3 => random.pick(&[126, 127, 128, 129]),
        4 => random.within(1, 254) as u8,
        5 if random.one_in(6) => random.pick(&LOCKED),
        5 => random.any() as u8,
        6 => random.pick(&among),
        _ => {
            if random.one_in(4) {
                one = if random.one_in(2) { random.pick(&LOCKED) } else { random.any() as u8 };
            }
            one
        }
    };
    (0..cells).map(cell).collect()
}

fn is_locked(handed: &Handed, (row, col): Cell) -> bool {
    lock(handed.gray[row * handed.width + col], None).is_some()
}

pub fn has_locks(handed: &Handed) -> bool {
    handed.gray.iter().any(|&gray| lock(gray, None).is_some())
}

/// Gives every locked cell its dot.
fn fit(handed: &mut Handed) {
    let cells = handed.dots.iter_mut().zip(&handed.gray);
    cells.for_each(|(dot, &gray)| *dot = lock(gray, None).unwrap_or(*dot));
}

/// Locks a cell that its dot contradicts.
pub fn contradict(random: &mut Random, handed: &mut Handed) {
    let at = random.below(handed.cells());
    handed.gray[at] = 255 * (1 - handed.dots[at]);
}

/// Dots: any, all blank, all dots, few.
fn dots(random: &mut Random, cells: usize) -> Vec<u8> {
    let kind = random.below(6);
    let cell = |_| match kind {
        0 => 0,
        1 => 1,
        2 => u8::from(random.one_in(8)),
        _ => random.below(2) as u8,
    };
    (0..cells).map(cell).collect()
}

/// What no call refuses: a plate of the size given, its table, and stats that it could have come to. What a call only
/// writes holds anything.
pub fn handed(random: &mut Random, (width, height): (usize, usize)) -> Handed {
    let radius = random.below(4);
    let mut handed = Handed { width, height, radius, ..Handed::default() };
    handed.reach = random.pick(&[0, 1, 1, 2, 2, 3, 3, 4, 5, 6, 6]);
    handed.start = random.below(3);
    handed.psf = psf(random, radius);
    handed.gray = gray(random, width * height);
    handed.dots = dots(random, width * height);
    fit(&mut handed);
    (handed.row, handed.col) = cell(random, &handed);
    (handed.row2, handed.col2) = partner(random, &handed, true);
    if radius > 0 && handed.cells() > 1 && random.one_in(8) {
        tie(&mut handed);
    }
    state(random, &mut handed);
    handed.autocorrelation = (0..(4 * radius + 1).pow(2)).map(|_| random.any() as i32).collect();
    (handed.error, handed.change) = (random.any() as i64, random.any() as i64);
    (handed.quotient, handed.remainder) = (random.any() as i64, random.any() as usize);
    (handed.changes, handed.trials, handed.scans) = (random.any(), random.any(), random.any());
    (handed.length, handed.offset) = (random.any() as usize, random.any() as usize);
    handed
}

/// The table of the dots, and stats that they could have come to.
fn state(random: &mut Random, handed: &mut Handed) {
    handed.table = Plate::new(handed, None).filtered_error().into_iter().map(|t| t as i32).collect();
    handed.stats = stats(random, handed);
}

/// Takes a psf of two ones side by side, and grays with which a toggle of the named cell changes nothing, if there are any.
/// Neither that cell nor the one beside it is then locked.
fn tie(handed: &mut Handed) {
    let (side, middle) = (2 * handed.radius + 1, handed.psf.len() / 2);
    let (in_row, cell) = (handed.width > 1, (handed.row, handed.col));
    handed.psf.fill(0);
    (handed.psf[middle], handed.psf[middle + if in_row { 1 } else { side }]) = (1, 1);
    let at = handed.row * handed.width + handed.col;
    let beside = if at > 0 { at - 1 } else { at + 1 };
    for _ in 0..2 {
        handed.gray[beside] = handed.gray[beside].clamp(2, 253) ^ 1;
        // the change rises or falls evenly with the gray
        let [paper, next] = [0, 1].map(|gray| {
            handed.gray[at] = gray;
            Plate::new(handed, None).change(&[cell])
        });
        let tied = paper / (paper - next);
        if paper % (paper - next) == 0 && (1..255).contains(&tied) {
            handed.gray[at] = tied as u8;
            return;
        }
    }
}

fn dot_total(handed: &Handed) -> i64 {
    handed.dots.iter().map(|&dot| i64::from(dot)).sum()
}

/// Moves the gray of one cell after the other until the dots are darker than it by this, or by as near to this as they
/// can be. So cells get locked, and dots may contradict them.
pub fn shade(handed: &mut Handed, darker: i64) {
    let mut rise = Second::default().darker(handed) - darker;
    for gray in &mut handed.gray {
        let moved = (i64::from(*gray) + rise).clamp(0, 255);
        rise -= moved - i64::from(*gray);
        *gray = moved as u8;
    }
}

/// Dots and gray for a tone balance: as they are, darker or lighter by less than the number of cells, by 1 or 0, by a
/// multiple of the number of cells, and next to one.
fn balance(random: &mut Random, handed: &mut Handed) {
    let cells = handed.cells() as i64;
    let most = random.pick(&[3, 255]);
    let multiple = (random.below(2 * most + 1) as i64 - most as i64) * cells;
    let below = random.below(handed.cells()) as i64;
    if random.one_in(2) {
        handed.dots = dots(random, handed.cells());
    }
    match random.below(6) {
        0 => {}
        1 => shade(handed, below),
        2 => shade(handed, -below),
        3 => shade(handed, random.pick(&[-1, 0, 1])),
        4 => shade(handed, multiple),
        _ => shade(handed, multiple + random.pick(&[-1, 1])),
    }
}

/// Valid stats for the dots of this plate: some changes on the way to it, and the fall of E that they need.
fn stats(random: &mut Random, handed: &Handed) -> Vec<i64> {
    let (cells, count) = (handed.cells() as i64, dot_total(handed));
    let error = Plate::new(handed, None).sum_of_squares();
    let mut stats = vec![error, error, count, 0, 0, 0];
    if random.one_in(3) {
        return stats;
    }
    stats[STATS_OFF] = random.below(5) as i64;
    stats[STATS_ON] = (random.below(5) as i64).min(count + stats[STATS_OFF]);
    stats[STATS_OFF] = stats[STATS_OFF].min(cells - count + stats[STATS_ON]);
    stats[STATS_SWAPS] = random.pick(&[0, 1, 2, 1000]);
    stats[STATS_START_DOTS] = count - stats[STATS_ON] + stats[STATS_OFF];
    let least = 255 * (stats[STATS_ON] + stats[STATS_OFF] + stats[STATS_SWAPS]);
    let more = random.pick(&[0, 0, 1, 12_345]);
    stats[STATS_START_ERROR] = (error + least + more).min(MAX_ERROR);
    stats
}

/// A cell, and where one is soon found one that is not locked.
fn cell(random: &mut Random, handed: &Handed) -> Cell {
    let cells = [(); 8].map(|()| (random.below(handed.height), random.below(handed.width)));
    *cells.iter().find(|&&cell| !is_locked(handed, cell)).unwrap_or(&cells[0])
}

/// A second cell for a swap, on the plate and within the reach, and where one is soon found with a dot that differs from
/// that of the first cell, or with an equal one, and not locked.
fn partner(random: &mut Random, handed: &Handed, differs: bool) -> Cell {
    let mut near = |from: usize, size: usize| {
        let least = from.saturating_sub(handed.reach);
        random.within(least, (from + handed.reach).min(size - 1))
    };
    let dot = |(row, col): Cell| handed.dots[row * handed.width + col];
    let first = (handed.row, handed.col);
    let cells = (0..8).map(|_| (near(first.0, handed.height), near(first.1, handed.width)));
    let others: Vec<Cell> = cells.filter(|&cell| cell != first).collect();
    let wanted: Vec<&Cell> = others.iter().filter(|&&cell| (dot(cell) != dot(first)) == differs).collect();
    let free = wanted.iter().find(|&&&cell| !is_locked(handed, cell));
    *free.or(wanted.first()).copied().or(others.first()).unwrap_or(&first)
}

/// Names a locked cell, if there is one, as either cell of a swap.
fn name_locked(random: &mut Random, handed: &mut Handed) {
    let locked: Vec<usize> = (0..handed.cells()).filter(|&at| lock(handed.gray[at], None).is_some()).collect();
    if locked.is_empty() {
        return;
    }
    let at = random.pick(&locked);
    (handed.row, handed.col) = (at / handed.width, at % handed.width);
    let differs = !random.one_in(3);
    (handed.row2, handed.col2) = partner(random, handed, differs);
    if random.one_in(3) {
        (handed.row, handed.col, handed.row2, handed.col2) = (handed.row2, handed.col2, handed.row, handed.col);
    }
}

/// Names cells of the plate, sometimes cells that an attempt refuses.
pub fn name_cells(random: &mut Random, handed: &mut Handed) {
    (handed.row, handed.col) = cell(random, handed);
    let differs = !random.one_in(8);
    (handed.row2, handed.col2) = partner(random, handed, differs);
    if random.one_in(8) {
        name_locked(random, handed);
    }
    if random.one_in(16) {
        name_off_plate(random, handed);
    }
    if random.one_in(16) {
        name_beyond_reach(random, handed);
    }
}

/// What a call can be handed, with none, one or two damages, each aimed at one refusal of this call. Two are often aimed at
/// neighbours in the order of refusals.
pub fn damaged(random: &mut Random, call: Call) -> Handed {
    let size = size(random);
    let mut handed = handed(random, size);
    if call == Call::Start {
        handed.table.fill_with(|| random.any() as i32);
        handed.stats.fill_with(|| random.any() as i64);
        if handed.start < 2 {
            handed.dots = random.bytes(handed.dots.len());
        }
    }
    if call == Call::ToneBalance {
        balance(random, &mut handed);
    }
    if call.is_later() && random.one_in(6) {
        misstate(random, &mut handed);
        let differs = !random.one_in(3);
        (handed.row2, handed.col2) = partner(random, &handed, differs);
        return handed;
    }
    damage_all(random, call, &mut handed);
    handed
}

/// The damages of a call that is handed all else as it has to be.
fn damage_all(random: &mut Random, call: Call, handed: &mut Handed) {
    let refusals = call.refusals();
    let first = random.below(refusals.len());
    let second = if random.one_in(2) { random.below(refusals.len()) } else { (first + 1) % refusals.len() };
    let aims = random.pick(&[0, 0, 0, 1, 1, 2, 2, 2]);
    // the higher number first: its damage needs what that of the lower one takes away
    let mut aimed = [refusals[first], refusals[second]][..aims].to_vec();
    aimed.sort_by_key(|&number| Reverse(number));
    aimed.dedup();
    aimed.into_iter().for_each(|number| damage(random, call, number, handed));
    if call.takes_measures() && random.one_in(12) {
        handed.other_measures = Some(other_measures(random, handed));
    }
}

/// Another number of measures: none, the first ones, all and some more; 261 are five to whoever keeps 8 bits.
fn other_measures(random: &mut Random, handed: &Handed) -> Vec<usize> {
    let mut measures = handed.plate();
    measures.resize_with(random.pick(&[0, 1, 4, 4, 6, 6, 7, 10, 261]), || random.below(8));
    measures
}

/// Sizes far above every limit, one of them a small number to whoever keeps 32 bits.
fn huge(random: &mut Random, small: usize) -> usize {
    random.pick(&[usize::MAX, 1 << 32, 1 << 63, 65_537, 1 << 32 | small, 1 << 16 | small])
}

/// One damage that mostly makes a call draw this number.
fn damage(random: &mut Random, call: Call, number: u32, handed: &mut Handed) {
    let far = random.one_in(4);
    match number {
        1 => outsize(random, handed),
        2 if far => handed.radius = huge(random, handed.radius),
        2 => {
            handed.radius = 4;
            handed.psf = psf_of_sum(random, 81, 1024);
            handed.autocorrelation.resize(289, 5);
        }
        3 => handed.reach = if far { huge(random, handed.reach) } else { 7 },
        4 => handed.start = if far { huge(random, handed.start) } else { 3 },
        5 => change_length(random, call, handed),
        6 => {
            let most = 255 * handed.psf.len();
            let sum = random.pick(&[0, 1025.min(most), most]);
            handed.psf = psf_of_sum(random, handed.psf.len(), sum);
        }
        7 => {
            handed.start = if random.one_in(2) { 2 } else { handed.start };
            let at = random.below(handed.dots.len());
            handed.dots[at] = random.pick(&[2, 3, 128, 254, 255]);
        }
        16 => {
            handed.start = if call == Call::Start && !random.one_in(4) { 2 } else { handed.start };
            handed.dots.iter_mut().for_each(|dot| *dot &= 1);
            fit(handed);
            contradict(random, handed);
            // else 20 and 21 are due too
            if random.one_in(2) {
                state(random, handed);
            }
        }
        8 => name_off_plate(random, handed),
        9 => {
            handed.reach = handed.reach.min(random.below(3));
            name_beyond_reach(random, handed);
        }
        20 => {
            let any = random.below(handed.table.len());
            let at = random.pick(&[0, any, handed.table.len() - 1]);
            handed.table[at] = handed.table[at].wrapping_add(random.pick(&[1, -1, 256, i32::MIN]));
        }
        21 => misstate(random, handed),
        22 => (handed.row2, handed.col2) = partner(random, handed, false),
        23 => name_locked(random, handed),
        _ => {}
    }
}

/// A width or height that is out of range; with 257, and half the time with 0, also slices that fit it.
fn outsize(random: &mut Random, handed: &mut Handed) {
    let mut other = |size: usize| match random.below(4) {
        0 => huge(random, size),
        1 => random.pick(&[0, 258]),
        _ => 257,
    };
    if handed.width < handed.height {
        handed.height = other(handed.height);
    } else {
        handed.width = other(handed.width);
    }
    if handed.width.min(handed.height) == 0 && random.one_in(2) {
        (handed.gray, handed.dots) = (Vec::new(), Vec::new());
    }
    if handed.width.max(handed.height) != 257 {
        return;
    }
    let cells = handed.cells();
    (handed.gray, handed.dots) = (vec![9; cells], vec![0; cells]);
    (handed.packed, handed.counts) = (vec![0; handed.height * row_bytes(handed.width)], vec![0; handed.height]);
    if handed.radius < 5 && handed.psf.len() == (2 * handed.radius + 1).pow(2) {
        let plate = Plate::new(handed, None);
        handed.table = plate.filtered_error().into_iter().map(|t| t as i32).collect();
        handed.stats = vec![plate.sum_of_squares(), plate.sum_of_squares(), 0, 0, 0, 0];
    }
}

/// Another length for one of the slices that this call is lent; with a tone balance now and then for both, the same.
fn change_length(random: &mut Random, call: Call, handed: &mut Handed) {
    fn resize<T: Copy + From<u8>>(random: &mut Random, buffer: &mut Vec<T>) {
        let length = buffer.len();
        let others = [0, length - 1, length + 1, 2 * length, length + 256];
        buffer.resize(random.pick(&others), T::from(1));
    }
    if call == Call::ToneBalance && random.one_in(3) {
        resize(random, &mut handed.gray);
        return handed.dots.resize(handed.gray.len(), 1);
    }
    let slices: &[_] = match call {
        Call::Autocorrelation => &[0, 5],
        Call::ToneBalance => &[1, 2],
        Call::SquaredError | Call::WriteSheet => &[0, 1, 2],
        Call::FilteredError => &[0, 1, 2, 3],
        Call::WritePbm => &[2],
        Call::WritePgm => &[1],
        Call::CountRows => &[6, 7],
        _ => &[0, 1, 2, 3, 4],
    };
    match random.pick(slices) {
        0 => resize(random, &mut handed.psf),
        1 => resize(random, &mut handed.gray),
        2 => resize(random, &mut handed.dots),
        3 => resize(random, &mut handed.table),
        4 => resize(random, &mut handed.stats),
        5 => resize(random, &mut handed.autocorrelation),
        6 => resize(random, &mut handed.packed),
        _ => resize(random, &mut handed.counts),
    }
}

/// One figure of the stats off by one, at a limit, above it or below 0; or a whole ledger at or just beyond a limit.
fn misstate(random: &mut Random, handed: &mut Handed) {
    let (cells, count) = (handed.cells() as i64, dot_total(handed));
    let (at, beyond) = (random.below(STATS), random.below(2) as i64);
    let (error, figure) = (handed.stats[STATS_ERROR], handed.stats[at]);
    let limit = match at {
        STATS_START_ERROR | STATS_ERROR => MAX_ERROR,
        STATS_START_DOTS => cells,
        _ => MAX_COUNT,
    };
    match random.below(8) {
        0 => handed.stats[at] = figure - 1,
        1 => handed.stats[at] = figure + 1,
        2 => handed.stats[at] = random.pick(&[limit, limit + 1, -1, i64::MIN, i64::MAX, 1 << 62]),
        3 => handed.stats[random.within(STATS_ON, STATS_SWAPS)] = -1,
        4 => handed.stats = vec![MAX_ERROR + beyond, error, count, 0, 0, 0],
        5 => handed.stats = vec![MAX_ERROR, error, cells + beyond, 0, cells + beyond - count, 0],
        6 => handed.stats = vec![MAX_ERROR, error, -beyond, count + beyond, 0, 0],
        _ => handed.stats = vec![error + 255 * 3 - beyond, error, count, 1, 1, 1],
    }
}

/// A cell off the plate.
fn name_off_plate(random: &mut Random, handed: &mut Handed) {
    let mut off = |size: usize| random.pick(&[size, size, size + 1, usize::MAX, 1 << 32]);
    let (row, col) = (off(handed.height), off(handed.width));
    match random.below(4) {
        0 => handed.row = row,
        1 => handed.col = col,
        2 => handed.row2 = row,
        _ => handed.col2 = col,
    }
}

/// A swap of a cell with itself, or with one just beyond the reach.
fn name_beyond_reach(random: &mut Random, handed: &mut Handed) {
    match random.below(3) {
        0 => (handed.row2, handed.col2) = (handed.row, handed.col),
        1 => (handed.row, handed.row2) = (0, handed.reach + 1),
        _ => (handed.col, handed.col2) = (handed.reach + 1, 0),
    }
}

/// A sheet of the plate's numbers, of its kind of start, and slices to read it into, which hold anything: long enough,
/// longer, or sometimes one too short.
pub fn lend_for_reading(random: &mut Random, handed: &mut Handed) {
    handed.bytes = sheet::text(handed, handed.start);
    let mut other = |length: usize| {
        let length = match random.below(24) {
            0 => length - 1,
            1 => 0,
            2..=8 => length + random.below(9),
            _ => length,
        };
        random.bytes(length)
    };
    handed.psf = other(handed.psf.len());
    handed.gray = other(handed.gray.len());
    handed.dots = other(handed.dots.len());
    handed.measures = vec![random.below(1000); if random.one_in(40) { random.below(8) } else { MEASURES }];
}

/// The bytes that a damage puts into a sheet.
const BYTES: [u8; 14] = *b"0129 \npgdx\r\x00\xff:";

/// Damages a sheet at one random place, now and then the start of line 3.
pub fn damage_sheet(random: &mut Random, sheet: &mut Vec<u8>) {
    let third = sheet.windows(2).position(|pair| pair == b"\np").map_or(0, |at| at + 1);
    let at = if random.one_in(6) { third } else { random.below(sheet.len() + 1) };
    if at == sheet.len() {
        return sheet.push(random.pick(&BYTES));
    }
    match random.below(5) {
        0 => sheet[at] = random.pick(&BYTES),
        1 => sheet.insert(at, random.pick(&BYTES)),
        2 => drop(sheet.remove(at)),
        3 => sheet.truncate(at),
        _ => change_number(random, sheet),
    }
}

/// Puts another number into a sheet, mostly one too large, of many digits or with leading zeros.
fn change_number(random: &mut Random, sheet: &mut Vec<u8>) {
    const NUMBERS: [&[u8]; 18] = [
        b"0",
        b"1",
        b"2",
        b"3",
        b"4",
        b"6",
        b"7",
        b"255",
        b"256",
        b"257",
        b"1000",
        b"00",
        b"01",
        b"000000000000000000000000000255",
        b"4294967297",
        b"18446744073709551617",
        b"340282366920938463463374607431768211457",
        b"0x",
    ];
    let starts: Vec<usize> =
        (1..sheet.len()).filter(|&at| sheet[at].is_ascii_digit() && !sheet[at - 1].is_ascii_digit()).collect();
    if starts.is_empty() {
        return;
    }
    let most = if random.one_in(2) { starts.len().min(MEASURES) } else { starts.len() };
    let start = starts[random.below(most)];
    let digits = sheet[start..].iter().take_while(|byte| byte.is_ascii_digit()).count();
    sheet.splice(start..start + digits, random.pick(&NUMBERS).iter().copied());
}

/// Every damage of one byte at every place of a sheet.
pub fn all_sheet_damages(sheet: &[u8]) -> Vec<Vec<u8>> {
    all_damages(sheet, &BYTES)
}

/// Every damage of one byte at every place of a file, with every byte that there is.
pub fn all_file_damages(file: &[u8]) -> Vec<Vec<u8>> {
    all_damages(file, &(0..=255).collect::<Vec<u8>>())
}

/// At every place a byte replaced and inserted by each of those given, a byte deleted, and all cut off there.
fn all_damages(whole: &[u8], bytes: &[u8]) -> Vec<Vec<u8>> {
    let mut damaged = Vec::new();
    for at in 0..=whole.len() {
        let (front, back) = whole.split_at(at);
        damaged.push(front.to_vec());
        damaged.extend(bytes.iter().map(|&byte| [front, &[byte], back].concat()));
        if let Some((_, rest)) = back.split_first() {
            damaged.push([front, rest].concat());
            damaged.extend(bytes.iter().map(|&byte| [front, &[byte], rest].concat()));
        }
    }
    damaged
}

/// What no call for Netpbm files refuses: gray, dots, and a packed raster whose spare bits are any. What a call only
/// writes holds anything.
pub fn picture(random: &mut Random, (width, height): (usize, usize)) -> Handed {
    let cells = width * height;
    Handed {
        width,
        height,
        gray: gray(random, cells),
        dots: dots(random, cells),
        packed: random.bytes(height * row_bytes(width)),
        counts: (0..height).map(|_| random.any() as u32).collect(),
        length: random.any() as usize,
        read_width: random.any() as usize,
        read_height: random.any() as usize,
        ..Handed::default()
    }
}

/// A size as above, often with a width of about some whole bytes.
fn picture_size(random: &mut Random) -> (usize, usize) {
    let (width, height) = size(random);
    let about = random.pick(&[7, 8, 9, 15, 16, 17, 24, 25]);
    (if random.one_in(3) { about } else { width }, height)
}

/// What a writer of Netpbm files, or the count of rows, can be handed, with none, one or two damages; the output is of
/// about the file's length.
pub fn damaged_picture(random: &mut Random, call: Call) -> Handed {
    let size = picture_size(random);
    let mut handed = picture(random, size);
    let room = match call {
        Call::WritePbm => pbm(size.0, size.1, &handed.dots).len(),
        _ => pgm(size.0, size.1, &handed.gray).len(),
    };
    let length = random.pick(&[0, room - 1, room, room, room + 1, room + 50]);
    handed.out = random.bytes(length);
    damage_all(random, call, &mut handed);
    handed
}

/// The white space of a header.
const WHITE: [u8; 6] = *b" \r\n\t\x0b\x0c";

/// A Netpbm file with none, one or two damages, and slices to read it into.
pub fn file(random: &mut Random) -> Handed {
    let size = picture_size(random);
    let mut handed = picture(random, size);
    let magic = random.pick(&[PBM, PGM]);
    let numbers = header_numbers(random, &handed, magic);
    let raster = raster(random, &handed, &numbers);
    handed.bytes = [header(random, magic, &numbers), raster].concat();
    let damages = random.pick(&[0, 0, 0, 1, 1, 2]);
    (0..damages).for_each(|_| damage_file(random, &mut handed.bytes));
    lend_for_file(random, &mut handed);
    handed
}

/// Slices for the cells of a file, which hold anything: just long enough, longer, or too short.
pub fn lend_for_file(random: &mut Random, handed: &mut Handed) {
    let cells = handed.cells();
    for slice in [&mut handed.dots, &mut handed.gray] {
        let length = match random.below(8) {
            0 => cells.saturating_sub(1),
            1 => random.below(cells.max(1)),
            2..=4 => cells + random.below(9),
            _ => cells,
        };
        *slice = random.bytes(length);
    }
}

/// Width, height and the maximum of a PGM file; now and then one of them another number, at a limit or one that whoever
/// keeps 16, 32 or 64 bits takes for the right one.
fn header_numbers(random: &mut Random, handed: &Handed, magic: &[u8]) -> Vec<u128> {
    let mut numbers = vec![handed.width as u128, handed.height as u128];
    if magic == PGM {
        numbers.push(if random.one_in(4) { random.pick(&[0, 1, 254, 256, 65_535, 65_536]) } else { 255 });
    }
    if random.one_in(6) {
        let at = random.below(numbers.len());
        let right = numbers[at];
        let larger = [1 << 16, 1 << 32, 1 << 64].map(|power| right + power);
        numbers[at] = random.pick(&[0, right + 1, 256, 257, 10 * right, larger[0], larger[1], larger[2]]);
    }
    numbers
}

/// A header of any form that the layout allows.
fn header(random: &mut Random, magic: &[u8], numbers: &[u128]) -> Vec<u8> {
    let plain = random.one_in(3);
    let mut text = magic.to_vec();
    for number in numbers {
        let (white, zeros) = if plain { (1, 0) } else { (random.within(1, 3), random.pick(&[0, 0, 0, 1, 2, 30])) };
        text.extend((0..white).map(|_| random.pick(&WHITE)));
        text.extend([&b"0".repeat(zeros), number.to_string().as_bytes()].concat());
    }
    let comments = if plain { 0 } else { random.below(4) };
    let end = text.len();
    let mut places: Vec<usize> =
        (0..comments).map(|_| if random.one_in(4) { end } else { random.within(0, end) }).collect();
    places.sort();
    for at in places.into_iter().rev() {
        text.splice(at..at, comment(random));
    }
    text.push(random.pick(&WHITE));
    text
}

/// A comment: `#`, anything but CR and LF, and one of these.
fn comment(random: &mut Random) -> Vec<u8> {
    let mut comment = vec![b'#'];
    for _ in 0..random.pick(&[0, 1, 3, 9]) {
        let byte = if random.one_in(3) { random.any() as u8 } else { random.pick(b"#0123456789P \t\x0b\x0c") };
        comment.push(byte);
    }
    comment.retain(|byte| !b"\r\n".contains(byte));
    comment.push(random.pick(b"\r\n"));
    comment
}

/// A raster, now and then one of two bytes a cell, or one that could be taken for a part of the header.
fn raster(random: &mut Random, handed: &Handed, numbers: &[u128]) -> Vec<u8> {
    let mut raster = match numbers.get(2) {
        None => handed.packed.clone(),
        Some(&maximum) if maximum > 255 && random.one_in(2) => random.bytes(2 * handed.cells()),
        Some(_) => random.bytes(handed.cells()),
    };
    let last = raster.len() - 1;
    match random.below(8) {
        0 => raster[0] = random.pick(&WHITE),
        1 => (raster[last], raster[0]) = (b'\n', b'#'),
        _ => {}
    }
    raster
}

/// Damages a file at one random place, mostly in its header.
fn damage_file(random: &mut Random, file: &mut Vec<u8>) {
    let most = if random.one_in(3) { file.len() } else { file.len().min(16) };
    let at = random.within(0, most);
    let byte = if random.one_in(2) { random.any() as u8 } else { random.pick(b"0159 \r\n\t#P4/:+-") };
    match random.below(6) {
        0 => file.insert(at, byte),
        1 => file.truncate(at),
        2 => file.push(byte),
        _ if at >= file.len() => drop(file.pop()),
        3 => file[at] = byte,
        4 => file.insert(at, file[at]),
        _ => drop(file.remove(at)),
    }
}
