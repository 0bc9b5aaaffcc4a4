//! The calls of document 01 save those for sheets, from its plain sums, with the locked cells of request C-12, the trials
//! of request C-14 and the tone balance of request C-15, and the judging of what any call is handed. The plate here is
//! document 01's plain plate: it has no table. Wherever a table or a squared error is wanted, the sum is taken over the
//! dots.

use crate::fault::Fault;
use crate::handed::{
    Call, Cell, Handed, MEASURES, STATS, STATS_ERROR, STATS_OFF, STATS_ON, STATS_START_DOTS, STATS_START_ERROR,
    STATS_SWAPS,
};
use crate::picture::row_bytes;
use std::cmp::Reverse;

/// The largest squared error.
pub const MAX_ERROR: i64 = 4_468_483_974_758_400;
/// The largest count in a ledger.
pub const MAX_COUNT: i64 = 1 << 44;

/// The refusals because of the input save those of a sheet, then those because of the state, in their order: 16 straight
/// after 7, and 23 before 22.
pub const ORDER: [u32; 14] = [1, 2, 3, 4, 5, 6, 7, 16, 8, 9, 20, 21, 23, 22];

/// The second implementation, right or with one mistake.
#[derive(Clone, Copy, Default)]
pub struct Second {
    pub fault: Option<Fault>,
}

/// Draws a refusal where its condition holds.
pub fn refuse(number: u32, drawn: bool) -> Result<(), u32> {
    if drawn {
        Err(number)
    } else {
        Ok(())
    }
}

/// The autocorrelation: c(d) = sum over offsets k of p(k) * p(k + d), d rising from -2r row by row.
pub fn autocorrelation(radius: usize, psf: &[i64]) -> Vec<i64> {
    let r = radius as isize;
    let p = |row: isize, col: isize| {
        let inside = row.abs() <= r && col.abs() <= r;
        if inside {
            psf[((row + r) * (2 * r + 1) + col + r) as usize]
        } else {
            0
        }
    };
    let c = |down, right| square(r).map(|(row, col)| p(row, col) * p(row + down, col + right)).sum();
    square(2 * r).map(|(down, right)| c(down, right)).collect()
}

/// All offsets with both coordinates from -q to q, row by row.
fn square(q: isize) -> impl Iterator<Item = (isize, isize)> {
    (-q..=q).flat_map(move |down| (-q..=q).map(move |right| (down, right)))
}

fn transposed(psf: &[i64], radius: usize) -> Vec<i64> {
    let side = 2 * radius + 1;
    (0..side * side).map(|at| psf[at % side * side + at / side]).collect()
}

/// An entry of the 16 by 16 Bayer array, by the bits of row and column.
pub fn threshold(row: usize, col: usize) -> u32 {
    let bit = |number: usize, i: u32| number >> i & 1;
    let d = |i| match (bit(row, i), bit(col, i)) {
        (0, 0) => 0,
        (0, 1) => 2,
        (1, 0) => 3,
        _ => 1,
    };
    (0..4).map(|i| d(i) * 4u32.pow(3 - i)).sum()
}

/// The dot that a locked cell has: bare paper (gray 0) is blank, lettering and outlines (gray 255) are solid. A cell of any
/// other gray is not locked.
pub fn lock(gray: u8, fault: Option<Fault>) -> Option<u8> {
    match (gray, fault) {
        (0, Some(Fault::PaperNotLocked)) | (255, Some(Fault::InkNotLocked)) => None,
        (0, _) | (1, Some(Fault::Gray1Locked)) => Some(0),
        (255, _) | (254, Some(Fault::Gray254Locked)) => Some(1),
        _ => None,
    }
}

/// The partners of a swap scan: by falling sum of squares, then smaller row offset, then smaller column offset.
pub fn partners(reach: usize) -> Vec<(isize, isize)> {
    let mut offsets: Vec<_> = square(reach as isize).filter(|&d| d != (0, 0)).collect();
    offsets.sort_by_key(|&(down, right)| (Reverse(down * down + right * right), down, right));
    offsets
}

/// The whole number q and the remainder with D = q * N + remainder, the remainder from 0 to N - 1: from q = 0 on, where
/// the remainder is D, q falls by 1 while the remainder is below 0, and rises by 1 while it is above N - 1.
pub fn parted(d: i64, n: i64) -> (i64, i64) {
    let (mut q, mut remainder) = (0, d);
    while remainder < 0 {
        (q, remainder) = (q - 1, remainder + n);
    }
    while remainder > n - 1 {
        (q, remainder) = (q + 1, remainder - n);
    }
    (q, remainder)
}

/// What a scan comes to: its accepted changes and its trials, which it answers, and what could be taken for trials.
#[derive(Clone, Copy, Default)]
pub struct Scan {
    pub changes: u64,
    pub trials: u64,
    /// the locked cells that a toggle scan passed over
    locked_cells: u64,
    /// the swaps that locked cells could have been tried with
    at_locked_cells: u64,
    /// the partners passed over: off the plate, locked though of an unlike dot, of an equal dot
    off_plate: u64,
    pub locked_partners: u64,
    equal_dots: u64,
    /// the swaps that were left to try at cells, past the accepted one
    pub left: u64,
    /// the partners gone through, not locked, that had an unlike dot when the scan began
    unlike_at_first: u64,
    /// the trials at cells where one was accepted
    at_accepted: u64,
    /// the cells visited that are not locked
    free_cells: u64,
}

impl Scan {
    /// The trials that a call answers, right or with a mistake.
    fn trials_told(&self, call: Call, fault: Option<Fault>) -> u64 {
        match fault {
            Some(Fault::LockedCellCounted) => self.trials + self.locked_cells,
            Some(Fault::SwapsOfLockedCounted) => self.trials + self.at_locked_cells,
            Some(Fault::OffPlateCounted) => self.trials + self.off_plate,
            Some(Fault::LockedPartnerCounted) => self.trials + self.locked_partners,
            Some(Fault::EqualDotCounted) => self.trials + self.equal_dots,
            Some(Fault::AcceptedNotCounted(by)) if by == call => self.trials - self.changes,
            Some(Fault::PastAcceptedCounted) => self.trials + self.left,
            Some(Fault::FirstDotsCounted) => self.unlike_at_first,
            Some(Fault::AcceptedCellsCounted) => self.at_accepted,
            Some(Fault::CellsForTrials) => self.free_cells,
            Some(Fault::ChangesForTrials(by)) if by == call => self.changes,
            _ => self.trials,
        }
    }
}

/// What becomes of a partner at a cell of a swap scan: passed over, or a trial.
enum Weighed {
    OffPlate,
    Locked,
    EqualDot,
    Declined,
    Accepted,
}

/// The plain plate: measures, psf, gray and dots, and the three counts.
#[derive(Clone)]
pub struct Plate {
    width: usize,
    height: usize,
    radius: usize,
    reach: usize,
    psf: Vec<i64>,
    gray: Vec<u8>,
    dots: Vec<u8>,
    /// the error of each cell, with a margin of 2r cells of 0 all round
    errors: Vec<i64>,
    on: i64,
    off: i64,
    swaps: i64,
    fault: Option<Fault>,
}

impl Plate {
    /// The plate with the dots handed, all counts 0.
    pub fn new(handed: &Handed, fault: Option<Fault>) -> Plate {
        let margin = 4 * handed.radius;
        let mut plate = Plate {
            width: handed.width,
            height: handed.height,
            radius: handed.radius,
            reach: handed.reach,
            psf: handed.psf.iter().map(|&entry| i64::from(entry)).collect(),
            gray: handed.gray.clone(),
            dots: handed.dots.clone(),
            errors: vec![0; (handed.width + margin) * (handed.height + margin)],
            on: 0,
            off: 0,
            swaps: 0,
            fault,
        };
        plate.all_cells().for_each(|cell| plate.take_error(cell));
        plate
    }

    /// All cells in raster order.
    fn all_cells(&self) -> impl Iterator<Item = Cell> {
        let width = self.width;
        (0..self.width * self.height).map(move |at| (at / width, at % width))
    }

    fn at(&self, (row, col): Cell) -> usize {
        row * self.width + col
    }

    pub fn dot(&self, cell: Cell) -> u8 {
        self.dots[self.at(cell)]
    }

    pub fn is_locked(&self, cell: Cell) -> bool {
        lock(self.gray[self.at(cell)], self.fault).is_some()
    }

    /// Whether a scan passes a cell over because it is locked; with this mistake it does not.
    fn passes_over(&self, cell: Cell, mistake: Fault) -> bool {
        self.is_locked(cell) && self.fault != Some(mistake)
    }

    pub fn dot_total(&self) -> i64 {
        self.dots.iter().map(|&dot| i64::from(dot)).sum()
    }

    /// The cell at an offset, unless it is off the plate.
    fn moved(&self, (row, col): Cell, (down, right): (isize, isize)) -> Option<Cell> {
        let row = row.checked_add_signed(down).filter(|&row| row < self.height)?;
        let col = col.checked_add_signed(right).filter(|&col| col < self.width)?;
        Some((row, col))
    }

    /// Where a place stands in the errors, its row and column counted from the margin's corner.
    fn place(&self, row: usize, col: usize) -> usize {
        row * (self.width + 4 * self.radius) + col
    }

    /// The error of a cell is e = 255 * dot - gray.
    fn take_error(&mut self, (row, col): Cell) {
        let at = self.at((row, col));
        let place = self.place(row + 2 * self.radius, col + 2 * self.radius);
        self.errors[place] = 255 * i64::from(self.dots[at]) - i64::from(self.gray[at]);
    }

    fn error(&self, (row, col): Cell) -> i64 {
        self.errors[self.place(row + 2 * self.radius, col + 2 * self.radius)]
    }

    /// The autocorrelation of this plate's psf.
    fn c(&self) -> Vec<i64> {
        match self.fault {
            Some(Fault::PsfTransposed) => autocorrelation(self.radius, &transposed(&self.psf, self.radius)),
            _ => autocorrelation(self.radius, &self.psf),
        }
    }

    /// An entry of the autocorrelation, which is 0 where a coordinate passes 2r.
    fn c_at(&self, c: &[i64], (down, right): (isize, isize)) -> i64 {
        let most = 2 * self.radius as isize;
        let inside = down.abs() <= most && right.abs() <= most;
        let at = (down + most) * (2 * most + 1) + right + most;
        if inside {
            c[at as usize]
        } else {
            0
        }
    }

    /// The table: T(m) = sum over all cells n of c(n - m) * e(n). Beyond the plate error counts as 0.
    pub fn filtered_error(&self) -> Vec<i64> {
        let c = self.c();
        let side = 4 * self.radius + 1;
        let from = |row, col| self.errors[self.place(row, col)..][..side].iter();
        let row_sum = |at: usize, row, col| from(row, col).zip(&c[at * side..]).map(|(e, c)| e * c).sum::<i64>();
        let sum = |(row, col): Cell| (0..side).map(|at| row_sum(at, row + at, col)).sum();
        match self.fault {
            Some(Fault::Folded) => self.all_cells().map(|cell| self.folded_sum(&c, cell)).collect(),
            _ => self.all_cells().map(sum).collect(),
        }
    }

    /// T(m) on a plate that is folded round at its edges, a mistake.
    fn folded_sum(&self, c: &[i64], (row, col): Cell) -> i64 {
        let fold = |from: usize, step: isize, size: usize| (from as isize + step).rem_euclid(size as isize) as usize;
        let error = |(down, right)| self.error((fold(row, down, self.height), fold(col, right, self.width)));
        square(2 * self.radius as isize).map(error).zip(c).map(|(e, c)| e * c).sum()
    }

    /// E = sum of e(m) * T(m).
    pub fn squared_error(&self) -> i64 {
        let table = self.filtered_error();
        self.all_cells().zip(table).map(|(cell, t)| self.error(cell) * t).sum()
    }

    /// E by the double sum: over all cells m and n, e(m) * c(n - m) * e(n).
    pub fn double_sum(&self) -> i64 {
        let c = self.c();
        let offset = |m: Cell, n: Cell| (n.0 as isize - m.0 as isize, n.1 as isize - m.1 as isize);
        let product = |m, n| self.error(m) * self.c_at(&c, offset(m, n)) * self.error(n);
        self.all_cells().map(|m| self.all_cells().map(|n| product(m, n)).sum::<i64>()).sum()
    }

    /// The spread-out error: sum over n of e(n) * p(x - n), x a cell of the plate widened by r on each side.
    fn spread_out(&self, (row, col): Cell) -> i64 {
        let side = 2 * self.radius + 1;
        let row_sum = |down: usize| {
            let errors = &self.errors[self.place(row + down, col)..][..side];
            let psf = &self.psf[(side - 1 - down) * side..][..side];
            errors.iter().zip(psf.iter().rev()).map(|(e, p)| e * p).sum::<i64>()
        };
        (0..side).map(row_sum).sum()
    }

    /// The spread-out error of every cell of the widened plate, row by row.
    fn all_spread_out(&self) -> impl Iterator<Item = i64> + '_ {
        let (high, wide) = (self.height + 2 * self.radius, self.width + 2 * self.radius);
        (0..high * wide).map(move |at| self.spread_out((at / wide, at % wide)))
    }

    /// E again: the sum of the squares of the spread-out error over the widened plate.
    pub fn sum_of_squares(&self) -> i64 {
        self.all_spread_out().map(|spread_out| spread_out.pow(2)).sum()
    }

    /// The part of that sum that these cells have to do with: the cells of the widened plate within r of one of them.
    fn squares_near(&self, cells: &[Cell]) -> i64 {
        let r = self.radius;
        let near = |(row, col): Cell, x: Cell| (row..=row + 2 * r).contains(&x.0) && (col..=col + 2 * r).contains(&x.1);
        let mut sum = 0;
        for (at, &(row, col)) in cells.iter().enumerate() {
            let window = (row..=row + 2 * r).flat_map(|x| (col..=col + 2 * r).map(move |y| (x, y)));
            let fresh = window.filter(|&x| !cells[..at].iter().any(|&cell| near(cell, x)));
            sum += fresh.map(|x| self.spread_out(x).pow(2)).sum::<i64>();
        }
        sum
    }

    /// Turns these dots over: one is a toggle, two unlike dots are a swap.
    fn turn(&mut self, cells: &[Cell]) {
        for &cell in cells {
            let at = self.at(cell);
            self.dots[at] = 1 - self.dots[at];
            self.take_error(cell);
        }
    }

    /// The change of E if these dots are turned: the squares near them after it less those before it.
    pub fn change(&mut self, cells: &[Cell]) -> i64 {
        if self.fault == Some(Fault::OffsetDropped) && cells.len() == 2 {
            return cells.iter().map(|&cell| self.change(&[cell])).sum();
        }
        let before = self.squares_near(cells);
        self.turn(cells);
        let after = self.squares_near(cells);
        self.turn(cells);
        after - before
    }

    /// The same by the whole sum: the copy's E less the E before.
    pub fn change_of_whole_sum(&self, cells: &[Cell]) -> i64 {
        let mut copy = self.clone();
        copy.turn(cells);
        copy.squared_error() - self.squared_error()
    }

    /// Turns the dots, and the one matching count rises by 1.
    fn accept(&mut self, cells: &[Cell]) {
        let on = self.dot(cells[0]) == 0 || self.fault == Some(Fault::OnForOff);
        match (cells.len(), on) {
            (1, true) => self.on += 1,
            (1, false) => self.off += 1,
            _ => self.swaps += 1,
        }
        self.turn(cells);
    }

    /// One attempt: accepted exactly when it lowers E. Answers the change.
    fn attempt(&mut self, cells: &[Cell]) -> i64 {
        let change = self.change(cells);
        if change < 0 {
            self.accept(cells);
        }
        change
    }

    /// A toggle attempt at every cell in raster order that is not locked. Each is one trial.
    fn toggle_scan(&mut self) -> Scan {
        let mut scan = Scan::default();
        for cell in self.all_cells() {
            if self.passes_over(cell, Fault::LockedToggled) {
                scan.locked_cells += 1;
                continue;
            }
            scan.trials += 1;
            scan.changes += u64::from(self.attempt(&[cell]) < 0);
        }
        Scan { free_cells: scan.trials, unlike_at_first: scan.trials, at_accepted: scan.trials, ..scan }
    }

    /// The partners of this plate's reach.
    fn partners(&self) -> Vec<(isize, isize)> {
        let mut offsets = partners(self.reach);
        match self.fault {
            Some(Fault::PartnersReversed) => offsets.reverse(),
            Some(Fault::PartnersMirrored) => offsets.iter_mut().for_each(|d| d.1 = -d.1),
            _ => {}
        }
        offsets
    }

    /// At every cell the first partner that lowers E, neither of them locked. Each swap that is weighed is one trial,
    /// up to the accepted one and with it, by the dots as they are at that moment.
    pub fn swap_scan(&mut self) -> Scan {
        let (partners, first) = (self.partners(), self.clone());
        let mut scan = Scan::default();
        for cell in self.all_cells() {
            let (dot, before) = (self.dot(cell), scan);
            if self.passes_over(cell, Fault::LockedSwapped) {
                scan.at_locked_cells += self.unlike(cell, dot, &partners, false);
                continue;
            }
            let mut gone = 0;
            for &offset in &partners {
                gone += 1;
                match self.weigh(cell, offset) {
                    Weighed::OffPlate => scan.off_plate += 1,
                    Weighed::Locked if self.fault == Some(Fault::LockedPartnerEndsCell) => break,
                    Weighed::Locked => {}
                    Weighed::EqualDot => scan.equal_dots += 1,
                    Weighed::Declined => scan.trials += 1,
                    Weighed::Accepted => {
                        scan.trials += 1;
                        scan.changes += 1;
                        if self.fault != Some(Fault::CellNotLeft) {
                            break;
                        }
                    }
                }
            }
            scan.free_cells += 1;
            scan.locked_partners += self.unlike(cell, dot, &partners[..gone], true);
            scan.left += self.unlike(cell, dot, &partners[gone..], false);
            scan.unlike_at_first += first.unlike(cell, first.dot(cell), &partners[..gone], false);
            if scan.changes > before.changes {
                scan.at_accepted += scan.trials - before.trials;
            }
        }
        scan
    }

    /// How many of these partners of a cell are on the plate and have another dot than this one, of those that are
    /// locked or of those that are not.
    fn unlike(&self, cell: Cell, dot: u8, partners: &[(isize, isize)], locked: bool) -> u64 {
        let on_plate = partners.iter().filter_map(|&offset| self.moved(cell, offset));
        on_plate.filter(|&partner| self.dot(partner) != dot && self.is_locked(partner) == locked).count() as u64
    }

    /// The attempt to swap a cell with the partner at an offset, unless that is passed over.
    fn weigh(&mut self, cell: Cell, offset: (isize, isize)) -> Weighed {
        let Some(partner) = self.moved(cell, offset) else {
            return Weighed::OffPlate;
        };
        if self.passes_over(partner, Fault::LockedPartnerTaken) {
            return Weighed::Locked;
        }
        if self.dot(partner) == self.dot(cell) {
            return Weighed::EqualDot;
        }
        if self.attempt(&[cell, partner]) < 0 {
            Weighed::Accepted
        } else {
            Weighed::Declined
        }
    }

    /// The trials of a swap scan that accepts nothing: for each cell the cells within reach that have an unlike dot, of
    /// those that are not locked.
    pub fn unlike_within_reach(&self) -> u64 {
        let free: Vec<Cell> = self.all_cells().filter(|&cell| !self.is_locked(cell)).collect();
        let near = |a: Cell, b: Cell| a.0.abs_diff(b.0) <= self.reach && a.1.abs_diff(b.1) <= self.reach;
        let partners = |&a: &Cell| free.iter().filter(|&&b| near(a, b) && self.dot(a) != self.dot(b)).count() as u64;
        free.iter().map(partners).sum()
    }

    /// Toggle scans until one accepts nothing, then one swap scan; if that accepted something, again. Answers the scans.
    fn converge(&mut self) -> u64 {
        let mut scans = 0;
        loop {
            scans += 1;
            if self.toggle_scan().changes > 0 {
                continue;
            }
            scans += 1;
            if self.swap_scan().changes == 0 || self.fault == Some(Fault::StopsAfterSwaps) {
                return scans - u64::from(self.fault == Some(Fault::LastScanNotCounted));
            }
        }
    }

    /// What turning each dot by itself adds to E: the squares of the cells that it spreads to, after it less before it.
    pub fn toggle_changes(&self) -> Vec<i64> {
        let (side, wide) = (2 * self.radius + 1, self.width + 2 * self.radius);
        let spread_out: Vec<i64> = self.all_spread_out().collect();
        let change = |(row, col): Cell| {
            let step = if self.dot((row, col)) == 0 { 255 } else { -255 };
            let square = |(at, p): (usize, &i64)| {
                let before = spread_out[(row + at / side) * wide + col + at % side];
                (before + step * p).pow(2) - before.pow(2)
            };
            self.psf.iter().enumerate().map(square).sum()
        };
        self.all_cells().map(change).collect()
    }

    /// Whether no toggle and no swap within reach lowers E, of cells that are not locked. Each pair of cells is tried once,
    /// from its first cell. A swap of unlike dots adds what its toggles add, less 2 * 255^2 * c: both spread to some cells,
    /// with unlike signs.
    pub fn rests(&self) -> bool {
        let reach = match self.fault {
            Some(Fault::TogglesOnly) => 0,
            Some(Fault::SwapsBeyondReach) => self.reach + 1,
            _ => self.reach,
        };
        let least = i64::from(self.fault == Some(Fault::TiesDisturb));
        let (changes, c) = (self.toggle_changes(), self.c());
        let onward = square(reach as isize).filter(|&offset| offset > (0, 0));
        let partners: Vec<_> = onward.map(|offset| (offset, 2 * 255 * 255 * self.c_at(&c, offset))).collect();
        let swap_rests = |cell: Cell, (offset, overlap)| {
            let Some(partner) = self.moved(cell, offset) else {
                return true;
            };
            let change = changes[self.at(cell)] + changes[self.at(partner)] - overlap;
            let locked = [cell, partner].iter().any(|&cell| self.passes_over(cell, Fault::LockedSwapsDisturb));
            locked || self.dot(partner) == self.dot(cell) || change >= least
        };
        let toggle_rests =
            |cell| self.passes_over(cell, Fault::LockedTogglesDisturb) || changes[self.at(cell)] >= least;
        self.all_cells().all(toggle_rests)
            && self.all_cells().all(|cell| partners.iter().all(|&partner| swap_rests(cell, partner)))
    }

    /// The same by the whole sums: every toggle and every swap of unlike dots within reach made on a copy, save where a cell
    /// is locked.
    pub fn rests_by_whole_sums(&self) -> bool {
        let near = |a: Cell, b: Cell| a.0.abs_diff(b.0) <= self.reach && a.1.abs_diff(b.1) <= self.reach;
        let is_swap = |a, b| near(a, b) && self.dot(a) != self.dot(b);
        let lowers = |cells: &[Cell]| self.change_of_whole_sum(cells) < 0;
        let free = || self.all_cells().filter(|&cell| !self.is_locked(cell));
        let swap_lowers = |a| free().any(|b| is_swap(a, b) && lowers(&[a, b]));
        !free().any(|cell| lowers(&[cell]) || swap_lowers(cell))
    }

    /// Whether 2T is at least -255P at every blank and at most 255P at every dot that is not locked.
    pub fn within_half_peak(&self) -> bool {
        let (table, c) = (self.filtered_error(), self.c());
        let peak = c[c.len() / 2];
        let outward = |cell| 2 * table[self.at(cell)] * if self.dot(cell) == 0 { -1 } else { 1 };
        self.all_cells().all(|cell| self.is_locked(cell) || outward(cell) <= 255 * peak)
    }

    /// What a toggle or swap adds to E by document 01's formulas, here only for a comparison with the sums.
    pub fn change_by_formula(&self, cells: &[Cell]) -> i64 {
        let (table, c) = (self.filtered_error(), self.c());
        let t = |cell| table[self.at(cell)];
        let s = if self.dot(cells[0]) == 0 { 1 } else { -1 };
        let peak = c[c.len() / 2];
        if cells.len() == 1 {
            return 255 * (2 * s * t(cells[0]) + 255 * peak);
        }
        let ((row, col), (row2, col2)) = (cells[0], cells[1]);
        let offset = (row as isize - row2 as isize, col as isize - col2 as isize);
        let c_offset = self.c_at(&c, offset);
        510 * (s * (t(cells[0]) - t(cells[1])) + 255 * (peak - c_offset))
    }
}

impl Second {
    /// Makes a call: answers 0 or the refusal number, and leaves in the record what the call writes.
    pub fn call(&self, call: Call, handed: &mut Handed) -> u32 {
        let done = match call {
            Call::ReadSheet => self.read_sheet(handed),
            Call::WriteSheet => self.write_sheet(handed),
            Call::CheckFiled => self.check_filed(handed),
            Call::ReadPbm => self.read_pbm(handed),
            Call::ReadPgm => self.read_pgm(handed),
            Call::ReadPfm => self.read_pfm(handed),
            Call::WritePbm => self.write_pbm(handed),
            Call::WritePgm => self.write_pgm(handed),
            Call::CountRows => self.count_rows(handed),
            _ => self.judge(call, handed).map(|()| self.work(call, handed)),
        };
        if let Err(number) = done {
            self.clear_refused(call, number, handed);
        }
        done.err().unwrap_or(0)
    }

    /// A result set to 0 where a call is refused, a mistake.
    fn clear_refused(&self, call: Call, number: u32, handed: &mut Handed) {
        match self.fault {
            Some(Fault::RefusedTrialsCleared(by)) if by == call => handed.trials = 0,
            Some(Fault::RefusedQuotientCleared) if call == Call::ToneBalance => handed.quotient = 0,
            Some(Fault::RefusedRemainderCleared) if call == Call::ToneBalance => handed.remainder = 0,
            Some(Fault::PfmOffsetOnRefusal(on)) if call == Call::ReadPfm && on == number => handed.offset = 0,
            _ => {}
        }
    }

    pub fn has(&self, fault: Fault) -> bool {
        self.fault == Some(fault)
    }

    /// Whether it has a mistake that is one of the tone balance alone, and this is that call.
    fn has_in_balance(&self, call: Call, fault: Fault) -> bool {
        call == Call::ToneBalance && self.has(fault)
    }

    /// Judges what a call is handed: how many measures there are, before all else; then least number first, then the
    /// state. A call judges only what it is handed.
    pub fn judge(&self, call: Call, handed: &Handed) -> Result<(), u32> {
        refuse(5, !self.has(Fault::MeasuresJudgedLate) && self.other_count(call, handed))?;
        let mut order = ORDER;
        match self.fault {
            Some(Fault::Exchanged(at)) => order.swap(at, at + 1),
            Some(Fault::CellsBeforeLocks) => order[7..10].rotate_left(1),
            Some(Fault::LockBeforeState) => order[10..13].rotate_right(1),
            Some(Fault::BalanceLengthFirst) if call == Call::ToneBalance => order.swap(0, 4),
            Some(Fault::BalanceDotsFirst) if call == Call::ToneBalance => order.swap(4, 6),
            _ => {}
        }
        let mut judged = order.into_iter().filter(|&number| self.is_judged(number, call));
        judged.try_for_each(|number| refuse(number, self.draws(number, call, handed)))
    }

    /// Whether a number is one of a call's own.
    fn is_judged(&self, number: u32, call: Call) -> bool {
        let in_balance = self.has_in_balance(call, Fault::BalanceLocksJudged);
        let with_dots = number == 16 && (in_balance || self.has(Fault::LocksJudgedWithDots));
        let passed_over = self.has_in_balance(call, Fault::BalancePassesOver(number));
        !passed_over && call.refusals().contains(if with_dots { &7 } else { &number })
    }

    /// Whether a call draws this number, one of its own, none of those before it being drawn.
    fn draws(&self, number: u32, call: Call, handed: &Handed) -> bool {
        match number {
            1 => self.sizes_outside(call, handed),
            2 => handed.radius > 3,
            3 => handed.reach > 6,
            4 => handed.start > 2,
            5 => self.other_count(call, handed) || self.other_length(call, handed),
            6 => self.sum_outside(&handed.psf),
            7 => self.judges_dots(call, handed) && handed.dots.iter().any(|&dot| dot > 1),
            16 => self.judges_locks(call, handed) && self.contradicts(handed),
            8 => call.named(handed).iter().any(|&(row, col)| row >= handed.height || col >= handed.width),
            9 => self.beyond_reach(handed),
            20 => self.table_differs(handed),
            21 => self.ledger_differs(&Plate::new(handed, self.fault), &handed.stats),
            23 => self.names_locked(call, handed),
            _ => equal_dots(handed),
        }
    }

    /// 5: another number of measures than five, where they are handed as a slice.
    fn other_count(&self, call: Call, handed: &Handed) -> bool {
        let count = if call.takes_measures() { handed.plate().len() } else { MEASURES };
        match self.fault {
            Some(Fault::FewerMeasuresTaken) => count > MEASURES,
            Some(Fault::MoreMeasuresTaken) => count < MEASURES,
            _ => count != MEASURES,
        }
    }

    /// 5: a slice of another length than its measure.
    fn other_length(&self, call: Call, handed: &Handed) -> bool {
        let mut lengths = lengths(call, handed);
        match self.fault.filter(|_| call == Call::ToneBalance) {
            Some(Fault::BalanceGrayAlone) => lengths.truncate(1),
            Some(Fault::BalanceDotsAlone) => drop(lengths.remove(0)),
            Some(Fault::BalanceLengthsCompared) => return handed.gray.len() != handed.dots.len(),
            _ => {}
        }
        lengths.iter().any(|(length, measure)| length != measure)
    }

    /// 1: width or height outside 1 to 256.
    fn sizes_outside(&self, call: Call, handed: &Handed) -> bool {
        let width = !self.has_in_balance(call, Fault::BalanceHeightAlone) && self.outside(handed.width);
        let height = !self.has_in_balance(call, Fault::BalanceWidthAlone) && self.outside(handed.height);
        width || height
    }

    /// A size outside 1 to 256.
    pub fn outside(&self, size: usize) -> bool {
        let largest = if self.has(Fault::Size257Taken) { 257 } else { 256 };
        size < 1 || size > largest
    }

    /// 6: spread sum 0 or above 1,024.
    pub fn sum_outside(&self, psf: &[u8]) -> bool {
        let largest = if self.has(Fault::Sum1025Taken) { 1025 } else { 1024 };
        let sum: usize = psf.iter().map(|&entry| usize::from(entry)).sum();
        sum == 0 || sum > largest
    }

    /// A start judges the dots where it takes them.
    fn judges_dots(&self, call: Call, handed: &Handed) -> bool {
        call != Call::Start || handed.start == 2 || self.has(Fault::DotsAlwaysJudged)
    }

    /// Locks are judged with the dots given: by a start where it takes them, by a later call whatever its kind.
    fn judges_locks(&self, call: Call, handed: &Handed) -> bool {
        match self.fault {
            Some(Fault::LocksNotJudgedAtStart) => call != Call::Start,
            Some(Fault::LocksJudgedAtAnyStart) => true,
            Some(Fault::LocksNotJudgedLater) => call == Call::Start && handed.start == 2,
            Some(Fault::LocksJudgedByKind) => handed.start == 2,
            _ => call != Call::Start || handed.start == 2,
        }
    }

    /// 16: dots that contradict a locked cell.
    pub fn contradicts(&self, handed: &Handed) -> bool {
        let contradicts = |(&gray, &dot)| lock(gray, self.fault).is_some_and(|locked| dot != locked);
        handed.gray.iter().zip(&handed.dots).any(contradicts)
    }

    /// 23: an attempt naming a locked cell.
    fn names_locked(&self, call: Call, handed: &Handed) -> bool {
        let locked = |&(row, col): &Cell| lock(handed.gray[row * handed.width + col], self.fault).is_some();
        let cells = call.named(handed);
        match self.fault {
            Some(Fault::FirstLockNotJudged) => cells[1..].iter().any(locked),
            Some(Fault::SecondLockNotJudged) => locked(&cells[0]),
            Some(Fault::BothLocksNeeded) => cells.iter().all(locked),
            _ => cells.iter().any(locked),
        }
    }

    /// 9: swap of a cell with itself or with a row or column offset beyond the reach.
    fn beyond_reach(&self, handed: &Handed) -> bool {
        let down = handed.row.abs_diff(handed.row2);
        let right = handed.col.abs_diff(handed.col2);
        let itself = (down, right) == (0, 0) && !self.has(Fault::SameCellTaken);
        itself || down > handed.reach || right > handed.reach && !self.has(Fault::ColumnBeyondReachTaken)
    }

    /// 20: a table entry differs from T.
    fn table_differs(&self, handed: &Handed) -> bool {
        let judged = handed.table.len() - usize::from(self.has(Fault::LastEntryNotJudged));
        let table = Plate::new(handed, self.fault).filtered_error();
        handed.table.iter().zip(table).take(judged).any(|(&entry, t)| i64::from(entry) != t)
    }

    /// The conditions of 21. A count below 0 counts as one above all limits (the header).
    fn ledger_differs(&self, plate: &Plate, stats: &[i64]) -> bool {
        let cells = (plate.width * plate.height) as i64;
        let dots_limit = if self.has(Fault::StartDotsNotLimited) { i64::MAX } else { cells };
        let error_limit = if self.has(Fault::StartErrorNotLimited) { i64::MAX } else { MAX_ERROR };
        let least = if self.has(Fault::FallBy254) { 254 } else { 255 };
        let count_taken = |&count: &i64| count <= MAX_COUNT && (count >= 0 || self.has(Fault::NegativeCountTaken));
        let wide = |at: usize| i128::from(stats[at]);
        stats[STATS_ERROR] != plate.squared_error()
            || !(0..=error_limit).contains(&stats[STATS_START_ERROR])
            || !stats[STATS_ON..=STATS_SWAPS].iter().all(count_taken)
            || !(0..=dots_limit).contains(&stats[STATS_START_DOTS])
            || i128::from(plate.dot_total()) != wide(STATS_START_DOTS) + wide(STATS_ON) - wide(STATS_OFF)
            || least * (wide(STATS_ON) + wide(STATS_OFF) + wide(STATS_SWAPS))
                > wide(STATS_START_ERROR) - wide(STATS_ERROR)
    }

    /// What a call does that is not refused.
    fn work(&self, call: Call, handed: &mut Handed) {
        match call {
            Call::Autocorrelation => {
                let psf: Vec<_> = handed.psf.iter().map(|&entry| i64::from(entry)).collect();
                let psf = if self.has(Fault::PsfTransposed) { transposed(&psf, handed.radius) } else { psf };
                handed.autocorrelation = narrow(autocorrelation(handed.radius, &psf));
            }
            Call::FilteredError => handed.table = narrow(Plate::new(handed, self.fault).filtered_error()),
            Call::SquaredError => handed.error = Plate::new(handed, self.fault).squared_error(),
            Call::ToneBalance => self.tone_balance(handed),
            Call::Start => self.start(handed),
            _ => self.later(call, handed),
        }
    }

    /// The tone balance: D parted by the number of cells.
    fn tone_balance(&self, handed: &mut Handed) {
        let free = || handed.gray.iter().filter(|&&gray| lock(gray, None).is_none()).count();
        let cells = match self.fault {
            Some(Fault::BalanceByWidth) => handed.width,
            Some(Fault::BalanceByHeight) => handed.height,
            Some(Fault::BalanceByFreeCells) => free(),
            _ => handed.cells(),
        };
        // no plate has 0 cells, but a mistake can come to that
        let (d, n) = (self.darker(handed), cells.max(1) as i64);
        let (quotient, remainder) = match (parted(d, n), self.fault) {
            ((_, remainder), Some(Fault::BalanceCut)) => (d / n, remainder),
            ((quotient, _), Some(Fault::BalanceRemainderOfSize)) => (quotient, d.abs() % n),
            ((quotient, 0), Some(Fault::BalanceRemainderN)) => (quotient - 1, n),
            (parts, _) => parts,
        };
        (handed.quotient, handed.remainder) = (quotient, usize::try_from(remainder).expect("0 or more"));
    }

    /// D, by how much a plate is darker than its ground: 255 * dots less the sum of gray.
    pub fn darker(&self, handed: &Handed) -> i64 {
        let sum = |bytes: &[u8]| bytes.iter().map(|&byte| i64::from(byte)).sum::<i64>();
        let d = 255 * sum(&handed.dots) - sum(&handed.gray);
        match self.fault {
            Some(Fault::BalanceReversed) => -d,
            Some(Fault::BalanceOfBlanks) => {
                let blanks = handed.dots.iter().filter(|&&dot| dot == 0).count();
                255 * blanks as i64 - sum(&handed.gray)
            }
            Some(Fault::BalanceOfFreeCells) => {
                let cells = handed.gray.iter().zip(&handed.dots).filter(|(&gray, _)| lock(gray, None).is_none());
                cells.map(|(&gray, &dot)| 255 * i64::from(dot) - i64::from(gray)).sum()
            }
            _ => d,
        }
    }

    /// A start writes dots, table and a fresh ledger with counts 0. Kind 0 leaves all blank that is not locked solid; with
    /// kind 1 the thresholds set locked cells as they have to be.
    fn start(&self, handed: &mut Handed) {
        let cells = (0..handed.cells()).map(|at| (at / handed.width, at % handed.width));
        match handed.start {
            0 => handed.dots = handed.gray.iter().map(|&gray| self.cleared(gray)).collect(),
            1 => {
                handed.dots = cells.zip(&handed.gray).map(|(cell, &gray)| u8::from(self.screened(cell, gray))).collect()
            }
            _ => {}
        }
        let plate = Plate::new(handed, self.fault);
        let error = plate.squared_error();
        handed.stats = vec![error, error, plate.dot_total(), 0, 0, 0];
        handed.table = narrow(plate.filtered_error());
    }

    /// What kind 0 makes of a cell.
    fn cleared(&self, gray: u8) -> u8 {
        lock(gray, self.fault).filter(|_| !self.has(Fault::InkStartsBlank)).unwrap_or(0)
    }

    /// A cell gets a dot exactly when 256 * gray > 255 * threshold.
    pub fn screened(&self, (row, col): Cell, gray: u8) -> bool {
        let (row, col) = if self.has(Fault::ThresholdTransposed) { (col, row) } else { (row, col) };
        let limit = 255 * threshold(row % 16, col % 16);
        256 * u32::from(gray) + u32::from(self.has(Fault::ThresholdReached)) > limit
    }

    /// An attempt, a scan or a settling, on from the counts handed.
    fn later(&self, call: Call, handed: &mut Handed) {
        let mut plate = Plate::new(handed, self.fault);
        (plate.on, plate.off, plate.swaps) =
            (handed.stats[STATS_ON], handed.stats[STATS_OFF], handed.stats[STATS_SWAPS]);
        match call {
            Call::TryToggle | Call::TrySwap => handed.change = self.attempt(&mut plate, &call.named(handed)),
            Call::ToggleScan => self.tell(call, plate.toggle_scan(), handed),
            Call::SwapScan => self.tell(call, plate.swap_scan(), handed),
            _ => handed.scans = plate.converge(),
        }
        handed.table = narrow(plate.filtered_error());
        let (error, dots) = (plate.squared_error(), handed.stats[STATS_START_DOTS]);
        handed.stats = vec![handed.stats[STATS_START_ERROR], error, dots, plate.on, plate.off, plate.swaps];
        handed.dots = plate.dots;
    }

    /// What a scan answers beside the ledger.
    fn tell(&self, call: Call, scan: Scan, handed: &mut Handed) {
        (handed.changes, handed.trials) = (scan.changes, scan.trials_told(call, self.fault));
    }

    fn attempt(&self, plate: &mut Plate, cells: &[Cell]) -> i64 {
        let change = plate.attempt(cells);
        if change == 0 && self.has(Fault::TiesAccepted) {
            plate.accept(cells);
        }
        change
    }
}

/// 22: swap attempt on equal dots.
fn equal_dots(handed: &Handed) -> bool {
    let plate = Plate::new(handed, None);
    plate.dot((handed.row, handed.col)) == plate.dot((handed.row2, handed.col2))
}

/// The slices that a call is lent save the measures, each with its length and its measure. Called when 1 and 2 are not
/// drawn; by a mistake 1 may be passed over, and then there may be more cells than can be counted.
fn lengths(call: Call, handed: &Handed) -> Vec<(usize, usize)> {
    let square = |side: usize| side * side;
    let psf = || (handed.psf.len(), square(2 * handed.radius + 1));
    let cells = handed.width.saturating_mul(handed.height);
    let (gray, dots) = (|| (handed.gray.len(), cells), || (handed.dots.len(), cells));
    let packed = || (handed.packed.len(), handed.height * row_bytes(handed.width));
    match call {
        Call::Autocorrelation => return vec![psf(), (handed.autocorrelation.len(), square(4 * handed.radius + 1))],
        Call::ToneBalance => return vec![gray(), dots()],
        Call::WritePbm => return vec![dots()],
        Call::WritePgm => return vec![gray()],
        Call::CountRows => return vec![packed(), (handed.counts.len(), handed.height)],
        _ => {}
    }
    let mut lengths = vec![psf(), gray(), dots()];
    if call.is_later() || matches!(call, Call::Start | Call::FilteredError) {
        lengths.push((handed.table.len(), cells));
    }
    if call.is_later() || call == Call::Start {
        lengths.push((handed.stats.len(), STATS));
    }
    lengths
}

pub fn narrow(values: Vec<i64>) -> Vec<i32> {
    values.into_iter().map(|value| i32::try_from(value).unwrap()).collect()
}
