//! The baseline's scans and settling. While it runs, table and dots stand in one array with a margin round the plate, one
//! key a cell: T at a blank, T + 2^30 at a dot, T + 2^29 at a locked cell and in the margin, T there being what the window
//! updates leave. |T| is below 2^28, so one comparison of keys tells whether a partner is on the plate, is not locked, has
//! the other dot and lowers E; and none is enough for the toggle of a locked cell.

use super::sums::autocorrelation;
use crate::plate::{is_locked, Job, Plate, Scan, Stats, STATS_ERROR, STATS_OFF, STATS_ON, STATS_SWAPS};

/// What is added to T: at a dot, and at a locked cell and in the margin. Keys of the latter are from `LIMIT` to `END`.
const DOT: i32 = 1 << 30;
const EDGE: i32 = 1 << 29;
const LIMIT: i32 = EDGE - (1 << 28);
const END: i32 = EDGE + (1 << 28);

/// A worth that no swap makes up for.
const FAR: i32 = 1 << 29;

/// As far as a partner or a window goes at most. On the right there are 4 more, so that a row has 16 at least.
const MARGIN: usize = 6;

/// Keys that hold all partners of a cell: 2 × 6 + 1 rows of 256 + 16 at most, up to a power of two, so that an
/// index needs no test.
const NEAR: usize = 4096;

/// A cell that may be swapped with: how far it stands in the keys, counted from the first within reach, and
/// 255 × (P − c) of its offset.
#[derive(Clone, Copy)]
struct Partner {
    at: u32,
    worth: i32,
}

/// A plate being searched. A row of a window has 4r+1 numbers and 3 zeros, `LANES` together. With `ANY_FIRST`, a pass
/// without branches asks at each cell whether any partner lowers E, before they are gone through in order. A scan that
/// `COUNTS` its trials goes through them in any case.
struct Search<const LANES: usize, const ANY_FIRST: bool> {
    width: usize,
    height: usize,
    stride: usize,
    keys: Vec<i32>,
    /// The rows of 255 × c, to be added where a dot is set, and of −255 × c.
    windows: [Vec<[i32; LANES]>; 2],
    /// How far the first cell of a window and the first within reach stand before the middle.
    window_back: usize,
    reach_back: usize,
    partners: Vec<Partner>,
    /// The worths again, by their place: rows from the first within reach, filled up to 16 with `FAR`.
    worths: Vec<[i32; 16]>,
    peak: i32,
    stats: Stats,
}

/// Searches a plate by a method of `Search`, whatever its radius.
macro_rules! searched {
    ($job:ident, $plate:ident, $any_first:tt, $method:expr) => {
        match $job.radius {
            0 => Search::<4, $any_first>::searched($job, $plate, $method),
            1 => Search::<8, $any_first>::searched($job, $plate, $method),
            2 => Search::<12, $any_first>::searched($job, $plate, $method),
            _ => Search::<16, $any_first>::searched($job, $plate, $method),
        }
    };
}

/// Settles a plate and answers the number of scans. Never inlined, like the next two: the instructions of each are
/// counted by its name.
#[inline(never)]
pub fn settle<const ANY_FIRST: bool>(job: &Job, plate: &mut Plate) -> u64 {
    searched!(job, plate, ANY_FIRST, Search::run)
}

/// One toggle scan, with its trials.
#[inline(never)]
pub fn toggle_scan(job: &Job, plate: &mut Plate) -> Scan {
    searched!(job, plate, false, Search::toggle_scan::<true>)
}

/// One swap scan, with its trials.
#[inline(never)]
pub fn swap_scan(job: &Job, plate: &mut Plate) -> Scan {
    searched!(job, plate, false, Search::swap_scan::<true>)
}

impl<const LANES: usize, const ANY_FIRST: bool> Search<LANES, ANY_FIRST> {
    /// Loads the plate, searches it and stores what is left.
    fn searched<T>(job: &Job, plate: &mut Plate, by: impl FnOnce(&mut Self) -> T) -> T {
        let mut search = Self::load(job, plate);
        let answer = by(&mut search);
        search.store(plate);
        answer
    }

    fn load(job: &Job, plate: &Plate) -> Self {
        let stride = job.width + 16;
        let c = autocorrelation(job.radius, &job.psf);
        let partners = partners(job, &c, stride);
        let mut search = Search {
            width: job.width,
            height: job.height,
            stride,
            keys: vec![EDGE; stride * (job.height + 2 * MARGIN) + NEAR],
            windows: [window(job.radius, &c, 255), window(job.radius, &c, -255)],
            window_back: 2 * job.radius * (stride + 1),
            reach_back: job.reach * (stride + 1),
            worths: worths(job.reach, stride, &partners),
            partners,
            peak: c[c.len() / 2],
            stats: plate.stats,
        };
        for row in 0..job.height {
            let cells = row * job.width..(row + 1) * job.width;
            let filled = plate.table[cells.clone()].iter().zip(&plate.dots[cells.clone()]).zip(&job.gray[cells]);
            for (key, ((&t, &dot), &gray)) in search.row_mut(row).iter_mut().zip(filled) {
                *key = t + if is_locked(gray) { EDGE } else { DOT * i32::from(dot) };
            }
        }
        search
    }

    fn store(mut self, plate: &mut Plate) {
        for row in 0..self.height {
            let cells = row * self.width..(row + 1) * self.width;
            let filled = plate.table[cells.clone()].iter_mut().zip(&mut plate.dots[cells]);
            for (&mut key, (t, dot)) in self.row_mut(row).iter_mut().zip(filled) {
                (*t, *dot) = match key {
                    ..LIMIT => (key, 0),
                    END.. => (key - DOT, 1),
                    _ => (key - EDGE, *dot),
                };
            }
        }
        plate.stats = self.stats;
    }

    /// Where the cells of a row begin in the keys.
    fn row_start(&self, row: usize) -> usize {
        (row + MARGIN) * self.stride + MARGIN
    }

    fn row_mut(&mut self, row: usize) -> &mut [i32] {
        let start = self.row_start(row);
        &mut self.keys[start..start + self.width]
    }

    fn run(&mut self) -> u64 {
        let mut scans = 0;
        loop {
            scans += 1;
            if self.toggle_scan::<false>().changes == 0 {
                scans += 1;
                if self.swap_scan::<false>().changes == 0 {
                    return scans;
                }
            }
        }
    }

    /// The trials are the cells that are not locked.
    fn toggle_scan<const COUNTS: bool>(&mut self) -> Scan {
        let half = 255 * self.peak / 2;
        let mut scan = Scan::default();
        for row in 0..self.height {
            let start = self.row_start(row);
            for m in start..start + self.width {
                let key = self.keys[m];
                if COUNTS {
                    scan.trials += u64::from(!(LIMIT..=END).contains(&key));
                }
                if key < -half || key > DOT + half {
                    self.toggle(m, key);
                    scan.changes += 1;
                }
            }
        }
        scan
    }

    fn swap_scan<const COUNTS: bool>(&mut self) -> Scan {
        let mut scan = Scan::default();
        for row in 0..self.height {
            let start = self.row_start(row);
            for m in start..start + self.width {
                let (found, trials) = self.first_partner::<COUNTS>(m);
                scan.trials += trials;
                if let Some(partner) = found {
                    self.swap(m, partner);
                    scan.changes += 1;
                }
            }
        }
        scan
    }

    /// The first partner of m that lowers the squared error, and the trials up to it where these are counted.
    fn first_partner<const COUNTS: bool>(&self, m: usize) -> (Option<Partner>, u64) {
        let key = self.keys[m];
        let near: &[i32; NEAR] = self.keys[m - self.reach_back..][..NEAR].try_into().expect("that many");
        let key_of = |p: &Partner| near[p.at as usize % NEAR];
        if key > END {
            let limit = key - DOT;
            if ANY_FIRST && !COUNTS && !self.any(near, |key, worth| key < limit - worth) {
                return (None, 0);
            }
            first::<COUNTS>(&self.partners, |p| key_of(p) < LIMIT, |p| key_of(p) < limit - p.worth)
        } else if key > LIMIT {
            (None, 0)
        } else {
            let limit = key + DOT;
            if ANY_FIRST && !COUNTS && !self.any(near, |key, worth| key > limit + worth) {
                return (None, 0);
            }
            first::<COUNTS>(&self.partners, |p| key_of(p) > END, |p| key_of(p) > limit + p.worth)
        }
    }

    /// Whether any key within reach lowers the squared error.
    fn any(&self, near: &[i32; NEAR], lowers: impl Fn(i32, i32) -> bool) -> bool {
        let mut found = [0; 16];
        for (keys, worths) in near.chunks(self.stride).zip(&self.worths) {
            for ((found, &key), &worth) in found.iter_mut().zip(&keys[..16]).zip(worths) {
                *found |= i32::from(lowers(key, worth));
            }
        }
        found != [0; 16]
    }

    fn toggle(&mut self, m: usize, key: i32) {
        let (t, count) = if is_dot(key) { (DOT - key, STATS_OFF) } else { (key, STATS_ON) };
        self.stats[STATS_ERROR] += 255 * (2 * i64::from(t) + 255 * i64::from(self.peak));
        self.stats[count] += 1;
        self.turn(m);
    }

    fn swap(&mut self, m: usize, partner: Partner) {
        let n = m - self.reach_back + partner.at as usize;
        let (blank, dot) = if is_dot(self.keys[m]) { (n, m) } else { (m, n) };
        let gain = i64::from(self.keys[blank]) - i64::from(self.keys[dot] - DOT);
        self.stats[STATS_ERROR] += 510 * (gain + i64::from(partner.worth));
        self.stats[STATS_SWAPS] += 1;
        self.turn(m);
        self.turn(n);
    }

    /// Turns the dot of a cell and updates its window.
    fn turn(&mut self, m: usize) {
        let dot = is_dot(self.keys[m]);
        self.keys[m] += if dot { -DOT } else { DOT };
        let keys = self.keys[m - self.window_back..].chunks_mut(self.stride);
        for (keys, row) in keys.zip(&self.windows[usize::from(dot)]) {
            for (key, c) in keys[..LANES].iter_mut().zip(row) {
                *key += c;
            }
        }
    }
}

/// Of a cell that is not locked.
fn is_dot(key: i32) -> bool {
    key > EDGE
}

/// The first partner that lowers the squared error, and, with `COUNTS`, how many are unlike up to and with it, or in
/// all where none lowers it. At any reach the number of partners is a multiple of 8.
fn first<const COUNTS: bool>(
    partners: &[Partner],
    unlike: impl Fn(&Partner) -> bool,
    lowers: impl Fn(&Partner) -> bool,
) -> (Option<Partner>, u64) {
    let mut trials = 0;
    let mut tried = |p: &Partner| {
        if COUNTS {
            trials += u64::from(unlike(p));
        }
        lowers(p)
    };
    for eight in partners.chunks_exact(8) {
        let eight: &[Partner; 8] = eight.try_into().expect("a chunk of 8");
        if let Some(partner) = eight.iter().find(|p| tried(p)) {
            return (Some(*partner), trials);
        }
    }
    (None, trials)
}

/// The rows of `factor` × c, each filled up with zeros.
fn window<const LANES: usize>(radius: usize, c: &[i32], factor: i32) -> Vec<[i32; LANES]> {
    let row = |c: &[i32]| std::array::from_fn(|k| c.get(k).map_or(0, |c| factor * c));
    c.chunks_exact(4 * radius + 1).map(row).collect()
}

/// The partners within reach in document 01's order.
fn partners(job: &Job, c: &[i32], stride: usize) -> Vec<Partner> {
    let reach = job.reach as i32;
    let across = |down| (-reach..=reach).map(move |right| (down, right));
    let mut offsets: Vec<(i32, i32)> = (-reach..=reach).flat_map(across).filter(|&d| d != (0, 0)).collect();
    offsets.sort_by_key(|&(down, right)| (-(down * down + right * right), down, right));
    let at = |(down, right)| (down + reach) as usize * stride + (right + reach) as usize;
    let worth = |d| 255 * (c[c.len() / 2] - entry(job.radius, c, d));
    offsets.into_iter().map(|d| Partner { at: at(d) as u32, worth: worth(d) }).collect()
}

fn worths(reach: usize, stride: usize, partners: &[Partner]) -> Vec<[i32; 16]> {
    let mut rows = vec![[FAR; 16]; 2 * reach + 1];
    for p in partners {
        rows[p.at as usize / stride][p.at as usize % stride] = p.worth;
    }
    rows
}

/// c at an offset, 0 past 2r.
fn entry(radius: usize, c: &[i32], (down, right): (i32, i32)) -> i32 {
    let far = 2 * radius as i32;
    if down.abs().max(right.abs()) > far {
        return 0;
    }
    c[((down + far) * (2 * far + 1) + right + far) as usize]
}
