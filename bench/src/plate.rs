//! What both sides work on: a job (measures, psf, gray), a plate (dots, table, stats), and the calls that are measured.

pub use platemaker::{STATS, STATS_ERROR, STATS_OFF, STATS_ON, STATS_START_DOTS, STATS_SWAPS};

/// The ledger, in the order of the C interface; the first is the squared error at the start.
pub type Stats = [i64; STATS];

pub struct Job {
    pub width: usize,
    pub height: usize,
    pub radius: usize,
    pub reach: usize,
    pub kind: usize,
    pub psf: Vec<u8>,
    pub gray: Vec<u8>,
}

impl Job {
    pub fn cells(&self) -> usize {
        self.width * self.height
    }
}

/// Paper and ink are never touched (request C-12).
pub fn is_locked(gray: u8) -> bool {
    matches!(gray, 0 | 255)
}

#[derive(Clone, PartialEq)]
pub struct Plate {
    pub dots: Vec<u8>,
    pub table: Vec<i32>,
    pub stats: Stats,
}

impl Plate {
    /// Buffers of the right lengths, cleared.
    pub fn cleared(cells: usize) -> Plate {
        Plate { dots: vec![0; cells], table: vec![0; cells], stats: [0; STATS] }
    }
}

/// What a scan answers: the changes that it accepted, and how many it tried (request C-14).
#[derive(Clone, Copy, Default, PartialEq)]
pub struct Scan {
    pub changes: u64,
    pub trials: u64,
}

/// The calls that are measured, as one side makes them.
pub trait Side {
    /// Fills dots (with kind 2 they are read), table and stats.
    fn start(&self, job: &Job, plate: &mut Plate);
    /// Answers the number of scans.
    fn settle(&self, job: &Job, plate: &mut Plate) -> u64;
    fn toggle_scan(&self, job: &Job, plate: &mut Plate) -> Scan;
    fn swap_scan(&self, job: &Job, plate: &mut Plate) -> Scan;
    /// Answers what the toggle adds to the squared error; below 0 it was made.
    fn try_toggle(&self, job: &Job, plate: &mut Plate, row: usize, col: usize) -> i64;
    /// Works the table out afresh, into the plate.
    fn table(&self, job: &Job, plate: &mut Plate);
    /// Works the squared error out afresh.
    fn squared_error(&self, job: &Job, plate: &Plate) -> i64;
}
