//! The measurements: settlings, scans and single calls by each side in turn, medians of their times, and whether the
//! sides agree.

use crate::baseline::{self, Baseline, BASELINE};
use crate::input;
use crate::library::Library;
use crate::plate::{Job, Plate, Scan, Side};
use crate::report::Table;
use std::time::{Duration, Instant};

/// How large and how often.
pub struct Scale {
    pub side: usize,
    pub repetitions: usize,
    /// Calls timed together where one call is short.
    pub calls: usize,
}

/// A table of times, and how many of its rows ended alike on both sides.
pub struct Outcome {
    pub table: Table,
    pub alike: usize,
    pub unlike: usize,
}

impl Outcome {
    pub fn new(head: &[&str]) -> Outcome {
        Outcome { table: Table::new(head), alike: 0, unlike: 0 }
    }

    pub fn add(&mut self, mut row: Vec<String>, alike: bool) {
        row.push(if alike { "yes" } else { "NO" }.to_string());
        self.table.add(row);
        self.alike += usize::from(alike);
        self.unlike += usize::from(!alike);
    }
}

/// A settling with its start: the times of both, and how it ended.
struct Settled {
    start: Duration,
    settle: Duration,
    plate: Plate,
    scans: u64,
}

fn settle_once(side: &dyn Side, job: &Job) -> Settled {
    let mut plate = Plate::cleared(job.cells());
    let begun = Instant::now();
    side.start(job, &mut plate);
    let start = begun.elapsed();
    let scans = side.settle(job, &mut plate);
    let settle = begun.elapsed() - start;
    Settled { start, settle, plate, scans }
}

/// The median in milliseconds.
pub fn median<T>(runs: &[T], time: impl Fn(&T) -> Duration) -> f64 {
    let mut times: Vec<Duration> = runs.iter().map(time).collect();
    times.sort();
    times[times.len() / 2].as_secs_f64() * 1000.0
}

/// Settlings by the library (a), the baseline (b) and the baseline that asks first whether any partner will do (b2).
/// A figure with a dash is without the start.
pub fn settlings(scale: &Scale) -> Outcome {
    let head = ["settling", "scans", "a", "b", "a/b", "a'", "b'", "a'/b'", "b2'", "a'/b2'", "alike"];
    let mut outcome = Outcome::new(&head);
    let sides: [&dyn Side; 3] = [&Library, &BASELINE, &Baseline { any_first: true }];
    for (name, job) in jobs(scale.side) {
        let mut runs = [Vec::new(), Vec::new(), Vec::new()];
        for _ in 0..scale.repetitions {
            sides.iter().zip(&mut runs).for_each(|(side, runs)| runs.push(settle_once(*side, &job)));
        }
        let one = &runs[0][0];
        let alike = runs.iter().flatten().all(|run| run.plate == one.plate && run.scans == one.scans);
        let [a, b, _] = runs.each_ref().map(|runs| median(runs, |run| run.start + run.settle));
        let [a_alone, b_alone, b2_alone] = runs.each_ref().map(|runs| median(runs, |run| run.settle));
        let figures = [a, b, a / b, a_alone, b_alone, a_alone / b_alone, b2_alone, a_alone / b2_alone];
        let texts = figures.iter().map(|figure| format!("{figure:.2}"));
        outcome.add([name, one.scans.to_string()].into_iter().chain(texts).collect(), alike);
    }
    outcome
}

fn jobs(side: usize) -> Vec<(String, Job)> {
    let grays = [("ramp", input::noisy_ramp(side, side)), ("flat", input::flat(side, side))];
    let mut jobs = Vec::new();
    for (radius, reach) in [(3, 6), (3, 1), (1, 6)] {
        for (name, gray) in &grays {
            jobs.extend(jobs_of(name, side, (radius, reach), gray));
        }
    }
    jobs.extend(lettered_jobs(side));
    jobs
}

fn lettered_jobs(side: usize) -> Vec<(String, Job)> {
    let gray = input::lettered(side, side);
    [(3, 6), (3, 1)].iter().flat_map(|&sizes| jobs_of("lettered", side, sizes, &gray)).collect()
}

/// Jobs with radius and reach on this gray, of both kinds.
fn jobs_of(name: &str, side: usize, (radius, reach): (usize, usize), gray: &[u8]) -> [(String, Job); 2] {
    let named = |kind| format!("radius {radius}, reach {reach}, {name}, kind {kind}");
    [0, 1].map(|kind| (named(kind), job(side, radius, reach, kind, gray.to_vec())))
}

/// Settlings of the lettered relief by the library, without the start, beside those of its twin with no cell locked.
pub fn locks(scale: &Scale) -> Outcome {
    let mut outcome = Outcome::new(&["settling", "scans", "a'", "scans of t", "t'", "a'/t'", "alike"]);
    for (name, lettered) in lettered_jobs(scale.side) {
        let twin = Job { gray: input::unlocked(&lettered.gray), psf: lettered.psf.clone(), ..lettered };
        let mut runs = [Vec::new(), Vec::new()];
        for _ in 0..scale.repetitions {
            [&lettered, &twin].iter().zip(&mut runs).for_each(|(job, runs)| runs.push(settle_once(&Library, job)));
        }
        let same = [&lettered, &twin].map(|job| settle_once(&BASELINE, job));
        let alike = runs.iter().zip(&same).all(|(runs, same)| runs.iter().all(|run| run.plate == same.plate));
        let [a, t] = runs.each_ref().map(|runs| median(runs, |run| run.settle));
        let [a_scans, t_scans] = runs.each_ref().map(|runs| runs[0].scans.to_string());
        let [a, t, share] = [a, t, a / t].map(|figure| format!("{figure:.2}"));
        outcome.add(vec![name, a_scans, a, t_scans, t, share], alike);
    }
    outcome
}

/// A square job.
pub fn job(side: usize, radius: usize, reach: usize, kind: usize, gray: Vec<u8>) -> Job {
    Job { width: side, height: side, radius, reach, kind, psf: input::psf(radius), gray }
}

/// A way to make the k-th of the calls that are timed together. It answers what is to be compared.
type Call<'a, T> = &'a dyn Fn(&mut Plate, usize) -> T;

/// Calls timed together: the time of one, and how they ended.
struct Called<T> {
    time: Duration,
    plate: Plate,
    answers: Vec<T>,
}

fn call_often<T>(call: Call<T>, mut plate: Plate, calls: usize) -> Called<T> {
    let begun = Instant::now();
    let answers = (0..calls).map(|k| call(&mut plate, k)).collect();
    Called { time: begun.elapsed() / calls as u32, plate, answers }
}

/// Single calls on a plate of radius 3 by the library (a), by the baseline (b), and, for attempts, by the baseline after
/// it has judged table and stats (bj), as document 01 demands of a call.
pub fn single_calls(scale: &Scale) -> Outcome {
    let mut outcome = Outcome::new(&["call", "a", "b", "a/b", "bj", "a/bj", "alike"]);
    let job = job(scale.side, 3, 6, 0, input::flat(scale.side, scale.side));
    let mut settled = settle_once(&BASELINE, &job).plate;
    let mut blank = Plate::cleared(job.cells());
    BASELINE.start(&job, &mut blank);
    for (name, plate) in [("toggle, accepted", &blank), ("toggle, declined", &settled)] {
        let judging = |plate: &mut Plate, k| {
            assert!(baseline::judge(&job, plate), "a plate that was left right");
            toggle(&BASELINE, &job, plate, k)
        };
        let a = |plate: &mut Plate, k| toggle(&Library, &job, plate, k);
        let b = |plate: &mut Plate, k| toggle(&BASELINE, &job, plate, k);
        add_calls(&mut outcome, &[name], scale, plate, &[&a, &b, &judging]);
    }
    settled.table.fill(0);
    let a = |plate: &mut Plate, _| fill_table(&Library, &job, plate);
    let b = |plate: &mut Plate, _| fill_table(&BASELINE, &job, plate);
    add_calls(&mut outcome, &["table"], scale, &settled, &[&a, &b]);
    let a = |plate: &mut Plate, _| Library.squared_error(&job, plate);
    let b = |plate: &mut Plate, _| BASELINE.squared_error(&job, plate);
    add_calls(&mut outcome, &["squared error"], scale, &settled, &[&a, &b]);
    outcome
}

/// One scan of a settled plate of radius 3, which it leaves as it is, by the sides of `single_calls`; no more than four
/// are timed together. Without `with_trials` the trials are not compared: a library before 3.0.0 answers none.
pub fn scans(scale: &Scale, with_trials: bool) -> Outcome {
    let mut outcome = Outcome::new(&["scan", "trials", "a", "b", "a/b", "bj", "a/bj", "alike"]);
    let scale = &Scale { calls: scale.calls.min(4), ..*scale };
    let side = scale.side;
    for (relief, gray) in [("ramp", input::noisy_ramp(side, side)), ("lettered", input::lettered(side, side))] {
        for (kind, swaps, reach) in [("toggles", false, 6), ("swaps, reach 1", true, 1), ("swaps, reach 6", true, 6)] {
            let job = job(side, 3, reach, 0, gray.clone());
            let mut settled = settle_once(&BASELINE, &job).plate;
            let trials = scan(&BASELINE, &job, &mut settled, swaps).trials.to_string();
            let compared = |scan: Scan| Scan { trials: if with_trials { scan.trials } else { 0 }, ..scan };
            let judging = |plate: &mut Plate, _| {
                assert!(baseline::judge(&job, plate), "a plate that was left right");
                compared(scan(&BASELINE, &job, plate, swaps))
            };
            let a = |plate: &mut Plate, _| compared(scan(&Library, &job, plate, swaps));
            let b = |plate: &mut Plate, _| compared(scan(&BASELINE, &job, plate, swaps));
            let name = format!("{kind}, {relief}");
            add_calls(&mut outcome, &[&name, &trials], scale, &settled, &[&a, &b, &judging]);
        }
    }
    outcome
}

/// A scan of either kind.
pub fn scan(side: &dyn Side, job: &Job, plate: &mut Plate, swaps: bool) -> Scan {
    if swaps {
        side.swap_scan(job, plate)
    } else {
        side.toggle_scan(job, plate)
    }
}

/// An attempt at the k-th of cells that stand too far apart for one to bear on another.
fn toggle(side: &dyn Side, job: &Job, plate: &mut Plate, k: usize) -> i64 {
    let in_row = job.width / 16;
    side.try_toggle(job, plate, k / in_row * 16, k % in_row * 16)
}

/// The plate shows what the call did; there is no figure.
fn fill_table(side: &dyn Side, job: &Job, plate: &mut Plate) -> i64 {
    side.table(job, plate);
    0
}

/// A row for one call made in each of these ways, the library's first; its first cells are given.
fn add_calls<T: PartialEq>(outcome: &mut Outcome, cells: &[&str], scale: &Scale, plate: &Plate, ways: &[Call<T>]) {
    let mut runs: Vec<Vec<Called<T>>> = ways.iter().map(|_| Vec::new()).collect();
    for _ in 0..scale.repetitions {
        ways.iter().zip(&mut runs).for_each(|(call, runs)| runs.push(call_often(call, plate.clone(), scale.calls)));
    }
    let one = &runs[0][0];
    let alike = runs.iter().flatten().all(|run| run.plate == one.plate && run.answers == one.answers);
    let times: Vec<f64> = runs.iter().map(|runs| 1000.0 * median(runs, |run| run.time)).collect();
    let mut row: Vec<String> = cells.iter().map(|text| text.to_string()).collect();
    row.push(format!("{:.1}", times[0]));
    for time in &times[1..] {
        row.extend([format!("{time:.1}"), format!("{:.2}", times[0] / time)]);
    }
    row.resize(cells.len() + 5, "-".to_string());
    outcome.add(row, alike);
}
