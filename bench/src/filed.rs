//! The check of a filed sheet (a) against what one did before there was one (b), both by the library: the sheet without
//! its two lines is read, started and settled again, and the figures are compared.

use crate::input;
use crate::library::Library;
use crate::measure::{job, median, Outcome, Scale};
use crate::plate::{Job, Plate, Side, STATS_ERROR};
use platemaker::{Measures, MAX_PSF, MAX_SHEET, MEASURES};
use platemaker::{VERDICT, VERDICT_AGREES, VERDICT_FITS, VERDICT_RESTS, VERDICT_SQUARED};
use std::time::{Duration, Instant};

/// A settled plate as text: the sheet, and all of it with its two lines.
struct Filed {
    sheet: Vec<u8>,
    whole: Vec<u8>,
    job: Job,
    error: i64,
}

fn file(job: Job) -> Filed {
    let mut plate = Plate::cleared(job.cells());
    Library.start(&job, &mut plate);
    let scans = Library.settle(&job, &mut plate);
    let Job { width, height, radius, reach, .. } = job;
    let measures = Measures { width, height, radius, reach, start: 2 }.numbers();
    let (mut sheet, mut length, mut offset) = (vec![0; MAX_SHEET], 0, 0);
    let (psf, gray) = (&job.psf, &job.gray);
    let status = platemaker::write_sheet(&measures, psf, gray, &plate.dots, &mut sheet, &mut length, &mut offset);
    assert!(status == 0, "write_sheet refused with {status}");
    sheet.truncate(length);
    let [before, error, _, on, off, swaps] = plate.stats;
    let lines = format!("before after on off swaps scans\n{before} {error} {on} {off} {swaps} {scans}\n");
    let whole = [&sheet[..], lines.as_bytes()].concat();
    Filed { sheet, whole, job, error }
}

/// Whether the figure is that of the dots, and the dots are at rest; and how long that took.
fn check(filed: &Filed) -> (bool, Duration) {
    let cells = filed.job.cells();
    let (mut psf, mut gray, mut dots, mut table) = ([0; MAX_PSF], vec![0; cells], vec![0; cells], vec![0; cells]);
    let (mut verdict, mut offset) = ([0; VERDICT], 0);
    let begun = Instant::now();
    let status =
        platemaker::check_filed(&filed.whole, &mut psf, &mut gray, &mut dots, &mut table, &mut verdict, &mut offset);
    let time = begun.elapsed();
    let good = verdict[VERDICT_SQUARED] == filed.error
        && [VERDICT_AGREES, VERDICT_FITS, VERDICT_RESTS].iter().all(|&place| verdict[place] == 1);
    (status == 0 && good, time)
}

/// The same by hand.
fn settle_again(filed: &Filed) -> (bool, Duration) {
    let cells = filed.job.cells();
    let (mut psf, mut gray) = (vec![0; filed.job.psf.len()], vec![0; cells]);
    let mut plate = Plate::cleared(cells);
    let (mut measures, mut offset) = ([0; MEASURES], 0);
    let begun = Instant::now();
    let status = platemaker::read_sheet(&filed.sheet, &mut psf, &mut gray, &mut plate.dots, &mut measures, &mut offset);
    let [width, height, radius, reach, kind] = measures;
    let job = Job { width, height, radius, reach, kind, psf, gray };
    Library.start(&job, &mut plate);
    let same = plate.stats[STATS_ERROR] == filed.error;
    let scans = Library.settle(&job, &mut plate);
    (status == 0 && same && scans == 2, begun.elapsed())
}

/// A row for each reach.
pub fn checks(scale: &Scale) -> Outcome {
    let mut outcome = Outcome::new(&["filed sheet", "bytes", "a", "b", "a/b", "alike"]);
    for reach in [1, 6] {
        let filed = file(job(scale.side, 3, reach, 1, input::noisy_ramp(scale.side, scale.side)));
        let (mut a, mut b) = (Vec::new(), Vec::new());
        for _ in 0..scale.repetitions {
            a.push(check(&filed));
            b.push(settle_again(&filed));
        }
        let alike = a.iter().chain(&b).all(|run| run.0);
        let [a, b] = [&a, &b].map(|runs| median(runs, |run| run.1));
        let figures = [a, b, a / b].map(|figure| format!("{figure:.2}"));
        let name = format!("radius 3, reach {reach}, ramp, settled");
        outcome.add([name, filed.whole.len().to_string()].into_iter().chain(figures).collect(), alike);
    }
    outcome
}
