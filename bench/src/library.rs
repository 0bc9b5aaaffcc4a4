//! The library's side: its functions (bindings/) behind the calls that are measured. Nothing that is measured may be
//! refused.

use crate::plate::{Job, Plate, Scan, Side};
use platemaker::{Measures, MEASURES};

pub struct Library;

fn measures(job: &Job) -> [usize; MEASURES] {
    let &Job { width, height, radius, reach, kind, .. } = job;
    Measures { width, height, radius, reach, start: kind }.numbers()
}

fn expect_done(name: &str, status: u32) {
    assert!(status == 0, "{name} refused with {status}");
}

impl Side for Library {
    fn start(&self, job: &Job, plate: &mut Plate) {
        let Plate { dots, table, stats } = plate;
        expect_done("start", platemaker::start(&measures(job), &job.psf, &job.gray, dots, table, stats));
    }

    fn settle(&self, job: &Job, plate: &mut Plate) -> u64 {
        let Plate { dots, table, stats } = plate;
        let mut scans = 0;
        let status = platemaker::converge(&measures(job), &job.psf, &job.gray, dots, table, stats, &mut scans);
        expect_done("converge", status);
        scans
    }

    fn toggle_scan(&self, job: &Job, plate: &mut Plate) -> Scan {
        let Plate { dots, table, stats } = plate;
        let (m, mut scan) = (measures(job), Scan::default());
        let Scan { changes, trials } = &mut scan;
        let status = platemaker::toggle_scan(&m, &job.psf, &job.gray, dots, table, stats, changes, trials);
        expect_done("toggle_scan", status);
        scan
    }

    fn swap_scan(&self, job: &Job, plate: &mut Plate) -> Scan {
        let Plate { dots, table, stats } = plate;
        let (m, mut scan) = (measures(job), Scan::default());
        let Scan { changes, trials } = &mut scan;
        let status = platemaker::swap_scan(&m, &job.psf, &job.gray, dots, table, stats, changes, trials);
        expect_done("swap_scan", status);
        scan
    }

    fn try_toggle(&self, job: &Job, plate: &mut Plate, row: usize, col: usize) -> i64 {
        let Plate { dots, table, stats } = plate;
        let (m, mut change) = (measures(job), 0);
        let status = platemaker::try_toggle(&m, &job.psf, &job.gray, dots, table, stats, row, col, &mut change);
        expect_done("try_toggle", status);
        change
    }

    fn table(&self, job: &Job, plate: &mut Plate) {
        let Job { width, height, radius, psf, gray, .. } = job;
        let status = platemaker::filtered_error(*width, *height, *radius, psf, gray, &plate.dots, &mut plate.table);
        expect_done("filtered_error", status);
    }

    fn squared_error(&self, job: &Job, plate: &Plate) -> i64 {
        let Job { width, height, radius, psf, gray, .. } = job;
        let mut error = 0;
        let status = platemaker::squared_error(*width, *height, *radius, psf, gray, &plate.dots, &mut error);
        expect_done("squared_error", status);
        error
    }
}
