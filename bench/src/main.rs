//! Measures the library and the baseline in one run, and tests that both end with the same plates.
//!
//!     bench [--quick] [--markdown] [--no-trials]
//!     bench --count library|baseline|any-first KIND RELIEF    one small settling, for a tool that counts instructions
//!     bench --count library|baseline toggles|swaps REACH      one scan of a small settled ramp, likewise
//!
//! With `--no-trials` the trials of scans are not compared: a library before 3.0.0 answers none.

mod baseline;
mod filed;
mod input;
mod library;
mod measure;
mod plate;
mod report;

use baseline::{Baseline, BASELINE};
use filed::checks;
use library::Library;
use measure::{job, locks, scan, scans, settlings, single_calls, Scale};
use plate::{Plate, Side};
use std::env;
use std::process::ExitCode;

fn main() -> ExitCode {
    let words: Vec<String> = env::args().skip(1).collect();
    let words: Vec<&str> = words.iter().map(String::as_str).collect();
    match words[..] {
        ["--count", "library", scan @ ("toggles" | "swaps"), reach] => count_scan(&Library, scan, reach),
        ["--count", "baseline", scan @ ("toggles" | "swaps"), reach] => count_scan(&BASELINE, scan, reach),
        ["--count", "library", kind, relief] => count(&Library, kind, relief),
        ["--count", "any-first", kind, relief] => count(&Baseline { any_first: true }, kind, relief),
        ["--count", "baseline", kind, relief] => count(&BASELINE, kind, relief),
        _ if words.iter().all(|word| ["--quick", "--markdown", "--no-trials"].contains(word)) => compare(&words),
        _ => usage(),
    }
}

fn usage() -> ExitCode {
    eprintln!("usage: bench [--quick] [--markdown] [--no-trials]");
    eprintln!("       bench --count library|baseline|any-first KIND ramp|lettered|unlocked");
    eprintln!("       bench --count library|baseline toggles|swaps REACH");
    ExitCode::from(2)
}

/// One small settling by one side.
fn count(side: &dyn Side, kind: &str, relief: &str) -> ExitCode {
    let gray = match relief {
        "ramp" => input::noisy_ramp(64, 64),
        "lettered" => input::lettered(64, 64),
        "unlocked" => input::unlocked(&input::lettered(64, 64)),
        _ => return usage(),
    };
    let Ok(kind) = kind.parse() else {
        return usage();
    };
    let job = job(64, 3, 6, kind, gray);
    let mut plate = Plate::cleared(job.cells());
    side.start(&job, &mut plate);
    println!("{} scans", side.settle(&job, &mut plate));
    ExitCode::SUCCESS
}

/// One scan by one side, of a small plate that the baseline has settled.
fn count_scan(side: &dyn Side, kind: &str, reach: &str) -> ExitCode {
    let Ok(reach) = reach.parse() else {
        return usage();
    };
    let job = job(64, 3, reach, 0, input::noisy_ramp(64, 64));
    let mut plate = Plate::cleared(job.cells());
    BASELINE.start(&job, &mut plate);
    BASELINE.settle(&job, &mut plate);
    let scan = scan(side, &job, &mut plate, kind == "swaps");
    println!("{} changes, {} trials", scan.changes, scan.trials);
    ExitCode::SUCCESS
}

fn compare(words: &[&str]) -> ExitCode {
    let quick = words.contains(&"--quick");
    let scale = if quick {
        Scale { side: 64, repetitions: 1, calls: 4 }
    } else {
        Scale { side: 256, repetitions: 5, calls: 32 }
    };
    let (settled, locked) = (settlings(&scale), locks(&scale));
    let (scanned, called) = (scans(&scale, !words.contains(&"--no-trials")), single_calls(&scale));
    let checked = checks(&scale);
    let side = scale.side;
    println!("{side} by {side}, median of {}; a: the library, b: the baseline\n", scale.repetitions);
    println!(
        "Start and settling in ms, with ' the settling alone; b2: b that asks first whether any partner will do\n"
    );
    settled.table.print(words.contains(&"--markdown"));
    println!(
        "The settling alone in ms, by the library; a': of the lettered relief, t': of the same with no cell locked\n"
    );
    locked.table.print(words.contains(&"--markdown"));
    println!("One scan of a settled plate in us, radius 3; bj: b that judges table and stats first\n");
    scanned.table.print(words.contains(&"--markdown"));
    println!("One call in us, radius 3; bj: b that judges table and stats first\n");
    called.table.print(words.contains(&"--markdown"));
    println!("A filed sheet in ms; a: its check, b: it is read, started and settled again, by the library\n");
    checked.table.print(words.contains(&"--markdown"));
    let all = [settled, locked, scanned, called, checked];
    let (alike, unlike) = all.iter().fold((0, 0), |sum, one| (sum.0 + one.alike, sum.1 + one.unlike));
    println!("{alike} passed, {unlike} failed");
    ExitCode::from(u8::from(unlike > 0))
}
