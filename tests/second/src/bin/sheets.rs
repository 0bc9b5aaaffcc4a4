//! Runs the program `settle` on generated sheets, good and damaged, and holds all that it prints against the second
//! implementation. What it prints of these, and of the sheets NAME.sheet of the folders given, is handed to the
//! library's check, by which it has to agree, to fit and to rest.
//!
//!     sheets PATH_OF_SETTLE FOLDER...    the last line is 'N passed, M failed'
//!     sheets --print                     prints what `settle` has to print for standard input
//!
//! PLATEMAKER_SEED=N repeats the run of a seed.

use second::generate::{self, Random};
use second::handed::{Call, Handed, VERDICT, VERDICT_AGREES, VERDICT_FITS, VERDICT_RESTS};
use second::library;
use second::plain::Second;
use second::sheet::{self, PROGRAM_BYTES, PROGRAM_CELLS};
use std::collections::BTreeMap;
use std::fs;
use std::io::{self, ErrorKind, Read, Write};
use std::process::{Command, ExitCode, Stdio};
use std::thread::sleep;
use std::time::Duration;

/// What the program prints for an input that comes in two pieces. It stops reading where the input is too long.
fn printed(settle: &str, pieces: (&[u8], &[u8])) -> Vec<u8> {
    let started = Command::new(settle).stdin(Stdio::piped()).stdout(Stdio::piped()).spawn();
    let mut process = started.unwrap_or_else(|error| panic!("{settle}: {error}"));
    let mut input = process.stdin.take().unwrap();
    let written = input.write_all(pieces.0).and_then(|()| {
        sleep(Duration::from_millis(1));
        input.write_all(pieces.1)
    });
    drop(input);
    assert!(written.is_ok() || written.is_err_and(|error| error.kind() == ErrorKind::BrokenPipe));
    process.wait_with_output().unwrap().stdout
}

/// A sheet of a random plate of this size.
fn sheet_of(random: &mut Random, size: (usize, usize)) -> Vec<u8> {
    let handed = generate::handed(random, size);
    sheet::text(&handed, handed.start)
}

/// A sheet of a plate of this size with a psf of radius 1 and reach 1, which settles soon.
fn quick_sheet(random: &mut Random, size: (usize, usize)) -> Vec<u8> {
    let handed = generate::handed(random, size);
    let quick = Handed { radius: 1, reach: 1, psf: generate::psf(random, 1), ..handed };
    sheet::text(&quick, quick.start)
}

/// All inputs: good sheets, damaged ones, dots that contradict a locked cell where they are given, the limits of 4,096
/// cells and 32,768 bytes, psf sums that a start refuses.
fn inputs(random: &mut Random) -> Vec<Vec<u8>> {
    let mut inputs = Vec::new();
    for _ in 0..400 {
        let size = generate::size(random);
        inputs.push(sheet_of(random, size));
    }
    for _ in 0..400 {
        let size = (random.within(1, 5), random.within(1, 5));
        let mut sheet = sheet_of(random, size);
        (0..random.within(1, 2)).for_each(|_| generate::damage_sheet(random, &mut sheet));
        inputs.push(sheet);
    }
    for _ in 0..40 {
        let mut handed = generate::handed(random, (3, 2));
        generate::contradict(random, &mut handed);
        inputs.push(sheet::text(&handed, handed.start));
    }
    for size in [(64, 64), (16, 256), (256, 16), (17, 241), (241, 17), (128, 33), (256, 256)] {
        inputs.push(quick_sheet(random, size));
    }
    for length in [PROGRAM_BYTES - 1, PROGRAM_BYTES, PROGRAM_BYTES + 1, 200_000] {
        let mut sheet = sheet_of(random, (2, 2));
        sheet.resize(length, b'0');
        inputs.push(sheet);
        inputs.push(vec![b'w'; length]);
        inputs.push([&b"width height radius reach start\n"[..], &vec![b'1'; length - 32]].concat());
    }
    for sum in ["0 0 0\n0 0 0\n0 0 0\n", "255 255 255\n255 4 0\n0 0 0\n", "255 255 255\n255 4 0\n0 0 1\n"] {
        inputs.push(format!("width height radius reach start\n1 1 1 0 0\npsf\n{sum}gray\n9\n").into_bytes());
    }
    inputs
}

/// What an output begins with: the refusal number, or nothing for a sheet.
fn kind(printed: &[u8]) -> String {
    let words = String::from_utf8_lossy(printed);
    let mut words = words.split_ascii_whitespace();
    match words.next() {
        Some("refused") => format!("refused {}", words.next().unwrap()),
        _ => "settled".to_string(),
    }
}

/// Prints what `settle` has to print for standard input.
fn print() -> io::Result<()> {
    let mut input = Vec::new();
    io::stdin().read_to_end(&mut input)?;
    io::stdout().write_all(&Second::default().settle(&input))
}

/// Whether what the program printed agrees, fits and rests by the library's check, which also leaves what the second
/// implementation leaves.
fn is_good(printed: &[u8]) -> bool {
    let mut handed = Handed {
        bytes: printed.to_vec(),
        psf: vec![9; 49],
        gray: vec![9; PROGRAM_CELLS],
        dots: vec![9; PROGRAM_CELLS],
        table: vec![9; PROGRAM_CELLS],
        verdict: vec![9; VERDICT],
        ..Handed::default()
    };
    let mut wanted = handed.clone();
    let number = Second::default().call(Call::CheckFiled, &mut wanted);
    let (answer, guards) = library::call(Call::CheckFiled, &mut handed);
    let good = [VERDICT_AGREES, VERDICT_FITS, VERDICT_RESTS].iter().all(|&at| handed.verdict[at] == 1);
    (answer, number) == (0, 0) && handed == wanted && guards && good
}

/// The sheets of a folder.
fn stored(folder: &String) -> Vec<Vec<u8>> {
    let entries = fs::read_dir(folder).unwrap_or_else(|error| panic!("{folder}: {error}"));
    let paths = entries.map(|entry| entry.expect("an entry of the folder").path());
    let sheets = paths.filter(|path| path.extension().is_some_and(|end| end == "sheet"));
    sheets.map(|path| fs::read(path).expect("a sheet that can be read")).collect()
}

fn compare(settle: &str, folders: &[String]) -> ExitCode {
    let seed = generate::seed();
    println!("PLATEMAKER_SEED={seed}");
    let mut random = Random::new(seed);
    let (mut passed, mut failed, mut kinds) = (0, 0, BTreeMap::<String, u64>::new());
    let mut settled = Vec::new();
    let text = String::from_utf8_lossy;
    for input in inputs(&mut random) {
        let wanted = Second::default().settle(&input);
        *kinds.entry(kind(&wanted)).or_default() += 1;
        let got = printed(settle, input.split_at(random.below(input.len() + 1)));
        if got != wanted {
            failed += 1;
            println!("input:\n{}printed:\n{}wanted:\n{}", text(&input), text(&got), text(&wanted));
            continue;
        }
        passed += 1;
        settled.extend((kind(&got) == "settled").then_some(got));
    }
    let stored = folders.iter().flat_map(stored).map(|sheet| printed(settle, (&sheet, b"")));
    for filed in settled.into_iter().chain(stored) {
        if is_good(&filed) {
            passed += 1;
            continue;
        }
        failed += 1;
        println!("printed, and not good by the check:\n{}", text(&filed));
    }
    println!("{kinds:?}");
    for kind in ["settled", "refused 6", "refused 10", "refused 11", "refused 12", "refused 13", "refused 16"] {
        if !kinds.contains_key(kind) {
            println!("none was {kind}");
            failed += 1;
        }
    }
    println!("{passed} passed, {failed} failed");
    ExitCode::from(u8::from(failed > 0))
}

fn main() -> ExitCode {
    let words: Vec<String> = std::env::args().skip(1).collect();
    match &words[..] {
        [word] if word == "--print" => print().map_or(ExitCode::FAILURE, |()| ExitCode::SUCCESS),
        [settle, folders @ ..] => compare(settle, folders),
        [] => {
            eprintln!("usage: sheets PATH_OF_SETTLE FOLDER... | sheets --print");
            ExitCode::from(2)
        }
    }
}
