//! Holds the static library against the second implementation: the same call, the same input, and then the same answer and
//! the same value of every byte of every buffer, of every result and of the guards around them.
//!
//!     cargo run --offline --release                # the comparison
//!     cargo run --offline --release -- --faults    # that the comparison finds every mistake of src/fault.rs
//!     cargo run --offline --release -- --pfm-all   # every pattern of a sample of a PFM file (src/patterns.rs)
//!
//! PLATEMAKER_SEED=N repeats the run of a seed; without it the clock gives one. PLATEMAKER_ROUNDS=N runs longer or shorter
//! than the 2,000 rounds of the default; a run that is too short fails, since some refusal will not have occurred in it.
//! The last line is 'N passed, M failed': the calls that agree, or with --faults the mistakes found.

use second::fault::Fault;
use second::generate::{self, Random};
use second::handed::{
    Call, Handed, MEASURES, STATS_ERROR, STATS_OFF, STATS_ON, STATS_START_DOTS, STATS_START_ERROR, VERDICT_AGREES,
    VERDICT_FITS, VERDICT_RESTS,
};
use second::library;
use second::patterns;
use second::pfm::{self, File, Order, Sample, MINUS_ZERO, TIE};
use second::picture::{self, row_bytes};
use second::plain::{self, Plate, Scan, Second};
use second::sheet;
use std::collections::BTreeMap;
use std::process::ExitCode;
use std::thread::Builder;

/// The rounds of the default.
const ROUNDS: u64 = 2000;
/// The filed sheets checked in a round, all of one plate.
const FILED: usize = 8;
/// The Netpbm files read in a round, and the PFM files.
const FILES: usize = 12;
const PFM_FILES: usize = 12;
/// The random patterns that are read as samples of PFM files, of shades and of all that there are.
const PATTERNS: usize = 100_000;
/// The stack of a thread, in bytes.
const STACK: usize = 8 << 20;
/// The most differences that are shown in full.
const SHOWN: u64 = 5;

struct Run {
    second: Second,
    seed: u64,
    random: Random,
    passed: u64,
    failed: u64,
    /// how often each call gave each answer
    answers: BTreeMap<(usize, u32), u64>,
    /// how often attempts, scans, settlings and checks that were not refused came out in each way, and how often a call
    /// was handed other measures
    outcomes: BTreeMap<(usize, &'static str), u64>,
}

impl Run {
    fn new(seed: u64, fault: Option<Fault>) -> Run {
        Run {
            second: Second { fault },
            seed,
            random: Random::new(seed),
            passed: 0,
            failed: 0,
            answers: BTreeMap::new(),
            outcomes: BTreeMap::new(),
        }
    }

    /// Makes a call of the library and of the second implementation, and compares. The library's result stays in the record.
    fn compare(&mut self, call: Call, handed: &mut Handed) -> u32 {
        let before = handed.clone();
        let mut wanted = handed.clone();
        let number = self.second.call(call, &mut wanted);
        let (answer, guards) = library::call(call, handed);
        *self.answers.entry((call as usize, answer)).or_default() += 1;
        let (tried, toned) = (tried(call, answer, &before, handed), toned(call, answer.max(number), &before));
        let ways = [tried, toned, sampled(call, answer, &before)].concat();
        for way in outcome(call, answer, &before, handed).into_iter().chain(ways) {
            *self.outcomes.entry((call as usize, way)).or_default() += 1;
        }
        if answer == number && *handed == wanted && guards {
            self.passed += 1;
        } else {
            let what =
                format!("the library answers {answer}, the second implementation {number}, guards kept: {guards}");
            let differences = handed.differences(&wanted);
            self.fail(&format!("{call:?}: {what}; results that differ: {differences}\nhanded {before:?}"));
        }
        answer
    }

    /// Counts a failure; a run with a mistake in it is meant to fail and says nothing.
    fn fail(&mut self, what: &str) {
        self.failed += 1;
        if self.second.fault.is_none() && self.failed <= SHOWN {
            println!("seed {}, case {}: {what}\n", self.seed, self.passed + self.failed);
        }
    }

    fn expect(&mut self, what: &str, holds: bool) {
        if !holds {
            self.fail(what);
        }
    }

    /// One round: each call once on a plate, a list of calls now and then, sheets and Netpbm files read and written,
    /// PFM files read, filed sheets checked.
    fn round(&mut self) {
        for call in Call::ALL.into_iter().filter(|&call| call.is_on_plate()) {
            let mut handed = generate::damaged(&mut self.random, call);
            self.compare(call, &mut handed);
        }
        if self.random.one_in(4) {
            self.list();
        }
        (0..4).for_each(|_| self.read_a_sheet());
        self.write_a_sheet();
        self.check_filed_sheets();
        (0..FILES).for_each(|_| self.read_a_file());
        (0..PFM_FILES).for_each(|_| self.read_a_pfm());
        self.write_pictures();
    }

    /// A list of calls, each handed what the last one left.
    fn list(&mut self) {
        let size = generate::size(&mut self.random);
        let mut handed = generate::handed(&mut self.random, size);
        self.dots_of_rows(&handed);
        self.balance_of_list(&handed);
        if self.compare(Call::Start, &mut handed) > 0 {
            return;
        }
        self.balance_of_list(&handed);
        let first = handed.stats.clone();
        let mut settled = false;
        let calls = self.random.within(1, 16);
        for _ in 0..calls {
            use Call::*;
            let call = self.random.pick(&[
                TryToggle, TryToggle, TryToggle, TrySwap, TrySwap, TrySwap, TrySwap, ToggleScan, SwapScan, Converge,
            ]);
            generate::name_cells(&mut self.random, &mut handed);
            let before = handed.clone();
            let answer = self.compare(call, &mut handed);
            self.demand(call, answer, &first, &before, &handed);
            if answer == 0 && call.is_scan() && handed.trials > 0 {
                *self.outcomes.entry((call as usize, LISTED)).or_default() += 1;
            }
            settled = call == Converge;
        }
        self.dots_of_rows(&handed);
        self.balance_of_list(&handed);
        self.file(Handed { scans: 0, ..handed }, settled);
    }

    /// The dots of each row, counted from the packed bytes of the plate; their sum is the dot total of its ledger.
    fn dots_of_rows(&mut self, handed: &Handed) {
        let mut packed = handed.clone();
        packed.out = picture::pbm(handed.width, handed.height, &vec![0; handed.cells()]);
        let answer = self.compare(Call::WritePbm, &mut packed);
        let raster = packed.height * row_bytes(packed.width);
        packed.packed = packed.out[packed.out.len() - raster..].to_vec();
        packed.counts = vec![9; packed.height];
        let counted = self.compare(Call::CountRows, &mut packed);
        let rows = packed.dots.chunks(packed.width).map(|row| row.iter().map(|&dot| u32::from(dot)).sum::<u32>());
        let same = rows.eq(packed.counts.iter().copied());
        self.expect("the counts are the dots of each row", (answer, counted) == (0, 0) && same);
        let sum: i64 = packed.counts.iter().map(|&count| i64::from(count)).sum();
        let total = packed.stats[STATS_START_DOTS] + packed.stats[STATS_ON] - packed.stats[STATS_OFF];
        self.expect("the sum of the counts is the dot total of the ledger", sum == total);
    }

    /// The tone balance of the plate as a list of calls left it; its dots are the dot total of the ledger.
    fn balance_of_list(&mut self, handed: &Handed) {
        let mut plate = handed.clone();
        let answer = self.compare(Call::ToneBalance, &mut plate);
        let total = plate.stats[STATS_START_DOTS] + plate.stats[STATS_ON] - plate.stats[STATS_OFF];
        let gray: i64 = plate.gray.iter().map(|&gray| i64::from(gray)).sum();
        let holds = answer == 0 && has_parts(&plate, 255 * total - gray);
        self.expect("the tone balance is that of the ledger's dot total", holds);
    }

    /// Demand 3 after one call of a list, by fresh sums.
    fn demand(&mut self, call: Call, answer: u32, first: &[i64], before: &Handed, after: &Handed) {
        let (stats, accepted) = (&after.stats, after.accepted() - before.accepted());
        let plate = Plate::new(after, None);
        let table: Vec<i64> = after.table.iter().map(|&t| i64::from(t)).collect();
        let dots: i64 = after.dots.iter().map(|&dot| i64::from(dot)).sum();
        let fall = first[STATS_START_ERROR] - stats[STATS_ERROR];
        let answered = match call {
            _ if answer > 0 => accepted == 0,
            Call::TryToggle | Call::TrySwap => accepted == i64::from(after.change < 0),
            Call::Converge => after.scans as i64 <= 2 * accepted + 2 && plate.rests() && plate.within_half_peak(),
            _ => accepted == after.changes as i64,
        };
        let claims = [
            ("nothing draws 16, 20 or 21", matches!(answer, 0 | 8 | 9 | 22 | 23)),
            ("locked cells stay", !Second::default().contradicts(after)),
            ("the table is T", table == plate.filtered_error()),
            ("E now is the sum", stats[STATS_ERROR] == plate.sum_of_squares()),
            ("E at the start stays", stats[STATS_START_ERROR] == first[STATS_START_ERROR]),
            ("the dots at the start stay", stats[STATS_START_DOTS] == first[STATS_START_DOTS]),
            (
                "the dot total is the first one + on - off",
                dots == first[STATS_START_DOTS] + stats[STATS_ON] - stats[STATS_OFF],
            ),
            ("the fall is at least 255 for each accepted change", fall >= 255 * after.accepted()),
            ("the answer is that of its accepted changes, and a settling rests within few scans", answered),
            ("the trials fit the plate", answer > 0 || trials_fit(call, before, after)),
        ];
        for (claim, _) in claims.iter().filter(|(_, holds)| !holds) {
            let what = format!("{call:?} answers {answer}, but it does not hold that {claim}");
            self.fail(&format!("{what}\nhanded {before:?}\nleft {after:?}"));
        }
    }

    /// Scans of small plates made again by single attempts of the library: those of the scan's rule, in its order, at a
    /// cell of a swap scan up to the accepted one. The attempts that are not refused are the scan's trials.
    fn scans_by_attempts(&mut self) {
        for call in [Call::ToggleScan, Call::SwapScan].repeat(60) {
            let size = (self.random.within(1, 5), self.random.within(1, 5));
            let mut handed = generate::handed(&mut self.random, size);
            handed.reach = handed.reach.min(3);
            let attempts = attempts(call, &handed);
            self.compare(call, &mut handed);
            let left = |by: &Handed| (by.dots.clone(), by.table.clone(), by.stats.clone(), by.changes, by.trials);
            let what = format!("{call:?} by attempts leaves {attempts:?}\nand by itself {handed:?}");
            self.expect(&what, left(&attempts) == left(&handed));
        }
    }

    /// Reads a sheet with none, one or two damages.
    fn read_a_sheet(&mut self) {
        let size = generate::size(&mut self.random);
        let mut handed = generate::handed(&mut self.random, size);
        generate::lend_for_reading(&mut self.random, &mut handed);
        let damages = self.random.below(3);
        (0..damages).for_each(|_| generate::damage_sheet(&mut self.random, &mut handed.bytes));
        self.compare(Call::ReadSheet, &mut handed);
    }

    /// Writes a sheet into an output of about its length, and reads it back.
    fn write_a_sheet(&mut self) {
        let mut handed = generate::damaged(&mut self.random, Call::WriteSheet);
        let room = sheet::text(&handed, 2).len();
        let length = self.random.pick(&[0, room - 1, room, room, room + 1, room + 50]);
        handed.out = vec![7; length];
        self.write_and_read(&mut handed);
    }

    fn write_and_read(&mut self, handed: &mut Handed) {
        if self.compare(Call::WriteSheet, handed) > 0 {
            return;
        }
        let mut back = handed.clone();
        back.bytes = handed.out[..handed.length].to_vec();
        back.measures = vec![0; MEASURES];
        [&mut back.psf, &mut back.gray, &mut back.dots].into_iter().for_each(|buffer| buffer.fill(9));
        let answer = self.compare(Call::ReadSheet, &mut back);
        let measures = [handed.width, handed.height, handed.radius, handed.reach, 2];
        let same = (&back.psf, &back.gray, &back.dots) == (&handed.psf, &handed.gray, &handed.dots);
        self.expect("a sheet written is read back", answer == 0 && same && back.measures == measures);
    }

    /// Checks filed sheets of one plate, each with none or some things changed.
    fn check_filed_sheets(&mut self) {
        let filed = generate::filed::filed(&mut self.random);
        for _ in 0..FILED {
            let mut handed = generate::filed::varied(&mut self.random, &filed);
            self.compare(Call::CheckFiled, &mut handed);
        }
    }

    /// Two small filed sheets, with every damage at every place.
    fn sweep_filed(&mut self) {
        for size in [(1, 1), (3, 2)] {
            let filed = generate::filed::settled(&mut self.random, size);
            let handed = generate::filed::exact(&filed);
            for bytes in generate::all_sheet_damages(&handed.bytes) {
                self.compare(Call::CheckFiled, &mut Handed { bytes, ..handed.clone() });
            }
        }
    }

    /// Files a plate as a list of calls left it: it agrees and fits, and rests where the last call was a settling.
    fn file(&mut self, plate: Handed, settled: bool) {
        let mut handed = generate::filed::exact(&generate::filed::of(plate));
        let answer = self.compare(Call::CheckFiled, &mut handed);
        let [agrees, fits, rests] = [VERDICT_AGREES, VERDICT_FITS, VERDICT_RESTS].map(|at| handed.verdict[at] == 1);
        self.expect("a plate filed agrees, fits and rests", answer == 0 && agrees && fits && (rests || !settled));
    }

    /// The largest filed sheets, settled by the library, each also with a dot turned; figures of very many digits.
    fn large_filed(&mut self) {
        for size in [(256, 256), (255, 256), (256, 131)] {
            let mut plate = generate::handed(&mut self.random, size);
            for call in [Call::Start, Call::Converge] {
                library::call(call, &mut plate);
            }
            self.file(plate.clone(), true);
            let filed = generate::filed::of(plate);
            for _ in 0..3 {
                let mut handed = generate::filed::varied(&mut self.random, &filed);
                self.compare(Call::CheckFiled, &mut handed);
            }
        }
        let filed = generate::filed::settled(&mut self.random, (2, 2));
        for digits in [b"1", b"0"] {
            let mut handed = generate::filed::exact(&filed);
            handed.bytes.pop();
            handed.bytes.extend(digits.repeat(100_000));
            handed.bytes.push(b'\n');
            self.compare(Call::CheckFiled, &mut handed);
        }
    }

    /// Reads a Netpbm file with none, one or two damages, as either kind.
    fn read_a_file(&mut self) {
        let handed = generate::file(&mut self.random);
        self.read_as_both(&handed);
    }

    fn read_as_both(&mut self, handed: &Handed) {
        for call in [Call::ReadPbm, Call::ReadPgm] {
            self.compare(call, &mut handed.clone());
        }
    }

    /// Reads a PFM file with none or some things wrong with it.
    fn read_a_pfm(&mut self) {
        let mut handed = generate::pfm::file(&mut self.random);
        self.compare(Call::ReadPfm, &mut handed);
    }

    /// Writes Netpbm files into outputs of about their length, and reads them back; counts the dots of each row.
    fn write_pictures(&mut self) {
        for call in [Call::WritePbm, Call::WritePgm, Call::CountRows] {
            let mut handed = generate::damaged_picture(&mut self.random, call);
            self.write_picture_and_read(call, &mut handed);
        }
    }

    fn write_picture_and_read(&mut self, call: Call, handed: &mut Handed) {
        if self.compare(call, handed) > 0 || call == Call::CountRows {
            return;
        }
        let mut back = handed.clone();
        back.bytes = handed.out[..handed.length].to_vec();
        [&mut back.gray, &mut back.dots].into_iter().for_each(|buffer| buffer.fill(9));
        let reader = if call == Call::WritePbm { Call::ReadPbm } else { Call::ReadPgm };
        let answer = self.compare(reader, &mut back);
        let same = if reader == Call::ReadPbm { back.dots == handed.dots } else { back.gray == handed.gray };
        let size = (back.read_width, back.read_height) == (handed.width, handed.height);
        self.expect("a Netpbm file written is read back", answer == 0 && same && size);
    }

    /// Small Netpbm files with every damage at every place.
    fn sweep_files(&mut self) {
        const FILES: [(&[u8], usize, usize); 4] = [
            (b"P4 9 2\n\xa5\x80\x23\x7f", 9, 2),
            (b"P4#a\r\n03 2#9\n\n\xe0\x1f", 3, 2),
            (b"P5 2 1 255\n\x0a\xff", 2, 1),
            (b"P5\t1#7\r 2 #\r0255 #\r", 1, 2),
        ];
        for (file, width, height) in FILES {
            let mut handed = generate::picture(&mut self.random, (width, height));
            for bytes in generate::all_file_damages(file) {
                handed.bytes = bytes;
                generate::lend_for_file(&mut self.random, &mut handed);
                self.read_as_both(&handed);
            }
        }
    }

    /// The largest Netpbm files, numbers of very many digits and a long comment.
    fn large_files(&mut self) {
        for size in [(256, 256), (255, 256), (256, 255), (249, 256), (1, 256), (256, 1)] {
            for call in [Call::WritePbm, Call::WritePgm, Call::CountRows] {
                let mut handed = generate::picture(&mut self.random, size);
                handed.out = vec![7; 66_000];
                self.write_picture_and_read(call, &mut handed);
            }
        }
        for (byte, end) in [(b"0", ""), (b"1", ""), (b"#", "\r")] {
            let long = [&byte.repeat(100_000), end.as_bytes()].concat();
            let mut handed = generate::picture(&mut self.random, (1, 1));
            handed.bytes = [b"P4 ", long.as_slice(), b"1 1\n\x80"].concat();
            self.compare(Call::ReadPbm, &mut handed);
            handed.bytes = [b"P5 1 1 ", long.as_slice(), b"255\n\x80"].concat();
            self.compare(Call::ReadPgm, &mut handed);
        }
    }

    /// Every place where the brightness rises, with the two floats before it and the two after it: a row of the file
    /// for each. The two before it have one less.
    fn boundaries(&mut self) {
        let patterns: Vec<u32> = (1..=255).flat_map(generate::pfm::near_boundary).collect();
        let gray: Vec<u8> = (0..=254).flat_map(|dark| [dark + 1, dark + 1, dark, dark, dark]).collect();
        for order in Order::BOTH {
            let mut handed = generate::pfm::of(&mut self.random, (5, 255), order, &patterns);
            let answer = self.compare(Call::ReadPfm, &mut handed);
            self.expect("the brightness rises by 1 at each boundary", answer == 0 && handed.gray == gray);
        }
    }

    /// Random patterns, each in both byte orders: shades in the largest files, then any patterns, those that are no
    /// shades each in a file of its own.
    fn random_patterns(&mut self) {
        let shades: Vec<u32> = (0..PATTERNS).map(|_| generate::pfm::shade(&mut self.random)).collect();
        let any = (0..PATTERNS).map(|_| self.random.any() as u32);
        let (more, others): (Vec<u32>, Vec<u32>) = any.partition(|&pattern| pfm::gray(pattern).is_some());
        for order in Order::BOTH {
            for patterns in [&shades, &more].into_iter().flat_map(|patterns| patterns.chunks(65_536)) {
                let height = patterns.len().div_ceil(256);
                let filled = [patterns, &vec![0; 256 * height - patterns.len()]].concat();
                let mut handed = generate::pfm::of(&mut self.random, (256, height), order, &filled);
                let answer = self.compare(Call::ReadPfm, &mut handed);
                self.expect("shades are read", answer == 0);
            }
            for &pattern in &others {
                let mut handed = generate::pfm::of(&mut self.random, (1, 1), order, &[pattern]);
                let answer = self.compare(Call::ReadPfm, &mut handed);
                let place = handed.bytes.len() - pfm::SAMPLE;
                self.expect("what is no shade is refused at its place", (answer, handed.offset) == (18, place));
            }
        }
    }

    /// Small PFM files with every damage at every place.
    fn sweep_pfm(&mut self) {
        for (order, width, height) in [(Order::Big, 2, 1), (Order::Little, 1, 2), (Order::Little, 10, 1)] {
            let patterns: Vec<u32> = (0..width * height).map(|_| generate::pfm::shade(&mut self.random)).collect();
            let mut handed = generate::pfm::of(&mut self.random, (width, height), order, &patterns);
            for bytes in generate::all_file_damages(&handed.bytes) {
                handed.bytes = bytes;
                generate::lend_for_file(&mut self.random, &mut handed);
                self.compare(Call::ReadPfm, &mut handed.clone());
            }
        }
    }

    /// The largest PFM files, as they are, then with up to three samples that are no shades; words of very many bytes.
    fn large_pfm(&mut self) {
        let sizes = [(256, 256), (255, 256), (256, 255), (1, 256), (256, 1)];
        for (size, order) in sizes.into_iter().flat_map(|size| Order::BOTH.map(|order| (size, order))) {
            let cells = size.0 * size.1;
            let mut patterns: Vec<u32> = (0..cells).map(|_| generate::pfm::shade(&mut self.random)).collect();
            for bad in [None, Some(cells - 1), Some(self.random.below(cells)), Some(0)] {
                bad.into_iter().for_each(|at| patterns[at] = u32::MAX);
                let mut handed = generate::pfm::of(&mut self.random, size, order, &patterns);
                let answer = self.compare(Call::ReadPfm, &mut handed);
                self.expect("a large PFM file is read or refused", answer == if bad.is_some() { 18 } else { 0 });
            }
        }
        for (byte, at) in ["0", "1", " ", "#", "\n"].into_iter().flat_map(|byte| [(byte, 2), (byte, 3), (byte, 10)]) {
            let mut handed = generate::pfm::of(&mut self.random, (1, 1), Order::Big, &[0]);
            handed.bytes.splice(at..at, byte.repeat(100_000).into_bytes());
            self.compare(Call::ReadPfm, &mut handed);
        }
    }

    /// Three small sheets, one of each kind of start, with every damage at every place.
    fn sweep(&mut self) {
        for start in 0..3 {
            let mut handed = generate::handed(&mut self.random, (2, 2));
            (handed.radius, handed.psf, handed.start) = (start % 2, generate::psf(&mut self.random, start % 2), start);
            handed.measures = vec![77; MEASURES];
            for bytes in generate::all_sheet_damages(&sheet::text(&handed, start)) {
                let mut damaged = Handed { bytes, ..handed.clone() };
                self.compare(Call::ReadSheet, &mut damaged);
            }
        }
    }

    /// The tone balance of small plates, which are darker than their gray by every number up to two units a cell, and
    /// lighter; then sizes, lengths and dots, those that it refuses with all others.
    fn sweep_balance(&mut self) {
        for (width, height) in (1..=12).flat_map(|n| [(n, 1), (1, n), (n, 2), (3, n)]) {
            let cells = (width * height) as i64;
            let mut handed = generate::handed(&mut self.random, (width, height));
            for darker in -2 * cells - 1..=2 * cells + 1 {
                // half of the cells at least have a dot, or are blank: so there is enough gray
                handed.dots = (0..cells).map(|at| u8::from((at % 2 == 0) == (darker > 0))).collect();
                generate::shade(&mut handed, darker);
                let answer = self.compare(Call::ToneBalance, &mut handed);
                let holds = answer == 0 && has_parts(&handed, darker);
                self.expect("a tone balance comes to what the plate was shaded for", holds);
            }
        }
        let (sizes, lengths) = ([0, 1, 2, 256, 257], [0, 1, 2, 3, 4, 5, 256, 257, 512]);
        for (width, height) in sizes.into_iter().flat_map(|width| sizes.map(|height| (width, height))) {
            let handed = generate::handed(&mut self.random, (2, 2));
            for (gray, dots) in lengths.into_iter().flat_map(|gray| lengths.map(|dots| (gray, dots))) {
                for dot in 0..=2 {
                    let (gray, dots) = (vec![255; gray], vec![dot; dots]);
                    self.compare(Call::ToneBalance, &mut Handed { width, height, gray, dots, ..handed.clone() });
                }
            }
        }
    }

    /// Rounds in several threads: there is no state between calls.
    fn at_the_same_time(&mut self) {
        let (seed, fault) = (self.seed, self.second.fault);
        let rounds = move |number: u64| {
            let mut run = Run::new(seed, fault);
            run.random = Random::new(seed.wrapping_add(number));
            (0..30).for_each(|_| run.round());
            (run.passed, run.failed)
        };
        let threads =
            [1, 2, 3, 4].map(|number| Builder::new().stack_size(STACK).spawn(move || rounds(number)).unwrap());
        for thread in threads {
            let (passed, failed) = thread.join().unwrap();
            self.passed += passed;
            self.failed += failed;
        }
    }

    /// The largest plates, and starts of kinds 0 and 1 with every gray.
    fn large(&mut self) {
        use Call::*;
        for size in [(256, 256), (256, 255), (200, 256)] {
            let mut handed = generate::handed(&mut self.random, size);
            for call in [FilteredError, SquaredError, ToneBalance, TryToggle, TrySwap, Start, ToggleScan] {
                self.compare(call, &mut handed);
            }
        }
        self.extreme();
        self.most_trials();
        self.large_sheets();
        self.large_filed();
        self.large_files();
        self.large_pfm();
        for (gray, start) in (0..=255).flat_map(|gray| [(gray, 0), (gray, 1)]) {
            let mut handed = generate::handed(&mut self.random, (17, 33));
            (handed.start, handed.radius, handed.psf) = (start, 0, vec![1]);
            handed.gray.fill(gray);
            self.compare(Start, &mut handed);
        }
    }

    /// The largest |T| that there is: all paper under dots, all black under blanks, and the largest psf sum; and the tone
    /// balance of the largest |D|. These are locked, so plates are started next to them.
    fn extreme(&mut self) {
        for dot in 0..2 {
            let mut handed = generate::handed(&mut self.random, (256, 256));
            (handed.radius, handed.psf, handed.start) = (1, vec![255, 255, 255, 255, 4, 0, 0, 0, 0], 2);
            handed.dots.fill(dot);
            handed.gray.fill(255 * (1 - dot));
            self.compare(Call::FilteredError, &mut handed);
            self.expect("the largest |T|", handed.table.iter().any(|t| t.abs() == 267_386_880));
            for call in [Call::SquaredError, Call::ToneBalance] {
                self.compare(call, &mut handed);
            }
            let most = if dot == 0 { -255 } else { 255 };
            self.expect("the largest |D|", (handed.quotient, handed.remainder) == (most, 0));
            handed.gray.fill(if dot == 0 { 254 } else { 1 });
            for call in [Call::Start, Call::ToggleScan] {
                self.compare(call, &mut handed);
            }
        }
    }

    /// Scans of the largest plate that accept nothing, every other column of it dots and none of its cells locked. With
    /// reach 6 there are 2 * (255 + 253 + 251) pairs of unlike columns, and 256 + 2 * (255 + ... + 250) of rows.
    fn most_trials(&mut self) {
        let mut handed = generate::handed(&mut self.random, (256, 256));
        (handed.radius, handed.psf, handed.reach, handed.start) = (0, vec![1], 6, 2);
        handed.dots = (0..handed.cells()).map(|at| (at % 2) as u8).collect();
        handed.gray = handed.dots.iter().map(|&dot| 127 + dot).collect();
        self.compare(Call::Start, &mut handed);
        for (call, trials) in [(Call::SwapScan, 1518 * 3286), (Call::ToggleScan, 65_536)] {
            self.compare(call, &mut handed);
            self.expect("the trials of the largest plate", (handed.changes, handed.trials) == (0, trials));
        }
    }

    /// The largest sheets, and numbers of very many digits.
    fn large_sheets(&mut self) {
        let mut handed = generate::handed(&mut self.random, (256, 256));
        handed.out = vec![7; sheet::text(&handed, 2).len()];
        self.write_and_read(&mut handed);
        handed.measures = vec![0; MEASURES];
        for digits in [b"1", b"0"] {
            let line: &[u8] = b"width height radius reach start\n";
            handed.bytes = [line, &digits.repeat(100_000), b" 1 0 0 0\n"].concat();
            self.compare(Call::ReadSheet, &mut handed);
        }
    }

    /// The examples of document 01 that are no call, and so no vector.
    fn examples(&mut self) {
        let cells = || (0..256).map(|at| (at / 16, at % 16));
        let screened = |gray, dot| cells().all(|cell| self.second.screened(cell, gray) == (dot == 1));
        let set = [0, 255].map(|gray| plain::lock(gray, None).is_some_and(|dot| screened(gray, dot)));
        self.expect("the thresholds set locked cells as they have to be", set == [true, true]);
        let corner = [(0, 0), (0, 1), (1, 0), (1, 1)].map(|(row, col)| plain::threshold(row, col));
        self.expect("thresholds", corner == [0, 128, 192, 64]);
        let nearest = [(-1, -1), (-1, 1), (1, -1), (1, 1), (-1, 0), (0, -1), (0, 1), (1, 0)];
        self.expect("partners", plain::partners(1) == nearest && plain::partners(6).len() == 168);
        self.expect("the sheet of document 01", self.second.settle(SHEET) == PRINTED);
    }

    /// The sums of the second implementation against each other: E in three ways, a change in three, rest in two. A tone
    /// balance has the only parts that there are.
    fn sums(&mut self) {
        for _ in 0..300 {
            let size = (self.random.within(1, 9), self.random.within(1, 9));
            let handed = generate::handed(&mut self.random, size);
            let mut plate = Plate::new(&handed, self.second.fault);
            let error = plate.squared_error();
            self.expect("E in three ways", error == plate.sum_of_squares() && error == plate.double_sum());
            for call in [Call::TryToggle, Call::TrySwap] {
                let cells = call.named(&handed);
                if cells.len() == 2 && plate.dot(cells[0]) == plate.dot(cells[1]) {
                    continue;
                }
                let change = plate.change(&cells);
                let same = change == plate.change_of_whole_sum(&cells) && change == plate.change_by_formula(&cells);
                self.expect("a change in three ways", same);
            }
            let at = handed.row * handed.width + handed.col;
            let change = plate.change(&[(handed.row, handed.col)]);
            self.expect("a toggle among all of them", plate.toggle_changes()[at] == change);
        }
        for _ in 0..30 {
            self.rest();
        }
        for (d, n) in (-60..=60).flat_map(|d| (1..=12).map(move |n| (d, n))) {
            let pairs = (-60..=60).flat_map(|q| (0..n).map(move |remainder| (q, remainder)));
            let whole: Vec<(i64, i64)> = pairs.filter(|(q, remainder)| q * n + remainder == d).collect();
            self.expect("the only parts of D", whole == [plain::parted(d, n)]);
        }
    }

    /// Rest in two ways: of a settled plate, of one that rests but for swaps, of another one, and of one that rests by its
    /// locks alone.
    fn rest(&mut self) {
        let held = Plate::new(&generate::filed::held(&mut self.random).plate, self.second.fault);
        let lowers = held.toggle_changes()[4] < 0;
        self.expect("rest by locks alone", lowers && held.rests() && held.rests_by_whole_sums());
        let size = (self.random.within(1, 5), self.random.within(1, 5));
        for make in [generate::filed::settled, generate::filed::toggled, generate::filed::as_it_is] {
            let plate = Plate::new(&make(&mut self.random, size).plate, self.second.fault);
            self.expect("rest in two ways", plate.rests() == plate.rests_by_whole_sums());
        }
    }

    /// How often each call gave each answer and outcome; fails where one that there is never occurred.
    fn coverage(&mut self) {
        for call in Call::ALL {
            let index = call as usize;
            let answers =
                self.answers.range((index, 0)..(index + 1, 0)).map(|((_, answer), count)| format!("{answer}: {count}"));
            let outcomes =
                self.outcomes.range((index, "")..(index + 1, "")).map(|((_, way), count)| format!("{way}: {count}"));
            let counts: Vec<String> = answers.chain(outcomes).collect();
            let calls: u64 = self.answers.range((index, 0)..(index + 1, 0)).map(|(_, count)| count).sum();
            println!("{:<16} {calls} calls; {}", format!("{call:?}"), counts.join(", "));
            for number in [&[0], call.refusals()].concat() {
                let occurred = self.answers.contains_key(&(index, number));
                self.expect(&format!("{call:?} never answered {number}"), occurred);
            }
            for way in outcomes_of(call).iter().chain(call.takes_measures().then_some(&OTHER)) {
                let occurred = self.outcomes.contains_key(&(index, way));
                self.expect(&format!("{call:?} was never {way}"), occurred);
            }
        }
    }
}

/// The ways in which a call can come out that is not refused.
fn outcomes_of(call: Call) -> &'static [&'static str] {
    match call {
        Call::TryToggle | Call::TrySwap => &["accepted", "declined", "tied"],
        Call::ToneBalance => &TONED,
        Call::ReadPfm => &SAMPLED,
        Call::CheckFiled => &CHECKED,
        Call::Converge => &SCANNED[..3],
        Call::ToggleScan => &SCANNED[..8],
        Call::SwapScan => &SCANNED,
        _ => &[],
    }
}

/// A scan of a list, with trials.
const LISTED: &str = "with trials in a list";

/// The ways in which a settling comes out, then those of scans, then those of swap scans alone.
const SCANNED: [&str; 10] = [
    "changed",
    "changed beside locks",
    "unchanged",
    LISTED,
    "with trials",
    "without a trial",
    "with trials beside locks",
    "of several changes",
    "ahead of partners left at a cell",
    "past a locked partner",
];

/// The ways in which a tone balance comes out.
const TONED: [&str; 8] = [
    "lighter",
    "as dark",
    "darker",
    "lighter by less than N",
    "darker by less than N",
    "lighter by some N",
    "darker by some N",
    "beside locks that the dots contradict",
];

/// The ways in which a PFM file is read, then those in which a sample of it is refused.
const SAMPLED: [&str; 13] = [
    "big-endian",
    "little-endian",
    "of several rows and columns",
    "with minus zero",
    "with a tie",
    "into a longer slice",
    "for a value above 1",
    "for a value below 0",
    "for an infinity",
    "for no number",
    "big-endian and refused",
    "little-endian and refused",
    "for the first of several",
];

/// The ways in which a check comes out: three for each number in the place of rest. Where the figure differs the ledger
/// does not fit.
const CHECKED: [&str; 9] = [
    "fits",
    "agrees",
    "differs",
    "fits and rests",
    "agrees and rests",
    "differs and rests",
    "fits and draws 16",
    "agrees and draws 16",
    "differs and draws 16",
];

/// A slice of measures that are not five, with a call that takes one.
const OTHER: &str = "handed other measures";

fn outcome(call: Call, answer: u32, before: &Handed, after: &Handed) -> Option<&'static str> {
    match call {
        _ if call.takes_measures() && before.other_measures.is_some() => Some(OTHER),
        _ if answer > 0 => None,
        Call::CheckFiled => {
            let [agrees, fits] = [VERDICT_AGREES, VERDICT_FITS].map(|at| after.verdict[at] == 1);
            let way = if fits { 0 } else { 2 - usize::from(agrees) };
            let rests = [0, 1].iter().position(|&rests| rests == after.verdict[VERDICT_RESTS]).unwrap_or(2);
            Some(CHECKED[way + 3 * rests])
        }
        _ if !call.is_later() => None,
        Call::TryToggle | Call::TrySwap if after.change == 0 => Some("tied"),
        Call::TryToggle | Call::TrySwap => Some(if after.change < 0 { "accepted" } else { "declined" }),
        _ if before.dots == after.dots => Some("unchanged"),
        _ => Some(if generate::has_locks(before) { "changed beside locks" } else { "changed" }),
    }
}

/// The ways in which the trials of a scan come out that is not refused.
fn tried(call: Call, answer: u32, before: &Handed, after: &Handed) -> Vec<&'static str> {
    if answer > 0 || !call.is_scan() {
        return Vec::new();
    }
    let scan = if call == Call::SwapScan { Plate::new(before, None).swap_scan() } else { Scan::default() };
    let trials = after.trials > 0;
    let locks = generate::has_locks(before);
    let ways = [trials, !trials, trials && locks, after.changes > 1, scan.left > 0, scan.locked_partners > 0];
    SCANNED[4..].iter().zip(ways).filter(|&(_, came)| came).map(|(&way, _)| way).collect()
}

/// The ways in which a tone balance comes out that is not refused.
fn toned(call: Call, answer: u32, before: &Handed) -> Vec<&'static str> {
    if answer > 0 || call != Call::ToneBalance {
        return Vec::new();
    }
    let (d, cells) = (Second::default().darker(before), before.cells() as i64);
    let (near, whole) = (d.abs() < cells, d % cells == 0);
    let ways = [d < 0, d == 0, d > 0, d < 0 && near, d > 0 && near, d < 0 && whole, d > 0 && whole];
    let contradicts = Second::default().contradicts(before);
    TONED.iter().zip(ways.into_iter().chain([contradicts])).filter(|&(_, came)| came).map(|(&way, _)| way).collect()
}

/// The ways in which a PFM file is read, or refused because of a sample.
fn sampled(call: Call, answer: u32, before: &Handed) -> Vec<&'static str> {
    if call != Call::ReadPfm || ![0, 18].contains(&answer) {
        return Vec::new();
    }
    let Some(File { width, height, order, patterns }) = pfm::taken_apart(&before.bytes) else {
        return Vec::new();
    };
    let bad = || patterns.iter().filter(|&&pattern| pfm::gray(pattern).is_none());
    let first = bad().next().map(|&pattern| pfm::sample(pattern));
    let (read, big) = (answer == 0, order == Order::Big);
    let ways = [
        read && big,
        read && !big,
        read && width > 1 && height > 1,
        read && patterns.contains(&MINUS_ZERO),
        read && patterns.contains(&TIE),
        read && before.gray.len() > patterns.len(),
        matches!(first, Some(Sample::Above(_))),
        matches!(first, Some(Sample::Below(_))),
        matches!(first, Some(Sample::Infinite)),
        matches!(first, Some(Sample::NoNumber)),
        !read && big,
        !read && !big,
        !read && bad().nth(1).is_some(),
    ];
    SAMPLED.iter().zip(ways).filter(|&(_, came)| came).map(|(&way, _)| way).collect()
}

/// Whether the quotient and the remainder are the parts of D.
fn has_parts(handed: &Handed, d: i64) -> bool {
    let (quotient, remainder) = (i128::from(handed.quotient), handed.remainder as i128);
    let cells = handed.cells() as i128;
    quotient * cells + remainder == i128::from(d) && (0..cells).contains(&remainder)
}

/// What holds of the trials of a scan by the plate alone: those of a toggle scan are its cells that are not locked,
/// those of a swap scan that accepted nothing its unlike pairs; any other has at least as many as it accepted, and at
/// most the partners of all cells. Other calls have none.
fn trials_fit(call: Call, before: &Handed, after: &Handed) -> bool {
    let most = before.cells() * ((2 * before.reach + 1).pow(2) - 1);
    let free = before.gray.iter().filter(|&&gray| plain::lock(gray, None).is_none()).count();
    match call {
        Call::ToggleScan => after.trials == free as u64,
        Call::SwapScan if after.changes == 0 => after.trials == Plate::new(before, None).unlike_within_reach(),
        Call::SwapScan => (after.changes..=most as u64).contains(&after.trials),
        _ => after.trials == before.trials,
    }
}

/// What a scan comes to by single attempts of the library.
fn attempts(call: Call, handed: &Handed) -> Handed {
    let (attempt, offsets) = match call {
        Call::ToggleScan => (Call::TryToggle, vec![(0, 0)]),
        _ => (Call::TrySwap, plain::partners(handed.reach)),
    };
    let mut plate = Handed { changes: 0, trials: 0, ..handed.clone() };
    for at in 0..handed.cells() {
        (plate.row, plate.col) = (at / handed.width, at % handed.width);
        for &(down, right) in &offsets {
            plate.row2 = plate.row.wrapping_add_signed(down);
            plate.col2 = plate.col.wrapping_add_signed(right);
            let (answer, _) = library::call(attempt, &mut plate);
            if [8, 22, 23].contains(&answer) {
                continue;
            }
            plate.trials += 1;
            if plate.change < 0 {
                plate.changes += 1;
                break;
            }
        }
    }
    plate
}

/// The sheet of document 01, and what the program prints for it.
const SHEET: &[u8] = include_bytes!("../../../../crates/settle/stdin");
const PRINTED: &[u8] = include_bytes!("../../../../crates/settle/stdout");

/// The comparison.
fn differential(seed: u64, rounds: u64) -> (u64, u64) {
    let mut run = Run::new(seed, None);
    run.examples();
    run.sums();
    run.scans_by_attempts();
    (0..rounds).for_each(|_| run.round());
    run.sweep();
    run.sweep_balance();
    run.sweep_filed();
    run.sweep_files();
    run.sweep_pfm();
    run.boundaries();
    run.random_patterns();
    run.large();
    run.at_the_same_time();
    run.coverage();
    (run.passed, run.failed)
}

/// Each mistake in a run of its own, up to the first difference.
fn faults(seed: u64, rounds: u64) -> (u64, u64) {
    let mut found = 0;
    for fault in Fault::all() {
        let mut run = Run::new(seed, Some(fault));
        let caught = (0..rounds).any(|_| {
            run.round();
            run.failed > 0
        });
        println!(
            "{:<32} {} after {} calls",
            format!("{fault:?}"),
            if caught { "found" } else { "NOT FOUND" },
            run.passed + run.failed
        );
        found += u64::from(caught);
    }
    (found, Fault::all().len() as u64 - found)
}

/// A random run, with its seed and its rounds.
fn seeded(run: fn(u64, u64) -> (u64, u64)) -> (u64, u64) {
    let seed = generate::seed();
    let rounds = generate::number_from("PLATEMAKER_ROUNDS").unwrap_or(ROUNDS);
    println!("PLATEMAKER_SEED={seed} PLATEMAKER_ROUNDS={rounds}");
    run(seed, rounds)
}

fn main() -> ExitCode {
    let (passed, failed) = match std::env::args().nth(1).as_deref() {
        None => seeded(differential),
        Some("--faults") => seeded(faults),
        Some("--pfm-all") => patterns::all(),
        Some(other) => panic!("no such option: {other}"),
    };
    println!("{passed} passed, {failed} failed");
    ExitCode::from(u8::from(failed > 0))
}
