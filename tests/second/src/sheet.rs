//! Sheets: the reader, the writer, and what the program `settle` prints for an input.
//!
//! The reader is no parser. It takes the runs of digits out of the input, writes the sheet that has just these numbers, and
//! holds the input against it. The first byte that differs is a byte that no sheet could have there.

use crate::fault::Fault;
use crate::handed::{Call, Handed, MEASURES, STATS_ERROR, STATS_OFF, STATS_ON, STATS_START_ERROR, STATS_SWAPS};
use crate::plain::{refuse, Second};
use std::cmp::Reverse;

/// The most bytes and the most cells that the program takes.
pub const PROGRAM_BYTES: usize = 32_768;
pub const PROGRAM_CELLS: usize = 4_096;

/// How many figures stand below a filed sheet.
pub const FIGURES: usize = 6;

/// The names and the fields of the measures.
const NAMES: &[u8] = b"width height radius reach start\n";
const FIELDS: [(usize, usize); MEASURES] = [(1, 256), (1, 256), (0, 3), (0, 6), (0, 2)];

/// A number in a composed sheet: its first digit's place, its value (257 for all above 256) and its digits.
struct Placed {
    place: usize,
    value: usize,
    digits: usize,
    outside: bool,
}

/// The sheet with given numbers in order, as far as they go.
#[derive(Default)]
struct Composed {
    text: Vec<u8>,
    numbers: Vec<Placed>,
    /// where line 3 starts
    third_line: Option<usize>,
    complete: bool,
    fault: Option<Fault>,
}

impl Composed {
    fn of<'a>(mut runs: impl Iterator<Item = &'a [u8]>, fault: Option<Fault>) -> Composed {
        let mut sheet = Composed { fault, ..Composed::default() };
        sheet.complete = sheet.lines(&mut runs).is_some();
        sheet
    }

    /// Writes the lines; stops where the numbers run out and after measures outside their fields.
    fn lines<'a>(&mut self, runs: &mut impl Iterator<Item = &'a [u8]>) -> Option<()> {
        self.text.extend(NAMES);
        self.row(runs, &FIELDS)?;
        self.third_line = Some(self.text.len());
        let [width, height, radius, _, start] = self.measures()?;
        let side = 2 * radius + 1;
        self.block(runs, b"psf\n", side, &vec![(0, 255); side])?;
        self.block(runs, b"gray\n", height, &vec![(0, 255); width])?;
        if start == 2 {
            self.block(runs, b"dots\n", height, &vec![(0, 1); width])?;
        }
        Some(())
    }

    fn block<'a>(
        &mut self,
        runs: &mut impl Iterator<Item = &'a [u8]>,
        name: &[u8],
        rows: usize,
        fields: &[(usize, usize)],
    ) -> Option<()> {
        self.text.extend(name);
        (0..rows).try_for_each(|_| self.row(runs, fields))
    }

    /// A line of numbers, separated by one space.
    fn row<'a>(&mut self, runs: &mut impl Iterator<Item = &'a [u8]>, fields: &[(usize, usize)]) -> Option<()> {
        for (at, &field) in fields.iter().enumerate() {
            if at > 0 {
                self.text.push(b' ');
            }
            self.number(runs.next()?, field);
        }
        self.text.push(b'\n');
        Some(())
    }

    /// A number is `0` alone or a run of digits beginning 1 to 9: of a longer run beginning 0 the first digit is taken, and
    /// its field is not judged.
    fn number(&mut self, run: &[u8], (least, most): (usize, usize)) {
        let long_zero = run.len() > 1 && run[0] == b'0' && self.fault != Some(Fault::LeadingZeroTaken);
        let run = if long_zero { &run[..1] } else { run };
        let value = run.iter().fold(0, |value, digit| (10 * value + usize::from(digit - b'0')).min(257));
        let outside = !long_zero && !(least..=most).contains(&value);
        self.numbers.push(Placed { place: self.text.len(), value, digits: run.len(), outside });
        self.text.extend(run);
    }

    /// The measures, if all five are there and within their fields.
    fn measures(&self) -> Option<[usize; MEASURES]> {
        let five = self.numbers.get(..MEASURES)?;
        let within = five.iter().zip(FIELDS).all(|(number, (least, most))| (least..=most).contains(&number.value));
        within.then(|| std::array::from_fn(|at| five[at].value))
    }

    fn values(&self, from: usize, count: usize) -> Vec<u8> {
        self.numbers[from..from + count].iter().map(|number| number.value as u8).collect()
    }

    /// 10: the first place where the input differs from this sheet, its end among the places.
    fn differs(&self, input: &[u8]) -> Option<usize> {
        let equal = self.text.iter().zip(input).take_while(|(a, b)| a == b).count();
        let whole = self.complete && self.text == input;
        (!whole).then_some(equal)
    }

    /// 11: the first digit of the first number outside its field that the input does have.
    fn outside(&self, differs: Option<usize>) -> Option<usize> {
        let number = self.numbers.iter().find(|number| number.outside)?;
        let in_input = differs.is_none_or(|place| number.place < place);
        let shift = if self.fault == Some(Fault::NumberRefusedAtEnd) { number.digits } else { 0 };
        in_input.then_some(number.place + shift)
    }

    /// 12: the start of line 3, where a lent slice is too short, the dots slice only with start 2.
    fn short(&self, handed: &Handed) -> Option<usize> {
        let [width, height, radius, _, start] = self.measures()?;
        let cells = width * height;
        let dots = start == 2 || self.fault == Some(Fault::DotsRoomAlwaysJudged);
        let short = handed.psf.len() < (2 * radius + 1).pow(2)
            || handed.gray.len() < cells
            || dots && handed.dots.len() < cells;
        self.third_line.filter(|_| short)
    }
}

/// The runs of digits of an input.
fn runs(input: &[u8]) -> impl Iterator<Item = &[u8]> {
    input.split(|byte| !byte.is_ascii_digit()).filter(|run| !run.is_empty())
}

/// The sheet with these measures, psf, gray and dots; the dots stand in it with start 2.
pub fn text(handed: &Handed, start: usize) -> Vec<u8> {
    let measures = [handed.width, handed.height, handed.radius, handed.reach, start];
    let bytes = handed.psf.iter().chain(&handed.gray).chain(&handed.dots);
    let numbers: Vec<String> = measures.iter().map(usize::to_string).chain(bytes.map(u8::to_string)).collect();
    Composed::of(numbers.iter().map(String::as_bytes), None).text
}

/// The figures of a settled plate: E at the start, E now, the three counts, the scans.
pub fn figures(handed: &Handed) -> [i64; FIGURES] {
    let stats = &handed.stats;
    [
        stats[STATS_START_ERROR],
        stats[STATS_ERROR],
        stats[STATS_ON],
        stats[STATS_OFF],
        stats[STATS_SWAPS],
        handed.scans as i64,
    ]
}

/// The filed sheet of a plate: a sheet with start 2, then the names of its figures and the figures.
pub fn filed(handed: &Handed, figures: [i64; FIGURES]) -> Vec<u8> {
    let mut filed = text(handed, 2);
    filed.extend(b"before after on off swaps scans\n");
    filed.extend(figures.map(|figure| figure.to_string()).join(" ").bytes());
    filed.push(b'\n');
    filed
}

impl Second {
    /// Reads a sheet: the leftmost place decides, 12 first at an equal place.
    pub fn read_sheet(&self, handed: &mut Handed) -> Result<(), u32> {
        let bytes = std::mem::take(&mut handed.bytes);
        let refused = self.read(&bytes, handed);
        handed.bytes = bytes;
        refused.map_err(|(place, number)| {
            handed.offset = place;
            number
        })
    }

    fn read(&self, bytes: &[u8], handed: &mut Handed) -> Result<(), (usize, u32)> {
        refuse(5, handed.measures.len() != MEASURES).map_err(|number| (0, number))?;
        let sheet = Composed::of(runs(bytes), self.fault);
        let differs = sheet.differs(bytes);
        let places = [(10, differs), (11, sheet.outside(differs)), (12, sheet.short(handed))];
        let refusals = places.into_iter().filter_map(|(number, place)| Some((place?, number)));
        let first = match self.fault {
            Some(Fault::RoomLast) => refusals.min(),
            _ => refusals.min_by_key(|&(place, number)| (place, Reverse(number))),
        };
        first.map_or(Ok(()), Err)?;
        self.store(&sheet, handed);
        Ok(())
    }

    /// Writes what was read to the front of the slices.
    fn store(&self, sheet: &Composed, handed: &mut Handed) {
        let measures = sheet.measures().unwrap();
        let (psf, cells) = ((2 * measures[2] + 1).pow(2), measures[0] * measures[1]);
        handed.measures.copy_from_slice(&measures);
        handed.psf[..psf].copy_from_slice(&sheet.values(MEASURES, psf));
        handed.gray[..cells].copy_from_slice(&sheet.values(MEASURES + psf, cells));
        if measures[4] == 2 {
            handed.dots[..cells].copy_from_slice(&sheet.values(MEASURES + psf + cells, cells));
        } else if self.fault == Some(Fault::DotsTouched) {
            handed.dots.fill(0);
        }
    }

    /// Writes a sheet with start 2. Draws 1 to 5 and 7, and 12 where the output is shorter than the sheet.
    pub fn write_sheet(&self, handed: &mut Handed) -> Result<(), u32> {
        self.judge(Call::WriteSheet, handed).inspect_err(|_| handed.offset = 0)?;
        let start = if self.fault == Some(Fault::StartKept) { handed.start } else { 2 };
        let sheet = text(handed, start);
        let needed = sheet.len() + usize::from(self.fault == Some(Fault::ExactLengthRefused));
        if handed.out.len() < needed {
            handed.offset = handed.out.len();
            return Err(12);
        }
        handed.out[..sheet.len()].copy_from_slice(&sheet);
        handed.length = sheet.len();
        Ok(())
    }

    /// What the program `settle` prints for an input.
    pub fn settle(&self, input: &[u8]) -> Vec<u8> {
        let refused = |(place, number): (usize, u32)| format!("refused {number} at {place}\n").into_bytes();
        self.settled(input).unwrap_or_else(refused)
    }

    fn settled(&self, input: &[u8]) -> Result<Vec<u8>, (usize, u32)> {
        refuse(13, input.len() > PROGRAM_BYTES).map_err(|number| (0, number))?;
        let mut sheet = Handed {
            psf: vec![0; 49],
            gray: vec![0; PROGRAM_CELLS],
            dots: vec![0; PROGRAM_CELLS],
            measures: vec![0; MEASURES],
            ..Handed::default()
        };
        self.read(input, &mut sheet)?;
        let mut handed = cut(sheet);
        for call in [Call::Start, Call::Converge] {
            let number = self.call(call, &mut handed);
            refuse(number, number > 0).map_err(|number| (0, number))?;
        }
        Ok(filed(&handed, figures(&handed)))
    }
}

/// What a start is handed after a sheet was read: the measures, and the slices cut to them.
pub fn cut(mut sheet: Handed) -> Handed {
    [sheet.width, sheet.height, sheet.radius, sheet.reach, sheet.start] = std::array::from_fn(|at| sheet.measures[at]);
    let cells = sheet.cells();
    sheet.psf.truncate((2 * sheet.radius + 1).pow(2));
    sheet.gray.truncate(cells);
    sheet.dots.truncate(cells);
    sheet.table = vec![0; cells];
    sheet.stats = vec![0; crate::handed::STATS];
    sheet
}
