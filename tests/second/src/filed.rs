//! Filed sheets: what the program `settle` prints for a plate, read from the left to the right and judged by the sums.
//! The first thing that is wrong in it is the leftmost, so reading ends there.

use crate::fault::Fault;
use crate::handed::{Handed, VERDICT};
use crate::plain::{narrow, Plate, Second, MAX_COUNT, MAX_ERROR};
use crate::sheet::FIGURES;

/// A refusal: the byte offset of its place, and its number.
type Refusal = (usize, u32);
/// The least and the largest number that a field takes.
type Field = (i64, i64);

/// The fields of width, height, radius, reach and start.
const MEASURES: [Field; 5] = [(1, 256), (1, 256), (0, 3), (0, 6), (2, 2)];
const FIGURE: Field = (0, i64::MAX);

/// A plate, its measures, psf, gray and dots being those of the record, and the figures filed with it.
#[derive(Clone)]
pub struct Filed {
    pub plate: Handed,
    /// before, after, on, off, swaps, scans
    pub figures: [i64; FIGURES],
}

/// The bytes of a filed sheet, read up to a place.
struct Reader<'a> {
    bytes: &'a [u8],
    place: usize,
    fault: Option<Fault>,
}

impl Reader<'_> {
    /// These bytes come next; else 10 at the first that differs, or at the end.
    fn text(&mut self, text: &[u8]) -> Result<(), Refusal> {
        for &byte in text {
            if self.bytes.get(self.place) != Some(&byte) {
                return Err((self.place, 10));
            }
            self.place += 1;
        }
        Ok(())
    }

    /// A number comes next: 10 where there is no digit, and at a digit after a leading 0; 11 at the first digit.
    fn number(&mut self, field: Field) -> Result<i64, Refusal> {
        let first = self.place;
        let digits = self.bytes[first..].iter().take_while(|byte| byte.is_ascii_digit()).count();
        let run = &self.bytes[first..first + digits];
        let zeros_taken = self.fault == Some(Fault::FigureZerosTaken) && field == FIGURE;
        match run {
            [] => return Err((first, 10)),
            [b'0', _, ..] if !zeros_taken => return Err((first + 1, 10)),
            _ => self.place += digits,
        }
        let value = self.value(run, field).filter(|value| (field.0..=field.1).contains(value));
        value.ok_or((first, 11))
    }

    /// The value of a run of digits, if 63 bits hold it.
    fn value(&self, run: &[u8], field: Field) -> Option<i64> {
        let text = std::str::from_utf8(run).expect("digits");
        let cut = |value: u64, digit: &u8| value.wrapping_mul(10).wrapping_add(u64::from(digit - b'0'));
        match self.fault.filter(|_| field == FIGURE) {
            Some(Fault::FiguresCut) => i64::try_from(run.iter().fold(0, cut)).ok(),
            Some(Fault::FigureOf64BitsTaken) => text.parse::<u64>().ok().map(|value| (value % (1 << 63)) as i64),
            _ => text.parse().ok(),
        }
    }

    /// Numbers, one space between them.
    fn numbers(&mut self, fields: &[Field]) -> Result<Vec<i64>, Refusal> {
        let mut numbers = Vec::new();
        for (at, &field) in fields.iter().enumerate() {
            self.text(if at > 0 { b" " } else { b"" })?;
            numbers.push(self.number(field)?);
        }
        Ok(numbers)
    }

    /// A word in a line of its own, then rows of bytes.
    fn block(&mut self, word: &str, rows: usize, columns: usize, largest: i64) -> Result<Vec<u8>, Refusal> {
        self.text(word.as_bytes())?;
        self.text(b"\n")?;
        let mut block = Vec::new();
        for _ in 0..rows {
            let row = self.numbers(&vec![(0, largest); columns])?;
            block.extend(row.into_iter().map(|value| value as u8));
            self.text(b"\n")?;
        }
        Ok(block)
    }

    /// The last line end, and nothing after it.
    fn end(&mut self) -> Result<(), Refusal> {
        if self.fault == Some(Fault::LastByteNotJudged) && self.place + 1 == self.bytes.len() {
            return Ok(());
        }
        self.text(b"\n")?;
        let ended = self.place == self.bytes.len() || self.fault == Some(Fault::AppendedTaken);
        ended.then_some(()).ok_or((self.place, 10))
    }
}

impl Second {
    /// Checks a filed sheet: 5; 10, 11 and 12 by their places; 6.
    pub fn check_filed(&self, handed: &mut Handed) -> Result<(), u32> {
        self.checked(handed).map_err(|(place, number)| {
            handed.offset = place;
            number
        })
    }

    fn checked(&self, handed: &mut Handed) -> Result<(), Refusal> {
        if handed.verdict.len() != VERDICT {
            return Err((0, 5));
        }
        let filed = self.read_filed(handed)?;
        if self.has(Fault::StoredBeforeSum) {
            store(&filed.plate, handed);
        }
        if self.sum_outside(&filed.plate.psf) {
            return Err((0, 6));
        }
        if self.has(Fault::ContradictionRefused) && self.contradicts(&filed.plate) {
            return Err((0, 16));
        }
        store(&filed.plate, handed);
        self.store_table(&filed.plate, &mut handed.table);
        handed.verdict = self.verdict(&filed).to_vec();
        Ok(())
    }

    /// Reads all of it. The record lends the bytes and the room.
    fn read_filed(&self, handed: &Handed) -> Result<Filed, Refusal> {
        let mut reader = Reader { bytes: &handed.bytes, place: 0, fault: self.fault };
        let mut plate = self.read_measures(&mut reader)?;
        self.judge_filed_room(&reader, &plate, handed)?;
        let side = 2 * plate.radius + 1;
        plate.psf = reader.block("psf", side, side, 255)?;
        if self.has(Fault::SumJudgedEarly) && self.sum_outside(&plate.psf) {
            return Err((0, 6));
        }
        plate.gray = reader.block("gray", plate.height, plate.width, 255)?;
        plate.dots = reader.block("dots", plate.height, plate.width, 1)?;
        reader.text(b"before after on off swaps scans\n")?;
        let figures = reader.numbers(&[FIGURE; FIGURES])?;
        reader.end()?;
        Ok(Filed { plate, figures: figures.try_into().expect("six") })
    }

    /// The first two lines.
    fn read_measures(&self, reader: &mut Reader) -> Result<Handed, Refusal> {
        let mut fields = MEASURES;
        if self.has(Fault::StartTaken) {
            fields[4] = (0, 2);
        }
        reader.text(b"width height radius reach start\n")?;
        let measures = reader.numbers(&fields)?;
        reader.text(b"\n")?;
        let [width, height, radius, reach] = std::array::from_fn(|at| measures[at] as usize);
        Ok(Handed { width, height, radius, reach, ..Handed::default() })
    }

    /// 12 where a slice is too short, the reader being at the start of line 3.
    fn judge_filed_room(&self, reader: &Reader, plate: &Handed, handed: &Handed) -> Result<(), Refusal> {
        let psf_short = handed.psf.len() < (2 * plate.radius + 1).pow(2);
        let table = if self.has(Fault::TableRoomNotJudged) { plate.cells() } else { handed.table.len() };
        let short = [handed.gray.len(), handed.dots.len(), table].iter().any(|&length| length < plate.cells());
        let late = self.has(Fault::RoomJudgedLate) && reader.bytes.get(reader.place) != Some(&b'p');
        let drawn = (psf_short || short) && !late;
        (!drawn).then_some(()).ok_or((reader.place, 12))
    }

    /// T of the filed dots at the front of the table; what lies past it stays.
    fn store_table(&self, plate: &Handed, table: &mut [i32]) {
        let filtered = narrow(Plate::new(plate, None).filtered_error());
        table.iter_mut().zip(filtered).for_each(|(entry, t)| *entry = t);
        if self.has(Fault::TablePastCleared) {
            table.iter_mut().skip(plate.cells()).for_each(|entry| *entry = 0);
        }
    }

    fn verdict(&self, filed: &Filed) -> [i64; VERDICT] {
        let [before, after, ..] = filed.figures;
        let squared = self.squared(&filed.plate);
        let agrees = match self.fault {
            Some(Fault::FigureWithItself) => true,
            Some(Fault::BeforeCompared) => before == squared,
            _ => after == squared,
        };
        let verdicts = [agrees, self.fits(filed, squared)];
        let [agrees, fits] = verdicts.map(|holds| i64::from(holds || self.has(Fault::AllVerdictsGood)));
        [after, squared, agrees, fits, self.resting(&filed.plate), filed.plate.cells() as i64]
    }

    /// 1 where the plate rests, else 0; -16 where a start would draw 16 of its dots.
    fn resting(&self, plate: &Handed) -> i64 {
        match self.fault {
            Some(Fault::RestNotTried | Fault::AllVerdictsGood) => return 1,
            Some(Fault::ContradictionNotTold) => {}
            _ if self.contradicts(plate) => return -16,
            _ => {}
        }
        i64::from(Plate::new(plate, self.fault).rests())
    }

    /// E of the filed dots.
    fn squared(&self, plate: &Handed) -> i64 {
        let mut plate = plate.clone();
        if self.has(Fault::DotLeftOut) {
            *plate.dots.last_mut().expect("a cell") = 0;
        }
        Plate::new(&plate, None).sum_of_squares()
    }

    /// Whether none of 21's conditions holds of the ledger, nor are the dots at the start below 0. These + on - off are
    /// the dots on the plate, by the way in which they are taken.
    fn fits(&self, filed: &Filed, squared: i64) -> bool {
        let [before, after, on, off, swaps, _] = filed.figures.map(i128::from);
        let lifted = if self.has(Fault::StartDotsReversed) { on - off } else { off - on };
        let start_dots = i128::from(Plate::new(&filed.plate, None).dot_total()) + lifted;
        let fall = 255 * (on + off + swaps);
        let wraps = self.has(Fault::FallWraps);
        let conditions = [
            after != i128::from(squared),
            before > i128::from(MAX_ERROR),
            start_dots < 0,
            start_dots > filed.plate.cells() as i128,
            before - after < if wraps { i128::from(fall as i64) } else { fall },
            !wraps && [on, off, swaps].iter().any(|&count| count > i128::from(MAX_COUNT)),
            self.has(Fault::ContradictionUnfits) && self.contradicts(&filed.plate),
        ];
        let judged = |&(at, _): &(usize, bool)| !self.has(Fault::ConditionPassedOver(at));
        !conditions.into_iter().enumerate().filter(judged).any(|(_, holds)| holds)
    }
}

/// The sheet to the front of the slices; what lies past it stays.
fn store(plate: &Handed, handed: &mut Handed) {
    handed.psf[..plate.psf.len()].copy_from_slice(&plate.psf);
    handed.gray[..plate.cells()].copy_from_slice(&plate.gray);
    handed.dots[..plate.cells()].copy_from_slice(&plate.dots);
}
