//! Gray PFM files (`Pf`): the reader, from the words of request C-16. Measures are those of refusal 1, lines and
//! numbers those of a sheet.
//!
//! A sample is taken apart into the sign, the exponent and the fraction of its 32 bits, and whatever is said of its
//! value is worked out with whole numbers. Only two mistakes reckon with floats.

use crate::fault::Fault;
use crate::handed::Handed;
use crate::picture::wrapped;
use crate::plain::Second;
use std::cmp::Reverse;

/// The bytes of a sample.
pub const SAMPLE: usize = 4;

/// The patterns of 1.0 and of minus zero. The shades are those from 0 to the first, which rise with the value, and the
/// second.
pub const ONE: u32 = 0x3F80_0000;
pub const MINUS_ZERO: u32 = 0x8000_0000;

/// The pattern of 0.5: the one shade v with which 510 * v is an odd number.
pub const TIE: u32 = 0x3F00_0000;

/// A header is four words, each ended by its own byte: `Pf`, the width, the height, the scale.
const ENDS: [u8; 4] = *b"\n \n\n";

/// The order of the bytes of a sample.
#[derive(Clone, Copy, PartialEq, Eq, Debug)]
pub enum Order {
    Big,
    Little,
}

impl Order {
    pub const BOTH: [Order; 2] = [Order::Big, Order::Little];

    /// The text that names it in a header.
    pub fn text(self) -> &'static str {
        match self {
            Order::Big => "1.0",
            Order::Little => "-1.0",
        }
    }

    pub fn scale(self) -> f32 {
        match self {
            Order::Big => 1.0,
            Order::Little => -1.0,
        }
    }

    pub fn bytes(self, pattern: u32) -> [u8; SAMPLE] {
        match self {
            Order::Big => pattern.to_be_bytes(),
            Order::Little => pattern.to_le_bytes(),
        }
    }

    /// The pattern that these bytes have.
    fn pattern(self, bytes: &[u8]) -> u32 {
        let more = |pattern: u32, byte: &u8| pattern << 8 | u32::from(*byte);
        match self {
            Order::Big => bytes.iter().fold(0, more),
            Order::Little => bytes.iter().rev().fold(0, more),
        }
    }

    fn other(self) -> Order {
        match self {
            Order::Big => Order::Little,
            Order::Little => Order::Big,
        }
    }
}

/// The header of a file.
pub fn header(width: usize, height: usize, order: Order) -> Vec<u8> {
    format!("Pf\n{width} {height}\n{}\n", order.text()).into_bytes()
}

/// The file with these patterns, as they stand in it: bottom row first.
pub fn file(width: usize, height: usize, order: Order, patterns: &[u32]) -> Vec<u8> {
    let mut file = header(width, height, order);
    file.extend(patterns.iter().flat_map(|&pattern| order.bytes(pattern)));
    file
}

/// The exact value of a float that is a number, without its sign: whole / 2^shift. whole is below 2^24, and where shift
/// is below 0 it is at least 2^23.
#[derive(Clone, Copy, PartialEq, Eq, Debug)]
pub struct Value {
    whole: i64,
    shift: i32,
}

impl Value {
    /// Whether whole exceeds 2^shift.
    fn is_above_one(self) -> bool {
        self.shift < 24 && self.whole > 1 << self.shift.max(0)
    }

    /// The brightness: k where 2k - 1 <= 510 * v < 2k + 1, all of it times 2^shift. Where shift is above 33, 510 * v is
    /// below 1, since 510 * whole is below 2^33. Not for a shift below 0.
    fn brightness(self) -> i64 {
        if self.shift > 33 {
            return 0;
        }
        let (v, one) = (510 * self.whole, 1_i64 << self.shift);
        let k = (v + one) >> (self.shift + 1);
        assert!((2 * k - 1) * one <= v && v < (2 * k + 1) * one, "{self:?} has not the brightness {k}");
        k
    }
}

/// What a sample is read as: a shade; a value outside 0 to 1, which is above 1, below 0 or an infinity; or no number.
#[derive(Clone, Copy, PartialEq, Eq, Debug)]
pub enum Sample {
    Shade(Value),
    Above(Value),
    Below(Value),
    Infinite,
    NoNumber,
}

/// What the sample with this pattern is read as.
pub fn sample(pattern: u32) -> Sample {
    let (minus, exponent) = (pattern >> 31 == 1, pattern >> 23 & 0xFF);
    let fraction = i64::from(pattern & 0x7F_FFFF);
    let (whole, power) = match exponent {
        0xFF if fraction == 0 => return Sample::Infinite,
        0xFF => return Sample::NoNumber,
        0 => (fraction, 1),
        _ => (fraction + (1 << 23), exponent as i32),
    };
    let value = Value { whole, shift: 150 - power };
    match (whole, minus) {
        (0, _) => Sample::Shade(value),
        (_, true) => Sample::Below(value),
        _ if value.is_above_one() => Sample::Above(value),
        _ => Sample::Shade(value),
    }
}

/// The gray of the sample with this pattern, if it is a shade: 255 less its brightness.
pub fn gray(pattern: u32) -> Option<u8> {
    match sample(pattern) {
        Sample::Shade(value) => Some((255 - value.brightness()) as u8),
        _ => None,
    }
}

/// What a file has that is not refused with 17: its header, and its patterns as they stand in it.
pub struct File {
    pub width: usize,
    pub height: usize,
    pub order: Order,
    pub patterns: Vec<u32>,
}

/// What a file has, if it is not refused with 17.
pub fn taken_apart(file: &[u8]) -> Option<File> {
    let Header { width, height, order, raster } = Second::default().pfm_header(file)?;
    let patterns = raster.chunks_exact(SAMPLE).map(|bytes| order.pattern(bytes)).collect();
    (raster.len() == SAMPLE * width * height).then_some(File { width, height, order, patterns })
}

/// The least pattern of a brightness, or of a higher one: where 510 * v reaches 2k - 1. Found by halving.
pub fn boundary(k: u8) -> u32 {
    let reached = |pattern: u32| gray(pattern).is_some_and(|gray| 255 - gray >= k);
    let (mut below, mut reaches) = (0, ONE);
    while reaches - below > 1 {
        let middle = (below + reaches) / 2;
        if reached(middle) {
            reaches = middle;
        } else {
            below = middle;
        }
    }
    reaches
}

/// A header that is as it has to be, and what follows it.
struct Header<'a> {
    width: usize,
    height: usize,
    order: Order,
    raster: &'a [u8],
}

impl Second {
    /// Whether a byte ends a word that has this end.
    fn ends_word(&self, byte: u8, end: u8) -> bool {
        let mistaken = match self.fault {
            Some(Fault::PfmTabTaken) => (end, byte) == (b' ', b'\t'),
            Some(Fault::PfmMeasuresOnTwoLines) => (end, byte) == (b' ', b'\n'),
            Some(Fault::PfmCrForLfTaken) => (end, byte) == (b'\n', b'\r'),
            _ => false,
        };
        byte == end || mistaken
    }

    /// What a mistake passes over before the end of a line.
    fn without_tail<'a>(&self, word: &'a [u8]) -> &'a [u8] {
        let tail = match self.fault {
            Some(Fault::PfmCrTaken) => b"\r",
            Some(Fault::PfmSpaceAtEndTaken) => b" ",
            _ => return word,
        };
        word.strip_suffix(tail).unwrap_or(word)
    }

    /// What a mistake passes over after the end of a word.
    fn passed_over(&self, rest: &[u8], end: u8) -> usize {
        let comment = || rest.iter().position(|&byte| byte == b'\n').map_or(0, |at| at + 1);
        match self.fault {
            Some(Fault::PfmSpacesTaken) if end == b' ' => rest.iter().take_while(|&&byte| byte == b' ').count(),
            Some(Fault::PfmCommentTaken) if end == b'\n' && rest.starts_with(b"#") => comment(),
            _ => 0,
        }
    }

    /// A measure: a number as in a sheet, digits without leading zeros, from 1 to 256.
    fn measure(&self, word: &[u8]) -> Option<usize> {
        let word = if self.has(Fault::PfmSignTaken) { word.strip_prefix(b"+").unwrap_or(word) } else { word };
        let digits = !word.is_empty() && word.iter().all(u8::is_ascii_digit);
        let zeros = word.len() > 1 && word[0] == b'0' && !self.has(Fault::PfmLeadingZeroTaken);
        let more = |value: usize, digit: &u8| 10 * value + usize::from(digit - b'0');
        let number = || match self.fault {
            Some(Fault::PfmNumberWraps(bits)) => wrapped(word, bits),
            _ => word.iter().fold(0, |value, digit| more(value, digit).min(258)),
        };
        let taken = |size: &usize| (1..=256).contains(size) || self.has(Fault::PfmSizeTaken(*size));
        (digits && !zeros).then(number).filter(taken)
    }

    /// The byte order by the text of the scale.
    fn order(&self, text: &[u8]) -> Option<Order> {
        let text = match self.fault {
            Some(Fault::PfmMoreZerosTaken) if text.ends_with(b".00") => &text[..text.len() - 1],
            Some(Fault::PfmScalePlusTaken) => text.strip_prefix(b"+").unwrap_or(text),
            Some(Fault::PfmWholeScaleTaken) if text == b"1" => b"1.0",
            Some(Fault::PfmWholeScaleTaken) if text == b"-1" => b"-1.0",
            Some(Fault::PfmAnyScaleTaken) if text.starts_with(b"-") => b"-1.0",
            Some(Fault::PfmAnyScaleTaken) => b"1.0",
            _ => text,
        };
        Order::BOTH.into_iter().find(|order| order.text().as_bytes() == text)
    }

    /// The header of a file, if it is as it has to be.
    fn pfm_header<'a>(&self, file: &'a [u8]) -> Option<Header<'a>> {
        let (mut words, mut rest) = ([file; 4], file);
        for (word, end) in words.iter_mut().zip(ENDS) {
            let at = rest.iter().position(|&byte| self.ends_word(byte, end))?;
            (*word, rest) = (&rest[..at], &rest[at + 1..]);
            if end == b'\n' {
                *word = self.without_tail(word);
            }
            rest = &rest[self.passed_over(rest, end)..];
        }
        let [magic, width, height, scale] = words;
        let gray = magic == b"Pf" || magic == b"PF" && self.has(Fault::PfmColourTaken);
        let (width, height, order) = (self.measure(width)?, self.measure(height)?, self.order(scale)?);
        gray.then_some(Header { width, height, order, raster: rest })
    }

    /// The raster is all that follows the header: four bytes a cell.
    fn pfm_length_allowed(&self, cells: usize, raster: &[u8]) -> bool {
        let needed = SAMPLE * cells;
        match self.fault {
            Some(Fault::PfmTrailingTaken) => raster.len() >= needed,
            Some(Fault::PfmLineEndAfterTaken) if raster.len() == needed + 1 => raster[needed] == b'\n',
            Some(Fault::PfmLengthInSamples) => raster.len() / SAMPLE == cells,
            _ => raster.len() == needed,
        }
    }

    /// The brightness of a shade, right or with a mistake.
    fn brightness(&self, pattern: u32, value: Value) -> i64 {
        let by_float = || f32::from_bits(pattern) * 255.0;
        let times = |factor: i64| (factor * value.whole) >> value.shift.min(63);
        match self.fault {
            Some(Fault::PfmTieDown) => value.brightness() - i64::from(pattern == TIE),
            Some(Fault::PfmRoundedByFloat) => by_float().round() as i64,
            Some(Fault::PfmHalfAddedByFloat) => (by_float() + 0.5) as i64,
            Some(Fault::PfmCut) => times(255),
            Some(Fault::PfmRoundedUp) => -times(-255),
            Some(Fault::PfmBy256) => times(256).min(255),
            _ => value.brightness(),
        }
    }

    /// The brightness of a sample that is a shade; with a mistake that of some others too, or not of all shades.
    fn brightness_of(&self, pattern: u32) -> Option<i64> {
        let near = |value: Value, k: i64| value.shift >= 23 && value.brightness() == k;
        let minus = pattern & MINUS_ZERO > 0;
        match (sample(pattern), self.fault) {
            (_, Some(Fault::PfmPatternRefused(refused))) if pattern == refused => None,
            (_, Some(Fault::PfmSubnormalRefused)) if (1..1 << 23).contains(&pattern) => None,
            (Sample::Shade(value), _) => Some(self.brightness(pattern, value)),
            (Sample::Above(value), Some(Fault::PfmAboveTaken)) => near(value, 255).then_some(255),
            (Sample::Above(_), Some(Fault::PfmAllAboveTaken)) => Some(255),
            (Sample::Below(value), Some(Fault::PfmBelowTaken)) => near(value, 0).then_some(0),
            (Sample::Below(_), Some(Fault::PfmAllBelowTaken)) => Some(0),
            (Sample::Below(_), Some(Fault::PfmNegativeSubnormalTaken)) => (pattern >> 23 == 0x100).then_some(0),
            (Sample::Below(_), Some(Fault::PfmSignDropped)) => self.brightness_of(pattern ^ MINUS_ZERO),
            (Sample::Infinite, Some(Fault::PfmInfinityTaken)) => (!minus).then_some(255),
            (Sample::Infinite, Some(Fault::PfmMinusInfinityTaken)) => minus.then_some(0),
            (Sample::NoNumber, Some(Fault::PfmNoNumberTaken)) => Some(0),
            (Sample::NoNumber, Some(Fault::PfmMinusNoNumberTaken)) => minus.then_some(0),
            (Sample::NoNumber, Some(Fault::PfmSignallingTaken)) => (pattern & 1 << 22 == 0).then_some(0),
            _ => None,
        }
    }

    /// The byte offset of the first sample in file order that is no shade.
    fn pfm_offset(&self, front: usize, width: usize, shades: &[Option<i64>]) -> Option<usize> {
        let bad = (0..shades.len()).filter(|&at| shades[at].is_none());
        let at = match self.fault {
            Some(Fault::PfmOffsetOfLast) => bad.max(),
            Some(Fault::PfmOffsetInRasterOrder) => bad.min_by_key(|at| (Reverse(at / width), at % width)),
            _ => bad.min(),
        }?;
        Some(match self.fault {
            Some(Fault::PfmOffsetOfSample) => at,
            Some(Fault::PfmOffsetWithoutHeader) => SAMPLE * at,
            Some(Fault::PfmOffsetPastSample) => front + SAMPLE * at + SAMPLE,
            _ => front + SAMPLE * at,
        })
    }

    /// Stores the gray of the shades of a file, up to the first sample that is none: 255 less the brightness.
    fn store_shades(&self, (width, height): (usize, usize), shades: &[Option<i64>], gray: &mut [u8]) {
        for (at, k) in shades.iter().map_while(|&k| k).enumerate() {
            let (up, right) = (at / width, at % width);
            let row = if self.has(Fault::PfmTopRowFirst) { up } else { height - 1 - up };
            let col = if self.has(Fault::PfmRightToLeft) { width - 1 - right } else { right };
            // only with a mistake there is no such cell
            if let Some(cell) = gray.get_mut(row * width + col) {
                *cell = if self.has(Fault::PfmGrayNotNegated) { k } else { 255 - k } as u8;
            }
        }
    }

    /// Reads a PFM file: 17, then 12, then 18.
    pub fn read_pfm(&self, handed: &mut Handed) -> Result<(), u32> {
        let header = self.pfm_header(&handed.bytes).ok_or(17_u32)?;
        let Header { width, height, order, raster } = header;
        let (cells, front) = (width * height, handed.bytes.len() - raster.len());
        let order_read = match self.fault {
            Some(Fault::PfmOrderExchanged) => order.other(),
            Some(Fault::PfmOneOrder(one)) => one,
            _ => order,
        };
        let patterns = raster.chunks_exact(SAMPLE).take(cells).map(|bytes| order_read.pattern(bytes));
        let shades: Vec<Option<i64>> = patterns.map(|pattern| self.brightness_of(pattern)).collect();
        let offset = self.pfm_offset(front, width, &shades);
        let needed = cells + usize::from(self.has(Fault::PfmExactRoomRefused));
        let short = handed.gray.len() < needed && !self.has(Fault::PfmRoomNotJudged);
        let mut judged = [(17, !self.pfm_length_allowed(cells, raster)), (12, short), (18, offset.is_some())];
        match self.fault {
            Some(Fault::PfmRoomBeforeLength) => judged.swap(0, 1),
            Some(Fault::PfmRoomLast) => judged.swap(1, 2),
            Some(Fault::PfmSamplesBeforeLength) => judged.rotate_right(1),
            _ => {}
        }
        let drawn = judged.into_iter().find(|&(_, drawn)| drawn).map(|(number, _)| number);
        if drawn.is_none() || drawn.is_some_and(|number| self.has(Fault::PfmPartStored(number))) {
            self.store_shades((width, height), &shades, &mut handed.gray);
        }
        if let Some(number) = drawn {
            handed.offset = offset.filter(|_| number == 18).unwrap_or(handed.offset);
            self.write_refused(number, (width, height), order, handed);
            return Err(number);
        }
        self.write_read((width, height), order, handed);
        Ok(())
    }

    /// The results of a file that is read.
    fn write_read(&self, (width, height): (usize, usize), order: Order, handed: &mut Handed) {
        (handed.read_width, handed.read_height) = (width, height);
        let before = std::mem::replace(&mut handed.scale, order.scale());
        match self.fault {
            Some(Fault::PfmSidesExchanged) => (handed.read_width, handed.read_height) = (height, width),
            Some(Fault::PfmScaleNotTold) => handed.scale = before,
            Some(Fault::PfmScaleWithoutSign) => handed.scale = 1.0,
            Some(Fault::PfmOffsetOnSuccess) => handed.offset = 0,
            Some(Fault::PfmRestCleared) => handed.gray[width * height..].fill(0),
            _ => {}
        }
    }

    /// What a mistake writes with a refusal.
    fn write_refused(&self, number: u32, (width, height): (usize, usize), order: Order, handed: &mut Handed) {
        match self.fault {
            Some(Fault::PfmWidthOnRefusal(on)) if on == number => handed.read_width = width,
            Some(Fault::PfmHeightOnRefusal(on)) if on == number => handed.read_height = height,
            Some(Fault::PfmScaleOnRefusal(on)) if on == number => handed.scale = order.scale(),
            _ => {}
        }
    }
}
