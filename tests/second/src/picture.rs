//! Netpbm files: the readers and the writers of raw PBM (P4) and raw PGM (P5), and the dots of each row of a packed
//! raster. Request C-11 gives the refusals, and the public pages pbm(5) and pgm(5) the layouts.
//!
//! A header is taken as the pages say it: what is left of it without the comments is the magic number, then the
//! numbers, each after white space, then one white space. So the comments are taken out, and what is left is parted into
//! words. The magic number is the first two bytes of the file: no comment stands before or in it.

use crate::fault::Fault;
use crate::handed::{Call, Handed};
use crate::plain::{refuse, Second};

/// The magic numbers.
pub const PBM: &[u8] = b"P4";
pub const PGM: &[u8] = b"P5";

/// The maximum of a PGM file is less than this, and more than zero.
const MAXIMUM_LIMIT: usize = 65_536;

/// A header, as far as it is read: its text without the comments, the words ended in it, and the bytes of the file that
/// it takes.
#[derive(Default)]
struct Header {
    text: Vec<u8>,
    ended: usize,
    length: usize,
}

/// A file that has the layout: its width, its height, the maximum of a PGM file, and the raster.
struct Picture<'a> {
    width: usize,
    height: usize,
    maximum: Option<usize>,
    raster: &'a [u8],
}

/// The bytes of a packed row: 8 cells to a byte, the last byte filled out.
pub fn row_bytes(width: usize) -> usize {
    width.div_ceil(8)
}

/// The PBM file of these dots.
pub fn pbm(width: usize, height: usize, dots: &[u8]) -> Vec<u8> {
    Second::default().pbm(width, height, dots)
}

/// The PGM file of this gray.
pub fn pgm(width: usize, height: usize, gray: &[u8]) -> Vec<u8> {
    Second::default().pgm(width, height, gray)
}

impl Second {
    /// Space, CR, LF, TAB, VT, FF: what isspace() of C calls white space.
    fn is_white(&self, byte: u8) -> bool {
        matches!(byte, b' ' | b'\r' | b'\n' | b'\t') || matches!(byte, 11 | 12) && !self.has(Fault::FormFeedRefused)
    }

    /// A comment goes through the next CR or LF.
    fn ends_comment(&self, byte: u8) -> bool {
        byte == b'\n' || byte == b'\r' && !self.has(Fault::CommentEndsAtLineFeed)
    }

    /// How many bytes a comment takes that begins here, if one does.
    fn comment(&self, rest: &[u8]) -> Option<usize> {
        let end = || rest.iter().position(|&byte| self.ends_comment(byte));
        let line_end = usize::from(!self.has(Fault::CommentIsWhiteSpace));
        (rest.first() == Some(&b'#')).then(end)?.map(|end| end + line_end)
    }

    /// The magic number is two bytes.
    fn is_past_magic(&self, at: usize) -> bool {
        at >= PBM.len() || self.has(Fault::CommentInMagic)
    }

    /// The header that ends with this many words, each of them ended by white space.
    fn header(&self, file: &[u8], words: usize) -> Option<Header> {
        let mut header = Header::default();
        while header.ended < words {
            let rest = &file[header.length..];
            match self.comment(rest).filter(|_| self.is_past_magic(header.length)) {
                Some(bytes) => self.pass_comment(bytes, words, &mut header)?,
                None => self.take(*rest.first()?, &mut header),
            }
        }
        header.length += self.taken_too_much(&file[header.length..]);
        Some(header)
    }

    /// A comment is ignored, wherever it stands after the magic number.
    fn pass_comment(&self, bytes: usize, words: usize, header: &mut Header) -> Option<()> {
        header.length += bytes;
        let in_word = !self.white_at_end(&header.text);
        let mistaken = in_word && self.has(Fault::CommentDelimits) && header.ended + 1 == words;
        header.ended += usize::from(mistaken);
        (!in_word || !self.has(Fault::CommentInWordRefused)).then_some(())
    }

    /// White space after another byte ends a word.
    fn take(&self, byte: u8, header: &mut Header) {
        header.length += 1;
        header.ended += usize::from(self.is_white(byte) && !self.white_at_end(&header.text));
        header.text.push(byte);
        if self.has(Fault::MagicNotEnded) && header.text.len() == 2 {
            header.text.push(b' ');
            header.ended += 1;
        }
    }

    fn white_at_end(&self, text: &[u8]) -> bool {
        text.last().is_some_and(|&byte| self.is_white(byte))
    }

    /// What two mistakes take for a part of the header after its end.
    fn taken_too_much(&self, rest: &[u8]) -> usize {
        let white = rest.first().is_some_and(|&byte| self.is_white(byte));
        match self.fault {
            Some(Fault::TwoWhiteSpacesTaken) => usize::from(white),
            Some(Fault::CommentAfterHeader) => self.comment(rest).unwrap_or(0),
            _ => 0,
        }
    }

    /// A number in decimal, leading zeros allowed; those from MAXIMUM_LIMIT on are all taken as MAXIMUM_LIMIT.
    fn number(&self, word: &[u8]) -> Option<usize> {
        let long_zero = word.len() > 1 && word[0] == b'0';
        let digits = word.iter().all(u8::is_ascii_digit) && !(long_zero && self.has(Fault::LeadingZeroRefused));
        let more = |value: usize, digit: &u8| 10 * value + usize::from(digit - b'0');
        let number = || match self.fault {
            Some(Fault::NumberWraps(bits)) => wrapped(word, bits),
            _ => word.iter().fold(0, |value, digit| more(value, digit).min(MAXIMUM_LIMIT)),
        };
        digits.then(number)
    }

    /// What a file with this magic number has, if its header and its length are as the layout allows.
    fn picture<'a>(&self, magic: &[u8], file: &'a [u8]) -> Option<Picture<'a>> {
        let numbers = if magic == PBM { 2 } else { 3 };
        let header = self.header(file, 1 + numbers)?;
        let mut words = header.text.split(|&byte| self.is_white(byte));
        // white space before the magic number makes an empty first word
        if words.next() != Some(magic) {
            return None;
        }
        let words = words.filter(|word| !word.is_empty());
        let numbers: Vec<usize> = words.map(|word| self.number(word)).collect::<Option<_>>()?;
        let (width, height, maximum) = (numbers[0], numbers[1], numbers.get(2).copied());
        let raster = &file[header.length..];
        let taken = !self.outside(width)
            && !self.outside(height)
            && maximum.is_none_or(|maximum| self.maximum_allowed(maximum))
            && self.length_allowed(width, height, maximum, raster);
        taken.then_some(Picture { width, height, maximum, raster })
    }

    fn maximum_allowed(&self, maximum: usize) -> bool {
        let zero = maximum == 0 && !self.has(Fault::MaximumZeroTaken);
        let large = maximum >= MAXIMUM_LIMIT && !self.has(Fault::MaximumAboveTaken);
        !zero && !large
    }

    /// The raster is all that follows the header: packed rows, or one byte a cell.
    fn length_allowed(&self, width: usize, height: usize, maximum: Option<usize>, raster: &[u8]) -> bool {
        let cell = if maximum > Some(255) && self.has(Fault::CellByMaximum) { 2 } else { 1 };
        let row = if maximum.is_none() { row_bytes(width) } else { cell * width };
        let after = usize::from(self.has(Fault::TrailingByteTaken));
        (height * row..=height * row + after).contains(&raster.len())
    }

    /// The bit of a cell in a packed raster.
    fn bit(&self, width: usize, packed: &[u8], row: usize, col: usize) -> u8 {
        let from_right = if self.has(Fault::LowestBitFirst) { col % 8 } else { 7 - col % 8 };
        packed[row * row_bytes(width) + col / 8] >> from_right & 1
    }

    /// Reads a PBM file: 14, then 12.
    pub fn read_pbm(&self, handed: &mut Handed) -> Result<(), u32> {
        let picture = self.picture(PBM, &handed.bytes).ok_or(14_u32)?;
        let Picture { width, height, raster, .. } = picture;
        self.judge_room(handed.dots.len(), width * height)?;
        for at in 0..width * height {
            handed.dots[at] = self.bit(width, raster, at / width, at % width);
        }
        self.touch_rest(&mut handed.dots, width * height);
        (handed.read_width, handed.read_height) = (width, height);
        Ok(())
    }

    /// Reads a PGM file: 14, then 15, then 12. Gray is 255 less the stored value.
    pub fn read_pgm(&self, handed: &mut Handed) -> Result<(), u32> {
        let picture = self.picture(PGM, &handed.bytes).ok_or(14_u32)?;
        let Picture { width, height, raster, .. } = picture;
        if self.has(Fault::RoomBeforeMaximum) {
            self.judge_room(handed.gray.len(), width * height)?;
        }
        refuse(15, picture.maximum != Some(255))?;
        self.judge_room(handed.gray.len(), width * height)?;
        for (gray, stored) in handed.gray.iter_mut().zip(&raster[..width * height]) {
            *gray = if self.has(Fault::GrayNotNegated) { *stored } else { 255 - stored };
        }
        self.touch_rest(&mut handed.gray, width * height);
        (handed.read_width, handed.read_height) = (width, height);
        Ok(())
    }

    /// 12: a lent slice shorter than needed.
    fn judge_room(&self, room: usize, needed: usize) -> Result<(), u32> {
        refuse(12, room < needed + usize::from(self.has(Fault::ExactRoomRefused)))
    }

    /// A mistake: what lies past the part written does not stay.
    fn touch_rest(&self, buffer: &mut [u8], written: usize) {
        if self.has(Fault::RestCleared) {
            buffer[written..].fill(0);
        }
    }

    /// The lines `P4` and `W H`, then the dots, a row packed from its left end; spare bits are 0.
    fn pbm(&self, width: usize, height: usize, dots: &[u8]) -> Vec<u8> {
        let mut file = format!("P4\n{width} {height}\n").into_bytes();
        for row in dots.chunks(width) {
            file.extend(row.chunks(8).map(|cells| self.packed(cells)));
        }
        file
    }

    /// Up to 8 dots as a byte.
    fn packed(&self, cells: &[u8]) -> u8 {
        let spare = u8::from(self.has(Fault::SpareBitsWritten));
        let dot = |at: usize| cells.get(at).copied().unwrap_or(spare);
        let shift = |at: usize| if self.has(Fault::LowestBitFirst) { at } else { 7 - at };
        (0..8).map(|at| dot(at) << shift(at)).sum()
    }

    /// The lines `P5`, `W H` and `255`, then 255 less the gray of each cell.
    fn pgm(&self, width: usize, height: usize, gray: &[u8]) -> Vec<u8> {
        let mut file = format!("P5\n{width} {height}\n255\n").into_bytes();
        file.extend(gray.iter().map(|gray| if self.has(Fault::GrayNotNegated) { *gray } else { 255 - gray }));
        file
    }

    /// Writes a PBM file: 1, 5, 7, then 12.
    pub fn write_pbm(&self, handed: &mut Handed) -> Result<(), u32> {
        let judged = self.judge(Call::WritePbm, handed);
        if judged == Err(7) && self.has(Fault::RoomBeforeDots) {
            self.judge_room(handed.out.len(), pbm(handed.width, handed.height, &vec![0; handed.cells()]).len())?;
        }
        judged?;
        let file = self.pbm(handed.width, handed.height, &handed.dots);
        self.write(&file, handed)
    }

    /// Writes a PGM file: 1, 5, then 12.
    pub fn write_pgm(&self, handed: &mut Handed) -> Result<(), u32> {
        self.judge(Call::WritePgm, handed)?;
        let file = self.pgm(handed.width, handed.height, &handed.gray);
        self.write(&file, handed)
    }

    fn write(&self, file: &[u8], handed: &mut Handed) -> Result<(), u32> {
        self.judge_room(handed.out.len(), file.len())?;
        handed.out[..file.len()].copy_from_slice(file);
        self.touch_rest(&mut handed.out, file.len());
        handed.length = file.len();
        Ok(())
    }

    /// The dots of each row of a packed raster: 1, then 5. Spare bits are not counted.
    pub fn count_rows(&self, handed: &mut Handed) -> Result<(), u32> {
        self.judge(Call::CountRows, handed)?;
        let counted = if self.has(Fault::SpareBitsCounted) { 8 * row_bytes(handed.width) } else { handed.width };
        for row in 0..handed.height {
            let bits = (0..counted).map(|col| self.bit(handed.width, &handed.packed, row, col));
            handed.counts[row] = bits.map(u32::from).sum();
        }
        Ok(())
    }
}

/// A number that keeps only its lowest bits, a mistake.
pub fn wrapped(word: &[u8], bits: u32) -> usize {
    let kept = |value: u128| value % (1 << bits);
    word.iter().fold(0, |value, digit| kept(10 * value + u128::from(digit - b'0'))) as usize
}
