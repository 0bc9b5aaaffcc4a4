//! Vectors: a call as a line of text, with all that it leaves. tests/README.md has the form of a line.

use crate::handed::{Call, Handed, MEASURES};
use std::fmt::{Display, Write};
use std::mem::take;
use std::str::FromStr;

/// The two sides of a line: what the call is handed, and what it comes to.
pub fn sides(line: &str) -> (&str, &str) {
    line.split_once(" = ").unwrap_or((line, ""))
}

/// Puts what the left side sets into the record, and answers the call. All else stays, save the results: each is 7, so
/// that it shows where one is not written.
pub fn hand(left: &str, handed: &mut Handed) -> Result<Call, String> {
    let mut fields = left.split(" | ");
    let call = name(fields.next().unwrap_or_default(), handed)?;
    fields.try_for_each(|field| set(field, handed))?;
    *handed = Handed { error: 7, change: 7, changes: 7, trials: 7, scans: 7, ..take(handed) };
    (handed.quotient, handed.remainder) = (7, 7);
    (handed.length, handed.offset, handed.read_width, handed.read_height, handed.scale) = (7, 7, 7, 7, 7.0);
    Ok(call)
}

/// The right side: the answer, then every result and every buffer that the call may write.
pub fn outcome(call: Call, answer: u32, handed: &Handed) -> String {
    let parts = written(call).iter().map(|field| format!(" | {}", shown(field, handed)));
    answer.to_string() + &parts.collect::<String>()
}

/// The call that the first words name, and the cells after it.
fn name(words: &str, handed: &mut Handed) -> Result<Call, String> {
    let (call, cells) = words.split_once(' ').unwrap_or((words, ""));
    let cells: Vec<usize> = numbers(cells)?;
    let (call, named) = match call {
        "autocorrelation" => (Call::Autocorrelation, 0),
        "filtered-error" => (Call::FilteredError, 0),
        "squared-error" => (Call::SquaredError, 0),
        "tone-balance" => (Call::ToneBalance, 0),
        "start" => (Call::Start, 0),
        "toggle" => (Call::TryToggle, 2),
        "swap" => (Call::TrySwap, 4),
        "toggle-scan" => (Call::ToggleScan, 0),
        "swap-scan" => (Call::SwapScan, 0),
        "converge" => (Call::Converge, 0),
        "read-sheet" => (Call::ReadSheet, 0),
        "write-sheet" => (Call::WriteSheet, 0),
        "check-filed" => (Call::CheckFiled, 0),
        "read-pbm" => (Call::ReadPbm, 0),
        "read-pgm" => (Call::ReadPgm, 0),
        "read-pfm" => (Call::ReadPfm, 0),
        "write-pbm" => (Call::WritePbm, 0),
        "write-pgm" => (Call::WritePgm, 0),
        "count-rows" => (Call::CountRows, 0),
        _ => return Err(format!("there is no call {call}")),
    };
    if cells.len() != named {
        return Err(format!("{} numbers after the call, not {named}", cells.len()));
    }
    let places = [&mut handed.row, &mut handed.col, &mut handed.row2, &mut handed.col2];
    places.into_iter().zip(cells).for_each(|(place, cell)| *place = cell);
    Ok(call)
}

/// Sets one field of the left side.
fn set(field: &str, handed: &mut Handed) -> Result<(), String> {
    let (name, values) = field.split_once(' ').unwrap_or((field, ""));
    match name {
        "plate" => set_measures(values, handed)?,
        "size" => set_size(values, handed)?,
        "psf" => handed.psf = numbers(values)?,
        "gray" => handed.gray = numbers(values)?,
        "dots" => handed.dots = numbers(values)?,
        "table" => handed.table = numbers(values)?,
        "stats" => handed.stats = numbers(values)?,
        "autocorrelation" => handed.autocorrelation = numbers(values)?,
        "measures" => handed.measures = numbers(values)?,
        "bytes" => handed.bytes = bytes(values)?,
        "out" => handed.out = bytes(values)?,
        "packed" => handed.packed = numbers(values)?,
        "counts" => handed.counts = numbers(values)?,
        "verdict" => handed.verdict = numbers(values)?,
        _ => return Err(format!("there is no field {name}")),
    }
    Ok(())
}

/// Any number of measures. What is missing of the five is 0 to whoever takes it.
fn set_measures(values: &str, handed: &mut Handed) -> Result<(), String> {
    let measures: Vec<usize> = numbers(values)?;
    let five: [usize; MEASURES] = std::array::from_fn(|at| measures.get(at).copied().unwrap_or(0));
    [handed.width, handed.height, handed.radius, handed.reach, handed.start] = five;
    handed.other_measures = (measures.len() != MEASURES).then_some(measures);
    Ok(())
}

fn set_size(values: &str, handed: &mut Handed) -> Result<(), String> {
    let Ok(size) = <[usize; 2]>::try_from(numbers(values)?) else {
        return Err("a size is a width and a height".to_string());
    };
    [handed.width, handed.height] = size;
    Ok(())
}

/// What a call may write: its results, then its buffers.
fn written(call: Call) -> &'static [&'static str] {
    match call {
        Call::Autocorrelation => &["autocorrelation"],
        Call::FilteredError => &["table"],
        Call::SquaredError => &["error"],
        Call::ToneBalance => &["quotient", "remainder"],
        Call::Start => &["dots", "table", "stats"],
        Call::TryToggle | Call::TrySwap => &["change", "dots", "table", "stats"],
        Call::ToggleScan | Call::SwapScan => &["changes", "trials", "dots", "table", "stats"],
        Call::Converge => &["scans", "dots", "table", "stats"],
        Call::ReadSheet => &["offset", "psf", "gray", "dots", "measures"],
        Call::WriteSheet => &["length", "offset", "out"],
        Call::CheckFiled => &["offset", "verdict", "psf", "gray", "dots", "table"],
        Call::ReadPbm => &["size", "dots"],
        Call::ReadPgm => &["size", "gray"],
        Call::ReadPfm => &["size", "scale", "offset", "gray"],
        Call::WritePbm | Call::WritePgm => &["length", "out"],
        Call::CountRows => &["counts"],
    }
}

/// A field of the right side.
fn shown(field: &str, handed: &Handed) -> String {
    match field {
        "error" => list(field, &[handed.error]),
        "quotient" => list(field, &[handed.quotient]),
        "remainder" => list(field, &[handed.remainder]),
        "change" => list(field, &[handed.change]),
        "changes" => list(field, &[handed.changes]),
        "trials" => list(field, &[handed.trials]),
        "scans" => list(field, &[handed.scans]),
        "length" => list(field, &[handed.length]),
        "offset" => list(field, &[handed.offset]),
        "size" => list(field, &[handed.read_width, handed.read_height]),
        "scale" => format!("{field} {:?}", handed.scale),
        "psf" => list(field, &handed.psf),
        "gray" => list(field, &handed.gray),
        "dots" => list(field, &handed.dots),
        "table" => list(field, &handed.table),
        "stats" => list(field, &handed.stats),
        "autocorrelation" => list(field, &handed.autocorrelation),
        "measures" => list(field, &handed.measures),
        "counts" => list(field, &handed.counts),
        "verdict" => list(field, &handed.verdict),
        "out" if handed.out.is_empty() => field.to_string(),
        "out" => format!("{field} {}", text(&handed.out)),
        _ => unreachable!("{field} is written by no call"),
    }
}

fn list<T: Display>(name: &str, values: &[T]) -> String {
    values.iter().fold(name.to_string(), |text, value| format!("{text} {value}"))
}

/// Numbers, `7*25` being 25 times 7.
fn numbers<T: FromStr + Clone>(words: &str) -> Result<Vec<T>, String> {
    let mut numbers = Vec::new();
    for word in words.split_ascii_whitespace() {
        let (value, times) = word.split_once('*').unwrap_or((word, "1"));
        let (Ok(value), Ok(times)) = (value.parse(), times.parse()) else {
            return Err(format!("{word} is no number that fits"));
        };
        numbers.extend(vec![value; times]);
    }
    Ok(numbers)
}

/// Bytes as text: `\n` is a line end, `\xNN` any other byte that is not plain, a backslash and the signs that part a line
/// among them.
fn text(bytes: &[u8]) -> String {
    let mut text = String::new();
    for &byte in bytes {
        match byte {
            b'\n' => text.push_str("\\n"),
            b' '..=b'~' if !b"\\|=".contains(&byte) => text.push(char::from(byte)),
            _ => write!(text, "\\x{byte:02x}").expect("a string takes all"),
        }
    }
    text
}

fn bytes(text: &str) -> Result<Vec<u8>, String> {
    let mut parts = text.split('\\');
    let mut bytes = parts.next().unwrap_or_default().as_bytes().to_vec();
    for part in parts {
        let (byte, rest) = escaped(part).ok_or(format!("\\{part} begins with no byte"))?;
        bytes.push(byte);
        bytes.extend(rest.as_bytes());
    }
    Ok(bytes)
}

/// The byte that stands after a backslash, and what follows it.
fn escaped(part: &str) -> Option<(u8, &str)> {
    if let Some(rest) = part.strip_prefix('n') {
        return Some((b'\n', rest));
    }
    let (digits, rest) = part.strip_prefix('x')?.split_at_checked(2)?;
    Some((u8::from_str_radix(digits, 16).ok()?, rest))
}
