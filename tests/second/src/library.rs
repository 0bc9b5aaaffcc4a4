//! The static library, each of its functions (bindings/) as a call on a record.
//!
//! A function is lent copies of the record's buffers and results. Each copy stands between guard elements, and all are
//! read back after the call, those that are only read too. So the record shows every element that the library wrote, and
//! the guards show whether it wrote beside a buffer.

use crate::handed::{Call, Handed};
use std::hint::black_box;
use std::slice::from_mut as one;

/// Guard elements on each side of a buffer.
const GUARDS: usize = 16;
const GUARD: u8 = 0xA5;

/// A copy of a buffer between guards.
struct Guarded<T> {
    room: Vec<T>,
}

impl<T: Copy + PartialEq + From<u8>> Guarded<T> {
    fn new(buffer: &[T]) -> Guarded<T> {
        let guards = [T::from(GUARD); GUARDS];
        Guarded { room: [&guards, buffer, &guards].concat() }
    }

    /// The copy. An empty one points to nothing.
    fn lend(&mut self) -> &mut [T] {
        match self.room.len() - GUARDS {
            GUARDS => &mut [],
            end => &mut self.room[GUARDS..end],
        }
    }

    /// The copy of a result.
    fn number(&mut self) -> &mut T {
        &mut self.lend()[0]
    }

    /// Reads the buffer back; answers whether the guards are as they were. The compiler must not take for unchanged what was
    /// lent to be read, nor the guards.
    fn back(&self, buffer: &mut [T]) -> bool {
        let (front, rest) = black_box(&self.room).split_at(GUARDS);
        let (middle, end) = rest.split_at(buffer.len());
        buffer.copy_from_slice(middle);
        front.iter().chain(end).all(|&guard| guard == T::from(GUARD))
    }
}

/// Declares copies of all buffers and all results of a record.
macro_rules! lent {
    ($($buffer:ident: $element:ty),*; $($result:ident: $number:ty),*) => {
        struct Lent {
            $($buffer: Guarded<$element>,)*
            $($result: Guarded<$number>,)*
        }

        impl Lent {
            fn new(handed: &Handed) -> Lent {
                Lent {
                    $($buffer: Guarded::new(&handed.$buffer),)*
                    $($result: Guarded::new(&[handed.$result]),)*
                }
            }

            /// Reads all back; answers whether all guards are as they were.
            fn back(&self, handed: &mut Handed) -> bool {
                let kept = [
                    $(self.$buffer.back(&mut handed.$buffer),)*
                    $(self.$result.back(one(&mut handed.$result)),)*
                ];
                kept.into_iter().all(|kept| kept)
            }
        }
    };
}

lent! {
    psf: u8, gray: u8, dots: u8, table: i32, stats: i64, autocorrelation: i32, bytes: u8, measures: usize, out: u8,
    packed: u8, counts: u32, verdict: i64;
    error: i64, quotient: i64, remainder: usize, change: i64, changes: u64, trials: u64, scans: u64, length: usize,
    offset: usize, read_width: usize, read_height: usize, scale: f32
}

/// Makes a call of the library: answers what it returned and whether the guards are as they were, and the slice of
/// measures too, and leaves in the record what it wrote.
pub fn call(call: Call, handed: &mut Handed) -> (u32, bool) {
    let (mut lent, mut plate) = (Lent::new(handed), handed.plate());
    let mut measures = Guarded::new(&plate);
    let answer = make(call, handed, measures.lend(), &mut lent);
    let kept = measures.back(&mut plate) && plate == handed.plate();
    (answer, lent.back(handed) && kept)
}

fn make(call: Call, handed: &Handed, m: &[usize], lent: &mut Lent) -> u32 {
    use platemaker::*;
    let &Handed { width, height, radius, row, col, row2, col2, .. } = handed;
    let (psf, gray, dots) = (lent.psf.lend(), lent.gray.lend(), lent.dots.lend());
    let (quotient, remainder) = (lent.quotient.number(), lent.remainder.number());
    let (table, stats, change) = (lent.table.lend(), lent.stats.lend(), lent.change.number());
    let (changes, trials) = (lent.changes.number(), lent.trials.number());
    let (bytes, out, length, offset) = (lent.bytes.lend(), lent.out.lend(), lent.length.number(), lent.offset.number());
    let (read_width, read_height) = (lent.read_width.number(), lent.read_height.number());
    match call {
        Call::Autocorrelation => autocorrelation(radius, psf, lent.autocorrelation.lend()),
        Call::FilteredError => filtered_error(width, height, radius, psf, gray, dots, table),
        Call::SquaredError => squared_error(width, height, radius, psf, gray, dots, lent.error.number()),
        Call::ToneBalance => tone_balance(width, height, gray, dots, quotient, remainder),
        Call::Start => start(m, psf, gray, dots, table, stats),
        Call::TryToggle => try_toggle(m, psf, gray, dots, table, stats, row, col, change),
        Call::TrySwap => try_swap(m, psf, gray, dots, table, stats, row, col, row2, col2, change),
        Call::ToggleScan => toggle_scan(m, psf, gray, dots, table, stats, changes, trials),
        Call::SwapScan => swap_scan(m, psf, gray, dots, table, stats, changes, trials),
        Call::Converge => converge(m, psf, gray, dots, table, stats, lent.scans.number()),
        Call::ReadSheet => read_sheet(bytes, psf, gray, dots, lent.measures.lend(), offset),
        Call::WriteSheet => write_sheet(m, psf, gray, dots, out, length, offset),
        Call::CheckFiled => check_filed(bytes, psf, gray, dots, table, lent.verdict.lend(), offset),
        Call::ReadPbm => read_pbm(bytes, dots, read_width, read_height),
        Call::ReadPgm => read_pgm(bytes, gray, read_width, read_height),
        Call::ReadPfm => read_pfm(bytes, gray, read_width, read_height, lent.scale.number(), offset),
        Call::WritePbm => write_pbm(width, height, dots, out, length),
        Call::WritePgm => write_pgm(width, height, gray, out, length),
        Call::CountRows => count_rows(width, height, lent.packed.lend(), lent.counts.lend()),
    }
}

#[cfg(test)]
mod tests {
    use super::*;

    #[test]
    fn guards_tell_what_is_written_beside_a_buffer() {
        for beside in [GUARDS - 1, GUARDS + 3] {
            let mut buffer = [1, 2, 3];
            let mut guarded = Guarded::<i32>::new(&buffer);
            assert!(guarded.back(&mut buffer));
            guarded.room[beside] = 9;
            assert!(!guarded.back(&mut buffer));
        }
    }
}
