//! The calls of the header, and one record of everything that a call can be handed and can write.

pub use platemaker::{MEASURES, VERDICT, VERDICT_AGREES, VERDICT_FITS, VERDICT_RESTS};
pub use platemaker::{STATS, STATS_ERROR, STATS_OFF, STATS_ON, STATS_START_DOTS, STATS_START_ERROR, STATS_SWAPS};

/// A row and a column.
pub type Cell = (usize, usize);

/// The calls, in the header's order.
#[derive(Clone, Copy, PartialEq, Eq, Debug)]
pub enum Call {
    Autocorrelation,
    FilteredError,
    SquaredError,
    ToneBalance,
    Start,
    TryToggle,
    TrySwap,
    ToggleScan,
    SwapScan,
    Converge,
    ReadSheet,
    WriteSheet,
    CheckFiled,
    ReadPbm,
    ReadPgm,
    ReadPfm,
    WritePbm,
    WritePgm,
    CountRows,
}

impl Call {
    pub const ALL: [Call; 19] = [
        Call::Autocorrelation,
        Call::FilteredError,
        Call::SquaredError,
        Call::ToneBalance,
        Call::Start,
        Call::TryToggle,
        Call::TrySwap,
        Call::ToggleScan,
        Call::SwapScan,
        Call::Converge,
        Call::ReadSheet,
        Call::WriteSheet,
        Call::CheckFiled,
        Call::ReadPbm,
        Call::ReadPgm,
        Call::ReadPfm,
        Call::WritePbm,
        Call::WritePgm,
        Call::CountRows,
    ];

    /// Later calls are those handed a table and a ledger.
    pub fn is_later(self) -> bool {
        use Call::*;
        matches!(self, TryToggle | TrySwap | ToggleScan | SwapScan | Converge)
    }

    pub fn is_scan(self) -> bool {
        matches!(self, Call::ToggleScan | Call::SwapScan)
    }

    /// Whether the call is handed the measures as a slice. The others take some of them, each by itself, or none.
    pub fn takes_measures(self) -> bool {
        self.is_later() || matches!(self, Call::Start | Call::WriteSheet)
    }

    /// Whether the call has to do with a plate's numbers alone, and not with a file or its bytes.
    pub fn is_on_plate(self) -> bool {
        use Call::*;
        self.is_later() || matches!(self, Autocorrelation | FilteredError | SquaredError | ToneBalance | Start)
    }

    /// The cells that an attempt names.
    pub fn named(self, handed: &Handed) -> Vec<Cell> {
        let cells = [(handed.row, handed.col), (handed.row2, handed.col2)];
        match self {
            Call::TryToggle => cells[..1].to_vec(),
            Call::TrySwap => cells.to_vec(),
            _ => Vec::new(),
        }
    }

    /// Every refusal that the call draws.
    pub fn refusals(self) -> &'static [u32] {
        match self {
            Call::Autocorrelation => &[2, 5, 6],
            Call::FilteredError | Call::SquaredError => &[1, 2, 5, 6, 7],
            Call::ToneBalance => &[1, 5, 7],
            Call::Start => &[1, 2, 3, 4, 5, 6, 7, 16],
            Call::TryToggle => &[1, 2, 3, 4, 5, 6, 7, 16, 8, 20, 21, 23],
            Call::TrySwap => &[1, 2, 3, 4, 5, 6, 7, 16, 8, 9, 20, 21, 23, 22],
            Call::ToggleScan | Call::SwapScan | Call::Converge => &[1, 2, 3, 4, 5, 6, 7, 16, 20, 21],
            Call::ReadSheet => &[5, 10, 11, 12],
            Call::WriteSheet => &[1, 2, 3, 4, 5, 7, 12],
            Call::CheckFiled => &[5, 6, 10, 11, 12],
            Call::ReadPbm => &[12, 14],
            Call::ReadPgm => &[12, 14, 15],
            Call::ReadPfm => &[17, 12, 18],
            Call::WritePbm => &[1, 5, 7, 12],
            Call::WritePgm => &[1, 5, 12],
            Call::CountRows => &[1, 5],
        }
    }
}

/// What a call is handed and where it writes. Each call takes its own part; the rest has to stay as it is.
#[derive(Clone, PartialEq, Debug, Default)]
pub struct Handed {
    pub width: usize,
    pub height: usize,
    pub radius: usize,
    pub reach: usize,
    pub start: usize,
    /// the slice of measures, where it has not just the five numbers above
    pub other_measures: Option<Vec<usize>>,
    pub psf: Vec<u8>,
    pub gray: Vec<u8>,
    pub dots: Vec<u8>,
    pub table: Vec<i32>,
    pub stats: Vec<i64>,
    pub row: usize,
    pub col: usize,
    pub row2: usize,
    pub col2: usize,
    pub autocorrelation: Vec<i32>,
    pub error: i64,
    /// the tone balance
    pub quotient: i64,
    pub remainder: usize,
    pub change: i64,
    pub changes: u64,
    pub trials: u64,
    pub scans: u64,
    /// the sheet, the filed sheet or the file that is read
    pub bytes: Vec<u8>,
    /// the measures that a sheet has
    pub measures: Vec<usize>,
    pub out: Vec<u8>,
    pub length: usize,
    pub offset: usize,
    /// the width and height that a file has
    pub read_width: usize,
    pub read_height: usize,
    /// the scale that a PFM file has; never one that is no number, so that records can be compared
    pub scale: f32,
    pub packed: Vec<u8>,
    pub counts: Vec<u32>,
    pub verdict: Vec<i64>,
}

impl Handed {
    pub fn cells(&self) -> usize {
        self.width * self.height
    }

    /// The slice of measures that a call is handed.
    pub fn plate(&self) -> Vec<usize> {
        let five = || vec![self.width, self.height, self.radius, self.reach, self.start];
        self.other_measures.clone().unwrap_or_else(five)
    }

    /// The accepted changes that the stats count.
    pub fn accepted(&self) -> i64 {
        self.stats[STATS_ON] + self.stats[STATS_OFF] + self.stats[STATS_SWAPS]
    }

    /// The values that differ from another record's, named by field and entry: at most 20 of them.
    pub fn differences(&self, other: &Handed) -> String {
        let (own, others) = (format!("{self:#?}"), format!("{other:#?}"));
        let (mut field, mut first) = ("", 0);
        let mut differences = Vec::new();
        for (line, (a, b)) in own.lines().zip(others.lines()).enumerate() {
            if let Some(name) = a.strip_prefix("    ").filter(|name| !name.starts_with([' ', ']'])) {
                (field, first) = (name.split(':').next().unwrap(), line + 1);
            }
            if a != b {
                let entry = (line + 1 - first).saturating_sub(1);
                differences.push(format!("{field}[{entry}] is {} and {}", a.trim(), b.trim()));
            }
        }
        differences.truncate(20);
        differences.join(" ")
    }
}
