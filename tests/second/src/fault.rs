//! Single mistakes that the second implementation can be given, to see that the comparison finds each of them.

use crate::handed::Call;
use crate::pfm::{Order, MINUS_ZERO, ONE};
use crate::plain::ORDER;

/// One mistake.
#[derive(Clone, Copy, PartialEq, Eq, Debug)]
pub enum Fault {
    /// the psf transposed in the autocorrelation
    PsfTransposed,
    /// the plate folded round at its edges
    Folded,
    /// an attempt accepted with a change of 0
    TiesAccepted,
    /// the swap's change without c(m - n)
    OffsetDropped,
    /// toggles off counted as toggles on
    OnForOff,
    /// row and column exchanged in the thresholds
    ThresholdTransposed,
    /// a dot also where 256 * gray equals 255 * threshold
    ThresholdReached,
    /// partners nearest first
    PartnersReversed,
    /// partners of one distance from the right to the left
    PartnersMirrored,
    /// a swap scan that goes on with the same cell after an accepted swap
    CellNotLeft,
    /// a settling without a toggle scan after the swaps
    StopsAfterSwaps,
    /// a settling that does not count its last scan
    LastScanNotCounted,
    /// the number of measures judged in the order of the refusals, after 1 to 4
    MeasuresJudgedLate,
    /// fewer measures than five taken
    FewerMeasuresTaken,
    /// more measures than five taken
    MoreMeasuresTaken,
    /// a width and height of 257 taken
    Size257Taken,
    /// a psf sum of 1,025 taken
    Sum1025Taken,
    /// the dots judged at a start of any kind
    DotsAlwaysJudged,
    /// the reach judged for rows alone
    ColumnBeyondReachTaken,
    /// 9 not drawn for a cell with itself
    SameCellTaken,
    /// the last table entry not judged
    LastEntryNotJudged,
    /// dots at the start not limited by the cells
    StartDotsNotLimited,
    /// E at the start not limited
    StartErrorNotLimited,
    /// a count below 0 taken
    NegativeCountTaken,
    /// 254 for 255 in the ledger's last condition
    FallBy254,
    /// a sheet's number with a leading zero taken
    LeadingZeroTaken,
    /// a number outside its field refused at its end
    NumberRefusedAtEnd,
    /// 12 last at an equal place
    RoomLast,
    /// the room for dots judged with every start
    DotsRoomAlwaysJudged,
    /// a reader that writes the dots also with start 0 and 1
    DotsTouched,
    /// a writer that keeps the kind of start
    StartKept,
    /// a writer that refuses an output of just the right length
    ExactLengthRefused,
    /// a comment of a picture's header that ends at LF alone
    CommentEndsAtLineFeed,
    /// a comment that counts as white space
    CommentIsWhiteSpace,
    /// a comment's line end that delimits the raster
    CommentDelimits,
    /// a comment refused in the middle of a word
    CommentInWordRefused,
    /// a comment passed over also after the white space that delimits the raster
    CommentAfterHeader,
    /// a comment taken before the magic number or in it
    CommentInMagic,
    /// VT and FF not taken as white space
    FormFeedRefused,
    /// no white space needed after the magic number
    MagicNotEnded,
    /// two white spaces taken at the header's end
    TwoWhiteSpacesTaken,
    /// a picture's number with a leading zero refused
    LeadingZeroRefused,
    /// a picture's number taken modulo a power of 2
    NumberWraps(u32),
    /// a byte after the raster taken
    TrailingByteTaken,
    /// the length judged at two bytes a cell with a maximum above 255
    CellByMaximum,
    /// 15 for 14 with a maximum of 0
    MaximumZeroTaken,
    /// 15 for 14 with a maximum above 65,535
    MaximumAboveTaken,
    /// 12 before 15
    RoomBeforeMaximum,
    /// a slice of just the right length refused
    ExactRoomRefused,
    /// what lies past the part written set to 0
    RestCleared,
    /// 12 before 7
    RoomBeforeDots,
    /// the lowest bit for the leftmost cell
    LowestBitFirst,
    /// spare bits counted as dots
    SpareBitsCounted,
    /// spare bits written as 1
    SpareBitsWritten,
    /// gray read and written as it is stored
    GrayNotNegated,
    /// a filed figure compared with itself
    FigureWithItself,
    /// the filed error at the start compared for that at the end
    BeforeCompared,
    /// the last dot left out of a filed sheet's squared error
    DotLeftOut,
    /// a filed sheet that always agrees, fits and rests
    AllVerdictsGood,
    /// a filed sheet that always rests
    RestNotTried,
    /// rest judged by toggles alone
    TogglesOnly,
    /// rest judged with one more than the reach
    SwapsBeyondReach,
    /// no rest where a change adds 0
    TiesDisturb,
    /// a filed sheet with start 0 or 1 taken
    StartTaken,
    /// a figure with leading zeros taken
    FigureZerosTaken,
    /// figures cut at 64 bits
    FiguresCut,
    /// figures from 2^63 to 2^64 - 1 taken
    FigureOf64BitsTaken,
    /// the last byte of a filed sheet not judged
    LastByteNotJudged,
    /// bytes after a filed sheet taken
    AppendedTaken,
    /// the room for a filed sheet's table not judged
    TableRoomNotJudged,
    /// what lies past a filed sheet's table set to 0
    TablePastCleared,
    /// 10 before 12 at the start of line 3 of a filed sheet
    RoomJudgedLate,
    /// 6 before what follows a filed sheet's psf
    SumJudgedEarly,
    /// a filed sheet stored before 6 is judged
    StoredBeforeSum,
    /// dots + on - off for the dots at the start of a filed sheet
    StartDotsReversed,
    /// the counts of a filed sheet not limited, and their fall cut at 64 bits
    FallWraps,
    /// one of the conditions for a filed sheet's ledger passed over; that for the counts follows from those before it
    ConditionPassedOver(usize),
    /// gray 0 not locked
    PaperNotLocked,
    /// gray 255 not locked
    InkNotLocked,
    /// gray 1 locked, as gray 0 is
    Gray1Locked,
    /// gray 254 locked, as gray 255 is
    Gray254Locked,
    /// a start of kind 0 that makes all blank
    InkStartsBlank,
    /// a locked cell toggled in a scan
    LockedToggled,
    /// a locked cell swapped in a scan, as the cell that is visited
    LockedSwapped,
    /// a locked partner taken in a scan
    LockedPartnerTaken,
    /// a swap scan that leaves a cell at its first locked partner
    LockedPartnerEndsCell,
    /// 16 by its number: after 8 and 9
    CellsBeforeLocks,
    /// 23 before 20
    LockBeforeState,
    /// 16 by every call that draws 7, the table, E, the tone balance and the writers among them
    LocksJudgedWithDots,
    /// 16 not judged at a start
    LocksNotJudgedAtStart,
    /// 16 judged at a start of any kind
    LocksJudgedAtAnyStart,
    /// 16 not judged by later calls
    LocksNotJudgedLater,
    /// 16 judged by later calls with start kind 2 alone
    LocksJudgedByKind,
    /// 23 not judged for the first cell that is named
    FirstLockNotJudged,
    /// 23 not judged for the second cell of a swap
    SecondLockNotJudged,
    /// 23 for a swap only where both cells are locked
    BothLocksNeeded,
    /// no rest where a toggle of a locked cell lowers E
    LockedTogglesDisturb,
    /// no rest where a swap with a locked cell lowers E
    LockedSwapsDisturb,
    /// rest judged where the dots of a filed sheet contradict a locked cell
    ContradictionNotTold,
    /// the check of such a sheet refused with 16
    ContradictionRefused,
    /// a ledger that does not fit because of such dots
    ContradictionUnfits,
    /// a locked cell counted as a trial of a toggle scan
    LockedCellCounted,
    /// trials of a swap scan counted also at a locked cell
    SwapsOfLockedCounted,
    /// a partner off the plate counted as a trial
    OffPlateCounted,
    /// a locked partner of an unlike dot counted as a trial
    LockedPartnerCounted,
    /// a partner of an equal dot counted as a trial
    EqualDotCounted,
    /// the accepted trials of a kind of scan not counted
    AcceptedNotCounted(Call),
    /// trials counted at a cell also past the accepted one
    PastAcceptedCounted,
    /// trials counted by the dots as they were when the scan began
    FirstDotsCounted,
    /// trials of a swap scan counted only at cells where one was accepted
    AcceptedCellsCounted,
    /// one trial counted for each cell of a swap scan that is not locked
    CellsForTrials,
    /// the accepted changes told for the trials of a kind of scan
    ChangesForTrials(Call),
    /// the trials set to 0 where a scan of a kind is refused
    RefusedTrialsCleared(Call),
    /// the quotient of a tone balance cut towards 0
    BalanceCut,
    /// the remainder of a tone balance that of D without its sign
    BalanceRemainderOfSize,
    /// a remainder of N for one of 0, and the quotient one less
    BalanceRemainderN,
    /// the sum of gray less 255 * dots for D
    BalanceReversed,
    /// blanks counted as dots in D
    BalanceOfBlanks,
    /// locked cells left out of D
    BalanceOfFreeCells,
    /// the width for N
    BalanceByWidth,
    /// the height for N
    BalanceByHeight,
    /// locked cells left out of N
    BalanceByFreeCells,
    /// a refusal that a tone balance does not judge: 1, 5 or 7
    BalancePassesOver(u32),
    /// 1 of a tone balance judged for the width alone
    BalanceWidthAlone,
    /// 1 of a tone balance judged for the height alone
    BalanceHeightAlone,
    /// 5 of a tone balance judged for gray alone
    BalanceGrayAlone,
    /// 5 of a tone balance judged for dots alone
    BalanceDotsAlone,
    /// 5 of a tone balance only where gray and dots are of different lengths
    BalanceLengthsCompared,
    /// 5 before 1 in a tone balance
    BalanceLengthFirst,
    /// 7 before 5 in a tone balance
    BalanceDotsFirst,
    /// 16 drawn by a tone balance
    BalanceLocksJudged,
    /// the quotient set to 0 where a tone balance is refused
    RefusedQuotientCleared,
    /// the remainder set to 0 where a tone balance is refused
    RefusedRemainderCleared,
    /// a PFM file's samples read in the other byte order
    PfmOrderExchanged,
    /// a PFM file's samples always read in this byte order
    PfmOneOrder(Order),
    /// the top row of a PFM file first
    PfmTopRowFirst,
    /// the rows of a PFM file from right to left
    PfmRightToLeft,
    /// the lower brightness where 510 * v is odd
    PfmTieDown,
    /// the brightness of 255 * v in 32-bit floats, rounded
    PfmRoundedByFloat,
    /// the brightness of 255 * v + 0.5 in 32-bit floats, cut
    PfmHalfAddedByFloat,
    /// the brightness of 255 * v, cut
    PfmCut,
    /// the brightness of 255 * v, rounded up
    PfmRoundedUp,
    /// the brightness of 256 * v, cut, 255 at most
    PfmBy256,
    /// gray that is the brightness
    PfmGrayNotNegated,
    /// the shade with this pattern refused: 0, minus zero or 1
    PfmPatternRefused(u32),
    /// a subnormal shade refused
    PfmSubnormalRefused,
    /// a value above 1 taken that is nearest to the brightness 255
    PfmAboveTaken,
    /// any value above 1 taken as 1
    PfmAllAboveTaken,
    /// a value below 0 taken that is nearest to the brightness 0
    PfmBelowTaken,
    /// any value below 0 taken as 0
    PfmAllBelowTaken,
    /// a subnormal value below 0 taken as 0
    PfmNegativeSubnormalTaken,
    /// a value below 0 taken without its sign
    PfmSignDropped,
    /// infinity taken as 1
    PfmInfinityTaken,
    /// minus infinity taken as 0
    PfmMinusInfinityTaken,
    /// no number taken as 0
    PfmNoNumberTaken,
    /// no number taken as 0 where its sign is minus
    PfmMinusNoNumberTaken,
    /// no number taken as 0 where its fraction's highest bit is 0
    PfmSignallingTaken,
    /// the offset of the first sample that is no shade from the top row on
    PfmOffsetInRasterOrder,
    /// the offset of the last sample that is no shade
    PfmOffsetOfLast,
    /// the number of the sample for the byte offset
    PfmOffsetOfSample,
    /// the byte offset without the header
    PfmOffsetWithoutHeader,
    /// the byte offset of the sample's end
    PfmOffsetPastSample,
    /// an offset of 0 written where a PFM file is read
    PfmOffsetOnSuccess,
    /// an offset of 0 written with another refusal than 18
    PfmOffsetOnRefusal(u32),
    /// the width written with a refusal
    PfmWidthOnRefusal(u32),
    /// the height written with a refusal
    PfmHeightOnRefusal(u32),
    /// the scale written with a refusal
    PfmScaleOnRefusal(u32),
    /// width and height exchanged where a PFM file is read
    PfmSidesExchanged,
    /// the scale not written
    PfmScaleNotTold,
    /// the scale written without its sign
    PfmScaleWithoutSign,
    /// gray stored with a refusal, as far as it goes
    PfmPartStored(u32),
    /// what lies past the cells of a PFM file set to 0
    PfmRestCleared,
    /// gray of just the right length refused
    PfmExactRoomRefused,
    /// 12 not drawn by a PFM file
    PfmRoomNotJudged,
    /// 12 before 17 where the length is wrong
    PfmRoomBeforeLength,
    /// 12 after 18
    PfmRoomLast,
    /// 18 before 17 where the length is wrong
    PfmSamplesBeforeLength,
    /// bytes after the raster of a PFM file taken
    PfmTrailingTaken,
    /// LF after the raster of a PFM file taken
    PfmLineEndAfterTaken,
    /// the length of a PFM file judged in whole samples
    PfmLengthInSamples,
    /// a measure of a PFM file with a leading zero taken
    PfmLeadingZeroTaken,
    /// a measure of a PFM file with a plus sign taken
    PfmSignTaken,
    /// a width and height of 0, or of 257, taken
    PfmSizeTaken(usize),
    /// a measure of a PFM file taken modulo a power of 2
    PfmNumberWraps(u32),
    /// the scale taken with one more zero
    PfmMoreZerosTaken,
    /// the scale taken without a point
    PfmWholeScaleTaken,
    /// the scale taken with a plus sign
    PfmScalePlusTaken,
    /// every scale taken, by its sign
    PfmAnyScaleTaken,
    /// CR before the LF of a line taken
    PfmCrTaken,
    /// CR for LF taken
    PfmCrForLfTaken,
    /// a space at the end of a line taken
    PfmSpaceAtEndTaken,
    /// several spaces between the measures taken
    PfmSpacesTaken,
    /// a tab between the measures taken
    PfmTabTaken,
    /// LF between the measures taken
    PfmMeasuresOnTwoLines,
    /// a line that begins `#` passed over
    PfmCommentTaken,
    /// `PF` taken for `Pf`
    PfmColourTaken,
    /// two neighbours in the order of the refusals of plates exchanged, this one and the next
    Exchanged(usize),
}

impl Fault {
    /// Every mistake.
    pub fn all() -> Vec<Fault> {
        let exchanged = (0..ORDER.len() - 1).map(Fault::Exchanged);
        SINGLE.into_iter().chain(exchanged).collect()
    }
}

const SINGLE: [Fault; 223] = [
    Fault::PsfTransposed,
    Fault::Folded,
    Fault::TiesAccepted,
    Fault::OffsetDropped,
    Fault::OnForOff,
    Fault::ThresholdTransposed,
    Fault::ThresholdReached,
    Fault::PartnersReversed,
    Fault::PartnersMirrored,
    Fault::CellNotLeft,
    Fault::StopsAfterSwaps,
    Fault::LastScanNotCounted,
    Fault::MeasuresJudgedLate,
    Fault::FewerMeasuresTaken,
    Fault::MoreMeasuresTaken,
    Fault::Size257Taken,
    Fault::Sum1025Taken,
    Fault::DotsAlwaysJudged,
    Fault::ColumnBeyondReachTaken,
    Fault::SameCellTaken,
    Fault::LastEntryNotJudged,
    Fault::StartDotsNotLimited,
    Fault::StartErrorNotLimited,
    Fault::NegativeCountTaken,
    Fault::FallBy254,
    Fault::LeadingZeroTaken,
    Fault::NumberRefusedAtEnd,
    Fault::RoomLast,
    Fault::DotsRoomAlwaysJudged,
    Fault::DotsTouched,
    Fault::StartKept,
    Fault::ExactLengthRefused,
    Fault::CommentEndsAtLineFeed,
    Fault::CommentIsWhiteSpace,
    Fault::CommentDelimits,
    Fault::CommentInWordRefused,
    Fault::CommentAfterHeader,
    Fault::CommentInMagic,
    Fault::FormFeedRefused,
    Fault::MagicNotEnded,
    Fault::TwoWhiteSpacesTaken,
    Fault::LeadingZeroRefused,
    Fault::NumberWraps(16),
    Fault::NumberWraps(32),
    Fault::NumberWraps(64),
    Fault::TrailingByteTaken,
    Fault::CellByMaximum,
    Fault::MaximumZeroTaken,
    Fault::MaximumAboveTaken,
    Fault::RoomBeforeMaximum,
    Fault::ExactRoomRefused,
    Fault::RestCleared,
    Fault::RoomBeforeDots,
    Fault::LowestBitFirst,
    Fault::SpareBitsCounted,
    Fault::SpareBitsWritten,
    Fault::GrayNotNegated,
    Fault::FigureWithItself,
    Fault::BeforeCompared,
    Fault::DotLeftOut,
    Fault::AllVerdictsGood,
    Fault::RestNotTried,
    Fault::TogglesOnly,
    Fault::SwapsBeyondReach,
    Fault::TiesDisturb,
    Fault::StartTaken,
    Fault::FigureZerosTaken,
    Fault::FiguresCut,
    Fault::FigureOf64BitsTaken,
    Fault::LastByteNotJudged,
    Fault::AppendedTaken,
    Fault::TableRoomNotJudged,
    Fault::TablePastCleared,
    Fault::RoomJudgedLate,
    Fault::SumJudgedEarly,
    Fault::StoredBeforeSum,
    Fault::StartDotsReversed,
    Fault::FallWraps,
    Fault::ConditionPassedOver(0),
    Fault::ConditionPassedOver(1),
    Fault::ConditionPassedOver(2),
    Fault::ConditionPassedOver(3),
    Fault::ConditionPassedOver(4),
    Fault::PaperNotLocked,
    Fault::InkNotLocked,
    Fault::Gray1Locked,
    Fault::Gray254Locked,
    Fault::InkStartsBlank,
    Fault::LockedToggled,
    Fault::LockedSwapped,
    Fault::LockedPartnerTaken,
    Fault::LockedPartnerEndsCell,
    Fault::CellsBeforeLocks,
    Fault::LockBeforeState,
    Fault::LocksJudgedWithDots,
    Fault::LocksNotJudgedAtStart,
    Fault::LocksJudgedAtAnyStart,
    Fault::LocksNotJudgedLater,
    Fault::LocksJudgedByKind,
    Fault::FirstLockNotJudged,
    Fault::SecondLockNotJudged,
    Fault::BothLocksNeeded,
    Fault::LockedTogglesDisturb,
    Fault::LockedSwapsDisturb,
    Fault::ContradictionNotTold,
    Fault::ContradictionRefused,
    Fault::ContradictionUnfits,
    Fault::LockedCellCounted,
    Fault::SwapsOfLockedCounted,
    Fault::OffPlateCounted,
    Fault::LockedPartnerCounted,
    Fault::EqualDotCounted,
    Fault::AcceptedNotCounted(Call::ToggleScan),
    Fault::AcceptedNotCounted(Call::SwapScan),
    Fault::PastAcceptedCounted,
    Fault::FirstDotsCounted,
    Fault::AcceptedCellsCounted,
    Fault::CellsForTrials,
    Fault::ChangesForTrials(Call::ToggleScan),
    Fault::ChangesForTrials(Call::SwapScan),
    Fault::RefusedTrialsCleared(Call::ToggleScan),
    Fault::RefusedTrialsCleared(Call::SwapScan),
    Fault::BalanceCut,
    Fault::BalanceRemainderOfSize,
    Fault::BalanceRemainderN,
    Fault::BalanceReversed,
    Fault::BalanceOfBlanks,
    Fault::BalanceOfFreeCells,
    Fault::BalanceByWidth,
    Fault::BalanceByHeight,
    Fault::BalanceByFreeCells,
    Fault::BalancePassesOver(1),
    Fault::BalancePassesOver(5),
    Fault::BalancePassesOver(7),
    Fault::BalanceWidthAlone,
    Fault::BalanceHeightAlone,
    Fault::BalanceGrayAlone,
    Fault::BalanceDotsAlone,
    Fault::BalanceLengthsCompared,
    Fault::BalanceLengthFirst,
    Fault::BalanceDotsFirst,
    Fault::BalanceLocksJudged,
    Fault::RefusedQuotientCleared,
    Fault::RefusedRemainderCleared,
    Fault::PfmOrderExchanged,
    Fault::PfmOneOrder(Order::Big),
    Fault::PfmOneOrder(Order::Little),
    Fault::PfmTopRowFirst,
    Fault::PfmRightToLeft,
    Fault::PfmTieDown,
    Fault::PfmRoundedByFloat,
    Fault::PfmHalfAddedByFloat,
    Fault::PfmCut,
    Fault::PfmRoundedUp,
    Fault::PfmBy256,
    Fault::PfmGrayNotNegated,
    Fault::PfmPatternRefused(0),
    Fault::PfmPatternRefused(MINUS_ZERO),
    Fault::PfmPatternRefused(ONE),
    Fault::PfmSubnormalRefused,
    Fault::PfmAboveTaken,
    Fault::PfmAllAboveTaken,
    Fault::PfmBelowTaken,
    Fault::PfmAllBelowTaken,
    Fault::PfmNegativeSubnormalTaken,
    Fault::PfmSignDropped,
    Fault::PfmInfinityTaken,
    Fault::PfmMinusInfinityTaken,
    Fault::PfmNoNumberTaken,
    Fault::PfmMinusNoNumberTaken,
    Fault::PfmSignallingTaken,
    Fault::PfmOffsetInRasterOrder,
    Fault::PfmOffsetOfLast,
    Fault::PfmOffsetOfSample,
    Fault::PfmOffsetWithoutHeader,
    Fault::PfmOffsetPastSample,
    Fault::PfmOffsetOnSuccess,
    Fault::PfmOffsetOnRefusal(17),
    Fault::PfmOffsetOnRefusal(12),
    Fault::PfmWidthOnRefusal(17),
    Fault::PfmWidthOnRefusal(12),
    Fault::PfmWidthOnRefusal(18),
    Fault::PfmHeightOnRefusal(17),
    Fault::PfmHeightOnRefusal(12),
    Fault::PfmHeightOnRefusal(18),
    Fault::PfmScaleOnRefusal(17),
    Fault::PfmScaleOnRefusal(12),
    Fault::PfmScaleOnRefusal(18),
    Fault::PfmSidesExchanged,
    Fault::PfmScaleNotTold,
    Fault::PfmScaleWithoutSign,
    Fault::PfmPartStored(17),
    Fault::PfmPartStored(12),
    Fault::PfmPartStored(18),
    Fault::PfmRestCleared,
    Fault::PfmExactRoomRefused,
    Fault::PfmRoomNotJudged,
    Fault::PfmRoomBeforeLength,
    Fault::PfmRoomLast,
    Fault::PfmSamplesBeforeLength,
    Fault::PfmTrailingTaken,
    Fault::PfmLineEndAfterTaken,
    Fault::PfmLengthInSamples,
    Fault::PfmLeadingZeroTaken,
    Fault::PfmSignTaken,
    Fault::PfmSizeTaken(0),
    Fault::PfmSizeTaken(257),
    Fault::PfmNumberWraps(8),
    Fault::PfmNumberWraps(16),
    Fault::PfmNumberWraps(32),
    Fault::PfmNumberWraps(64),
    Fault::PfmMoreZerosTaken,
    Fault::PfmWholeScaleTaken,
    Fault::PfmScalePlusTaken,
    Fault::PfmAnyScaleTaken,
    Fault::PfmCrTaken,
    Fault::PfmCrForLfTaken,
    Fault::PfmSpaceAtEndTaken,
    Fault::PfmSpacesTaken,
    Fault::PfmTabTaken,
    Fault::PfmMeasuresOnTwoLines,
    Fault::PfmCommentTaken,
    Fault::PfmColourTaken,
];
