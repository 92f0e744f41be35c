//! The refusals and the limits, as the proved crates have them. Nothing is linked for this file: tests/numbers compiles it alone and compares.

/// Least rows of a table.
pub const LEAST_ROWS: usize = 4;
/// Most rows of a table.
pub const MOST_ROWS: usize = 1024;
/// Least corners.
pub const LEAST_CORNERS: usize = 4;
/// Most corners.
pub const MOST_CORNERS: usize = 514;
/// Coordinates go from `-MOST_COORDINATE` to `MOST_COORDINATE`, in centimetres.
pub const MOST_COORDINATE: i32 = 50000;
/// How many numbers of a log a record is.
pub const WIDTH: usize = 10;
/// How many numbers of a flip log the record of a flip is.
pub const FLIP_WIDTH: usize = 8;
/// Most bytes of a sheet.
pub const MOST_SHEET_BYTES: usize = 65536;
/// Most rows of a sheet.
pub const MOST_SHEET_ROWS: usize = 1024;
/// Most corners of a sheet.
pub const MOST_SHEET_CORNERS: usize = 514;
/// Most bytes of a log sheet, which suffice for any log that can be written as one.
pub const MOST_LOG_BYTES: usize = 65536;
/// Most bytes of a job sheet.
pub const MOST_JOB_BYTES: usize = 65536;
/// Most entries of a job.
pub const MOST_ENTRIES: usize = 32;
/// How deep the entries of a job may stand in each other, the first at 1.
pub const MOST_DEPTH: usize = 8;
/// Bytes that suffice for the desk's answer to any sheet.
pub const MOST_TEXT: usize = 65536;

/// The refusals, in the order of their numbers.
#[derive(Clone, Copy, Debug, PartialEq, Eq)]
#[non_exhaustive]
pub enum Refusal {
    LimitUnusable,
    CountsOutside,
    RoomShort,
    CoordinateOutOfRange,
    NumberNotBelow,
    NumberTwice,
    EdgeTwice,
    ReverseMissing,
    CornerUnused,
    RingsMany,
    NotConnected,
    SheetForm,
    RecordFails,
    JobCount,
    JobKind,
    JobName,
    JobAlternation,
    JobDepth,
    JobSum,
    EdgeMissing,
    EdgeBlocked,
    UndoFails,
    /// A number that has no name here, as an archive later than this file may answer.
    Other(u64),
}

impl Refusal {
    /// Those that have a name.
    pub const NAMED: [Refusal; 22] = [
        Refusal::LimitUnusable,
        Refusal::CountsOutside,
        Refusal::RoomShort,
        Refusal::CoordinateOutOfRange,
        Refusal::NumberNotBelow,
        Refusal::NumberTwice,
        Refusal::EdgeTwice,
        Refusal::ReverseMissing,
        Refusal::CornerUnused,
        Refusal::RingsMany,
        Refusal::NotConnected,
        Refusal::SheetForm,
        Refusal::RecordFails,
        Refusal::JobCount,
        Refusal::JobKind,
        Refusal::JobName,
        Refusal::JobAlternation,
        Refusal::JobDepth,
        Refusal::JobSum,
        Refusal::EdgeMissing,
        Refusal::EdgeBlocked,
        Refusal::UndoFails,
    ];

    /// The refusal with a number. It is `Other` only where no name has the number, and 0, which is the status of what is done, has none.
    pub fn of(number: u64) -> Refusal {
        Refusal::NAMED.into_iter().find(|named| named.number() == number).unwrap_or(Refusal::Other(number))
    }

    /// Its number.
    pub fn number(self) -> u64 {
        match self {
            Refusal::LimitUnusable => 1,
            Refusal::CountsOutside => 2,
            Refusal::RoomShort => 3,
            Refusal::CoordinateOutOfRange => 4,
            Refusal::NumberNotBelow => 5,
            Refusal::NumberTwice => 6,
            Refusal::EdgeTwice => 7,
            Refusal::ReverseMissing => 8,
            Refusal::CornerUnused => 9,
            Refusal::RingsMany => 10,
            Refusal::NotConnected => 11,
            Refusal::SheetForm => 12,
            Refusal::RecordFails => 13,
            Refusal::JobCount => 20,
            Refusal::JobKind => 21,
            Refusal::JobName => 22,
            Refusal::JobAlternation => 23,
            Refusal::JobDepth => 24,
            Refusal::JobSum => 25,
            Refusal::EdgeMissing => 30,
            Refusal::EdgeBlocked => 31,
            Refusal::UndoFails => 32,
            Refusal::Other(number) => number,
        }
    }
}
