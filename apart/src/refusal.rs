//! The refusals by number. 01's table has the words; the numbers that several parts speak of have their names here.

/// A sheet that is not in its form.
pub const BAD_FORM: i64 = 12;
/// A record that does not grow back or replay.
pub const FAILS: i64 = 13;
/// What a job's entries are refused by, in the order of 02.
pub const ENTRIES: i64 = 20;
pub const KIND: i64 = 21;
pub const NAME: i64 = 22;
pub const ALTERNATION: i64 = 23;
pub const DEPTH: i64 = 24;
pub const SUM: i64 = 25;
/// A flip of an edge that is missing, one whose c and d are neighbours, and a record that is not undone.
pub const MISSING: i64 = 30;
pub const NEIGHBOURS: i64 = 31;
pub const NOT_UNDONE: i64 = 32;
/// Those that come before the rows are looked at, but for recovery's 12, and 2 after it.
pub const BEFORE_ROWS: [i64; 4] = [1, 2, 3, BAD_FORM];
/// All that there are: a whole run must meet each.
#[rustfmt::skip]
pub const ALL: [i64; 22] = [
    1, 2, 3, 4, 5, 6, 7, 8, 9, 10, 11, BAD_FORM, FAILS, ENTRIES, KIND, NAME, ALTERNATION, DEPTH, SUM,
    MISSING, NEIGHBOURS, NOT_UNDONE,
];
