//! Flaxglimmer for Rust: every public call, safe. Slices are lent for the call alone; what is handed back is the caller's own memory.
//! `unsafe` stands round the calls of the proved functions only: a slice's pointer and length go over together, a record's numbers as the array that
//! they are, and no call asks more.

#[cfg(not(target_pointer_width = "64"))]
compile_error!("the proved functions count in 64 bits");

mod numbers;

pub use numbers::*;

/// The functions of the proved crate `bridge`, as `include/flaxglimmer.h` declares them.
mod proved {
    #[repr(C)]
    pub struct Counted {
        pub status: u64,
        pub records: u64,
    }

    #[repr(C)]
    pub struct Measure {
        pub status: u64,
        pub figure: i64,
    }

    #[repr(C)]
    pub struct Centimetres {
        pub status: u64,
        pub whole: u64,
    }

    #[repr(C)]
    pub struct Written {
        pub status: u64,
        pub bytes: u64,
    }

    #[repr(C)]
    pub struct Stored {
        pub there: u64,
        pub number: u64,
    }

    /// Thinning by either engine.
    pub type Thin = unsafe extern "C" fn(u32, f64, *mut u32, usize, *const i32, usize, *mut u32, usize) -> Counted;

    extern "C" {
        pub fn flaxglimmer_thin(unit: u32, figure: f64, table: *mut u32, table_length: usize, corners: *const i32, corners_length: usize, log: *mut u32, log_length: usize) -> Counted;
        pub fn flaxglimmer_thin_plain(unit: u32, figure: f64, table: *mut u32, table_length: usize, corners: *const i32, corners_length: usize, log: *mut u32, log_length: usize) -> Counted;
        pub fn flaxglimmer_grow_back(rows: usize, corners: usize, room: *mut u32, room_length: usize, log: *const u32, log_length: usize) -> Counted;
        pub fn flaxglimmer_replay(corners: usize, table: *mut u32, table_length: usize, log: *const u32, log_length: usize) -> Counted;
        pub fn flaxglimmer_volume(table: *const u32, table_length: usize, corners: *const i32, corners_length: usize) -> Measure;
        pub fn flaxglimmer_exact_sum(table: *const u32, table_length: usize, corners: *const i32, corners_length: usize, whole: *mut i64, rest: *mut u64) -> u64;
        pub fn flaxglimmer_change(earlier: *const u32, earlier_length: usize, later: *const u32, later_length: usize, corners: *const i32, corners_length: usize) -> Measure;
        pub fn flaxglimmer_shift(corner: u32, corners: *const i32, corners_length: usize, log: *const u32, log_length: usize, stand_in: *mut u64, count: *mut u64, squared: *mut u64) -> u64;
        pub fn flaxglimmer_limit(unit: u32, figure: f64) -> Centimetres;
        pub fn flaxglimmer_shorter_ring(first: *const u32, first_length: usize, second: *const u32, second_length: usize) -> u32;
        pub fn flaxglimmer_catch_up(first: *const u32, first_length: usize, second: *const u32, second_length: usize, from: *mut u64, to: *mut u64) -> u64;
        pub fn flaxglimmer_read_sheet(bytes: *const u8, bytes_length: usize, table: *mut u32, table_length: usize, corners: *mut i32, corners_length: usize, count: *mut u64, rows: *mut u64) -> u64;
        pub fn flaxglimmer_trial_number(at: usize) -> Stored;
        pub fn flaxglimmer_reply(sheet: *const u8, sheet_length: usize, text: *mut u8, text_length: usize) -> Written;
        pub fn flaxglimmer_write_log_sheet(corners: usize, rows: usize, log: *const u32, log_length: usize, text: *mut u8, text_length: usize) -> Written;
        pub fn flaxglimmer_read_log_sheet(bytes: *const u8, bytes_length: usize, log: *mut u32, log_length: usize, corners: *mut u64, rows: *mut u64, records: *mut u64) -> u64;
        pub fn flaxglimmer_each_record(bytes: *const u8, bytes_length: usize, log: *mut u32, log_length: usize, corners: *mut u64, rows: *mut u64, records: *mut u64) -> u64;
        pub fn flaxglimmer_open_log_sheet(bytes: *const u8, bytes_length: usize, corners: *mut u64, rows: *mut u64, place: *mut u64) -> u64;
        pub fn flaxglimmer_next_record(bytes: *const u8, bytes_length: usize, place: usize, found: *mut u64, after: *mut u64, numbers: *mut super::Record) -> u64;
        pub fn flaxglimmer_recover(unit: u32, figure: f64, table: *mut u32, table_length: usize, corners: *const i32, corners_length: usize, log: *mut u32, log_length: usize, bytes: *const u8, bytes_length: usize, kept: *mut u64, records: *mut u64) -> u64;
        pub fn flaxglimmer_job(bytes: *const u8, bytes_length: usize) -> Measure;
        pub fn flaxglimmer_flip_list(corners: usize, table: *mut u32, table_length: usize, edges: *const u32, edges_length: usize, log: *mut u32, log_length: usize) -> Counted;
        pub fn flaxglimmer_undo_flips(corners: usize, table: *mut u32, table_length: usize, log: *const u32, log_length: usize) -> Counted;
    }
}

/// A length limit: a figure in its unit.
#[derive(Clone, Copy, Debug, PartialEq)]
pub enum Length {
    Metres(f64),
    /// Survey feet, 1200/3937 of a metre.
    Feet(f64),
    Centimetres(f64),
    /// International feet, 30.48 centimetres.
    InternationalFeet(f64),
}

impl Length {
    fn crossing(self) -> (u32, f64) {
        match self {
            Length::Metres(v) => (1, v),
            Length::Feet(v) => (2, v),
            Length::Centimetres(v) => (3, v),
            Length::InternationalFeet(v) => (4, v),
        }
    }
}

/// Why a log was not done whole: the records done or undone before one that fails, or another refusal, which leaves all as it was.
#[derive(Clone, Copy, Debug, PartialEq, Eq)]
pub enum Unfinished {
    Stopped(usize),
    Refused(Refusal),
}

/// Why a list of edges was not flipped whole: the flips before an edge that is missing or blocked, or another refusal, which leaves all as it was.
#[derive(Clone, Copy, Debug, PartialEq, Eq)]
pub enum Unflipped {
    Missing(usize),
    Blocked(usize),
    Refused(Refusal),
}

/// Where a log has led a corner, in how many steps, and how far.
#[derive(Clone, Copy, Debug, PartialEq, Eq)]
pub struct Shift {
    pub stand_in: u32,
    pub count: usize,
    pub squared: u64,
}

/// The counts of a sheet that was read.
#[derive(Clone, Copy, Debug, PartialEq, Eq)]
pub struct Counts {
    pub corners: usize,
    pub rows: usize,
}

/// The numbers of a record, as a log has them.
pub type Record = [u32; WIDTH];

/// The counts of a log sheet that was read, and how many records it has.
#[derive(Clone, Copy, Debug, PartialEq, Eq)]
pub struct LogCounts {
    pub corners: usize,
    pub rows: usize,
    pub records: usize,
}

/// How many records of a cut log sheet recovery kept, and how many there are with those that it added.
#[derive(Clone, Copy, Debug, PartialEq, Eq)]
pub struct Recovered {
    pub kept: usize,
    pub records: usize,
}

/// The counts of a log sheet that was opened, and the place after its first line.
#[derive(Clone, Copy, Debug, PartialEq, Eq)]
pub struct Opened {
    pub corners: usize,
    pub rows: usize,
    pub place: usize,
}

fn answered<T>(status: u64, value: T) -> Result<T, Refusal> {
    if status == 0 {
        Ok(value)
    } else {
        Err(Refusal::of(status))
    }
}

/// What a log came to that was followed, or stopped after so many records.
fn followed<T>(status: u64, records: u64, value: T) -> Result<T, Unfinished> {
    answered(status, value).map_err(|refusal| match refusal {
        Refusal::RecordFails | Refusal::UndoFails => Unfinished::Stopped(records as usize),
        other => Unfinished::Refused(other),
    })
}

fn counted(a: proved::Counted) -> Result<usize, Unfinished> {
    followed(a.status, a.records, a.records as usize)
}

/// Thins a first table under a limit or none; answers how many records were written to the front of the log, which needs `WIDTH` numbers for
/// each corner past `LEAST_CORNERS`. The last stage is left in front of the table and zeros behind it.
pub fn thin(table: &mut [u32], corners: &[i32], limit: Option<Length>, log: &mut [u32]) -> Result<usize, Refusal> {
    thin_by(proved::flaxglimmer_thin, table, corners, limit, log)
}

/// The same by the plain engine, which looks for the least edge again after each step. `thin` takes a quick one where there is no limit; both answer and
/// leave the same.
pub fn thin_plain(table: &mut [u32], corners: &[i32], limit: Option<Length>, log: &mut [u32]) -> Result<usize, Refusal> {
    thin_by(proved::flaxglimmer_thin_plain, table, corners, limit, log)
}

fn thin_by(call: proved::Thin, table: &mut [u32], corners: &[i32], limit: Option<Length>, log: &mut [u32]) -> Result<usize, Refusal> {
    let (unit, figure) = limit.map_or((0, 0.0), Length::crossing);
    let a = unsafe { call(unit, figure, table.as_mut_ptr(), table.len(), corners.as_ptr(), corners.len(), log.as_mut_ptr(), log.len()) };
    answered(a.status, a.records as usize)
}

/// Grows a log back on the rows that stand in front of a room, over so many corners.
pub fn grow_back(room: &mut [u32], rows: usize, corners: usize, log: &[u32]) -> Result<usize, Unfinished> {
    counted(unsafe { proved::flaxglimmer_grow_back(rows, corners, room.as_mut_ptr(), room.len(), log.as_ptr(), log.len()) })
}

/// Replays a log forward on a table over so many corners.
pub fn replay(table: &mut [u32], corners: usize, log: &[u32]) -> Result<usize, Unfinished> {
    counted(unsafe { proved::flaxglimmer_replay(corners, table.as_mut_ptr(), table.len(), log.as_ptr(), log.len()) })
}

/// Takes a thinning up whose log sheet was cut after any byte: replays its whole lines on the first table and thins on under a limit or none. The last
/// stage is left in front of the table and zeros behind it, the records kept and then those added in front of the log, which needs the room of `thin`.
/// Where it stops at a record, the stage and the records before it are left in the same way.
pub fn recover(table: &mut [u32], corners: &[i32], limit: Option<Length>, log: &mut [u32], bytes: &[u8]) -> Result<Recovered, Unfinished> {
    let (unit, figure) = limit.map_or((0, 0.0), Length::crossing);
    let (mut kept, mut records) = (0, 0);
    let status = unsafe { proved::flaxglimmer_recover(unit, figure, table.as_mut_ptr(), table.len(), corners.as_ptr(), corners.len(), log.as_mut_ptr(), log.len(), bytes.as_ptr(), bytes.len(), &mut kept, &mut records) };
    followed(status, records, Recovered { kept: kept as usize, records: records as usize })
}

/// Flips listed edges of a stage over so many corners, two corner numbers each, in order up to the first that is refused; answers how many flips were
/// done, whose records, `FLIP_WIDTH` numbers each, stand in front of the log. It needs so many for each listed edge. Where it stops at an edge, table
/// and log hold the flips before it and no others.
pub fn flip_list(table: &mut [u32], corners: usize, edges: &[u32], log: &mut [u32]) -> Result<usize, Unflipped> {
    let a = unsafe { proved::flaxglimmer_flip_list(corners, table.as_mut_ptr(), table.len(), edges.as_ptr(), edges.len(), log.as_mut_ptr(), log.len()) };
    answered(a.status, a.records as usize).map_err(|refusal| match refusal {
        Refusal::EdgeMissing => Unflipped::Missing(a.records as usize),
        Refusal::EdgeBlocked => Unflipped::Blocked(a.records as usize),
        other => Unflipped::Refused(other),
    })
}

/// Undoes the flips of a flip log on a stage over so many corners, the last record first. Where it stops at a record, the table is left as those undone
/// before it led to.
pub fn undo_flips(table: &mut [u32], corners: usize, log: &[u32]) -> Result<usize, Unfinished> {
    counted(unsafe { proved::flaxglimmer_undo_flips(corners, table.as_mut_ptr(), table.len(), log.as_ptr(), log.len()) })
}

/// The volume of a stage in cubic metres.
pub fn volume(table: &[u32], corners: &[i32]) -> Result<i64, Refusal> {
    let a = unsafe { proved::flaxglimmer_volume(table.as_ptr(), table.len(), corners.as_ptr(), corners.len()) };
    answered(a.status, a.figure)
}

/// The exact sixfold sum of a stage, as a line of a job has it.
pub fn exact_sum(table: &[u32], corners: &[i32]) -> Result<i128, Refusal> {
    let (mut whole, mut rest) = (0, 0);
    let status = unsafe { proved::flaxglimmer_exact_sum(table.as_ptr(), table.len(), corners.as_ptr(), corners.len(), &mut whole, &mut rest) };
    answered(status, 6_000_000 * i128::from(whole) + i128::from(rest))
}

/// The change from an earlier stage to a later one over the same coordinates, in cubic metres.
pub fn change(earlier: &[u32], later: &[u32], corners: &[i32]) -> Result<i64, Refusal> {
    let a = unsafe { proved::flaxglimmer_change(earlier.as_ptr(), earlier.len(), later.as_ptr(), later.len(), corners.as_ptr(), corners.len()) };
    answered(a.status, a.figure)
}

/// The shift of a corner by a log that was written over these coordinates.
pub fn shift(corners: &[i32], log: &[u32], corner: u32) -> Result<Shift, Refusal> {
    let (mut stand_in, mut count, mut squared) = (0, 0, 0);
    let status = unsafe { proved::flaxglimmer_shift(corner, corners.as_ptr(), corners.len(), log.as_ptr(), log.len(), &mut stand_in, &mut count, &mut squared) };
    answered(status, Shift { stand_in: stand_in as u32, count: count as usize, squared })
}

/// A typed limit in whole centimetres.
pub fn read_limit(limit: Length) -> Result<u64, Refusal> {
    let (unit, figure) = limit.crossing();
    let a = unsafe { proved::flaxglimmer_limit(unit, figure) };
    answered(a.status, a.whole)
}

/// The shorter of two lent rings, the first when they are equally long.
pub fn shorter_ring<'a>(first: &'a [u32], second: &'a [u32]) -> &'a [u32] {
    let which = unsafe { proved::flaxglimmer_shorter_ring(first.as_ptr(), first.len(), second.as_ptr(), second.len()) };
    if which == 0 {
        first
    } else {
        second
    }
}

/// The rest of the longer of two logs where one is a beginning of the other, else an empty part of the first.
pub fn catch_up<'a>(first: &'a [u32], second: &'a [u32]) -> &'a [u32] {
    let (mut from, mut to) = (0, 0);
    let which = unsafe { proved::flaxglimmer_catch_up(first.as_ptr(), first.len(), second.as_ptr(), second.len(), &mut from, &mut to) };
    let log = if which == 0 { first } else { second };
    &log[from as usize..to as usize]
}

/// The net of a job sheet in cubic metres: the topmost entry's sum less the nets of those directly in it, rounded once.
pub fn job(bytes: &[u8]) -> Result<i64, Refusal> {
    let a = unsafe { proved::flaxglimmer_job(bytes.as_ptr(), bytes.len()) };
    answered(a.status, a.figure)
}

/// Reads a sheet: its rows in front of the table, its coordinates in front of the corners.
pub fn read_sheet(bytes: &[u8], table: &mut [u32], corners: &mut [i32]) -> Result<Counts, Refusal> {
    let (mut count, mut rows) = (0, 0);
    let status = unsafe { proved::flaxglimmer_read_sheet(bytes.as_ptr(), bytes.len(), table.as_mut_ptr(), table.len(), corners.as_mut_ptr(), corners.len(), &mut count, &mut rows) };
    answered(status, Counts { corners: count as usize, rows: rows as usize })
}

/// The trial ring's number at a place of its table, or that there is none.
pub fn trial_number(at: usize) -> Option<u32> {
    let a = unsafe { proved::flaxglimmer_trial_number(at) };
    (a.there == 1).then_some(a.number as u32)
}

/// The desk's whole answer to a sheet, in front of the text; how many bytes it has. `MOST_TEXT` bytes always suffice.
pub fn reply(sheet: &[u8], text: &mut [u8]) -> Result<usize, Refusal> {
    let a = unsafe { proved::flaxglimmer_reply(sheet.as_ptr(), sheet.len(), text.as_mut_ptr(), text.len()) };
    answered(a.status, a.bytes as usize)
}

/// Writes a log as a log sheet for so many corners and rows, in front of the text; how many bytes it has. `MOST_LOG_BYTES` bytes always suffice.
pub fn write_log_sheet(corners: usize, rows: usize, log: &[u32], text: &mut [u8]) -> Result<usize, Refusal> {
    let a = unsafe { proved::flaxglimmer_write_log_sheet(corners, rows, log.as_ptr(), log.len(), text.as_mut_ptr(), text.len()) };
    answered(a.status, a.bytes as usize)
}

/// Reads a log sheet: its numbers in front of the log.
pub fn read_log_sheet(bytes: &[u8], log: &mut [u32]) -> Result<LogCounts, Refusal> {
    let (mut corners, mut rows, mut records) = (0, 0, 0);
    let status = unsafe { proved::flaxglimmer_read_log_sheet(bytes.as_ptr(), bytes.len(), log.as_mut_ptr(), log.len(), &mut corners, &mut rows, &mut records) };
    answered(status, LogCounts { corners: corners as usize, rows: rows as usize, records: records as usize })
}

/// The same by the reader that is asked for one record at a time: the counts are asked before the lines of records, and records are not held against
/// the corners.
pub fn each_record(bytes: &[u8], log: &mut [u32]) -> Result<LogCounts, Refusal> {
    let (mut corners, mut rows, mut records) = (0, 0, 0);
    let status = unsafe { proved::flaxglimmer_each_record(bytes.as_ptr(), bytes.len(), log.as_mut_ptr(), log.len(), &mut corners, &mut rows, &mut records) };
    answered(status, LogCounts { corners: corners as usize, rows: rows as usize, records: records as usize })
}

/// Opens a log sheet to be read record by record: size, first line and counts. What follows the first line is not looked at.
pub fn open_log_sheet(bytes: &[u8]) -> Result<Opened, Refusal> {
    let (mut corners, mut rows, mut place) = (0, 0, 0);
    let status = unsafe { proved::flaxglimmer_open_log_sheet(bytes.as_ptr(), bytes.len(), &mut corners, &mut rows, &mut place) };
    answered(status, Opened { corners: corners as usize, rows: rows as usize, place: place as usize })
}

/// The record at a place of a log sheet, or of any bytes, and the place after its line; or that no byte follows the place.
pub fn next_record(bytes: &[u8], place: usize) -> Result<Option<(Record, usize)>, Refusal> {
    let mut record = [0; WIDTH];
    let after = put_record(bytes, place, &mut record)?;
    Ok(after.map(|after| (record, after)))
}

/// The same, with the record's numbers where they are to stand.
fn put_record(bytes: &[u8], place: usize, record: &mut Record) -> Result<Option<usize>, Refusal> {
    let (mut found, mut after) = (0, 0);
    let status = unsafe { proved::flaxglimmer_next_record(bytes.as_ptr(), bytes.len(), place, &mut found, &mut after, record) };
    answered(status, (found == 1).then_some(after as usize))
}

/// Opens a log sheet and gives its records one at a time. They are not held against the corners.
pub fn records(bytes: &[u8]) -> Result<Records<'_>, Refusal> {
    let Opened { corners, rows, place } = open_log_sheet(bytes)?;
    Ok(Records { counts: Counts { corners, rows }, bytes, place })
}

/// The records of a log sheet that was opened: keeps the caller's bytes and its own place, and asks for a record when it is asked for one. The first line
/// that is no record's is an error, and nothing comes after it.
#[derive(Clone, Debug)]
pub struct Records<'a> {
    counts: Counts,
    bytes: &'a [u8],
    place: usize,
}

impl Records<'_> {
    /// The counts of the first line.
    pub fn counts(&self) -> Counts {
        self.counts
    }

    /// Where the line of the record stands that is asked for next; after an error, the line that is none.
    pub fn place(&self) -> usize {
        self.place
    }
}

impl Iterator for Records<'_> {
    type Item = Result<Record, Refusal>;

    fn next(&mut self) -> Option<Result<Record, Refusal>> {
        let mut record = [0; WIDTH];
        match put_record(self.bytes, self.place, &mut record) {
            Ok(after) => self.place = after?,
            Err(refusal) => {
                // so that nothing follows its place
                self.bytes = &self.bytes[..self.place];
                return Some(Err(refusal));
            }
        }
        Some(Ok(record))
    }
}

impl std::iter::FusedIterator for Records<'_> {}
