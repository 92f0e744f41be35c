//! The log sheet of 02's request 1: its form, read strictly by lines and fields, whole and record by record, and
//! written; and what request 3 still reads of one that was cut.

use crate::desk;
use crate::refusal::BAD_FORM;
use crate::sheet::line;
use crate::skin::{CORNERS, FEWEST, ROWS};
use crate::step::{Record, WIDTH};

/// A log sheet has its own limit of bytes; its counts have the library's.
pub const MOST_BYTES: usize = 65_536;
/// A `K` line whose numbers have one digit each, and the first line of such counts.
pub const SHORTEST_LINE: usize = "K\n".len() + WIDTH * "\t0".len();
const SHORTEST_FIRST_LINE: usize = "LOG\t4\t4\n".len();
/// As many records as a sheet can hold, whatever its counts: read one at a time, they are the longest answer.
pub const MOST_LINES: usize = (MOST_BYTES - SHORTEST_FIRST_LINE) / SHORTEST_LINE;
pub const LONGEST_ANSWER: usize = 4 + WIDTH * MOST_LINES;
const _: () = assert!(LONGEST_ANSWER == 29_784);

pub struct LogSheet {
    pub corners: usize,
    pub rows: usize,
    pub log: Vec<Record>,
}

pub fn counts_refused(corners: usize, rows: usize) -> bool {
    !CORNERS.contains(&corners) || !ROWS.contains(&rows)
}

/// How many records a log over so many corners may have.
pub fn most_records(corners: usize) -> usize {
    corners.saturating_sub(FEWEST)
}

fn first_line(left: &mut &[u8]) -> Option<[usize; 2]> {
    line::<2>(left, b"LOG", false).map(|counts| counts.map(|n| n as usize))
}

fn record(left: &mut &[u8]) -> Option<Record> {
    line::<WIDTH>(left, b"K", false).map(|numbers| numbers.map(|n| n as u32))
}

fn in_form(bytes: &[u8]) -> Option<LogSheet> {
    let mut left = bytes;
    let [corners, rows] = first_line(&mut left)?;
    let mut log = Vec::new();
    while !left.is_empty() {
        log.push(record(&mut left)?);
    }
    Some(LogSheet { corners, rows, log })
}

/// Size and the form of all lines (12), then counts and records (2).
pub fn read(bytes: &[u8]) -> Result<LogSheet, i64> {
    if bytes.len() > MOST_BYTES {
        return Err(BAD_FORM);
    }
    let sheet = in_form(bytes).ok_or(BAD_FORM)?;
    if counts_refused(sheet.corners, sheet.rows) || sheet.log.len() > most_records(sheet.corners) {
        return Err(2);
    }
    Ok(sheet)
}

/// The bytes up to the last newline: what follows it is the unfinished tail.
pub fn whole_lines(bytes: &[u8]) -> &[u8] {
    let end = bytes.iter().rposition(|&byte| byte == b'\n').map_or(0, |last| last + 1);
    &bytes[..end]
}

/// A sheet cut after any byte: size, then the form of the lines that end in a newline, a first line among them (12).
/// Its counts are held against the skin's, and by no limit of their own.
pub fn recover(bytes: &[u8]) -> Result<LogSheet, i64> {
    if bytes.len() > MOST_BYTES {
        return Err(BAD_FORM);
    }
    in_form(whole_lines(bytes)).ok_or(BAD_FORM)
}

/// Size, first line (12), its counts (2): corners, rows, and the place after the line. No other line is looked at.
pub fn open(bytes: &[u8]) -> Result<(usize, usize, usize), i64> {
    if bytes.len() > MOST_BYTES {
        return Err(BAD_FORM);
    }
    let mut left = bytes;
    let [corners, rows] = first_line(&mut left).ok_or(BAD_FORM)?;
    if counts_refused(corners, rows) {
        return Err(2);
    }
    Ok((corners, rows, bytes.len() - left.len()))
}

/// The record whose line starts at the place, and the place after it; nothing where no byte follows; else 12.
pub fn at(bytes: &[u8], place: usize) -> Result<Option<(Record, usize)>, i64> {
    let Some(mut left) = bytes.get(place..).filter(|left| !left.is_empty()) else { return Ok(None) };
    let record = record(&mut left).ok_or(BAD_FORM)?;
    Ok(Some((record, bytes.len() - left.len())))
}

/// Opened, then record by record up to the end; records are not counted against the corners.
pub fn one_at_a_time(bytes: &[u8]) -> Result<LogSheet, i64> {
    let (corners, rows, mut place) = open(bytes)?;
    let mut log = Vec::new();
    while let Some((record, after)) = at(bytes, place)? {
        log.push(record);
        place = after;
    }
    Ok(LogSheet { corners, rows, log })
}

/// A sheet with these numbers, whatever they are.
pub fn write(corners: u64, rows: u64, log: &[u32]) -> Vec<u8> {
    let lines: String = log.chunks(WIDTH).map(|record| desk::line("K", record)).collect();
    format!("LOG\t{corners}\t{rows}\n{lines}").into_bytes()
}
