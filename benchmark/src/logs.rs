//! Log sheets in ordinary Rust, in the same loops: a log written as one, and read whole or a record at a time. Nothing is allocated, and nothing is
//! written where it is refused: a text is measured first, a sheet's lines are passed over first.

use crate::work::Work;
use apart::sheet::{GREATEST, MOST_DIGITS};
use apart::skin::{CORNERS, FEWEST, ROWS};
use apart::step::WIDTH;
use flaxglimmer::Refusal::{self, CountsOutside, RoomShort, SheetForm};
use flaxglimmer::{LogCounts, Opened, Record};

pub const MOST_BYTES: usize = 65_536;

/// The bytes of a log sheet that are left to read.
#[derive(Clone)]
struct Lines<'a> {
    left: &'a [u8],
}

impl Lines<'_> {
    fn expect(&mut self, word: &[u8]) -> Result<(), Refusal> {
        self.left = self.left.strip_prefix(word).ok_or(SheetForm)?;
        Ok(())
    }

    fn number(&mut self) -> Result<u32, Refusal> {
        let (mut digits, mut value) = (0, 0);
        while let Some(digit @ b'0'..=b'9') = self.left.get(digits) {
            if (digits > 0 && value == 0) || digits == MOST_DIGITS {
                return Err(SheetForm);
            }
            value = 10 * value + u32::from(digit - b'0');
            digits += 1;
        }
        if digits == 0 {
            return Err(SheetForm);
        }
        self.left = &self.left[digits..];
        Ok(value)
    }

    /// The numbers of the next line, which has this word and so many of them.
    fn line<const N: usize>(&mut self, word: &[u8]) -> Result<[u32; N], Refusal> {
        let mut numbers = [0; N];
        self.expect(word)?;
        for number in &mut numbers {
            self.expect(b"\t")?;
            *number = self.number()?;
        }
        self.expect(b"\n")?;
        Ok(numbers)
    }

    fn record(&mut self) -> Result<Record, Refusal> {
        self.line(b"K")
    }
}

/// Whether the counts are inside their limits, and the records no more than the corners allow.
pub fn counts_fit(corners: usize, rows: usize, records: usize) -> bool {
    CORNERS.contains(&corners) && ROWS.contains(&rows) && records <= corners - FEWEST
}

/// The counts of the first line and the lines after it.
fn first_line(bytes: &[u8]) -> Result<(usize, usize, Lines<'_>), Refusal> {
    if bytes.len() > MOST_BYTES {
        return Err(SheetForm);
    }
    let mut lines = Lines { left: bytes };
    let [corners, rows] = lines.line(b"LOG")?;
    Ok((corners as usize, rows as usize, lines))
}

/// The call: a sheet's numbers go in front of the lent log.
pub fn read(bytes: &[u8], log: &mut [u32], work: &mut impl Work) -> Result<LogCounts, Refusal> {
    let (corners, rows, mut lines) = first_line(bytes)?;
    work.bytes(bytes.len() + lines.left.len());
    let (mut passed, mut records) = (lines.clone(), 0);
    while !passed.left.is_empty() {
        passed.record()?;
        records += 1;
    }
    if !counts_fit(corners, rows, records) {
        return Err(CountsOutside);
    }
    let room = log.get_mut(..WIDTH * records).ok_or(RoomShort)?;
    for record in room.chunks_exact_mut(WIDTH) {
        record.copy_from_slice(&lines.record()?);
    }
    Ok(LogCounts { corners, rows, records })
}

/// The call: a sheet's counts and the place after its first line.
pub fn open(bytes: &[u8], work: &mut impl Work) -> Result<Opened, Refusal> {
    let (corners, rows, lines) = first_line(bytes)?;
    if !counts_fit(corners, rows, 0) {
        return Err(CountsOutside);
    }
    let place = bytes.len() - lines.left.len();
    work.bytes(place);
    Ok(Opened { corners, rows, place })
}

/// The call: the record at a place and the place after its line, or that no byte follows.
pub fn next(bytes: &[u8], place: usize, work: &mut impl Work) -> Result<Option<(Record, usize)>, Refusal> {
    let Some(left @ [_, ..]) = bytes.get(place..) else { return Ok(None) };
    let mut lines = Lines { left };
    let record = lines.record()?;
    work.bytes(left.len() - lines.left.len());
    Ok(Some((record, bytes.len() - lines.left.len())))
}

/// How many bytes a number takes.
fn length(z: i64) -> usize {
    let (mut size, mut digits) = (z.unsigned_abs(), 1);
    while size >= 10 {
        size /= 10;
        digits += 1;
    }
    digits + usize::from(z < 0)
}

/// The text that is written so far, in front of its room.
struct Written<'a> {
    text: &'a mut [u8],
    end: usize,
}

impl Written<'_> {
    fn put(&mut self, byte: u8) {
        self.text[self.end] = byte;
        self.end += 1;
    }

    fn signed(&mut self, z: i64) {
        let (start, mut size) = (self.end, z.unsigned_abs());
        self.end += length(z);
        for byte in self.text[start..self.end].iter_mut().rev() {
            *byte = b'0' + (size % 10) as u8;
            size /= 10;
        }
        if z < 0 {
            self.text[start] = b'-';
        }
    }

    /// A line of plain numbers.
    fn line<const N: usize>(&mut self, word: &[u8], numbers: &[u32; N]) {
        word.iter().for_each(|&byte| self.put(byte));
        for &number in numbers {
            self.put(b'\t');
            self.signed(i64::from(number));
        }
        self.put(b'\n');
    }
}

/// How many bytes a line has.
fn measured(word: &[u8], numbers: &[u32]) -> usize {
    word.len() + numbers.iter().map(|&number| 1 + length(i64::from(number))).sum::<usize>() + 1
}

/// The call: the log's sheet goes in front of the lent text; how many bytes it has.
pub fn write(
    corners: usize,
    rows: usize,
    log: &[u32],
    text: &mut [u8],
    work: &mut impl Work,
) -> Result<usize, Refusal> {
    let (records, rest) = log.as_chunks::<WIDTH>();
    let short = || log.iter().all(|&number| number <= GREATEST as u32);
    if !rest.is_empty() || !counts_fit(corners, rows, records.len()) || !short() {
        return Err(CountsOutside);
    }
    let counts = [corners as u32, rows as u32];
    let bytes = measured(b"LOG", &counts) + records.iter().map(|record| measured(b"K", record)).sum::<usize>();
    let mut written = Written { text: text.get_mut(..bytes).ok_or(RoomShort)?, end: 0 };
    work.bytes(bytes);
    written.line(b"LOG", &counts);
    for record in records {
        written.line(b"K", record);
    }
    Ok(bytes)
}
