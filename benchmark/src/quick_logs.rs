//! Log sheets, written and read as quickly as safe Rust was found to: in one pass, in a room of its own, which is copied once nothing is refused.

use crate::logs::{counts_fit, MOST_BYTES};
use crate::work::Work;
use apart::sheet::{GREATEST, MOST_DIGITS};
use apart::skin::{FEWEST, MOST_CORNERS};
use apart::step::WIDTH;
use flaxglimmer::LogCounts;
use flaxglimmer::Refusal::{self, CountsOutside, RoomShort, SheetForm};

const MOST_RECORDS: usize = MOST_CORNERS - FEWEST;
/// A first line has no more bytes, nor has a record's: a word, a newline, and for each number a tab and its digits.
const MOST_FIRST: usize = 4 + 2 * (1 + MOST_DIGITS);
const MOST_LINE: usize = 2 + WIDTH * (1 + MOST_DIGITS);

const TEXT: usize = MOST_FIRST + MOST_LINE * MOST_RECORDS + 4;

/// A tab and a number below a thousand, in front of what is not looked at.
const FIELDS: [[u8; 4]; 1_000] = {
    let mut fields = [[b'\t'; 4]; 1_000];
    let mut number = 0;
    while number < fields.len() {
        let [hundreds, tens, ones] = last_three(number);
        fields[number] = match number {
            ..10 => [b'\t', ones, 0, 0],
            10..100 => [b'\t', tens, ones, 0],
            _ => [b'\t', hundreds, tens, ones],
        };
        number += 1;
    }
    fields
};

const fn last_three(number: usize) -> [u8; 3] {
    [b'0' + (number / 100 % 10) as u8, b'0' + (number / 10 % 10) as u8, b'0' + (number % 10) as u8]
}

/// The text so far, with room past it for all that is put at once.
struct Text {
    bytes: [u8; TEXT],
    end: usize,
}

impl Text {
    /// Puts some bytes, of which so many count.
    fn put<const N: usize>(&mut self, bytes: [u8; N], count: usize) {
        self.bytes[self.end..self.end + N].copy_from_slice(&bytes);
        self.end += count;
    }

    fn field(&mut self, number: u32) {
        let number = number as usize;
        match number {
            ..1_000 => self.put(FIELDS[number], 2 + usize::from(number >= 10) + usize::from(number >= 100)),
            _ => {
                let front = number / 1_000;
                self.put(FIELDS[front], 2 + usize::from(front >= 10) + usize::from(front >= 100));
                self.put(last_three(number), 3);
            }
        }
    }
}

pub fn write(
    corners: usize,
    rows: usize,
    log: &[u32],
    text: &mut [u8],
    work: &mut impl Work,
) -> Result<usize, Refusal> {
    let (records, rest) = log.as_chunks::<WIDTH>();
    // without an early end, so that the compiler takes several numbers at a time
    let long = log.iter().fold(false, |long, &number| long | (number > GREATEST as u32));
    if !rest.is_empty() || long || !counts_fit(corners, rows, records.len()) {
        return Err(CountsOutside);
    }
    let mut own = Text { bytes: [0; TEXT], end: 0 };
    own.put(*b"LOG", 3);
    own.field(corners as u32);
    own.field(rows as u32);
    own.put(*b"\n", 1);
    for record in records {
        own.put(*b"K", 1);
        record.iter().for_each(|&number| own.field(number));
        own.put(*b"\n", 1);
    }
    text.get_mut(..own.end).ok_or(RoomShort)?.copy_from_slice(&own.bytes[..own.end]);
    work.bytes(own.end);
    Ok(own.end)
}

/// The number at a place and the place after it, where a byte stands, as after every number of a sheet.
fn number(bytes: &[u8], start: usize) -> Option<(u32, usize)> {
    let digit = |at: usize| Some(u32::from(bytes.get(at)?.wrapping_sub(b'0')));
    let (mut value, mut at) = (digit(start).filter(|&digit| digit < 10)?, start + 1);
    loop {
        let next = digit(at)?;
        if next >= 10 {
            return Some((value, at));
        }
        if value == 0 || at == start + MOST_DIGITS {
            return None;
        }
        value = 10 * value + next;
        at += 1;
    }
}

/// Reads a line at a place; the place after it.
fn line<const N: usize>(bytes: &[u8], start: usize, word: &[u8], numbers: &mut [u32; N]) -> Option<usize> {
    let stands = |at: usize, byte: u8| (*bytes.get(at)? == byte).then_some(at + 1);
    let mut at = start + word.len();
    if bytes.get(start..at)? != word {
        return None;
    }
    for room in numbers {
        (*room, at) = number(bytes, stands(at, b'\t')?)?;
    }
    stands(at, b'\n')
}

pub fn read(bytes: &[u8], log: &mut [u32], work: &mut impl Work) -> Result<LogCounts, Refusal> {
    if bytes.len() > MOST_BYTES {
        return Err(SheetForm);
    }
    work.bytes(bytes.len());
    let (mut counts, mut own, mut past, mut records) = ([0; 2], [[0; WIDTH]; MOST_RECORDS], [0; WIDTH], 0);
    let mut at = line(bytes, 0, b"LOG", &mut counts).ok_or(SheetForm)?;
    while at < bytes.len() {
        at = line(bytes, at, b"K", own.get_mut(records).unwrap_or(&mut past)).ok_or(SheetForm)?;
        records += 1;
    }
    let [corners, rows] = counts.map(|count| count as usize);
    if !counts_fit(corners, rows, records) {
        return Err(CountsOutside);
    }
    log.get_mut(..WIDTH * records).ok_or(RoomShort)?.copy_from_slice(own[..records].as_flattened());
    Ok(LogCounts { corners, rows, records })
}
