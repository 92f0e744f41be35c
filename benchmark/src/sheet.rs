//! Reading a sheet in ordinary Rust: a cursor over the bytes, then the check.

use crate::check;
use crate::work::Work;
use apart::sheet::{MOST_BYTES, MOST_CORNERS, MOST_DIGITS, MOST_ROWS};
use apart::skin::FEWEST;
use flaxglimmer::Counts;
use flaxglimmer::Refusal::{self, CountsOutside, RoomShort, SheetForm};

struct Reader<'a> {
    left: &'a [u8],
}

impl Reader<'_> {
    fn expect(&mut self, word: &[u8]) -> Result<(), Refusal> {
        self.left = self.left.strip_prefix(word).ok_or(SheetForm)?;
        Ok(())
    }

    fn number(&mut self) -> Result<i64, Refusal> {
        let minus = self.expect(b"-").is_ok();
        let mut digits = 0;
        let mut value = 0;
        while let Some(digit @ b'0'..=b'9') = self.left.get(digits) {
            if (digits > 0 && value == 0) || digits == MOST_DIGITS {
                return Err(SheetForm);
            }
            value = 10 * value + i64::from(digit - b'0');
            digits += 1;
        }
        if digits == 0 || (minus && value == 0) {
            return Err(SheetForm);
        }
        self.left = &self.left[digits..];
        Ok(if minus { -value } else { value })
    }

    fn line(&mut self, word: &[u8], fields: &mut [i64]) -> Result<(), Refusal> {
        self.expect(word)?;
        for field in fields {
            self.expect(b"\t")?;
            *field = self.number()?;
        }
        self.expect(b"\n")
    }
}

/// The call: corner count and row count; table and coordinates go in front of the lent rooms.
pub fn read_sheet(
    bytes: &[u8],
    table: &mut [u32],
    corners: &mut [i32],
    work: &mut impl Work,
) -> Result<Counts, Refusal> {
    if bytes.len() > MOST_BYTES {
        return Err(SheetForm);
    }
    work.bytes(bytes.len());
    let mut reader = Reader { left: bytes };
    let mut counts = [0; 2];
    reader.line(b"SKIN", &mut counts)?;
    let [n, m] = counts;
    if n < 0 || m < 0 {
        return Err(SheetForm);
    }
    let (n, m) = (n as usize, m as usize);
    if !(FEWEST..=MOST_CORNERS).contains(&n) || !(FEWEST..=MOST_ROWS).contains(&m) {
        return Err(CountsOutside);
    }
    let mut coordinates = [0; 3 * MOST_CORNERS];
    for line in coordinates[..3 * n].chunks_exact_mut(3) {
        reader.line(b"C", line)?;
    }
    let mut numbers = [0; 3 * MOST_ROWS];
    for line in numbers[..3 * m].chunks_exact_mut(3) {
        reader.line(b"R", line)?;
    }
    if !reader.left.is_empty() || numbers[..3 * m].iter().any(|&number| number < 0) {
        return Err(SheetForm);
    }
    let (mut xs, mut rows) = ([0; 3 * MOST_CORNERS], [0; 3 * MOST_ROWS]);
    for (x, &z) in xs[..3 * n].iter_mut().zip(&coordinates) {
        *x = z as i32;
    }
    for (number, &z) in rows[..3 * m].iter_mut().zip(&numbers) {
        *number = z as u32;
    }
    if table.len() < 3 * m || corners.len() < 3 * n {
        return Err(RoomShort);
    }
    check::with_coordinates(&rows[..3 * m], &xs[..3 * n], true, work)?;
    table[..3 * m].copy_from_slice(&rows[..3 * m]);
    corners[..3 * n].copy_from_slice(&xs[..3 * n]);
    Ok(Counts { corners: n, rows: m })
}
