//! The sheet: its form, read strictly by lines and fields, and written.

use crate::refusal::BAD_FORM;
use crate::skin::{Corner, Row, FEWEST};

/// The sheet's own limits: it is held in memory whole, and does not grow with what the library takes.
pub const MOST_ROWS: usize = 1_024;
pub const MOST_CORNERS: usize = 514;
pub const MOST_BYTES: usize = 65_536;
pub const MOST_DIGITS: usize = 6;
/// The greatest number that so many digits can write.
pub const GREATEST: i32 = 10i32.pow(MOST_DIGITS as u32) - 1;

pub struct Sheet {
    pub corners: Vec<Corner>,
    pub rows: Vec<Row>,
}

/// One digit to the most, no needless zero in front, a minus only before a nonzero number that may be below zero.
pub fn number(field: &[u8], most_digits: usize, below_zero: bool) -> Option<i128> {
    let (minus, digits) = match field.strip_prefix(b"-") {
        Some(digits) => (true, digits),
        None => (false, field),
    };
    let plain = (1..=most_digits).contains(&digits.len()) && digits.iter().all(u8::is_ascii_digit);
    let needless = digits.len() > 1 && digits[0] == b'0';
    if !plain || needless || (minus && (!below_zero || digits == b"0")) {
        return None;
    }
    let size = digits.iter().fold(0, |n, d| 10 * n + i128::from(d - b'0'));
    Some(if minus { -size } else { size })
}

/// The fields of the next line behind its name, which must be this one; moves past its newline.
pub fn fields<'a>(bytes: &mut &'a [u8], name: &[u8]) -> Option<Vec<&'a [u8]>> {
    let end = bytes.iter().position(|&b| b == b'\n')?;
    let mut fields = bytes[..end].split(|&b| b == b'\t');
    *bytes = &bytes[end + 1..];
    (fields.next() == Some(name)).then(|| fields.collect())
}

/// The numbers of the next line, which must have this name and this many fields; moves past its newline.
pub fn line<const N: usize>(bytes: &mut &[u8], name: &[u8], coordinates: bool) -> Option<[i32; N]> {
    let fields = fields(bytes, name)?;
    let one = |field| number(field, MOST_DIGITS, coordinates).map(|n| n as i32);
    fields.into_iter().map(one).collect::<Option<Vec<i32>>>()?.try_into().ok()
}

/// Size, first line (12), counts (2), other lines (12).
pub fn read(bytes: &[u8]) -> Result<Sheet, i64> {
    if bytes.len() > MOST_BYTES {
        return Err(BAD_FORM);
    }
    let mut left = bytes;
    let [corners, rows] = line::<2>(&mut left, b"SKIN", false).ok_or(BAD_FORM)?;
    if !(FEWEST..=MOST_CORNERS).contains(&(corners as usize)) || !(FEWEST..=MOST_ROWS).contains(&(rows as usize)) {
        return Err(2);
    }
    let corners: Option<Vec<Corner>> = (0..corners).map(|_| line(&mut left, b"C", true)).collect();
    let rows: Option<Vec<[i32; 3]>> = (0..rows).map(|_| line(&mut left, b"R", false)).collect();
    match (corners, rows) {
        (Some(corners), Some(rows)) if left.is_empty() => {
            Ok(Sheet { corners, rows: rows.into_iter().map(|row| row.map(|n| n as u32)).collect() })
        }
        _ => Err(BAD_FORM),
    }
}

/// A sheet with these numbers, whatever they are.
pub fn write(corners: &[Corner], rows: &[Row]) -> Vec<u8> {
    let mut text = format!("SKIN\t{}\t{}\n", corners.len(), rows.len());
    for [x, y, z] in corners {
        text += &format!("C\t{x}\t{y}\t{z}\n");
    }
    for [a, b, c] in rows {
        text += &format!("R\t{a}\t{b}\t{c}\n");
    }
    text.into_bytes()
}
