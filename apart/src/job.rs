//! The job sheet of 02's request 5: its form, what is asked of its entries, and the topmost net.

use crate::refusal::*;
use crate::sheet::{self, fields, number};
use crate::skin::{FARTHEST, MOST_ROWS};

pub const MOST_BYTES: usize = 65_536;
pub const MOST_ENTRIES: usize = 32;
/// The first entry is at depth 1.
pub const DEEPEST: usize = 8;
pub const SUM_DIGITS: usize = 18;
/// "1,024 rows of six products at the coordinate limit."
pub const LARGEST_SUM: i128 = 768_000_000_000_000_000;
const _: () = assert!(LARGEST_SUM == MOST_ROWS as i128 * 6 * (FARTHEST as i128).pow(3));

pub const VOID: u8 = b'V';
pub const SOLID: u8 = b'S';

#[derive(Clone, Copy, PartialEq, Debug)]
pub struct Entry {
    /// The kind: any capital letter is in form.
    pub letter: u8,
    /// The entry that it names; none is written `-`.
    pub name: Option<usize>,
    pub sum: i128,
}

fn entry(left: &mut &[u8]) -> Option<Entry> {
    let &[letter, name, sum] = &fields(left, b"J")?[..] else { return None };
    let &[letter @ b'A'..=b'Z'] = letter else { return None };
    let name = match name {
        b"-" => None,
        plain => Some(number(plain, sheet::MOST_DIGITS, false)? as usize),
    };
    Some(Entry { letter, name, sum: number(sum, SUM_DIGITS, true)? })
}

/// The entries of a sheet: as many lines as its first line counts, and nothing behind them.
pub fn entries(bytes: &[u8]) -> Option<Vec<Entry>> {
    if bytes.len() > MOST_BYTES {
        return None;
    }
    let mut left = bytes;
    let [count] = sheet::line(&mut left, b"JOB", false)?;
    let entries: Option<Vec<Entry>> = (0..count).map(|_| entry(&mut left)).collect();
    entries.filter(|_| left.is_empty())
}

/// The earlier entry that an entry stands in; the first stands in none, and neither does one that names no earlier one.
fn stands_in(entries: &[Entry], at: usize) -> Option<usize> {
    entries[at].name.filter(|&name| name < at)
}

fn depth(entries: &[Entry], at: usize) -> usize {
    1 + stands_in(entries, at).map_or(0, |outer| depth(entries, outer))
}

pub fn deepest(entries: &[Entry]) -> usize {
    (0..entries.len()).map(|at| depth(entries, at)).max().unwrap_or(0)
}

fn any(entries: &[Entry], refused: impl Fn(usize) -> bool) -> bool {
    (0..entries.len()).any(refused)
}

type Question = (i64, fn(&[Entry]) -> bool);

/// "Order: count, kind, name, alternation, depth, sum": each is asked of all entries before the next.
const QUESTIONS: [Question; 6] = [
    (ENTRIES, |all| !(1..=MOST_ENTRIES).contains(&all.len())),
    (KIND, |all| any(all, |at| ![VOID, SOLID].contains(&all[at].letter))),
    // "Only the first, the topmost, names none."
    (NAME, |all| any(all, |at| all[at].name.map_or(at > 0, |name| name >= at))),
    (ALTERNATION, |all| any(all, |at| stands_in(all, at).is_some_and(|outer| all[outer].letter == all[at].letter))),
    (DEPTH, |all| deepest(all) > DEEPEST),
    (SUM, |all| any(all, |at| all[at].sum.abs() > LARGEST_SUM)),
];

/// All refusals that hold of a sheet, and not the first alone; of one in bad form nothing else can be asked.
pub fn holding(bytes: &[u8]) -> Vec<i64> {
    match entries(bytes) {
        None => vec![BAD_FORM],
        Some(all) => QUESTIONS.iter().filter(|(_, holds)| holds(&all)).map(|(number, _)| *number).collect(),
    }
}

/// "Its own exact sum less the nets" of those directly in it, which are of the other kind. Each sum of a job comes into
/// the topmost net once, so no net passes 32 of the largest sums, which is below 2^65: 128 bits hold it.
pub fn net(entries: &[Entry], at: usize) -> i128 {
    let inside = (at + 1..entries.len()).filter(|&inner| entries[inner].name == Some(at));
    entries[at].sum - inside.map(|inner| net(entries, inner)).sum::<i128>()
}

/// The topmost net of a sheet, exact, or the first refusal that holds of it.
pub fn topmost_net(bytes: &[u8]) -> Result<i128, i64> {
    let entries = entries(bytes).ok_or(BAD_FORM)?;
    match QUESTIONS.iter().find(|(_, holds)| holds(&entries)) {
        Some((number, _)) => Err(*number),
        None => Ok(net(&entries, 0)),
    }
}

/// A sheet of these entries under this count, whatever they are.
pub fn write_counted(count: usize, entries: &[Entry]) -> Vec<u8> {
    let mut text = format!("JOB\t{count}\n").into_bytes();
    for Entry { letter, name, sum } in entries {
        let name = name.map_or("-".to_string(), |name| name.to_string());
        text.extend([b"J\t", &[*letter][..], format!("\t{name}\t{sum}\n").as_bytes()].concat());
    }
    text
}

pub fn write(entries: &[Entry]) -> Vec<u8> {
    write_counted(entries.len(), entries)
}
