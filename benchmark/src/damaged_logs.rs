//! Damaged logs and log sheets: every side writes and reads them alike, or refuses them by the same number.

use crate::logs::MOST_BYTES;
use crate::mailed::{Mailed, ONE_BY_ONE};
use crate::Input;
use apart::chance::Chance;
use apart::make;
use apart::sheet::GREATEST;
use apart::skin::{FEWEST, MOST_CORNERS, MOST_ROWS};
use apart::step::WIDTH;
use std::collections::{BTreeMap, BTreeSet};
use std::ops::Range;

const SEED: u64 = 13;
/// How often the log of each measured skin is damaged, and how many of smaller ones are.
const OFTEN: usize = 100;
const SMALLER: usize = 1_000;

const BYTES: &[u8] = b"\t\n\r -+0123456789KLR";
const FIELDS: [&str; 10] = ["", "0", "00", "01", "-0", "-1", "+1", "1 ", "999999", "1000000"];

/// The bytes round a place up to the marks before and after it.
fn between(sheet: &[u8], at: usize, mark: fn(&u8) -> bool) -> Range<usize> {
    let start = sheet[..at].iter().rposition(mark).map_or(0, |before| before + 1);
    let end = sheet[at..].iter().position(mark).map_or(sheet.len(), |after| at + after);
    start..end
}

/// Damage to a sheet at any place: a byte changed, dropped or put in, another field, a line dropped or repeated, a cut, other counts, or its last line
/// repeated up to the size limit or past it.
fn spoil_sheet(sheet: &mut Vec<u8>, chance: &mut Chance) {
    if sheet.is_empty() {
        return;
    }
    let (at, byte) = (chance.below(sheet.len()), chance.pick(BYTES));
    let line = between(sheet, at, |&byte| byte == b'\n');
    let line = line.start..(line.end + 1).min(sheet.len());
    match chance.below(9) {
        0 => sheet[at] = byte,
        1 => drop(sheet.remove(at)),
        2 => sheet.insert(at, byte),
        3 => {
            let field = between(sheet, at, |&byte| byte == b'\t' || byte == b'\n');
            drop(sheet.splice(field, chance.pick(&FIELDS).bytes()));
        }
        4 => drop(sheet.drain(line)),
        5 => {
            let again = sheet[line.clone()].to_vec();
            drop(sheet.splice(line.end..line.end, again));
        }
        6 => sheet.truncate(at),
        7 => {
            let [corners, rows] = [chance.pick(&COUNTS), chance.pick(&COUNTS)];
            let first = between(sheet, 0, |&byte| byte == b'\n');
            drop(sheet.splice(first, format!("LOG\t{corners}\t{rows}").bytes()));
        }
        _ => {
            let last = sheet[line].to_vec();
            let times = (MOST_BYTES - sheet.len().min(MOST_BYTES)) / last.len() + chance.below(2);
            sheet.extend(last.repeat(times));
        }
    }
}

/// Inside the limits, at their ends and past them; some past them come back inside when cut to 32 bits.
const COUNTS: [usize; 11] = [
    0,
    FEWEST - 1,
    FEWEST,
    FEWEST + 1,
    MOST_CORNERS,
    MOST_CORNERS + 1,
    MOST_ROWS,
    MOST_ROWS + 1,
    GREATEST as usize,
    (1 << 32) + MOST_CORNERS,
    usize::MAX,
];

/// Damage to what is lent to be written or read into: a number that is too long or just not, numbers too few or too many, counts, short room.
fn spoil_log(mailed: &mut Mailed, chance: &mut Chance) {
    let (records, other) = (mailed.log.len() / WIDTH, chance.pick(&COUNTS));
    match chance.below(7) {
        0 if !mailed.log.is_empty() => {
            let at = chance.below(mailed.log.len());
            mailed.log[at] = chance.pick(&[GREATEST as u32, GREATEST as u32 + 1, 1 << 31, u32::MAX]);
        }
        1 => mailed.log.truncate(chance.below(mailed.log.len() + 1)),
        2 => mailed.log.extend_from_within(..WIDTH.min(mailed.log.len())),
        3 => mailed.corners = chance.pick(&[other, records + FEWEST, records + FEWEST - 1]),
        4 => mailed.rows = other,
        5 => mailed.log_room = chance.pick(&[0, mailed.log_room.saturating_sub(1), mailed.log_room + 1]),
        _ => mailed.text_room = chance.pick(&[0, mailed.sheet.len().saturating_sub(1), mailed.sheet.len()]),
    }
}

/// With up to three damages.
fn damaged(honest: &Mailed, chance: &mut Chance) -> Mailed {
    let mut mailed = honest.clone();
    for _ in 0..chance.below(4) {
        match chance.one_in(2) {
            true => spoil_sheet(&mut mailed.sheet, chance),
            false => spoil_log(&mut mailed, chance),
        }
    }
    mailed
}

/// How many answers were compared: of the calls of log sheets, on damaged logs of the measured skins and of smaller ones of every kind.
pub fn compare(inputs: &[Input]) -> usize {
    let chance = &mut Chance::new(SEED);
    let mut logs: Vec<Mailed> =
        inputs.iter().flat_map(|input| vec![&input.mailed; OFTEN]).map(|mailed| damaged(mailed, chance)).collect();
    for _ in 0..SMALLER {
        let rows = make::size(chance);
        logs.push(damaged(&Input::of(&make::skin(rows, chance)).mailed, chance));
    }
    let mut met: BTreeMap<&str, BTreeSet<u64>> = BTreeMap::new();
    let mut compared = 0;
    for call in logs.iter().flat_map(Mailed::calls) {
        met.entry(call.name).or_default().insert(call.refused.map_or(0, |refusal| refusal.number()));
        compared += 1;
    }
    // Whatever each refuses with, and what it accepts.
    let wanted: [(&str, &[u64]); 3] =
        [("write log sheet", &[0, 2, 3]), ("read log sheet", &[0, 2, 3, 12]), (ONE_BY_ONE, &[0, 2, 12])];
    let wanted = wanted.map(|(call, refusals)| (call, refusals.iter().copied().collect()));
    assert_eq!(met, wanted.into(), "the refusals that damage has met");
    compared
}
