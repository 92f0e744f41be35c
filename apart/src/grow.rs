//! Growing back and replaying by 01's whole rule: the grown table is built, asked whether it is a stage,
//! asked for the link condition, and contracted again. Nothing is taken from a local shortcut.

use crate::skin::{is_stage, Edges, Row};
use crate::step::{contract, meets_link_condition, Record, WIDTH};

pub fn records_of(log: &[u32]) -> Vec<Record> {
    log.chunks_exact(WIDTH).map(|n| n.try_into().expect("as many numbers as a record has")).collect()
}

/// The third corner of a row that has the directed edge.
pub fn third(row: Row, from: u32, to: u32) -> Option<u32> {
    let [a, b, c] = row;
    [[a, b, c], [b, c, a], [c, a, b]].into_iter().find(|t| t[0] == from && t[1] == to).map(|t| t[2])
}

/// x from the leaving row with kept to removed, y from the other one.
fn opposite_corners(record: &Record) -> Option<(u32, u32)> {
    let &[kept, removed, _, a, b, c, _, d, e, f] = record;
    let sides = |forward, back| Some((third(forward, kept, removed)?, third(back, removed, kept)?));
    sides([a, b, c], [d, e, f]).or_else(|| sides([d, e, f], [a, b, c]))
}

/// Puts the removed number on the rows round the kept corner from y forward to x.
fn hand_over(rows: &[Row], kept: u32, removed: u32, (x, y): (u32, u32)) -> Option<Vec<Row>> {
    let mut changed = rows.to_vec();
    let mut at = y;
    for _ in 0..rows.len() {
        if at == x {
            return Some(changed);
        }
        let place = rows.iter().position(|&row| third(row, kept, at).is_some())?;
        changed[place] = rows[place].map(|n| if n == kept { removed } else { n });
        at = third(rows[place], kept, at)?;
    }
    None
}

/// The grown table, where the record has such rows and its places stand in order inside it.
pub fn grown(rows: &[Row], record: &Record) -> Option<Vec<Row>> {
    let &[kept, removed, earlier, a, b, c, later, d, e, f] = record;
    let (earlier, later) = (earlier as usize, later as usize);
    if earlier >= later || later >= rows.len() + 2 {
        return None;
    }
    let mut table = hand_over(rows, kept, removed, opposite_corners(record)?)?;
    table.insert(earlier, [a, b, c]);
    table.insert(later, [d, e, f]);
    Some(table)
}

/// The grown table, where the record is accepted.
pub fn grow_one(rows: &[Row], count: usize, record: &Record) -> Option<Vec<Row>> {
    let (kept, removed) = (record[0], record[1]);
    let unused = !rows.iter().flatten().any(|&n| n == removed);
    if kept >= removed || removed as usize >= count || !unused {
        return None;
    }
    let table = grown(rows, record)?;
    let accepted = is_stage(&table, count)
        && meets_link_condition(&Edges::of(&table), kept, removed)
        && contract(&table, kept, removed) == (rows.to_vec(), *record);
    accepted.then_some(table)
}

/// The stage after one record replayed, where it is accepted.
pub fn replay_one(rows: &[Row], record: &Record) -> Option<Vec<Row>> {
    let (kept, removed) = (record[0], record[1]);
    let edges = Edges::of(rows);
    if kept >= removed || edges.third(kept, removed).is_none() || !meets_link_condition(&edges, kept, removed) {
        return None;
    }
    let (staying, written) = contract(rows, kept, removed);
    (written == *record).then_some(staying)
}

/// How far a log went: the stage reached, the records done, and whether all were.
pub struct Reached {
    pub rows: Vec<Row>,
    pub done: usize,
    pub whole: bool,
}

/// "A log is grown back from its last record to its first."
pub fn grow_back(rows: Vec<Row>, count: usize, log: &[Record]) -> Reached {
    follow(rows, log.iter().rev(), |rows, record| grow_one(rows, count, record))
}

pub fn replay(rows: Vec<Row>, log: &[Record]) -> Reached {
    follow(rows, log.iter(), replay_one)
}

/// Follows records in the order given, up to the first that is not accepted.
pub fn follow<T>(
    mut rows: Vec<Row>,
    log: impl Iterator<Item = T>,
    one: impl Fn(&[Row], T) -> Option<Vec<Row>>,
) -> Reached {
    let mut done = 0;
    for record in log {
        match one(&rows, record) {
            Some(next) => rows = next,
            None => return Reached { rows, done, whole: false },
        }
        done += 1;
    }
    Reached { rows, done, whole: true }
}
