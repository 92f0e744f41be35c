//! Makes logs: steps over edges taken by chance, and records grown freely, all of which 01 accepts.

use crate::chance::Chance;
use crate::grow::grown;
use crate::make::{turned, Skin};
use crate::skin::{Edges, Row};
use crate::step::{contract, meets_link_condition, thin, Record};

/// Steps over contractible edges taken by chance, at most so many: the stage left and the log.
pub fn steps(rows: &[Row], most: usize, chance: &mut Chance) -> (Vec<Row>, Vec<Record>) {
    let mut rows = rows.to_vec();
    let mut log = Vec::new();
    while log.len() < most {
        let edges = Edges::of(&rows);
        let edge = (0..40).map(|_| some_edge(&rows, chance)).find(|&(a, b)| meets_link_condition(&edges, a, b));
        let Some((a, b)) = edge else { break };
        let (staying, record) = contract(&rows, a.min(b), a.max(b));
        rows = staying;
        log.push(record);
    }
    (rows, log)
}

/// A log that 01 accepts for the skin, and the stage it leaves: thinning's own, or steps by chance.
pub fn some_log(skin: &Skin, chance: &mut Chance) -> (Vec<Row>, Vec<Record>) {
    match chance.below(4) {
        0 => thin(skin.rows.clone(), &skin.corners, None),
        1 => steps(&skin.rows, usize::MAX, chance),
        _ => steps(&skin.rows, 1 + chance.below(6), chance),
    }
}

pub fn some_edge(rows: &[Row], chance: &mut Chance) -> (u32, u32) {
    let [a, b, _] = turned(rows[chance.below(rows.len())], chance.below(3));
    (a, b)
}

/// Grows a stage freely: any kept corner, any two of its neighbours, any places, rows turned anyhow.
/// The log is in its own order, the record grown last standing first.
pub fn growth(rows: &[Row], count: usize, most: usize, chance: &mut Chance) -> Vec<Record> {
    let mut rows = rows.to_vec();
    let mut log = Vec::new();
    while log.len() < most {
        let Some(record) = free_record(&rows, count, chance) else { break };
        rows = grown(&rows, &record).expect("a record with its rows and places in order");
        log.insert(0, record);
    }
    log
}

fn free_record(rows: &[Row], count: usize, chance: &mut Chance) -> Option<Record> {
    let edges = Edges::of(rows);
    let used = edges.used();
    let unused: Vec<u32> = (0..count as u32).filter(|n| !used.contains(n)).collect();
    let removed = *unused.get(chance.below(unused.len().max(1)))?;
    let below: Vec<u32> = used.into_iter().filter(|&n| n < removed).collect();
    let kept = *below.get(chance.below(below.len().max(1)))?;
    let round = edges.round(kept);
    let x = chance.below(round.len());
    let y = (x + 1 + chance.below(round.len() - 1)) % round.len();
    let forward = turned([kept, removed, round[x][1]], chance.below(3));
    let back = turned([removed, kept, round[y][1]], chance.below(3));
    Some(placed([kept, removed], [forward, back], rows.len() + 2, chance))
}

/// A record with two leaving rows in either order, at two places by chance.
pub fn placed(pair: [u32; 2], mut rows: [Row; 2], length: usize, chance: &mut Chance) -> Record {
    let one = chance.below(length);
    let two = (one + 1 + chance.below(length - 1)) % length;
    if chance.one_in(2) {
        rows.swap(0, 1);
    }
    let ([a, b, c], [d, e, f]) = (rows[0], rows[1]);
    [pair[0], pair[1], one.min(two) as u32, a, b, c, one.max(two) as u32, d, e, f]
}
