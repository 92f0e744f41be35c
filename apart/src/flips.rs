//! Makes lists of edges and flip logs, honest and spoiled; rounds that flip and undo, thin what was flipped and flip what
//! thinning left.

use crate::bench::Bench;
use crate::chance::Chance;
use crate::check::{euler, measured, numbers};
use crate::flip::*;
use crate::harm::{harm_log, number_outside, scribble, words, Input};
use crate::logs::{some_edge, some_log};
use crate::make::{self, Skin};
use crate::protocol::*;
use crate::recovery::NO_LIMIT;
use crate::refusal::{MISSING, NEIGHBOURS};
use crate::skin::{is_stage, rows_of, Edges, Row};
use crate::typed;

/// Where a record has its two rows, each behind its place.
const ROWS_OF_RECORD: [std::ops::Range<usize>; 2] = [1..4, 5..8];
/// Every table between two flips is looked at where there are no more rows and flips than this.
const FEW: usize = 60;

pub fn flip_request(count: usize, rows: &[Row], edges: &[u32], room: Vec<Word>) -> Request {
    Request { call: FLIP, arguments: vec![vec![count as Word], words(&rows.concat()), words(edges), room] }
}

pub fn undo_request(count: usize, rows: &[Row], log: &[u32]) -> Request {
    Request { call: UNDO, arguments: vec![vec![count as Word], words(&rows.concat()), words(log)] }
}

fn all_sides(rows: &[Row]) -> impl Iterator<Item = Edge> + '_ {
    rows.iter().flat_map(|&row| sides(row))
}

/// Edges whose flips are allowed one after the other, either way round, so many where there are any.
pub fn allowed(rows: &[Row], wanted: usize, chance: &mut Chance) -> Vec<Edge> {
    let mut rows = rows.to_vec();
    let mut edges: Vec<Edge> = Vec::new();
    while edges.len() < wanted {
        let tried: Vec<Edge> = (0..20).map(|_| some_edge(&rows, chance).into()).collect();
        let flipped = |edge: Edge| Some((edge, flip(&rows, edge).ok()?.0));
        let Some((edge, left)) = tried.into_iter().chain(all_sides(&rows)).find_map(flipped) else { break };
        edges.push(edge);
        rows = left;
    }
    edges
}

/// An edge that no row has: one corner twice, corners that no row uses, past the count or at the type's end, corners that
/// no edge joins, and an edge that would be there if its numbers were cut to fewer bits.
pub fn missing(rows: &[Row], count: u32, chance: &mut Chance) -> Edge {
    let used: Vec<u32> = Edges::of(rows).used().into_iter().collect();
    loop {
        let (a, b) = some_edge(rows, chance);
        let any = chance.below(count as usize) as u32;
        let outside = number_outside(count, false, chance);
        let bits = 1 << chance.pick(&[8, 16, 31]);
        let edge = match chance.below(7) {
            0 => [a, a],
            1 => [a, outside],
            2 => [outside, b],
            3 => [outside, outside],
            4 => [a, chance.pick(&used)],
            5 => [any, b],
            _ => chance.pick(&[[a | bits, b], [a, b | bits], [a | bits, b | bits]]),
        };
        if !all_sides(rows).any(|side| side == edge) {
            return edge;
        }
    }
}

/// An edge whose c and d are neighbours already, where the table has one.
pub fn of_neighbours(rows: &[Row], chance: &mut Chance) -> Option<Edge> {
    let all: Vec<Edge> = all_sides(rows).filter(|&edge| flip(rows, edge).err() == Some(NEIGHBOURS)).collect();
    (!all.is_empty()).then(|| chance.pick(&all))
}

/// Up to so many edges: all allowed, or with one among them that is missing, of neighbours or of any corners, or with one
/// left out, or in another order.
pub fn some_list(rows: &[Row], count: usize, most: usize, chance: &mut Chance) -> Vec<u32> {
    let wanted = chance.below(most + 1);
    let mut edges = allowed(rows, wanted, chance);
    let place = chance.below(edges.len() + 1);
    match chance.below(9) {
        0 | 1 => edges.insert(place, missing(rows, count as u32, chance)),
        2 => {
            let reached = flip_all(rows.to_vec(), &edges[..place]).rows;
            if let Some(edge) = of_neighbours(&reached, chance) {
                edges.insert(place, edge);
            }
        }
        3 => edges.insert(place, [0; 2].map(|_: u32| chance.below(count) as u32)),
        4 if place < edges.len() => drop(edges.remove(place)),
        5 => chance.shuffle(&mut edges),
        _ => {}
    }
    edges.concat()
}

/// Gives an input a list of up to so many edges that are allowed; for undoing, what it leaves and its log.
pub fn give(input: &mut Input, call: usize, most: usize, chance: &mut Chance) {
    let rows = rows_of(&input.table);
    let edges = allowed(&rows, 1 + chance.below(most), chance);
    input.edges = edges.concat();
    if call == UNDO {
        let flipped = flip_all(rows, &edges);
        input.table = flipped.rows.concat();
        input.flip_log = flipped.log.concat();
    }
}

/// Spoils a record of a flip log so that it can't be undone, whatever the table.
pub fn harm_record(log: &mut [u32], chance: &mut Chance) {
    if log.len() < WIDTH {
        return;
    }
    let at = WIDTH * chance.below(log.len() / WIDTH);
    match chance.below(3) {
        // One place for both rows, a place past every table, a number past every corner.
        0 => log[at + 4] = log[at],
        1 => log[at + chance.pick(&[0, 4])] = chance.pick(&[1 << 16, 1 << 31, u32::MAX]),
        _ => log[at + chance.pick(&[1, 2, 3, 5, 6, 7])] = chance.pick(&[1 << 16, 1 << 31, u32::MAX]),
    }
}

/// Flips a list in room enough, holds what it leaves to 02 and undoes it whole; hands on the table that was left.
pub fn flipped(
    bench: &mut Bench,
    kind: &str,
    count: usize,
    rows: &[Row],
    edges: &[u32],
    chance: &mut Chance,
) -> Option<Vec<Row>> {
    let room = WIDTH * (edges.len() / 2) + chance.pick(&[0, 0, 1, 7, WIDTH, 40]);
    let room = scribble(room.min(LONGEST_LIST) as i64, chance);
    let request = flip_request(count, rows, edges, room);
    let found = bench.try_call(kind, &request)?;
    if ![0, MISSING, NEIGHBOURS].contains(&found.answer[0]) {
        return None;
    }
    let left = rows_of(&numbers(&found.lent[0]));
    let kept = |stage: &[Row]| {
        let used = |rows: &[Row]| Edges::of(rows).used();
        is_stage(stage, count) && used(stage) == used(rows) && euler(stage) == euler(rows)
    };
    let what = "no stage, other corners or another Euler number";
    bench.property("flips: a closed skin of the same corners and Euler number", kept(&left), what, &request);
    let done = found.answer[1] as usize;
    let all = edges_of(edges);
    if rows.len().max(done) <= FEW {
        let between = (0..done).all(|flips| kept(&flip_all(rows.to_vec(), &all[..flips]).rows));
        bench.property("own rules: every flip keeps a stage", between, what, &request);
    }
    if done > 0 || chance.one_in(10) {
        undone(bench, rows, &undo_request(count, &left, &numbers(&found.lent[1][..WIDTH * done])));
    }
    Some(left)
}

/// "Undoing the whole log, last record first, restores the table."
fn undone(bench: &mut Bench, first: &[Row], request: &Request) {
    let Some(found) = bench.try_call("flips: a whole log undone", request) else { return };
    let records = (request.arguments[2].len() / WIDTH) as Word;
    let holds = found.answer == [0, records] && found.lent[0] == words(&first.concat());
    bench.property("flips: undoing the whole log restores the table", holds, "it does not", request);
}

/// A skin's own rows, or those of a stage of it.
fn some_stage(skin: &Skin, chance: &mut Chance) -> Vec<Row> {
    if chance.one_in(3) {
        some_log(skin, chance).0
    } else {
        skin.rows.clone()
    }
}

/// A round that flips a list and undoes what was done of it.
pub fn honest(bench: &mut Bench, skin: &Skin, chance: &mut Chance) {
    let (rows, count) = (some_stage(skin, chance), skin.corners.len());
    for _ in 0..2 {
        let most = chance.pick(&[3, 12, 12, 60]);
        let edges = some_list(&rows, count, most, chance);
        flipped(bench, "chance: flips", count, &rows, &edges, chance);
    }
}

/// A round that undoes spoiled logs, or honest ones of a spoiled table.
pub fn spoiled(bench: &mut Bench, skin: &Skin, chance: &mut Chance) {
    let (rows, count) = (some_stage(skin, chance), skin.corners.len());
    let edges = allowed(&rows, 1 + chance.below(6), chance);
    let flipped = flip_all(rows, &edges);
    if flipped.log.is_empty() {
        return;
    }
    for _ in 0..3 {
        let (mut left, mut log) = (flipped.rows.clone(), flipped.log.clone());
        match chance.below(6) {
            // A row that a flip wrote is turned, or the two stand in each other's place.
            0 => {
                let place = chance.pick(&log)[chance.pick(&[0, 4])] as usize;
                left[place] = make::turned(left[place], 1 + chance.below(2));
            }
            1 => {
                let [p, _, _, _, q, ..] = chance.pick(&log);
                left.swap(p as usize, q as usize);
            }
            _ => spoil(&mut log, left.len() as u32, count as u32, chance),
        }
        bench.try_call("chance: spoiled flip logs", &undo_request(count, &left, &log.concat()));
    }
}

/// Spoils a flip log of at least one record; some spoiled logs are still undone.
pub fn spoil(log: &mut Vec<Record>, rows: u32, count: u32, chance: &mut Chance) {
    let (at, other) = (chance.below(log.len()), chance.below(log.len()));
    let half = chance.below(2);
    let record = &mut log[at];
    let row = &mut record[ROWS_OF_RECORD[half].clone()];
    match chance.below(13) {
        // A row turned is undone all the same; one turned over is not.
        0 | 1 => row.rotate_left(1 + chance.below(2)),
        2 => row.swap(0, 1),
        // The two rows, places and all, the other way round; the places alone.
        3 => record.rotate_left(WIDTH / 2),
        4 => record.swap(0, 4),
        5 => log.swap(at, other),
        6 => log.insert(other, log[at]),
        7 => drop(log.remove(at)),
        8 => record.swap(1 + chance.below(3), 5 + chance.below(3)),
        9 => record[4 * half] = chance.pick(&[rows, rows + 1, rows + 256, 1 << 16, 1 << 31, u32::MAX]),
        10 => record[4 * half] = record[4 - 4 * half],
        11 => record[4 * half] = chance.below(rows as usize) as u32,
        _ => harm_log(record, count, chance),
    }
}

/// A round that flips a skin, measures it, thins it, and flips what is left.
pub fn thinned(bench: &mut Bench, skin: &Skin, chance: &mut Chance) {
    let count = skin.corners.len();
    let edges = allowed(&skin.rows, 1 + chance.below(20), chance).concat();
    let kind = "flips: a skin flipped, thinned and flipped";
    let Some(rows) = flipped(bench, kind, count, &skin.rows, &edges, chance) else { return };
    let first = Skin { rows, ..skin.clone() };
    measured(bench, "flips: a flipped skin measured", skin, [&skin.rows, &first.rows]);
    bench.tally.meet_if(!edges.is_empty(), "a flipped skin measured");
    let mut input = Input::new(&first, &[]);
    input.order = if chance.one_in(2) { NO_LIMIT } else { typed::parting(&first, chance) };
    let Some(found) = bench.try_call(kind, &input.request(THIN, chance)) else { return };
    let records = found.answer[1] as usize;
    bench.tally.meet_if(!edges.is_empty() && records > 0, "a flipped skin thinned");
    let left = rows_of(&numbers(&found.lent[0]))[..first.rows.len() - 2 * records].to_vec();
    let edges = some_list(&left, count, 20, chance);
    let Some(last) = flipped(bench, kind, count, &left, &edges, chance) else { return };
    measured(bench, "flips: a flipped skin measured", skin, [&left, &last]);
    bench.tally.meet_if(records > 0 && last != left, "a thinned skin flipped");
}
