//! Flips swept: every pair of corners of small skins, lists of every length, rooms, refusals at every place of a list;
//! flip logs with every number spoiled, rows turned, records exchanged and left out, and logs of other skins.

use crate::bench::Bench;
use crate::chance::Chance;
use crate::check;
use crate::flip::*;
use crate::flip_kinds::{LONGEST, MANY};
use crate::flips::*;
use crate::harm::scribble;
use crate::logs::steps;
use crate::make::{self, octahedron, seven_corner_torus, shaft_rows, tetrahedron, turned, Skin};
use crate::parts::grid;
use crate::protocol::*;
use crate::recovery::NO_LIMIT;
use crate::refusal::NOT_UNDONE;
use crate::skin::{Row, MOST_ROWS};
use crate::step::contract;

pub fn run(bench: &mut Bench, chance: &mut Chance) {
    every_pair(bench, chance);
    lists(bench, chance);
    rooms(bench, chance);
    stops(bench, chance);
    every_number(bench);
    turnings(bench, chance);
    records_in_any_order(bench, chance);
    records_of_any_rows(bench);
    other_skins(bench, chance);
    thinned_and_run(bench, chance);
}

/// Rows over so many corners.
type Stage = (Vec<Row>, usize);

/// T, O, M, a shaft, a torus, and O after a step, which leaves corner 1 unused.
fn small_stages() -> [Stage; 6] {
    let after_one = contract(&octahedron(), 0, 1).0;
    [
        (tetrahedron(), 4),
        (octahedron(), 6),
        (seven_corner_torus(), 7),
        (shaft_rows(1, 3), 5),
        (grid(3, 3), 9),
        (after_one, 6),
    ]
}

/// Every pair of corners, either way round, one corner twice and the first number past the count among them.
fn every_pair(bench: &mut Bench, chance: &mut Chance) {
    let kind = "sweep: every pair of corners flipped";
    for (rows, count) in small_stages() {
        let past = count as u32;
        for a in 0..=past {
            for b in 0..=a {
                let [one, other] = [[a, b], [b, a]].map(|edge| flipped(bench, kind, count, &rows, &edge, chance));
                if let (Some(one), Some(other)) = (one, other) {
                    // Both ways round the same corners are joined, by other rows; where nothing is flipped, all stays.
                    let fair = one != other || one == rows;
                    let request = flip_request(count, &rows, &[a, b], vec![0; WIDTH]);
                    bench.property("flips: both ways round write other rows", fair, "the same are written", &request);
                    bench.tally.meet_if(one != other, "a table flipped both ways round");
                }
            }
        }
    }
}

/// Lists of up to 300 edges on skins of genus 0 to 2, some of them of the most rows, and the longest there are.
fn lists(bench: &mut Bench, chance: &mut Chance) {
    let kind = "sweep: long lists of edges";
    for genus in 0..3 {
        for length in [0, 1, 2, 3, 7, 20, 64, 150, MANY - 1, MANY] {
            let skin = make::skin_of_genus(genus, 26 + chance.below(40), chance);
            long_list(bench, kind, &skin, length, chance);
        }
        let most = make::skin_of_genus(genus, MOST_ROWS, chance);
        long_list(bench, kind, &most, MANY, chance);
    }
    let skin = make::skin_of_genus(chance.below(2), 30, chance);
    long_list(bench, kind, &skin, LONGEST, chance);
    // One edge more has no room over the pipe, however long; and one number less than the most is odd.
    let edges = allowed(&skin.rows, 1, chance).concat();
    for length in [2 * LONGEST + 1, 2 * LONGEST + 2, LONGEST_LIST - 1, LONGEST_LIST] {
        let long: Vec<u32> = edges.iter().copied().cycle().take(length).collect();
        let room = scribble(LONGEST_LIST as i64, chance);
        bench.try_call(kind, &flip_request(skin.corners.len(), &skin.rows, &long, room));
    }
}

fn long_list(bench: &mut Bench, kind: &str, skin: &Skin, length: usize, chance: &mut Chance) {
    let edges = allowed(&skin.rows, length, chance);
    if edges.len() != length {
        bench.tally.fail("flips: the maker", &format!("{} edges for {length} on {}", edges.len(), skin.name), "");
    }
    flipped(bench, kind, skin.corners.len(), &skin.rows, &edges.concat(), chance);
}

/// Rooms of none, short by a record and by a number, enough and more, for lists that are done, stopped, and odd.
fn rooms(bench: &mut Bench, chance: &mut Chance) {
    for listed in [0, 1, 2, 5] {
        let skin = make::skin_of_genus(chance.below(2), 24, chance);
        let count = skin.corners.len();
        let honest = allowed(&skin.rows, listed, chance).concat();
        let mut stopped = honest.clone();
        stopped.extend(missing(&skin.rows, count as u32, chance));
        stopped.rotate_right(2);
        let odd = [&honest[..], &[0]].concat();
        for edges in [honest, stopped, odd] {
            let need = WIDTH * (edges.len() / 2);
            let short = [0, 1, need.saturating_sub(WIDTH), need.saturating_sub(1)];
            for room in short.into_iter().chain([need, need + 1, need + WIDTH, LONGEST_LIST]) {
                let request = flip_request(count, &skin.rows, &edges, scribble(room as i64, chance));
                bench.try_call("sweep: rooms for flip logs", &request);
            }
        }
    }
}

/// A list that is refused at each of its places, by 30 in every manner and by 31; the edges behind are not reached.
fn stops(bench: &mut Bench, chance: &mut Chance) {
    let kind = "sweep: lists refused at every place";
    let skin = make::skin_of_genus(0, 24, chance);
    // Some corners are unused.
    let rows = steps(&skin.rows, 2, chance).0;
    let count = skin.corners.len();
    let edges = allowed(&rows, 5, chance);
    for place in 0..=edges.len() {
        let reached = flip_all(rows.clone(), &edges[..place]).rows;
        let of_neighbours = of_neighbours(&reached, chance);
        let [a, b] = edges.get(place).copied().unwrap_or(sides(reached[0])[0]);
        let past = count as u32;
        let wrong = [[a, a], [a, past], [past, a], [u32::MAX; 2], [u32::MAX, b], [a, b | 1 << 8], [a | 1 << 16, b]];
        let more = (0..6).map(|_| missing(&reached, past, chance)).collect::<Vec<Edge>>();
        for edge in wrong.into_iter().chain(more).chain(of_neighbours) {
            let list = [&edges[..place], &[edge], &edges[place..]].concat().concat();
            flipped(bench, kind, count, &rows, &list, chance);
        }
    }
}

/// Undoes, and holds this program's own rules to 02's words where it is quick: a flip of any edge may have written the
/// record, and not of the first row's alone.
fn undo(bench: &mut Bench, kind: &str, count: usize, rows: &[Row], log: &[Record]) -> Option<Response> {
    let request = undo_request(count, rows, &log.concat());
    if let (Some(record), true) = (log.last(), count < 12) {
        let all: Vec<Edge> = (0..count as u32).flat_map(|a| (0..count as u32).map(move |b| [a, b])).collect();
        let same = undo_by(rows, count, record, &all) == undo_one(rows, count, record);
        bench.property("own rules: undoing a flip of any edge", same, "another edge's flip undoes it", &request);
    }
    bench.try_call(kind, &request)
}

/// O after flips of two edges that do not touch, with their log.
fn o_flipped() -> Flipped {
    flip_all(octahedron(), &[[0, 1], [2, 3]])
}

/// Every number of O's flip log put to every small value, to one that comes back when cut to fewer bits, and to the type's
/// ends.
fn every_number(bench: &mut Bench) {
    let Flipped { rows, log, .. } = o_flipped();
    for (at, number) in (0..log.len()).flat_map(|at| (0..WIDTH).map(move |number| (at, number))) {
        let cut = [8, 16, 31].map(|bits| log[at][number] | 1 << bits);
        for value in (0..=8).chain(cut).chain([u32::MAX - 1, u32::MAX]) {
            let mut spoiled = log.clone();
            spoiled[at][number] = value;
            undo(bench, "sweep: spoiled flip logs", 6, &rows, &spoiled);
        }
    }
}

/// Both rows of a last record turned in every manner and turned over, exchanged with their places and without; and every
/// row of the table turned.
fn turnings(bench: &mut Bench, chance: &mut Chance) {
    let kind = "sweep: rows of a record turned";
    let torus = make::skin_of_genus(1, 30, chance);
    let edges = allowed(&torus.rows, 3, chance);
    for (Flipped { rows, log, .. }, count) in [(o_flipped(), 6), (flip_all(torus.rows, &edges), torus.corners.len())] {
        let Some((&last, before)) = log.split_last() else { continue };
        let [p, a, b, c, q, d, e, f] = last;
        for turns in 0..9 {
            let ([a, b, c], [d, e, f]) = (turned([a, b, c], turns / 3), turned([d, e, f], turns));
            let found = undo(bench, kind, count, &rows, &[before, &[[p, a, b, c, q, d, e, f]]].concat());
            let done = found.is_some_and(|found| found.answer[0] == 0);
            bench.tally.meet_if(done && turns > 0, "a record with a row turned, undone");
            for other in [[p, a, c, b, q, d, e, f], [p, a, b, c, q, d, f, e], [q, a, b, c, p, d, e, f]] {
                undo(bench, kind, count, &rows, &[before, &[other]].concat());
            }
            undo(bench, kind, count, &rows, &[before, &[[q, d, e, f, p, a, b, c]]].concat());
        }
        for (place, turns) in (0..rows.len().min(24)).flat_map(|place| [(place, 1), (place, 2)]) {
            let mut other = rows.clone();
            other[place] = turned(other[place], turns);
            let found = undo(bench, "sweep: rows of a flipped table turned", count, &other, &log);
            let refused = found.is_some_and(|found| found.answer[0] == NOT_UNDONE);
            bench.tally.meet_if(refused, "a row of the table turned, not undone");
        }
    }
}

/// Three records in every order, some left out, some twice: flips that do not touch are undone in any order.
fn records_in_any_order(bench: &mut Bench, chance: &mut Chance) {
    let kind = "sweep: records in any order";
    // O's two rows turned and turned back touch; diagonals of cells far off in the trial ring do not.
    let mut lists =
        vec![(octahedron(), 6, vec![[0, 1], [2, 4], [1, 0]]), (grid(8, 8), 64, vec![[0, 9], [18, 27], [36, 45]])];
    for rows in [10, 16, 40] {
        let skin = make::skin_of_genus(0, rows, chance);
        let edges = allowed(&skin.rows, 3, chance);
        lists.push((skin.rows, skin.corners.len(), edges));
    }
    for (rows, count, edges) in lists {
        let Flipped { rows, log, .. } = flip_all(rows, &edges);
        let &[x, y, z] = &log[..] else { continue };
        for order in [[x, z, y], [y, x, z], [y, z, x], [z, x, y], [z, y, x]] {
            if let Some(found) = undo(bench, kind, count, &rows, &order) {
                let whole = found.answer[0] == 0;
                bench.tally.meet_if(whole, "records exchanged, undone all the same");
                bench.tally.meet_if(!whole, "records exchanged, not undone");
            }
        }
        let some: [&[Record]; 8] = [&[x], &[y], &[z], &[x, y], &[x, z], &[y, z], &[x, y, z, z], &[x, x, y, z]];
        for log in some {
            undo(bench, kind, count, &rows, log);
        }
    }
}

/// The one record that could leave two rows as they stand, for every two of them: undone where they share an edge that
/// stands so in them, and its other corners are no neighbours.
fn records_of_any_rows(bench: &mut Bench) {
    for (rows, count) in small_stages() {
        for (p, q) in (0..rows.len()).flat_map(|p| (0..rows.len()).map(move |q| (p, q))) {
            let ([c, a, d], [first, second, b]) = (rows[p], rows[q]);
            let beside = rows[q].iter().filter(|n| rows[p].contains(n)).count() == 2;
            // Of the rows that share no edge, some.
            if p == q || !(beside || (p + 2 * q).is_multiple_of(9)) {
                continue;
            }
            let record = [p as u32, a, b, c, q as u32, b, a, d];
            let found = undo(bench, "sweep: a record for every two rows", count, &rows, &[record]);
            let done = found.is_some_and(|found| found.answer[0] == 0);
            let fair = !done || (first, second) == (c, d);
            let request = undo_request(count, &rows, &record);
            bench.property("flips: undone only what a flip writes", fair, "other rows stood there", &request);
            bench.tally.meet_if(done, "a record that no flip wrote, undone");
        }
    }
}

/// The log of one skin read with another: of the same size, renumbered, with rows exchanged, and with other counts.
fn other_skins(bench: &mut Bench, chance: &mut Chance) {
    let kind = "sweep: flip logs of other skins";
    for genus in [0, 0, 1, 1, 2] {
        let skin = make::skin_of_genus(genus, 40, chance);
        let edges = allowed(&skin.rows, 4, chance);
        let Flipped { rows, log, .. } = flip_all(skin.rows.clone(), &edges);
        let mut renumbered = Skin { rows: rows.clone(), ..skin.clone() };
        make::relabel(&mut renumbered, chance);
        let mut exchanged = rows.clone();
        chance.shuffle(&mut exchanged);
        let like = make::skin_of_genus(genus, 40, chance);
        for (other, count) in [
            (like.rows, like.corners.len()),
            (renumbered.rows, skin.corners.len()),
            (exchanged, skin.corners.len()),
            (skin.rows, skin.corners.len()),
        ] {
            let found = undo(bench, kind, count, &other, &log);
            let refused = found.is_some_and(|found| found.answer[0] == NOT_UNDONE);
            bench.tally.meet_if(refused, "a flip log of another skin, not undone");
        }
        // More corners than the skin has are allowed, fewer are not.
        for count in [skin.corners.len() + 1, skin.corners.len() - 1] {
            undo(bench, kind, count, &rows, &log);
            bench.try_call(kind, &flip_request(count, &rows, &edges.concat(), scribble(40, chance)));
        }
    }
}

/// Skins flipped, thinned and flipped; and flipped ones of which all is asked that is asked of a run to the end.
fn thinned_and_run(bench: &mut Bench, chance: &mut Chance) {
    for genus in 0..6 {
        let skin = make::skin_of_genus(genus, 16 * (genus + 2), chance);
        thinned(bench, &skin, chance);
        let edges = allowed(&skin.rows, 25, chance).concat();
        let kind = "flips: a skin flipped for a run";
        let Some(rows) = flipped(bench, kind, skin.corners.len(), &skin.rows, &edges, chance) else { return };
        bench.tally.meet_if(rows != skin.rows, "a flipped skin run down to its end");
        check::run(bench, &Skin { rows, ..skin }, NO_LIMIT, chance);
    }
}
