//! Sweeps over small inputs: limits round every end, every number of a log spoiled, records and steps of every
//! kind, rings and logs of small kinds.

use crate::bench::Bench;
use crate::chance::Chance;
use crate::harm::{scribble, words};
use crate::logs::placed;
use crate::make::{self, octahedron, seven_corner_torus, shaft_rows, tetrahedron, turned};
use crate::protocol::*;
use crate::skin::{Corner, Edges};
use crate::step::{contract, thin};
use crate::typed::{figure_near, UNITS};

pub fn run(bench: &mut Bench, chance: &mut Chance) {
    limits(bench);
    parts(bench);
    logs(bench, chance);
    grown(bench, chance);
    replayed(bench, chance);
}

fn request<const N: usize>(call: usize, arguments: [&[Word]; N]) -> Request {
    Request { call, arguments: arguments.map(<[Word]>::to_vec).to_vec() }
}

fn coordinates(corners: &[Corner]) -> Vec<Word> {
    corners.concat().into_iter().map(Word::from).collect()
}

/// Figures at the ends of binary64, and a few to each side of limits that round down just so.
fn limits(bench: &mut Bench) {
    let exponent_ends = [0, 1, (1 << 52) - 1, 1 << 52, 0x7fef_ffff_ffff_ffff, 0x7ff0_0000_0000_0000];
    let nans = [0x7ff0_0000_0000_0001, 0x7ff8_0000_0000_0000, 0x7fff_ffff_ffff_ffff];
    let mut figures: Vec<u64> = exponent_ends.into_iter().chain(nans).collect();
    figures.extend(figures.clone().iter().map(|bits| bits | 1 << 63));
    for unit in UNITS {
        // 120 cm, 1,875 cm and 120,000 cm are 3.937, 61.515625 and 3,937 survey feet.
        for whole in
            [0, 1, 2, 28, 29, 30, 100, 120, 144, 145, 1_875, 3_048, 65_536, 120_000, 199_999, 200_000, 200_001, 200_002]
        {
            let near = figure_near(unit, f64::from(whole));
            figures.extend((0..5).map(|step| (near + step).saturating_sub(2)));
        }
        // Just under the next whole: rounding up, or once too often, shows here.
        for whole in [7.0, 137.0, 144.0, 199_999.0, 200_000.0] {
            figures.push(figure_near(unit, whole + 0.5));
            figures.push(figure_near(unit, whole + 0.999_999));
        }
    }
    figures.sort_unstable();
    figures.dedup();
    for unit in UNITS {
        for &bits in &figures {
            bench.try_call("sweep: limits", &request(LIMIT, [&[unit], &[bits as Word]]));
        }
    }
}

/// The ring chooser and the catch-up part on all pairs from a list of small kinds.
fn parts(bench: &mut Bench) {
    let ends = Word::from(u32::MAX);
    let lists: [&[Word]; 12] = [
        &[],
        &[0],
        &[1],
        &[ends],
        &[0, 1],
        &[0, ends],
        &[1, 0],
        &[0, 1, 2],
        &[0, 1, 2, 3],
        &[0, 1, 7, 3, 4],
        &[0, 1, 2, 3, 0, 1, 2, 3, 0, 1],
        &[0, 1, 2, 3, 0, 1, 2, 3, 0, 1, 5, 5, 5, 5, 5, 5, 5, 5, 5, 5],
    ];
    for first in lists {
        for second in lists {
            for call in [SHORTER_RING, CATCH_UP] {
                bench.try_call("sweep: rings and logs", &request(call, [first, second]));
            }
        }
    }
}

/// Every number of O's log put to every small value and to the type's ends.
fn logs(bench: &mut Bench, chance: &mut Chance) {
    let first = octahedron();
    let places: Vec<Corner> = (0..6).map(|n| [n, 100 * n, -n]).collect();
    let (left, log) = thin(first.clone(), &places, None);
    let log = words(&log.concat());
    for at in 0..log.len() {
        for value in [0, 1, 2, 3, 4, 5, 6, 7, 8, 1 << 31, u32::MAX - 1, u32::MAX] {
            let mut spoiled = log.clone();
            spoiled[at] = value.into();
            let room = [words(&left.concat()), scribble(14, chance)].concat();
            let kind = "sweep: spoiled logs";
            bench.try_call(kind, &request(GROW_BACK, [&[4], &[6], &room, &spoiled]));
            bench.try_call(kind, &request(REPLAY, [&[6], &words(&first.concat()), &spoiled]));
            let corner = chance.between(0, 5);
            bench.try_call(kind, &request(SHIFT, [&[corner], &coordinates(&places), &spoiled]));
        }
    }
}

/// Records of every kept, removed and opposite corner there could be, grown on a T whose corners are 1, 3, 4 and 6
/// of seven: numbers unused below, between and above its own, and past the count.
fn grown(bench: &mut Bench, chance: &mut Chance) {
    let names = [1, 3, 4, 6];
    let table = words(&tetrahedron().concat().iter().map(|&n| names[n as usize]).collect::<Vec<u32>>());
    for kept in [0, 1, 3, 4, 6] {
        for removed in [0, 2, 3, 5, 7, 8, u32::MAX] {
            for n in 0..25 {
                let (x, y) = ([1, 2, 3, 4, 6][n / 5], [1, 2, 3, 4, 6][n % 5]);
                let rows = [turned([kept, removed, x], n), turned([removed, kept, y], n / 3)];
                let record = placed([kept, removed], rows, 6, chance);
                let room = [table.clone(), scribble(6, chance)].concat();
                let grow = request(GROW_BACK, [&[4], &[7], &room, &words(&record)]);
                bench.try_call("sweep: records of every kind grown", &grow);
            }
        }
    }
}

/// The record of a step over every edge, either number kept: replay takes it exactly where 01 allows the step.
fn replayed(bench: &mut Bench, chance: &mut Chance) {
    let torus = make::skin_of_genus(1, 18, chance).rows;
    for rows in [octahedron(), seven_corner_torus(), shaft_rows(2, 3), torus] {
        let count = Edges::of(&rows).used().len() as u32;
        for a in 0..count {
            for e in Edges::of(&rows).round(a) {
                let (_, record) = contract(&rows, a, e[1]);
                let replay = request(REPLAY, [&[count.into()], &words(&rows.concat()), &words(&record)]);
                bench.try_call("sweep: a step over every edge replayed", &replay);
            }
        }
    }
}
