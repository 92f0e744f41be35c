//! Both engines on skins that an engine which finishes one corner before the next meets seldom by chance: hubs, corners of
//! three neighbours by the hundred, handles, numbers shuffled on many rows. Each is thinned by both, without a limit and
//! under one, and recovered from parts of its log.

use crate::bench::Bench;
use crate::chance::Chance;
use crate::harm::Input;
use crate::logs::steps;
use crate::mail::{some_sheet, text_words};
use crate::make::{self, octahedron, seven_corner_torus, shaft_rows, tetrahedron, Skin};
use crate::parts::grid;
use crate::place;
use crate::protocol::*;
use crate::recovery::{log_room, recover_request, Order, NO_LIMIT};
use crate::skin::{Edges, Row, FEWEST, MOST_ROWS};
use crate::step::WIDTH;
use crate::tally::MANY_ROWS;
use crate::typed;

/// A hub of so many neighbours, or more, is a large one; and so many corners of three neighbours are many.
const LARGE_HUB: usize = 300;
const MANY: usize = 100;

pub fn run(bench: &mut Bench, chance: &mut Chance) {
    for around in [3, 4, 5, 8, 21, 60] {
        hubs(bench, around, chance);
    }
    let (tube, torus) = (shaft_rows(3, 4), grid(4, 5));
    for rows in [tetrahedron(), octahedron(), seven_corner_torus(), tube, torus] {
        stacks(bench, &rows, chance);
    }
    for genus in 0..6 {
        let skin = make::skin_of_genus(genus, 40 + 12 * genus, chance);
        both(bench, &skin, chance);
        afterwards(bench, &skin, chance);
    }
}

/// The same at the most rows and near it. What is asked under a limit and after steps by chance is left to smaller skins.
pub fn greatest(bench: &mut Bench, chance: &mut Chance) {
    for around in [LARGE_HUB as u32, MOST_ROWS as u32 / 2] {
        hubs(bench, around, chance);
    }
    let stacked = (0..4).fold(tetrahedron(), |rows, _| make::each_row_split(&rows));
    stacks(bench, &stacked, chance);
    for (genus, rows) in [(0, MOST_ROWS), (1, MOST_ROWS), (2, 600), (4, 600)] {
        shuffled(bench, make::skin_of_genus(genus, rows, chance), chance);
    }
    shuffled(bench, skin_of("a torus", 1, grid(16, 32), chance), chance);
    shuffled(bench, make::shaft(MOST_ROWS, chance), chance);
}

fn skin_of(name: &'static str, genus: usize, rows: Vec<Row>, chance: &mut Chance) -> Skin {
    let count = Edges::of(&rows).used().len();
    Skin { rows, corners: place::corners(count, chance), genus, name }
}

/// A ring of corners between two poles, one of which is numbered first, last and in the middle; in the order of the ring
/// and by chance.
fn hubs(bench: &mut Bench, around: u32, chance: &mut Chance) {
    let pole = around + 1;
    for (number, name) in [(0, "first"), (pole / 2, "in the middle"), (pole, "last")] {
        for by_chance in [false, true] {
            let mut skin = skin_of("two poles", 0, shaft_rows(1, around), chance);
            let mut hub = pole;
            if by_chance {
                make::relabel(&mut skin, chance);
                hub = widest(&skin.rows);
            }
            make::exchange(&mut skin, hub, number);
            if both(bench, &skin, chance) {
                bench.tally.meet(&format!("a hub numbered {name}"));
                bench.tally.meet_if(around as usize >= LARGE_HUB, "a hub of several hundred neighbours");
            }
        }
    }
}

/// The corner of the most rows.
fn widest(rows: &[Row]) -> u32 {
    let edges = Edges::of(rows);
    edges.used().into_iter().max_by_key(|&n| edges.round(n).len()).expect("a corner")
}

/// A skin each of whose rows was given a corner of its own: those numbered last, first, and by chance.
fn stacks(bench: &mut Bench, rows: &[Row], chance: &mut Chance) {
    let genus = usize::from(crate::check::euler(rows) == 0);
    let stacked = make::each_row_split(rows);
    for numbering in 0..3 {
        let mut skin = skin_of("a stack", genus, stacked.clone(), chance);
        match numbering {
            0 => {}
            1 => make::reverse(&mut skin),
            _ => make::relabel(&mut skin, chance),
        }
        let edges = Edges::of(&skin.rows);
        let of_three = edges.used().into_iter().filter(|&n| edges.round(n).len() == 3).count();
        if both(bench, &skin, chance) {
            bench.tally.meet_if(of_three >= MANY, "corners of three neighbours by the hundred");
        }
    }
}

/// A large skin whose corners were numbered by chance.
fn shuffled(bench: &mut Bench, mut skin: Skin, chance: &mut Chance) {
    make::relabel(&mut skin, chance);
    if both(bench, &skin, chance) {
        bench.tally.meet_if(skin.rows.len() == MOST_ROWS, "shuffled numbers on the most rows");
        bench.tally.meet_if(skin.genus > 1 && skin.rows.len() > MANY_ROWS, "several handles on many rows");
    }
}

/// Thins by both engines without a limit, and recovers from parts of the log; a small skin is thinned under a limit too.
/// Whether it was thinned as it must be.
fn both(bench: &mut Bench, skin: &Skin, chance: &mut Chance) -> bool {
    if skin.rows.len() <= MANY_ROWS {
        let order = typed::parting(skin, chance);
        let request = thinning(skin, order, chance);
        let limited = bench.try_call("engines: thinned under a limit", &request);
        bench.tally.meet_if(limited.is_some_and(|found| found.answer[1] > 0), "both engines under a limit");
    }
    let request = thinning(skin, NO_LIMIT, chance);
    let Some(found) = bench.try_call("engines: thinned without limit", &request) else { return false };
    let left = skin.rows.len() - 2 * found.answer[1] as usize;
    bench.tally.meet_if(left == FEWEST, "both engines down to a tetrahedron");
    bench.tally.meet_if(left > FEWEST && skin.genus > 0, "both engines down to handles");
    recovered(bench, skin, &request, &found);
    true
}

fn thinning(skin: &Skin, order: Order, chance: &mut Chance) -> Request {
    let mut input = Input::new(skin, &[]);
    input.order = order;
    input.spare = chance.pick(&[0, 1, 13]);
    input.request(THIN, chance)
}

/// By whatever engine, "if that order wrote the log, it ends with the table and log of an unbroken run".
fn recovered(bench: &mut Bench, skin: &Skin, thinning: &Request, found: &Response) {
    let all = found.answer[1] as usize;
    let log: Vec<u32> = found.lent[1].iter().map(|&word| word as u32).collect();
    let mut kept = vec![0, 1, all / 3, all / 2, all.saturating_sub(1), all];
    kept.retain(|&kept| kept <= all);
    kept.dedup();
    for kept in kept {
        let sheet = some_sheet(skin, &log[..WIDTH * kept]);
        let mut request = Request { call: RECOVER, ..thinning.clone() };
        request.arguments.push(text_words(&sheet));
        let expected = Response { answer: vec![0, kept as Word, all as Word], lent: found.lent.clone() };
        let agrees = bench.try_against("engines: recovered from a part of a log", &request, &expected).is_some();
        bench.tally.meet_if(agrees && 0 < kept && kept < all, "recovery without limit from a part of a log");
    }
}

/// Recovery from steps over any edges: numbers are unused anywhere where it goes on.
fn afterwards(bench: &mut Bench, skin: &Skin, chance: &mut Chance) {
    for most in [1, 4, 12] {
        let (_, log) = steps(&skin.rows, most, chance);
        let sheet = some_sheet(skin, &log.concat());
        let request = recover_request(NO_LIMIT, skin, log_room(skin, 0, chance), &sheet);
        let found = bench.try_call("engines: recovered after steps by chance", &request);
        let went_on = found.is_some_and(|found| found.answer[1] > 0 && found.answer[2] > found.answer[1]);
        bench.tally.meet_if(went_on, "recovery without limit where numbers are unused");
    }
}
