//! The lamp went out: honest logs cut after every byte, longer ones at the end of each line and anywhere, and recovered
//! under the order that wrote them and under another.

use crate::answers::answer;
use crate::bench::{Bench, Sent};
use crate::chance::Chance;
use crate::harm::words;
use crate::log_sheet;
use crate::mail::{line_starts, some_sheet};
use crate::make::{self, Skin};
use crate::protocol::*;
use crate::recovery::{afterwards, limit_of, log_room, recover_request, Order, NO_LIMIT};
use crate::refusal::BAD_FORM;
use crate::skin::{Row, FEWEST, MOST_ROWS};
use crate::step::{contract, thin, Record};
use crate::typed;
use std::ops::RangeInclusive;
use std::rc::Rc;

/// So many logs are cut after every byte, of at most so many records.
const LOGS: usize = 100;
const MOST_RECORDS: usize = 60;
/// So many are longer, and so many places are drawn in each, besides the end of each line.
const LONGER: usize = 4;
const DRAWN: usize = 200;
/// A skin of more rows than this is large.
const LARGE: usize = 400;
/// So many recoveries of a log are followed by what is asked of the table and log that they leave.
const ASKED: usize = 6;

pub fn run(bench: &mut Bench, chance: &mut Chance) {
    for number in 0..LOGS + LONGER {
        if bench.enough() {
            return;
        }
        match number.checked_sub(LOGS) {
            None => after_every_byte(bench, number, chance),
            Some(number) => anywhere(bench, number, chance),
        }
    }
}

fn after_every_byte(bench: &mut Bench, number: usize, chance: &mut Chance) {
    let least = if is_small(number) { 1 } else { MOST_RECORDS / 2 };
    let log = Written::new(number, short_skin, least..=MOST_RECORDS, chance);
    bench.tally.meet("a log cut after every byte");
    recovered(bench, &log, (0..=log.text.len()).flat_map(both).collect(), &EVERY_BYTE, chance);
}

/// A cut with each of the two orders.
fn both(cut: usize) -> [(usize, usize); 2] {
    [(cut, 0), (cut, 1)]
}

/// A longer log: the end of each line, and places drawn.
fn anywhere(bench: &mut Bench, number: usize, chance: &mut Chance) {
    let log = Written::new(number, long_skin, MOST_RECORDS + 1..=usize::MAX, chance);
    bench.tally.meet("a longer log cut");
    let ends = line_starts(&log.text).into_iter().flat_map(both);
    let drawn = (0..DRAWN).flat_map(|_| both(chance.below(log.text.len() + 1)));
    recovered(bench, &log, ends.chain(drawn).collect(), &LONGER_LOGS, chance);
}

/// The kinds of cuts, under the order that wrote the log and under another.
const EVERY_BYTE: [&str; 2] = ["cuts: every byte, the same order", "cuts: every byte, another order"];
const LONGER_LOGS: [&str; 2] = ["cuts: longer logs, the same order", "cuts: longer logs, another order"];

/// All but one in 25: a large one has many bytes, and each costs more.
fn is_small(number: usize) -> bool {
    number % 25 != 24
}

/// Spheres, tori and shafts in turn, most of them small.
fn short_skin(number: usize, chance: &mut Chance) -> Skin {
    let records = if is_small(number) { 2 + chance.below(14) } else { MOST_RECORDS - chance.below(20) };
    let corners = records + FEWEST;
    match number % 3 {
        0 => make::skin_of_genus(0, 2 * corners - 4, chance),
        // A torus ends with at least seven corners.
        1 => make::skin_of_genus(1, 2 * (corners + 3), chance),
        _ => make::shaft(2 * corners - 4, chance),
    }
}

/// A sphere that has the most records there can be, a torus of nearly as many, and shafts.
fn long_skin(number: usize, chance: &mut Chance) -> Skin {
    match number {
        0 => make::skin_of_genus(0, MOST_ROWS, chance),
        1 => make::shaft(300, chance),
        2 => make::skin_of_genus(1, MOST_ROWS, chance),
        _ => make::shaft(600, chance),
    }
}

/// Another order: a limit where the first has none, none or another where it has one. On a large skin it is a short one,
/// as each of some hundred stages is thinned on under it here.
fn another(order: Order, skin: &Skin, chance: &mut Chance) -> Order {
    let drawn = if skin.rows.len() > LARGE { 8 } else { 1 };
    let limits: Vec<Order> = (0..drawn).map(|_| typed::parting(skin, chance)).collect();
    let shortest = limits.into_iter().min_by_key(|&limit| limit_of(limit)).unwrap_or(NO_LIMIT);
    if order != NO_LIMIT && skin.rows.len() <= LARGE && chance.one_in(2) {
        NO_LIMIT
    } else {
        shortest
    }
}

/// A log that thinning wrote, on its sheet.
struct Written {
    skin: Skin,
    /// The order that wrote it, and another.
    orders: [Order; 2],
    /// The first table, and the stage after each record.
    stages: Vec<Vec<Row>>,
    log: Vec<Record>,
    text: Vec<u8>,
    /// The room that is lent for the log, as it stands before each call.
    room: Vec<Word>,
}

impl Written {
    /// A log of so many records: without a limit, or, every other one, under a limit that parts the edges.
    fn new(
        number: usize,
        some_skin: fn(usize, &mut Chance) -> Skin,
        records: RangeInclusive<usize>,
        chance: &mut Chance,
    ) -> Written {
        loop {
            let skin = some_skin(number, chance);
            let order = if number.is_multiple_of(2) { NO_LIMIT } else { typed::parting(&skin, chance) };
            let other = another(order, &skin, chance);
            let (Some(limit), Some(other_limit)) = (limit_of(order), limit_of(other)) else { continue };
            let log = thin(skin.rows.clone(), &skin.corners, limit).1;
            if limit == other_limit || !records.contains(&log.len()) {
                continue;
            }
            let mut stages = vec![skin.rows.clone()];
            for record in &log {
                let stage = contract(&stages[stages.len() - 1], record[0], record[1]).0;
                stages.push(stage);
            }
            let text = some_sheet(&skin, &log.concat());
            let room = log_room(&skin, chance.pick(&[0, 0, 0, 1, 7]), chance);
            return Written { skin, orders: [order, other], stages, log, text, room };
        }
    }

    fn request(&self, order: Order, cut: usize) -> Request {
        recover_request(order, &self.skin, self.room.clone(), &self.text[..cut])
    }

    /// What must be left where so many whole `K` lines survived. "For a cut honest log, the stage is exactly the one
    /// after as many steps", and thinning goes on from there: the order that wrote the log "ends with the table and log
    /// of an unbroken run".
    fn left(&self, which: usize, survived: usize) -> Response {
        let (rows, log) = match which {
            0 => (self.stages[self.log.len()].clone(), self.log.clone()),
            _ => {
                let limit = limit_of(self.orders[which]).expect("usable");
                let (rows, added) = thin(self.stages[survived].clone(), &self.skin.corners, limit);
                (rows, [&self.log[..survived], &added].concat())
            }
        };
        let mut table = words(&rows.concat());
        table.resize(3 * self.skin.rows.len(), 0);
        let numbers = words(&log.concat());
        let room = [&numbers, &self.room[numbers.len()..]].concat();
        Response { answer: vec![0, survived as Word, log.len() as Word], lent: vec![table, room] }
    }
}

/// Recovers a log from cuts, each under one of its two orders.
fn recovered(
    bench: &mut Bench,
    log: &Written,
    cuts: Vec<(usize, usize)>,
    kinds: &[&'static str; 2],
    chance: &mut Chance,
) {
    let unbroken = unbroken(bench, log);
    let mut left = [0, 1].map(|_| vec![None; log.log.len() + 1]);
    let asked: Vec<(usize, usize)> = (0..ASKED).map(|_| chance.pick(&cuts)).collect();
    let calls = cuts.into_iter().map(|(cut, which)| {
        let request = log.request(log.orders[which], cut);
        let expected = match log_sheet::recover(&log.text[..cut]) {
            Err(number) => Rc::new(Response::untouched(&request, vec![number, 0, 0])),
            // What is left hangs on the whole lines alone.
            Ok(sheet) => {
                let survived = sheet.log.len();
                left[which][survived].get_or_insert_with(|| Rc::new(log.left(which, survived))).clone()
            }
        };
        Sent { kind: kinds[which], request, expected, about: (cut, which) }
    });
    bench.try_all(calls, |bench, sent, found| {
        let (cut, which) = sent.about;
        let whole = log.text[..cut].iter().filter(|&&byte| byte == b'\n').count();
        let told = match whole {
            0 => found.answer == [BAD_FORM, 0, 0],
            _ => found.answer[0] == 0 && found.answer[1] == whole as Word - 1,
        };
        let what = "another number was replayed";
        bench.property("cuts: as many replayed as whole lines survived", told, what, &sent.request);
        if whole > 0 && which == 0 {
            let same = found.answer[2] == unbroken.answer[1] && found.lent == unbroken.lent;
            bench.property("cuts: the table and log of an unbroken run", same, "they are others", &sent.request);
        }
        let elsewhere = which == 1 && whole > 0 && found.lent != unbroken.lent;
        bench.tally.meet_if(elsewhere, "another order that ended elsewhere");
        if whole > 0 && asked.contains(&sent.about) {
            own_rules(bench, &sent);
            afterwards(bench, "cuts", &log.skin, log.orders[which], &found, chance);
        }
    });
}

/// Thinning without a break, under the order that wrote the log, in the same room.
fn unbroken(bench: &mut Bench, log: &Written) -> Response {
    let mut request = log.request(log.orders[0], 0);
    request.call = THIN;
    request.arguments.pop();
    bench.try_call("cuts: the unbroken run", &request);
    answer(&request)
}

/// The rules of this program, which read the sheet, replay it and thin on, must lead where the request says.
fn own_rules(bench: &mut Bench, sent: &Sent<(usize, usize)>) {
    let same = answer(&sent.request) == *sent.expected;
    bench.property("own rules: a cut log recovered", same, "they lead elsewhere", &sent.request);
}
