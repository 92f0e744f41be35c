//! Each refusal alone and every pair of refusals, for the order in which a call must give them.

use crate::answers::{answer, questions};
use crate::bench::Bench;
use crate::chance::Chance;
use crate::flips;
use crate::harm::{asked, harm, Harm, Input};
use crate::job;
use crate::logs::steps;
use crate::make;
use crate::protocol::*;
use crate::refusal::BAD_FORM;
use crate::skin::rows_of;

pub fn run(bench: &mut Bench, rounds: usize, chance: &mut Chance) {
    for _ in 0..rounds {
        // The exact sum is asked for with the volume.
        for call in CALLS.iter().filter(|call| call.refused > 0 && call.number != EXACT_SUM) {
            singles(bench, call, chance);
            pairs(bench, call, chance);
        }
        harms_in_one_table_each(bench, chance);
    }
}

/// An honest input of at least eight rows, with a log of at least one record.
fn honest(call: usize, chance: &mut Chance) -> Input {
    loop {
        let genus = chance.below(2);
        let mut skin = make::skin_of_genus(genus, 14 + chance.below(20), chance);
        let first = skin.rows.clone();
        let (left, log) = steps(&first, 1 + chance.below(2), chance);
        if log.is_empty() {
            continue;
        }
        let flips = [FLIP, UNDO].contains(&call);
        if call == GROW_BACK || flips && chance.one_in(2) {
            skin.rows = left;
        }
        let mut input = Input::new(&skin, &log);
        if !flips || given_flips(&mut input, call, chance) {
            return input;
        }
    }
}

/// Gives an input flips; true where some are allowed and others would be refused by 31.
fn given_flips(input: &mut Input, call: usize, chance: &mut Chance) -> bool {
    let refused = flips::of_neighbours(&rows_of(&input.table), chance).is_some();
    flips::give(input, call, 3, chance);
    refused && !input.edges.is_empty()
}

fn singles(bench: &mut Bench, &Call { number: call, name, .. }: &Call, chance: &mut Chance) {
    let kind = format!("order: one refusal of {name}");
    for one in asked(call) {
        let mut input = honest(call, chance);
        harm(&mut input, call, one, chance);
        compare(bench, &kind, &input.request(call, chance), &[one]);
    }
}

fn pairs(bench: &mut Bench, &Call { number: call, name, .. }: &Call, chance: &mut Chance) {
    let kind = format!("order: two refusals of {name}");
    let harms = asked(call);
    for first in 0..harms.len() {
        for second in first + 1..harms.len() {
            let mut input = honest(call, chance);
            harm(&mut input, call, harms[second], chance);
            harm(&mut input, call, harms[first], chance);
            compare(bench, &kind, &input.request(call, chance), &[harms[first], harms[second]]);
        }
    }
}

/// Change is given two tables: one harm in each, both ways round.
fn harms_in_one_table_each(bench: &mut Bench, chance: &mut Chance) {
    let in_rows = [Harm::Number, Harm::NumberTwice, Harm::EdgeTwice, Harm::Reverse, Harm::Rings, Harm::Connected];
    for first in in_rows {
        for second in in_rows {
            let skin = make::skin_of_genus(0, 12, chance);
            let (mut earlier, mut later) = (Input::new(&skin, &[]), Input::new(&skin, &[]));
            harm(&mut earlier, CHANGE, first, chance);
            harm(&mut later, CHANGE, second, chance);
            earlier.later = later.table;
            // The longer list has the corners of both.
            if later.coordinates.len() > earlier.coordinates.len() {
                earlier.coordinates = later.coordinates;
            }
            bench.try_call("order: a refusal in each table of change", &earlier.request(CHANGE, chance));
        }
    }
}

/// All that hold, and not the first alone.
fn holding(request: &Request) -> Vec<i64> {
    if request.call == JOB {
        let bytes: Vec<u8> = request.arguments[0].iter().map(|&word| word as u8).collect();
        return job::holding(&bytes);
    }
    questions(request).iter().filter(|(_, holds)| holds()).map(|(number, _)| *number).collect()
}

/// The harms must be there, and the first of them must be what this program's own rules answer.
fn compare(bench: &mut Bench, kind: &str, request: &Request, harms: &[Harm]) {
    let holding = holding(request);
    let seen = |harm: &Harm| holding.contains(&harm.number());
    // 13, 30 to 32 and what a sheet is asked are seen in the work alone; recovery is given its skin beside its sheet.
    let in_work = |harm: &Harm| match request.call {
        RECOVER => !asked(THIN).contains(harm),
        JOB => holding == [BAD_FORM],
        FLIP | UNDO => [Harm::Missing, Harm::Neighbours, Harm::FlipLog].contains(harm),
        _ => *harm == Harm::Log || request.shape().reads_sheet(),
    };
    // A length outside its limits may cut another harm off.
    let there = harms[0] == Harm::Counts || harms.iter().all(|harm| in_work(harm) || seen(harm));
    let status = refusal_told(&answer(request));
    if !there || status != harms[0].number() {
        let what = format!("harms {harms:?} on call {} were not done: {holding:?}, answer {status}", request.call);
        bench.tally.fail("order: the maker", &what, "");
    }
    bench.try_call(kind, request);
}

/// The refusal that a response tells: its status, or the number of the `NO` line at the front of its text.
fn refusal_told(response: &Response) -> i64 {
    let status = response.answer[0];
    let line: String = response
        .lent
        .first()
        .map_or(String::new(), |text| text.iter().map_while(|&byte| u8::try_from(byte).ok()).map(char::from).collect());
    match line.strip_prefix("NO\t").and_then(|rest| rest.split('\n').next()) {
        Some(number) if status == 0 => number.parse().unwrap_or(status),
        _ => status,
    }
}

/// Honest skins with one thing that alone calls for 5, 6, 7 or 8, and nothing else wrong.
pub fn alone(bench: &mut Bench, chance: &mut Chance) {
    for number in [5, 6, 7, 8] {
        for call in [THIN, GROW_BACK, REPLAY, VOLUME, CHANGE, READ_SHEET, RECOVER, FLIP, UNDO] {
            let mut input = Input::new(&make::skin_of_genus(0, 16, chance), &[]);
            lone_harm(&mut input, number);
            let request = input.request(call, chance);
            let holding = holding(&request);
            // Rings are spoken of only where every edge has its reverse, once.
            if call != READ_SHEET && holding.iter().any(|&n| n != number && n != 10) {
                bench.tally.fail("order: the maker", &format!("{number} alone is {holding:?}"), "");
            }
            bench.try_call("order: nothing else wrong", &request);
        }
    }
}

fn lone_harm(input: &mut Input, number: i64) {
    let count = input.coordinates.len() / 3;
    match number {
        // The highest corner has no coordinates left.
        5 => input.coordinates.truncate(3 * (count - 1)),
        // A row (a, a, b) over corners that no edge joins brings its own reverses.
        6 => {
            let (a, b) = strangers(&input.table, count as u32);
            input.table.extend([a, a, b]);
        }
        // Every row twice: every edge twice, and every reverse there.
        7 => input.table.extend_from_within(..),
        _ => input.table.truncate(input.table.len() - 3),
    }
}

fn strangers(table: &[u32], count: u32) -> (u32, u32) {
    let joined = |a: u32, b: u32| table.chunks(3).any(|row| row.contains(&a) && row.contains(&b));
    let pairs = (0..count).flat_map(|a| (0..a).map(move |b| (a, b)));
    pairs.into_iter().find(|&(a, b)| !joined(a, b)).unwrap_or((0, 1))
}
