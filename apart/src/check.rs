//! What needs no second working out: a thinning run of the driven program, held to what 01 and the sources say of it.

use crate::answers::answer;
use crate::bench::Bench;
use crate::chance::Chance;
use crate::figures::{sixfold_volume, HALF, SIX_CUBIC_METRES};
use crate::grow::records_of;
use crate::harm::{scribble, words, Input};
use crate::limit::whole_centimetres;
use crate::mail;
use crate::make::Skin;
use crate::protocol::*;
use crate::recovery;
use crate::skin::{is_stage, rows_of, Edges, Row, MOST_CORNERS};
use crate::step::{contract, meets_link_condition, WIDTH};
use crate::tally::MANY_ROWS;

/// A run as the driven program left it.
struct Run<'a> {
    skin: &'a Skin,
    order: (i64, u64),
    request: Request,
    left: Vec<Row>,
    log: Vec<Word>,
}

impl Run<'_> {
    fn records(&self) -> usize {
        self.log.len() / WIDTH
    }
}

/// Thins, then grows back, replays, measures and asks for shifts, all on what the program itself handed back.
pub fn run(bench: &mut Bench, skin: &Skin, order: (i64, u64), chance: &mut Chance) {
    if !bench.drives(THIN) {
        return;
    }
    let mut input = Input::new(skin, &[]);
    input.order = order;
    input.spare = chance.pick(&[0, 0, 1, 17]);
    let request = input.request(THIN, chance);
    is_honest(bench, skin, &request);
    let limit = if order.0 == 0 { "without limit" } else { "under a limit" };
    let Some(found) = bench.try_call(&format!("run: {} thinned {limit}", skin.name), &request) else { return };
    if found.answer[0] != 0 {
        return;
    }
    let records = found.answer[1] as usize;
    let left = rows_of(&numbers(&found.lent[0]));
    let run = Run {
        skin,
        order,
        request,
        left: left[..skin.rows.len() - 2 * records].to_vec(),
        log: found.lent[1][..WIDTH * records].to_vec(),
    };
    theorem(bench, &skin.rows, &run.request);
    theorem(bench, &run.left, &run.request);
    endings(bench, &run);
    grown_back(bench, &run, chance);
    all_stages(bench, &run);
    stages(bench, &run, chance);
    shifts(bench, &run, chance);
    // Every long log, and some of the others.
    if skin.rows.len() > MANY_ROWS || chance.one_in(4) {
        let counts = [skin.corners.len() as Word, skin.rows.len() as Word];
        mail::mailed(bench, "run: its log mailed", counts, &run.log, chance);
        recovered(bench, &run, chance);
    }
}

/// A skin that this program's own rules refuse, but for the limit, was made wrongly.
fn is_honest(bench: &mut Bench, skin: &Skin, request: &Request) {
    bench.tally.meet(skin.name);
    bench.tally.meet_if(skin.corners.len() == MOST_CORNERS, "the most corners");
    let status = answer(request).answer[0];
    if status > 1 {
        bench.tally.fail("the maker", &format!("{} made is refused by {status}", skin.name), "");
    }
}

pub fn numbers(words: &[Word]) -> Vec<u32> {
    words.iter().map(|&word| word as u32).collect()
}

/// Corners less edges plus rows; every edge lies in two rows.
pub fn euler(rows: &[Row]) -> i64 {
    Edges::of(rows).used().len() as i64 - rows.len() as i64 / 2
}

/// Theorem 2A, for this program's own link condition: a step leaves a stage exactly where the condition holds.
fn theorem(bench: &mut Bench, rows: &[Row], request: &Request) {
    if rows.len() > 60 {
        return;
    }
    let edges = Edges::of(rows);
    let holds = rows.iter().flat_map(|&[a, b, c]| [(a, b), (b, c), (c, a)]).all(|(a, b)| {
        let left = contract(rows, a, b).0;
        meets_link_condition(&edges, a, b) == is_stage(&left, usize::MAX)
    });
    bench.property("own rules: Theorem 2A", holds, "the link condition and the step disagree", request);
}

/// Used corners, and how runs without limit end by genus.
fn endings(bench: &mut Bench, run: &Run) {
    let used = Edges::of(&run.left).used().len();
    let count = run.skin.corners.len();
    let fixed = used + run.records() == count;
    bench.property("run: k fewer corners", fixed, "used corners do not fit the records", &run.request);
    if run.order.0 != 0 {
        let kept: Vec<Word> = run.log.chunks(WIDTH).map(|record| record[0]).collect();
        let returned = kept.windows(2).any(|pair| pair[1] < pair[0]);
        bench.tally.meet_if(returned, "a limit that returned to a lower corner");
        return;
    }
    if run.skin.genus == 0 {
        let zero = run.log.chunks(WIDTH).all(|record| record[0] == 0);
        let holds = run.left.len() == 4 && zero;
        bench.property("run: a sphere ends in four rows, keeping corner 0", holds, "it does not", &run.request);
    }
    if run.skin.genus == 1 {
        let holds = (7..=10).contains(&used);
        bench.property("run: a torus ends with 7 to 10 corners", holds, &format!("{used} corners"), &run.request);
    }
}

fn grown_back(bench: &mut Bench, run: &Run, chance: &mut Chance) {
    let spare = chance.pick(&[0, 0, 1, 5]);
    let need = 3 * run.skin.rows.len() as i64;
    let left = words(&run.left.concat());
    let room = [left.clone(), scribble(need - left.len() as i64 + spare, chance)].concat();
    let scalars = vec![vec![run.left.len() as Word], vec![run.skin.corners.len() as Word]];
    let request = Request { call: GROW_BACK, arguments: [scalars, vec![room.clone(), run.log.clone()]].concat() };
    let Some(found) = bench.try_call("run: grown back", &request) else { return };
    let expected = [words(&run.skin.table()), room[need as usize..].to_vec()].concat();
    let holds = found.answer == [0, run.records() as Word] && found.lent[0] == expected;
    bench.property("run: growing back gives the first table", holds, "it does not", &request);
}

/// The log's sheet cut anywhere behind its first line: recovered under the same order, the run ends where it did.
fn recovered(bench: &mut Bench, run: &Run, chance: &mut Chance) {
    let text = mail::some_sheet(run.skin, &numbers(&run.log));
    let first = mail::line_starts(&text)[1];
    let cut = first + chance.below(text.len() - first + 1);
    let room = recovery::log_room(run.skin, chance.pick(&[0, 0, 9]), chance);
    let request = recovery::recover_request(run.order, run.skin, room.clone(), &text[..cut]);
    let Some(found) = bench.try_call("run: its log cut and recovered", &request) else { return };
    let zeros = vec![0; 3 * (run.skin.rows.len() - run.left.len())];
    let table = [words(&run.left.concat()), zeros].concat();
    let log = [&run.log, &room[run.log.len()..]].concat();
    let holds = found.answer[0] == 0 && found.answer[2] == run.records() as Word && found.lent == [table, log];
    bench.property("run: recovery ends as the run did", holds, "it does not", &request);
}

/// Every table that the records lead to, step by step, is a stage of the skin's Euler number.
fn all_stages(bench: &mut Bench, run: &Run) {
    let mut rows = run.skin.rows.clone();
    let number = euler(&rows);
    let mut holds = true;
    for record in records_of(&numbers(&run.log)) {
        rows = contract(&rows, record[0], record[1]).0;
        holds &= is_stage(&rows, run.skin.corners.len()) && euler(&rows) == number;
    }
    bench.property("run: all stages are stages", holds, "one is none, or of another Euler number", &run.request);
}

/// Replays to every stage of a short run, or to two by chance and the last of a long one, and measures them.
fn stages(bench: &mut Bench, run: &Run, chance: &mut Chance) {
    let mut earlier = run.skin.rows.clone();
    let all = run.records();
    let mut cuts: Vec<usize> = (0..=all).collect();
    if all > 4 {
        cuts = vec![chance.below(all), chance.below(all), all];
        cuts.sort_unstable();
    }
    for cut in cuts {
        let table = words(&run.skin.table());
        let arguments = vec![vec![run.skin.corners.len() as Word], table, run.log[..WIDTH * cut].to_vec()];
        let request = Request { call: REPLAY, arguments };
        let Some(found) = bench.try_call("run: replayed", &request) else { return };
        let (front, zeros) = found.lent[0].split_at(3 * (run.skin.rows.len() - 2 * cut));
        let stage = rows_of(&numbers(front));
        let holds = is_stage(&stage, run.skin.corners.len()) && zeros.iter().all(|&word| word == 0);
        bench.property("run: each stage is a stage", holds, "it is none", &request);
        let same = euler(&stage) == euler(&run.skin.rows) && euler(&stage) == 2 - 2 * run.skin.genus as i64;
        bench.property("run: Euler number", same, "it changed", &request);
        if cut == all {
            bench.property("run: replaying gives the last stage", stage == run.left, "it does not", &request);
        }
        measured(bench, "run: measured", run.skin, [&earlier, &stage]);
        earlier = stage;
    }
}

/// Volume and change against the exact sums: no farther than half a cubic metre, a half away from zero.
pub fn measured(bench: &mut Bench, kind: &str, skin: &Skin, earlier_and_later: [&[Row]; 2]) {
    let coordinates: Vec<Word> = skin.coordinates().into_iter().map(Word::from).collect();
    let tables = earlier_and_later.map(|rows| words(&rows.concat()));
    let sums = earlier_and_later.map(|rows| sixfold_volume(rows, &skin.corners));
    let volume = Request { call: VOLUME, arguments: vec![tables[1].clone(), coordinates.clone()] };
    let change = Request { call: CHANGE, arguments: vec![tables[0].clone(), tables[1].clone(), coordinates] };
    for (request, sum) in [(volume, sums[1]), (change, sums[1] - sums[0])] {
        if let Some(found) = bench.try_call(kind, &request) {
            nearest(bench, &request, sum, found.answer[1]);
        }
    }
}

pub fn nearest(bench: &mut Bench, request: &Request, sum: i128, figure: Word) {
    bench.tally.meet_if(sum % SIX_CUBIC_METRES == HALF, "a sum at a half above zero");
    bench.tally.meet_if(sum % SIX_CUBIC_METRES == -HALF, "a sum at a half below zero");
    let holds = within_half(sum, figure);
    bench.property("run: half a cubic metre", holds, &format!("{figure} for the sum {sum}"), request);
}

/// No farther from the exact sum than half a cubic metre, and at a half away from zero.
pub fn within_half(sum: i128, figure: Word) -> bool {
    let off = SIX_CUBIC_METRES * i128::from(figure) - sum;
    off.abs() < HALF || (off.abs() == HALF && off.signum() == sum.signum())
}

/// Shift reports over the whole log and a beginning of it, and their bound under a limit.
fn shifts(bench: &mut Bench, run: &Run, chance: &mut Chance) {
    let coordinates: Vec<Word> = run.skin.coordinates().into_iter().map(Word::from).collect();
    let limit = if run.order.0 == 0 { None } else { whole_centimetres(run.order.0, run.order.1) };
    let removed: Vec<Word> = run.log.chunks(WIDTH).map(|record| record[1]).collect();
    for _ in 0..2 {
        let cut = if chance.one_in(2) { run.records() } else { chance.below(run.records() + 1) };
        let any = chance.below(run.skin.corners.len()) as Word;
        let corner = if removed.is_empty() || chance.one_in(4) { any } else { chance.pick(&removed) };
        let arguments = vec![vec![corner], coordinates.clone(), run.log[..WIDTH * cut].to_vec()];
        let request = Request { call: SHIFT, arguments };
        let Some(found) = bench.try_call("run: shift report", &request) else { return };
        if let Some(limit) = limit {
            let (count, squared) = (i128::from(found.answer[2]), i128::from(found.answer[3]));
            let bound = count * count * i128::from(limit) * i128::from(limit);
            bench.property("run: shift bound", squared <= bound, &format!("{squared} past {bound}"), &request);
        }
    }
}
