//! Rounds of chance: honest, damaged and hostile calls of every kind on skins of every kind.

use crate::bench::Bench;
use crate::chance::Chance;
use crate::check;
use crate::flips;
use crate::harm::{asked, harm, harm_log, scribble, Input};
use crate::hostile;
use crate::jobs;
use crate::logs::{growth, some_edge, some_log, steps};
use crate::mail;
use crate::make::{self, Skin};
use crate::place;
use crate::protocol::*;
use crate::recovery;
use crate::sheets;
use crate::skin::{FARTHEST, MOST_CORNERS, MOST_ROWS};
use crate::step::{contract, EARLIER, LATER, WIDTH};
use crate::typed;

/// One round. A large one works on more than 256 rows.
pub fn run(bench: &mut Bench, large: bool, chance: &mut Chance) {
    let rows = if large { make::large_size(chance) } else { make::size(chance) };
    let skin = make::skin(rows, chance);
    if large {
        return large_call(bench, &skin, chance);
    }
    let drawn: Vec<&Round> = rounds(bench).flat_map(|kind| std::iter::repeat_n(kind, kind.share)).collect();
    (chance.pick(&drawn).run)(bench, &skin, chance);
}

/// A kind of round: how often it is drawn against the others, and the calls that it starts with.
struct Round {
    share: usize,
    calls: &'static [usize],
    run: fn(&mut Bench, &Skin, &mut Chance),
}

static ROUNDS: [Round; 31] = [
    Round { share: 12, calls: &[THIN], run: whole_run },
    Round { share: 20, calls: &[THIN, THIN_PLAIN], run: thinned },
    Round { share: 12, calls: &DAMAGED, run: damaged },
    Round { share: 8, calls: &[GROW_BACK], run: grown },
    Round { share: 8, calls: &[REPLAY], run: replayed },
    Round { share: 12, calls: &[GROW_BACK, REPLAY], run: spoiled },
    Round { share: 6, calls: &[VOLUME, EXACT_SUM, CHANGE], run: measured },
    Round { share: 4, calls: &[SHIFT], run: shifted },
    Round { share: 4, calls: &[LIMIT], run: |bench, _, chance| limits(bench, chance) },
    Round { share: 4, calls: &[SHORTER_RING, CATCH_UP], run: |bench, _, chance| parts(bench, chance) },
    Round { share: 4, calls: &[READ_SHEET, DESK_ANSWER], run: sheets::honest },
    Round { share: 4, calls: &[READ_SHEET], run: sheets::spoiled },
    Round { share: 4, calls: &[], run: sheets::on_the_desk },
    Round { share: 4, calls: &hostile::TABLES, run: |bench, _, chance| hostile::tables(bench, chance) },
    Round { share: 4, calls: &FIRST_TABLES, run: stage_for_first },
    Round { share: 4, calls: &hostile::WORDS, run: |bench, _, chance| hostile::words(bench, chance) },
    Round { share: 2, calls: &LOG_SHEET_CALLS, run: mail::honest },
    Round { share: 4, calls: &mail::READING, run: mail::spoiled },
    Round { share: 1, calls: &mail::READING, run: mail::byte_by_byte },
    Round { share: 2, calls: &LOG_SHEET_CALLS, run: |bench, _, chance| mail::any_numbers(bench, chance) },
    Round { share: 2, calls: &mail::READING, run: |bench, _, chance| mail::of_pieces(bench, chance) },
    Round { share: 12, calls: &[RECOVER], run: recovery::honest },
    Round { share: 12, calls: &[RECOVER], run: recovery::spoiled },
    Round { share: 8, calls: &[JOB], run: |bench, _, chance| jobs::honest(bench, chance) },
    Round { share: 4, calls: &[JOB], run: |bench, _, chance| jobs::spoiled(bench, chance) },
    Round { share: 1, calls: &[JOB], run: |bench, _, chance| jobs::byte_by_byte(bench, chance) },
    Round { share: 2, calls: &[JOB], run: |bench, _, chance| jobs::of_pieces(bench, chance) },
    Round { share: 4, calls: &[JOB, EXACT_SUM], run: jobs::of_stages },
    Round { share: 16, calls: &[FLIP, UNDO], run: flips::honest },
    Round { share: 12, calls: &[UNDO], run: flips::spoiled },
    Round { share: 4, calls: &[FLIP, UNDO], run: flips::thinned },
];

/// The calls that ask for a first table.
const FIRST_TABLES: [usize; 4] = [THIN, READ_SHEET, DESK_ANSWER, RECOVER];

/// The kinds of round that make a call which is driven; the desk's alone makes none.
fn rounds(bench: &Bench) -> impl Iterator<Item = &'static Round> + '_ {
    let desk = |kind: &Round| kind.calls.is_empty() && bench.drives_desk();
    ROUNDS.iter().filter(move |kind| desk(kind) || kind.calls.iter().any(|&call| bench.drives(call)))
}

/// Whether any round makes a call that is driven.
pub fn any(bench: &Bench) -> bool {
    rounds(bench).next().is_some()
}

/// A thinning run, and all that is asked of what it leaves.
fn whole_run(bench: &mut Bench, skin: &Skin, chance: &mut Chance) {
    let order = typed::order(skin, chance);
    check::run(bench, skin, order, chance);
}

/// One call on a large skin.
fn large_call(bench: &mut Bench, skin: &Skin, chance: &mut Chance) {
    let order = typed::order(skin, chance);
    let (left, log) = if chance.one_in(2) { steps(&skin.rows, 30, chance) } else { (skin.rows.clone(), vec![]) };
    let mut input = Input::new(skin, &log);
    input.order = order;
    let kind = "chance: large skins";
    match chance.below(10) {
        0 | 1 => bench.try_call(kind, &input.request(THIN, chance)),
        2 => bench.try_call(kind, &input.request(READ_SHEET, chance)),
        3 => bench.try_call(kind, &input.request(REPLAY, chance)),
        4 => {
            input.table = left.concat();
            bench.try_call(kind, &input.request(GROW_BACK, chance))
        }
        5 => {
            input.later = left.concat();
            bench.try_call(kind, &input.request(CHANGE, chance))
        }
        6 => bench.try_call(kind, &input.request(RECOVER, chance)),
        at @ (7 | 8) => {
            let call = [FLIP, UNDO][at - 7];
            input.table = left.concat();
            flips::give(&mut input, call, 40, chance);
            bench.try_call(kind, &input.request(call, chance))
        }
        _ => bench.try_call(kind, &input.request(DESK_ANSWER, chance)),
    };
}

/// Thinning with room more than it needs, by orders that part the edges.
fn thinned(bench: &mut Bench, skin: &Skin, chance: &mut Chance) {
    let mut input = Input::new(skin, &[]);
    input.order = if chance.one_in(4) { typed::order(skin, chance) } else { typed::parting(skin, chance) };
    input.spare = chance.pick(&[0, 1, 3, WIDTH as i64, 200]);
    bench.try_call("chance: thinned", &input.request(THIN, chance));
}

/// A stage handed to a call that asks for a first table.
fn stage_for_first(bench: &mut Bench, skin: &Skin, chance: &mut Chance) {
    let (left, _) = some_log(skin, chance);
    let mut input = Input::new(skin, &[]);
    input.table = left.concat();
    for call in FIRST_TABLES {
        bench.try_call("chance: stages for a first table", &input.request(call, chance));
    }
}

/// The calls that are harmed, thinning and recovery twice as often.
#[rustfmt::skip]
const DAMAGED: [usize; 20] = [
    THIN, THIN, GROW_BACK, REPLAY, VOLUME, CHANGE, SHIFT, READ_SHEET, DESK_ANSWER, WRITE_LOG_SHEET, READ_LOG_SHEET,
    READ_RECORDS, RECOVER, RECOVER, JOB, JOB, FLIP, UNDO, OPEN_LOG_SHEET, RECORD_AT,
];

/// One to three harms at once on any call that can refuse.
fn damaged(bench: &mut Bench, skin: &Skin, chance: &mut Chance) {
    let call = bench.some_call(&DAMAGED, chance);
    let (left, log) = steps(&skin.rows, 3, chance);
    if left.len() < 8 || log.is_empty() {
        return;
    }
    let mut input = Input::new(skin, &log);
    if call == GROW_BACK {
        input.table = left.concat();
    }
    if [FLIP, UNDO].contains(&call) {
        flips::give(&mut input, call, 4, chance);
    }
    for _ in 0..1 + chance.below(3) {
        let one = chance.pick(&asked(call));
        harm(&mut input, call, one, chance);
    }
    bench.try_call("chance: damaged", &input.request(call, chance));
}

/// Growing back what steps took, and growing freely.
fn grown(bench: &mut Bench, skin: &Skin, chance: &mut Chance) {
    let (left, log) = some_log(skin, chance);
    let mut input = Input::new(skin, &log);
    if chance.one_in(2) {
        // Corners that no table has used so far may come in as well.
        let count = skin.corners.len() + chance.below(MOST_CORNERS + 1 - skin.corners.len());
        let free = growth(&left, count, 1 + chance.below(log.len() + 2), chance);
        bench.tally.meet_if(!free.is_empty(), "a stage grown freely");
        input.log = free.concat();
        input.count = Some(count as u64);
    }
    input.table = left.concat();
    input.spare = chance.pick(&[0, 0, 1, 2, 40]);
    bench.try_call("chance: grown back", &input.request(GROW_BACK, chance));
}

/// Replay from the first table, or from a stage on the way.
fn replayed(bench: &mut Bench, skin: &Skin, chance: &mut Chance) {
    let mut start = skin.clone();
    if chance.one_in(2) {
        start.rows = steps(&skin.rows, 1 + chance.below(4), chance).0;
    }
    let (_, log) = some_log(&start, chance);
    bench.try_call("chance: replayed", &Input::new(&start, &log).request(REPLAY, chance));
}

/// Logs spoiled in one number or more, in their order, or by a record of another kind.
fn spoiled(bench: &mut Bench, skin: &Skin, chance: &mut Chance) {
    let (left, mut log) = some_log(skin, chance);
    let call = chance.pick(&[GROW_BACK, REPLAY]);
    if chance.one_in(3) && call == GROW_BACK {
        log = growth(&left, skin.corners.len(), 1 + chance.below(4), chance);
    }
    if log.is_empty() {
        return;
    }
    let mut input = Input::new(skin, &log);
    if call == REPLAY && chance.one_in(3) {
        // One step more over any edge, whether 01 allows it or not, either number kept.
        let (a, b) = some_edge(&left, chance);
        input.log.extend(contract(&left, a, b).1);
    } else {
        spoil(&mut input.log, skin.corners.len() as u32, chance);
    }
    if call == GROW_BACK {
        input.table = left.concat();
    }
    bench.try_call("chance: spoiled logs", &input.request(call, chance));
}

/// Spoils a log of at least one record.
pub fn spoil(log: &mut Vec<u32>, count: u32, chance: &mut Chance) {
    let records = log.len() / WIDTH;
    let at = WIDTH * chance.below(records);
    let record = &mut log[at..at + WIDTH];
    match chance.below(11) {
        0 => record.swap(0, 1),
        1 => record.swap(EARLIER.start, LATER.start),
        // The two leaving rows, places and all, the other way round.
        2 => record[EARLIER.start..LATER.end].rotate_left(EARLIER.len()),
        // A leaving row turned: growing back takes it, replay does not.
        3 => record[EARLIER][1..].rotate_left(1),
        4 => record[LATER][1..].rotate_left(1),
        5 if records > 1 => log.rotate_left(WIDTH),
        6 => log.extend_from_within(at..at + WIDTH),
        // Numbers of the two rows exchanged.
        7 => EARLIER.zip(LATER).skip(1).for_each(|(one, other)| record.swap(one, other)),
        8 => rename(record, 1, count, chance),
        9 => rename(record, 0, count, chance),
        _ => harm_log(log, count, chance),
    }
    if chance.one_in(4) {
        harm_log(log, count, chance);
    }
}

/// Another number for the kept or the removed corner of a record, in its rows as well.
fn rename(record: &mut [u32], which: usize, count: u32, chance: &mut Chance) {
    let old = record[which];
    let any = chance.below(count as usize) as u32;
    let new = chance.pick(&[any, any, any, count, count + 1, u32::MAX]);
    for at in [0, 1, 3, 4, 5, 7, 8, 9] {
        if record[at] == old {
            record[at] = new;
        }
    }
}

fn measured(bench: &mut Bench, skin: &Skin, chance: &mut Chance) {
    let (left, _) = some_log(skin, chance);
    let mut input = Input::new(skin, &[]);
    if chance.one_in(2) {
        input.table = left.concat();
    } else {
        input.later = left.concat();
    }
    if chance.one_in(3) {
        // Corners that no row uses: only their range is asked.
        let more = chance.below(MOST_CORNERS + 1 - skin.corners.len());
        let far = chance.pick(&[0, FARTHEST, -FARTHEST, FARTHEST + 1]);
        input.coordinates.extend(vec![far; 3 * more]);
        bench.tally.meet_if(more > 0 && far <= FARTHEST, "an accepted stage with unused corners");
    }
    bench.try_call("chance: measured", &input.request(VOLUME, chance));
    bench.try_call("chance: measured", &input.request(CHANGE, chance));
}

/// Shift reports over honest logs and over any numbers.
fn shifted(bench: &mut Bench, skin: &Skin, chance: &mut Chance) {
    let (_, log) = some_log(skin, chance);
    let mut input = Input::new(skin, &log);
    let count = skin.corners.len();
    input.corner = chance.below(count) as u32;
    if chance.one_in(2) {
        let long = WIDTH * if chance.one_in(20) { LONGEST_LIST / WIDTH } else { chance.below(60) };
        input.log = (0..long).map(|_| chance.below(count.min(6)) as u32).collect();
        input.corner = chance.below(count.min(6)) as u32;
    }
    if chance.one_in(3) {
        // Only kept and removed are looked at.
        for n in 0..input.log.len() {
            if n % WIDTH > 1 {
                input.log[n] = chance.next() as u32;
            }
        }
    }
    bench.try_call("chance: shift reports", &input.request(SHIFT, chance));
}

fn limits(bench: &mut Bench, chance: &mut Chance) {
    for _ in 0..3 {
        let (unit, bits) = if chance.one_in(3) { typed::wild(chance) } else { typed::figure(chance) };
        let request = Request { call: LIMIT, arguments: vec![vec![unit], vec![bits as Word]] };
        bench.try_call("chance: limits", &request);
    }
}

fn parts(bench: &mut Bench, chance: &mut Chance) {
    let length = chance.below(30) as i64;
    let first: Vec<Word> = scribble(length, chance);
    let mut second = match chance.below(4) {
        0 => scribble(chance.between(0, 30), chance),
        1 => scribble(length, chance),
        2 => [first.clone(), scribble(chance.between(0, 20), chance)].concat(),
        _ => first[..chance.below(first.len() + 1)].to_vec(),
    };
    if !second.is_empty() && chance.one_in(3) {
        let at = chance.below(second.len());
        second[at] ^= 1 << chance.below(32);
    }
    for call in [SHORTER_RING, CATCH_UP] {
        let pair = vec![first.clone(), second.clone()];
        bench.try_call("chance: rings and logs", &Request { call, arguments: pair.clone() });
        bench.try_call("chance: rings and logs", &Request { call, arguments: pair.into_iter().rev().collect() });
    }
}

/// Whole runs at the greatest size, down to the end and back.
pub fn greatest(bench: &mut Bench, chance: &mut Chance) {
    for genus in [0, 1] {
        let skin = make::skin_of_genus(genus, MOST_ROWS, chance);
        check::run(bench, &skin, (0, 0), chance);
    }
}

/// Limit runs on skins with many short edges, on which a limit returns to a lower corner.
pub fn returning(bench: &mut Bench, chance: &mut Chance) {
    for _ in 0..24 {
        let mut skin = make::skin_of_genus(0, 20 + chance.below(30), chance);
        skin.corners = place::distinct(skin.corners.iter().map(|_| place::in_box(12, chance)).collect());
        let order = (3, (chance.between(4, 12) as f64).to_bits());
        check::run(bench, &skin, order, chance);
    }
}
