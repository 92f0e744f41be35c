//! Makes jobs: trees of every shape, sums that come to a wanted net, and one fault for each refusal; rounds with honest
//! and spoiled ones, and with jobs whose sums are those of real stages.

use crate::bench::Bench;
use crate::chance::Chance;
use crate::check::within_half;
use crate::figures::{sixfold_volume, HALF, SIX_CUBIC_METRES};
use crate::harm::{spoiled_at, Input};
use crate::job::{self, Entry, DEEPEST, LARGEST_SUM, MOST_ENTRIES, SOLID, VOID};
use crate::logs::some_log;
use crate::mail::sheet_request;
use crate::make::{self, Skin};
use crate::parts::{grid, MOST_ROWS_GRID};
use crate::place;
use crate::protocol::*;
use crate::refusal::{ALTERNATION, DEPTH, ENTRIES, KIND, NAME, SUM};

/// What every stage of a real job but the first has at most, so that six of them stay quick.
const FEW_ROWS: usize = 40;
/// The least nets that 63 and 64 bits do not hold, but for the sign.
pub const PAST_63: i128 = 1 << 63;
pub const PAST_64: i128 = 1 << 64;

pub fn other(kind: u8) -> u8 {
    if kind == VOID {
        SOLID
    } else {
        VOID
    }
}

/// A topmost entry of this kind, and one more in each of those named, the kinds alternating; every sum is 0.
pub fn shaped(top: u8, names: &[usize]) -> Vec<Entry> {
    let mut job = vec![Entry { letter: top, name: None, sum: 0 }];
    for &name in names {
        job.push(Entry { letter: other(job[name].letter), name: Some(name), sum: 0 });
    }
    job
}

/// 02's station: a void with a pillar that holds a smaller void, and a second pillar.
pub fn station() -> Vec<Entry> {
    let mut job = shaped(VOID, &[0, 1, 0]);
    for (entry, sum) in job.iter_mut().zip([64_000_000, 12_500_000, 700_000, -9_300_000]) {
        entry.sum = sum;
    }
    job
}

/// Each entry in the one before it.
pub fn chain(top: u8, count: usize) -> Vec<Entry> {
    shaped(top, &(1..count).map(|at| at - 1).collect::<Vec<usize>>())
}

/// All in the topmost.
pub fn star(top: u8, count: usize) -> Vec<Entry> {
    shaped(top, &vec![0; count - 1])
}

/// A tree by chance of so many entries, just so deep; one that is deeper than 1 has as many entries at least.
pub fn tree(top: u8, count: usize, deepest: usize, chance: &mut Chance) -> Vec<Entry> {
    let (mut names, mut depths) = (Vec::new(), vec![1]);
    while depths.len() < count {
        let reached = depths.iter().copied().max().unwrap_or(1);
        // Where no more are left than it takes, each goes deeper.
        let deeper = count - depths.len() <= deepest - reached;
        let takes = |at: &usize| if deeper { depths[*at] == reached } else { depths[*at] < deepest };
        let name = chance.pick(&(0..depths.len()).filter(takes).collect::<Vec<usize>>());
        names.push(name);
        depths.push(depths[name] + 1);
    }
    shaped(top, &names)
}

/// The topmost net by another way than the nets within it: as kinds alternate, the sums of the topmost's kind come in
/// as they stand, and the others with their sign turned.
pub fn net_by_kind(job: &[Entry]) -> i128 {
    job.iter().map(|entry| if entry.letter == job[0].letter { entry.sum } else { -entry.sum }).sum()
}

/// Gives the entries sums, none beyond the bound, that come to a net: even shares of it, then parts of them moved from
/// one to another, each no larger than `moved`.
pub fn with_net(mut job: Vec<Entry>, net: i128, moved: i128, chance: &mut Chance) -> Vec<Entry> {
    let count = job.len() as i128;
    let over = |at: usize| if (at as i128) < net.abs() % count { net.signum() } else { 0 };
    let mut shares: Vec<i128> = (0..job.len()).map(|at| net / count + over(at)).collect();
    for _ in 0..2 * job.len() {
        let (one, two) = (chance.below(job.len()), chance.below(job.len()));
        if one != two {
            let least = (-LARGEST_SUM - shares[one]).max(shares[two] - LARGEST_SUM).max(-moved);
            let most = (LARGEST_SUM - shares[one]).min(shares[two] + LARGEST_SUM).min(moved);
            let any = chance.between(least as i64, most as i64).into();
            let part = chance.pick(&[least, most, any, any]);
            shares[one] += part;
            shares[two] -= part;
        }
    }
    let top = job[0].letter;
    for (entry, share) in job.iter_mut().zip(shares) {
        entry.sum = if entry.letter == top { share } else { -share };
    }
    job
}

/// A net that so many entries can have: near a half or a whole, near the ends of 63 and 64 bits, or anywhere.
pub fn some_net(count: usize, chance: &mut Chance) -> i128 {
    let most = count as i128 * LARGEST_SUM;
    let beside = i128::from(chance.between(-1, 1));
    let net = match chance.below(8) {
        0..=2 => HALF * i128::from(chance.between(-30, 30)) + beside,
        3 => HALF * (most / HALF - i128::from(chance.between(0, 30))) + beside,
        4 => chance.pick(&[PAST_63, PAST_64]) + beside,
        5 => HALF * i128::from(chance.between(0, (most / HALF) as i64)) + beside,
        _ => i128::from(chance.next() >> 4) * most / (PAST_64 >> 4),
    };
    (if chance.one_in(2) { -net } else { net }).clamp(-most, most)
}

/// Sums of every size for a job, which come to some net.
pub fn with_some_sums(job: Vec<Entry>, chance: &mut Chance) -> Vec<Entry> {
    let moved = chance.pick(&[0, 9, 8 * SIX_CUBIC_METRES, 1_000_000_000_000, 2 * LARGEST_SUM]);
    let net = some_net(job.len(), chance);
    with_net(job, net, moved, chance)
}

/// Puts an entry in behind the first; what stands at its place or behind, and is named, moves on with its number.
fn insert(job: &mut Vec<Entry>, place: usize, entry: Entry) {
    let moving = place..job.len();
    for name in job.iter_mut().filter_map(|entry| entry.name.as_mut()).filter(|name| moving.contains(name)) {
        *name += 1;
    }
    job.insert(place, entry);
}

/// Does what one refusal is given for at a place behind the first. Nothing else is wrong by it, and no fault done
/// earlier is undone.
pub fn fault(job: &mut Vec<Entry>, number: i64, place: usize, chance: &mut Chance) {
    let top = job[0].letter;
    let honest = Entry { letter: other(top), name: Some(0), sum: chance.between(-9, 9).into() };
    match number {
        ENTRIES => {
            let count = MOST_ENTRIES + chance.pick(&[1, 1, 2, 33]);
            while job.len() < count {
                insert(job, place, honest);
            }
        }
        KIND => insert(job, place, Entry { letter: chance.pick(b"ABCIJORTUWXZ"), ..honest }),
        NAME => {
            let name = chance.pick(&[None, None, Some(place), Some(place), Some(place + 1), Some(job.len() + 1)]);
            insert(job, place, Entry { name: chance.pick(&[name, name, name, Some(900_000)]), ..honest });
        }
        ALTERNATION => insert(job, place, Entry { letter: top, ..honest }),
        DEPTH => {
            let mut kind = top;
            for below in 0..DEEPEST {
                kind = other(kind);
                let name = Some(if below == 0 { 0 } else { place + below - 1 });
                insert(job, place + below, Entry { letter: kind, name, ..honest });
            }
        }
        SUM => insert(job, place, Entry { sum: beyond(chance), ..honest }),
        _ => unreachable!("no entry has another fault"),
    }
}

/// A sum beyond the bound, of no more digits than a sheet may have.
fn beyond(chance: &mut Chance) -> i128 {
    let most = 10i128.pow(job::SUM_DIGITS as u32) - 1;
    let any = i128::from(chance.between(LARGEST_SUM as i64 + 1, most as i64));
    chance.pick(&[1, -1]) * chance.pick(&[LARGEST_SUM + 1, any, most])
}

pub fn job_request(text: &[u8]) -> Request {
    sheet_request(JOB, text)
}

/// Asks for the topmost net of a job, and holds it to half a cubic metre of the exact one.
pub fn answered(bench: &mut Bench, kind: &str, job: &[Entry]) {
    let request = job_request(&job::write(job));
    let Some(found) = bench.try_call(kind, &request) else { return };
    if found.answer[0] == 0 {
        let (net, figure) = (net_by_kind(job), found.answer[1]);
        let holds = within_half(net, figure);
        bench.property("jobs: half a cubic metre", holds, &format!("{figure} for the net {net}"), &request);
    }
}

pub fn some_top(chance: &mut Chance) -> u8 {
    chance.pick(&[VOID, SOLID])
}

/// A job of up to one entry too many, at most one too deep, with some sums.
fn some_job(chance: &mut Chance) -> Vec<Entry> {
    let count = match chance.below(4) {
        0 => 1 + chance.below(4),
        1 => MOST_ENTRIES + 1 - chance.below(4),
        _ => 1 + chance.below(MOST_ENTRIES),
    };
    let deepest = if count == 1 { 1 } else { 2 + chance.below(count.min(DEEPEST + 1) - 1) };
    let deepest = if deepest > DEEPEST && !chance.one_in(4) { DEEPEST } else { deepest };
    let job = tree(some_top(chance), count, deepest, chance);
    with_some_sums(job, chance)
}

/// A round with an honest job.
pub fn honest(bench: &mut Bench, chance: &mut Chance) {
    for _ in 0..3 {
        answered(bench, "chance: jobs", &some_job(chance));
    }
}

/// A job small enough to be spoiled byte by byte.
fn small_job(chance: &mut Chance) -> Vec<Entry> {
    let count = 1 + chance.below(5);
    let job = tree(some_top(chance), count, if count == 1 { 1 } else { 2 + chance.below(count - 1) }, chance);
    with_some_sums(job, chance)
}

/// Bytes to put in place of honest ones.
pub const BYTES: &[u8] = b"\t\n -0123789JVSOBX\r\0\xff";

/// A round with one to three bytes of a sheet spoiled anywhere.
pub fn spoiled(bench: &mut Bench, chance: &mut Chance) {
    for _ in 0..3 {
        let job = if chance.one_in(2) { small_job(chance) } else { some_job(chance) };
        let mut text = job::write(&job);
        for _ in 0..1 + chance.below(3) {
            let at = chance.below(text.len());
            match chance.below(5) {
                0 if text.len() > 1 => drop(text.remove(at)),
                1 => text.insert(at, chance.pick(BYTES)),
                2 => text.insert(at, text[at]),
                _ => text[at] = chance.pick(BYTES),
            }
        }
        bench.try_call("chance: spoiled job sheets", &job_request(&text));
    }
}

/// A round over every byte of a small sheet: all replaced, dropped, doubled, or cut off there.
pub fn byte_by_byte(bench: &mut Bench, chance: &mut Chance) {
    let text = job::write(&small_job(chance));
    let manner = chance.below(4);
    for at in 0..text.len() {
        let spoiled = spoiled_at(&text, at, manner, chance);
        bench.try_call("chance: job sheets byte by byte", &job_request(&spoiled));
    }
}

/// A round with sheets put together of pieces, honest lines among them.
pub fn of_pieces(bench: &mut Bench, chance: &mut Chance) {
    #[rustfmt::skip]
    const PIECES: [&[u8]; 24] = [
        b"JOB", b"J", b"J\tV\t", b"J\tS\t0\t", b"V", b"S", b"X", b"v", b"\t", b"\t", b"\n", b"\n", b"-", b"0", b"1", b"-1",
        b"33", b"768000000000000000", b"-768000000000000001", b"1000000000000000000", b" ", b"\r", b"\0", b"\xff",
    ];
    for _ in 0..3 {
        let mut text = Vec::new();
        let lines = chance.below(5);
        if !chance.one_in(8) {
            text.extend(job::write_counted(lines + chance.pick(&[0, 0, 0, 0, 1]), &[]));
        }
        for at in 0..lines {
            let name = if at == 0 { None } else { Some(chance.below(at + 1)) };
            let letter = if at == 0 { VOID } else { chance.pick(b"VSSSX") };
            let honest = job::write_counted(0, &[Entry { letter, name, sum: chance.between(-9, 9).into() }]);
            match chance.below(8) {
                0 => (0..chance.below(9)).for_each(|_| text.extend(chance.pick(&PIECES))),
                1 => text.extend((0..chance.below(20)).map(|_| chance.next() as u8)),
                _ => text.extend(&honest["JOB\t0\n".len()..]),
            }
        }
        bench.try_call("chance: job sheets of pieces", &job_request(&text));
    }
}

/// A stage of a skin, the skin itself at times, turned inside out at times.
fn some_stage(skin: &Skin, chance: &mut Chance) -> Skin {
    let rows = if chance.one_in(2) { skin.rows.clone() } else { some_log(skin, chance).0 };
    let stage = Skin { rows, ..skin.clone() };
    if chance.one_in(2) {
        turned_inside_out(&stage)
    } else {
        stage
    }
}

fn turned_inside_out(skin: &Skin) -> Skin {
    Skin { rows: skin.rows.iter().map(|&[a, b, c]| [a, c, b]).collect(), ..skin.clone() }
}

/// The exact sum of a stage, as the driven program tells it.
pub fn sum_told(bench: &mut Bench, stage: &Skin, chance: &mut Chance) -> Option<i128> {
    let request = Input::new(stage, &[]).request(EXACT_SUM, chance);
    let found = bench.try_call("jobs: the sums of real stages", &request)?;
    Some(SIX_CUBIC_METRES * i128::from(found.answer[1]) + i128::from(found.answer[2]))
}

/// A job whose sums were told, held to the same job with the sums worked out here. Says what was found.
pub fn of_sums_told(bench: &mut Bench, told: &[Entry], exact: &[Entry]) -> Option<Response> {
    let request = job_request(&job::write(told));
    let found = bench.try_call("jobs: real stages", &request)?;
    bench.tally.meet("a job of real stages");
    let (net, figure) = (job::net(exact, 0), found.answer[1]);
    let holds = found.answer[0] == 0 && within_half(net, figure);
    bench.property("jobs: half a cubic metre of real stages", holds, &format!("{figure} for the net {net}"), &request);
    Some(found)
}

/// A round with a job of real stages: the exact sum of each is asked for, and the sheet is built of the answers.
pub fn of_stages(bench: &mut Bench, skin: &Skin, chance: &mut Chance) {
    let count = chance.pick(&[1, 1, 2, 3, 4, 6]);
    let deepest = if count == 1 { 1 } else { 2 + chance.below(count - 1) };
    let mut told = tree(some_top(chance), count, deepest, chance);
    let mut exact = told.clone();
    let mut stage = some_stage(skin, chance);
    for at in 0..count {
        if at > 0 {
            let rows = make::size(chance).min(FEW_ROWS);
            stage = some_stage(&make::skin(rows, chance), chance);
        }
        let Some(sum) = sum_told(bench, &stage, chance) else { return };
        told[at].sum = sum;
        exact[at].sum = sixfold_volume(&stage.rows, &stage.corners);
    }
    let Some(found) = of_sums_told(bench, &told, &exact) else { return };
    if count == 1 {
        let request = Input::new(&stage, &[]).request(VOLUME, chance);
        let Some(volume) = bench.try_call("jobs: the figure of one stage", &request) else { return };
        let same = found.answer == volume.answer;
        bench.property("jobs: one entry has its stage's figure", same, "it has another", &request);
    }
}

/// 32 of the largest stages that there are, each turned so that its sum adds to the topmost net.
pub fn of_largest_stages(bench: &mut Bench, chance: &mut Chance) {
    let (down, across) = MOST_ROWS_GRID;
    let (rows, corners) = (grid(down, across), place::largest_sum(down, across));
    let out = Skin { rows, corners, genus: 1, name: "a torus" };
    let inside = turned_inside_out(&out);
    for (top, stages) in [(VOID, [&out, &inside]), (SOLID, [&inside, &out])] {
        let mut told = star(top, MOST_ENTRIES);
        let mut exact = told.clone();
        for (at, stage) in stages.into_iter().enumerate() {
            let Some(sum) = sum_told(bench, stage, chance) else { return };
            let within = if at == 0 { 0..1 } else { 1..MOST_ENTRIES };
            told[within.clone()].iter_mut().for_each(|entry| entry.sum = sum);
            let sum = sixfold_volume(&stage.rows, &stage.corners);
            exact[within].iter_mut().for_each(|entry| entry.sum = sum);
        }
        of_sums_told(bench, &told, &exact);
    }
}
