//! The ends of the protocol and of the desk's input: words outside their type, lists over their limit, other calls
//! and units, requests cut short, input in pieces, input that is too long or never ends.

use crate::bench::{Bench, END};
use crate::chance::Chance;
use crate::desk;
use crate::flips;
use crate::harm::{asked, Input};
use crate::logs::steps;
use crate::make;
use crate::protocol::*;
use crate::refusal::BAD_FORM;
use crate::sheet;
use std::thread;
use std::time::Duration;

pub fn run(bench: &mut Bench, chance: &mut Chance) {
    for call in &CALLS {
        if bench.drives(call.number) {
            let request = small_request(call.number, chance);
            bad_words(bench, &request, chance);
            cut_short(bench, &request, chance);
        }
    }
    other_calls(bench, chance);
    at_the_limits(bench, chance);
    pieces(bench, chance);
    desk_ends(bench, chance);
}

/// A small honest request of the call.
fn small_request(call: usize, chance: &mut Chance) -> Request {
    let skin = make::skin_of_genus(0, 10, chance);
    if !asked(call).is_empty() {
        let on_sheet = call == RECOVER || LOG_SHEET_CALLS.contains(&call);
        let log = if on_sheet { steps(&skin.rows, 2, chance).1 } else { vec![] };
        let mut input = Input::new(&skin, &log);
        input.order = (3, 100f64.to_bits());
        if [FLIP, UNDO].contains(&call) {
            flips::give(&mut input, call, 2, chance);
        }
        return input.request(call, chance);
    }
    let arguments = call_of(call).expect("one of the calls").arguments.iter().map(|_| vec![1, 2, 3]).collect();
    Request { call, arguments }
}

/// What stands behind bytes that are no request: the end of the input, an honest request, or nothing yet.
#[derive(Clone, Copy, PartialEq)]
enum Behind {
    End,
    More,
    Silence,
}

const ANY_BEHIND: [Behind; 3] = [Behind::End, Behind::More, Behind::Silence];

/// Sends an honest request and then bytes that are none: the honest one is answered, nothing else is written, and
/// the program ends, whatever stands behind.
fn must_end(bench: &mut Bench, kind: &str, bad: &[u8], behind: Behind, chance: &mut Chance) {
    if bench.enough() {
        return;
    }
    let calls = [THIN, VOLUME, LIMIT, CATCH_UP, READ_LOG_SHEET, RECOVER, FLIP];
    let honest = small_request(bench.some_call(&calls, chance), chance);
    let words = bytes_of(&honest.words());
    let more: &[u8] = if behind == Behind::More { &words } else { &[] };
    let sent = [&words, bad, more].concat();
    let found = bench.output(&bench.calls_path.clone(), END, |calls| {
        calls.send(sent.clone());
        if behind == Behind::End {
            calls.close();
        }
    });
    bench.ends_verdict(kind, &sent, &[honest], found);
}

fn outside(kind: Kind) -> &'static [Word] {
    match kind {
        Kind::OrderUnit => &[LAST_UNIT + 1, -1, 256, (1 << 32) + 1, Word::MIN],
        Kind::LimitUnit => &[0, LAST_UNIT + 1, -1, 257, (1 << 32) + 1, Word::MAX],
        Kind::Whole => &[],
        Kind::Number | Kind::Numbers => &[1 << 32, -1, Word::MAX, Word::MIN, (1 << 32) + 1],
        Kind::Coordinates => &[1 << 31, -(1 << 31) - 1, Word::MAX, Word::MIN, (1 << 32) - 1],
        Kind::Bytes => &[256, -1, Word::MAX, Word::MIN, 256 + 67],
    }
}

/// Each argument with a word outside its type, and each list with a length over its limit.
fn bad_words(bench: &mut Bench, request: &Request, chance: &mut Chance) {
    for (at, argument) in request.shape().arguments.iter().enumerate() {
        for &word in outside(argument.kind) {
            let mut bad = request.clone();
            if bad.arguments[at].is_empty() {
                bad.arguments[at].push(0);
            }
            let place = chance.below(bad.arguments[at].len());
            bad.arguments[at][place] = word;
            must_end(bench, "ends: a word outside its type", &bytes_of(&bad.words()), chance.pick(&ANY_BEHIND), chance);
        }
        if argument.kind.is_list() {
            long_lists(bench, request, at, chance);
        }
    }
}

fn long_lists(bench: &mut Bench, request: &Request, at: usize, chance: &mut Chance) {
    let longest = request.shape().arguments[at].kind.longest() as Word;
    for length in [longest + 1, -1, 1 << 32, 1 << 61, Word::MAX] {
        let before = Request { call: request.call, arguments: request.arguments[..at].to_vec() };
        let mut words = before.words();
        words.push(length);
        // One over the limit comes with all its words: it is the length that is wrong.
        words.extend(vec![0; if length == longest + 1 { length as usize } else { 9 }]);
        if length == longest + 1 {
            let rest = Request { call: request.call, arguments: request.arguments.clone() };
            words.extend(rest.words().split_off(before.words().len() + 1 + request.arguments[at].len()));
        }
        must_end(bench, "ends: a list over its limit", &bytes_of(&words), chance.pick(&ANY_BEHIND), chance);
    }
}

/// A request that stops at some byte.
fn cut_short(bench: &mut Bench, request: &Request, chance: &mut Chance) {
    let bytes = bytes_of(&request.words());
    let mut cuts = vec![1, 7, bytes.len() - 1, bytes.len() - 8];
    cuts.extend((0..4).map(|_| 8 * chance.below(bytes.len() / 8)));
    cuts.extend((0..2).map(|_| chance.below(bytes.len())));
    for cut in cuts {
        must_end(bench, "ends: a request cut short", &bytes[..cut], Behind::End, chance);
    }
}

fn other_calls(bench: &mut Bench, chance: &mut Chance) {
    let last = CALLS.iter().map(|call| call.number).max().unwrap_or(0);
    let none = (0..=last + 1).filter(|&number| call_of(number).is_none()).map(|number| number as Word);
    let past = [-1, 255, 256 + 11, (1 << 32) + 11, Word::MIN + 11, Word::MAX];
    for call in none.chain(past) {
        must_end(bench, "ends: another call", &bytes_of(&[call]), chance.pick(&ANY_BEHIND), chance);
    }
}

/// Lists of the greatest length are requests like any other.
fn at_the_limits(bench: &mut Bench, chance: &mut Chance) {
    for call in &CALLS {
        let request = small_request(call.number, chance);
        for (at, argument) in request.shape().arguments.iter().enumerate() {
            if argument.kind.is_list() {
                let mut long = request.clone();
                let fill = chance.pick(&[0, 1, 100]);
                long.arguments[at].resize(argument.kind.longest(), fill);
                bench.try_call("ends: a list of the greatest length", &long);
                long.arguments[at].clear();
                bench.try_call("ends: an empty list", &long);
            }
        }
    }
}

/// Requests sent in pieces, and many sent at once: the answers are the same and in order.
fn pieces(bench: &mut Bench, chance: &mut Chance) {
    for round in 0..6 {
        let all: Vec<usize> = CALLS.iter().map(|call| call.number).collect();
        let requests: Vec<Request> = (0..12).map(|_| small_request(bench.some_call(&all, chance), chance)).collect();
        let sent: Vec<u8> = requests.iter().flat_map(|r| bytes_of(&r.words())).collect();
        let mut cuts: Vec<usize> = (0..if round < 3 { 40 } else { 0 }).map(|_| chance.below(sent.len())).collect();
        cuts.extend([0, sent.len()]);
        cuts.sort_unstable();
        let found = bench.output(&bench.calls_path.clone(), END, |calls| {
            for pair in cuts.windows(2) {
                calls.send(sent[pair[0]..pair[1]].to_vec());
                thread::sleep(Duration::from_micros(if round < 3 { 300 } else { 0 }));
            }
            calls.close();
        });
        bench.ends_verdict("ends: requests in pieces or at once", &sent, &requests, found);
    }
}

/// The desk on sheets of the greatest size, over it, in pieces, and without end.
fn desk_ends(bench: &mut Bench, chance: &mut Chance) {
    let honest = Input::new(&make::skin_of_genus(1, 40, chance), &[]).sheet(chance);
    let honest: Vec<u8> = honest.into_iter().map(|word| word as u8).collect();
    let line = format!("SKIN\t6\t{}\n", sheet::MOST_ROWS + 1).into_bytes();
    for length in [sheet::MOST_BYTES, sheet::MOST_BYTES + 1, 70_000, 1 << 20] {
        // With counts that are refused, the most bytes give 2 and one more gives 12.
        for front in [&honest, &line] {
            let mut long = front.clone();
            long.resize(length, b'\n');
            bench.try_desk("ends: a long sheet on the desk", &long);
            if length <= Kind::Bytes.longest() {
                let bytes: Vec<Word> = long.iter().map(|&byte| byte.into()).collect();
                let rooms = [vec![0; 3 * sheet::MOST_ROWS], vec![0; 3 * sheet::MOST_CORNERS]];
                let arguments = [vec![bytes.clone()], rooms.to_vec()].concat();
                bench.try_call("ends: a long sheet", &Request { call: READ_SHEET, arguments });
                bench.try_call(
                    "ends: a long sheet",
                    &Request { call: DESK_ANSWER, arguments: vec![bytes, vec![7; 99]] },
                );
            }
        }
    }
    if !bench.drives_desk() {
        return;
    }
    desk_in_pieces(bench, &honest);
    desk_without_end(bench, &honest);
    desk_without_end(bench, b"");
}

fn desk_in_pieces(bench: &mut Bench, sheet: &[u8]) {
    let found = bench.output(&bench.desk_path.clone(), END, |program| {
        for piece in sheet.chunks(31) {
            program.send(piece.to_vec());
            thread::sleep(Duration::from_micros(300));
        }
        program.close();
    });
    bench.sent_verdict("ends: a sheet in pieces on the desk", &desk::text(sheet), found);
}

/// Feeds the desk for ever: it must answer 12 and end all the same.
fn desk_without_end(bench: &mut Bench, front: &[u8]) {
    let found = bench.output(&bench.desk_path.clone(), END, |program| {
        program.send(front.to_vec());
        let feeder = program.feeder().expect("not closed");
        program.close();
        // Ends when the program does. A trickle after the first megabyte: one that reads for ever would keep it all.
        thread::spawn(move || {
            for parcel in 0.. {
                if feeder.send(vec![b'\n'; 4_096]).is_err() {
                    break;
                }
                thread::sleep(Duration::from_millis(if parcel < 256 { 0 } else { 5 }));
            }
        });
    });
    bench.sent_verdict("ends: a sheet without end on the desk", &desk::no(BAD_FORM), found);
}
