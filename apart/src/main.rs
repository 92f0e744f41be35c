//! The second program: works out from the client's paper what every public call must answer, makes honest, damaged
//! and hostile inputs, drives the two compiled programs through pipes, and compares.

use apart::bench::{desk_difference, Bench, END, PATIENCE};
use apart::chance::Chance;
use apart::protocol::{bytes_of, call_of, Request, CALLS};
use apart::spoil::Spoiler;
use apart::tally::{difference, words_of};
use apart::{
    answers, counts, cuts, desk, ends, engine_sweeps, flip_sweeps, job_sheets, lines, log_sheets, order, recovery,
};
use apart::{round, serve, sheets, sums, sweep, trial};
use std::io::Read;
use std::process::ExitCode;

const USAGE: &str = "usage: apart CALLS DESK TRIALS [COUNT] [SEED]
       apart again CALLS WORDS | apart again-desk DESK WORDS   (- reads the words from standard input)
       apart part NAME CALLS DESK COUNT SEED   (one part of the run; `apart parts` lists them)
       apart only NUMBERS CALLS COUNT SEED   (the calls of these numbers alone, as in 13,14,15)
       apart serve | apart desk   (the two programs, answered by this one's rules)
       apart serve SEED RESPONSES FOLDER | apart desk SEED RESPONSES FOLDER   (one of so many responses spoiled)";
/// A run of this many calls must have met every refusal.
const WHOLE_RUN: usize = 20_000;
const SEED: u64 = 2_024;
/// One round in so many works on more than 256 rows.
const LARGE_ROUNDS: u64 = 200;

fn main() -> ExitCode {
    let arguments: Vec<String> = std::env::args().skip(1).collect();
    let given: Vec<&str> = arguments.iter().map(String::as_str).collect();
    match given[..] {
        ["serve"] => code(serve::calls(None).is_ok()),
        [program @ ("serve" | "desk"), seed, responses, folder] => match (number(seed), number(responses)) {
            (Some(seed), Some(responses)) => {
                let spoiler = Some(Spoiler::new(seed, responses as usize, folder));
                let served = if program == "desk" { serve::desk(spoiler) } else { serve::calls(spoiler) };
                code(served.is_ok())
            }
            _ => usage(),
        },
        ["parts"] => {
            PARTS.iter().for_each(|(name, _)| println!("{name}"));
            ExitCode::SUCCESS
        }
        ["part", name, calls, desk, count, seed] => {
            let part = PARTS.iter().position(|(known, _)| known == &name);
            match (part, number(count), number(seed)) {
                (Some(part), Some(count), Some(seed)) => code(one_part(part, [calls, desk], count as usize, seed)),
                _ => usage(),
            }
        }
        ["only", numbers, calls, count, seed] => match (calls_of(numbers), number(count), number(seed)) {
            (Some(only), Some(count), Some(seed)) => code(some_calls(only, calls, count as usize, seed)),
            _ => usage(),
        },
        ["desk"] => code(serve::desk(None).is_ok()),
        ["again", path, words] => code(again(path, words)),
        ["again-desk", path, words] => code(again_desk(path, words)),
        [calls, desk, trials] => code(run([calls, desk, trials], WHOLE_RUN, SEED)),
        [calls, desk, trials, count] => {
            number(count).map_or_else(usage, |n| code(run([calls, desk, trials], n as usize, SEED)))
        }
        [calls, desk, trials, count, seed] => match (number(count), number(seed)) {
            (Some(count), Some(seed)) => code(run([calls, desk, trials], count as usize, seed)),
            _ => usage(),
        },
        _ => usage(),
    }
}

fn code(well: bool) -> ExitCode {
    if well {
        ExitCode::SUCCESS
    } else {
        ExitCode::FAILURE
    }
}

fn usage() -> ExitCode {
    eprintln!("{USAGE}");
    ExitCode::from(2)
}

fn number(text: &str) -> Option<u64> {
    text.replace(',', "").parse().ok()
}

/// The numbers of some calls, parted by commas.
fn calls_of(text: &str) -> Option<Vec<usize>> {
    text.split(',').map(|number| number.parse().ok().filter(|&number| call_of(number).is_some())).collect()
}

/// A part of the run, from a seed.
type Part = fn(&mut Bench, u64);

/// The parts after the lines of `trials`: 01's cases, the order of refusals, the sweeps, the ends, then rounds of
/// chance up to the count. Those behind them come to so many calls that few would be left to the rounds: a whole run
/// makes them beside its count.
const PARTS: [(&str, Part); 17] = [
    ("trial", |bench, seed| trial::run(bench, &mut own(seed, 0))),
    ("alone", |bench, seed| order::alone(bench, &mut own(seed, 1))),
    ("order", |bench, seed| order::run(bench, 3, &mut own(seed, 2))),
    ("counts", |bench, seed| counts::run(bench, &mut own(seed, 3))),
    ("sweep", |bench, seed| sweep::run(bench, &mut own(seed, 4))),
    ("sums", |bench, seed| sums::run(bench, &mut own(seed, 5))),
    ("sheets", |bench, seed| sheets::run(bench, &mut own(seed, 6))),
    ("log-sheets", |bench, seed| log_sheets::run(bench, &mut own(seed, 10))),
    ("ends", |bench, seed| ends::run(bench, &mut own(seed, 7))),
    ("returning", |bench, seed| round::returning(bench, &mut own(seed, 8))),
    ("greatest", |bench, seed| {
        round::greatest(bench, &mut own(seed, 9));
        engine_sweeps::greatest(bench, &mut own(seed, 16));
    }),
    ("rounds", rounds),
    ("engines", |bench, seed| engine_sweeps::run(bench, &mut own(seed, 15))),
    ("flips", |bench, seed| flip_sweeps::run(bench, &mut own(seed, 14))),
    ("jobs", |bench, seed| job_sheets::run(bench, &mut own(seed, 13))),
    ("recovery", |bench, seed| recovery::run(bench, &mut own(seed, 11))),
    ("cuts", |bench, seed| cuts::run(bench, &mut own(seed, 12))),
];
/// So many of them are made up to the count.
const COUNTED: usize = 12;

/// A part has chance of its own, so that it does not hang on those before it.
fn own(seed: u64, part: u64) -> Chance {
    Chance::new(seed ^ part << 56)
}

/// Each round has chance of its own, so that it can be made again without those before it.
fn rounds(bench: &mut Bench, seed: u64) {
    let mut number = 0;
    while !bench.enough() && round::any(bench) {
        let mut chance = Chance::new(seed.wrapping_mul(0x0100_0000_01b3) ^ number);
        round::run(bench, number % LARGE_ROUNDS == LARGE_ROUNDS - 1, &mut chance);
        number += 1;
    }
}

/// The whole run: the lines of `trials`, then every part.
fn run([calls, desk, trials]: [&str; 3], count: usize, seed: u64) -> bool {
    let mut bench = Bench::new(calls, desk, count, format!("apart {calls} {desk} {trials} {count} {seed}"));
    println!("seed {seed}");
    lines::run(&mut bench, trials);
    every_part(&mut bench, count, seed);
    if count >= WHOLE_RUN {
        bench.tally.ask_for_all();
    }
    bench.tally.close()
}

/// Every part in turn up to the count; a whole run must have met each call that it drives.
fn every_part(bench: &mut Bench, count: usize, seed: u64) {
    for (at, (_, part)) in PARTS.into_iter().enumerate() {
        if at == COUNTED && count >= WHOLE_RUN {
            bench.wanted = usize::MAX;
        }
        if !bench.enough() {
            part(bench, seed);
        }
    }
    for call in &CALLS {
        if count >= WHOLE_RUN && bench.drives(call.number) {
            bench.tally.ask_for_call(call);
        }
    }
}

/// The whole run with some calls alone.
fn some_calls(only: Vec<usize>, calls: &str, count: usize, seed: u64) -> bool {
    let numbers: Vec<String> = only.iter().map(usize::to_string).collect();
    let whole = format!("apart only {} {calls} {count} {seed}", numbers.join(","));
    let mut bench = Bench::only(only, calls, count, whole);
    println!("seed {seed}");
    every_part(&mut bench, count, seed);
    bench.tally.close()
}

/// One part alone.
fn one_part(part: usize, [calls, desk]: [&str; 2], count: usize, seed: u64) -> bool {
    let (name, part) = PARTS[part];
    let mut bench = Bench::new(calls, desk, count, format!("apart part {name} {calls} {desk} {count} {seed}"));
    part(&mut bench, seed);
    bench.tally.close()
}

/// The words of an argument, or of standard input.
fn given_words(text: &str) -> Option<Vec<i64>> {
    let mut read = String::new();
    if text == "-" {
        std::io::stdin().read_to_string(&mut read).ok()?;
        return words_of(&read);
    }
    words_of(text)
}

/// Sends requests again, as words, and says what must come and what came.
fn again(path: &str, text: &str) -> bool {
    let Some(words) = given_words(text) else { return false };
    let mut left = words.iter().copied();
    let mut bench = Bench::new(path, "", 1, String::new());
    let mut answered = Vec::new();
    while left.len() > 0 {
        let Some(request) = Request::read(&mut || left.next()) else {
            return must_end(path, &words, &answered);
        };
        let expected = answers::answer(&request);
        let found = bench.ask(&request);
        println!("expected {expected:?}\nfound    {found:?}");
        let wrong = found.map_or_else(Some, |found| difference(&request, &expected, &found));
        if let Some(what) = wrong {
            println!("{what}");
            return false;
        }
        answered.extend(bytes_of(&expected.words()));
    }
    println!("the same");
    true
}

/// Words among which one is no request: those before it are answered, nothing is written for it, and the program ends.
fn must_end(path: &str, words: &[i64], answered: &[u8]) -> bool {
    let found = Bench::new(path, "", 1, String::new()).output(path, END, |calls| {
        calls.send(bytes_of(words));
        calls.close();
    });
    println!("a request that is none: {} bytes must come, and the end; found {found:?}", answered.len());
    found.is_ok_and(|found| found == answered)
}

fn again_desk(path: &str, text: &str) -> bool {
    let Some(words) = given_words(text) else { return false };
    let sheet: Vec<u8> = words.iter().map(|&word| word as u8).collect();
    let found = Bench::new("", path, 1, String::new()).output(path, PATIENCE, |program| {
        program.send(sheet.clone());
        program.close();
    });
    let expected = desk::text(&sheet);
    println!("expected:\n{expected}found:\n{}", String::from_utf8_lossy(found.as_deref().unwrap_or(b"")));
    let wrong = desk_difference(&expected, found);
    println!("{}", wrong.as_deref().unwrap_or("the same"));
    wrong.is_none()
}
