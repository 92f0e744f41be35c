//! The benchmark: each proved call beside the same loops in ordinary Rust, in one process, on the same input; check, volume and log sheets also
//! beside quick Rust, the link test by itself also beside Rust that compares all with all, and flips beside Rust that looks through the table. The
//! samples of the sides take turns, and a median stands for each. The sides' answers are compared before anything is timed; with `compare` nothing
//! else is done, and it goes on to damaged tables, logs and lists of edges, and to the link test of every edge.

mod back;
mod check;
mod damage;
mod damaged_flips;
mod damaged_logs;
mod engines;
mod figures;
mod finish;
mod flips;
mod hubs;
mod logs;
mod mailed;
mod quick;
mod quick_logs;
mod quickest;
mod sheet;
mod skins;
mod thin;
mod turned;
mod work;

use apart::make::Skin;
use apart::place;
use apart::skin::FEWEST;
use apart::step::WIDTH;
use flaxglimmer as proved;
use flaxglimmer::{Length, Refusal, Unfinished};
use mailed::{Mailed, ONE_BY_ONE};
use std::hint::black_box;
use std::process::ExitCode;
use std::time::{Duration, Instant};
use thin::LEAVE;
use work::{Counted, Uncounted};

const SAMPLES: usize = 31;
/// The most that a proved call may take of the time of the same loops.
const RATIO: f64 = 1.2;
/// The most that a call may grow on shafts when the rows double.
const GROWTH: [(&str, f64); 9] = [
    ("check", 2.5),
    ("volume", 2.2),
    ("grow back", 4.5),
    ("replay", 4.5),
    ("thin", 2.5),
    ("thin plain", 5.0),
    ("write log sheet", 2.5),
    ("read log sheet", 2.5),
    (ONE_BY_ONE, 2.5),
];
/// A sample repeats its call until it takes about so long.
const SAMPLE: Duration = Duration::from_millis(2);

/// Of the tables that are printed.
const COLUMNS: [&str; 15] = [
    "Call",
    "Rows",
    "Proved, µs",
    "Rust, µs",
    "Ratio",
    "Quick, µs",
    "Ratio to quick",
    "Growth, proved",
    "Growth, Rust",
    "Slots",
    "Slots, quick",
    "Link tests",
    "Ring entries",
    "Rows passed",
    "Bytes",
];

type Run<'a> = Box<dyn FnMut() + 'a>;

/// What each side of a call has: the proved one, the same loops in Rust, and quick Rust where it has the call.
#[derive(Clone)]
struct Sides<T> {
    proved: T,
    plain: T,
    quick: Option<T>,
}

impl<T> Sides<T> {
    fn all(&mut self) -> Vec<&mut T> {
        [&mut self.proved, &mut self.plain].into_iter().chain(&mut self.quick).collect()
    }

    fn map<U>(self, mut to: impl FnMut(T) -> U) -> Sides<U> {
        Sides { proved: to(self.proved), plain: to(self.plain), quick: self.quick.map(to) }
    }
}

/// A call on an input: what all sides refuse it with, each side as a repeatable run, the work that the same loops count, and quick Rust's slots.
struct Call<'a> {
    name: &'static str,
    refused: Option<Refusal>,
    runs: Sides<Run<'a>>,
    work: Counted,
    quick_slots: Option<usize>,
}

impl<'a> Call<'a> {
    fn new(
        name: &'static str,
        refused: Option<Refusal>,
        work: Counted,
        proved: impl FnMut() + 'a,
        plain: impl FnMut() + 'a,
    ) -> Call<'a> {
        let runs = Sides { proved: Box::new(proved) as Run, plain: Box::new(plain) as Run, quick: None };
        Call { name, refused, runs, work, quick_slots: None }
    }

    fn with_quick(mut self, work: Counted, quick: impl FnMut() + 'a) -> Call<'a> {
        self.runs.quick = Some(Box::new(quick));
        Call { quick_slots: Some(work.slots), ..self }
    }
}

/// The refusal for which a log was not done whole.
fn refusal(unfinished: Unfinished) -> Refusal {
    match unfinished {
        Unfinished::Stopped(_) => Refusal::RecordFails,
        Unfinished::Refused(refusal) => refusal,
    }
}

#[derive(Clone)]
struct Measured {
    call: &'static str,
    rows: usize,
    /// Of the samples the median, and the least, in microseconds.
    times: Sides<f64>,
    least: Sides<f64>,
    work: Counted,
    quick_slots: Option<usize>,
}

impl Measured {
    fn ratio(&self) -> f64 {
        self.times.proved / self.times.plain
    }

    fn ratio_to_quick(&self) -> Option<f64> {
        self.times.quick.map(|quick| self.times.proved / quick)
    }
}

/// The engine that is asked for.
#[derive(Clone, Copy)]
enum Engine {
    Plain,
    Quick,
}

type Thin = fn(&mut [u32], &[i32], Option<Length>, &mut [u32]) -> Result<usize, Refusal>;

impl Engine {
    fn proved(self) -> Thin {
        match self {
            Engine::Plain => proved::thin_plain,
            Engine::Quick => proved::thin,
        }
    }

    fn same_loops(
        self,
        table: &mut [u32],
        corners: &[i32],
        limit: Option<u64>,
        log: &mut [u32],
        work: &mut impl work::Work,
    ) -> Result<usize, Refusal> {
        match (self, limit) {
            (Engine::Quick, None) => finish::call(table, corners, log, work),
            _ => thin::thin(table, corners, limit, log, work),
        }
    }
}

/// What a skin gives to measure: its first table, and its full log with the last stage.
#[derive(Default)]
struct Input {
    table: Vec<u32>,
    corners: Vec<i32>,
    limit: u64,
    sheet: Vec<u8>,
    log: Vec<u32>,
    last: Vec<u32>,
    mailed: Mailed,
}

impl Input {
    fn of(skin: &Skin) -> Input {
        let (table, corners) = (skin.table(), skin.coordinates());
        let mut last = table.clone();
        let mut log = vec![0; WIDTH * (skin.corners.len() - FEWEST)];
        let records = proved::thin(&mut last, &corners, None, &mut log).expect("a skin is thinned");
        log.truncate(WIDTH * records);
        last.truncate(table.len() - 3 * LEAVE * records);
        Input {
            limit: skins::middling_limit(skin),
            sheet: apart::sheet::write(&skin.corners, &skin.rows),
            mailed: Mailed::of(skin.corners.len(), skin.rows.len(), &log),
            table,
            corners,
            log,
            last,
        }
    }

    fn count(&self) -> usize {
        self.corners.len() / 3
    }

    /// Every call on an honest input: none is refused.
    fn calls(&self) -> Vec<Call<'_>> {
        let mut calls = vec![
            self.check(),
            self.thin("thin", None, Engine::Quick),
            self.thin("thin plain", None, Engine::Plain),
            self.thin("thin under a limit", Some(self.limit), Engine::Quick),
            self.grow_back(),
            self.replay("replay", &self.log),
            self.volume(),
            self.change(),
            self.read_sheet(),
        ];
        calls.extend(self.mailed.calls());
        for call in &calls {
            assert_eq!(call.refused, None, "{}", call.name);
        }
        calls
    }

    /// The check alone: a replay of no record. Quick Rust copies the table as the other sides do.
    fn check(&self) -> Call<'_> {
        let (call, mut work) = (self.replay("check", &[]), Counted::default());
        let quick = quick::check(&self.table, self.count(), &mut work);
        assert_eq!(quick.err(), call.refused, "check: quick Rust differs");
        let mut there = self.table.clone();
        call.with_quick(work, move || {
            there.copy_from_slice(&self.table);
            black_box(quick::check(&there, self.count(), &mut Uncounted)).ok();
        })
    }

    /// By the engine that goes on without a limit; with one it is the plain engine, whichever is asked for.
    fn thin(&self, call: &'static str, limit: Option<u64>, engine: Engine) -> Call<'_> {
        let length = limit.map(|limit| Length::Centimetres(limit as f64));
        let fresh = || (self.table.clone(), vec![0; WIDTH * (self.count() - FEWEST)]);
        let ((mut table, mut log), mut work) = (fresh(), Counted::default());
        let answer = engine.same_loops(&mut table, &self.corners, limit, &mut log, &mut work);
        let ((mut here, mut mine), (mut there, mut theirs)) = (fresh(), fresh());
        let proved_thin = engine.proved();
        assert_eq!(proved_thin(&mut here, &self.corners, length, &mut mine), answer, "{call}");
        assert!((&here, &mine) == (&table, &log), "{call}: the two sides differ");
        let proved = move || {
            here.copy_from_slice(&self.table);
            black_box(proved_thin(&mut here, &self.corners, length, &mut mine)).ok();
        };
        let same = move || {
            there.copy_from_slice(&self.table);
            black_box(engine.same_loops(&mut there, &self.corners, limit, &mut theirs, &mut Uncounted)).ok();
        };
        Call::new(call, answer.err(), work, proved, same)
    }

    fn grow_back(&self) -> Call<'_> {
        let fresh = || [&self.last[..], &vec![0; self.table.len() - self.last.len()]].concat();
        let (rows, mut room, mut work) = (self.last.len() / 3, fresh(), Counted::default());
        let answer = back::grow_back(&mut room, rows, self.count(), &self.log, &mut work);
        let (mut here, mut there) = (fresh(), fresh());
        assert_eq!(proved::grow_back(&mut here, rows, self.count(), &self.log), answer, "grow back");
        assert!(here == room && room == self.table, "grow back: the two sides differ");
        let proved = move || {
            here[..self.last.len()].copy_from_slice(&self.last);
            black_box(proved::grow_back(&mut here, rows, self.count(), &self.log)).ok();
        };
        let plain = move || {
            there[..self.last.len()].copy_from_slice(&self.last);
            black_box(back::grow_back(&mut there, rows, self.count(), &self.log, &mut Uncounted)).ok();
        };
        Call::new("grow back", answer.err().map(refusal), work, proved, plain)
    }

    fn replay<'a>(&'a self, call: &'static str, log: &'a [u32]) -> Call<'a> {
        let (mut table, mut work) = (self.table.clone(), Counted::default());
        let answer = back::replay(&mut table, self.count(), log, &mut work);
        let (mut here, mut there) = (self.table.clone(), self.table.clone());
        assert_eq!(proved::replay(&mut here, self.count(), log), answer, "{call}");
        assert!(here == table, "{call}: the two sides differ");
        let proved = move || {
            here.copy_from_slice(&self.table);
            black_box(proved::replay(&mut here, self.count(), log)).ok();
        };
        let plain = move || {
            there.copy_from_slice(&self.table);
            black_box(back::replay(&mut there, self.count(), log, &mut Uncounted)).ok();
        };
        Call::new(call, answer.err().map(refusal), work, proved, plain)
    }

    fn volume(&self) -> Call<'_> {
        let (mut work, mut quick_work) = (Counted::default(), Counted::default());
        let answer = figures::volume(&self.table, &self.corners, &mut work);
        assert_eq!(proved::volume(&self.table, &self.corners), answer, "volume");
        assert_eq!(quick::volume(&self.table, &self.corners, &mut quick_work), answer, "volume: quick Rust differs");
        let proved = || {
            black_box(proved::volume(black_box(&self.table), &self.corners)).ok();
        };
        let plain = || {
            black_box(figures::volume(black_box(&self.table), &self.corners, &mut Uncounted)).ok();
        };
        let quick = || {
            black_box(quick::volume(black_box(&self.table), &self.corners, &mut Uncounted)).ok();
        };
        Call::new("volume", answer.err(), work, proved, plain).with_quick(quick_work, quick)
    }

    fn change(&self) -> Call<'_> {
        let mut work = Counted::default();
        let answer = figures::change(&self.table, &self.last, &self.corners, &mut work);
        assert_eq!(proved::change(&self.table, &self.last, &self.corners), answer, "change");
        let proved = || {
            black_box(proved::change(black_box(&self.table), &self.last, &self.corners)).ok();
        };
        let plain = || {
            black_box(figures::change(black_box(&self.table), &self.last, &self.corners, &mut Uncounted)).ok();
        };
        Call::new("change", answer.err(), work, proved, plain)
    }

    fn read_sheet(&self) -> Call<'_> {
        let rooms = || (vec![0; self.table.len()], vec![0; self.corners.len()]);
        let ((mut table, mut corners), mut work) = (rooms(), Counted::default());
        let answer = sheet::read_sheet(&self.sheet, &mut table, &mut corners, &mut work);
        let ((mut here, mut mine), (mut there, mut theirs)) = (rooms(), rooms());
        assert_eq!(proved::read_sheet(&self.sheet, &mut here, &mut mine), answer, "read sheet");
        assert!((&here, &mine) == (&table, &corners), "read sheet: the two sides differ");
        let proved = move || {
            black_box(proved::read_sheet(black_box(&self.sheet), &mut here, &mut mine)).ok();
        };
        let plain = move || {
            black_box(sheet::read_sheet(black_box(&self.sheet), &mut there, &mut theirs, &mut Uncounted)).ok();
        };
        Call::new("read sheet", answer.err(), work, proved, plain)
    }
}

fn timed(run: &mut dyn FnMut(), times: u32) -> Duration {
    let start = Instant::now();
    for _ in 0..times {
        run();
    }
    start.elapsed()
}

/// How often a run is repeated to take about a sample's time.
fn repeats(run: &mut dyn FnMut()) -> u32 {
    let mut times = 1;
    loop {
        let took = timed(run, times);
        if took >= SAMPLE / 4 {
            return (u128::from(times) * SAMPLE.as_nanos() / took.as_nanos()).max(1) as u32;
        }
        times *= 2;
    }
}

/// What is sampled of one side: how often a sample repeats its run, and the samples, in microseconds a run.
struct Samples {
    times: u32,
    each: Vec<f64>,
}

/// Samples of a call at one size, while they are taken.
struct Sampled<'a> {
    rows: usize,
    call: Call<'a>,
    samples: Sides<Samples>,
}

impl<'a> Sampled<'a> {
    fn new(rows: usize, mut call: Call<'a>) -> Sampled<'a> {
        let fresh = |run: &mut Run| Samples { times: repeats(run), each: vec![] };
        let Sides { proved, plain, quick } = &mut call.runs;
        let samples = Sides { proved: fresh(proved), plain: fresh(plain), quick: quick.as_mut().map(fresh) };
        Sampled { rows, call, samples }
    }

    /// One sample of each side; no side is always the first.
    fn sample(&mut self, turn: usize) {
        let mut sides: Vec<_> = self.call.runs.all().into_iter().zip(self.samples.all()).collect();
        let first = turn % sides.len();
        sides.rotate_left(first);
        for (run, samples) in sides {
            samples.each.push(timed(run, samples.times).as_secs_f64() * 1e6 / f64::from(samples.times));
        }
    }

    fn measured(self) -> Measured {
        let Sampled { rows, call: Call { name, work, quick_slots, .. }, samples } = self;
        let sorted = samples.map(|samples| {
            let mut each = samples.each;
            each.sort_unstable_by(f64::total_cmp);
            each
        });
        let times = sorted.clone().map(|each| each[each.len() / 2]);
        Measured { call: name, rows, times, least: sorted.map(|each| each[0]), work, quick_slots }
    }
}

/// Every call at every size: calls and sizes take turns too, so that a slow spell of the machine falls on all of them.
fn measure(calls: Vec<(usize, Call)>) -> Vec<Measured> {
    let mut all: Vec<Sampled> = calls.into_iter().map(|(rows, call)| Sampled::new(rows, call)).collect();
    for turn in 0..SAMPLES {
        for one in &mut all {
            one.sample(turn);
        }
    }
    all.into_iter().map(Sampled::measured).collect()
}

/// A figure that not every line has.
fn told<T>(figure: Option<T>, write: fn(T) -> String) -> String {
    figure.map_or(String::new(), write)
}

fn print(kind: &str, all: &[Measured]) {
    println!("\n### {kind}\n");
    println!("| {} |", COLUMNS.join(" | "));
    println!("|---|{}", "--:|".repeat(COLUMNS.len() - 1));
    for one in all {
        let before = all.iter().find(|other| other.call == one.call && 2 * other.rows == one.rows);
        let growth = |time: fn(&Sides<f64>) -> f64| {
            told(before.map(|before| time(&one.times) / time(&before.times)), |growth| format!("{growth:.2}"))
        };
        let Counted { slots, link_tests, ring_entries, rows, bytes, .. } = one.work;
        println!(
            "| {} | {} | {:.1} | {:.1} | {:.2} | {} | {} | {} | {} | {slots} | {} | {link_tests} | {ring_entries} | {rows} | {bytes} |",
            one.call,
            one.rows,
            one.times.proved,
            one.times.plain,
            one.ratio(),
            told(one.times.quick, |time| format!("{time:.1}")),
            told(one.ratio_to_quick(), |ratio| format!("{ratio:.2}")),
            growth(|times| times.proved),
            growth(|times| times.plain),
            told(one.quick_slots, |slots| slots.to_string()),
        );
    }
}

/// The greatest of some figures, with its call and its rows.
fn greatest<'a>(figures: impl Iterator<Item = (f64, &'a Measured)>) -> String {
    let (figure, of) = figures.max_by(|one, other| one.0.total_cmp(&other.0)).expect("something is measured");
    format!("{figure:.2} ({}, {} rows)", of.call, of.rows)
}

/// The targets against what was measured: the greatest ratio of all, of the link test at hubs and of flips, and the greatest growth of each call on
/// shafts. No target stands for quick Rust, which does other work, nor for records one by one, each of which crosses the boundary by itself.
fn close(shafts: &[Measured], others: &[Measured], hubs: &[Measured], turned: &[Measured]) {
    let all = || shafts.iter().chain(others);
    println!("\n### Targets\n\n| What | Target | Greatest |\n|---|--:|--:|");
    for (calls, target, apart) in [("", RATIO.to_string(), false), (", records one by one", "none".into(), true)] {
        let ratio = greatest(all().filter(|one| (one.call == ONE_BY_ONE) == apart).map(|one| (one.ratio(), one)));
        println!("| ratio to the same loops in Rust{calls} | {target} | {ratio} |");
    }
    let ratio = greatest(hubs.iter().map(|one| (one.ratio(), one)));
    println!("| ratio of the link test at hubs to Rust that marks | {RATIO} | {ratio} |");
    let ratio = greatest(turned.iter().map(|one| (one.ratio(), one)));
    println!("| ratio of flips to Rust that keeps chains | {RATIO} | {ratio} |");
    let log_sheets = |one: &&Measured| one.call.ends_with("log sheet");
    for (calls, of) in [("check and volume", false), ("log sheets", true)] {
        let of_calls = all().filter(|one| log_sheets(one) == of);
        let ratio = greatest(of_calls.filter_map(|one| Some((one.ratio_to_quick()?, one))));
        println!("| ratio to quick Rust, {calls} | none | {ratio} |");
    }
    for (call, target) in GROWTH {
        let of_call: Vec<&Measured> = shafts.iter().filter(|one| one.call == call).collect();
        let growths = of_call.windows(2).map(|pair| pair[1].times.proved / pair[0].times.proved);
        println!("| growth of {call} on shafts, rows doubled | {target} | {:.2} |", growths.fold(0.0, f64::max));
    }
}

/// The skins of a kind, one for each size.
fn skins_of(kind: &str, make: fn(usize) -> Skin) -> [Skin; skins::SIZES.len()] {
    skins::SIZES.map(|rows| {
        let skin = make(rows);
        assert_eq!(skin.rows.len(), rows, "{kind}");
        assert!(place::distinct(skin.corners.clone()) == skin.corners, "{kind}: two corners at one point");
        skin
    })
}

/// Compares the sides' answers on every input, on damaged tables, logs and lists of edges, and of the link test on every edge, and times nothing.
fn compare() {
    let skins: Vec<Skin> = skins::KINDS.iter().flat_map(|&(kind, make)| skins_of(kind, make)).collect();
    let inputs: Vec<Input> = skins.iter().map(Input::of).collect();
    let honest: usize = inputs.iter().map(|input| input.calls().len()).sum();
    let damaged = damage::compare(&skins) + damaged_logs::compare(&inputs) + damaged_flips::compare(&skins);
    let more = damaged + hubs::compare(&skins) + turned::compare() + engines::compare();
    println!("{} passed, 0 failed", honest + more);
}

fn time() {
    let mut measured = skins::KINDS.map(|(kind, make)| {
        let inputs = skins_of(kind, make).map(|skin| Input::of(&skin));
        let calls = skins::SIZES
            .into_iter()
            .zip(&inputs)
            .flat_map(|(rows, input)| input.calls().into_iter().map(move |call| (rows, call)));
        let mut all = measure(calls.collect());
        // A call's sizes stand together, the calls in the order in which they came.
        let order: Vec<&str> = all.iter().map(|one| one.call).collect();
        all.sort_by_key(|one| order.iter().position(|&call| call == one.call));
        print(kind, &all);
        all
    });
    let (hubs, turned) = (hubs::time(), turned::time());
    let shafts = std::mem::take(&mut measured[0]);
    close(&shafts, &measured.concat(), &hubs, &turned);
    engines::time();
}

fn main() -> ExitCode {
    let arguments: Vec<String> = std::env::args().skip(1).collect();
    match arguments.iter().map(String::as_str).collect::<Vec<_>>()[..] {
        [] => time(),
        ["compare"] => compare(),
        ["engines"] => engines::time(),
        ["work"] => engines::count(),
        ["run", side, kind, rows, times] => {
            let [rows, times] = [rows, times].map(|number| number.parse().unwrap_or(0));
            if let Err(why) = engines::run(side, kind, rows, times) {
                eprintln!("bench: {why}");
                return ExitCode::from(2);
            }
        }
        _ => {
            eprintln!("usage: bench [compare | engines | work | run SIDE KIND ROWS TIMES]");
            return ExitCode::from(2);
        }
    }
    ExitCode::SUCCESS
}
