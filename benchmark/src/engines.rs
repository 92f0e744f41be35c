//! The two engines of unlimited thinning: each proved call beside ordinary Rust by the same steps (`finish`, `thin`) and beside the quickest Rust we
//! wrote (`quickest`). Whole calls, which check the table first on every side, the engines by themselves, and the checks by themselves. A round makes
//! tables, by new numbers and in a new order each or one again and again, and every side runs on the same ones, the sides taking turns. What a run
//! leaves is compared, number for number, in the timed rounds too.

use crate::quickest::Quickest;
use crate::work::{Counted, Uncounted};
use crate::{back, check, finish, hubs, quick, skins, thin};
use apart::chance::Chance;
use apart::make::{self, Skin};
use apart::parts::grid;
use apart::skin::{Row, FEWEST, MOST_ROWS};
use apart::step::{self, WIDTH};
use flaxglimmer as proved;
use flaxglimmer::Refusal;
use std::hint::black_box;
use std::time::Instant;

const SEED: u64 = 23;
const ROUNDS: usize = 31;
/// Tables of a round hold about so many rows together; a plain engine, which is many times slower, runs on every eighth of them.
const ROWS_OF_ROUND: usize = 16 * MOST_ROWS;
const MOST_TABLES: usize = 32;
const OF_SLOW: usize = 8;
/// Over how many new tables the work is counted.
const COUNTED: usize = 32;
/// Skins on which all sides are held to the second program, and how often each is given new numbers.
const TRIED: usize = 400;
const TRIED_LARGE: usize = 24;
/// The most that the call may take of the quickest Rust, and that it may grow when the rows double.
const RATIO: f64 = 1.0;
const GROWTH: f64 = 2.1;
/// What stands in a lent log before a call: no record has the number.
const NUMBER: u32 = 7_777_777;

/// The call without a limit.
fn proved_thin(table: &mut [u32], corners: &[i32], log: &mut [u32]) -> Result<usize, Refusal> {
    proved::thin(table, corners, None, log)
}

/// The plain engine's call.
fn proved_plain(table: &mut [u32], corners: &[i32], log: &mut [u32]) -> Result<usize, Refusal> {
    proved::thin_plain(table, corners, None, log)
}

/// The engines by themselves, where crate `gauge` exports them for this alone.
#[cfg(gauge_engines)]
mod gauge {
    #[link(name = "gauge", kind = "static")]
    extern "C" {
        fn flaxglimmer_gauge_quick(
            table: *mut u32,
            table_length: usize,
            rows: usize,
            corners: usize,
            log: *mut u32,
            log_length: usize,
        ) -> usize;
        fn flaxglimmer_gauge_plain(
            table: *mut u32,
            table_length: usize,
            rows: usize,
            corners: usize,
            coordinates: *const i32,
            coordinates_length: usize,
            log: *mut u32,
            log_length: usize,
        ) -> usize;
    }

    /// What the engines ask holds of every table here: it is a checked first table, and the log has its room.
    pub fn quick(table: &mut [u32], corners: &[i32], log: &mut [u32]) -> usize {
        let (rows, count) = (table.len() / 3, corners.len() / 3);
        unsafe { flaxglimmer_gauge_quick(table.as_mut_ptr(), table.len(), rows, count, log.as_mut_ptr(), log.len()) }
    }

    pub fn plain(table: &mut [u32], corners: &[i32], log: &mut [u32]) -> usize {
        let (rows, count) = (table.len() / 3, corners.len() / 3);
        let (xs, length) = (corners.as_ptr(), corners.len());
        unsafe {
            flaxglimmer_gauge_plain(
                table.as_mut_ptr(),
                table.len(),
                rows,
                count,
                xs,
                length,
                log.as_mut_ptr(),
                log.len(),
            )
        }
    }
}

#[derive(Clone, Copy, PartialEq)]
enum Part {
    Call,
    Engine,
    Check,
}

type Run = Box<dyn FnMut(&mut [u32], &[i32], &mut [u32]) -> Result<usize, Refusal>>;

struct Side {
    name: &'static str,
    part: Part,
    slow: bool,
    run: Run,
}

impl Side {
    fn new(
        name: &'static str,
        part: Part,
        run: impl FnMut(&mut [u32], &[i32], &mut [u32]) -> Result<usize, Refusal> + 'static,
    ) -> Side {
        Side { name, part, slow: name.contains("plain"), run: Box::new(run) }
    }
}

fn sides() -> Vec<Side> {
    let (mut whole, mut checked, mut alone) = (Quickest::new(), Quickest::new(), Quickest::new());
    vec![
        Side::new("thin", Part::Call, proved_thin),
        Side::new("thin plain", Part::Call, proved_plain),
        Side::new("same loops", Part::Call, |table, corners, log| finish::call(table, corners, log, &mut Uncounted)),
        Side::new("quickest", Part::Call, move |table, corners, log| {
            finish::room(table, corners, log)?;
            quick::first(table, corners, &mut Uncounted)?;
            Ok(whole.thin(table, corners.len() / 3, log))
        }),
        Side::new("checked quickest", Part::Call, move |table, corners, log| {
            finish::room(table, corners, log)?;
            check::with_coordinates(table, corners, true, &mut Uncounted)?;
            Ok(checked.thin(table, corners.len() / 3, log))
        }),
        Side::new("plain loops", Part::Call, |table, corners, log| {
            thin::thin(table, corners, None, log, &mut Uncounted)
        }),
        #[cfg(gauge_engines)]
        Side::new("quick engine", Part::Engine, |table, corners, log| Ok(gauge::quick(table, corners, log))),
        #[cfg(gauge_engines)]
        Side::new("plain engine", Part::Engine, |table, corners, log| Ok(gauge::plain(table, corners, log))),
        Side::new("same loops alone", Part::Engine, |table, corners, log| {
            Ok(finish::thin(table, corners.len() / 3, log, &mut Uncounted))
        }),
        Side::new("quickest alone", Part::Engine, move |table, corners, log| {
            Ok(alone.thin(table, corners.len() / 3, log))
        }),
        Side::new("plain loops alone", Part::Engine, |table, corners, log| {
            Ok(thin::thin_checked(table, corners, None, log, &mut Uncounted))
        }),
        Side::new("check", Part::Check, |table, corners, _| {
            proved::replay(table, corners.len() / 3, &[]).map_err(crate::refusal)
        }),
        Side::new("check, same loops", Part::Check, |table, corners, _| {
            back::replay(table, corners.len() / 3, &[], &mut Uncounted).map_err(crate::refusal)
        }),
        Side::new("check, quick Rust", Part::Check, |table, corners, _| {
            quick::check(table, corners.len() / 3, &mut Uncounted).map(|()| 0)
        }),
    ]
}

/// The same table by new numbers and in a new order.
fn renewed(rows: &[Row], corners: usize, chance: &mut Chance) -> Vec<u32> {
    let mut names: Vec<u32> = (0..corners as u32).collect();
    chance.shuffle(&mut names);
    let mut rows: Vec<Row> = rows.iter().map(|row| row.map(|corner| names[corner as usize])).collect();
    chance.shuffle(&mut rows);
    rows.concat()
}

/// What a run is to leave: its answer, the table and the log.
type Left = (Result<usize, Refusal>, Vec<u32>, Vec<u32>);

fn log_of(corners: usize) -> Vec<u32> {
    vec![NUMBER; WIDTH * (corners - FEWEST)]
}

/// By the second program's thinning.
fn told(rows: &[Row], corners: usize) -> Left {
    let (staying, records) = step::thin(rows.to_vec(), &[], None);
    let (mut table, mut log) = (staying.concat(), log_of(corners));
    table.resize(3 * rows.len(), 0);
    log[..WIDTH * records.len()].copy_from_slice(records.as_flattened());
    (Ok(records.len()), table, log)
}

/// By the same loops, which are held to the second program.
fn left(table: &[u32], corners: usize, work: &mut Counted) -> Left {
    let (mut table, mut log) = (table.to_vec(), log_of(corners));
    let records = finish::thin(&mut table, corners, &mut log, work);
    (Ok(records), table, log)
}

/// Each side on a table, which must leave what it is to leave; a check leaves everything.
fn compared(sides: &mut [Side], table: &[u32], corners: &[i32], left: &Left) -> usize {
    let log = log_of(corners.len() / 3);
    let kept = (Ok(0), table.to_vec(), log.clone());
    for side in &mut *sides {
        let (mut here, mut mine) = (table.to_vec(), log.clone());
        let answer = (side.run)(&mut here, corners, &mut mine);
        let left = if side.part == Part::Check { &kept } else { left };
        assert!((&answer, &here, &mine) == (&left.0, &left.1, &left.2), "{}: {} rows", side.name, table.len() / 3);
    }
    sides.len()
}

/// How many answers were compared: on the measured skins and on skins of every kind, each also by new numbers and in a new order.
pub fn compare() -> usize {
    let (mut chance, mut sides) = (Chance::new(SEED), sides());
    let mut skins: Vec<Vec<Row>> =
        skins::KINDS.iter().flat_map(|(_, make)| skins::SIZES.map(|rows| make(rows).rows)).collect();
    skins.extend((0..TRIED).map(|_| make::skin(make::size(&mut chance), &mut chance).rows));
    skins.extend((0..TRIED_LARGE).map(|_| make::skin(make::large_size(&mut chance), &mut chance).rows));
    skins.extend([hubs::hub(511, 3), hubs::hub(300, 30), hubs::hub(3, 300)]);
    let mut answers = 0;
    for rows in &skins {
        let count = rows.iter().flatten().max().map_or(0, |&most| most as usize + 1);
        // The corners of an order without a limit count for their number alone.
        let corners: Vec<i32> = (0..3 * count as i32).collect();
        answers += compared(&mut sides, &rows.concat(), &corners, &told(rows, count));
        let again = renewed(rows, count, &mut chance);
        let (again_rows, _) = again.as_chunks::<3>();
        answers += compared(&mut sides, &again, &corners, &told(again_rows, count));
    }
    answers
}

/// A skin to measure on: new tables of it, or its own again and again.
struct Input {
    kind: &'static str,
    skin: Skin,
    new: bool,
}

impl Input {
    fn rows(&self) -> usize {
        self.skin.rows.len()
    }

    fn table(&self, chance: &mut Chance) -> Vec<u32> {
        if self.new {
            renewed(&self.skin.rows, self.skin.corners.len(), chance)
        } else {
            self.skin.table()
        }
    }

    fn tables(&self) -> &'static str {
        if self.new {
            "new"
        } else {
            "one"
        }
    }

    /// One round: for each side the microseconds of its call on each table, or none. Calls are timed one by one, so that one in which the machine
    /// turned to something else stands out by itself.
    fn round(&self, sides: &mut [Side], turn: usize, chance: &mut Chance) -> Vec<Vec<Option<f64>>> {
        let (count, corners) = (self.skin.corners.len(), self.skin.coordinates());
        let many = (ROWS_OF_ROUND / self.rows()).clamp(OF_SLOW, MOST_TABLES);
        let tables: Vec<Vec<u32>> = (0..many).map(|_| self.table(chance)).collect();
        let left: Vec<Left> = tables.iter().map(|table| left(table, count, &mut Counted::default())).collect();
        let mut times = vec![vec![None; many]; sides.len()];
        for step in 0..sides.len() {
            let at = (step + turn) % sides.len();
            let (side, times) = (&mut sides[at], &mut times[at]);
            let every = if side.slow { OF_SLOW } else { 1 };
            let mut lent: Vec<_> = tables.iter().map(|table| (table.clone(), log_of(count))).collect();
            for (i, (table, log)) in lent.iter_mut().enumerate().step_by(every) {
                let start = Instant::now();
                let answer = black_box((side.run)(table, &corners, log));
                times[i] = Some(start.elapsed().as_secs_f64() * 1e6);
                let left = &left[i];
                let same = side.part == Part::Check || (&answer, &*table, &*log) == (&left.0, &left.1, &left.2);
                assert!(same && answer.is_ok(), "{}: the sides differ", side.name);
            }
        }
        times
    }

    /// The work of both engines, by the same loops with counting switched on: a mean over new tables.
    fn print_work(&self) {
        let (mut chance, count, corners) = (Chance::new(SEED), self.skin.corners.len(), self.skin.coordinates());
        let many = if self.new { COUNTED } else { 1 };
        let (mut quick, mut plain, mut records) = (Counted::default(), Counted::default(), 0);
        for _ in 0..many {
            let mut table = self.table(&mut chance);
            let (answer, ..) = left(&table, count, &mut quick);
            records += answer.expect("no side refuses");
            thin::thin_checked(&mut table, &corners, None, &mut log_of(count), &mut plain);
        }
        assert_eq!(quick.renamed, plain.renamed, "the engines take other steps");
        let [records, tries, entries, renamed, plain_tries, plain_entries, passed, slots] = [
            records,
            quick.link_tests,
            quick.ring_entries,
            quick.renamed,
            plain.link_tests,
            plain.ring_entries,
            plain.rows,
            plain.slots,
        ]
        .map(|sum| (sum + many / 2) / many);
        println!(
            "| {} | {} | {} | {records} | {renamed} | {tries} | {entries} | {plain_tries} | {plain_entries} | {passed} | {slots} |",
            self.kind,
            self.rows(),
            self.tables(),
        );
    }
}

/// The trial ring, which is the torus of 128 rows, and the three kinds up to the row limit.
fn inputs() -> Vec<Input> {
    let mut all = vec![];
    for new in [true, false] {
        for (kind, make) in skins::KINDS {
            for rows in skins::SIZES {
                let skin = make(rows);
                let kind = if skin.rows == grid(8, 8) { "Trial ring" } else { kind };
                all.push(Input { kind, skin, new });
            }
        }
    }
    all
}

fn median(mut figures: Vec<f64>) -> f64 {
    figures.sort_unstable_by(f64::total_cmp);
    figures[figures.len() / 2]
}

/// Each side's times on the tables of all rounds.
struct Measured {
    times: Vec<Vec<Option<f64>>>,
    names: Vec<&'static str>,
}

impl Measured {
    fn times(&self, name: &str) -> Option<&[Option<f64>]> {
        let at = self.names.iter().position(|&other| other == name)?;
        Some(&self.times[at])
    }

    fn time(&self, name: &str) -> Option<f64> {
        Some(median(self.times(name)?.iter().flatten().copied().collect()))
    }

    /// The median of the ratios, each of one table.
    fn ratio(&self, name: &str, other: &str) -> Option<f64> {
        let pairs = self.times(name)?.iter().zip(self.times(other)?);
        Some(median(pairs.filter_map(|(time, other)| Some((*time)? / (*other)?)).collect()))
    }
}

fn cell(figure: Option<f64>, digits: usize) -> String {
    figure.map_or(String::new(), |figure| format!("{figure:.digits$}"))
}

/// A column: its head, and the figure of a line, which may ask the line of half the rows.
type Column = (&'static str, usize, fn(&Measured, Option<&Measured>) -> Option<f64>);

const CALLS: [Column; 14] = [
    ("`thin`, µs", 1, |one, _| one.time("thin")),
    ("Same loops, µs", 1, |one, _| one.time("same loops")),
    ("Ratio", 2, |one, _| one.ratio("thin", "same loops")),
    ("Quickest, µs", 1, |one, _| one.time("quickest")),
    ("Ratio to it", 2, |one, _| one.ratio("thin", "quickest")),
    ("Quickest after the same check, µs", 1, |one, _| one.time("checked quickest")),
    ("Ratio to it", 2, |one, _| one.ratio("thin", "checked quickest")),
    ("Growth, `thin`", 2, |one, half| Some(one.time("thin")? / half?.time("thin")?)),
    ("Plain, µs", 1, |one, _| one.time("thin plain")),
    ("Plain loops, µs", 1, |one, _| one.time("plain loops")),
    ("Plain over `thin`", 2, |one, _| one.ratio("thin plain", "thin")),
    ("Check, µs", 1, |one, _| one.time("check")),
    ("Check, same loops, µs", 1, |one, _| one.time("check, same loops")),
    ("Check, quick Rust, µs", 1, |one, _| one.time("check, quick Rust")),
];

const ENGINES: [Column; 12] = [
    ("Quick engine, µs", 1, |one, _| one.time("quick engine")),
    ("Same loops, µs", 1, |one, _| one.time("same loops alone")),
    ("Ratio", 2, |one, _| one.ratio("quick engine", "same loops alone")),
    ("Quickest, µs", 1, |one, _| one.time("quickest alone")),
    ("Ratio to it", 2, |one, _| one.ratio("quick engine", "quickest alone")),
    ("Same loops over quickest", 2, |one, _| one.ratio("same loops alone", "quickest alone")),
    ("Growth, quick", 2, |one, half| Some(one.time("quick engine")? / half?.time("quick engine")?)),
    ("Growth, same loops", 2, |one, half| Some(one.time("same loops alone")? / half?.time("same loops alone")?)),
    ("Growth, quickest", 2, |one, half| Some(one.time("quickest alone")? / half?.time("quickest alone")?)),
    ("Plain engine, µs", 1, |one, _| one.time("plain engine")),
    ("Plain loops, µs", 1, |one, _| one.time("plain loops alone")),
    ("Plain loops over same loops", 2, |one, _| one.ratio("plain loops alone", "same loops alone")),
];

fn print(title: &str, columns: &[Column], inputs: &[Input], all: &[Measured]) {
    let heads: Vec<&str> = columns.iter().map(|(head, ..)| *head).collect();
    println!("\n### {title}\n\n| Skin | Rows | Tables | {} |", heads.join(" | "));
    println!("|---|--:|---|{}", "--:|".repeat(columns.len()));
    for (at, (input, one)) in inputs.iter().zip(all).enumerate() {
        let half =
            at.checked_sub(1).filter(|&before| 2 * inputs[before].rows() == input.rows()).map(|before| &all[before]);
        let cells: Vec<String> = columns.iter().map(|(_, digits, figure)| cell(figure(one, half), *digits)).collect();
        println!("| {} | {} | {} | {} |", input.kind, input.rows(), input.tables(), cells.join(" | "));
    }
}

/// The targets: on new tables of the most rows, and on the trial ring.
fn print_targets(inputs: &[Input], all: &[Measured]) {
    println!("\n### Targets of the quick engine\n\n| What | Target | Measured |\n|---|--:|--:|");
    for (at, (input, one)) in inputs.iter().zip(all).enumerate() {
        let (kind, tables) = (input.kind, input.tables());
        if kind == "Trial ring" || (input.new && input.rows() == MOST_ROWS) {
            for (what, name, other) in [
                ("`thin`", "thin", "quickest"),
                ("`thin`, after the same check,", "thin", "checked quickest"),
                ("the engine by itself", "quick engine", "quickest alone"),
            ] {
                let ratio = cell(one.ratio(name, other), 2);
                println!(
                    "| {what} over the quickest Rust, {kind}, {} rows, tables: {tables} | {RATIO} | {ratio} |",
                    input.rows()
                );
            }
        }
        if input.new && input.rows() == MOST_ROWS {
            let growth = cell(one.time("thin").zip(all[at - 1].time("thin")).map(|(one, half)| one / half), 2);
            println!(
                "| growth of `thin`, {kind}, {} rows from half, tables: {tables} | {GROWTH} | {growth} |",
                input.rows()
            );
        }
    }
}

/// The work of both engines on every input.
pub fn count() {
    println!("\n### Work of the engines\n\n| Skin | Rows | Tables | Records | Rows renamed | Tries, quick | Entries walked, quick | Tries, plain | Entries walked, plain | Rows passed, plain | Slots chained, plain |");
    println!("|---|--:|---|{}", "--:|".repeat(8));
    inputs().iter().for_each(Input::print_work);
}

pub fn time() {
    let (inputs, mut sides) = (inputs(), sides());
    let names: Vec<&'static str> = sides.iter().map(|side| side.name).collect();
    let mut chances: Vec<Chance> = inputs.iter().map(|_| Chance::new(SEED)).collect();
    let mut all: Vec<Measured> =
        inputs.iter().map(|_| Measured { times: vec![vec![]; sides.len()], names: names.clone() }).collect();
    // Inputs take turns too, so that a slow spell of the machine falls on all of them.
    for turn in 0..ROUNDS {
        for ((input, chance), measured) in inputs.iter().zip(&mut chances).zip(&mut all) {
            for (times, more) in measured.times.iter_mut().zip(input.round(&mut sides, turn, chance)) {
                times.extend(more);
            }
        }
    }
    print("Thinning without a limit", &CALLS, &inputs, &all);
    print("The engines by themselves", &ENGINES, &inputs, &all);
    count();
    print_targets(&inputs, &all);
}

/// Runs one side, or none, on so many new tables of a kind and does nothing else, for a program that counts instructions.
pub fn run(name: &str, kind: &str, rows: usize, times: usize) -> Result<(), String> {
    let (_, make) = skins::KINDS.into_iter().find(|(other, _)| *other == kind).ok_or("no such kind")?;
    if !skins::SIZES.contains(&rows) {
        return Err("no such size".into());
    }
    let (mut sides, mut chance) = (sides(), Chance::new(SEED));
    let mut side = sides.iter_mut().find(|side| side.name == name);
    if side.is_none() && name != "none" {
        return Err(format!(
            "the sides are: none, {}",
            sides.iter().map(|side| side.name).collect::<Vec<_>>().join(", ")
        ));
    }
    let input = Input { kind: "", skin: make(rows), new: true };
    let (count, corners) = (input.skin.corners.len(), input.skin.coordinates());
    for _ in 0..times {
        let (mut table, mut log) = (input.table(&mut chance), log_of(count));
        if let Some(side) = &mut side {
            black_box((side.run)(&mut table, &corners, &mut log)).map_err(|refusal| format!("{refusal:?}"))?;
        }
    }
    Ok(())
}
