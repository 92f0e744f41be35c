//! Diagonals turned by the hundred: flips and their undoing on every side, on the measured skins and on a hub. Each run takes the next of many lists,
//! since a processor learns one list by heart, and starts from a new table and a new log. What it leaves is compared, number for number, in the
//! timed runs too.

use crate::flips::{self, Kept, Looked};
use crate::work::{Counted, Uncounted};
use crate::{hubs, measure, skins, Call, Measured, Sides};
use apart::chance::Chance;
use apart::flip::flip_all;
use apart::flips::allowed;
use apart::make::Skin;
use apart::skin::{Row, MOST_ROWS};
use flaxglimmer as proved;
use flaxglimmer::{Refusal, Unfinished, Unflipped};
use std::rc::Rc;

const SEED: u64 = 17;
/// How many lists there are for a skin, how many edges each has, and how many rows the skins.
const LISTS: usize = 32;
const FLIPS: usize = 100;
const SIZES: [usize; 2] = [128, MOST_ROWS];
/// How many neighbours the one corner of a hub has at first, and the other, one of them.
const HUB: (usize, usize) = (511, 3);
/// What stands in a lent log before a call: no record has the number.
const NUMBER: u32 = 7_777_777;
const COLUMNS: [&str; 13] = [
    "Skin",
    "Rows",
    "Call",
    "Proved, µs",
    "Rust, chains kept, µs",
    "Ratio",
    "Rust that looks, µs",
    "Ratio to it",
    "A flip, proved, ns",
    "A flip, chains kept, ns",
    "A flip, looks, ns",
    "Slots a flip, chains kept",
    "Slots a flip, looks",
];
/// None and a hundred, flipped and undone.
const CALLS: usize = 4;

/// A table with a list of edges, and how much room is lent for the log.
pub struct Flipping {
    pub corners: usize,
    pub table: Rc<[u32]>,
    pub edges: Vec<u32>,
    pub room: usize,
}

type Flip = fn(&mut [u32], usize, &[u32], &mut [u32]) -> Result<usize, Unflipped>;
/// An answer, and the table and the log that it goes with.
type Flipped = (Result<usize, Unflipped>, Vec<u32>, Vec<u32>);

impl Flipping {
    fn fresh(&self) -> (Vec<u32>, Vec<u32>) {
        (self.table.to_vec(), vec![NUMBER; self.room])
    }

    fn kept(&self, work: &mut Counted) -> Flipped {
        let (mut table, mut log) = self.fresh();
        (flips::flip_list::<Kept>(&mut table, self.corners, &self.edges, &mut log, work), table, log)
    }

    fn looked(&self, work: &mut Counted) -> Flipped {
        let (mut table, mut log) = self.fresh();
        (flips::flip_list::<Looked>(&mut table, self.corners, &self.edges, &mut log, work), table, log)
    }

    fn refused(unflipped: Unflipped) -> Refusal {
        match unflipped {
            Unflipped::Missing(_) => Refusal::EdgeMissing,
            Unflipped::Blocked(_) => Refusal::EdgeBlocked,
            Unflipped::Refused(refusal) => refusal,
        }
    }

    /// A side's run, on the next list each time, which must leave what the others do; each list is run once at once.
    fn run<'a>(name: &'static str, all: &'a [Flipping], left: Rc<[Flipped]>, side: Flip) -> impl FnMut() + 'a {
        let ((mut table, mut log), mut next) = (all[0].fresh(), 0);
        let mut run = move || {
            let (one, (answer, rows, records)) = (&all[next], &left[next]);
            next = (next + 1) % all.len();
            table.copy_from_slice(&one.table);
            log.fill(NUMBER);
            let told = side(&mut table, one.corners, &one.edges, &mut log);
            assert!((&told, &table, &log) == (answer, rows, records), "{name}: the sides differ");
        };
        all.iter().for_each(|_| run());
        run
    }

    /// The call on tables of one size with rooms of one length.
    pub fn call<'a>(name: &'static str, all: &'a [Flipping]) -> Call<'a> {
        let (mut work, mut looks) = (Counted::default(), Counted::default());
        let left: Rc<[Flipped]> = all.iter().map(|one| one.kept(&mut work)).collect();
        let looked: Rc<[Flipped]> = all.iter().map(|one| one.looked(&mut looks)).collect();
        assert!(looked == left, "{name}: the two ways differ");
        let refused = left.iter().find_map(|flipped| flipped.0.err()).map(Flipping::refused);
        let kept: Flip =
            |table, corners, edges, log| flips::flip_list::<Kept>(table, corners, edges, log, &mut Uncounted);
        let looked: Flip =
            |table, corners, edges, log| flips::flip_list::<Looked>(table, corners, edges, log, &mut Uncounted);
        let side = |side| Flipping::run(name, all, left.clone(), side);
        Call::new(name, refused, work, side(proved::flip_list), side(kept)).with_quick(looks, side(looked))
    }
}

/// A table with a flip log.
pub struct Undoing {
    pub corners: usize,
    pub table: Rc<[u32]>,
    pub log: Vec<u32>,
}

type Undo = fn(&mut [u32], usize, &[u32]) -> Result<usize, Unfinished>;
/// An answer, and the table that it goes with.
type Undone = (Result<usize, Unfinished>, Vec<u32>);

impl Undoing {
    fn kept(&self, work: &mut Counted) -> Undone {
        let mut table = self.table.to_vec();
        (flips::undo_flips::<Kept>(&mut table, self.corners, &self.log, work), table)
    }

    fn looked(&self, work: &mut Counted) -> Undone {
        let mut table = self.table.to_vec();
        (flips::undo_flips::<Looked>(&mut table, self.corners, &self.log, work), table)
    }

    fn refused(unfinished: Unfinished) -> Refusal {
        match unfinished {
            Unfinished::Stopped(_) => Refusal::UndoFails,
            Unfinished::Refused(refusal) => refusal,
        }
    }

    /// As for flips.
    fn run<'a>(name: &'static str, all: &'a [Undoing], left: Rc<[Undone]>, side: Undo) -> impl FnMut() + 'a {
        let (mut table, mut next) = (all[0].table.to_vec(), 0);
        let mut run = move || {
            let (one, (answer, rows)) = (&all[next], &left[next]);
            next = (next + 1) % all.len();
            table.copy_from_slice(&one.table);
            let told = side(&mut table, one.corners, &one.log);
            assert!((&told, &table) == (answer, rows), "{name}: the sides differ");
        };
        all.iter().for_each(|_| run());
        run
    }

    /// The call on tables of one size.
    pub fn call<'a>(name: &'static str, all: &'a [Undoing]) -> Call<'a> {
        let (mut work, mut looks) = (Counted::default(), Counted::default());
        let left: Rc<[Undone]> = all.iter().map(|one| one.kept(&mut work)).collect();
        let looked: Rc<[Undone]> = all.iter().map(|one| one.looked(&mut looks)).collect();
        assert!(looked == left, "{name}: the two ways differ");
        let refused = left.iter().find_map(|undone| undone.0.err()).map(Undoing::refused);
        let kept: Undo = |table, corners, log| flips::undo_flips::<Kept>(table, corners, log, &mut Uncounted);
        let looked: Undo = |table, corners, log| flips::undo_flips::<Looked>(table, corners, log, &mut Uncounted);
        let side = |side| Undoing::run(name, all, left.clone(), side);
        Call::new(name, refused, work, side(proved::undo_flips), side(kept)).with_quick(looks, side(looked))
    }
}

/// A stage with lists of edges, and what their flips leave with the logs; and the same tables with nothing to do.
struct Turned {
    skin: &'static str,
    none: Vec<Flipping>,
    flipping: Vec<Flipping>,
    nothing: Vec<Undoing>,
    undoing: Vec<Undoing>,
}

impl Turned {
    fn of(skin: &'static str, rows: &[Row], corners: usize) -> Turned {
        let mut turned = Turned { skin, none: vec![], flipping: vec![], nothing: vec![], undoing: vec![] };
        let (table, chance): (Rc<[u32]>, _) = (rows.concat().into(), &mut Chance::new(SEED));
        for _ in 0..LISTS {
            turned.add(rows, &table, corners, chance);
        }
        turned
    }

    /// Adds a list of edges whose flips are allowed one after the other; what is left and the log are told by the second program.
    fn add(&mut self, rows: &[Row], table: &Rc<[u32]>, corners: usize, chance: &mut Chance) {
        let edges = allowed(rows, FLIPS, chance);
        assert_eq!(edges.len(), FLIPS, "{}: edges that can be flipped", self.skin);
        let told = flip_all(rows.to_vec(), &edges);
        let (left, log) = (told.rows.concat(), told.log.concat());
        let flipping = |edges| Flipping { corners, table: table.clone(), edges, room: log.len() };
        let (none, flipping) = (flipping(vec![]), flipping(edges.concat()));
        let flipped = flipping.kept(&mut Counted::default());
        assert!(flipped == (Ok(FLIPS), left.clone(), log.clone()), "{}: other flips", self.skin);
        let left: Rc<[u32]> = left.into();
        let undoing = |log| Undoing { corners, table: left.clone(), log };
        let (nothing, undoing) = (undoing(vec![]), undoing(log));
        let undone = undoing.kept(&mut Counted::default());
        assert!(undone == (Ok(FLIPS), table.to_vec()), "{}: undoing does not restore the table", self.skin);
        self.none.push(none);
        self.flipping.push(flipping);
        self.nothing.push(nothing);
        self.undoing.push(undoing);
    }

    /// None is refused.
    fn calls(&self) -> [Call<'_>; CALLS] {
        let flips = [("flip none", &self.none), ("flip 100", &self.flipping)];
        let undoings = [("undo none", &self.nothing), ("undo 100", &self.undoing)];
        let [none, flip] = flips.map(|(name, all)| Flipping::call(name, all));
        let [nothing, undo] = undoings.map(|(name, all)| Undoing::call(name, all));
        let calls = [none, flip, nothing, undo];
        for call in &calls {
            assert_eq!(call.refused, None, "{}", call.name);
        }
        calls
    }

    /// A line's figures that every call has.
    fn print_times(&self, one: &Measured) {
        let Measured { rows, call, times, .. } = one;
        let looks = times.quick.expect("looks are timed");
        print!("| {} | {rows} | {call} | {:.1} | {:.1} ", self.skin, times.proved, times.plain);
        print!("| {:.2} | {looks:.1} | {:.2} ", one.ratio(), times.proved / looks);
    }

    /// A call with nothing to do and the same with a hundred flips. One flip's time is what they take more, by the least samples: a difference of
    /// medians would show each slow spell of the machine.
    fn print(&self, none: &Measured, all: &Measured) {
        let each = |time: fn(&Sides<f64>) -> f64| (time(&all.least) - time(&none.least)) * 1e3 / FLIPS as f64;
        let slots = |of: fn(&Measured) -> usize| (of(all) - of(none)) as f64 / (LISTS * FLIPS) as f64;
        let looks = each(|times| times.quick.unwrap_or(0.0));
        self.print_times(none);
        println!("|  |  |  |  |  |");
        self.print_times(all);
        print!("| {:.0} | {:.0} | {looks:.0} ", each(|times| times.proved), each(|times| times.plain));
        println!("| {:.0} | {:.0} |", slots(|of| of.work.slots), slots(|of| of.quick_slots.unwrap_or(0)));
    }
}

/// Each kind of skin at each size, and a hub.
fn all() -> Vec<Turned> {
    let skin = |(kind, make): (&'static str, fn(usize) -> Skin), rows| {
        let skin = make(rows);
        Turned::of(kind, &skin.rows, skin.corners.len())
    };
    let mut all: Vec<Turned> = skins::KINDS.iter().flat_map(|&kind| SIZES.map(|rows| skin(kind, rows))).collect();
    let hub = hubs::hub(HUB.0, HUB.1);
    all.push(Turned::of("Hub", &hub, hub.len() / 2 + 2));
    all
}

/// How many answers were compared.
pub fn compare() -> usize {
    all().iter().map(|turned| LISTS * turned.calls().len()).sum()
}

pub fn time() -> Vec<Measured> {
    let all = all();
    let rows = |turned: &Turned| turned.flipping[0].table.len() / 3;
    let measured = measure(all.iter().flat_map(|turned| turned.calls().map(|call| (rows(turned), call))).collect());
    let right = "--:|".repeat(COLUMNS.len() - 3);
    println!("\n### Flips\n\n| {} |\n|---|--:|---|{right}", COLUMNS.join(" | "));
    for (turned, measured) in all.iter().zip(measured.chunks(CALLS)) {
        for pair in measured.chunks(2) {
            turned.print(&pair[0], &pair[1]);
        }
    }
    measured
}
