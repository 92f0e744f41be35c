//! Hubs: the link test of one edge by itself, between corners of few and of many neighbours. The proved test, which crate `gauge` exports for this
//! alone, stands beside the same loops in ordinary Rust, which mark, and beside ordinary Rust that compares all with all.

use crate::check::{self, Chains};
use crate::thin::{gather, mark, meets_round, Scratch, FOUR_ROWS};
use crate::work::{Counted, Uncounted, Work};
use crate::{measure, Call, Measured};
use apart::make::{tetrahedron, Skin};
use apart::skin::{Row, MOST_CORNERS};
use std::hint::black_box;

/// How many neighbours the kept corner of a hub has, and the removed one.
const KEPT: [usize; 4] = [3, 30, 300, 511];
const REMOVED: [usize; 3] = [3, 30, 300];
const COLUMNS: [&str; 10] = [
    "Neighbours, kept",
    "Neighbours, removed",
    "May be contracted",
    "Entries, by marks",
    "Entries, all with all",
    "Proved, ns",
    "Rust that marks, ns",
    "Ratio",
    "Rust, all with all, ns",
    "Ratio to it",
];
/// The corners whose edge is asked: the kept and the removed one.
const EDGE: (u32, u32) = (0, 1);

mod proved {
    #[link(name = "gauge", kind = "static")]
    extern "C" {
        pub fn flaxglimmer_gauge_link(
            table: *const u32,
            table_length: usize,
            last: *const usize,
            last_length: usize,
            prev: *const usize,
            prev_length: usize,
            first: *const u32,
            first_length: usize,
            near: *const bool,
            near_length: usize,
            removed: u32,
            second: *mut u32,
            second_length: usize,
            far: *mut bool,
            far_length: usize,
        ) -> u8;
    }
}

/// An edge of a stage, ready to be asked: the ring of its kept corner is gathered and marked, as the search has it.
#[derive(Clone)]
struct Asked {
    table: Vec<u32>,
    chains: Chains,
    first: Vec<u32>,
    near: [bool; MOST_CORNERS],
    removed: u32,
    second: [u32; MOST_CORNERS],
    far: [bool; MOST_CORNERS],
}

impl Asked {
    /// The removed corner is a neighbour of the kept one.
    fn new(table: &[u32], kept: u32, removed: u32) -> Asked {
        let (mut chains, Scratch { mut first, mut near, second, far }) = (Chains::EMPTY, Scratch::EMPTY);
        chains.link(table, &mut Uncounted);
        let ring = gather(table, &chains, kept, &mut first, &mut Uncounted).to_vec();
        mark(&ring, &mut near, &mut Uncounted);
        assert!(near[removed as usize], "an edge");
        Asked { table: table.to_vec(), chains, first: ring, near, removed, second, far }
    }

    fn proved(&mut self) -> bool {
        let Asked { table, chains: Chains { last, prev }, first, near, removed, second, far } = self;
        // What the proved test asks holds: the table is a stage that was checked, its chains and the marks are made above, and far is blank.
        let told = unsafe {
            proved::flaxglimmer_gauge_link(
                table.as_ptr(),
                table.len(),
                last.as_ptr(),
                last.len(),
                prev.as_ptr(),
                prev.len(),
                first.as_ptr(),
                first.len(),
                near.as_ptr(),
                near.len(),
                *removed,
                second.as_mut_ptr(),
                second.len(),
                far.as_mut_ptr(),
                far.len(),
            )
        };
        // A bool crosses in its lowest bit.
        told & 1 == 1
    }

    fn marks(&mut self, work: &mut impl Work) -> bool {
        let Asked { table, chains, first, near, removed, second, far } = self;
        meets_round(table, chains, first, near, *removed, second, far, work)
    }

    /// The link condition without marks: every neighbour of one corner is compared with every neighbour of the other.
    fn all_with_all(&mut self, work: &mut impl Work) -> bool {
        if self.table.len() <= FOUR_ROWS {
            return false;
        }
        let second = gather(&self.table, &self.chains, self.removed, &mut self.second, work);
        let mut shared = 0;
        for near in &self.first {
            for far in second {
                shared += usize::from(near == far);
            }
        }
        work.ring_entries(self.first.len() * second.len());
        shared == 2
    }

    /// Whether the sides tell the same, and each leaves its marks as they were.
    fn alike(&mut self) -> bool {
        let (near, far) = (self.near, self.far);
        let sides: [fn(&mut Asked) -> bool; 3] =
            [Asked::proved, |it| it.marks(&mut Uncounted), |it| it.all_with_all(&mut Uncounted)];
        let told = sides.map(|side| (side(self), (self.near, self.far) == (near, far)));
        told.iter().all(|&one| one == (told[0].0, true))
    }
}

/// A sphere on which corner 0 has so many neighbours, and corner 1, one of them, so many. Where the corners suffice two of the latter's neighbours are
/// common to both, so that the edge may be contracted; else nearly all of them are. With three and three there is the tetrahedron alone.
pub fn hub(kept: usize, removed: usize) -> Vec<Row> {
    let more = removed - 3;
    if kept == 3 && more == 0 {
        return tetrahedron();
    }
    let round = |i: usize| 1 + (i % kept) as u32;
    let fresh = |i: usize| (kept + i) as u32;
    let mut rows: Vec<Row> = (0..kept).map(|i| [0, round(i), round(i + 1)]).collect();
    // The ring of corner 1 but for corner 0, from the one corner opposite their edge to the other; and the corner that closes the skin.
    let apart = kept + more + 2 <= MOST_CORNERS;
    let (between, top, from): (Vec<u32>, _, _) = match apart {
        true => ((1..=more).rev().map(fresh).chain([round(1)]).collect(), fresh(more + 1), 1),
        false => ([fresh(1)].into_iter().chain((1..=more).rev().map(round)).collect(), fresh(1), more),
    };
    let path = [&[round(kept - 1)], &between[..]].concat();
    rows.extend(path.windows(2).map(|pair| [1, pair[0], pair[1]]));
    rows.extend(path.windows(2).filter(|_| apart).map(|pair| [top, pair[1], pair[0]]));
    rows.extend((from..kept - 1).map(|i| [top, round(i + 1), round(i)]));
    rows
}

/// A hub's edge, with what is counted of it.
struct Hub {
    asked: Asked,
    kept: usize,
    removed: usize,
    met: bool,
    marks: Counted,
    all: Counted,
}

impl Hub {
    fn new(kept: usize, removed: usize) -> Hub {
        let rows = hub(kept, removed);
        let corners = rows.iter().flatten().max().map_or(0, |&most| most as usize + 1);
        let table = rows.concat();
        check::stage(&table, corners, &mut Uncounted).expect("a hub is a stage");
        let (mut asked, mut marks, mut all) =
            (Asked::new(&table, EDGE.0, EDGE.1), Counted::default(), Counted::default());
        let neighbours = |corner| asked.chains.slots(corner as usize).count();
        assert_eq!((neighbours(EDGE.0), neighbours(EDGE.1)), (kept, removed));
        assert!(asked.alike(), "the sides differ on a hub of {kept} and {removed}");
        let met = asked.marks(&mut marks);
        asked.all_with_all(&mut all);
        Hub { asked, kept, removed, met, marks, all }
    }

    /// All with all stands where other calls have quick Rust.
    fn call(&self) -> Call<'_> {
        let sides = || self.asked.clone();
        let (mut here, mut there, mut beside) = (sides(), sides(), sides());
        let proved = move || {
            black_box(black_box(&mut here).proved());
        };
        let marks = move || {
            black_box(black_box(&mut there).marks(&mut Uncounted));
        };
        let all = move || {
            black_box(black_box(&mut beside).all_with_all(&mut Uncounted));
        };
        Call::new("link test", None, self.marks, proved, marks).with_quick(self.all, all)
    }

    fn print(&self, measured: &Measured) {
        let nanoseconds = measured.times.clone().map(|time| time * 1e3);
        let all = nanoseconds.quick.expect("all with all is timed");
        println!(
            "| {} | {} | {} | {} | {} | {:.1} | {:.1} | {:.2} | {:.1} | {:.2} |",
            self.kept,
            self.removed,
            if self.met { "yes" } else { "no" },
            self.marks.ring_entries,
            self.all.ring_entries,
            nanoseconds.proved,
            nanoseconds.plain,
            measured.ratio(),
            all,
            nanoseconds.proved / all,
        );
    }
}

fn hubs() -> Vec<Hub> {
    KEPT.iter().flat_map(|&kept| REMOVED.map(|removed| Hub::new(kept, removed))).collect()
}

/// How many answers were compared: of the hubs, and of every edge of the measured skins, each way.
pub fn compare(skins: &[Skin]) -> usize {
    let mut compared = hubs().len();
    for skin in skins {
        let table = skin.table();
        for &[a, b, c] in &skin.rows {
            for (kept, removed) in [(a, b), (b, c), (c, a)] {
                assert!(
                    Asked::new(&table, kept, removed).alike(),
                    "{}: the sides differ at {kept}, {removed}",
                    skin.name
                );
                compared += 1;
            }
        }
    }
    compared
}

pub fn time() -> Vec<Measured> {
    let hubs = hubs();
    let measured = measure(hubs.iter().map(|hub| (hub.asked.table.len() / 3, hub.call())).collect());
    println!("\n### Hubs\n\n| {} |\n|{}", COLUMNS.join(" | "), "--:|".repeat(COLUMNS.len()));
    for (hub, measured) in hubs.iter().zip(&measured) {
        hub.print(measured);
    }
    measured
}
