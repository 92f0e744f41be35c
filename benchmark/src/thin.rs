//! Thinning in ordinary Rust: the least edge that qualifies is contracted, until none is left. The chains are built anew for each step.

use crate::check::{self, next, Chains};
use crate::work::Work;
use apart::skin::{FEWEST, MOST_CORNERS};
use apart::step::WIDTH;
use flaxglimmer::Refusal;

pub const FOUR_ROWS: usize = 3 * FEWEST;
/// How many rows leave in a step.
pub const LEAVE: usize = 2;

/// The neighbours of a corner, put in front of a room.
pub fn gather<'a>(
    table: &[u32],
    chains: &Chains,
    corner: u32,
    room: &'a mut [u32; MOST_CORNERS],
    work: &mut impl Work,
) -> &'a [u32] {
    let mut count = 0;
    for slot in chains.slots(corner as usize) {
        room[count] = table[next(slot)];
        count += 1;
    }
    work.ring_entries(count);
    &room[..count]
}

/// Room for the rings of an edge's two corners, and marks for each that are blank before and after an edge or a corner is asked.
pub struct Scratch {
    pub first: [u32; MOST_CORNERS],
    pub near: [bool; MOST_CORNERS],
    pub second: [u32; MOST_CORNERS],
    pub far: [bool; MOST_CORNERS],
}

impl Scratch {
    pub const EMPTY: Scratch = Scratch {
        first: [0; MOST_CORNERS],
        near: [false; MOST_CORNERS],
        second: [0; MOST_CORNERS],
        far: [false; MOST_CORNERS],
    };
}

/// Marks the numbers of a ring.
pub fn mark(ring: &[u32], marks: &mut [bool; MOST_CORNERS], work: &mut impl Work) {
    for &corner in ring {
        marks[corner as usize] = true;
    }
    work.ring_entries(ring.len());
}

/// Takes the marks of a ring away again.
fn unmark(ring: &[u32], marks: &mut [bool; MOST_CORNERS], work: &mut impl Work) {
    for &corner in ring {
        marks[corner as usize] = false;
    }
    work.ring_entries(ring.len());
}

/// How many numbers of a ring are marked.
fn marked_of(ring: &[u32], marks: &[bool; MOST_CORNERS], work: &mut impl Work) -> usize {
    work.ring_entries(ring.len());
    ring.iter().filter(|&&corner| marks[corner as usize]).count()
}

/// How many numbers stand in both rings: the shorter one is walked, and its numbers are looked up in the marks of the other.
fn common(
    first: &[u32],
    second: &[u32],
    near: &[bool; MOST_CORNERS],
    far: &mut [bool; MOST_CORNERS],
    work: &mut impl Work,
) -> usize {
    if second.len() < first.len() {
        return marked_of(second, near, work);
    }
    mark(second, far, work);
    let shared = marked_of(first, far, work);
    unmark(second, far, work);
    shared
}

/// The link condition of an edge to one of the neighbours that a ring lists: more than four rows, and two common neighbours.
pub fn meets_round(
    table: &[u32],
    chains: &Chains,
    first: &[u32],
    near: &[bool; MOST_CORNERS],
    removed: u32,
    room: &mut [u32; MOST_CORNERS],
    far: &mut [bool; MOST_CORNERS],
    work: &mut impl Work,
) -> bool {
    work.link_test();
    if table.len() <= FOUR_ROWS {
        return false;
    }
    let second = gather(table, chains, removed, room, work);
    common(first, second, near, far, work) == 2
}

/// The link condition of an edge.
pub fn may_contract(
    table: &[u32],
    chains: &Chains,
    kept: u32,
    removed: u32,
    scratch: &mut Scratch,
    work: &mut impl Work,
) -> bool {
    let Scratch { first, near, second, far } = scratch;
    let ring = gather(table, chains, kept, first, work);
    mark(ring, near, work);
    let meets = near[removed as usize] && meets_round(table, chains, ring, near, removed, second, far, work);
    unmark(ring, near, work);
    meets
}

/// The least neighbour above a number: mostly one of the next few that are marked, else by a look through the ring.
fn next_above(ring: &[u32], near: &[bool; MOST_CORNERS], past: u32, work: &mut impl Work) -> Option<u32> {
    let from = past as usize + 1;
    let few = &near[from..MOST_CORNERS.min(from + ring.len())];
    match few.iter().position(|&mark| mark) {
        Some(at) => {
            work.ring_entries(at + 1);
            Some((from + at) as u32)
        }
        None => {
            work.ring_entries(few.len() + ring.len());
            ring.iter().copied().filter(|&corner| corner > past).min()
        }
    }
}

fn squared_distance(corners: &[i32], a: u32, b: u32) -> u64 {
    let gap = |axis: usize| i64::from(corners[3 * a as usize + axis]) - i64::from(corners[3 * b as usize + axis]);
    (0..3).map(|axis| (gap(axis) * gap(axis)) as u64).sum()
}

/// The least edge from a corner upward that qualifies; near marks its ring.
fn least_marked(
    table: &[u32],
    chains: &Chains,
    corners: &[i32],
    most: Option<u64>,
    kept: u32,
    ring: &[u32],
    near: &[bool; MOST_CORNERS],
    second: &mut [u32; MOST_CORNERS],
    far: &mut [bool; MOST_CORNERS],
    work: &mut impl Work,
) -> Option<(u32, u32)> {
    let mut past = kept;
    while let Some(removed) = next_above(ring, near, past, work) {
        let short = most.is_none_or(|most| squared_distance(corners, kept, removed) <= most * most);
        if short && meets_round(table, chains, ring, near, removed, second, far, work) {
            return Some((kept, removed));
        }
        past = removed;
    }
    None
}

/// The least edge that qualifies.
fn least_edge(
    table: &[u32],
    corners: &[i32],
    most: Option<u64>,
    scratch: &mut Scratch,
    work: &mut impl Work,
) -> Option<(u32, u32)> {
    let mut chains = Chains::EMPTY;
    chains.link(table, work);
    let Scratch { first, near, second, far } = scratch;
    for kept in 0..(corners.len() / 3) as u32 {
        let ring = gather(table, &chains, kept, first, work);
        mark(ring, near, work);
        let found = least_marked(table, &chains, corners, most, kept, ring, near, second, far, work);
        unmark(ring, near, work);
        if found.is_some() {
            return found;
        }
    }
    None
}

/// Whether a row holds a corner.
fn holds(row: &[u32], corner: u32) -> bool {
    row[0] == corner || row[1] == corner || row[2] == corner
}

/// The places of the two rows that hold both ends of an edge.
pub fn leaving(table: &[u32], kept: u32, removed: u32, work: &mut impl Work) -> [usize; LEAVE] {
    let mut rows = table.chunks_exact(3);
    let mut place = || rows.position(|row| holds(row, kept) && holds(row, removed)).expect("two rows at an edge");
    let earlier = place();
    let later = earlier + 1 + place();
    work.rows(later + 1);
    [earlier, later]
}

/// The record of contracting an edge.
pub fn record(table: &[u32], kept: u32, removed: u32, work: &mut impl Work) -> [u32; WIDTH] {
    let [i, j] = leaving(table, kept, removed, work);
    let (earlier, later) = (&table[3 * i..3 * i + 3], &table[3 * j..3 * j + 3]);
    [kept, removed, i as u32, earlier[0], earlier[1], earlier[2], j as u32, later[0], later[1], later[2]]
}

/// Contracts an edge in place; the rows that stay move up, and zeros stand behind them.
pub fn contract(table: &mut [u32], kept: u32, removed: u32, work: &mut impl Work) {
    let mut to = 0;
    for from in (0..table.len()).step_by(3) {
        let row = [table[from], table[from + 1], table[from + 2]];
        if holds(&row, kept) && holds(&row, removed) {
            continue;
        }
        for (slot, corner) in row.into_iter().enumerate() {
            table[to + slot] = if corner == removed { kept } else { corner };
        }
        work.renamed(usize::from(holds(&row, removed)));
        to += 3;
    }
    work.rows(table.len() / 3);
    table[to..].fill(0);
}

/// The call: how many records were written.
pub fn thin(
    table: &mut [u32],
    corners: &[i32],
    most: Option<u64>,
    log: &mut [u32],
    work: &mut impl Work,
) -> Result<usize, Refusal> {
    if !check::lists_fit(table, corners) {
        return Err(Refusal::CountsOutside);
    }
    if log.len() < WIDTH * (corners.len() / 3 - FEWEST) {
        return Err(Refusal::RoomShort);
    }
    check::with_coordinates(table, corners, true, work)?;
    Ok(thin_checked(table, corners, most, log, work))
}

/// Thins a table that is checked: how many records were written.
pub fn thin_checked(
    table: &mut [u32],
    corners: &[i32],
    most: Option<u64>,
    log: &mut [u32],
    work: &mut impl Work,
) -> usize {
    let mut scratch = Scratch::EMPTY;
    let (mut end, mut records) = (table.len(), 0);
    while let Some((kept, removed)) = least_edge(&table[..end], corners, most, &mut scratch, work) {
        let written = record(&table[..end], kept, removed, work);
        contract(&mut table[..end], kept, removed, work);
        log[WIDTH * records..][..WIDTH].copy_from_slice(&written);
        end -= 3 * LEAVE;
        records += 1;
    }
    records
}
