//! Flips and their undoing in ordinary Rust, in two ways: over chains of slots that are made once and kept through the flips, as the proved calls
//! have them, and by a look through the table for each edge.

use crate::back::third;
use crate::check::{self, next, Chains};
use crate::work::Work;
use apart::skin::MOST_CORNERS;
use flaxglimmer::Refusal::{CountsOutside, RoomShort};
use flaxglimmer::{Unfinished, Unflipped, FLIP_WIDTH};

/// Numbers an edge of a list.
pub const EDGE: usize = 2;

/// A stage's table that is flipped. The two ways differ in how an edge is found and in what writing a row costs.
pub trait Flipped<'a> {
    fn of(table: &'a mut [u32], work: &mut impl Work) -> Self;
    fn table(&self) -> &[u32];
    /// The slot of a directed edge.
    fn slot_of(&self, from: u32, to: u32, work: &mut impl Work) -> Option<usize>;
    fn put_row(&mut self, place: usize, row: [u32; 3], work: &mut impl Work);
}

/// With its chains.
pub struct Kept<'a> {
    table: &'a mut [u32],
    chains: Chains,
}

impl Kept<'_> {
    /// Which of a corner's slots is the next above a slot in its chain, as a link.
    fn above(&self, corner: usize, slot: usize, work: &mut impl Work) -> usize {
        let (mut above, mut link) = (0, self.chains.last[corner]);
        while slot + 1 < link {
            work.slots(1);
            above = link;
            link = self.chains.prev[link - 1];
        }
        above
    }

    /// What hangs on a link of a corner's chain, whose head is 0.
    fn hanging(&mut self, corner: usize, above: usize) -> &mut usize {
        match above {
            0 => &mut self.chains.last[corner],
            link => &mut self.chains.prev[link - 1],
        }
    }

    /// Writes a number: its slot is taken out of the one chain and put into the other.
    fn set_slot(&mut self, slot: usize, number: u32, work: &mut impl Work) {
        let (from, to) = (self.table[slot] as usize, number as usize);
        work.slots(1);
        if from == to {
            return;
        }
        let (x, y) = (self.above(from, slot, work), self.above(to, slot, work));
        *self.hanging(from, x) = self.chains.prev[slot];
        self.chains.prev[slot] = std::mem::replace(self.hanging(to, y), slot + 1);
        self.table[slot] = number;
    }
}

impl<'a> Flipped<'a> for Kept<'a> {
    fn of(table: &'a mut [u32], work: &mut impl Work) -> Kept<'a> {
        let mut kept = Kept { table, chains: Chains::EMPTY };
        kept.chains.link(kept.table, work);
        kept
    }

    fn table(&self) -> &[u32] {
        self.table
    }

    fn slot_of(&self, from: u32, to: u32, work: &mut impl Work) -> Option<usize> {
        if from as usize >= MOST_CORNERS {
            return None;
        }
        self.chains.slots(from as usize).find(|&slot| {
            work.slots(1);
            self.table[next(slot)] == to
        })
    }

    fn put_row(&mut self, place: usize, row: [u32; 3], work: &mut impl Work) {
        for (at, number) in row.into_iter().enumerate() {
            self.set_slot(3 * place + at, number, work);
        }
    }
}

/// With nothing beside it.
pub struct Looked<'a> {
    table: &'a mut [u32],
}

impl<'a> Flipped<'a> for Looked<'a> {
    fn of(table: &'a mut [u32], _: &mut impl Work) -> Looked<'a> {
        Looked { table }
    }

    fn table(&self) -> &[u32] {
        self.table
    }

    fn slot_of(&self, from: u32, to: u32, work: &mut impl Work) -> Option<usize> {
        let found = (0..self.table.len()).find(|&slot| self.table[slot] == from && self.table[next(slot)] == to);
        work.slots(found.map_or(self.table.len(), |slot| slot + 1));
        found
    }

    fn put_row(&mut self, place: usize, row: [u32; 3], work: &mut impl Work) {
        self.table[3 * place..][..3].copy_from_slice(&row);
        work.slots(3);
    }
}

/// Flips one edge where that is allowed: its record, or what tells why not.
fn flip<'a>(
    flipped: &mut impl Flipped<'a>,
    a: u32,
    b: u32,
    work: &mut impl Work,
) -> Result<[u32; FLIP_WIDTH], fn(usize) -> Unflipped> {
    let first = flipped.slot_of(a, b, work).ok_or(Unflipped::Missing as fn(usize) -> Unflipped)?;
    let second = flipped.slot_of(b, a, work).expect("the reverse of an edge of a stage");
    let table = flipped.table();
    let (c, d) = (table[next(next(first))], table[next(next(second))]);
    if flipped.slot_of(c, d, work).is_some() {
        return Err(Unflipped::Blocked);
    }
    let (p, q) = (first / 3, second / 3);
    let (one, other) = (&table[3 * p..][..3], &table[3 * q..][..3]);
    let record = [p as u32, one[0], one[1], one[2], q as u32, other[0], other[1], other[2]];
    flipped.put_row(q, [c, d, b], work);
    flipped.put_row(p, [c, a, d], work);
    Ok(record)
}

/// The call: listed edges flipped in order, up to the first that is refused.
pub fn flip_list<'a, F: Flipped<'a>>(
    table: &'a mut [u32],
    corners: usize,
    edges: &[u32],
    log: &mut [u32],
    work: &mut impl Work,
) -> Result<usize, Unflipped> {
    if !check::counts_fit(table, corners) || !edges.len().is_multiple_of(EDGE) {
        return Err(Unflipped::Refused(CountsOutside));
    }
    if log.len() / FLIP_WIDTH < edges.len() / EDGE {
        return Err(Unflipped::Refused(RoomShort));
    }
    check::stage(table, corners, work).map_err(Unflipped::Refused)?;
    let mut flipped = F::of(table, work);
    for (done, (edge, record)) in edges.chunks_exact(EDGE).zip(log.chunks_exact_mut(FLIP_WIDTH)).enumerate() {
        let written = flip(&mut flipped, edge[0], edge[1], work).map_err(|stopped| stopped(done))?;
        record.copy_from_slice(&written);
    }
    Ok(edges.len() / EDGE)
}

/// Undoes a record where it is undone: its rows are those that the flip of an edge left, and that edge is not there.
fn undo<'a>(flipped: &mut impl Flipped<'a>, record: &[u32], work: &mut impl Work) -> Option<()> {
    let (p, first, q, second) = (record[0] as usize, &record[1..4], record[4] as usize, &record[5..8]);
    let row = |place: usize| flipped.table().as_chunks::<3>().0.get(place).copied();
    work.slots(6);
    let ([c, a, d], [e, f, b]) = (row(p)?, row(q)?);
    let wrote = (c, d) == (e, f) && third(first, a, b) == Some(c) && third(second, b, a) == Some(d);
    if !wrote || flipped.slot_of(a, b, work).is_some() {
        return None;
    }
    flipped.put_row(q, [second[0], second[1], second[2]], work);
    flipped.put_row(p, [first[0], first[1], first[2]], work);
    Some(())
}

/// The call: the flips of a log undone, the last record first.
pub fn undo_flips<'a, F: Flipped<'a>>(
    table: &'a mut [u32],
    corners: usize,
    log: &[u32],
    work: &mut impl Work,
) -> Result<usize, Unfinished> {
    if !check::counts_fit(table, corners) || !log.len().is_multiple_of(FLIP_WIDTH) {
        return Err(Unfinished::Refused(CountsOutside));
    }
    check::stage(table, corners, work).map_err(Unfinished::Refused)?;
    let mut flipped = F::of(table, work);
    for (done, record) in log.chunks_exact(FLIP_WIDTH).rev().enumerate() {
        undo(&mut flipped, record, work).ok_or(Unfinished::Stopped(done))?;
    }
    Ok(log.len() / FLIP_WIDTH)
}
