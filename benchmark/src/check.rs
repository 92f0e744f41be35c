//! The check of a table in ordinary Rust: counts, ranges, each directed edge once and with its reverse, one ring round each corner, connected.

use crate::work::Work;
use apart::skin::{CORNERS, FARTHEST, MOST_CORNERS, MOST_ROWS, ROWS};
use flaxglimmer::Refusal;

pub const SLOTS: usize = 3 * MOST_ROWS;

/// For each corner one more than its last slot, and for each slot the same of the one before it with the same corner; 0 is none.
#[derive(Clone)]
pub struct Chains {
    pub last: [usize; MOST_CORNERS],
    pub prev: [usize; SLOTS],
}

impl Chains {
    pub const EMPTY: Chains = Chains { last: [0; MOST_CORNERS], prev: [0; SLOTS] };

    pub fn link(&mut self, table: &[u32], work: &mut impl Work) {
        for (slot, &corner) in table.iter().enumerate() {
            let last = &mut self.last[corner as usize];
            self.prev[slot] = *last;
            *last = slot + 1;
        }
        work.slots(table.len());
    }

    /// The slots of a corner, the last first.
    pub fn slots(&self, corner: usize) -> impl Iterator<Item = usize> + '_ {
        let some = |link: usize| link.checked_sub(1);
        std::iter::successors(some(self.last[corner]), move |&slot| some(self.prev[slot]))
    }
}

/// The next slot in the same row.
pub fn next(slot: usize) -> usize {
    if slot % 3 == 2 {
        slot - 2
    } else {
        slot + 1
    }
}

/// The reverse of each directed edge, by slots, where there is one and not two.
fn reverses(
    table: &[u32],
    corners: usize,
    chains: &Chains,
    reverse: &mut [usize; SLOTS],
    work: &mut impl Work,
) -> Result<(), Refusal> {
    let mut ends = [0; MOST_CORNERS];
    for corner in 0..corners {
        let found = |end: usize| if end > 0 && table[end - 1] as usize == corner { end } else { 0 };
        for slot in chains.slots(corner) {
            let end = &mut ends[table[next(slot)] as usize];
            if found(*end) != 0 {
                return Err(Refusal::EdgeTwice);
            }
            *end = slot + 1;
        }
        for slot in chains.slots(corner) {
            let from = next(next(slot));
            reverse[from] = found(ends[table[from] as usize]);
        }
    }
    work.slots(3 * table.len());
    for link in &mut reverse[..table.len()] {
        *link = link.checked_sub(1).ok_or(Refusal::ReverseMissing)?;
    }
    Ok(())
}

/// Whether the rows round each corner form one ring.
fn one_ring(table: &[u32], corners: usize, chains: &Chains, reverse: &[usize; SLOTS], work: &mut impl Work) -> bool {
    let mut marked = [false; SLOTS];
    for corner in 0..corners {
        let Some(mut slot) = chains.last[corner].checked_sub(1) else { continue };
        while !marked[slot] {
            marked[slot] = true;
            slot = reverse[next(next(slot))];
        }
    }
    work.slots(2 * table.len());
    marked[..table.len()].iter().all(|&mark| mark)
}

/// Whether any used corner is reached from any other.
fn connected(table: &[u32], chains: &Chains, work: &mut impl Work) -> bool {
    let mut marked = [false; MOST_CORNERS];
    let mut queue = [0; MOST_CORNERS];
    let start = table[0] as usize;
    marked[start] = true;
    queue[0] = start;
    let (mut head, mut length) = (0, 1);
    while head < length {
        for slot in chains.slots(queue[head]) {
            let corner = table[next(slot)] as usize;
            if !marked[corner] {
                marked[corner] = true;
                queue[length] = corner;
                length += 1;
            }
        }
        head += 1;
    }
    work.slots(2 * table.len());
    table.iter().all(|&corner| marked[corner as usize])
}

/// 5 to 11, 9 of first tables alone.
fn rows(table: &[u32], corners: usize, first: bool, work: &mut impl Work) -> Result<(), Refusal> {
    let holds = |sound: bool, refusal| if sound { Ok(()) } else { Err(refusal) };
    work.slots(2 * table.len());
    holds(table.iter().all(|&corner| (corner as usize) < corners), Refusal::NumberNotBelow)?;
    holds((0..table.len()).all(|slot| table[slot] != table[next(slot)]), Refusal::NumberTwice)?;
    let mut chains = Chains::EMPTY;
    chains.link(table, work);
    let mut reverse = [0; SLOTS];
    reverses(table, corners, &chains, &mut reverse, work)?;
    holds(!first || chains.last[..corners].iter().all(|&last| last != 0), Refusal::CornerUnused)?;
    holds(one_ring(table, corners, &chains, &reverse, work), Refusal::RingsMany)?;
    holds(connected(table, &chains, work), Refusal::NotConnected)
}

pub fn counts_fit(table: &[u32], corners: usize) -> bool {
    table.len().is_multiple_of(3) && ROWS.contains(&(table.len() / 3)) && CORNERS.contains(&corners)
}

/// Likewise with the coordinates themselves.
pub fn lists_fit(table: &[u32], corners: &[i32]) -> bool {
    corners.len().is_multiple_of(3) && counts_fit(table, corners.len() / 3)
}

/// A stage's table with a told corner count.
pub fn stage(table: &[u32], corners: usize, work: &mut impl Work) -> Result<(), Refusal> {
    if !counts_fit(table, corners) {
        return Err(Refusal::CountsOutside);
    }
    rows(table, corners, false, work)
}

/// A table with its coordinates, as a first one or as a stage.
pub fn with_coordinates(table: &[u32], corners: &[i32], first: bool, work: &mut impl Work) -> Result<(), Refusal> {
    if !lists_fit(table, corners) {
        return Err(Refusal::CountsOutside);
    }
    work.slots(corners.len());
    if !corners.iter().all(|x| (-FARTHEST..=FARTHEST).contains(x)) {
        return Err(Refusal::CoordinateOutOfRange);
    }
    rows(table, corners.len() / 3, first, work)
}
