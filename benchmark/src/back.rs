//! Growing back and replay in ordinary Rust.

use crate::check::{self, next, Chains};
use crate::thin::{contract, may_contract, record, Scratch, LEAVE};
use crate::work::Work;
use apart::skin::{CORNERS, FEWEST, MOST_CORNERS, MOST_ROWS, ROWS};
use apart::step::{EARLIER, LATER, WIDTH};
use flaxglimmer::Refusal::{CountsOutside, RoomShort};
use flaxglimmer::Unfinished::{self, Refused, Stopped};

/// The third corner of a row that has the directed edge.
pub fn third(row: &[u32], from: u32, to: u32) -> Option<u32> {
    (0..3).find(|&k| row[k] == from && row[(k + 1) % 3] == to).map(|k| row[(k + 2) % 3])
}

/// x and y of a record: the third corners of its rows, either of which may be the earlier.
fn ends(record: &[u32]) -> Option<(u32, u32)> {
    let (kept, removed, earlier, later) = (record[0], record[1], &record[EARLIER][1..], &record[LATER][1..]);
    let pair = |one: &[u32], other: &[u32]| Some((third(one, kept, removed)?, third(other, removed, kept)?));
    pair(earlier, later).or_else(|| pair(later, earlier))
}

/// Puts a row in at its place, among so many rows.
fn put_row(room: &mut [u32], rows: usize, placed: &[u32], work: &mut impl Work) {
    let at = 3 * placed[0] as usize;
    room.copy_within(at..3 * rows, at + 3);
    room[at..at + 3].copy_from_slice(&placed[1..]);
    work.rows(rows - placed[0] as usize);
}

/// Grows one record back where it is accepted.
fn grow(room: &mut [u32], rows: usize, corners: usize, record: &[u32], work: &mut impl Work) -> Option<()> {
    let (table, kept, removed) = (&mut room[..3 * rows], record[0], record[1]);
    let mut round = [0; MOST_CORNERS];
    for slot in 0..table.len() {
        if table[slot] == kept {
            round[table[next(slot)] as usize] = slot + 1;
        }
    }
    work.slots(2 * table.len());
    let (earlier, later, grown) = (record[EARLIER.start] as usize, record[LATER.start] as usize, rows + LEAVE);
    let sound =
        kept < removed && (removed as usize) < corners && earlier < later && later < grown && grown <= MOST_ROWS;
    if !sound || table.contains(&removed) {
        return None;
    }
    let (x, y) = ends(record)?;
    let near = |corner: u32| round.get(corner as usize).is_some_and(|&link| link != 0);
    if x == y || !near(x) || !near(y) {
        return None;
    }
    let mut corner = y;
    while corner != x {
        let slot = round[corner as usize] - 1;
        table[slot] = removed;
        corner = table[next(next(slot))];
        work.ring_entries(1);
    }
    put_row(room, rows, &record[EARLIER], work);
    put_row(room, rows + 1, &record[LATER], work);
    Some(())
}

/// The call: the log's records undone on the rows that stand in front of a room, the last first.
pub fn grow_back(
    room: &mut [u32],
    rows: usize,
    corners: usize,
    log: &[u32],
    work: &mut impl Work,
) -> Result<usize, Unfinished> {
    let records = log.len() / WIDTH;
    let counts = ROWS.contains(&rows) && CORNERS.contains(&corners) && log.len().is_multiple_of(WIDTH);
    if !counts || rows + LEAVE * records > MOST_ROWS {
        return Err(Refused(CountsOutside));
    }
    if room.len() < 3 * (rows + LEAVE * records) {
        return Err(Refused(RoomShort));
    }
    check::stage(&room[..3 * rows], corners, work).map_err(Refused)?;
    for (done, record) in log.chunks_exact(WIDTH).rev().enumerate() {
        grow(room, rows + LEAVE * done, corners, record, work).ok_or(Stopped(done))?;
    }
    Ok(records)
}

/// Whether a record's step may be done on a stage, and writes this record.
fn accepts(table: &[u32], corners: usize, wanted: &[u32], scratch: &mut Scratch, work: &mut impl Work) -> bool {
    let (kept, removed) = (wanted[0], wanted[1]);
    if removed <= kept || corners <= removed as usize {
        return false;
    }
    let mut chains = Chains::EMPTY;
    chains.link(table, work);
    may_contract(table, &chains, kept, removed, scratch, work) && record(table, kept, removed, work) == wanted
}

/// The call: the log's records done again, the first first.
pub fn replay(table: &mut [u32], corners: usize, log: &[u32], work: &mut impl Work) -> Result<usize, Unfinished> {
    let records = log.len() / WIDTH;
    if !check::counts_fit(table, corners)
        || !log.len().is_multiple_of(WIDTH)
        || table.len() / 3 < FEWEST + LEAVE * records
    {
        return Err(Refused(CountsOutside));
    }
    check::stage(table, corners, work).map_err(Refused)?;
    let (mut end, mut scratch) = (table.len(), Scratch::EMPTY);
    for (done, wanted) in log.chunks_exact(WIDTH).enumerate() {
        if !accepts(&table[..end], corners, wanted, &mut scratch, work) {
            return Err(Stopped(done));
        }
        // The step tells its record once more, as the proved one does.
        std::hint::black_box(record(&table[..end], wanted[0], wanted[1], work));
        contract(&mut table[..end], wanted[0], wanted[1], work);
        end -= 3 * LEAVE;
    }
    Ok(records)
}
