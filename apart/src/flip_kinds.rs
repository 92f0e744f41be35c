//! The kinds of lists and flip logs that a whole run must meet, each told by the call and by what it must answer.

use crate::check::{euler, numbers};
use crate::flip::*;
use crate::protocol::*;
use crate::refusal::{MISSING, NEIGHBOURS, NOT_UNDONE};
use crate::skin::{is_stage, rows_of, table_length_refused, Edges, Row, CORNERS, MOST_ROWS};

/// A long list of edges, and the longest whose log a list over the pipe can hold.
pub const MANY: usize = 300;
pub const LONGEST: usize = LONGEST_LIST / WIDTH;

/// A flip or an undoing as it was asked, and the answer that must come.
struct Asked {
    count: usize,
    rows: Vec<Row>,
    /// Whether the table's length and the count are in their limits.
    counted: bool,
    /// The numbers of the list or of the log.
    numbers: Vec<u32>,
    /// The room for a log; an undoing has none.
    room: usize,
    /// The table that must be left.
    left: Vec<Row>,
    status: Word,
    done: usize,
}

impl Asked {
    fn new(request: &Request, expected: &Response) -> Asked {
        let table = numbers(&request.arguments[1]);
        let count = usize::try_from(request.arguments[0][0] as u64).unwrap_or(usize::MAX);
        Asked {
            count,
            rows: rows_of(&table),
            counted: !table_length_refused(&table) && CORNERS.contains(&count),
            numbers: numbers(&request.arguments[2]),
            room: request.arguments.get(3).map_or(0, Vec::len),
            left: rows_of(&numbers(&expected.lent[0])),
            status: expected.answer[0],
            done: expected.answer[1] as usize,
        }
    }

    fn edges(&self) -> usize {
        self.numbers.len() / 2
    }

    fn records(&self) -> usize {
        self.numbers.len() / WIDTH
    }

    fn uses(&self, corner: u32) -> bool {
        self.rows.iter().flatten().any(|&n| n == corner)
    }

    /// Flips done on a skin of this Euler number.
    fn done_on(&self, number: i64) -> bool {
        self.done > 0 && euler(&self.rows) == number
    }

    /// Corners, where the list was refused by 31 at once.
    fn refused_at_once(&self) -> Option<usize> {
        (self.status == NEIGHBOURS && self.done == 0).then(|| Edges::of(&self.rows).used().len())
    }

    /// The edge that is missing.
    fn missing(&self) -> Option<Edge> {
        (self.status == MISSING).then(|| edges_of(&self.numbers)[self.done])
    }

    /// The record that is not undone; the table left is the one that it was read with.
    fn stopping(&self) -> Option<Record> {
        (self.status == NOT_UNDONE).then(|| records_of(&self.numbers)[self.records() - 1 - self.done])
    }

    /// A record that is not undone would be if it were changed in this way.
    fn undone_if(&self, changed: fn(&mut Record)) -> bool {
        self.stopping().is_some_and(|mut record| {
            changed(&mut record);
            undo_one(&self.left, self.count, &record).is_some()
        })
    }

    /// The table with the rows of the record that is not undone put back at two places in it.
    fn put_back(&self) -> Option<Vec<Row>> {
        self.stopping().filter(|record| record[0] != record[4]).and_then(|record| put_back(&self.left, &record))
    }
}

type Kind = (&'static str, fn(&Asked) -> bool);

const OF_LISTS: [Kind; 26] = [
    ("flips on a sphere", |list| list.done_on(2)),
    ("flips on a torus", |list| list.done_on(0)),
    ("flips on genus 2", |list| list.done_on(-2)),
    ("flips of a stage with unused corners", |list| list.done > 0 && (0..list.count as u32).any(|n| !list.uses(n))),
    ("flips of the most rows", |list| list.done > 0 && list.rows.len() == MOST_ROWS),
    // No other table has four rows or all edges between seven corners.
    ("an edge of T", |list| list.refused_at_once() == Some(4)),
    ("an edge of M", |list| list.refused_at_once() == Some(7) && euler(&list.rows) == 0),
    ("a list of no edge", |list| list.status == 0 && list.edges() == 0),
    ("a list of 300 edges done", |list| list.status == 0 && list.edges() == MANY),
    ("the longest list done", |list| list.status == 0 && list.edges() == LONGEST),
    ("a list too long for any room", |list| list.status == 3 && list.edges() == LONGEST + 1),
    ("a flip from the lower number", |list| list.done > 0 && list.numbers[0] < list.numbers[1]),
    ("a flip from the higher number", |list| list.done > 0 && list.numbers[0] > list.numbers[1]),
    ("some flips before 30", |list| list.done > 0 && list.status == MISSING),
    ("some flips before 31", |list| list.done > 0 && list.status == NEIGHBOURS),
    ("an edge from a corner to itself", |list| list.missing().is_some_and(|[a, b]| a == b && list.uses(a))),
    ("used corners that no edge joins", |list| {
        list.missing().is_some_and(|[a, b]| a != b && list.uses(a) && list.uses(b))
    }),
    ("an edge to an unused corner below the count", |list| {
        list.missing().is_some_and(|edge| edge.iter().any(|&n| (n as usize) < list.count && !list.uses(n)))
    }),
    ("an edge to the corner count", |list| {
        list.missing().is_some_and(|edge| edge.iter().any(|&n| n as usize == list.count))
    }),
    ("an edge with the greatest number", |list| list.missing().is_some_and(|edge| edge.contains(&u32::MAX))),
    ("a list of odd length", |list| list.status == 2 && list.counted),
    ("a corner count outside its limits for flips", |list| list.status == 2 && !CORNERS.contains(&list.count)),
    ("a room one number short of a flip log", |list| list.status == 3 && list.room + 1 == WIDTH * list.edges()),
    ("a room longer than a flip log", |list| list.done > 0 && list.room > WIDTH * list.edges()),
    ("a room longer than the flips done", |list| list.done > 0 && list.done < list.edges()),
    ("a room that no flip writes to", |list| list.status == 0 && list.done == 0 && list.room > 0),
];

const OF_LOGS: [Kind; 18] = [
    ("flips undone on a sphere", |log| log.done_on(2)),
    ("flips undone on a torus", |log| log.done_on(0)),
    ("flips undone on genus 2", |log| log.done_on(-2)),
    ("flips undone on the most rows", |log| log.done > 0 && log.rows.len() == MOST_ROWS),
    ("a flip log of no record", |log| log.status == 0 && log.done == 0),
    ("a flip log of 300 records undone", |log| log.status == 0 && log.done == MANY),
    ("the longest flip log undone", |log| log.status == 0 && log.done == LONGEST),
    ("some records undone before 32", |log| log.status == NOT_UNDONE && log.done > 0),
    ("a flip log of no whole records", |log| log.status == 2 && log.counted),
    ("a corner count outside its limits for undoing", |log| log.status == 2 && !CORNERS.contains(&log.count)),
    ("a place just past the table", |log| {
        log.stopping().is_some_and(|record| [record[0], record[4]].contains(&(log.rows.len() as u32)))
    }),
    ("the greatest number as a place", |log| {
        log.stopping().is_some_and(|record| [record[0], record[4]].contains(&u32::MAX))
    }),
    ("the greatest number in a record's row", |log| {
        log.stopping().is_some_and(|record| [1, 2, 3, 5, 6, 7].iter().any(|&at| record[at] == u32::MAX))
    }),
    ("two rows for one place", |log| {
        log.stopping().is_some_and(|record| record[0] == record[4] && (record[0] as usize) < log.rows.len())
    }),
    ("a record with its two rows exchanged", |log| log.undone_if(|record| record.rotate_left(WIDTH / 2))),
    ("a record with its two places exchanged", |log| log.undone_if(|record| record.swap(0, 4))),
    ("rows put back that are no stage", |log| log.put_back().is_some_and(|back| !is_stage(&back, log.count))),
    ("a stage put back that no flip leads from", |log| log.put_back().is_some_and(|back| is_stage(&back, log.count))),
];

/// The kinds of a call of flips or of their undoing.
fn kinds(call: usize) -> &'static [Kind] {
    match call {
        FLIP => &OF_LISTS,
        UNDO => &OF_LOGS,
        _ => &[],
    }
}

/// The kinds that a call is of.
pub fn of(request: &Request, expected: &Response) -> Vec<&'static str> {
    let kinds = kinds(request.call);
    if kinds.is_empty() {
        return vec![];
    }
    let asked = Asked::new(request, expected);
    kinds.iter().filter(|(_, holds)| holds(&asked)).map(|(name, _)| *name).collect()
}

/// All of them.
pub fn all() -> impl Iterator<Item = &'static str> {
    OF_LISTS.iter().chain(&OF_LOGS).map(|(name, _)| *name)
}
