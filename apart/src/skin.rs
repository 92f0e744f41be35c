//! Skins and stages as 01 words them, and the questions behind refusals 2 and 4 to 11, each asked apart.

use std::collections::BTreeSet;
use std::ops::RangeInclusive;
use std::rc::Rc;

pub type Row = [u32; 3];
pub type Corner = [i32; 3];

/// The library's limits; a sheet has its own. The fewest rows are also the fewest corners.
pub const FEWEST: usize = 4;
pub const MOST_ROWS: usize = 1_024;
pub const MOST_CORNERS: usize = 514;
/// How far a coordinate may lie from zero.
pub const FARTHEST: i32 = 50_000;
pub const ROWS: RangeInclusive<usize> = FEWEST..=MOST_ROWS;
pub const CORNERS: RangeInclusive<usize> = FEWEST..=MOST_CORNERS;

/// A first table uses every corner; a stage need not.
#[derive(Clone, Copy, PartialEq)]
pub enum Table {
    First,
    Stage,
}

/// A line of the refusal table: its number, and whether it holds. Every question can be asked of every table.
pub type Question<'a> = (i64, Box<dyn Fn() -> bool + 'a>);

/// "The first that holds is the answer."
pub fn first_that_holds(questions: &[Question]) -> Option<i64> {
    questions.iter().find(|(_, holds)| holds()).map(|(number, _)| *number)
}

pub fn rows_of(table: &[u32]) -> Vec<Row> {
    table.chunks_exact(3).map(|n| [n[0], n[1], n[2]]).collect()
}

pub fn corners_of(coordinates: &[i32]) -> Vec<Corner> {
    coordinates.chunks_exact(3).map(|n| [n[0], n[1], n[2]]).collect()
}

pub fn table_length_refused(table: &[u32]) -> bool {
    !table.len().is_multiple_of(3) || !ROWS.contains(&(table.len() / 3))
}

pub fn corner_length_refused(coordinates: &[i32]) -> bool {
    !coordinates.len().is_multiple_of(3) || !CORNERS.contains(&(coordinates.len() / 3))
}

pub fn coordinate_refused(coordinates: &[i32]) -> bool {
    coordinates.iter().any(|n| !(-FARTHEST..=FARTHEST).contains(n))
}

/// The directed edges of a table, each with the third corner of its row, sorted.
/// An entry (a, p, q) is a row turned so that a stands first: q follows p round a.
pub struct Edges(Vec<Row>);

impl Edges {
    pub fn of(rows: &[Row]) -> Edges {
        let turnings = |&[a, b, c]: &Row| [[a, b, c], [b, c, a], [c, a, b]];
        let mut edges: Vec<Row> = rows.iter().flat_map(turnings).collect();
        edges.sort_unstable();
        Edges(edges)
    }

    /// The rows round a corner, turned so that it stands first.
    pub fn round(&self, corner: u32) -> &[Row] {
        let start = self.0.partition_point(|e| e[0] < corner);
        let end = self.0.partition_point(|e| e[0] <= corner);
        &self.0[start..end]
    }

    /// The third corner of the row with this directed edge.
    pub fn third(&self, from: u32, to: u32) -> Option<u32> {
        let at = self.0.partition_point(|e| (e[0], e[1]) < (from, to));
        self.0.get(at).filter(|e| (e[0], e[1]) == (from, to)).map(|e| e[2])
    }

    pub fn used(&self) -> BTreeSet<u32> {
        self.0.iter().map(|e| e[0]).collect()
    }

    fn edge_twice(&self) -> bool {
        self.0.windows(2).any(|pair| pair[0][..2] == pair[1][..2])
    }

    fn reverse_missing(&self) -> bool {
        self.0.iter().any(|e| self.third(e[1], e[0]).is_none())
    }

    /// Following from one neighbour visits all of them before it returns.
    fn one_ring(&self, corner: u32) -> bool {
        let neighbours = self.round(corner).len();
        let start = self.round(corner)[0][1];
        let mut visited = 1;
        let mut at = self.third(corner, start);
        while at.is_some_and(|p| p != start) && visited <= neighbours {
            visited += 1;
            at = at.and_then(|p| self.third(corner, p));
        }
        visited == neighbours
    }

    pub fn reached_from(&self, start: u32) -> BTreeSet<u32> {
        let mut reached = BTreeSet::from([start]);
        let mut waiting = vec![start];
        while let Some(corner) = waiting.pop() {
            let fresh = self.round(corner).iter().map(|e| e[1]).filter(|&p| reached.insert(p));
            waiting.extend(fresh);
        }
        reached
    }

    fn connected(&self) -> bool {
        let used = self.used();
        used.first().is_none_or(|&corner| self.reached_from(corner).len() == used.len())
    }
}

/// The questions 5 to 11 in their order.
pub fn table_questions(rows: Vec<Row>, count: usize, kind: Table) -> Vec<Question<'static>> {
    let edges = Rc::new(Edges::of(&rows));
    let (e7, e8, e9, e10, e11) = (edges.clone(), edges.clone(), edges.clone(), edges.clone(), edges);
    let again = rows.clone();
    let mut questions: Vec<Question> = vec![
        (5, Box::new(move || rows.iter().flatten().any(|&n| n as usize >= count))),
        (6, Box::new(move || again.iter().any(|&[a, b, c]| a == b || b == c || c == a))),
        (7, Box::new(move || e7.edge_twice())),
        (8, Box::new(move || e8.reverse_missing())),
    ];
    if kind == Table::First {
        let unused = move || {
            let used = e9.used();
            (0..count as u32).any(|corner| !used.contains(&corner))
        };
        questions.push((9, Box::new(unused)));
    }
    questions.push((10, Box::new(move || e10.used().iter().any(|&c| !e10.one_ring(c)))));
    questions.push((11, Box::new(move || !e11.connected())));
    questions
}

/// Every line of "what a skin is" that speaks of rows, for a stage over this many corners.
pub fn is_stage(rows: &[Row], count: usize) -> bool {
    ROWS.contains(&rows.len()) && first_that_holds(&table_questions(rows.to_vec(), count, Table::Stage)).is_none()
}
