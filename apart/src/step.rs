//! The contraction and its order: Theorem 2A's link condition as sets, the least edge, the step and its record.

use crate::skin::{Corner, Edges, Row};
use std::collections::BTreeSet;
use std::ops::Range;

/// How many numbers a record has in a log.
pub const WIDTH: usize = 10;
/// kept, removed, place of the earlier leaving row, its numbers, place of the later one, its numbers.
pub type Record = [u32; WIDTH];
/// Where a record has its two leaving rows, each a place and then three numbers.
pub const EARLIER: Range<usize> = 2..6;
pub const LATER: Range<usize> = 6..10;

/// The link of a corner: its neighbours, and the edges that face it.
pub struct Link {
    corners: BTreeSet<u32>,
    edges: BTreeSet<(u32, u32)>,
}

impl Link {
    pub fn of(edges: &Edges, corner: u32) -> Link {
        let round = edges.round(corner);
        Link {
            corners: round.iter().map(|e| e[1]).collect(),
            edges: round.iter().map(|e| (e[1].min(e[2]), e[1].max(e[2]))).collect(),
        }
    }
}

/// "Edge ab may be contracted exactly when the link of a meets the link of b in the link of ab."
/// The link of ab is its opposite corners and has no edge.
pub fn meets_link_condition(edges: &Edges, a: u32, b: u32) -> bool {
    links_meet(edges, (a, &Link::of(edges, a)), (b, &Link::of(edges, b)))
}

fn links_meet(edges: &Edges, (a, of_a): (u32, &Link), (b, of_b): (u32, &Link)) -> bool {
    let opposite: BTreeSet<u32> = [edges.third(a, b), edges.third(b, a)].into_iter().flatten().collect();
    of_a.corners.intersection(&of_b.corners).eq(&opposite) && of_a.edges.is_disjoint(&of_b.edges)
}

pub fn squared_distance(p: Corner, q: Corner) -> i64 {
    (0..3).map(|i| i64::from(p[i]) - i64::from(q[i])).map(|d| d * d).sum()
}

/// The least edge that meets the link condition and is no longer than the limit, in centimetres.
pub fn least_edge(rows: &[Row], corners: &[Corner], limit: Option<u64>) -> Option<(u32, u32)> {
    let edges = Edges::of(rows);
    let short = |a: u32, b: u32| match limit {
        None => true,
        Some(l) => squared_distance(corners[a as usize], corners[b as usize]) as u64 <= l * l,
    };
    for a in edges.used() {
        let of_a = Link::of(&edges, a);
        for &b in of_a.corners.iter().filter(|&&b| a < b && short(a, b)) {
            if links_meet(&edges, (a, &of_a), (b, &Link::of(&edges, b))) {
                return Some((a, b));
            }
        }
    }
    None
}

/// One step over an edge of the table: the rows that stay, and the record.
pub fn contract(rows: &[Row], kept: u32, removed: u32) -> (Vec<Row>, Record) {
    let mut record = vec![kept, removed];
    let mut staying = Vec::new();
    for (place, row) in rows.iter().enumerate() {
        if row.contains(&kept) && row.contains(&removed) {
            record.push(place as u32);
            record.extend(row);
        } else {
            staying.push(row.map(|n| if n == removed { kept } else { n }));
        }
    }
    (staying, record.try_into().expect("an edge of a closed table lies in two rows"))
}

/// Thinning: steps over the least edge until none qualifies.
pub fn thin(first: Vec<Row>, corners: &[Corner], limit: Option<u64>) -> (Vec<Row>, Vec<Record>) {
    let mut rows = first;
    let mut log = Vec::new();
    while let Some((kept, removed)) = least_edge(&rows, corners, limit) {
        let (staying, record) = contract(&rows, kept, removed);
        rows = staying;
        log.push(record);
    }
    (rows, log)
}
