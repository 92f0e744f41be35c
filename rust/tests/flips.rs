// Flips and their undoing. Expected: 02's request 6 worked by hand on document 01's octahedron and tetrahedron.
use flaxglimmer::*;

const O: [u32; 24] = [0, 1, 2, 0, 2, 3, 0, 3, 4, 0, 4, 1, 5, 2, 1, 5, 3, 2, 5, 4, 3, 5, 1, 4];
const O_CORNERS: [i32; 18] = [0, 0, 100, 100, 0, 0, 0, 100, 0, -100, 0, 0, 0, -100, 0, 0, 0, -100];
const T: [u32; 12] = [0, 1, 2, 0, 2, 3, 0, 3, 1, 1, 3, 2];

// the rows (0, 1, 2) and (1, 0, 4), stored as (0, 4, 1), have the edge 0 1; (2, 5, 3), stored as (5, 3, 2), and (5, 2, 1) the edge 2 5
const EDGES: [u32; 4] = [0, 1, 2, 5];
const AFTER_ONE: [u32; 24] = [2, 0, 4, 0, 2, 3, 0, 3, 4, 2, 4, 1, 5, 2, 1, 5, 3, 2, 5, 4, 3, 5, 1, 4];
const AFTER_TWO: [u32; 24] = [2, 0, 4, 0, 2, 3, 0, 3, 4, 2, 4, 1, 3, 1, 5, 3, 2, 1, 5, 4, 3, 5, 1, 4];
const LOG: [u32; 16] = [0, 0, 1, 2, 3, 0, 4, 1, 5, 5, 3, 2, 4, 5, 2, 1];

/// The answer, with the table and the log as they are left; the log was sevens.
fn flipped(table: &[u32], corners: usize, edges: &[u32], room: usize) -> (Result<usize, Unflipped>, Vec<u32>, Vec<u32>) {
    let (mut table, mut log) = (table.to_vec(), vec![7; room]);
    let answer = flip_list(&mut table, corners, edges, &mut log);
    (answer, table, log)
}

fn undone(table: &[u32], corners: usize, log: &[u32]) -> (Result<usize, Unfinished>, Vec<u32>) {
    let mut table = table.to_vec();
    let answer = undo_flips(&mut table, corners, log);
    (answer, table)
}

/// So many numbers of the log and then sevens.
fn log_of(numbers: usize, room: usize) -> Vec<u32> {
    let mut log = LOG[..numbers].to_vec();
    log.resize(room, 7);
    log
}

#[test]
fn a_list_is_flipped_and_logged_and_undone() {
    assert_eq!(flipped(&O, 6, &EDGES[..2], 8), (Ok(1), AFTER_ONE.to_vec(), log_of(8, 8)));
    assert_eq!(flipped(&O, 6, &EDGES, 19), (Ok(2), AFTER_TWO.to_vec(), log_of(16, 19)));
    assert_eq!(undone(&AFTER_TWO, 6, &LOG), (Ok(2), O.to_vec()));
    assert_eq!(undone(&AFTER_TWO, 6, &LOG[8..]), (Ok(1), AFTER_ONE.to_vec()));
    // each flip takes a tetrahedron off that is a quarter of the octahedron
    assert_eq!([&O, &AFTER_ONE, &AFTER_TWO].map(|table| exact_sum(table, &O_CORNERS)), [Ok(8_000_000), Ok(6_000_000), Ok(4_000_000)]);
    assert_eq!(change(&O, &AFTER_TWO, &O_CORNERS), Ok(-1));
}

#[test]
fn the_other_direction_writes_other_rows() {
    let (answer, table, log) = flipped(&O, 6, &[1, 0], 8);
    assert_eq!((answer, log), (Ok(1), vec![3, 0, 4, 1, 0, 0, 1, 2]));
    assert_eq!((&table[..3], &table[9..12]), (&[4, 2, 0][..], &[4, 1, 2][..]));
    assert_eq!((&table[3..9], &table[12..]), (&O[3..9], &O[12..]));
    assert_eq!(undone(&table, 6, &[3, 0, 4, 1, 0, 0, 1, 2]), (Ok(1), O.to_vec()));
}

#[test]
fn nothing_listed_is_nothing_done() {
    assert_eq!(flipped(&O, 6, &[], 0), (Ok(0), O.to_vec(), vec![]));
    assert_eq!(undone(&O, 6, &[]), (Ok(0), O.to_vec()));
}

#[test]
fn a_missing_edge_leaves_the_flips_before_it() {
    // flipped away, no neighbours, one corner twice, and numbers that are no corners
    for edge in [[0, 1], [1, 0], [1, 3], [0, 5], [2, 2], [0, 6], [6, 0], [u32::MAX, 0], [u32::MAX, u32::MAX]] {
        let list = [0, 1, edge[0], edge[1], 2, 5];
        assert_eq!(flipped(&O, 6, &list, 24), (Err(Unflipped::Missing(1)), AFTER_ONE.to_vec(), log_of(8, 24)), "{edge:?}");
    }
    // a corner that no row uses is below the count
    assert_eq!(flipped(&T, 5, &[0, 4], 8), (Err(Unflipped::Missing(0)), T.to_vec(), vec![7; 8]));
}

#[test]
fn a_blocked_edge_leaves_the_flips_before_it() {
    // the edge 5 3 has 2 and 4 opposite to it, which are neighbours since 0 1 was flipped, and were none before
    assert_eq!(flipped(&O, 6, &[5, 3], 8).0, Ok(1));
    assert_eq!(flipped(&O, 6, &[0, 1, 5, 3, 2, 5], 24), (Err(Unflipped::Blocked(1)), AFTER_ONE.to_vec(), log_of(8, 24)));
    // of a tetrahedron all corners are neighbours
    for a in 0..4 {
        for b in (0..4).filter(|b| *b != a) {
            assert_eq!(flipped(&T, 4, &[a, b], 8), (Err(Unflipped::Blocked(0)), T.to_vec(), vec![7; 8]));
        }
    }
}

#[test]
fn a_record_that_is_not_undone_leaves_those_undone_before_it() {
    let mut log = LOG;
    log[0] = 1;
    assert_eq!(undone(&AFTER_TWO, 6, &log), (Err(Unfinished::Stopped(1)), AFTER_ONE.to_vec()));
    for (at, number) in [(8, 4), (8, 8), (8, u32::MAX), (9, 4), (9, 6), (10, 5), (11, 3), (12, 5), (12, 8), (15, 2), (15, 4)] {
        let mut log = LOG;
        log[at] = number;
        assert_eq!(undone(&AFTER_TWO, 6, &log), (Err(Unfinished::Stopped(0)), AFTER_TWO.to_vec()), "{at} {number}");
    }
    // the skin before its flips, and the records in another order or twice
    assert_eq!(undone(&O, 6, &LOG), (Err(Unfinished::Stopped(0)), O.to_vec()));
    assert_eq!(undone(&AFTER_ONE, 6, &[&LOG[..8], &LOG[..8]].concat()), (Err(Unfinished::Stopped(1)), O.to_vec()));
    // both rows stand as a flip of 1 3 would have left them, and 1 and 3 are neighbours
    assert_eq!(undone(&T, 4, &[0, 1, 3, 0, 1, 3, 1, 2]), (Err(Unfinished::Stopped(0)), T.to_vec()));
}

#[test]
fn an_old_row_may_be_turned_in_its_record() {
    let (answer, table) = undone(&AFTER_ONE, 6, &[0, 1, 2, 0, 3, 4, 1, 0]);
    assert_eq!((answer, &table[..3], &table[9..12]), (Ok(1), &[1, 2, 0][..], &[4, 1, 0][..]));
}

#[test]
fn what_is_refused_is_left_as_it_was() {
    let shared = [&T[..], &[0, 4, 5, 0, 5, 6, 0, 6, 4, 4, 6, 5]].concat();
    let apart: Vec<u32> = T.into_iter().chain(T.map(|corner| corner + 4)).collect();
    let mut twice = O;
    twice[1] = 0;
    let mut again = O;
    again[3..6].copy_from_slice(&[0, 1, 2]);
    for (table, corners, refusal) in [
        (&O[..23], 6, Refusal::CountsOutside),
        (&O[..9], 6, Refusal::CountsOutside),
        (&vec![0; 3 * MOST_ROWS + 3], 6, Refusal::CountsOutside),
        (&O, LEAST_CORNERS - 1, Refusal::CountsOutside),
        (&O, MOST_CORNERS + 1, Refusal::CountsOutside),
        (&O, usize::MAX, Refusal::CountsOutside),
        (&O, 5, Refusal::NumberNotBelow),
        (&twice, 6, Refusal::NumberTwice),
        (&again, 6, Refusal::EdgeTwice),
        (&O[..21], 6, Refusal::ReverseMissing),
        (&shared, 7, Refusal::RingsMany),
        (&apart, 8, Refusal::NotConnected),
    ] {
        assert_eq!(flipped(table, corners, &EDGES, 16), (Err(Unflipped::Refused(refusal)), table.to_vec(), vec![7; 16]));
        assert_eq!(undone(table, corners, &LOG), (Err(Unfinished::Refused(refusal)), table.to_vec()));
    }
}

#[test]
fn the_order_is_2_then_3_then_the_table() {
    for room in 0..16 {
        assert_eq!(flipped(&O, 6, &EDGES, room), (Err(Unflipped::Refused(Refusal::RoomShort)), O.to_vec(), vec![7; room]));
    }
    assert_eq!(flipped(&O, 6, &EDGES[..3], 0).0, Err(Unflipped::Refused(Refusal::CountsOutside)));
    assert_eq!(flipped(&O, 5, &EDGES[..3], 24).0, Err(Unflipped::Refused(Refusal::CountsOutside)));
    assert_eq!(flipped(&O, 3, &EDGES, 0).0, Err(Unflipped::Refused(Refusal::CountsOutside)));
    assert_eq!(flipped(&O, 5, &EDGES, 15).0, Err(Unflipped::Refused(Refusal::RoomShort)));
    assert_eq!(flipped(&O, 6, &[0, 0], 7).0, Err(Unflipped::Refused(Refusal::RoomShort)));
    for length in [1, 7, 9, 15] {
        assert_eq!(undone(&AFTER_TWO, 6, &LOG[..length]), (Err(Unfinished::Refused(Refusal::CountsOutside)), AFTER_TWO.to_vec()));
        assert_eq!(undone(&AFTER_TWO, 5, &LOG[..length]).0, Err(Unfinished::Refused(Refusal::CountsOutside)));
    }
}

#[test]
fn the_tables_at_the_limits_are_taken() {
    // two poles over a ring of all other corners: the edge of two neighbours on the ring gives way to that of the poles, once
    let round = MOST_CORNERS - 2;
    let at = |i: usize| (2 + i % round) as u32;
    let table: Vec<u32> = (0..round).flat_map(|i| [0, at(i), at(i + 1), 1, at(i + 1), at(i)]).collect();
    let (answer, flat, log) = flipped(&table, MOST_CORNERS, &[2, 3, 3, 4], 16);
    assert_eq!((answer, table.len()), (Err(Unflipped::Blocked(1)), 3 * MOST_ROWS));
    assert_eq!((&flat[..6], &log[..8]), (&[0, 2, 1, 0, 1, 3][..], &[0, 0, 2, 3, 1, 1, 3, 2][..]));
    assert_eq!(undone(&flat, MOST_CORNERS, &log[..8]), (Ok(1), table));
}
