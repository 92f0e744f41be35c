//! The lines of the program `trials`: each is worked out here from the words of its case, and compared.

use crate::answers::answer;
use crate::bench::{Bench, PATIENCE};
use crate::harm::words;
use crate::limit::{CENTIMETRES, FEET, INTERNATIONAL_FEET, METRES};
use crate::make::{octahedron, seven_corner_torus, tetrahedron};
use crate::parts::{grid, MOST_ROWS_GRID};
use crate::place::largest_sum;
use crate::protocol::*;
use crate::refusal::FAILS;
use crate::skin::{Corner, Row, FARTHEST, FEWEST};
use crate::step::{Record, WIDTH};
use crate::trial::{coordinates, O_CORNERS, O_LEFT, O_LOG};

const NO_LIMIT: (i64, f64) = (0, 0.0);

/// Compares what the program writes with the lines worked out.
pub fn run(bench: &mut Bench, path: &str) {
    const KIND: &str = "the lines of trials";
    let text = match bench.output(path, PATIENCE, |program| program.close()) {
        Ok(found) => String::from_utf8_lossy(&found).into_owned(),
        Err(why) => return bench.tally.fail(KIND, &why, path),
    };
    let (mut found, mut expected) = (text.split('\n'), lines().into_iter().chain([String::new()]));
    loop {
        let (found, expected) = match (found.next(), expected.next()) {
            (None, None) => return,
            (found, expected) => (found.unwrap_or("nothing"), expected.unwrap_or("nothing".to_string())),
        };
        let wrong = (found != expected).then(|| format!("expected {expected:?}, found {found:?}"));
        bench.tally.verdict(KIND, wrong, || path.to_string());
    }
}

fn lines() -> Vec<String> {
    [limits(), halves(), tables(), octahedron_thinned(), logs(), too_many_records(), the_trial_ring(), largest_sums()]
        .concat()
}

fn refused(answer: &[Word]) -> String {
    format!("refused {}", answer[0])
}

fn limits() -> Vec<String> {
    let line = |figure: f64, unit: (&str, i64)| {
        let found =
            answer(&Request { call: LIMIT, arguments: vec![vec![unit.1], vec![figure.to_bits() as Word]] }).answer;
        let said = if found[0] == 0 { format!("{} cm", found[1]) } else { "unusable".to_string() };
        format!("limit {figure} {}: {said}", unit.0)
    };
    let (m, ft, ift) = (("m", METRES), ("ft", FEET), ("ift", INTERNATIONAL_FEET));
    let of_01 = [line(1.5, m), line(1.375, m), line(4.75, ft), line(0.29, m), line(0.3, m)];
    let of_02 = [line(4.75, ift), line(6_561.25, ft), line(6_561.25, ift), line(6_561.7, ft), line(6_561.7, ift)];
    [of_01, of_02].concat()
}

fn volume(name: &str, rows: &[Row], corners: &[Corner]) -> String {
    let found = answer(&Request { call: VOLUME, arguments: vec![words(&rows.concat()), coordinates(corners)] }).answer;
    let said = if found[0] == 0 { found[1].to_string() } else { refused(&found) };
    format!("{name}: {said}")
}

/// Sums next to a half, at a half, and at one and a half.
fn halves() -> Vec<String> {
    let flat = [[2_000, 1, 0], [1, 1_500, 0]];
    let square = [[100, 0, 0], [0, 100, 0]];
    let oblong = [[300, 0, 0], [0, 100, 0]];
    let cases = [("2,999,999", flat, 1), ("3,000,000", square, 300), ("9,000,000", oblong, 300)];
    let line = |name: String, base: [Corner; 2], height: i32| {
        volume(&name, &tetrahedron(), &[[0; 3], base[0], base[1], [0, 0, height]])
    };
    cases
        .into_iter()
        .flat_map(|(sum, base, height)| {
            [line(format!("the sum {sum}"), base, -height), line(format!("the sum -{sum}"), base, height)]
        })
        .collect()
}

fn thin(order: (i64, f64), table: &[u32], corners: Vec<Word>, room: Vec<Word>) -> Response {
    answer(&Request {
        call: THIN,
        arguments: vec![vec![order.0], vec![order.1.to_bits() as Word], words(table), corners, room],
    })
}

fn thinned(name: &str, found: &Response) -> String {
    let said = if found.answer[0] == 0 { format!("{} records", found.answer[1]) } else { refused(&found.answer) };
    format!("{name}: {said}")
}

/// Tables that are refused, and those at the limits, which pass.
fn tables() -> Vec<String> {
    let line = |name: &str, rows: &[Row], corners: Vec<Word>| {
        thinned(name, &thin(NO_LIMIT, &rows.concat(), corners, vec![0; 5 * WIDTH]))
    };
    let (o, t) = (octahedron(), tetrahedron());
    let at_o = || coordinates(&O_CORNERS);
    let (down, across) = MOST_ROWS_GRID;
    let torus = grid(down, across);
    let under_zero = |name: &str, rows: &[Row]| {
        let corners = largest_sum(down, across);
        let room = vec![0; WIDTH * (corners.len() - FEWEST)];
        thinned(name, &thin((CENTIMETRES, 0.0), &rows.concat(), coordinates(&corners), room))
    };
    let far = |x: i32, z: i32| coordinates(&[[0; 3], [x, 0, 0], [0, 300, 0], [0, 0, z]]);
    let moved =
        |by: u32| t.iter().map(|row| row.map(|n| if n == 0 && by == 3 { 0 } else { n + by })).collect::<Vec<Row>>();
    let (shared, apart) = ([t.clone(), moved(3)].concat(), [t.clone(), moved(4)].concat());
    let zeros = |corners: usize| vec![0; 3 * corners];
    vec![
        line("O without its last row", &o[..7], at_o()),
        line("O's first three rows", &o[..3], at_o()),
        line("O without its last coordinate", &o, at_o()[..17].to_vec()),
        under_zero("1,024 rows", &torus),
        under_zero("1,025 rows", &[torus.clone(), torus[..1].to_vec()].concat()),
        line("T to 50,000 and -50,000", &t, far(FARTHEST, -FARTHEST)),
        line("T to 50,001", &t, far(FARTHEST + 1, 300)),
        line("T to -50,001", &t, far(300, -FARTHEST - 1)),
        line("two tetrahedra that share a corner", &shared, zeros(7)),
        line("and a corner that no row uses", &shared, zeros(8)),
        line("two tetrahedra apart", &apart, zeros(8)),
        line("and a corner that no row uses", &apart, zeros(9)),
    ]
}

fn listed(name: &str, list: &[Word]) -> String {
    let numbers: Vec<String> = list.iter().map(Word::to_string).collect();
    format!("{name}: {}", numbers.join(" "))
}

fn octahedron_thinned() -> Vec<String> {
    let need = 2 * WIDTH;
    let found = thin(NO_LIMIT, &octahedron().concat(), coordinates(&O_CORNERS), vec![7; need + 1]);
    let left: Vec<u32> = found.lent[0].iter().map(|&word| word as u32).collect();
    let short = thin(NO_LIMIT, &left, coordinates(&O_CORNERS), vec![7; need - 1]);
    vec![
        thinned("O thinned", &found),
        listed("O's table then", &found.lent[0]),
        listed("O's log then", &found.lent[1]),
        thinned(&format!("with room for {} numbers", need - 1), &short),
    ]
}

fn regrown(name: &str, found: &Response) -> String {
    let said = match found.answer[0] {
        0 => format!("{} records done", found.answer[1]),
        FAILS => format!("refused 13 after {} records", found.answer[1]),
        _ => refused(&found.answer),
    };
    format!("{name}: {said}")
}

fn replay(corners: Word, table: &[Row], log: &[u32]) -> Response {
    answer(&Request { call: REPLAY, arguments: vec![vec![corners], words(&table.concat()), words(log)] })
}

/// O's records grown back in a room with two numbers to spare, and replayed; then records that fail.
fn logs() -> Vec<String> {
    let log = O_LOG.concat();
    let grown = |name: &str, log: &[u32]| {
        let mut room = words(&O_LEFT.concat());
        room.resize(26, 9);
        let found = answer(&Request { call: GROW_BACK, arguments: vec![vec![4], vec![6], room, words(log)] });
        vec![regrown(name, &found), listed("the room then", &found.lent[0])]
    };
    let replayed = |name: &str, log: &[u32]| {
        let found = replay(6, &octahedron(), log);
        vec![regrown(name, &found), listed("the table then", &found.lent[0])]
    };
    let spoiled = |places: &[usize], numbers: &[u32]| {
        let mut log = log.clone();
        places.iter().zip(numbers).for_each(|(&place, &number)| log[place] = number);
        log
    };
    let turned = spoiled(&[3, 4, 5], &[1, 2, 0]);
    [
        grown("O grown back from its two records", &log),
        replayed("O's two records replayed", &log),
        grown("with a row turned", &turned),
        replayed("replayed", &turned),
        grown("removed is used", &spoiled(&[1, 9], &[2, 2])),
        grown("places equal", &spoiled(&[2], &[3])),
        grown("a place one past the grown table", &spoiled(&[6], &[8])),
    ]
    .concat()
}

/// Records that M's condition forbids, and more of them than rows would stand.
fn too_many_records() -> Vec<String> {
    let m = seven_corner_torus();
    let first: Record = [0, 1, 0, 0, 1, 3, 11, 5, 1, 0];
    let mut log = first.to_vec();
    log.resize(6 * WIDTH, 0);
    let six = replay(7, &m, &log);
    vec![
        regrown("T with one record", &replay(4, &tetrahedron(), &O_LOG[0])),
        regrown("M with five records", &replay(7, &m, &log[..5 * WIDTH])),
        regrown("M with six records", &six),
        listed("M then", &six.lent[0]),
    ]
}

fn the_trial_ring() -> Vec<String> {
    let corners = (0..192).collect();
    let found = thin(NO_LIMIT, &grid(8, 8).concat(), corners, vec![0; 60 * WIDTH]);
    vec![thinned("the trial ring thinned", &found), listed("past its 18 rows then", &found.lent[0][54..60])]
}

/// The largest sum that a table can have, and the same with the sign turned.
fn largest_sums() -> Vec<String> {
    let (down, across) = MOST_ROWS_GRID;
    let (rows, corners) = (grid(down, across), largest_sum(down, across));
    let mirrored: Vec<Corner> = corners.iter().map(|&[x, y, z]| [-x, y, z]).collect();
    vec![volume("1,024 rows at the limits", &rows, &corners), volume("and mirrored", &rows, &mirrored)]
}
