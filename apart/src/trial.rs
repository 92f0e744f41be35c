//! 01's own cases: its trial skins, its slips, its limits and its sheet; its O as the log sheet of 02, cut and
//! recovered; the feet, the jobs, the flips and the engines of 02. What is expected here is copied from them, or worked by hand, and both the
//! driven programs and this program's own rules are held to it.

use crate::answers::answer;
use crate::bench::Bench;
use crate::chance::Chance;
use crate::figures::sixfold_volume;
use crate::flip;
use crate::flips::{flip_request, undo_request};
use crate::grow::records_of;
use crate::harm::{scribble, words};
use crate::jobs::job_request;
use crate::limit::{CENTIMETRES, FEET, INTERNATIONAL_FEET, METRES};
use crate::mail::{read_request, text_words, write_request};
use crate::make::{octahedron, seven_corner_torus, shaft_rows, tetrahedron};
use crate::protocol::*;
use crate::sheet;
use crate::skin::{is_stage, rows_of, Corner, Edges, Row, FARTHEST, FEWEST, MOST_CORNERS, MOST_ROWS};
use crate::step::{Record, WIDTH};
use crate::tally::difference;

const T_CORNERS: [Corner; 4] = [[0, 0, 0], [300, 0, 0], [0, 300, 0], [0, 0, 300]];
pub const O_CORNERS: [Corner; 6] = [[0, 0, 100], [100, 0, 0], [0, 100, 0], [-100, 0, 0], [0, -100, 0], [0, 0, -100]];
pub const O_LEFT: [Row; 4] = [[0, 3, 4], [5, 3, 0], [5, 4, 3], [5, 0, 4]];
pub const O_LOG: [Record; 2] = [[0, 1, 0, 0, 1, 2, 3, 0, 4, 1], [0, 2, 0, 0, 2, 3, 2, 5, 2, 0]];
/// After the first record: rows 0 and 3 have left, and 0 stands where 1 stood.
const O_AFTER_ONE: [Row; 6] = [[0, 2, 3], [0, 3, 4], [5, 2, 0], [5, 3, 2], [5, 4, 3], [5, 0, 4]];
const REQUEST_1: &str = "02, request 1";
const REQUEST_3: &str = "02, request 3";
const REQUEST_4: &str = "02, request 4";
const REQUEST_5: &str = "02, request 5";
const REQUEST_6: &str = "02, request 6";
const REQUEST_7: &str = "02, request 7";
/// `LOG`, corners, rows; then O's two `K` lines, as 01 has them.
const O_LOG_SHEET: &str = "LOG\t6\t8\nK\t0\t1\t0\t0\t1\t2\t3\t0\t4\t1\nK\t0\t2\t0\t0\t2\t3\t2\t5\t2\t0\n";
const O_TEXT: &str = "OK\t4\t2\t1\t0\nR\t0\t3\t4\nR\t5\t3\t0\nR\t5\t4\t3\nR\t5\t0\t4\n\
                      K\t0\t1\t0\t0\t1\t2\t3\t0\t4\t1\nK\t0\t2\t0\t0\t2\t3\t2\t5\t2\t0\n";

pub fn run(bench: &mut Bench, chance: &mut Chance) {
    thinning(bench, chance);
    refusals(bench, chance);
    figures(bench);
    limits(bench);
    sheets(bench, chance);
    the_trial_ring(bench, chance);
    log_sheets(bench, chance);
    recovery(bench, chance);
    exact_sums(bench);
    jobs(bench);
    jobs_in_bad_form(bench);
    jobs_refused(bench);
    flips(bench, chance);
    flips_refused(bench, chance);
    flips_undone(bench);
    flips_not_undone(bench);
    flips_measured(bench);
    engines(bench, chance);
}

pub fn coordinates(corners: &[Corner]) -> Vec<Word> {
    corners.concat().into_iter().map(Word::from).collect()
}

fn thin(order: (i64, f64), rows: &[Row], corners: &[Corner], chance: &mut Chance) -> Request {
    let room = scribble(WIDTH as i64 * (corners.len() as i64 - FEWEST as i64), chance);
    let bits = order.1.to_bits() as Word;
    let arguments = vec![vec![order.0], vec![bits], words(&rows.concat()), coordinates(corners), room];
    Request { call: THIN, arguments }
}

/// Holds both the driven program and this program's rules to a response that 01 gives.
fn hold(bench: &mut Bench, name: &str, request: &Request, expected: &Response) {
    hold_to(bench, "01", name, request, expected);
}

fn hold_to(bench: &mut Bench, paper: &str, name: &str, request: &Request, expected: &Response) {
    if let Some(wrong) = difference(request, expected, &answer(request)) {
        bench.tally.fail(&format!("{paper}: this program's own rules"), &format!("{name}: {wrong}"), "");
    }
    bench.try_against(&format!("{paper}: {name}"), request, expected);
}

fn hold_untouched(bench: &mut Bench, name: &str, request: &Request, answer: &[Word]) {
    hold(bench, name, request, &Response::untouched(request, answer.to_vec()));
}

fn thinning(bench: &mut Bench, chance: &mut Chance) {
    let none = (0, 0.0);
    hold_untouched(bench, "T, no record", &thin(none, &tetrahedron(), &T_CORNERS, chance), &[0, 0]);
    let m = seven_corner_torus();
    let places: Vec<Corner> = (0..7).map(|n| [n, n * n, -n]).collect();
    hold_untouched(bench, "M, no record", &thin(none, &m, &places, chance), &[0, 0]);
    let o = octahedron();
    let at_141 = thin((CENTIMETRES, 141.0), &o, &O_CORNERS, chance);
    hold_untouched(bench, "O at 141 cm, no record", &at_141, &[0, 0]);
    for order in [none, (CENTIMETRES, 142.0)] {
        let request = thin(order, &o, &O_CORNERS, chance);
        let mut table = words(&O_LEFT.concat());
        table.resize(24, 0);
        let expected = Response { answer: vec![0, 2], lent: vec![table, words(&O_LOG.concat())] };
        hold(bench, "O, two records", &request, &expected);
    }
    let back = [words(&O_LEFT.concat()), scribble(12, chance)].concat();
    let grow = Request { call: GROW_BACK, arguments: vec![vec![4], vec![6], back, words(&O_LOG.concat())] };
    let expected = Response { answer: vec![0, 2], lent: vec![words(&o.concat())] };
    hold(bench, "O grown back", &grow, &expected);
    let replay = Request { call: REPLAY, arguments: vec![vec![6], words(&o.concat()), words(&O_LOG.concat())] };
    let left = [words(&O_LEFT.concat()), vec![0; 12]].concat();
    hold(bench, "O replayed", &replay, &Response { answer: vec![0, 2], lent: vec![left] });
}

/// A corner that lets none of its edges go before one that does, and corners of three neighbours; by either engine.
fn engines(bench: &mut Bench, chance: &mut Chance) {
    let places: Vec<Corner> = (0..8).map(|n| [n, n * n, -n]).collect();
    // T's row (1,3,2) given corner 4. 0 and 1 have the neighbours 2 and 3 in common, which are opposite: 1 goes, with the
    // rows (0,1,2) and (0,3,1). A tetrahedron is left.
    let stacked = [[0, 1, 2], [0, 2, 3], [0, 3, 1], [1, 3, 4], [3, 2, 4], [2, 1, 4]];
    let left = [[0, 2, 3], [0, 3, 4], [3, 2, 4], [2, 0, 4]];
    hold_engines(
        bench,
        "T with a corner more",
        &stacked,
        &places[..5],
        ([0, 1, 0, 0, 1, 2, 2, 0, 3, 1], &left),
        chance,
    );
    // M's row (1,2,4) given corner 7. Any two of M's corners have the five others in common, so that none of 0's edges may
    // go; 1 and 7 have 2 and 4: 7 goes, with the rows (1,2,7) and (4,1,7). M is left, which lets none go.
    let m = seven_corner_torus();
    let given = [&m[..2], &[[1, 2, 7]], &m[3..], &[[2, 4, 7], [4, 1, 7]]].concat();
    let left = [&m[..2], &m[3..], &[[2, 4, 1]]].concat();
    hold_engines(bench, "M with a corner more", &given, &places, ([1, 7, 2, 1, 2, 7, 15, 4, 1, 7], &left), chance);
}

/// Holds the thinning of a skin to the one record that it writes and the rows that it leaves.
fn hold_engines(
    bench: &mut Bench,
    name: &str,
    rows: &[Row],
    corners: &[Corner],
    (record, left): (Record, &[Row]),
    chance: &mut Chance,
) {
    for order in [(0, 0.0), (CENTIMETRES, 200_000.0)] {
        let request = thin(order, rows, corners, chance);
        let table = [words(&left.concat()), vec![0; 6]].concat();
        let log = [&words(&record), &request.arguments[4][WIDTH..]].concat();
        hold_to(bench, REQUEST_7, name, &request, &Response { answer: vec![0, 1], lent: vec![table, log] });
    }
}

fn refusals(bench: &mut Bench, chance: &mut Chance) {
    let none = (0, 0.0);
    let mut turned_over = tetrahedron();
    turned_over[1].swap(1, 2);
    hold_untouched(bench, "T with a row turned over, 7", &thin(none, &turned_over, &T_CORNERS, chance), &[7, 0]);
    let open = &octahedron()[..7];
    hold_untouched(bench, "O without its last row, 8", &thin(none, open, &O_CORNERS, chance), &[8, 0]);
    let three = &tetrahedron()[..3];
    hold_untouched(bench, "three rows, 2", &thin(none, three, &T_CORNERS, chance), &[2, 0]);
    let rows = shaft_rows(1, MOST_ROWS as u32 / 2);
    let corners: Vec<Corner> = (0..MOST_CORNERS as i32).map(|n| [n, FARTHEST, -FARTHEST]).collect();
    let limit = (CENTIMETRES, 0.0);
    hold_untouched(bench, "1,024 rows and 50,000 pass", &thin(limit, &rows, &corners, chance), &[0, 0]);
    let more = [rows, vec![[0, 1, 2]]].concat();
    hold_untouched(bench, "1,025 rows do not, 2", &thin(limit, &more, &corners, chance), &[2, 0]);
    for far in [FARTHEST + 1, -FARTHEST - 1] {
        let mut corners = O_CORNERS;
        corners[3][1] = far;
        hold_untouched(bench, "50,001 gives 4", &thin(none, &octahedron(), &corners, chance), &[4, 0]);
    }
}

/// O's stages in front of its records: none, one, two of them done.
fn o_stages() -> [Vec<Row>; 3] {
    let stage = |records| crate::grow::replay(octahedron(), &records_of(&O_LOG[..records].concat())).rows;
    [stage(0), stage(1), stage(2)]
}

fn figures(bench: &mut Bench) {
    let stages = o_stages();
    let sums: Vec<i128> = stages.iter().map(|rows| sixfold_volume(rows, &O_CORNERS)).collect();
    let t_sum = sixfold_volume(&tetrahedron(), &T_CORNERS);
    if sums != [8_000_000, 4_000_000, 2_000_000] || t_sum != -27_000_000 {
        bench.tally.fail("01: this program's own rules", &format!("sums {sums:?}, {t_sum}"), "");
    }
    let volume = |rows: &[Row], corners: &[Corner]| Request {
        call: VOLUME,
        arguments: vec![words(&rows.concat()), coordinates(corners)],
    };
    hold_untouched(bench, "T's figure", &volume(&tetrahedron(), &T_CORNERS), &[0, -5]);
    for (rows, figure) in stages.iter().zip([1, 1, 0]) {
        hold_untouched(bench, "O's figures by stage", &volume(rows, &O_CORNERS), &[0, figure]);
    }
    for (earlier, later, figure) in [(0, 1, -1), (1, 2, 0), (0, 2, -1)] {
        let tables = [earlier, later].map(|n: usize| words(&stages[n].concat()));
        let arguments = vec![tables[0].clone(), tables[1].clone(), coordinates(&O_CORNERS)];
        hold_untouched(bench, "O's changes", &Request { call: CHANGE, arguments }, &[0, figure]);
    }
}

fn limit(unit: Word, figure: f64) -> Request {
    Request { call: LIMIT, arguments: vec![vec![unit], vec![figure.to_bits() as Word]] }
}

fn limits(bench: &mut Bench) {
    let cases = [(METRES, 1.5, 150), (METRES, 1.375, 137), (FEET, 4.75, 144), (METRES, 0.29, 28), (METRES, 0.3, 29)];
    for (unit, figure, centimetres) in cases {
        hold_untouched(bench, "typed limits", &limit(unit, figure), &[0, centimetres]);
    }
    // 02 gives the first three; 6,561.7 is 200,001.016 cm by its survey foot, and 200,000.616 cm by the other.
    let feet = [
        (FEET, 6_561.25, [0, 199_987]),
        (INTERNATIONAL_FEET, 6_561.25, [0, 199_986]),
        (INTERNATIONAL_FEET, 4.75, [0, 144]),
        (FEET, 6_561.7, [1, 0]),
        (INTERNATIONAL_FEET, 6_561.7, [0, 200_000]),
    ];
    for (unit, figure, answer) in feet {
        let request = limit(unit, figure);
        hold_to(bench, REQUEST_4, "feet", &request, &Response::untouched(&request, answer.to_vec()));
    }
    for bits in [0, Word::MIN] {
        let request = Request { call: LIMIT, arguments: vec![vec![FEET], vec![bits]] };
        hold_untouched(bench, "zero and minus zero", &request, &[0, 0]);
    }
    let unusable = [f64::NAN, f64::INFINITY, f64::NEG_INFINITY, -1.0, -f64::MIN_POSITIVE / 4.0, 200_001.0];
    for figure in unusable {
        hold_untouched(bench, "unusable limits", &limit(CENTIMETRES, figure), &[1, 0]);
    }
}

fn sheets(bench: &mut Bench, chance: &mut Chance) {
    let sheet = sheet::write(&O_CORNERS, &octahedron());
    let bytes: Vec<Word> = sheet.iter().map(|&byte| byte.into()).collect();
    let arguments = vec![bytes.clone(), scribble(24, chance), coordinates(&[[7; 3]; 6])];
    let expected =
        Response { answer: vec![0, 6, 8], lent: vec![words(&octahedron().concat()), coordinates(&O_CORNERS)] };
    hold(bench, "O's sheet read", &Request { call: READ_SHEET, arguments }, &expected);
    let text: Vec<Word> = O_TEXT.bytes().map(Word::from).collect();
    let expected = Response { answer: vec![0, text.len() as Word], lent: vec![[text, vec![1, 2, 3]].concat()] };
    let arguments = vec![bytes, [vec![9; O_TEXT.len()], vec![1, 2, 3]].concat()];
    hold(bench, "O's sheet answered", &Request { call: DESK_ANSWER, arguments }, &expected);
    if crate::desk::text(&sheet) != O_TEXT {
        bench.tally.fail("01: this program's own rules", "the text of O's sheet", "");
    }
    bench.try_desk("01: O's sheet on the desk", &sheet);
    bench.try_desk("01: an empty sheet on the desk", b"");
}

fn the_trial_ring(bench: &mut Bench, chance: &mut Chance) {
    let request = Request { call: TRIAL_RING, arguments: vec![] };
    let Some(found) = bench.try_call("01: the trial ring", &request) else { return };
    let table: Vec<u32> = found.answer.iter().map(|&word| word as u32).collect();
    let rows = rows_of(&table);
    let number = |r: usize, c: usize| (8 * (r % 8) + c % 8) as u32;
    let follows_rule = rows.len() == 128
        && (0..64).all(|n| {
            let (r, c) = (n / 8, n % 8);
            rows[2 * n] == [number(r, c), number(r + 1, c), number(r + 1, c + 1)]
                && rows[2 * n + 1] == [number(r, c), number(r + 1, c + 1), number(r, c + 1)]
        });
    bench.property("01: the trial ring", follows_rule && is_stage(&rows, 64), "the rule or closedness", &request);
    let edges: usize = (0..64).map(|corner| Edges::of(&rows).round(corner).len()).sum::<usize>() / 2;
    bench.property("01: the trial ring", (64 + rows.len()) == edges, "Euler number 64 - 192 + 128", &request);
    let corners: Vec<Corner> = (0..64).map(|n| [n, -n, n * n]).collect();
    if let Some(found) = bench.try_call("01: the trial ring", &thin((0, 0.0), &rows, &corners, chance)) {
        let left = 64 - found.answer[1];
        bench.property("01: the trial ring", (7..=10).contains(&left), "7 to 10 corners at the end", &request);
    }
}

/// O's log as a sheet, written and read by every call; and what 02 refuses, in its order.
fn log_sheets(bench: &mut Bench, chance: &mut Chance) {
    let (log, text) = (words(&O_LOG.concat()), text_words(O_LOG_SHEET.as_bytes()));
    let written = Response { answer: vec![0, 52], lent: vec![[text.clone(), vec![1, 2, 3]].concat()] };
    let room = [vec![9; O_LOG_SHEET.len()], vec![1, 2, 3]].concat();
    hold_to(bench, REQUEST_1, "O's log written", &write_request([6, 8], &log, room), &written);
    let found = Response { answer: vec![0, 6, 8, 2], lent: vec![[log.clone(), vec![7]].concat()] };
    let room = [scribble(log.len() as i64, chance), vec![7]].concat();
    hold_to(bench, REQUEST_1, "O's log read", &read_request(O_LOG_SHEET.as_bytes(), room), &found);
    let answers = [
        (READ_RECORDS, None, [vec![0, 6, 8, 2], log.clone()].concat()),
        (OPEN_LOG_SHEET, None, vec![0, 6, 8, 8]),
        (RECORD_AT, Some(0), [vec![12], vec![0; 12]].concat()),
        (RECORD_AT, Some(8), [&[0, 1, 30], &log[..WIDTH]].concat()),
        (RECORD_AT, Some(9), [vec![12], vec![0; 12]].concat()),
        (RECORD_AT, Some(30), [&[0, 1, 52], &log[WIDTH..]].concat()),
        (RECORD_AT, Some(52), [vec![0, 0, 52], vec![0; WIDTH]].concat()),
        (RECORD_AT, Some(-1), [vec![0, 0, -1], vec![0; WIDTH]].concat()),
    ];
    for (call, place, answer) in answers {
        let arguments = std::iter::once(text.clone()).chain(place.map(|place| vec![place])).collect();
        let request = Request { call, arguments };
        let expected = Response { answer, lent: vec![] };
        hold_to(bench, REQUEST_1, "O's log record by record", &request, &expected);
    }
    log_sheets_refused(bench, &log, chance);
}

/// "Bad form is 12; counts outside limits, a log of more than corners - 4 records, or a number over six digits to be
/// written is 2; short room is 3; tested in that order."
fn log_sheets_refused(bench: &mut Bench, log: &[Word], chance: &mut Chance) {
    let large = [&log[..19], &[1_000_000]].concat();
    // None of these lends a byte of room: short room is asked last.
    let cases = [([3, 8], log), ([515, 8], log), ([6, 3], log), ([6, 1_025], log), ([5, 8], log), ([6, 8], &large)];
    for (counts, log) in cases {
        let request = write_request(counts, log, vec![]);
        let expected = Response::untouched(&request, vec![2, 0]);
        hold_to(bench, REQUEST_1, "not written, 2", &request, &expected);
    }
    let short = write_request([6, 8], log, vec![9; 51]);
    hold_to(bench, REQUEST_1, "not written, 3", &short, &Response::untouched(&short, vec![3, 0]));
    let record = "K\t0\t1\t0\t0\t1\t2\t3\t0\t4\t1\n";
    let sheets = [
        (12, format!("LOG\t3\t8\n{record}{}", record.trim_end())),
        (12, format!("LOG\t6\t8\n{record}{}", record.replace('4', "1000000"))),
        (12, format!("LOG\t6\t8\n{}", record.repeat(2_979))),
        (2, format!("LOG\t515\t8\n{record}")),
        (2, format!("LOG\t6\t1025\n{record}")),
        (2, format!("LOG\t4\t8\n{record}")),
        (2, format!("LOG\t6\t8\n{}", record.repeat(2_978))),
        (3, format!("LOG\t6\t8\n{record}")),
    ];
    for (number, sheet) in sheets {
        let request = read_request(sheet.as_bytes(), scribble(9, chance));
        let expected = Response::untouched(&request, vec![number, 0, 0, 0]);
        hold_to(bench, REQUEST_1, "not read, 12, 2 or 3", &request, &expected);
    }
}

/// O's sheet, cut or not, and room for one number more than O's log has.
fn recover(order: (i64, f64), text: &[u8], chance: &mut Chance) -> Request {
    let mut request = thin(order, &octahedron(), &O_CORNERS, chance);
    request.call = RECOVER;
    request.arguments[4].push(7);
    request.arguments.push(text_words(text));
    request
}

/// What a recovery of O leaves: a stage and zeros behind it, so many records and then the room as it was.
fn o_recovered(request: &Request, answer: [Word; 3], rows: &[Row]) -> Response {
    let mut table = words(&rows.concat());
    table.resize(24, 0);
    let log = words(&O_LOG[..answer[2] as usize].concat());
    let log = [&log, &request.arguments[4][log.len()..]].concat();
    Response { answer: answer.to_vec(), lent: vec![table, log] }
}

/// O's sheet cut after every byte: its lines end at 8, 30 and 52. Without a limit and at 142 cm it ends as an unbroken
/// run does; at 141 cm no step is added to those that survived.
fn recovery(bench: &mut Bench, chance: &mut Chance) {
    let stages: [&[Row]; 3] = [&octahedron(), &O_AFTER_ONE, &O_LEFT];
    for cut in 0..=O_LOG_SHEET.len() {
        let text = &O_LOG_SHEET.as_bytes()[..cut];
        for (order, goes_on) in [((0, 0.0), true), ((CENTIMETRES, 142.0), true), ((CENTIMETRES, 141.0), false)] {
            let request = recover(order, text, chance);
            let survived = match cut {
                0..8 => None,
                8..30 => Some(0),
                30..52 => Some(1),
                _ => Some(2),
            };
            let expected = match survived {
                None => Response::untouched(&request, vec![12, 0, 0]),
                Some(lines) if goes_on => o_recovered(&request, [0, lines, 2], &O_LEFT),
                Some(lines) => o_recovered(&request, [0, lines, lines], stages[lines as usize]),
            };
            hold_to(bench, REQUEST_3, "O's log cut after every byte", &request, &expected);
        }
    }
    recovery_refused(bench, chance);
}

/// "A cut inside the first line or a whole line in bad form is 12, and a record that will not replay is 13 [...]. A first
/// line whose counts are not the skin's is 2, as are more than corners - 4 whole `K` lines. [...] then 12, 2, 13; on all
/// but 13 nothing is changed."
fn recovery_refused(bench: &mut Bench, chance: &mut Chance) {
    let [one, two] = [&O_LOG_SHEET[8..30], &O_LOG_SHEET[30..]];
    let sheets = [
        (12, "LOG\t6\t08\n".to_string()),
        (12, format!("LOG\t5\t8\n{one}K\n")),
        (12, format!("LOG\t6\t8\n{two}{}", two.replace('\t', " "))),
        (12, format!("{O_LOG_SHEET}{}", "\0".repeat(65_537 - 52))),
        (2, format!("LOG\t5\t8\n{one}")),
        (2, format!("LOG\t6\t9\n{one}")),
        (2, format!("LOG\t8\t6\n{two}")),
        (2, format!("LOG\t515\t8\n{two}")),
        (2, format!("LOG\t6\t8\n{two}{two}{two}")),
    ];
    for (number, sheet) in sheets {
        let request = recover((0, 0.0), sheet.as_bytes(), chance);
        let expected = Response::untouched(&request, vec![number, 0, 0]);
        hold_to(bench, REQUEST_3, "not recovered, 12 or 2", &request, &expected);
    }
    let failing = [(0, two.to_string()), (1, format!("{one}{one}"))];
    for (done, lines) in failing {
        let request = recover((0, 0.0), format!("LOG\t6\t8\n{lines}K\t").as_bytes(), chance);
        let rows: &[Row] = if done == 0 { &octahedron() } else { &O_AFTER_ONE };
        hold_to(bench, REQUEST_3, "not replayed, 13", &request, &o_recovered(&request, [13, done, done], rows));
    }
    // The greatest size, of which most is the tail; and what thinning refuses comes first.
    let long = format!("{O_LOG_SHEET}{}", "\0".repeat(65_536 - 52));
    let request = recover((0, 0.0), long.as_bytes(), chance);
    hold_to(bench, REQUEST_3, "65,536 bytes", &request, &o_recovered(&request, [0, 2, 2], &O_LEFT));
    let mut request = recover((CENTIMETRES, -1.0), b"LOG", chance);
    request.arguments[4].truncate(19);
    hold_to(bench, REQUEST_3, "the limit before all", &request, &Response::untouched(&request, vec![1, 0, 0]));
    request.arguments[0] = vec![0];
    hold_to(bench, REQUEST_3, "room before the sheet", &request, &Response::untouched(&request, vec![3, 0, 0]));
    request.arguments[4].push(0);
    request.arguments[2][0] = 1;
    hold_to(bench, REQUEST_3, "the skin before the sheet", &request, &Response::untouched(&request, vec![6, 0, 0]));
}

/// 01's sums: T's -27,000,000 is 6,000,000 x -5 + 3,000,000; O's are 8,000,000, 4,000,000 and 2,000,000. With each row
/// turned over the sign turns: -8,000,000 is 6,000,000 x -2 + 4,000,000, and so on.
fn exact_sums(bench: &mut Bench) {
    let turned = |rows: &[Row]| rows.iter().map(|&[a, b, c]| [a, c, b]).collect::<Vec<Row>>();
    let (t, stages) = (tetrahedron(), o_stages());
    let cases = [
        (t.clone(), &T_CORNERS[..], [0, -5, 3_000_000]),
        (turned(&t), &T_CORNERS, [0, 4, 3_000_000]),
        (stages[0].clone(), &O_CORNERS, [0, 1, 2_000_000]),
        (stages[1].clone(), &O_CORNERS, [0, 0, 4_000_000]),
        (stages[2].clone(), &O_CORNERS, [0, 0, 2_000_000]),
        (turned(&stages[0]), &O_CORNERS, [0, -2, 4_000_000]),
        (turned(&stages[2]), &O_CORNERS, [0, -1, 4_000_000]),
        // All at one point: no volume.
        (t.clone(), &[[7; 3]; 4], [0, 0, 0]),
        // Refused as volume is.
        (t[..3].to_vec(), &T_CORNERS, [2, 0, 0]),
        (t.clone(), &[[FARTHEST + 1, 0, 0]; 4], [4, 0, 0]),
        (octahedron()[..7].to_vec(), &O_CORNERS, [8, 0, 0]),
    ];
    for (rows, corners, answer) in cases {
        let request = Request { call: EXACT_SUM, arguments: vec![words(&rows.concat()), coordinates(corners)] };
        hold_to(bench, REQUEST_5, "exact sums", &request, &Response::untouched(&request, answer.to_vec()));
    }
}

fn hold_job(bench: &mut Bench, name: &str, sheet: &str, answer: [Word; 2]) {
    let request = job_request(sheet.as_bytes());
    hold_to(bench, REQUEST_5, name, &request, &Response::untouched(&request, answer.to_vec()));
}

/// Nets worked by hand, each over 6,000,000.
const NETS: [(&str, Word); 15] = [
    // In millions: a pillar of 12 with a void of 3 in it is 9 net, the station 60 - 9 = 51, and 51 / 6 is 8.5.
    ("JOB\t3\nJ\tV\t-\t60000000\nJ\tS\t0\t12000000\nJ\tV\t1\t3000000\n", 9),
    // The same from the pillar's side, and its sums below zero: -60 - (-12 - -3) is -51.
    ("JOB\t3\nJ\tS\t-\t60000000\nJ\tV\t0\t12000000\nJ\tS\t1\t3000000\n", 9),
    ("JOB\t3\nJ\tV\t-\t-60000000\nJ\tS\t0\t-12000000\nJ\tV\t1\t-3000000\n", -9),
    // Both pillars in the void: 60 - 12 - 3 is 45, and 7.5 goes away from zero.
    ("JOB\t3\nJ\tV\t-\t60000000\nJ\tS\t0\t12000000\nJ\tS\t0\t3000000\n", 8),
    // 01's T and O alone have 01's figures.
    ("JOB\t1\nJ\tV\t-\t-27000000\n", -5),
    ("JOB\t1\nJ\tV\t-\t8000000\n", 1),
    // O's first stage less its second is 4,000,000: 1. Rounded one by one they are 1 and 1, and 0 would be left.
    ("JOB\t2\nJ\tV\t-\t8000000\nJ\tS\t0\t4000000\n", 1),
    // Halves go away from zero on both sides, by one sum or by two.
    ("JOB\t1\nJ\tS\t-\t3000000\n", 1),
    ("JOB\t1\nJ\tS\t-\t-3000000\n", -1),
    ("JOB\t1\nJ\tS\t-\t2999999\n", 0),
    ("JOB\t1\nJ\tS\t-\t-2999999\n", 0),
    ("JOB\t2\nJ\tV\t-\t0\nJ\tS\t0\t3000000\n", -1),
    ("JOB\t2\nJ\tV\t-\t1\nJ\tS\t0\t3000000\n", 0),
    // 768 x 10^15 over 6 x 10^6 is 128 x 10^9.
    ("JOB\t1\nJ\tV\t-\t768000000000000000\n", 128_000_000_000),
    ("JOB\t1\nJ\tV\t-\t-768000000000000000\n", -128_000_000_000),
];

fn jobs(bench: &mut Bench) {
    for (sheet, figure) in NETS {
        hold_job(bench, "nets", sheet, [0, figure]);
    }
    // 32 times the bound is 24,576 x 10^15, past 2^64 = 18,446,744,073,709,551,616; 32 times the figure above.
    for (sum, less, figure) in [("768", "-768", 4_096_000_000_000), ("-768", "768", -4_096_000_000_000)] {
        let zeros = "0".repeat(15);
        let pillars = format!("J\tS\t0\t{less}{zeros}\n").repeat(31);
        hold_job(bench, "a net past 64 bits", &format!("JOB\t32\nJ\tV\t-\t{sum}{zeros}\n{pillars}"), [0, figure]);
    }
    hold_job(bench, "eight deep", &nested(8), [0, 4]);
}

/// Entries in one another, so many deep. The innermost has 0, each other 6,000,000 more than the one in it: of eight, the
/// nets from within are 0, 6, 6, 12, 12, 18, 18 and 24 million, and the last is 4 cubic metres.
fn nested(deep: usize) -> String {
    let names = std::iter::once("-".to_string()).chain((0..deep - 1).map(|outer| outer.to_string()));
    let entry = |(at, name): (usize, String)| {
        let kind = if at % 2 == 0 { "V" } else { "S" };
        format!("J\t{kind}\t{name}\t{}\n", 6_000_000 * (deep - 1 - at))
    };
    format!("JOB\t{deep}\n{}", names.enumerate().map(entry).collect::<String>())
}

/// A void, a pillar in it, and the least sum beyond the bound.
const TOP: &str = "J\tV\t-\t5\n";
const PILLAR: &str = "J\tS\t0\t5\n";
const BEYOND: &str = "768000000000000001";

/// A sheet of so many entries: the void, pillars in it, and a last line.
fn many(count: usize, last: &str) -> String {
    format!("JOB\t{count}\n{TOP}{}{last}", PILLAR.repeat(count - 2))
}

/// "Otherwise number and line rules as in 01, bad form or another number of lines 12, tested first."
fn jobs_in_bad_form(bench: &mut Bench) {
    let sheets = [
        "".to_string(),
        format!("JOB\t2\n{TOP}"),
        format!("JOB\t1\n{TOP}{PILLAR}"),
        format!("JOB\t01\n{TOP}"),
        format!("JOB\t1\n{}", TOP.trim_end()),
        format!("JOB\t1\n{}", TOP.replace('V', "v")),
        format!("JOB\t1\n{}", TOP.replace('V', "VV")),
        format!("JOB\t1\n{}", TOP.replace('5', "-0")),
        format!("JOB\t1\n{}", TOP.replace('5', "05")),
        format!("JOB\t1\n{}", TOP.replace('5', "1000000000000000000")),
        format!("JOB\t2\n{TOP}{}", PILLAR.replace('0', "-0")),
        format!("JOB\t2\n{TOP}{}", PILLAR.replace('0', "1000000")),
        format!("JOB\t0\n{TOP}"),
        format!("JOB\t33\n{TOP}"),
        format!("{}\n", many(33, PILLAR)),
        format!("JOB\t2\nJ\tX\t0\t{BEYOND}\n{}", PILLAR.trim_end()),
    ];
    for sheet in sheets {
        hold_job(bench, "not in form, 12", &sheet, [12, 0]);
    }
    // 9 bytes of the first line and 8 for each of 8,190 entries are 65,529; seven digits more are 65,536.
    let long = |digits: usize| many(8_190, &format!("J\tS\t0\t{}\n", "5".repeat(digits)));
    hold_job(bench, "65,536 bytes", &long(8), [20, 0]);
    hold_job(bench, "65,537 bytes", &long(9), [12, 0]);
}

/// "One capital letter (21 unless `V` or `S`) [...]. Order: count, kind, name, alternation, depth, sum; one new number
/// each, 20 to 25."
fn jobs_refused(bench: &mut Bench) {
    let sheets = [
        (20, "JOB\t0\n".to_string()),
        (20, many(33, PILLAR)),
        (20, many(33, &format!("J\tX\t-\t{BEYOND}\n"))),
        (21, format!("JOB\t1\n{}", TOP.replace('V', "X"))),
        (21, format!("JOB\t2\nJ\tV\t7\t{BEYOND}\nJ\tO\t0\t0\n")),
        (22, "JOB\t1\nJ\tV\t0\t5\n".to_string()),
        (22, format!("JOB\t2\n{TOP}J\tS\t-\t5\n")),
        (22, format!("JOB\t2\n{TOP}J\tS\t1\t5\n")),
        (22, format!("JOB\t3\n{TOP}J\tV\t0\t{BEYOND}\nJ\tS\t3\t5\n")),
        (23, format!("JOB\t2\n{TOP}J\tV\t0\t5\n")),
        (23, nested(9).replace("JOB\t9", "JOB\t10") + "J\tV\t0\t5\n"),
        (24, nested(9)),
        (24, nested(9).replace("J\tV\t-\t", "J\tV\t-\t9999999999")),
        (25, format!("JOB\t1\nJ\tV\t-\t{BEYOND}\n")),
        (25, format!("JOB\t2\n{TOP}J\tS\t0\t-{BEYOND}\n")),
        (25, "JOB\t1\nJ\tS\t-\t999999999999999999\n".to_string()),
    ];
    for (number, sheet) in sheets {
        hold_job(bench, "not answered, 20 to 25", &sheet, [number, 0]);
    }
    // A net of 5 less 31 times 5.
    hold_job(bench, "32 entries", &many(32, PILLAR), [0, 0]);
}

/// O with an edge turned, worked by hand. From 0 to 1: row 0 is (0,1,2), so c is 2; row 3 is (0,4,1), turned (1,0,4), so d
/// is 4. 2 and 4 lie opposite in O. Row 0 becomes (c,a,d) and row 3 (c,d,b).
const O_BY_01: [Row; 8] = [[2, 0, 4], [0, 2, 3], [0, 3, 4], [2, 4, 1], [5, 2, 1], [5, 3, 2], [5, 4, 3], [5, 1, 4]];
const LOG_01: flip::Record = [0, 0, 1, 2, 3, 0, 4, 1];
/// From 1 to 0 row 3 is the first: c is 4 and d is 2. It becomes (4,1,2), and row 0 becomes (4,2,0).
const O_BY_10: [Row; 8] = [[4, 2, 0], [0, 2, 3], [0, 3, 4], [4, 1, 2], [5, 2, 1], [5, 3, 2], [5, 4, 3], [5, 1, 4]];
const LOG_10: flip::Record = [3, 0, 4, 1, 0, 0, 1, 2];
/// From 0 to 1, then from 2 to 3: row 1 is (0,2,3), so c is 0; row 5 is (5,3,2), turned (3,2,5), so d is 5.
const O_BY_01_23: [Row; 8] = [[2, 0, 4], [0, 2, 5], [0, 3, 4], [2, 4, 1], [5, 2, 1], [0, 5, 3], [5, 4, 3], [5, 1, 4]];
const LOG_23: flip::Record = [1, 0, 2, 3, 5, 5, 3, 2];
/// From 0 to 1, then along the new diagonal from 2 to 4: row 3 is (2,4,1), so c is 1; row 0 is (2,0,4), turned (4,2,0), so
/// d is 0. Row 3 becomes (1,2,0) and row 0 (1,0,4): O's two rows again, each in the other's place.
const O_BY_01_24: [Row; 8] = [[1, 0, 4], [0, 2, 3], [0, 3, 4], [1, 2, 0], [5, 2, 1], [5, 3, 2], [5, 4, 3], [5, 1, 4]];
const LOG_24: flip::Record = [3, 2, 4, 1, 0, 2, 0, 4];
/// O after its first step has no corner 1. From 0 to 3: row 1 is (0,3,4), so c is 4; row 0 is (0,2,3), turned (3,0,2), so d
/// is 2.
const O_AFTER_ONE_BY_03: [Row; 6] = [[4, 2, 3], [4, 0, 2], [5, 2, 0], [5, 3, 2], [5, 4, 3], [5, 0, 4]];
const LOG_03: flip::Record = [1, 0, 3, 4, 0, 0, 2, 3];

/// Rows, corner count and list of a flip; and its answer, the rows left and the records at the front of its log.
type Asked<'a> = (&'a [Row], usize, &'a [u32]);
type Left<'a> = ([Word; 2], &'a [Row], &'a [flip::Record]);

/// Holds a list to what it leaves, in a log of this room.
fn hold_flips(bench: &mut Bench, name: &str, (rows, count, edges): Asked, room: Vec<Word>, left: Left) {
    let request = flip_request(count, rows, edges, room.clone());
    let (answer, left, log) = left;
    let written = words(&log.concat());
    let log = [&written, &room[written.len()..]].concat();
    let expected = Response { answer: answer.to_vec(), lent: vec![words(&left.concat()), log] };
    hold_to(bench, REQUEST_6, name, &request, &expected);
}

/// O's flips, in rooms just enough and longer: what lies past the log stays.
fn flips(bench: &mut Bench, chance: &mut Chance) {
    let o = octahedron();
    let cases: [(Asked, Left); 8] = [
        ((&o, 6, &[]), ([0, 0], &o, &[])),
        ((&o, 6, &[0, 1]), ([0, 1], &O_BY_01, &[LOG_01])),
        ((&o, 6, &[1, 0]), ([0, 1], &O_BY_10, &[LOG_10])),
        ((&o, 6, &[0, 1, 2, 3]), ([0, 2], &O_BY_01_23, &[LOG_01, LOG_23])),
        ((&o, 6, &[2, 3, 0, 1]), ([0, 2], &O_BY_01_23, &[LOG_23, LOG_01])),
        ((&o, 6, &[0, 1, 2, 4]), ([0, 2], &O_BY_01_24, &[LOG_01, LOG_24])),
        ((&O_AFTER_ONE, 6, &[0, 3]), ([0, 1], &O_AFTER_ONE_BY_03, &[LOG_03])),
        ((&O_AFTER_ONE, 6, &[]), ([0, 0], &O_AFTER_ONE, &[])),
    ];
    for (asked, left) in cases {
        let need = 4 * asked.2.len() as i64;
        for more in [0, 1, 9] {
            hold_flips(bench, "O flipped", asked, scribble(need + more, chance), left);
        }
        // Corners that no row uses change nothing.
        let over_more = (asked.0, 514, asked.2);
        hold_flips(bench, "O flipped over more corners", over_more, scribble(need, chance), left);
    }
}

/// "A flip is refused with 30 if the edge is missing and with 31 if c and d are already neighbours."
fn flips_refused(bench: &mut Bench, chance: &mut Chance) {
    let o = octahedron();
    // Any two corners of T and of M are neighbours.
    for (rows, count) in [(tetrahedron(), 4), (seven_corner_torus(), 7)] {
        for (a, b) in (0..count).flat_map(|a| (0..count).map(move |b| (a, b))) {
            let number = if a == b { 30 } else { 31 };
            let asked = (&rows[..], count as usize, &[a, b][..]);
            hold_flips(bench, "T and M, 31 for every edge", asked, scribble(9, chance), ([number, 0], &rows, &[]));
        }
    }
    // 0 and 5, 1 and 3, 2 and 4 lie opposite; 6 is not used, whatever the count.
    let alone = [[0, 5], [5, 0], [1, 3], [4, 2], [3, 3], [0, 6], [6, 0], [6, 6]];
    let far = [[256, 1], [0, 65_537], [u32::MAX, 0], [1, u32::MAX]];
    for (edge, count) in alone.into_iter().chain(far).flat_map(|edge| [(edge, 6), (edge, 7)]) {
        hold_flips(bench, "missing, 30", (&o, count, &edge), scribble(8, chance), ([30, 0], &o, &[]));
    }
    // Once 0 to 1 is turned, 0 has three neighbours, 2, 3 and 4, any two of which are joined; 0 and 1 are missing; and 5 to
    // 3 and 1 to 5 would join 2 and 4 once more.
    let turned = [(31, [0, 2]), (31, [3, 0]), (31, [0, 4]), (31, [5, 3]), (31, [1, 5]), (30, [0, 1]), (30, [1, 0])];
    let still = [[0, 5], [1, 3], [3, 3], [0, 6], [u32::MAX, 0], [2, u32::MAX]].map(|edge| (30, edge));
    for (number, edge) in turned.into_iter().chain(still) {
        let list = [&[0, 1], &edge[..], &[2, 3]].concat();
        let left: Left = ([number, 1], &O_BY_01, &[LOG_01]);
        hold_flips(bench, "one flip, then 30 or 31", (&o, 6, &list), scribble(24, chance), left);
    }
    let left: Left = ([30, 1], &O_AFTER_ONE_BY_03, &[LOG_03]);
    let asked: Asked = (&O_AFTER_ONE, 6, &[0, 3, 0, 1]);
    hold_flips(bench, "an unused corner, 30", asked, scribble(16, chance), left);
    flips_not_begun(bench, chance);
}

/// What refuses a list before any flip, in its order: 2, 3, then the stage's.
fn flips_not_begun(bench: &mut Bench, chance: &mut Chance) {
    let o = octahedron();
    let mut twice = o.clone();
    twice[7] = [5, 5, 4];
    // A second T that shares corner 3 with the first, and one that shares none.
    let two = |first: u32| [tetrahedron(), tetrahedron().iter().map(|row| row.map(|n| n + first)).collect()].concat();
    let cases: [(Word, Asked, i64); 18] = [
        (2, (&o, 6, &[0]), 8),
        (2, (&o, 6, &[0, 1, 2]), 8),
        (2, (&o, 6, &[0, 1, 2]), 0),
        (2, (&twice, 6, &[0, 1, 2]), 0),
        (2, (&o, 3, &[0, 1]), 8),
        (2, (&o, 515, &[0, 1]), 0),
        (2, (&o[..3], 6, &[0, 1]), 0),
        (2, (&o[..7], 600, &[0, 0]), 8),
        (3, (&o, 6, &[0, 1]), 7),
        (3, (&o, 6, &[0, 1, 2, 3]), 15),
        // Room is asked for each edge that is listed, though none is done.
        (3, (&o, 6, &[0, 5, 2, 3]), 15),
        (3, (&twice, 6, &[0, 1]), 0),
        (5, (&o, 5, &[0, 5]), 8),
        (6, (&twice, 6, &[0, 5]), 8),
        (7, (&[&o[..], &o].concat(), 6, &[]), 0),
        (8, (&o[..7], 6, &[0, 0]), 8),
        (10, (&two(3), 7, &[0, 0]), 8),
        (11, (&two(4), 8, &[0, 0]), 8),
    ];
    for (number, asked, room) in cases {
        hold_flips(bench, "no flip begun", asked, scribble(room, chance), ([number, 0], asked.0, &[]));
    }
}

fn hold_undone(bench: &mut Bench, name: &str, rows: &[Row], log: &[flip::Record], answer: [Word; 2], left: &[Row]) {
    let request = undo_request(6, rows, &log.concat());
    let expected = Response { answer: answer.to_vec(), lent: vec![words(&left.concat())] };
    hold_to(bench, REQUEST_6, name, &request, &expected);
}

/// "Undoing the whole log, last record first, restores the table."
fn flips_undone(bench: &mut Bench) {
    let o = octahedron();
    let cases: [(&[Row], &[flip::Record], &[Row]); 9] = [
        (&o, &[], &o),
        (&O_BY_01, &[LOG_01], &o),
        (&O_BY_10, &[LOG_10], &o),
        (&O_BY_01_23, &[LOG_01, LOG_23], &o),
        (&O_BY_01_23, &[LOG_23], &O_BY_01),
        // The two flips share no row, so either may have been the last.
        (&O_BY_01_23, &[LOG_23, LOG_01], &o),
        (&O_BY_01_24, &[LOG_01, LOG_24], &o),
        (&O_BY_01_24, &[LOG_24], &O_BY_01),
        (&O_AFTER_ONE_BY_03, &[LOG_03], &O_AFTER_ONE),
    ];
    for (rows, log, left) in cases {
        hold_undone(bench, "O undone", rows, log, [0, log.len() as Word], left);
    }
    // A row turned in its record stands turned in the table, and a flip of 0 to 1 writes that record.
    let turned = |first: Row, second: Row| [&[first], &o[1..3], &[second], &o[4..]].concat();
    let [p, a, b, c, q, d, e, f] = LOG_01;
    hold_undone(bench, "a row turned", &O_BY_01, &[[p, b, c, a, q, d, e, f]], [0, 1], &turned([1, 2, 0], [0, 4, 1]));
    hold_undone(bench, "a row turned", &O_BY_01, &[[p, a, b, c, q, f, d, e]], [0, 1], &turned([0, 1, 2], [1, 0, 4]));
    hold_undone(bench, "both turned", &O_BY_01, &[[p, c, a, b, q, e, f, d]], [0, 1], &turned([2, 0, 1], [4, 1, 0]));
    // No flip led to O: but rows 0 and 1, (0,1,2) and (0,2,3), are what the edge from 1 to 3 would leave, c being 0, d 2.
    let before = [&[[1, 3, 0], [3, 1, 2]], &o[2..]].concat();
    hold_undone(bench, "what no flip wrote", &o, &[[0, 1, 3, 0, 1, 3, 1, 2]], [0, 1], &before);
}

/// "Otherwise 32, with the table as reached and the undone counted."
fn flips_not_undone(bench: &mut Bench) {
    let o = octahedron();
    let [p, a, b, c, q, d, e, f] = LOG_01;
    let records = [
        // The rows exchanged, places and all, and the places alone: the flip would write other rows.
        [q, d, e, f, p, a, b, c],
        [q, a, b, c, p, d, e, f],
        // A row turned over, one twice, one of another edge, numbers past the corners and past the rows.
        [p, a, c, b, q, d, e, f],
        [p, a, b, c, q, a, b, c],
        [p, 0, 2, 3, q, d, e, f],
        [p, a, b, 6, q, d, e, f],
        [p, a, b, c, q, d, u32::MAX, f],
        [8, a, b, c, q, d, e, f],
        [p, a, b, c, 8, d, e, f],
        [u32::MAX, a, b, c, u32::MAX, d, e, f],
        // Other places, and one place for both.
        [1, a, b, c, q, d, e, f],
        [p, a, b, c, p, d, e, f],
        [q, a, b, c, q, d, e, f],
        [0; 8],
    ];
    for record in records {
        hold_undone(bench, "not undone, 32", &O_BY_01, &[record], [32, 0], &O_BY_01);
        hold_undone(bench, "one undone, then 32", &O_BY_01_23, &[record, LOG_23], [32, 1], &O_BY_01);
        hold_undone(bench, "not undone, 32", &O_BY_01_23, &[LOG_01, LOG_23, record], [32, 0], &O_BY_01_23);
    }
    // The present table must be the one that the flip writes, no row turned.
    let mut turned = O_BY_01;
    turned[0] = [0, 4, 2];
    hold_undone(bench, "a row of the table turned, 32", &turned, &[LOG_01], [32, 0], &turned);
    hold_undone(bench, "the other way round, 32", &O_BY_10, &[LOG_01], [32, 0], &O_BY_10);
    hold_undone(bench, "records exchanged, 32", &O_BY_01_24, &[LOG_24, LOG_01], [32, 0], &O_BY_01_24);
    hold_undone(bench, "a record twice, 32", &O_BY_01, &[LOG_01, LOG_01], [32, 1], &o);
    hold_undone(bench, "not flipped, 32", &o, &[LOG_01], [32, 0], &o);
    // Rows 0 and 1 of T stand as an edge from 1 to 3 would leave them, but put back it would be there twice.
    let t = tetrahedron();
    hold_undone(bench, "no stage, 32", &t, &[[0, 1, 3, 0, 1, 3, 1, 2]], [32, 0], &t);
    for (number, count, rows, log) in [
        (2, 6, &O_BY_01[..], vec![0; 7]),
        (2, 6, &O_BY_01, vec![0; 9]),
        (2, 3, &O_BY_01, LOG_01.to_vec()),
        (2, 515, &O_BY_01, LOG_01.to_vec()),
        (2, 6, &O_BY_01[..3], LOG_01.to_vec()),
        (5, 5, &O_BY_01, vec![u32::MAX; 8]),
        (8, 6, &O_BY_01[..7], LOG_01.to_vec()),
    ] {
        let request = undo_request(count, rows, &log);
        hold_to(bench, REQUEST_6, "no undoing begun", &request, &Response::untouched(&request, vec![number, 0]));
    }
}

/// Each of O's eight rows adds 1,000,000. Those that a flip of 0 to 1 or of 2 to 3 puts in their place lie in planes through
/// the middle and add nothing: 6,000,000 and 4,000,000 are left, both 1. The change is -2,000,000, 0, then -4,000,000, -1.
fn flips_measured(bench: &mut Bench) {
    let o = octahedron();
    for (rows, figure, changed) in [(&o[..], 1, 0), (&O_BY_01, 1, 0), (&O_BY_10, 1, 0), (&O_BY_01_23, 1, -1)] {
        let table = words(&rows.concat());
        let volume = Request { call: VOLUME, arguments: vec![table.clone(), coordinates(&O_CORNERS)] };
        hold_to(bench, REQUEST_6, "volumes", &volume, &Response::untouched(&volume, vec![0, figure]));
        let arguments = vec![words(&o.concat()), table, coordinates(&O_CORNERS)];
        let change = Request { call: CHANGE, arguments };
        hold_to(bench, REQUEST_6, "changes", &change, &Response::untouched(&change, vec![0, changed]));
    }
}
