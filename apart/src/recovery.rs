//! Recovery: tails of any bytes, counts, records past the corners, whole lines spoiled, exchanged, doubled and left out,
//! logs of other skins, sizes, all refusals at once; rounds of chance; and what is asked of all that a recovery leaves.

use crate::answers::answer;
use crate::bench::Bench;
use crate::chance::Chance;
use crate::harm::{asked, harm, other_counts, scribble, words, Input};
use crate::limit::{whole_centimetres, CENTIMETRES, FEET, INTERNATIONAL_FEET, METRES};
use crate::log_sheet::{self, most_records, whole_lines, MOST_BYTES};
use crate::log_sheets::{in_form, FIELDS, FIRST_LINES, LINES};
use crate::logs::{some_log, steps};
use crate::mail::{counts_of, line_starts, some_sheet, spoil_text, text_of, text_words};
use crate::make::{self, octahedron, seven_corner_torus, tetrahedron, Skin};
use crate::place;
use crate::protocol::*;
use crate::round::spoil;
use crate::sheet::GREATEST;
use crate::skin::{Corner, Row, FEWEST, MOST_CORNERS, MOST_ROWS};
use crate::step::{contract, thin, Record, WIDTH};
use crate::trial::O_CORNERS;
use crate::typed;

/// A thinning order as it is typed: a unit, or 0 for no limit, and the bits of a figure.
pub type Order = (i64, u64);
pub const NO_LIMIT: Order = (0, 0);

pub fn run(bench: &mut Bench, chance: &mut Chance) {
    rooms(bench, chance);
    orders(bench, chance);
    tails(bench, chance);
    counts(bench, chance);
    numbers(bench, chance);
    records(bench, chance);
    lines(bench, chance);
    fields(bench, chance);
    bytes(bench, chance);
    lines_moved(bench, chance);
    other_skins(bench, chance);
    steps_of_any_kind(bench, chance);
    sizes(bench, chance);
    all_at_once(bench, chance);
}

/// The limit of an order in whole centimetres: none, or one, or nothing where it is unusable.
pub fn limit_of((unit, bits): Order) -> Option<Option<u64>> {
    match unit {
        0 => Some(None),
        _ => whole_centimetres(unit, bits).map(Some),
    }
}

pub fn centimetres(length: f64) -> Order {
    (CENTIMETRES, length.to_bits())
}

/// As many log numbers as thinning needs, and some more.
pub fn log_room(skin: &Skin, more: usize, chance: &mut Chance) -> Vec<Word> {
    scribble((WIDTH * most_records(skin.corners.len()) + more) as i64, chance)
}

pub fn recover_request(order: Order, skin: &Skin, room: Vec<Word>, text: &[u8]) -> Request {
    let coordinates = skin.coordinates().into_iter().map(Word::from).collect();
    let order = [vec![order.0], vec![order.1 as Word]];
    let lists = [words(&skin.table()), coordinates, room, text_words(text)];
    Request { call: RECOVER, arguments: order.into_iter().chain(lists).collect() }
}

/// Recovers in room just enough, or a little more.
fn attempt(bench: &mut Bench, kind: &str, order: Order, skin: &Skin, text: &[u8], chance: &mut Chance) {
    let more = chance.pick(&[0, 0, 1, 13]);
    bench.try_call(kind, &recover_request(order, skin, log_room(skin, more, chance), text));
}

fn named(name: &'static str, rows: Vec<Row>, corners: &[Corner]) -> Skin {
    Skin { rows, corners: corners.to_vec(), genus: 0, name }
}

fn o() -> Skin {
    named("O", octahedron(), &O_CORNERS)
}

fn t() -> Skin {
    named("T", tetrahedron(), &[[0, 0, 0], [300, 0, 0], [0, 300, 0], [0, 0, 300]])
}

fn m() -> Skin {
    let places: Vec<Corner> = (0..7).map(|n| [n, n * n, -n]).collect();
    named("M", seven_corner_torus(), &places)
}

fn log_of(skin: &Skin) -> Vec<Record> {
    thin(skin.rows.clone(), &skin.corners, None).1
}

fn sheet_of(skin: &Skin, log: &[Record]) -> Vec<u8> {
    some_sheet(skin, &log.concat())
}

/// A sphere whose log has so many records.
fn sphere(records: usize, chance: &mut Chance) -> Skin {
    make::skin_of_genus(0, 2 * (records + FEWEST) - 4, chance)
}

/// An order that lets some edges be contracted and others not.
fn some_order(skin: &Skin, chance: &mut Chance) -> Order {
    if chance.one_in(2) {
        NO_LIMIT
    } else {
        typed::parting(skin, chance)
    }
}

/// Rooms of none, one short, just enough, one more, and the longest, for a whole sheet, for one cut, and for none.
fn rooms(bench: &mut Bench, chance: &mut Chance) {
    for skin in [t(), o(), m(), sphere(5, chance)] {
        let need = (WIDTH * most_records(skin.corners.len())) as i64;
        let text = sheet_of(&skin, &log_of(&skin));
        for room in [0, 1, need - WIDTH as i64, need - 1, need, need + 1, LONGEST_LIST as i64] {
            for text in [&text[..], &text[..chance.below(text.len())], b""] {
                let request = recover_request(NO_LIMIT, &skin, scribble(room, chance), text);
                bench.try_call("sweep: rooms for recovery", &request);
            }
        }
    }
}

/// O's log, whole and cut, under orders of every kind, unusable ones among them.
fn orders(bench: &mut Bench, chance: &mut Chance) {
    let text = sheet_of(&o(), &log_of(&o()));
    let mut orders = vec![NO_LIMIT, (0, f64::NAN.to_bits()), (0, u64::MAX), (0, (-1.0f64).to_bits())];
    orders.extend([0.0, -0.0, 1.0, 141.0, 141.999, 142.0, 200_000.0, 200_000.9, 200_001.0].map(centimetres));
    orders.extend([1.41, 1.42, -1.42, f64::NAN, f64::INFINITY, 2_000.0].map(|figure: f64| (METRES, figure.to_bits())));
    for unit in [FEET, INTERNATIONAL_FEET] {
        orders.extend([4.62, 4.66, 6_561.67, 6_561.68, 6_561.7, 6_561.8].map(|figure: f64| (unit, figure.to_bits())));
    }
    orders.extend((0..8).map(|_| typed::unusable(chance)));
    for order in orders {
        for start in line_starts(&text) {
            attempt(bench, "sweep: orders of recovery", order, &o(), &text[..start], chance);
        }
    }
}

/// Tails that no newline ends: whatever they are, they are dropped.
#[rustfmt::skip]
const TAILS: [&[u8]; 25] = [
    b"", b"\0", b"\xff", b"\t", b"\r", b" ", b"0", b"K", b"k", b"L", b"-", b"K\t", b"K\t0", b"\t\t\t\t", b"\0\0\0\0\0\0\0\0",
    b"\xff\xfe\0\t\x80", b"K\t0\t1\t0\t0\t1\t2\t3\t0\t4", b"K\t0\t1\t0\t0\t1\t2\t3\t0\t4\t1",
    b"K\t0\t2\t0\t0\t2\t3\t2\t5\t2\t0", b"K\t0\t2\t0\t0\t2\t3\t2\t5\t2\t0\r", b"K\t0\t0\t0\t0\t0\t0\t0\t0\t0\t0\t0\t0",
    b"LOG\t6\t8", b"LOG\t7\t9", b"SKIN\t6\t8", b"K\t-1\t007\t1000000\t4294967296",
];

/// Each tail behind each line of O's sheet, and in front of all; then ended by a newline, which makes a line of it.
fn tails(bench: &mut Bench, chance: &mut Chance) {
    let text = sheet_of(&o(), &log_of(&o()));
    let mut tails: Vec<Vec<u8>> = TAILS.iter().map(|tail| tail.to_vec()).collect();
    // Bytes of every kind but the newline.
    tails.push((0..=255).filter(|&byte| byte != b'\n').collect());
    tails.push((0..999).map(|_| chance.next() as u8).filter(|&byte| byte != b'\n').collect());
    tails.push(vec![b'9'; 3_000]);
    for start in line_starts(&text) {
        for tail in &tails {
            let order = chance.pick(&[NO_LIMIT, NO_LIMIT, centimetres(141.0)]);
            let behind = [&text[..start], tail].concat();
            attempt(bench, "sweep: tails of a cut log sheet", order, &o(), &behind, chance);
            let ended = [&behind[..], b"\n"].concat();
            attempt(bench, "sweep: tails ended by a newline", order, &o(), &ended, chance);
        }
    }
}

/// Counts in the first line that are not the skin's, and its own, over logs that would replay and lines that are none.
fn counts(bench: &mut Bench, chance: &mut Chance) {
    let kind = "sweep: counts of a cut log sheet";
    for skin in [o(), sphere(6, chance)] {
        let log = words(&log_of(&skin).concat());
        let [corners, rows] = counts_of(&skin);
        let near = |count: Word, most: usize| {
            let most = most as Word;
            let beside = [count - 2, count - 1, count, count + 1, count + 2, count + 256, count + (1 << 16)];
            [&beside[..], &[0, 3, 4, most, most + 1, GREATEST.into()]].concat()
        };
        for corners in near(corners, MOST_CORNERS) {
            attempt(bench, kind, NO_LIMIT, &skin, &text_of([corners, rows], &log), chance);
        }
        for rows in near(rows, MOST_ROWS) {
            attempt(bench, kind, NO_LIMIT, &skin, &text_of([corners, rows], &log), chance);
        }
        for counts in [[rows, corners], [corners + 1, rows + 2], [corners - 1, rows - 2], [FEWEST as Word; 2]] {
            let text = text_of(counts, &log);
            attempt(bench, kind, NO_LIMIT, &skin, &text, chance);
            // A line in bad form is told before the counts.
            attempt(bench, kind, NO_LIMIT, &skin, &[&text[..], b"K\n"].concat(), chance);
            attempt(bench, kind, NO_LIMIT, &skin, &[&text[..], b"K"].concat(), chance);
        }
    }
}

/// Every number of O's log put to every small value, and to the greatest that a sheet may have and past it.
fn numbers(bench: &mut Bench, chance: &mut Chance) {
    let log = log_of(&o()).concat();
    for at in 0..log.len() {
        for value in [0, 1, 2, 3, 4, 5, 6, 7, 8, 256, 1 << 16, GREATEST as u32, GREATEST as u32 + 1, u32::MAX] {
            let mut spoiled = log.clone();
            spoiled[at] = value;
            let text = some_sheet(&o(), &spoiled);
            attempt(bench, "sweep: numbers of a cut log sheet", NO_LIMIT, &o(), &text, chance);
        }
    }
}

/// As many whole `K` lines as the corners allow, one less and more, honest ones first; one that no newline ends is none.
fn records(bench: &mut Bench, chance: &mut Chance) {
    let kind = "sweep: records of a cut log sheet against corners";
    let torus = make::skin_of_genus(1, 30, chance);
    for skin in [t(), o(), m(), sphere(9, chance), torus] {
        let (log, most) = (log_of(&skin), most_records(skin.corners.len()));
        for lines in [0, 1, most.saturating_sub(1), most, most + 1, most + 2, most + 50, most + 256] {
            for filling in [[0; WIDTH], log.last().copied().unwrap_or([7; WIDTH])] {
                let honest = log.iter().copied().chain(std::iter::repeat(filling));
                let text = sheet_of(&skin, &honest.take(lines).collect::<Vec<Record>>());
                attempt(bench, kind, some_order(&skin, chance), &skin, &text, chance);
                attempt(bench, kind, NO_LIMIT, &skin, &text[..text.len() - 1], chance);
            }
        }
    }
}

/// A text with the line from one start to the next replaced.
fn with_line(text: &[u8], starts: &[usize], at: usize, line: &str) -> Vec<u8> {
    [&text[..starts[at]], line.as_bytes(), b"\n", &text[starts[at + 1]..]].concat()
}

/// Single lines put in place of O's, whole and as the tail.
fn lines(bench: &mut Bench, chance: &mut Chance) {
    let kind = "sweep: cut log sheets with a line replaced";
    let text = sheet_of(&o(), &log_of(&o()));
    let starts = line_starts(&text);
    for (at, others) in [(0, &FIRST_LINES[..]), (1, &LINES), (2, &LINES)] {
        for line in others {
            let changed = with_line(&text, &starts, at, line);
            attempt(bench, kind, NO_LIMIT, &o(), &changed, chance);
            let tail = [&text[..starts[at]], line.as_bytes()].concat();
            attempt(bench, kind, NO_LIMIT, &o(), &tail, chance);
        }
    }
    for parting in ["\r\n", "\r", "\n\n", "\0"] {
        let text = String::from_utf8(text.clone()).expect("ascii").replace('\n', parting);
        attempt(bench, kind, NO_LIMIT, &o(), text.as_bytes(), chance);
    }
}

/// Every field of every line of a log: another digit, a space for one, its tab lost, a zero in front, seven digits, one
/// field more, one less, a minus, and what else a field may not be.
fn fields(bench: &mut Bench, chance: &mut Chance) {
    let skin = sphere(4, chance);
    let text = sheet_of(&skin, &log_of(&skin));
    let starts = line_starts(&text);
    for at in 0..starts.len() - 1 {
        let line = String::from_utf8(text[starts[at]..starts[at + 1] - 1].to_vec()).expect("ascii");
        let fields: Vec<&str> = line.split('\t').collect();
        for which in 1..fields.len() {
            let field = fields[which];
            let (digits, last) = field.split_at(field.len() - 1);
            let other = (last.parse::<u8>().expect("a digit") + 1 + chance.below(9) as u8) % 10;
            let changed = [
                format!("{digits}{other}"),
                format!("{digits} "),
                format!("0{field}"),
                format!("{field}{}", "0".repeat(7 - field.len())),
                format!("1{}", "0".repeat(6)),
                format!("{field}\t0"),
                format!("-{field}"),
                format!("+{field}"),
                format!("{field}\r"),
                String::new(),
                FIELDS[chance.below(FIELDS.len())].to_string(),
            ];
            let mut lines: Vec<String> = changed
                .iter()
                .map(|changed| {
                    let mut fields = fields.clone();
                    fields[which] = changed;
                    fields.join("\t")
                })
                .collect();
            // Its tab lost, and the field with its tab.
            lines.push([fields[..which].join("\t"), fields[which..].join("\t")].concat());
            lines.push([&fields[..which], &fields[which + 1..]].concat().join("\t"));
            for line in lines {
                let text = with_line(&text, &starts, at, &line);
                attempt(bench, "sweep: fields of a cut log sheet", NO_LIMIT, &skin, &text, chance);
            }
        }
    }
}

/// Every byte of some sheets replaced, doubled and left out, with a tail behind or without.
fn bytes(bench: &mut Bench, chance: &mut Chance) {
    let sphere = sphere(5, chance);
    for (skin, share) in [(o(), 2), (sphere, 6)] {
        let text = sheet_of(&skin, &log_of(&skin));
        for at in 0..text.len() {
            let mut all: Vec<Vec<u8>> = Vec::new();
            for byte in *b"\t\n -0123459KLG\r\0\xff" {
                if byte != text[at] && chance.one_in(share) {
                    all.push([&text[..at], &[byte], &text[at + 1..]].concat());
                }
            }
            all.push([&text[..at], &[text[at]], &text[at..]].concat());
            all.push([&text[..at], &text[at + 1..]].concat());
            for mut spoiled in all {
                spoiled.extend(chance.pick(&[&b""[..], b"", b"K\t0", b"\0"]));
                attempt(bench, "sweep: bytes of a cut log sheet", NO_LIMIT, &skin, &spoiled, chance);
            }
        }
    }
}

/// Two lines of a log exchanged, one doubled, one left out, all the other way round.
fn lines_moved(bench: &mut Bench, chance: &mut Chance) {
    let kind = "sweep: lines of a cut log sheet moved";
    let torus = make::skin_of_genus(1, 30, chance);
    for skin in [sphere(7, chance), make::shaft(24, chance), torus] {
        let log = log_of(&skin);
        let mut moved: Vec<Vec<Record>> = vec![log.iter().rev().copied().collect()];
        for one in 0..log.len() {
            for other in 0..one {
                let mut exchanged = log.clone();
                exchanged.swap(one, other);
                moved.push(exchanged);
            }
            let mut doubled = log.clone();
            doubled.insert(one, log[one]);
            // The one over goes at the end, so that it is not the count that is wrong.
            moved.push(doubled[..log.len()].to_vec());
            moved.push(doubled);
            moved.push([&log[..one], &log[one + 1..]].concat());
        }
        for log in moved {
            attempt(bench, kind, some_order(&skin, chance), &skin, &sheet_of(&skin, &log), chance);
        }
    }
}

/// A log on another skin: other rows with the same counts, other counts, the same rows shuffled, turned, renumbered or
/// turned inside out, and with the corners elsewhere, where it still replays.
fn other_skins(bench: &mut Bench, chance: &mut Chance) {
    let kind = "sweep: a log on another skin";
    for _ in 0..6 {
        let skin = sphere(8, chance);
        let text = sheet_of(&skin, &log_of(&skin));
        let mut others = vec![sphere(8, chance), sphere(7, chance), sphere(9, chance), make::shaft(16, chance)];
        others.extend([
            make::skin_of_genus(1, 24, chance),
            changed(&skin, |skin| chance.shuffle(&mut skin.rows)),
            changed(&skin, |skin| skin.rows.rotate_left(1)),
            changed(&skin, |skin| make::turn_rows(skin, chance)),
            changed(&skin, |skin| make::relabel(skin, chance)),
            changed(&skin, |skin| skin.rows.iter_mut().for_each(|row| row.swap(1, 2))),
            changed(&skin, |skin| skin.corners = place::corners(skin.corners.len(), chance)),
            // A stage is no first skin.
            changed(&skin, |skin| skin.rows = steps(&skin.rows, 1, chance).0),
        ]);
        for other in others {
            for cut in [text.len(), chance.below(text.len())] {
                attempt(bench, kind, some_order(&other, chance), &other, &text[..cut], chance);
            }
        }
    }
}

fn changed(skin: &Skin, change: impl FnOnce(&mut Skin)) -> Skin {
    let mut other = skin.clone();
    change(&mut other);
    other
}

/// The record of a step over every edge, either number kept, behind a few by chance: recovery asks neither the least
/// edge nor a limit of it, and takes it exactly where 01 allows the step.
fn steps_of_any_kind(bench: &mut Bench, chance: &mut Chance) {
    let torus = make::skin_of_genus(1, 24, chance);
    for skin in [o(), m(), sphere(6, chance), torus] {
        let (stage, before) = steps(&skin.rows, chance.below(3), chance);
        for row in &stage {
            for turn in 0..3 {
                let [a, b, _] = make::turned(*row, turn);
                let log = [&before[..], &[contract(&stage, a, b).1]].concat();
                let order = some_order(&skin, chance);
                let text = sheet_of(&skin, &log);
                attempt(bench, "sweep: a step over every edge recovered", order, &skin, &text, chance);
            }
        }
    }
}

/// Sheets at the greatest size and one past it, by a tail and by lines, of counts that are the skin's and that are not.
fn sizes(bench: &mut Bench, chance: &mut Chance) {
    let kind = "sweep: the greatest cut log sheets";
    let honest = sheet_of(&o(), &log_of(&o()));
    for length in [MOST_BYTES - 1, MOST_BYTES, MOST_BYTES + 1, Kind::Bytes.longest()] {
        for byte in [0, 255, b'K', b'\t', b'\n'] {
            for cut in [8, 30, honest.len()] {
                let mut text = honest[..cut].to_vec();
                text.resize(length, byte);
                if byte == b'\n' {
                    // A newline at the end alone makes a line of the tail, which is none.
                    text[cut..length - 1].fill(b'0');
                }
                attempt(bench, kind, NO_LIMIT, &o(), &text, chance);
            }
        }
        // More lines than the corners allow, all in form.
        for counts in [[6, 8], [7, 8]] {
            attempt(bench, kind, NO_LIMIT, &o(), &in_form(counts, length), chance);
        }
    }
    for (skin, cut) in [(o(), 5), (t(), 8)] {
        // No newline comes in time: a first line without end, and a tail behind T's.
        let mut text = sheet_of(&skin, &[])[..cut].to_vec();
        text.resize(MOST_BYTES, b'7');
        attempt(bench, kind, NO_LIMIT, &skin, &text, chance);
    }
}

/// Every refusal with all that come after it: each is the first.
fn all_at_once(bench: &mut Bench, chance: &mut Chance) {
    let harms = asked(RECOVER);
    for _ in 0..4 {
        let skin = make::skin_of_genus(0, 30, chance);
        let mut input = Input::new(&skin, &steps(&skin.rows, 2, chance).1);
        for one in harms.iter().rev() {
            harm(&mut input, RECOVER, *one, chance);
            let request = input.request(RECOVER, chance);
            let status = answer(&request).answer[0];
            if status != one.number() {
                bench.tally.fail("recovery: the maker", &format!("{one:?} first of all gives {status}"), "");
            }
            bench.try_call("order: a refusal of recovery and all after it", &request);
        }
    }
}

/// What a sheet was cut down to: at any byte, at a line's end, or nowhere; and at times another tail in the old one's
/// place.
fn cut_anywhere(text: &mut Vec<u8>, chance: &mut Chance) {
    let starts = line_starts(text);
    let end = match chance.below(4) {
        0 => text.len(),
        1 => chance.pick(&starts),
        _ => chance.below(text.len() + 1),
    };
    text.truncate(end);
    if chance.one_in(4) {
        let whole = whole_lines(text).len();
        text.truncate(whole);
        text.extend((0..chance.below(60)).map(|_| chance.next() as u8).filter(|&byte| byte != b'\n'));
    }
}

/// A log for the skin, and the order that wrote it or none: thinning's, or one whose steps were taken by chance.
fn some_written(skin: &Skin, chance: &mut Chance) -> (Order, Vec<Record>) {
    let order = typed::order(skin, chance);
    match limit_of(order) {
        Some(limit) if !chance.one_in(4) => (order, thin(skin.rows.clone(), &skin.corners, limit).1),
        _ => (order, some_log(skin, chance).1),
    }
}

/// A round with an honest log, cut anywhere and recovered under the order that wrote it or another.
pub fn honest(bench: &mut Bench, skin: &Skin, chance: &mut Chance) {
    let (wrote, log) = some_written(skin, chance);
    let mut text = sheet_of(skin, &log);
    for _ in 0..2 {
        cut_anywhere(&mut text, chance);
        let order = if chance.one_in(2) { wrote } else { typed::order(skin, chance) };
        let more = chance.pick(&[0, 0, 1, WIDTH, 200]);
        let request = recover_request(order, skin, log_room(skin, more, chance), &text);
        let Some(found) = bench.try_call("chance: recovered", &request) else { return };
        if found.answer[0] == 0 && chance.one_in(3) {
            afterwards(bench, "chance", skin, order, &found, chance);
        }
    }
}

/// A round with a log or a sheet that was spoiled, cut or not.
pub fn spoiled(bench: &mut Bench, skin: &Skin, chance: &mut Chance) {
    let (order, log) = some_written(skin, chance);
    let mut log = log.concat();
    let mut counts = counts_of(skin).map(|count| count as u64);
    match chance.below(6) {
        0 => counts = other_counts(counts, chance),
        // As many as the corners allow, or past them.
        1 => {
            let more = most_records(skin.corners.len()) + chance.pick(&[0, 1, 1, 2]);
            let record = log.last_chunk::<WIDTH>().copied().unwrap_or([0; WIDTH]);
            while log.len() < WIDTH * more {
                log.extend(record);
            }
        }
        2 | 3 if !log.is_empty() => spoil(&mut log, counts[0] as u32, chance),
        _ => {}
    }
    let mut text = log_sheet::write(counts[0], counts[1], &log);
    if chance.one_in(2) {
        spoil_text(&mut text, chance);
    }
    if chance.one_in(2) {
        cut_anywhere(&mut text, chance);
    }
    attempt(bench, "chance: spoiled log sheets recovered", order, skin, &text, chance);
}

/// What a recovery that is done leaves: its whole log grows back to the first table, and the steps that it added keep
/// the shift bound of the limit that was lent, with stand-ins and counts started afresh at the stage handed over.
pub fn afterwards(bench: &mut Bench, part: &str, skin: &Skin, order: Order, found: &Response, chance: &mut Chance) {
    let [replayed, all] = [found.answer[1], found.answer[2]].map(|records| records as usize);
    let log = &found.lent[1][..WIDTH * all];
    let (left, count) = (skin.rows.len() - 2 * all, skin.corners.len());
    // The table that it leaves has just the room: what lies past the last stage are its zeros.
    let arguments = vec![vec![left as Word], vec![count as Word], found.lent[0].clone(), log.to_vec()];
    let request = Request { call: GROW_BACK, arguments };
    if let Some(grown) = bench.try_call(&format!("{part}: recovered and grown back"), &request) {
        let holds = grown.answer == [0, all as Word] && grown.lent[0] == words(&skin.table());
        bench.property("recovery: its log grows back to the first table", holds, "it does not", &request);
    }
    let added = &log[WIDTH * replayed..];
    let removed: Vec<Word> = added.chunks(WIDTH).map(|record| record[1]).collect();
    let any = chance.below(count) as Word;
    let corner = if removed.is_empty() || chance.one_in(4) { any } else { chance.pick(&removed) };
    let coordinates = skin.coordinates().into_iter().map(Word::from).collect();
    let request = Request { call: SHIFT, arguments: vec![vec![corner], coordinates, added.to_vec()] };
    let Some(shift) = bench.try_call(&format!("{part}: shifts of the steps added"), &request) else { return };
    if let Some(Some(limit)) = limit_of(order) {
        let (count, squared) = (i128::from(shift.answer[2]), i128::from(shift.answer[3]));
        let bound = count * count * i128::from(limit) * i128::from(limit);
        let what = format!("{squared} past {bound}");
        bench.property("recovery: the shift bound of the steps added", squared <= bound, &what, &request);
    }
}
