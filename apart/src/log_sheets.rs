//! Log sheets swept: counts, records, numbers and rooms at their limits, every place, every byte and line spoiled, and
//! sheets at the greatest size.

use crate::bench::Bench;
use crate::chance::Chance;
use crate::harm::{scribble, scribble_bytes, words};
use crate::log_sheet::{self, most_records, MOST_BYTES, MOST_LINES, SHORTEST_LINE};
use crate::mail::*;
use crate::protocol::*;
use crate::sheet::GREATEST;
use crate::skin::{FEWEST, MOST_CORNERS, MOST_ROWS};
use crate::step::{Record, WIDTH};
use crate::trial::O_LOG;

/// The limits as words.
const FEW: Word = FEWEST as Word;
const CORNERS: Word = MOST_CORNERS as Word;
const ROWS: Word = MOST_ROWS as Word;
/// Whole words outside every limit, some of which come back inside when cut to 8, 16, 32 or 63 bits.
const PAST: [Word; 6] = [1 << 32 | 6, 1 << 16 | 6, 1 << 62, Word::MIN | 6, Word::MAX, -1];
/// O's counts.
const O: [Word; 2] = [6, 8];

pub fn run(bench: &mut Bench, chance: &mut Chance) {
    rooms(bench, chance);
    places(bench);
    log_lengths(bench, chance);
    numbers(bench, chance);
    counts(bench, chance);
    records(bench, chance);
    lines(bench, chance);
    bytes(bench, chance);
    sizes(bench, chance);
}

fn o_log(records: usize) -> Vec<Word> {
    words(&O_LOG[..records].concat())
}

/// Rooms of none, one short, just enough, one more, and the longest, for writing and for reading.
fn rooms(bench: &mut Bench, chance: &mut Chance) {
    let kind = "sweep: rooms for log sheets and logs";
    for records in 0..=O_LOG.len() {
        let log = o_log(records);
        let text = text_of(O, &log);
        for room in [0, 1, text.len() - 1, text.len(), text.len() + 1, Kind::Bytes.longest()] {
            bench.try_call(kind, &write_request(O, &log, scribble_bytes(room, chance)));
        }
        let need = log.len() as i64;
        for room in [0, 1, need - WIDTH as i64, need - 1, need, need + 1, LONGEST_LIST as i64] {
            bench.try_call(kind, &read_request(&text, scribble(room, chance)));
        }
    }
}

/// Every place of O's sheet and past it, of no bytes at all, and of a record that no first line stands before.
fn places(bench: &mut Bench) {
    let text = text_of(O, &o_log(O_LOG.len()));
    let bare = text[log_sheet::write(6, 8, &[]).len()..].to_vec();
    for text in [&text[..], &bare, b""] {
        // Cut to 32 or 63 bits, some of these are the first record's place.
        for place in (0..=text.len() as Word + 2).chain(PAST).chain([Word::MIN | 8, 1 << 32 | 8, 1 << 32, Word::MIN]) {
            bench.try_call("sweep: every place of a log sheet", &place_request(text, place));
        }
    }
}

fn log_lengths(bench: &mut Bench, chance: &mut Chance) {
    for length in 0..=3 * WIDTH + 1 {
        let request = write_request(O, &vec![7; length], scribble_bytes(200, chance));
        bench.try_call("sweep: lengths of logs written", &request);
    }
}

/// Every number of a log at the greatest that six digits write, past it, and at the ends of its type.
fn numbers(bench: &mut Bench, chance: &mut Chance) {
    let kind = "sweep: numbers of logs written";
    let greatest = Word::from(GREATEST);
    for at in 0..WIDTH * O_LOG.len() {
        for number in [greatest, greatest + 1, 1 << 24 | 1, 1 << 31, u32::MAX.into()] {
            let mut log = o_log(O_LOG.len());
            log[at] = number;
            // Room for ten digits: it is the number that is asked first.
            let room = scribble_bytes(text_of(O, &log).len() + chance.pick(&[0, 0, 5]), chance);
            bench.try_call(kind, &write_request(O, &log, room));
        }
    }
    let log = vec![greatest; WIDTH * O_LOG.len()];
    mailed(bench, kind, O, &log, chance);
}

/// Corner counts and rows at their limits and past them, written and read.
fn counts(bench: &mut Bench, chance: &mut Chance) {
    let kind = "sweep: counts of log sheets";
    let corners = [0, 1, FEW - 1, FEW, FEW + 1, CORNERS - 1, CORNERS, CORNERS + 1, GREATEST.into()];
    let rows = [0, FEW - 1, FEW, ROWS, ROWS + 1, GREATEST.into()];
    let pairs = corners.iter().flat_map(|&corners| rows.iter().map(move |&rows| [corners, rows]));
    let past = PAST.iter().flat_map(|&past| [[past, 8], [6, past]]);
    for counts in pairs.chain(past) {
        let text = text_of(counts, &[]);
        bench.try_call(kind, &write_request(counts, &[], scribble_bytes(text.len() + 1, chance)));
        bench.try_call(kind, &read_request(&text, scribble(3, chance)));
        bench.try_call(kind, &sheet_request(READ_RECORDS, &text));
        bench.try_call(kind, &sheet_request(OPEN_LOG_SHEET, &text));
    }
}

/// As many records as the corners allow, one less, one more, and many more; rows are not held against them.
fn records(bench: &mut Bench, chance: &mut Chance) {
    let kind = "sweep: records against corners";
    for corners in [FEW, FEW + 1, FEW + 2, FEW + 9, CORNERS] {
        let most = most_records(corners as usize);
        for records in [most.saturating_sub(1), most, most + 1, most + 2, most + 256] {
            let log: Vec<Word> = (0..WIDTH * records).map(|n| (n % 13) as Word).collect();
            let counts = [corners, chance.pick(&[FEW, FEW + 1, ROWS])];
            mailed(bench, kind, counts, &log, chance);
        }
    }
}

/// First lines to put in place of O's; a few of them are honest.
#[rustfmt::skip]
pub const FIRST_LINES: [&str; 42] = [
    "LOG\t6\t8\t", "LOG\t6", "LOG\t6\t8\t8", "LOG", "LOG\t", "", "\t", "LOG\t-6\t8", "LOG\t6\t-8", "LOG\t06\t8",
    "LOG\t6\t08", "LOG\t+6\t8", "LOG\t6\t+8", "LOG\t000006\t8", "LOG\t0000006\t8", "LOG\t1000000\t8", "LOG\t6\t1000000",
    "LOG\t999999\t8", "LOG\t-0\t8", "LOG\t5\t8", "LOG\t7\t8", "LOG\t6\t9", " LOG\t6\t8", "LOG \t6\t8", "LOG\t 6\t8",
    "LOG\t6\t8 ", "LOG\t6\t8\r", "LOG\t\t6\t8", "LOG\t6\t\t8", "LOG\t\t8", "LOG 6\t8", "LOG\t6 8", "log\t6\t8",
    "Log\t6\t8", "LOGS\t6\t8", "LO\t6\t8", "SKIN\t6\t8", "K\t6\t8", "LOG\t6.0\t8", "LOG\t4294967302\t8",
    "LOG\t18446744073709551622\t8", "LOG\t6\t65544",
];
/// Fields to put in place of one of a record's; a few of them are honest.
#[rustfmt::skip]
pub const FIELDS: [&str; 24] = [
    "", "00", "01", "-1", "-0", "+1", " 1", "1 ", "1\r", "1\t", "\t1", "999999", "1000000", "0999999", "000001",
    "0000001", "4294967296", "18446744073709551617", "1e3", "1.0", "x", "1\0", "1-", "\u{661}",
];
/// Lines to put in place of a record's; one of them is honest.
#[rustfmt::skip]
pub const LINES: [&str; 18] = [
    "", "K", "K\t", "\t0\t0\t0\t0\t0\t0\t0\t0\t0\t0", "0\t0\t0\t0\t0\t0\t0\t0\t0\t0", "K\t0\t0\t0\t0\t0\t0\t0\t0\t0",
    "K\t0\t0\t0\t0\t0\t0\t0\t0\t0\t0", "K\t0\t0\t0\t0\t0\t0\t0\t0\t0\t0\t0", "K\t0\t0\t0\t0\t0\t0\t0\t0\t0\t0\t",
    "k\t0\t0\t0\t0\t0\t0\t0\t0\t0\t0", "KK\t0\t0\t0\t0\t0\t0\t0\t0\t0\t0", "R\t0\t0\t0\t0\t0\t0\t0\t0\t0\t0",
    "LOG\t0\t0\t0\t0\t0\t0\t0\t0\t0\t0", " K\t0\t0\t0\t0\t0\t0\t0\t0\t0\t0", "K 0 0 0 0 0 0 0 0 0 0",
    "K\t0\t0\t0\t0\t0\t0\t0\t0\t0\t0 ", "LOG\t6\t8", "K\t0\t0\t0\t0\t0\t0\t0\t0\t0\t0\r",
];

/// Single lines, and single fields of a record, put in place of O's, and other ends.
fn lines(bench: &mut Bench, chance: &mut Chance) {
    let kind = "sweep: log sheets with a line replaced";
    let text = String::from_utf8(text_of(O, &o_log(O_LOG.len()))).expect("ascii");
    let lines: Vec<String> = text.lines().map(String::from).collect();
    let with = |at: usize, line: &str| {
        let mut changed = lines.clone();
        changed[at] = line.to_string();
        (changed.join("\n") + "\n").into_bytes()
    };
    let start = |at: usize| lines[..at].iter().map(|line| line.len() + 1).sum::<usize>();
    for line in FIRST_LINES {
        touched(bench, kind, &with(0, line), 0, chance);
    }
    for at in 1..lines.len() {
        for line in LINES {
            let changed = with(at, line);
            touched(bench, kind, &changed, start(at), chance);
            // Counts that are refused as well: whether they or the line are told is the call's own order.
            let counts =
                chance.pick(&[[FEW - 1, FEW], [FEW, FEW - 1], [CORNERS + 1, FEW], [FEW, ROWS + 1], [FEW, FEW]]);
            let text = [&text_of(counts, &[]), &changed[start(1)..]].concat();
            touched(bench, "sweep: log sheets with counts and a line replaced", &text, 0, chance);
        }
    }
    for field in FIELDS {
        for which in [1, 1 + chance.below(WIDTH), WIDTH] {
            let at = 1 + chance.below(lines.len() - 1);
            let mut fields: Vec<&str> = lines[at].split('\t').collect();
            fields[which] = field;
            touched(bench, kind, &with(at, &fields.join("\t")), start(at), chance);
        }
    }
    let last = start(lines.len() - 1);
    for end in ["", "\n\n", "\n ", "\n\0", "\nK\n", "\nLOG\t6\t8\n", "\r\n", "\nK\t0", "\t\n", "\n\r"] {
        touched(bench, kind, (lines.join("\n") + end).as_bytes(), last, chance);
    }
    for parting in ["\r\n", "\r", "\n\n", "\0"] {
        touched(bench, kind, (lines.join(parting) + parting).as_bytes(), last, chance);
    }
}

/// Every byte of some small sheets replaced, doubled, dropped, and everything behind it cut off.
fn bytes(bench: &mut Bench, chance: &mut Chance) {
    let long: Record = [0, 10, 1_023, 513, 99_999, 100_000, 1_024, GREATEST as u32, 7, 0];
    let sheets = [text_of([FEW, FEW], &[]), text_of(O, &o_log(O_LOG.len())), text_of([CORNERS, ROWS], &words(&long))];
    for text in sheets {
        for at in 0..text.len() {
            for byte in *b"\t\n -0159KLG\r\0\xff" {
                let mut spoiled = text.clone();
                spoiled[at] = byte;
                if spoiled != text && chance.one_in(4) {
                    touched(bench, "sweep: log sheets with a byte replaced", &spoiled, at, chance);
                }
            }
            let mut spoiled = text.clone();
            spoiled.insert(at, text[at]);
            touched(bench, "sweep: log sheets with a byte doubled", &spoiled, at, chance);
            let mut spoiled = text.clone();
            spoiled.remove(at);
            touched(bench, "sweep: log sheets with a byte less", &spoiled, at, chance);
            touched(bench, "sweep: log sheets cut off", &text[..at], at, chance);
        }
    }
}

/// A sheet in form of just so many bytes: records of one digit a number, and more digits in the first as it needs.
pub fn in_form(counts: [Word; 2], length: usize) -> Vec<u8> {
    let first = text_of(counts, &[]).len();
    let records = (length - first) / SHORTEST_LINE;
    let mut log = vec![0; WIDTH * records];
    for digit in 0..(length - first) % SHORTEST_LINE {
        // One digit more for the first number, the second, and so on, then again from the first.
        log[digit % WIDTH] = if log[digit % WIDTH] == 0 { 10 } else { 10 * log[digit % WIDTH] };
    }
    text_of(counts, &log)
}

/// Sheets at the greatest size and one past it, in form and not, under counts that pass and that do not, and as many
/// records as there can be; places near the end of sheets longer than any that is opened.
fn sizes(bench: &mut Bench, chance: &mut Chance) {
    let kind = "sweep: the greatest log sheets";
    let mut sheets = Vec::new();
    for length in [MOST_BYTES - 1, MOST_BYTES, MOST_BYTES + 1, Kind::Bytes.longest()] {
        for counts in [[FEW, FEW], [CORNERS, ROWS], [FEW, ROWS + 1]] {
            let text = in_form(counts, length);
            if text.len() != length {
                bench.tally.fail("log sheets: the maker", &format!("{} bytes for {length}", text.len()), "");
            }
            // A newline more at the end makes a line of its own, which is none.
            let mut spoiled = in_form(counts, length - 1);
            spoiled.push(b'\n');
            sheets.extend([text, spoiled]);
        }
    }
    for lines in [MOST_LINES, MOST_LINES + 1] {
        sheets.push(text_of([FEW, FEW], &vec![9; WIDTH * lines]));
    }
    for text in sheets {
        bench.try_call(kind, &read_request(&text, scribble(LONGEST_LIST as i64, chance)));
        bench.try_call(kind, &sheet_request(READ_RECORDS, &text));
        bench.try_call(kind, &sheet_request(OPEN_LOG_SHEET, &text));
        let starts = line_starts(&text);
        for start in &starts[starts.len() - 3..] {
            bench.try_call(kind, &place_request(&text, *start as Word));
        }
    }
}
