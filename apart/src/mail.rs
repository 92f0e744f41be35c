//! Logs mailed: written as sheets, read back whole and record by record, and the answers held against each other;
//! honest logs, logs of any numbers, and sheets spoiled.

use crate::answers::answer;
use crate::bench::Bench;
use crate::chance::Chance;
use crate::desk;
use crate::harm::{scribble, scribble_bytes, spoiled_at, words};
use crate::log_sheet::{self, most_records};
use crate::logs::{some_log, steps};
use crate::make::Skin;
use crate::protocol::*;
use crate::sheet::GREATEST;
use crate::skin::{FEWEST, MOST_CORNERS, MOST_ROWS};
use crate::step::{thin, WIDTH};

/// The calls that read a log sheet.
pub const READING: [usize; 4] = [READ_LOG_SHEET, READ_RECORDS, OPEN_LOG_SHEET, RECORD_AT];
/// A sheet of more records than this is not walked whole.
const FEW: usize = 12;

pub fn text_words(text: &[u8]) -> Vec<Word> {
    text.iter().map(|&byte| byte.into()).collect()
}

pub fn write_request([corners, rows]: [Word; 2], log: &[Word], room: Vec<Word>) -> Request {
    Request { call: WRITE_LOG_SHEET, arguments: vec![vec![corners], vec![rows], log.to_vec(), room] }
}

/// The sheet of counts and a log, whatever they are.
pub fn text_of([corners, rows]: [Word; 2], log: &[Word]) -> Vec<u8> {
    let numbers: Vec<u32> = log.iter().map(|&word| word as u32).collect();
    log_sheet::write(corners as u64, rows as u64, &numbers)
}

pub fn read_request(text: &[u8], room: Vec<Word>) -> Request {
    Request { call: READ_LOG_SHEET, arguments: vec![text_words(text), room] }
}

pub fn place_request(text: &[u8], place: Word) -> Request {
    Request { call: RECORD_AT, arguments: vec![text_words(text), vec![place]] }
}

/// One of the calls that are given a sheet alone.
pub fn sheet_request(call: usize, text: &[u8]) -> Request {
    Request { call, arguments: vec![text_words(text)] }
}

/// Room for so many: often just enough, now and then one short, more, or none.
pub fn some_room(need: usize, chance: &mut Chance) -> usize {
    match chance.below(8) {
        0 => need.saturating_sub(1),
        1 => 0,
        2 => need + 1,
        3 => need + chance.below(3 * WIDTH),
        4 => chance.below(need + 1),
        _ => need,
    }
}

/// Where the lines of a text start, the end with them.
pub fn line_starts(text: &[u8]) -> Vec<usize> {
    let behind = (1..=text.len()).filter(|&at| text[at - 1] == b'\n');
    std::iter::once(0).chain(behind).collect()
}

fn line_start(text: &[u8], at: usize) -> usize {
    line_starts(text).into_iter().rfind(|&start| start <= at).unwrap_or(0)
}

/// How many numbers the records of a sheet have, by its lines.
fn log_room(text: &[u8]) -> usize {
    WIDTH * text.iter().filter(|&&byte| byte == b'\n').count().saturating_sub(1)
}

/// Writes a log under these counts, in some room and in enough, and reads what must have been written.
pub fn mailed(bench: &mut Bench, kind: &str, counts: [Word; 2], log: &[Word], chance: &mut Chance) {
    let text = text_of(counts, log);
    let room = scribble_bytes(some_room(text.len(), chance), chance);
    bench.try_call(kind, &write_request(counts, log, room));
    let enough = write_request(counts, log, scribble_bytes(text.len() + chance.pick(&[0, 0, 1, 9]), chance));
    bench.try_call(kind, &enough);
    if answer(&enough).answer[0] == 0 {
        let request = read_request(&text, scribble(log.len() as i64 + chance.pick(&[0, 0, 1, 7]), chance));
        if let Some(found) = bench.try_call(kind, &request) {
            let counted = [0, counts[0], counts[1], (log.len() / WIDTH) as Word];
            let holds = found.answer == counted && found.lent[0][..log.len()] == *log;
            bench.property("log sheets: reading what was written", holds, "it gives another log", &request);
        }
    }
    read(bench, kind, &text, chance);
}

/// Reads a sheet, honest or not, by every call that does, and holds the answers against each other.
pub fn read(bench: &mut Bench, kind: &str, text: &[u8], chance: &mut Chance) {
    let whole = bench.try_call(kind, &touched_by(READ_LOG_SHEET, text, 0, chance));
    let one_by_one = bench.try_call(kind, &sheet_request(READ_RECORDS, text));
    let opened = bench.try_call(kind, &sheet_request(OPEN_LOG_SHEET, text));
    if let Some(whole) = whole.filter(|whole| whole.answer[0] == 0) {
        let log = &whole.lent[0][..WIDTH * whole.answer[3] as usize];
        only_sheet(bench, kind, text, [whole.answer[1], whole.answer[2]], log, chance);
        if let Some(found) = &one_by_one {
            let same = found.answer == [&whole.answer, log].concat();
            let what = "they are not those of the whole reading";
            bench.property("log sheets: the records one at a time", same, what, &sheet_request(READ_RECORDS, text));
        }
    }
    match (opened, one_by_one) {
        (Some(opened), Some(found)) if opened.answer[0] == 0 && log_room(text) <= WIDTH * FEW => {
            walked(bench, kind, text, &opened.answer, &found.answer)
        }
        (Some(opened), Some(found)) if opened.answer[0] != 0 => {
            let same = found.answer == opened.answer;
            let what = "one opens the sheet and the other does not";
            bench.property("log sheets: the records one at a time", same, what, &sheet_request(READ_RECORDS, text));
        }
        _ => some_places(bench, kind, text, chance),
    }
}

/// "A sheet that reads at all is the only one for its log and counts."
fn only_sheet(bench: &mut Bench, kind: &str, text: &[u8], counts: [Word; 2], log: &[Word], chance: &mut Chance) {
    let room = scribble_bytes(text.len() + chance.pick(&[0, 0, 3]), chance);
    let request = write_request(counts, log, room);
    if let Some(found) = bench.try_call(kind, &request) {
        let same = found.answer == [0, text.len() as Word] && found.lent[0][..text.len()] == *text_words(text);
        bench.property("log sheets: the only one for its log and counts", same, "another is written", &request);
    }
}

/// Asks for record after record from the place after the first line: all of them and the end, as the reader gives
/// them, or a line that is refused, where the reader refuses.
fn walked(bench: &mut Bench, kind: &str, text: &[u8], opened: &[Word], found: &[Word]) {
    let mut place = opened[3];
    let mut answer = vec![0, opened[1], opened[2], 0];
    loop {
        let request = place_request(text, place);
        let Some(one) = bench.try_call(kind, &request) else { return };
        match one.answer[..3] {
            [0, 1, after] => {
                answer[3] += 1;
                answer.extend(&one.answer[3..]);
                place = after;
            }
            [0, _, _] => break,
            [status, ..] => {
                answer = vec![status, 0, 0, 0];
                break;
            }
            _ => return,
        }
    }
    let same = answer == found;
    let what = "they are not those at the places one after the other";
    bench.property("log sheets: the records one at a time", same, what, &sheet_request(READ_RECORDS, text));
}

/// The records at a few places: line starts, the end, and anywhere.
pub fn some_places(bench: &mut Bench, kind: &str, text: &[u8], chance: &mut Chance) {
    let starts = line_starts(text);
    for _ in 0..3 {
        let place = match chance.below(8) {
            0 => chance.below(text.len() + 3) as Word,
            1 => chance.pick(&[0, -1, Word::MIN, 1 << 32, text.len() as Word]),
            _ => chance.pick(&starts) as Word,
        };
        bench.try_call(kind, &place_request(text, place));
    }
}

/// The log that thinning writes under some order, or one by chance.
fn skin_log(skin: &Skin, chance: &mut Chance) -> Vec<u32> {
    if chance.one_in(3) {
        let limit = chance.pick(&[20, 300, 5_000, 60_000]);
        return thin(skin.rows.clone(), &skin.corners, Some(limit)).1.concat();
    }
    some_log(skin, chance).1.concat()
}

pub fn counts_of(skin: &Skin) -> [Word; 2] {
    [skin.corners.len() as Word, skin.rows.len() as Word]
}

/// A round with an honest log.
pub fn honest(bench: &mut Bench, skin: &Skin, chance: &mut Chance) {
    let log = words(&skin_log(skin, chance));
    mailed(bench, "chance: logs mailed", counts_of(skin), &log, chance);
}

/// The sheet of a skin's log, whatever its numbers are.
pub fn some_sheet(skin: &Skin, log: &[u32]) -> Vec<u8> {
    log_sheet::write(skin.corners.len() as u64, skin.rows.len() as u64, log)
}

/// A round with one to three bytes of a log sheet spoiled anywhere.
pub fn spoiled(bench: &mut Bench, skin: &Skin, chance: &mut Chance) {
    let mut text = some_sheet(skin, &skin_log(skin, chance));
    spoil_text(&mut text, chance);
    read(bench, "chance: spoiled log sheets", &text, chance);
}

/// Spoils one to three bytes of a log sheet.
pub fn spoil_text(text: &mut Vec<u8>, chance: &mut Chance) {
    for _ in 0..1 + chance.below(3) {
        // An early byte as often as any: the first line is short.
        let end = chance.pick(&[20, text.len()]).min(text.len());
        let at = chance.below(end);
        match chance.below(5) {
            0 if text.len() > 1 => drop(text.remove(at)),
            1 => text.insert(at, chance.pick(b"0123456789\t\n-K ")),
            2 => text.truncate(at + 1),
            _ => text[at] = chance.pick(b"0123456789\t\n-KLOG \r\0\xff"),
        }
    }
}

/// A round over every byte of a small log sheet, by one call: all replaced, dropped, doubled, or cut off there.
pub fn byte_by_byte(bench: &mut Bench, skin: &Skin, chance: &mut Chance) {
    let most = chance.below(4);
    let mut log = steps(&skin.rows, most, chance).1.concat();
    // Numbers of more digits than small skins have.
    for number in &mut log {
        *number = if chance.one_in(6) { chance.below(GREATEST as usize + 1) as u32 } else { *number };
    }
    let text = some_sheet(skin, &log);
    let call = bench.some_call(&READING, chance);
    let manner = chance.below(4);
    for at in 0..text.len() {
        let spoiled = spoiled_at(&text, at, manner, chance);
        bench.try_call("chance: log sheets byte by byte", &touched_by(call, &spoiled, at, chance));
    }
}

/// A call that reads a sheet which was changed at a byte: in some room, or at the line that has the byte.
fn touched_by(call: usize, text: &[u8], at: usize, chance: &mut Chance) -> Request {
    match call {
        READ_LOG_SHEET => {
            let room = some_room(log_room(text), chance).min(LONGEST_LIST);
            read_request(text, scribble(room as i64, chance))
        }
        RECORD_AT => place_request(text, line_start(text, at) as Word),
        _ => sheet_request(call, text),
    }
}

/// Reads a sheet that was changed at a byte, by the calls that look at it there, and now and then by the others.
pub fn touched(bench: &mut Bench, kind: &str, text: &[u8], at: usize, chance: &mut Chance) {
    let first = line_start(text, at) == 0;
    let sometimes = if first { RECORD_AT } else { OPEN_LOG_SHEET };
    for call in READING {
        if call != sometimes || chance.one_in(8) {
            bench.try_call(kind, &touched_by(call, text, at, chance));
        }
    }
}

/// A round with a log of any numbers under counts near their limits, as many records as they allow and a few more.
pub fn any_numbers(bench: &mut Bench, chance: &mut Chance) {
    let (fewest, most, most_rows) = (FEWEST as Word, MOST_CORNERS as Word, MOST_ROWS as Word);
    let corners = match chance.below(8) {
        0 => chance.pick(&[fewest - 1, most + 1, 0, -1, 1 << 32 | 8, Word::MIN]),
        1 => most - chance.between(0, 3),
        _ => fewest + chance.between(0, 9),
    };
    let rows = match chance.below(8) {
        0 => chance.pick(&[fewest - 1, most_rows + 1, 0, -1, 1 << 32 | 8, Word::MIN]),
        1 => chance.pick(&[fewest, most_rows]),
        _ => chance.between(fewest, most_rows),
    };
    let allowed = most_records(usize::try_from(corners).unwrap_or(0).min(MOST_CORNERS + 2));
    let records = (allowed + chance.pick(&[0, 0, 0, 1, 2])).saturating_sub(chance.pick(&[0, 0, 1, 3]));
    let over = if chance.one_in(8) { 1 + chance.below(WIDTH - 1) } else { 0 };
    let digits = chance.below(7) as u32;
    let past = chance.one_in(6);
    let mut log: Vec<Word> = (0..WIDTH * records + over).map(|_| some_number(digits, chance)).collect();
    if past && !log.is_empty() {
        let at = chance.below(log.len());
        log[at] = chance.pick(&[Word::from(GREATEST) + 1, 1 << 24, 1 << 31, u32::MAX.into()]);
    }
    mailed(bench, "chance: logs of any numbers", [corners, rows], &log, chance);
}

/// A number of up to so many digits, often the greatest or the least of its length.
fn some_number(digits: u32, chance: &mut Chance) -> Word {
    let end = 10i64.pow(digits.min(1 + chance.below(6) as u32));
    match chance.below(4) {
        0 => end - 1,
        1 if end > 1 => end / 10,
        _ => chance.below(end as usize) as Word,
    }
}

/// A round with a sheet put together of pieces: words, numbers, tabs and newlines, honest lines among them.
pub fn of_pieces(bench: &mut Bench, chance: &mut Chance) {
    const PIECES: [&[u8]; 20] = [
        b"LOG", b"K", b"SKIN", b"log", b"\t", b"\t", b"\n", b"\n", b"0", b"4", b"514", b"1024", b"999999", b"1000000",
        b"-1", b"00", b" ", b"\r", b"\0", b"\xff",
    ];
    let mut text = Vec::new();
    if !chance.one_in(4) {
        // A count of the first line is refused now and then.
        let counts = [0, 1].map(|_| chance.pick(&[FEWEST - 1, FEWEST, FEWEST + 1, 6, 7, 9, 12, 20]) as Word);
        text.extend(text_of(counts, &[]));
    }
    for _ in 0..chance.below(6) {
        match chance.below(8) {
            0 => (0..chance.below(12)).for_each(|_| text.extend(PIECES[chance.below(PIECES.len())])),
            1 => text.extend((0..chance.below(30)).map(|_| chance.next() as u8)),
            2 => {
                let numbers = vec![7; chance.pick(&[WIDTH - 1, WIDTH, WIDTH + 1])];
                text.extend(desk::line(chance.pick(&["K", "K", "R", "k", "LOG", ""]), &numbers).bytes());
            }
            _ => {
                let digits = chance.below(7) as u32;
                let numbers: Vec<u32> = (0..WIDTH).map(|_| some_number(digits, chance) as u32).collect();
                text.extend(desk::line("K", &numbers).bytes());
            }
        }
    }
    read(bench, "chance: log sheets of pieces", &text, chance);
    some_places(bench, "chance: log sheets of pieces", &text, chance);
}
