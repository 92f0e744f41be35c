//! Sheets honest and spoiled, byte by byte and line by line: read, answered, and put before the desk.

use crate::bench::Bench;
use crate::chance::Chance;
use crate::desk;
use crate::harm::{asked, harm, scribble, scribble_bytes, Input};
use crate::make::{tetrahedron, Skin};
use crate::protocol::*;
use crate::sheet;
use crate::skin::FARTHEST;

pub fn run(bench: &mut Bench, chance: &mut Chance) {
    bytes(bench, chance);
    lines(bench, chance);
}

/// A sheet read; some also answered, and some put before the desk.
fn try_sheet(bench: &mut Bench, kind: &str, text: &[u8], chance: &mut Chance) {
    let bytes: Vec<Word> = text.iter().map(|&byte| byte.into()).collect();
    let rooms = [scribble(20, chance), (0..14).map(|_| Word::from(chance.next() as i32)).collect()];
    let arguments = [vec![bytes.clone()], rooms.to_vec()].concat();
    bench.try_call(kind, &Request { call: READ_SHEET, arguments });
    if chance.one_in(4) {
        let arguments = vec![bytes, scribble_bytes(120, chance)];
        bench.try_call(kind, &Request { call: DESK_ANSWER, arguments });
    }
    if chance.one_in(8) {
        bench.try_desk(kind, text);
    }
}

fn small_sheet() -> Vec<u8> {
    sheet::write(&[[0, 0, 0], [300, -5, 0], [0, 12, 0], [0, 0, -FARTHEST]], &tetrahedron())
}

/// Every byte of T's sheet replaced, left out, doubled, and everything after it cut off.
fn bytes(bench: &mut Bench, chance: &mut Chance) {
    let text = small_sheet();
    for at in 0..text.len() {
        for byte in *b"\t\n -0123459RCS\r\0\xff" {
            let mut spoiled = text.clone();
            spoiled[at] = byte;
            if spoiled != text && chance.one_in(2) {
                try_sheet(bench, "sweep: sheets with a byte replaced", &spoiled, chance);
            }
        }
        for byte in *b"\t\n 0-1" {
            let mut spoiled = text.clone();
            spoiled.insert(at, byte);
            try_sheet(bench, "sweep: sheets with a byte more", &spoiled, chance);
        }
        let mut spoiled = text.clone();
        spoiled.remove(at);
        try_sheet(bench, "sweep: sheets with a byte less", &spoiled, chance);
        try_sheet(bench, "sweep: sheets cut off", &text[..at], chance);
    }
}

/// Lines to put in place of honest ones; a few of them are honest themselves.
#[rustfmt::skip]
const FIRST_LINES: [&str; 30] = [
    "SKIN\t4\t4\t", "SKIN\t4", "SKIN\t4\t4\t4", "SKIN", "", "SKIN\t-4\t4", "SKIN\t04\t4", "SKIN\t4\t+4",
    "SKIN\t0000004\t4", "SKIN\t1000000\t4", "SKIN\t999999\t4", "SKIN\t4\t999999", "SKIN\t0\t4", "SKIN\t-0\t4",
    "SKIN\t3\t4", "SKIN\t4\t3", "SKIN\t515\t4", "SKIN\t514\t4", "SKIN\t4\t1024", "SKIN\t4\t1025", "SKIN\t5\t4",
    "SKIN\t4\t5", " SKIN\t4\t4", "SKIN\t\t4", "SKINS\t4\t4", "SKIN\t4\t4\r", "SKIN\t 4\t4", "SKIN\t260\t4",
    "SKIN\t4294967300\t4", "SKIN\t18446744073709551620\t4",
];
#[rustfmt::skip]
const CORNER_LINES: [&str; 29] = [
    "C\t0\t0", "C\t0\t0\t0\t0", "C\t-0\t0\t0", "C\t00\t0\t0", "C\t50000\t-50000\t0", "C\t50001\t0\t0",
    "C\t0\t-50001\t0", "C\t999999\t0\t0", "C\t-999999\t0\t0", "C\t1000000\t0\t0", "C\t-1000000\t0\t0",
    "C\t0000001\t0\t0", "C\t--1\t0\t0", "C\t-\t0\t0", "C\t\t0\t0", "C\t1-\t0\t0", "C\t+1\t0\t0", "C\t-01\t0\t0",
    "C\t1e3\t0\t0", "C\t1.0\t0\t0", "c\t0\t0\t0", "R\t0\t1\t2", "C 0\t0\t0", "C\t0\t0\t0 ", "C\t0\t0\t0\t", "",
    "C\t65536\t0\t0", "C\t4294967296\t0\t0", "CC\t0\t0\t0",
];
#[rustfmt::skip]
const ROW_LINES: [&str; 20] = [
    "R\t0\t1", "R\t0\t1\t2\t3", "R\t0\t1\t-2", "R\t0\t1\t-0", "R\t0\t1\t02", "R\t0\t1\t4", "R\t0\t1\t999999",
    "R\t0\t1\t1000000", "R\t0\t1\t1", "R\t0\t2\t1", "C\t0\t1\t2", "r\t0\t1\t2", "R\t0\t1\t2\t", "R\t\t1\t2", "",
    "R\t0\t1\t256", "R\t0\t1\t65538", "R\t1\t2\t0", "RR\t0\t1\t2", "R\t0\t1\t4294967298",
];

/// Single lines put in place of an honest one.
fn lines(bench: &mut Bench, chance: &mut Chance) {
    let lines: Vec<String> = String::from_utf8(small_sheet()).expect("ascii").lines().map(String::from).collect();
    let kind = "sweep: sheets with a line replaced";
    for (at, others) in
        [(0, &FIRST_LINES[..]), (2, &CORNER_LINES), (4, &CORNER_LINES), (5, &ROW_LINES), (8, &ROW_LINES)]
    {
        for other in others {
            let mut changed = lines.clone();
            changed[at] = other.to_string();
            try_sheet(bench, kind, (changed.join("\n") + "\n").as_bytes(), chance);
        }
    }
    for end in ["", "\n\n", "\n ", "\n\0", "\nR\t0\t1\t2\n", "\r\n"] {
        try_sheet(bench, kind, (lines.join("\n") + end).as_bytes(), chance);
    }
    try_sheet(bench, kind, (lines.join("\r\n") + "\r\n").as_bytes(), chance);
}

/// Honest sheets, in rooms too short, just enough, and more; the desk's text likewise.
pub fn honest(bench: &mut Bench, skin: &Skin, chance: &mut Chance) {
    let mut input = Input::new(skin, &[]);
    input.spare = chance.pick(&[0, 0, 1, 50, -1, -3]);
    bench.try_call("chance: sheets", &input.request(READ_SHEET, chance));
    let sheet = input.sheet(chance);
    let bytes: Vec<u8> = sheet.iter().map(|&word| word as u8).collect();
    let need = desk::text(&bytes).len();
    let room = scribble_bytes((need + chance.pick(&[0, 1, 2, 64])) - chance.pick(&[0, 0, 0, 1]), chance);
    bench.try_call("chance: sheets", &Request { call: DESK_ANSWER, arguments: vec![sheet, room] });
}

fn some_sheet(skin: &Skin, chance: &mut Chance) -> Vec<u8> {
    Input::new(skin, &[]).sheet(chance).into_iter().map(|word| word as u8).collect()
}

/// A sheet with one to three bytes spoiled anywhere.
pub fn spoiled(bench: &mut Bench, skin: &Skin, chance: &mut Chance) {
    let mut text = some_sheet(skin, chance);
    for _ in 0..1 + chance.below(3) {
        let at = chance.below(text.len());
        match chance.below(4) {
            0 => drop(text.remove(at)),
            1 => text.insert(at, chance.pick(b"0123456789\t\n-RC ")),
            _ => text[at] = chance.pick(b"0123456789\t\n-RC \xff"),
        }
    }
    let bytes: Vec<Word> = text.iter().map(|&byte| byte.into()).collect();
    let (table, corners) = (3 * sheet::MOST_ROWS as i64, 3 * sheet::MOST_CORNERS);
    let rooms = [scribble(table, chance), (0..corners).map(|_| Word::from(chance.next() as i32)).collect()];
    let arguments = [vec![bytes], rooms.to_vec()].concat();
    bench.try_call("chance: spoiled sheets", &Request { call: READ_SHEET, arguments });
}

/// The program itself, on honest and damaged sheets.
pub fn on_the_desk(bench: &mut Bench, skin: &Skin, chance: &mut Chance) {
    let mut input = Input::new(skin, &[]);
    if chance.one_in(2) && skin.rows.len() >= 8 {
        let one = chance.pick(&asked(DESK_ANSWER));
        harm(&mut input, DESK_ANSWER, one, chance);
    }
    let sheet: Vec<u8> = input.sheet(chance).into_iter().map(|word| word as u8).collect();
    bench.try_desk("chance: the desk", &sheet);
}
