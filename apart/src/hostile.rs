//! Hostile calls: tables of any rows, and any words of the right type up to the type's ends.

use crate::bench::Bench;
use crate::chance::Chance;
use crate::flip;
use crate::harm::Input;
use crate::make::Skin;
use crate::protocol::*;
use crate::skin::{Row, FARTHEST, MOST_CORNERS, MOST_ROWS};
use crate::step::WIDTH;

/// The calls that are given tables of any rows; the exact sum is asked for with the volume.
pub const TABLES: [usize; 7] = [THIN, VOLUME, EXACT_SUM, REPLAY, RECOVER, FLIP, UNDO];

/// Small tables of any numbers, closed now and then by chance.
pub fn tables(bench: &mut Bench, chance: &mut Chance) {
    let count = 4 + chance.below(3);
    let rows = chance.pick(&[4, 4, 5, 6, 8]);
    let mut all: Vec<Row> = Vec::new();
    for a in 0..count as u32 {
        for b in a + 1..count as u32 {
            for c in b + 1..count as u32 {
                all.extend([[a, b, c], [a, c, b]]);
            }
        }
    }
    chance.shuffle(&mut all);
    let corners = (0..count as i32).map(|n| [n, n * n, -n]).collect();
    let skin = Skin { rows: all[..rows.min(all.len())].to_vec(), corners, genus: 0, name: "any rows" };
    let mut input = Input::new(&skin, &[]);
    input.edges = (0..2 * chance.below(4)).map(|_| chance.below(count + 1) as u32).collect();
    input.flip_log = (0..flip::WIDTH * chance.below(3)).map(|_| chance.below(rows.max(count)) as u32).collect();
    for call in [THIN, VOLUME, REPLAY, RECOVER, FLIP, UNDO] {
        bench.try_call("chance: tables of any rows", &input.request(call, chance));
    }
}

/// The calls that are given any words.
#[rustfmt::skip]
pub const WORDS: [usize; 19] = [
    THIN, GROW_BACK, REPLAY, VOLUME, CHANGE, SHIFT, LIMIT, READ_SHEET, DESK_ANSWER, WRITE_LOG_SHEET, READ_LOG_SHEET,
    READ_RECORDS, RECOVER, JOB, FLIP, UNDO, OPEN_LOG_SHEET, RECORD_AT, EXACT_SUM,
];

/// Any words of the right type, up to the type's ends.
pub fn words(bench: &mut Bench, chance: &mut Chance) {
    let call = bench.some_call(&WORDS, chance);
    let shape = call_of(call).expect("one of the calls");
    let arguments = shape.arguments.iter().map(|argument| any_words(argument.kind, chance)).collect();
    bench.try_call("chance: hostile words", &Request { call, arguments });
}

fn any_words(kind: Kind, chance: &mut Chance) -> Vec<Word> {
    // Whole records, whole rows and whole corners are among them.
    let few = [0, 1, flip::WIDTH, 9, WIDTH, 12, 12, 15, 2 * WIDTH, 24, 3 * WIDTH, 10 * WIDTH];
    let most = [3 * MOST_CORNERS, 3 * MOST_CORNERS + 3, 3 * MOST_ROWS, 3 * MOST_ROWS + 3];
    let length = chance.pick(&[&few[..], &most].concat());
    let mut one = |ends: &[Word], most: usize| match chance.one_in(4) {
        true => chance.pick(ends),
        false => chance.below(most) as Word,
    };
    match kind {
        Kind::OrderUnit => vec![chance.between(0, LAST_UNIT)],
        Kind::LimitUnit => vec![chance.between(1, LAST_UNIT)],
        Kind::Whole => {
            let (rows, corners) = (MOST_ROWS as Word, MOST_CORNERS as Word);
            let ends = [0, 3, 4, corners, corners + 1, rows, rows + 1, -1, Word::MIN, 1 << 32, 1 << 62];
            vec![one(&ends, 600)]
        }
        Kind::Number => vec![one(&[u32::MAX.into(), 1 << 31], 20)],
        Kind::Numbers => {
            // Small enough for a log sheet as well.
            let ends = [u32::MAX.into(), 1 << 31, 0];
            let wild = one(&[1], 2) == 1;
            (0..length).map(|_| one(if wild { &ends } else { &[0] }, 6)).collect()
        }
        Kind::Coordinates => {
            let far = Word::from(FARTHEST);
            let ends = [i32::MAX.into(), i32::MIN.into(), far, -far, far + 1];
            let few = [far, -far];
            let wild = one(&[1], 2) == 1;
            (0..length).map(|_| one(if wild { &ends } else { &few }, FARTHEST as usize)).collect()
        }
        Kind::Bytes => (0..length).map(|_| one(&[0, 255, 9, 10], 256)).collect(),
    }
}
