//! Damaged tables: every side of check and volume refuses them alike, by the same number.

use crate::Input;
use apart::chance::Chance;
use apart::harm::{self, asked, harm};
use apart::make::{self, Skin};
use apart::protocol::VOLUME;
use std::collections::BTreeSet;

const SEED: u64 = 11;
/// How often each measured skin is damaged, and how many smaller ones are.
const OFTEN: usize = 100;
const SMALLER: usize = 1_000;
/// The fewest rows that a harm of the second program needs.
const ROOMY: usize = 8;

/// Damage at any place: a number changed, a row dropped, turned over or repeated, a corner of two rows exchanged, a corner put on another.
pub fn spoil(table: &mut Vec<u32>, corners: usize, chance: &mut Chance) {
    let (at, other) = (chance.below(table.len()), chance.below(table.len()));
    let row = 3 * chance.below(table.len() / 3);
    match chance.below(6) {
        0 => table[at] = chance.below(corners + 1) as u32,
        1 => drop(table.drain(row..row + 3)),
        2 => table.swap(row, row + 1),
        3 => table.extend_from_within(row..row + 3),
        4 => table.swap(at, other),
        _ => {
            let (from, to) = (table[at], table[other]);
            table.iter_mut().filter(|corner| **corner == from).for_each(|corner| *corner = to);
        }
    }
}

/// A skin with up to three damages, each of them one that a line of the refusal table speaks of, or one by chance.
fn damaged(skin: &Skin, chance: &mut Chance) -> Input {
    let mut input = harm::Input::new(skin, &[]);
    for _ in 0..chance.below(4) {
        match chance.one_in(2) {
            true => harm(&mut input, VOLUME, chance.pick(&asked(VOLUME)), chance),
            false => spoil(&mut input.table, skin.corners.len(), chance),
        }
    }
    Input { table: input.table, corners: input.coordinates, ..Input::default() }
}

/// How many answers were compared: of check and volume on damaged tables of the measured skins and of smaller ones of every kind.
pub fn compare(skins: &[Skin]) -> usize {
    let chance = &mut Chance::new(SEED);
    let mut tables: Vec<Input> =
        skins.iter().flat_map(|skin| vec![skin; OFTEN]).map(|skin| damaged(skin, chance)).collect();
    for _ in 0..SMALLER {
        let rows = make::size(chance).max(ROOMY);
        tables.push(damaged(&make::skin(rows, chance), chance));
    }
    let mut met = BTreeSet::new();
    for input in &tables {
        met.extend([input.check(), input.volume()].map(|call| call.refused.map_or(0, |refusal| refusal.number())));
    }
    // Whatever a volume refuses with, and what it accepts.
    let wanted: BTreeSet<u64> = [0].into_iter().chain(asked(VOLUME).iter().map(|harm| harm.number() as u64)).collect();
    assert_eq!(met, wanted, "the refusals that damage has met");
    2 * tables.len()
}
