//! Damaged lists of edges and flip logs, on sound and on damaged tables: every side flips and undoes alike, or refuses by the same number.

use crate::damage;
use crate::turned::{Flipping, Undoing};
use apart::chance::Chance;
use apart::flip::{records_of, WIDTH};
use apart::flips::{give, some_list, spoil};
use apart::harm::{asked, harm, Input};
use apart::make::{self, Skin};
use apart::protocol::{FLIP, UNDO};
use apart::skin::rows_of;
use std::collections::BTreeSet;

const SEED: u64 = 19;
/// How often each measured skin is taken, and how many smaller ones are.
const OFTEN: usize = 25;
const SMALLER: usize = 1_000;
/// The most edges of a list, and the fewest rows that a harm of the second program needs.
const MOST: usize = 12;
const ROOMY: usize = 8;

/// An input for a call, with up to three damages, each of them one that a line of the refusal table speaks of, or one by chance.
fn damaged(skin: &Skin, call: usize, chance: &mut Chance) -> Input {
    let mut input = Input::new(skin, &[]);
    give(&mut input, call, MOST, chance);
    for _ in 0..chance.below(4) {
        match chance.below(4) {
            0 => harm(&mut input, call, chance.pick(&asked(call)), chance),
            1 => damage::spoil(&mut input.table, skin.corners.len(), chance),
            _ => spoil_call(&mut input, call, skin.corners.len(), chance),
        }
    }
    input
}

/// Damage to a list or a log alone; some are still done whole.
fn spoil_call(input: &mut Input, call: usize, corners: usize, chance: &mut Chance) {
    let rows = rows_of(&input.table);
    match call {
        FLIP => input.edges = some_list(&rows, corners, MOST, chance),
        _ => {
            let mut log = records_of(&input.flip_log);
            if !log.is_empty() {
                spoil(&mut log, rows.len() as u32, corners as u32, chance);
            }
            input.flip_log = log.concat();
        }
    }
}

/// What the call is refused with, the same on every side; 0 where it is not.
fn refused(input: Input, call: usize) -> u64 {
    let corners = input.count.map_or(input.coordinates.len() / 3, |count| count as usize);
    let table = input.table.into();
    let refused = match call {
        FLIP => {
            let room = (WIDTH * (input.edges.len() / 2)) as i64 + input.spare;
            let flipping = Flipping { corners, table, edges: input.edges, room: room.max(0) as usize };
            Flipping::call("flip a damaged list", &[flipping]).refused
        }
        _ => Undoing::call("undo a damaged log", &[Undoing { corners, table, log: input.flip_log }]).refused,
    };
    refused.map_or(0, |refusal| refusal.number())
}

/// How many answers were compared: of both calls, on the measured skins and on smaller ones of every kind.
pub fn compare(skins: &[Skin]) -> usize {
    let chance = &mut Chance::new(SEED);
    let mut compared = 0;
    for call in [FLIP, UNDO] {
        let mut met = BTreeSet::new();
        for skin in skins.iter().flat_map(|skin| vec![skin; OFTEN]) {
            met.insert(refused(damaged(skin, call, chance), call));
        }
        for _ in 0..SMALLER {
            let rows = make::size(chance).max(ROOMY);
            met.insert(refused(damaged(&make::skin(rows, chance), call, chance), call));
        }
        // Whatever the call refuses with, and what it does.
        let wanted: BTreeSet<u64> =
            [0].into_iter().chain(asked(call).iter().map(|harm| harm.number() as u64)).collect();
        assert_eq!(met, wanted, "the refusals that damage has met");
        compared += skins.len() * OFTEN + SMALLER;
    }
    compared
}
