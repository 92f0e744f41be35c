//! The skins that are measured: spheres by splits and flips, shafts eight corners round, tori eight corners across.

use apart::chance::Chance;
use apart::make::{relabel, roughened, shaft_rows, tetrahedron, turn_rows, Skin};
use apart::parts::grid;
use apart::place;
use apart::sheet;
use apart::skin::Corner;

/// Up to what a sheet holds, as its reading is measured too.
pub const SIZES: [usize; 4] = [128, 256, 512, sheet::MOST_ROWS];
const AROUND: usize = 8;
const FLIPS: usize = 2;
/// Half the side of the box, in centimetres, in which corners lie by chance.
const BOX: i32 = 1_000;
const SEED: u64 = 7;

pub const KINDS: [(&str, fn(usize) -> Skin); 3] = [("Shafts", shaft), ("Spheres", sphere), ("Tori", torus)];

/// Corners in the box, no two at one point.
fn boxed(count: usize, chance: &mut Chance) -> Vec<Corner> {
    place::distinct((0..count).map(|_| place::in_box(BOX, chance)).collect())
}

/// As a scan numbers it: ring by ring, from the bottom up.
fn shaft(rows: usize) -> Skin {
    let rings = rows / 2 / AROUND;
    let corners = place::shaft(rings, AROUND, &mut Chance::new(SEED));
    Skin { rows: shaft_rows(rings as u32, AROUND as u32), corners, genus: 0, name: "a shaft" }
}

/// Relabelled, its rows shuffled and turned.
fn sphere(rows: usize) -> Skin {
    let chance = &mut Chance::new(SEED);
    let corners = boxed(rows / 2 + 2, chance);
    let mut skin = Skin { rows: roughened(&tetrahedron(), rows, FLIPS, chance), corners, genus: 0, name: "a sphere" };
    relabel(&mut skin, chance);
    chance.shuffle(&mut skin.rows);
    turn_rows(&mut skin, chance);
    skin
}

fn torus(rows: usize) -> Skin {
    let down = rows / 2 / AROUND;
    let corners = boxed(down * AROUND, &mut Chance::new(SEED));
    Skin { rows: grid(down as u32, AROUND as u32), corners, genus: 1, name: "a torus" }
}

/// A limit in centimetres that about half of a skin's edges meet.
pub fn middling_limit(skin: &Skin) -> u64 {
    let squared = |a: u32, b: u32| -> u64 {
        let gap = |axis: usize| i64::from(skin.corners[a as usize][axis] - skin.corners[b as usize][axis]);
        (0..3).map(|axis| gap(axis).pow(2) as u64).sum()
    };
    let mut lengths: Vec<u64> =
        skin.rows.iter().flat_map(|&[a, b, c]| [squared(a, b), squared(b, c), squared(c, a)]).collect();
    lengths.sort_unstable();
    lengths[lengths.len() / 2].isqrt()
}
