//! Makes skins: spheres by splits and flips, tori, genus 2 to 5, shafts; relabelled, with rows shuffled and turned.

use crate::chance::Chance;
use crate::parts::grid;
use crate::place;
use crate::sheet;
use crate::skin::{Corner, Row};
use crate::tally::MANY_ROWS;
use std::collections::HashMap;

#[derive(Clone)]
pub struct Skin {
    pub rows: Vec<Row>,
    pub corners: Vec<Corner>,
    pub genus: usize,
    /// What kind of skin it is, for the summary.
    pub name: &'static str,
}

impl Skin {
    pub fn table(&self) -> Vec<u32> {
        self.rows.concat()
    }

    pub fn coordinates(&self) -> Vec<i32> {
        self.corners.concat()
    }
}

/// A closed table in the making: its rows, and the place of the row of each directed edge.
struct Weave {
    rows: Vec<Row>,
    place: HashMap<(u32, u32), usize>,
    corners: u32,
}

impl Weave {
    fn new(rows: &[Row]) -> Weave {
        let corners = rows.iter().flatten().max().map_or(0, |&n| n + 1);
        let mut weave = Weave { rows: Vec::new(), place: HashMap::new(), corners };
        for &row in rows {
            weave.rows.push(row);
            weave.put(weave.rows.len() - 1, row);
        }
        weave
    }

    fn put(&mut self, place: usize, row: Row) {
        let [a, b, c] = row;
        self.rows[place] = row;
        for edge in [(a, b), (b, c), (c, a)] {
            self.place.insert(edge, place);
        }
    }

    fn add(&mut self, row: Row) {
        self.rows.push(row);
        self.put(self.rows.len() - 1, row);
    }

    /// Splits a row in three round a new corner.
    fn split(&mut self, place: usize) {
        let [a, b, c] = self.rows[place];
        let new = self.corners;
        self.corners += 1;
        self.put(place, [a, b, new]);
        self.add([b, c, new]);
        self.add([c, a, new]);
    }

    /// Turns the edge between two rows to their other diagonal, unless that edge stands already.
    fn flip(&mut self, place: usize, chance: &mut Chance) {
        let turn = chance.below(3);
        let [a, b, c] = turned(self.rows[place], turn);
        let other = self.place[&(b, a)];
        let d = self.rows[other].into_iter().find(|n| *n != a && *n != b).expect("a third corner");
        if c == d || self.place.contains_key(&(c, d)) || self.place.contains_key(&(d, c)) {
            return;
        }
        self.place.remove(&(a, b));
        self.place.remove(&(b, a));
        self.put(place, [d, b, c]);
        self.put(other, [c, a, d]);
    }

    /// Splits up to the asked number of rows, with flips between and after.
    fn roughen(mut self, rows: usize, flips: usize, chance: &mut Chance) -> Vec<Row> {
        while self.rows.len() + 2 <= rows {
            self.split(chance.below(self.rows.len()));
            for _ in 0..flips {
                self.flip(chance.below(self.rows.len()), chance);
            }
        }
        for _ in 0..flips * self.rows.len() {
            self.flip(chance.below(self.rows.len()), chance);
        }
        self.rows
    }
}

pub fn turned([a, b, c]: Row, times: usize) -> Row {
    match times % 3 {
        0 => [a, b, c],
        1 => [b, c, a],
        _ => [c, a, b],
    }
}

/// 01's T.
pub fn tetrahedron() -> Vec<Row> {
    vec![[0, 1, 2], [0, 2, 3], [0, 3, 1], [1, 3, 2]]
}

/// 01's O.
pub fn octahedron() -> Vec<Row> {
    vec![[0, 1, 2], [0, 2, 3], [0, 3, 4], [0, 4, 1], [5, 2, 1], [5, 3, 2], [5, 4, 3], [5, 1, 4]]
}

/// 01's M.
pub fn seven_corner_torus() -> Vec<Row> {
    (0..7).flat_map(|i| [[i, (i + 1) % 7, (i + 3) % 7], [i, (i + 3) % 7, (i + 2) % 7]]).collect()
}

/// Rings of corners one above the other, closed by an apex at each end: the last two corners.
pub fn shaft_rows(rings: u32, around: u32) -> Vec<Row> {
    let corner = |ring: u32, k: u32| ring * around + k % around;
    let (bottom, top) = (rings * around, rings * around + 1);
    let mut rows = Vec::new();
    for k in 0..around {
        rows.push([bottom, corner(0, k + 1), corner(0, k)]);
        rows.push([top, corner(rings - 1, k), corner(rings - 1, k + 1)]);
        for ring in 1..rings {
            let (a, b) = (corner(ring - 1, k), corner(ring - 1, k + 1));
            let (c, d) = (corner(ring, k + 1), corner(ring, k));
            rows.extend([[a, b, c], [a, c, d]]);
        }
    }
    rows
}

/// Two tables glued along a row of each, which both leave: the genus is the sum.
fn glued(first: &[Row], second: &[Row], chance: &mut Chance) -> Vec<Row> {
    let corners = first.iter().flatten().max().expect("rows") + 1;
    let here = turned(first[chance.below(first.len())], chance.below(3));
    let there = second[chance.below(second.len())];
    // Turning over is what makes the two rims run against each other.
    let rim = [(there[1], here[0]), (there[0], here[1]), (there[2], here[2])];
    let mut fresh = HashMap::from(rim);
    let mut next = corners;
    let mut rename = |n: u32| {
        *fresh.entry(n).or_insert_with(|| {
            next += 1;
            next - 1
        })
    };
    let same = |row: &Row, other: Row| (0..3).any(|turn| turned(*row, turn) == other);
    let mut rows: Vec<Row> = first.iter().copied().filter(|row| !same(row, here)).collect();
    rows.extend(second.iter().filter(|row| **row != there).map(|row| row.map(&mut rename)));
    rows
}

fn some_torus(rows: usize, chance: &mut Chance) -> Vec<Row> {
    let largest = (rows / 2).isqrt();
    if largest < 3 || chance.one_in(3) {
        return seven_corner_torus();
    }
    let down = 3 + chance.below(largest - 2);
    let across = 3 + chance.below((rows / 2 / down).saturating_sub(2).clamp(1, 14));
    grid(down as u32, across as u32)
}

fn sphere(rows: usize, chance: &mut Chance) -> Vec<Row> {
    let start = match chance.below(4) {
        0 if rows >= 8 => octahedron(),
        1 if rows >= 20 => shaft_rows(1, 3 + chance.below(rows / 2 - 3) as u32),
        _ => tetrahedron(),
    };
    let flips = chance.below(4);
    roughened(&start, rows, flips, chance)
}

fn surface(genus: usize, rows: usize, chance: &mut Chance) -> Vec<Row> {
    let share = rows / genus;
    let mut base = some_torus(share, chance);
    for _ in 1..genus {
        base = glued(&base, &some_torus(share, chance), chance);
    }
    let flips = chance.below(3);
    roughened(&base, rows, flips, chance)
}

/// A table made rougher by splits, up to so many rows, and flips, so many for each split and each row.
pub fn roughened(start: &[Row], rows: usize, flips: usize, chance: &mut Chance) -> Vec<Row> {
    Weave::new(start).roughen(rows, flips, chance)
}

/// A table each of whose rows is split round a corner of its own.
pub fn each_row_split(rows: &[Row]) -> Vec<Row> {
    let mut weave = Weave::new(rows);
    (0..rows.len()).for_each(|place| weave.split(place));
    weave.rows
}

/// Renumbers the corners by chance.
pub fn relabel(skin: &mut Skin, chance: &mut Chance) {
    let mut names: Vec<u32> = (0..skin.corners.len() as u32).collect();
    chance.shuffle(&mut names);
    rename(skin, &names);
}

/// Numbers the corners from the last to the first.
pub fn reverse(skin: &mut Skin) {
    rename(skin, &(0..skin.corners.len() as u32).rev().collect::<Vec<u32>>());
}

/// Exchanges the numbers of two corners.
pub fn exchange(skin: &mut Skin, one: u32, other: u32) {
    let mut names: Vec<u32> = (0..skin.corners.len() as u32).collect();
    names.swap(one as usize, other as usize);
    rename(skin, &names);
}

/// Gives each corner the name at its number, in rows and coordinates alike.
fn rename(skin: &mut Skin, names: &[u32]) {
    let old = skin.corners.clone();
    for (from, &to) in names.iter().enumerate() {
        skin.corners[to as usize] = old[from];
    }
    for row in &mut skin.rows {
        *row = row.map(|n| names[n as usize]);
    }
}

/// Relabels, shuffles and turns rows, each by chance.
pub fn disguise(skin: &mut Skin, chance: &mut Chance) {
    if !chance.one_in(3) {
        relabel(skin, chance);
    }
    if !chance.one_in(3) {
        chance.shuffle(&mut skin.rows);
    }
    if !chance.one_in(3) {
        turn_rows(skin, chance);
    }
}

/// Turns each row by chance.
pub fn turn_rows(skin: &mut Skin, chance: &mut Chance) {
    for row in &mut skin.rows {
        *row = turned(*row, chance.below(3));
    }
}

/// A skin of the genus, with at most so many rows unless the genus needs more.
pub fn skin_of_genus(genus: usize, rows: usize, chance: &mut Chance) -> Skin {
    let rows = if genus == 0 { sphere(rows, chance) } else { surface(genus, rows, chance) };
    let count = rows.iter().flatten().max().map_or(0, |&n| n as usize + 1);
    let name = ["a sphere", "a torus", "genus 2", "genus 3", "genus 4", "genus 5"][genus];
    let mut skin = Skin { rows, corners: place::corners(count, chance), genus, name };
    disguise(&mut skin, chance);
    skin
}

/// A shaft with a noisy radius.
pub fn shaft(rows: usize, chance: &mut Chance) -> Skin {
    let around = 3 + chance.below(10.min(rows / 4));
    let rings = (rows / 2 / around).max(1);
    let mut skin = Skin {
        rows: shaft_rows(rings as u32, around as u32),
        corners: place::shaft(rings, around, chance),
        genus: 0,
        name: "a shaft",
    };
    disguise(&mut skin, chance);
    skin
}

/// Any kind of skin, with so many rows or as few as its kind can have.
pub fn skin(rows: usize, chance: &mut Chance) -> Skin {
    match chance.below(12) {
        0..=4 => skin_of_genus(0, rows, chance),
        5..=7 => skin_of_genus(1, rows.max(14), chance),
        8 | 9 => {
            let genus = 2 + chance.below(4);
            skin_of_genus(genus, rows.max(12 * genus + 2), chance)
        }
        _ => shaft(rows.max(8), chance),
    }
}

/// How many rows: mostly few, some up to 256.
pub fn size(chance: &mut Chance) -> usize {
    match chance.below(40) {
        0..=9 => 4 + chance.below(10),
        10..=35 => 6 + chance.below(54),
        36..=38 => 40 + chance.below(90),
        _ => 100 + chance.below(157),
    }
}

/// How many rows of a large skin, up to what a sheet holds: its calls are tried on large skins too.
pub fn large_size(chance: &mut Chance) -> usize {
    match chance.below(4) {
        0 => sheet::MOST_ROWS - chance.below(6),
        _ => MANY_ROWS + 1 + chance.below(sheet::MOST_ROWS - MANY_ROWS),
    }
}
