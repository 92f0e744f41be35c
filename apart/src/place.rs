//! Places for corners: boxes of every size, the ends of the range, whole lengths, clusters, shafts, and the
//! largest sums that tables can have.

use crate::chance::Chance;
use crate::skin::{Corner, FARTHEST};
use std::collections::HashSet;

/// A place in a box round the origin.
pub fn in_box(half: i32, chance: &mut Chance) -> Corner {
    [0; 3].map(|_: i32| chance.between((-half).into(), half.into()) as i32)
}

/// Corners by chance, all by one of several habits. Of one habit, the smallest box, many stand at one point: 01 allows
/// it, and a limit of 0 contracts their edges. Of any other, none do.
pub fn corners(count: usize, chance: &mut Chance) -> Vec<Corner> {
    let habit = chance.below(10);
    let scale = chance.pick(&[1, 7, 50, 2_000]);
    let mut one = || match habit {
        0 => in_box(1, chance),
        1 | 2 => in_box(100, chance),
        3 => in_box(1_000, chance),
        4 | 5 => in_box(FARTHEST, chance),
        6 => [0; 3].map(|_: i32| chance.pick(&[-FARTHEST, FARTHEST])),
        // Many edges of a whole length: 3, 4, 5 and their multiples.
        7 => [0; 3].map(|_: i32| chance.pick(&[0, 3, 4, 0, -3, -4]) * scale),
        8 => {
            let centre: Corner = [0; 3].map(|_: i32| chance.pick(&[-40_000, 0, 300]));
            let near = in_box(20, chance);
            [0, 1, 2].map(|i| centre[i] + near[i])
        }
        _ => [chance.between(-400, 400) as i32 * 5, 0, 0],
    };
    let corners = (0..count).map(|_| one()).collect();
    if habit == 0 {
        corners
    } else {
        distinct(corners)
    }
}

/// The same corners, but for those at the point of an earlier one: each moves to a free point nearby, by no chance, so
/// that whatever is drawn later stays as it was.
pub fn distinct(mut corners: Vec<Corner>) -> Vec<Corner> {
    let mut taken = HashSet::new();
    for corner in &mut corners {
        let place = (0..).find_map(|far| shell(*corner, far).find(|place| !taken.contains(place)));
        *corner = place.expect("the range has more points than a table has corners");
        taken.insert(*corner);
    }
    corners
}

/// The points in range that lie just so far off along one axis, and no farther along another.
fn shell([x, y, z]: Corner, far: i32) -> impl Iterator<Item = Corner> {
    let near = move |n: i32| (n - far).max(-FARTHEST)..=(n + far).min(FARTHEST);
    let all = near(x).flat_map(move |a| near(y).flat_map(move |b| near(z).map(move |c| [a, b, c])));
    all.filter(move |&[a, b, c]| (a - x).abs().max((b - y).abs()).max((c - z).abs()) == far)
}

/// Corners of a shaft along z, the bottom and the top apex last; the radius wavers round its mean.
pub fn shaft(rings: usize, around: usize, chance: &mut Chance) -> Vec<Corner> {
    let radius = chance.between(30, 600);
    let noise = chance.between(0, 1 + radius / 6);
    let height = chance.between(10, (90_000 / rings as i64).min(400));
    let start = -height * rings as i64 / 2;
    let mut corners = Vec::new();
    for ring in 0..rings {
        for k in 0..around {
            let r = radius + chance.between(-noise, noise);
            let [x, y] = on_circle(r, k, around);
            corners.push([x as i32, y as i32, (start + height * ring as i64) as i32]);
        }
    }
    corners.push([0, 0, start as i32 - 20]);
    corners.push([0, 0, (start + height * rings as i64) as i32]);
    corners
}

/// A point of a circle, step k of n, in whole numbers: a quarter turn runs over (m - t, t) put on the circle.
fn on_circle(radius: i64, k: usize, n: usize) -> [i64; 2] {
    let (quarter, t, m) = (4 * k / n, (4 * k % n) as i64, n as i64);
    let (x, y) = (radius * (m * m - t * t) / (m * m + t * t), radius * 2 * m * t / (m * m + t * t));
    match quarter {
        0 => [x, y],
        1 => [-y, x],
        2 => [-x, -y],
        _ => [y, -x],
    }
}

/// For a torus of even sides by the trial ring's rule: each corner at one of four ends of the cube, so that every
/// row has the largest determinant there is, 4 x 50,000^3, and all with one sign.
pub fn largest_sum(down: u32, across: u32) -> Vec<Corner> {
    let f = FARTHEST;
    let ends = [[f, f, f], [f, -f, -f], [-f, f, -f], [-f, -f, f]];
    (0..down * across).map(|n| ends[((n / across % 2) * 2 + n % across % 2) as usize]).collect()
}
