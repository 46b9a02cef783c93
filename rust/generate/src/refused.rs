//! Clouds over which hardly any triangle is found, for each of the reasons: too few points, no triple close enough to be
//! judged, all that were judged turned down. On both paths, with triples that lie just at the edge of close enough.

use crate::clouds::{bell, sheet, Cloud, LIMIT};
use crate::random::Random;
use crate::{normal, rule, work_lengths, Case};
use oracle::Settings;

/// Turns every triangle down on the multi-radius path, in one of three ways; none of them keeps a triple from being judged.
fn turn_down(random: &mut Random, settings: &mut Settings) {
    match random.below(3) {
        0 => settings.min_triangle_area = 1_000_000.0,
        1 => settings.quality_threshold = 1_000_000.0,
        _ => settings.max_edge_factor = 0.0,
    }
}

/// A radius alone: no further ones, and no percentiles, which would reach farther.
fn alone(random: &mut Random, radius: f32) -> Settings {
    let mut settings = Settings::at_radius(radius);
    settings.set_additional(&[]);
    settings.set_percentiles(&[]);
    settings.adaptive_radius = random.percent(65);
    settings.use_spatial_index = random.percent(75);
    settings.spatial_cell_factor = random.pick(&[0.5, 0.5, 1.0, 1.5, 2.0, 2.0, 3.0]);
    turn_down(random, &mut settings);
    settings
}

/// Smaller radii beside the largest, before and behind it in the list.
fn smaller(random: &mut Random, settings: &mut Settings) {
    let count = random.below(5);
    let radii: Vec<f32> =
        (0..count).map(|_| (settings.radius * random.within(0.1, 1.0) as f32).clamp(0.001, 1_000.0)).collect();
    settings.set_additional(&radii);
}

/// One or two points.
fn few(random: &mut Random) -> (Vec<f32>, Settings) {
    let radius = random.sized(0.001, 1_000.0);
    let apart = radius * random.within(0.0, 2.5) as f32;
    let points = if random.percent(30) { vec![1.0, 2.0, 3.0] } else { vec![0.0, 0.0, 0.0, apart, 0.0, 0.0] };
    (points, alone(random, radius))
}

/// A lattice whose points are a little less or more than two radii apart: neighbours by their cells, most of them not close.
fn lattice(random: &mut Random) -> (Vec<f32>, Settings) {
    let radius = random.within(0.2, 5.0) as f32;
    let step = radius * 2.0 * random.pick(&[0.9999, 1.0, 1.0001, 1.01, 1.2, 1.45]);
    let side = [random.whole(1, 4), random.whole(1, 4), random.whole(1, 4)];
    let mut points = Vec::new();
    for x in 0..side[0] {
        for y in 0..side[1] {
            for z in 0..side[2] {
                points.extend([x, y, z].map(|at| at as f32 * step));
            }
        }
    }
    let mut settings = alone(random, radius);
    smaller(random, &mut settings);
    (points, settings)
}

/// Pairs of points, far from each other: each has one close neighbour.
fn pairs(random: &mut Random) -> (Vec<f32>, Settings) {
    let radius = random.within(0.1, 2.0) as f32;
    let mut points = Vec::new();
    for at in 0..random.whole(2, 40) {
        let x = at as f32 * radius * 6.0;
        points.extend([x, 0.0, 0.0, x, radius * random.within(0.0, 2.2) as f32, 0.0]);
    }
    let mut settings = alone(random, radius);
    smaller(random, &mut settings);
    (points, settings)
}

/// Three points, some of them on one spot, with a distance of two radii, one step less or one step more; in any order, and with
/// lone points before and behind.
fn edge(random: &mut Random) -> (Vec<f32>, Settings) {
    let radius = random.within(0.01, 100.0) as f32;
    let reach = radius * 2.0;
    let apart = f32::from_bits(reach.to_bits() - 1 + random.below(3) as u32);
    let axis = random.below(3);
    let place = |at: f32| {
        let mut p = [0.0; 3];
        p[axis] = at;
        p
    };
    let mut three = match random.below(3) {
        0 => vec![place(0.0), place(0.0), place(apart)],
        1 => vec![place(-apart), place(0.0), place(apart)],
        _ => vec![place(0.0), place(apart * 0.5), place(apart)],
    };
    let turns = random.below(3);
    three.rotate_left(turns);
    let mut points: Vec<f32> = Vec::new();
    let lone = |k: usize| [0.0, 0.0, (k + 1) as f32 * radius * 9.0];
    for k in 0..random.below(3) {
        points.extend(lone(k));
    }
    points.extend(three.into_iter().flatten());
    for k in 3..3 + random.below(3) {
        points.extend(lone(k));
    }
    let mut settings = alone(random, radius);
    smaller(random, &mut settings);
    (points, settings)
}

/// Points within two radii, close to the borders of small cells: now and then a close one is no neighbour.
fn cells(random: &mut Random) -> (Vec<f32>, Settings) {
    let radius = random.within(0.3, 1.5) as f32;
    let start = random.within(0.5, 3.0) as f32;
    let far = start + f32::from_bits((radius * 2.0).to_bits() - random.below(4) as u32);
    let mut points = vec![0.0, 0.0, 0.0, start, 0.0, 0.0];
    for _ in 0..random.whole(2, 3) {
        points.extend([far, 0.0, 0.0]);
    }
    let mut settings = alone(random, radius);
    settings.use_spatial_index = true;
    settings.spatial_cell_factor = 0.5;
    (points, settings)
}

/// Lone points, about 1,000 of them, and then three together: whether they are tried as the first of a triple hangs on their
/// number.
fn thousandth(random: &mut Random) -> (Vec<f32>, Settings) {
    let lone = random.whole(996, 1_001);
    let (radius, step) = (0.5, 8.0);
    let mut points: Vec<f32> = (0..lone).flat_map(|k| [(k % 40) as f32 * step, (k / 40) as f32 * step, 0.0]).collect();
    for k in 0..3 {
        points.extend([0.25 * k as f32, 0.0, 100.0]);
    }
    let mut settings = alone(random, radius);
    settings.spatial_cell_factor = random.pick(&[1.0, 2.0]);
    (points, settings)
}

/// A cloud of the usual kinds whose triangles are all turned down, or laid.
fn usual(random: &mut Random) -> (Vec<f32>, Settings) {
    let size = random.whole(4, 60);
    let Cloud { points, spacing, .. } = if random.percent(50) { bell(random, size) } else { sheet(random, size, 0.2) };
    let radius = (spacing * random.within(0.3, 1.6)) as f32;
    let mut settings = alone(random, radius);
    smaller(random, &mut settings);
    if random.percent(20) {
        settings.min_triangle_area = 1e-8;
        settings.quality_threshold = 0.1;
        settings.max_edge_factor = 3.0;
    }
    (points, settings)
}

/// Points in a line or on one spot: judged, and turned down on the plain path too.
fn line(random: &mut Random) -> (Vec<f32>, Settings) {
    let radius = random.within(0.1, 10.0) as f32;
    let step = random.pick(&[0.0, 0.3, 0.9, 1.1, 1.9, 2.1]) * radius;
    let points = (0..random.whole(3, 30)).flat_map(|k| [1.0, k as f32 * step, -2.0]).collect();
    (points, alone(random, radius))
}

type Kind = (&'static str, fn(&mut Random) -> (Vec<f32>, Settings));

const KINDS: [Kind; 8] = [
    ("few", few),
    ("lattice", lattice),
    ("pairs", pairs),
    ("edge", edge),
    ("cells", cells),
    ("usual", usual),
    ("line", line),
    ("thousandth", thousandth),
];

/// Four points of which the last three are within two radii of each other, but the second is no neighbour of the last two.
fn no_neighbours() -> (Vec<f32>, Settings) {
    let [x, y] = [0x3ff5_0d74, 0x405c_8c1c].map(f32::from_bits);
    let mut settings = Settings::at_radius(f32::from_bits(0x3f44_0ac4));
    settings.set_additional(&[]);
    settings.set_percentiles(&[]);
    settings.spatial_cell_factor = 0.5;
    settings.min_triangle_area = 1_000_000.0;
    (vec![0.0, 0.0, 0.0, x, 0.0, 0.0, y, 0.0, 0.0, y, 0.0, 0.0], settings)
}

/// Refused case `number` of a seed; the first is fixed. One in forty has a thousand points, which takes the published code long.
pub fn refused(seed: u64, number: u64) -> Case {
    let random = &mut Random::new(seed, number);
    let (kind, (points, mut settings)) = match number {
        0 => ("no neighbours", no_neighbours()),
        _ if number % 40 == 7 => (KINDS[7].0, KINDS[7].1(random)),
        _ => {
            let (kind, make) = KINDS[random.below(7)];
            (kind, make(random))
        }
    };
    settings.frontier_rule = rule(seed, number);
    debug_assert!(points.iter().all(|x| x.abs() <= LIMIT));
    let (words, floats) = work_lengths(points.len() / 3);
    let normals = points.iter().map(|_| normal(random)).collect();
    Case { kind, points, normals, settings, percentile: 0.5, words, floats, slack: random.pick(&[0, 3, 30]) }
}
