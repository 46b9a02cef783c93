//! Families of clouds on which a search for seeds takes long, and a search for more of them.

use crate::random::Random;
use crate::settings::percentile;
use oracle::Settings;

/// A cloud with its settings.
#[derive(Clone, Debug)]
pub struct Slow {
    pub name: &'static str,
    pub points: Vec<f32>,
    pub settings: Settings,
}

/// What each family is slow by is said at its name.
pub const FAMILIES: [&str; 14] = [
    "zero",     // a radius of 0: twelve points at each place of a lattice
    "late",     // a seed that comes first in number, all other points nearly in a line
    "arc",      // slivers along a shallow arc, a high threshold
    "arc, low", // the same with a low threshold and nine radii
    "two",      // two tiny clusters, under the settings of `lay`
    "score",    // all near, a threshold that nothing reaches
    "area",     // all near, a least area that nothing reaches
    "dust",     // edges very unlike
    "corners",  // three clusters at the corners of a triangle, a threshold within some ulps of its score
    "pivots",   // the slivers again, all of which a ball meets
    "edge",     // slivers, edges too long
    "second",   // as `late`, but the seed needs a later point
    "needles",  // the two clusters so near that only the score of their needles refuses them
    "sparse",   // a triangle after points that have no neighbour
];

/// The corners of an equilateral triangle.
const CORNERS: [[f64; 2]; 3] = [[1.0, 0.0], [-0.5, 0.866_025_403_784_438_6], [-0.5, -0.866_025_403_784_438_6]];

/// Point i of n.
fn place(name: &str, random: &mut Random, i: usize, n: usize) -> [f64; 3] {
    let t = i as f64 / n as f64;
    let [c, s] = CORNERS[i % 3];
    let mut small = |size: f64| [0; 3].map(|_| random.unit() * size);
    match name {
        "zero" => [i / 12 % 8, i / 96 % 8, i / 768].map(|x| x as f64),
        "late" if i < 27 => [2.0 + 1e-3 * c, 0.1 * (i / 3) as f64, 1e-3 * s],
        "second" if (1..28).contains(&i) => [2.0 + 1e-3 * c, 0.1 * ((i - 1) / 3) as f64, 1e-3 * s],
        "two" => {
            let [x, y, z] = small(1e-4);
            [x + (i % 2) as f64 * 0.0999, y, z]
        }
        "needles" => {
            let [x, y, z] = small(1e-4);
            [x + (i % 2) as f64 * 0.0199, y, z]
        }
        "sparse" if i + 3 < n => [100.0 * (i % 64) as f64, 100.0 * (i / 64) as f64, 0.0],
        "sparse" => [9_000.0 + 0.5 * (i % 3 / 2) as f64, 9_000.0 + 0.5 * (i % 3 % 2) as f64, 0.0],
        "score" | "area" => small(1.0),
        "dust" => {
            let [x, y, z] = small(1e-6);
            [x + f64::from(1 << (i % 16)) * 1e-3, y, z]
        }
        "corners" => {
            let [x, y, _] = small(1e-6);
            [c + x, s + y, 0.0]
        }
        _ => [t, 1e-2 * t * t, 0.0],
    }
}

/// Radii of the families with several: each a little above the last.
fn rising(radius: f32) -> Vec<f32> {
    (1..9).map(|k| radius + 0.01 * k as f32).collect()
}

/// n points of a family, with its settings.
pub fn family(name: &'static str, random: &mut Random, n: usize) -> Slow {
    let points = (0..n).flat_map(|i| place(name, random, i, n).map(|x| x as f32)).collect();
    let mut settings = Settings::at_radius(10.0);
    settings.set_percentiles(&[]);
    settings.set_additional(&[]);
    settings.min_triangle_area = 0.0;
    settings.max_edge_factor = 1e6;
    match name {
        "zero" => {
            settings = Settings::at_radius(1.0);
            settings.set_percentiles(&[0.5]);
            settings.min_triangle_area = 0.0;
        }
        "late" | "second" => {
            settings.radius = 2.0;
            settings.set_additional(&rising(2.0));
            settings.quality_threshold = 0.5;
            settings.spatial_cell_factor = 16.0;
        }
        "arc" => settings.quality_threshold = 0.66,
        "arc, low" => {
            settings.quality_threshold = 0.36;
            settings.set_additional(&rising(10.0));
        }
        "two" | "needles" => settings = Settings::at_radius(0.1),
        "sparse" => {
            settings = Settings::at_radius(1.0);
            settings.set_additional(&[]);
        }
        "score" => settings.quality_threshold = 1.00001,
        "area" => settings.min_triangle_area = 0.87,
        "dust" => {
            settings.radius = 100.0;
            settings.quality_threshold = 0.34;
        }
        "corners" => settings.quality_threshold = 1.0000008,
        "edge" => {
            settings.quality_threshold = 0.0;
            settings.max_edge_factor = 1e-7;
        }
        _ => settings.quality_threshold = 0.335,
    }
    Slow { name, points, settings }
}

/// A cloud of some family, settings changed at random.
pub fn drawn(seed: u64, number: u64) -> Slow {
    let random = &mut Random::new(seed, number);
    let name = random.pick(&FAMILIES);
    let n = random.pick(&[12, 16, 20, 24, 30, 40, 64]);
    let mut slow = family(name, random, n);
    let settings = &mut slow.settings;
    if random.percent(50) {
        settings.quality_threshold =
            random.pick(&[0.0, 0.05, 0.1, 0.2, 0.3, 0.34, 0.4, 0.5, 0.6, 0.7, 0.8, 0.9, 0.99, 1.0, 1.0000001]);
    }
    if random.percent(30) {
        settings.max_edge_factor = random.pick(&[0.0, 0.1, 1.0, 3.0]);
    }
    if random.percent(30) {
        settings.min_triangle_area = random.pick(&[0.0, 1e-12, 1e-8, 1e-5, 1e-3]);
    }
    if random.percent(30) {
        settings.radius = random.pick(&[0.001, 0.01, 0.1, 0.3, 1.0, 10.0]);
    }
    if random.percent(30) {
        settings.set_additional(&rising(settings.radius));
    }
    if random.percent(20) {
        settings.set_percentiles(&[percentile(random), percentile(random)]);
    }
    if random.percent(30) {
        settings.use_spatial_index = false;
    }
    settings.spatial_cell_factor = random.pick(&[0.5, 2.0, 2.0, 16.0]);
    stir(random, &mut slow.points);
    slow
}

/// Points scaled, some moved, two of them exchanged.
fn stir(random: &mut Random, points: &mut [f32]) {
    let scale = random.pick(&[1.0, 1.0, 1.0, 1e-2, 10.0, 300.0]);
    let moved = random.pick(&[0, 0, 0, 2, 25]);
    for x in points.iter_mut() {
        *x *= scale;
        if random.percent(moved) {
            *x += random.within(0.0, 0.1) as f32;
        }
    }
    for _ in 0..random.pick(&[0, 1, 8]) {
        let (a, b) = (random.below(points.len() / 3), random.below(points.len() / 3));
        for axis in 0..3 {
            points.swap(3 * a + axis, 3 * b + axis);
        }
    }
}
