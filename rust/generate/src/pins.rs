//! Clouds that stand at the edge of one decision each: were it made otherwise, the result would be another. The list of
//! changes in tests/mutants.txt says which decisions.

use crate::clouds::turn;
use crate::fixed::plain;
use crate::Case;
use oracle::Settings;

/// A radius and no others, all triangles with an area taken.
fn one_radius(radius: f32) -> Settings {
    let mut settings = Settings::at_radius(radius);
    settings.set_additional(&[]);
    settings.set_percentiles(&[]);
    settings.quality_threshold = 0.0;
    settings.min_triangle_area = 0.0;
    settings
}

/// The same without a spatial index: neighbours come in the order of their numbers.
fn by_number(radius: f32) -> Settings {
    Settings { use_spatial_index: false, ..one_radius(radius) }
}

/// The plain path.
fn no_radii(radius: f32) -> Settings {
    Settings { adaptive_radius: false, ..one_radius(radius) }
}

/// `alone` points that have no neighbour, then a triangle for the larger radius; before them, where asked, one for the
/// smaller radius.
fn tries(alone: usize, with_small: bool) -> Case {
    let corner = |x: f32, edge: f32| [x, 0.0, 0.0, x + edge, 0.0, 0.0, x, edge, 0.0];
    let mut points: Vec<f32> = if with_small { corner(-9_000.0, 1.0).to_vec() } else { vec![] };
    points.extend((0..alone).flat_map(|i| [(i % 40) as f32 * 100.0, (i / 40) as f32 * 100.0 + 100.0, 0.0]));
    points.extend(corner(9_000.0, 4.0));
    let mut settings = one_radius(1.0);
    settings.set_additional(&[3.0]);
    plain("first points", points, settings)
}

/// Two points on one place, two at a distance, and a triangle, none near another: the first two radii are 0 and twice
/// that distance.
fn radii_apart(distance: f32) -> Case {
    let mut points = vec![0.0; 6];
    points.extend([0.0, 100.0, 0.0, distance, 100.0, 0.0]);
    points.extend([0.0, 0.0, 100.0, 0.001, 0.0, 100.0, 0.0, 0.001, 100.0]);
    let mut settings = one_radius(0.001);
    settings.set_percentiles(&[0.0, 0.5]);
    plain("radii apart", points, settings)
}

/// An edge of 6, a third point of the seed, and one at just the radius of 5 from both ends.
fn pivot_at_the_radius() -> Case {
    let points = vec![0.0, 0.0, 0.0, 6.0, 0.0, 0.0, 3.0, -2.0, 0.0, 3.0, 4.0, 0.0];
    plain("pivot at the radius", points, by_number(5.0))
}

/// An edge of just two radii, and a point so near its middle that it lies at a radius from both ends.
fn pivot_over_two_radii() -> Case {
    let points = vec![0.0, 0.0, 0.0, 2.0, 0.0, 0.0, 1.0, -1.0, 0.0, 1.0, 1e-4, 0.0];
    plain("pivot over two radii", points, by_number(1.0))
}

/// A seed, and a point so near the first end of its first edge that the angle left over rounds to less than 0: the three
/// parts of the score there add up to 0, and it is no pivot.
fn pivot_with_a_score_of_0() -> Case {
    let points = vec![0.0, 0.0, 0.0, 515.426_33, 0.0, 0.0, 250.0, 250.0, 0.0, 0.000_389_444_18, -0.000_145_692_17, 0.0];
    let settings = Settings { max_edge_factor: 1_000_000.0, ..by_number(1_000.0) };
    plain("pivot with a score of 0", points, settings)
}

/// A percentile of the f32 after 1.
fn percentile_above_1() -> Case {
    let mut settings = one_radius(1.0);
    settings.set_percentiles(&[1.000_000_1]);
    plain("percentile above 1", vec![0.0, 0.0, 0.0, 1.0, 0.0, 0.0, 0.0, 1.0, 0.0], settings)
}

/// A seed, and two points over its first edge, one the other's mirror image.
fn pivots_of_equal_score() -> Case {
    let points = vec![0.0, 0.0, 0.0, 1.0, 0.0, 0.0, 0.5, -0.75, 0.0, 0.5, 0.5, 0.5, 0.5, 0.5, -0.5];
    plain("pivots of equal score", points, by_number(1.0))
}

/// Three places in this order; the first two lie at just two radii from each other.
fn seed_over_two_radii(order: [usize; 3]) -> Case {
    let places = [[0.0, 0.0, 0.0], [2.0, 0.0, 0.0], [1.0, 1.0, 0.0]];
    plain("seed over two radii", order.iter().flat_map(|i| places[*i]).collect(), by_number(1.0))
}

/// A point at -10,000 is the least corner, so that taking it off rounds the others by more than a cell.
fn far(factor: f32, points: &[[f32; 3]]) -> Case {
    let settings = Settings { spatial_cell_factor: factor, ..one_radius(0.001) };
    plain("far corner", points.iter().flatten().copied().collect(), settings)
}

/// A seed of three points, and one within a radius of the first edge that is not in the range of its middle.
fn pivot_out_of_range() -> Case {
    let seed = [[0.002_436, 0.0, 0.0], [0.002_436, 0.000_24, 0.0], [0.002_26, 0.000_1, 0.0]];
    far(1.0, &[[-10_000.0, 0.0, 0.0], seed[0], seed[1], seed[2], [0.003_423, 0.000_12, 0.0]])
}

/// A point that an edge's middle has in its range and the first end has not.
fn pivot_out_of_range_of_the_first_end() -> Case {
    let seed = [[6383.9995, 1000.0004, 6384.0], [6383.9995, 999.9993, 6384.0005], [6383.999, 999.99915, 6384.0]];
    far(0.5, &[seed[0], seed[1], [-10_000.0, 1_000.0, -10_000.0], [6383.9985, 999.9995, 6384.0005], seed[2]])
}

/// A point that an edge's middle has in its range and the second end has not.
fn pivot_out_of_range_of_the_second_end() -> Case {
    let seed =
        [[-0.000_652_377_26, 6384.0005, 0.0], [-0.000_188_009_92, 6384.0, 0.0], [-0.000_109_749_82, 6383.999, 0.0]];
    let mut case =
        far(0.5, &[seed[0], seed[1], seed[2], [0.000_699_986_3, 6384.0005, 0.0], [-10_000.0, -10_000.0, 0.0]]);
    case.settings.radius = 0.001_382_709_4;
    case
}

/// Three points, of which the last has the others in its range, but not the first the second.
fn seed_out_of_range() -> Case {
    let near = [[0.002_436, 0.0, 0.0], [0.004_4, 0.0, 0.0], [0.003_4, 0.000_5, 0.0]];
    far(1.0, &[[-10_000.0, 0.0, 0.0], near[0], near[1], near[2]])
}

/// Three points within two radii, none of them in another's range: no sample has a neighbour, and the plain path is
/// taken.
fn no_density() -> Case {
    let (near, far_off) = (9_999.0 + 1.0 / 1_024.0, 9_999.0 + 3.0 / 1_024.0);
    far(0.6, &[[-10_000.0, -10_000.0, 0.0], [far_off, near, 0.0], [near, far_off, 0.0], [near, near, 0.0]])
}

/// A zigzag: how many neighbours a sample has depends on how many cells three radii are.
fn samples(factor: f32) -> Case {
    let points = (0..10).flat_map(|i| [i as f32, (i % 2) as f32 * 0.5, 0.0]);
    let mut settings = Settings { spatial_cell_factor: factor, ..one_radius(1.0) };
    settings.set_percentiles(&[0.0, 0.5, 1.0]);
    plain("samples", points.collect(), settings)
}

/// The third point tried, with these distances from the other two along the axes.
fn plain_corner(radius: f32, x: f32, y: f32) -> Case {
    plain("plain path", vec![x, 0.0, 0.0, 0.0, y, 0.0, 0.0, 0.0, 0.0], no_radii(radius))
}

/// Edges of 5, 5 and 8: a circumradius of 200 / 48, which is one and a half times 2.7777777 as an f32.
fn plain_circumradius(radius: f32) -> Case {
    plain("plain path", vec![-4.0, -3.0, 0.0, 4.0, -3.0, 0.0, 0.0, 0.0, 0.0], no_radii(radius))
}

/// Points on a circle: every three make a face, more than are taken.
fn plain_circle(points: usize) -> Case {
    let places = (0..points).flat_map(|i| {
        let (c, s) = turn(i as f64 / points as f64);
        [c as f32, s as f32, 0.0]
    });
    plain("plain path", places.collect(), no_radii(1.0))
}

/// The fewest points on which the frontier's order shows: rule 1 ends with the face 3, 0, 4, rule 2 with 1, 3, 4.
fn orders(frontier_rule: u32) -> Case {
    let points = vec![0.0, 0.0, 1.0, 1.0, 0.0, 0.0, 3.0, 0.0, 1.0, 0.0, 1.0, 1.0, 1.0, 1.0, 0.0];
    let mut settings = Settings { frontier_rule, ..Settings::at_radius(2.0) };
    settings.set_additional(&[]);
    settings.set_percentiles(&[]);
    plain("orders", points, settings)
}

pub fn cases() -> Vec<Case> {
    vec![
        orders(1),
        orders(2),
        tries(999, false),
        tries(1_000, false),
        tries(999, true),
        radii_apart(5e-7),
        radii_apart(5.002e-7),
        radii_apart(4.998e-7),
        pivot_at_the_radius(),
        pivot_over_two_radii(),
        pivot_with_a_score_of_0(),
        percentile_above_1(),
        pivots_of_equal_score(),
        seed_over_two_radii([0, 1, 2]),
        seed_over_two_radii([0, 2, 1]),
        seed_over_two_radii([2, 0, 1]),
        pivot_out_of_range(),
        pivot_out_of_range_of_the_first_end(),
        pivot_out_of_range_of_the_second_end(),
        seed_out_of_range(),
        no_density(),
        samples(1.499_7),
        samples(1.5),
        plain_corner(1.0, 2.0, 1.0),
        plain_corner(1.0, 2.5, 1.0),
        plain_corner(1.0, 1e-6, 1.0),
        plain_corner(1.0, 1.0005e-6, 1.0),
        plain_circumradius(2.777_777_7),
        plain_circumradius(2.6),
        plain_circle(41),
    ]
}
