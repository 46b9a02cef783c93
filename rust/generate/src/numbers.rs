//! Single numbers and triangles, with the patterns at which something changes.

use crate::clouds::LIMIT;
use crate::random::Random;
use oracle::Limits;

/// Patterns at the edges of the format and of whole numbers.
pub fn edges() -> Vec<f32> {
    let mut bits: Vec<u32> = vec![0, 1, 2, 3, 0x007f_fffe, 0x007f_ffff, 0x0080_0000, 0x0080_0001, 0x7f7f_ffff];
    bits.extend([0x7f80_0000, 0x7f80_0001, 0x7fa0_0000, 0x7fc0_0000, 0x7fff_ffff]);
    for exponent in 0..=255u32 {
        bits.extend([0, 1, 0x3f_ffff, 0x40_0000, 0x40_0001, 0x7f_ffff].map(|fraction| exponent << 23 | fraction));
    }
    for whole in [1.0f32, 2.0, 3.0, 4.0, 0.5, 0.25, 8_388_608.0, 16_777_216.0, 2_147_483_648.0, 4_294_967_296.0] {
        bits.extend((0..5).map(|more| whole.to_bits() - 2 + more));
    }
    bits.iter().flat_map(|b| [f32::from_bits(*b), f32::from_bits(b | 0x8000_0000)]).collect()
}

/// A number of any kind.
pub fn number(random: &mut Random) -> f32 {
    match random.below(4) {
        0 => random.pattern(),
        1 => random.within(-1.1, 1.1) as f32,
        2 => random.signed(LIMIT),
        _ => (random.whole(0, 40) as f32 - 20.0) * random.pick(&[1.0, 0.5, 1.0, 0.25]),
    }
}

/// A place of one of the kinds that triangles are made of.
fn place(random: &mut Random, kind: usize, scale: f32) -> [f32; 3] {
    [0; 3].map(|_| match kind {
        0 => random.within(-1.0, 1.0) as f32 * scale,
        1 => random.signed(LIMIT),
        2 => random.below(4) as f32 - 1.0,
        _ => random.within(-1.0, 1.0) as f32 * random.sized(1e-8, 1.0),
    })
}

/// A corner at the origin and two along the axes.
const fn corner(x: f32, y: f32) -> [f32; 9] {
    [0.0, 0.0, 0.0, x, 0.0, 0.0, 0.0, y, 0.0]
}

/// Triangles at which something changes: an area and a shortest edge of just 1e-10 and a little beside it, none at all, and
/// coordinates that no point of a cloud has.
pub const EDGE_TRIANGLES: [[f32; 9]; 13] = [
    corner(2e-10, 1.0),
    corner(1.999_5e-10, 1.0),
    corner(2.000_5e-10, 1.0),
    corner(1e-10, 4.0),
    corner(1.000_5e-10, 4.0),
    corner(0.999_5e-10, 4.0),
    corner(0.0, 0.0),
    corner(0.0, 1.0),
    corner(f32::NAN, 1.0),
    corner(f32::INFINITY, 1.0),
    corner(1e15, 1e15),
    corner(f32::MAX, f32::MAX),
    // The circumradius is finite, four times as much is not.
    [0.0, 0.0, 0.0, 1e12, 0.0, 0.0, 5e11, 6e-16, 0.0],
];

/// The limits at which these measures just pass, and the radius that goes with them.
pub fn just_passed(area: f32, edge_ratio: f32, quality_score: f32) -> (f32, Limits) {
    let limits = Limits { min_triangle_area: area, quality_threshold: quality_score, max_edge_factor: 1.0 };
    (edge_ratio * area.sqrt(), limits)
}

/// Nine coordinates: any triangle, one with equal points, with points in a line, or a needle.
fn drawn(random: &mut Random) -> [f32; 9] {
    let kind = random.pick(&[0, 0, 0, 0, 1, 2, 3]);
    let least = random.pick(&[1e-2, 1e-2, 1e-12]);
    let scale = random.sized(least, LIMIT);
    let (a, mut b, mut c) = (place(random, kind, scale), place(random, kind, scale), place(random, kind, scale));
    let along = |t: f32| [0, 1, 2].map(|i| a[i] + (b[i] - a[i]) * t);
    match random.below(12) {
        0 => b = a,
        1 => c = a,
        2 => c = b,
        3 => c = along(random.pick(&[2.0, 0.5, -1.0, 3.0])),
        4 => c = along(random.within(-2.0, 2.0) as f32),
        5 => {
            let tiny = random.sized(1e-9, 1e-2);
            c = a.map(|x| x + x * tiny);
        }
        _ => {}
    }
    let mut out = [0.0; 9];
    for (i, x) in a.into_iter().chain(b).chain(c).enumerate() {
        out[i] = x.clamp(-LIMIT, LIMIT);
    }
    out
}

/// Triangle `number`, those at the edges first.
pub fn triangle(random: &mut Random, number: u64) -> [f32; 9] {
    EDGE_TRIANGLES.get(number as usize).copied().unwrap_or_else(|| drawn(random))
}

/// The settings of the acceptance test.
pub fn limits(random: &mut Random) -> Limits {
    let mut limit = |usual: f32| match random.below(10) {
        0..=1 => 0.0,
        2..=6 => usual,
        7..=8 => random.unit() as f32,
        _ => random.sized(f32::from_bits(1), 1_000_000.0),
    };
    Limits { min_triangle_area: limit(1e-8), quality_threshold: limit(0.1), max_edge_factor: limit(3.0) }
}

/// A radius for the acceptance test of a triangle: of any size, or near the one at which its edges pass.
pub fn radius(random: &mut Random, area: f32, edge_ratio: f32) -> f32 {
    let near = edge_ratio * area.sqrt() * random.within(0.2, 2.0) as f32;
    if near.is_finite() && random.percent(80) {
        near
    } else {
        random.sized(0.001, 1_000.0)
    }
}
