//! Why a triangle was turned down: triples of generated clouds, settings drawn and just passed, damage everywhere.

use crate::report::Report;
use expect::verdicts::{judge, measures, Verdict, KINDS};
use generate::{case, numbers, Case, Random};
use oracle::{Limits, Settings};

/// How many triples are drawn of a cloud.
const TRIPLES: u64 = 50;

/// The call that is compared.
pub type Judge<'a> = &'a dyn Fn(&[f32], &[f32], &Settings, [usize; 3]) -> Verdict;

/// Three numbers: mostly of points near each other, now and then equal ones, or of no point.
fn triple(random: &mut Random, points: usize) -> [usize; 3] {
    let first = random.below(points.max(1));
    let near = |random: &mut Random| (first + random.whole(0, 12)) % points.max(1);
    let any = |random: &mut Random| match random.below(60) {
        0 => random.pick(&[points, points + 1, 4_096, usize::MAX]),
        1..=9 => random.below(points.max(1)),
        _ => near(random),
    };
    let mut triple = [if random.percent(98) { first } else { points }, any(random), any(random)];
    triple.rotate_right(random.below(3));
    triple
}

/// Limits for a triangle: the case's own, drawn ones, or those that its measures just pass or just fail.
fn limit(random: &mut Random, case: &mut Case, triple: [usize; 3]) {
    let q = measures(&case.points, triple);
    let (radius, limits) = match random.below(4) {
        0 => return,
        1 => (numbers::radius(random, q.area, q.edge_ratio), numbers::limits(random)),
        _ => numbers::just_passed(q.area, q.edge_ratio, q.quality_score),
    };
    let mut up = |x: f32| if random.percent(25) && x.is_finite() { f32::from_bits(x.to_bits() + 1) } else { x };
    let settings = &mut case.settings;
    settings.min_triangle_area = up(limits.min_triangle_area);
    settings.quality_threshold = up(limits.quality_threshold);
    settings.max_edge_factor = limits.max_edge_factor;
    settings.radius = if random.percent(25) { f32::from_bits(radius.to_bits().wrapping_sub(1)) } else { radius };
}

/// A number of the cloud or the settings that no test expects.
fn odd_number(random: &mut Random, case: &mut Case) {
    let odd = random.pick(&[f32::NAN, f32::INFINITY, f32::NEG_INFINITY, f32::MAX, -0.0]);
    let Case { points, normals, settings: s, .. } = case;
    let (points_len, normals_len) = (points.len(), normals.len());
    let place = match random.below(12) {
        0..=2 if points_len > 0 => &mut points[random.below(points_len)],
        3..=4 if normals_len > 0 => &mut normals[random.below(normals_len)],
        5 => &mut s.radius,
        6 => &mut s.quality_threshold,
        7 => &mut s.max_edge_factor,
        8 => &mut s.min_triangle_area,
        9 => &mut s.spatial_cell_factor,
        10 => &mut s.additional_radii[random.below(8)],
        _ => &mut s.adaptive_percentiles[random.below(8)],
    };
    *place = odd;
    if random.percent(8) {
        s.frontier_rule = random.pick(&[0, 2, 3]);
    }
}

/// The case of one triple: its cloud's, with one of the points moved onto another, limits and odd numbers now and then.
fn drawn(random: &mut Random, cloud: &Case) -> (Case, [usize; 3]) {
    let mut case = cloud.clone();
    let points = case.points.len() / 3;
    let triple = triple(random, points);
    if triple.iter().all(|number| *number < points) {
        if random.percent(4) {
            let [from, to] = [triple[random.below(3)], triple[random.below(3)]];
            case.points.copy_within(3 * from..3 * from + 3, 3 * to);
        }
        limit(random, &mut case, triple);
    }
    if random.percent(5) {
        odd_number(random, &mut case);
    }
    (case, triple)
}

pub fn verdicts(call: Judge, count: u64, seed: u64, first: u64) -> Report {
    let mut report = Report::new("verdicts");
    if count >= 20_000 {
        KINDS.iter().for_each(|kind| report.want(kind));
        [1, 2, 3, 4, 5, 14, 17].iter().for_each(|answer| report.want(&format!("refused {answer}:")));
    }
    let mut cloud = case(seed, first / TRIPLES);
    for number in first..first + count {
        if number % TRIPLES == 0 {
            cloud = case(seed, number / TRIPLES);
        }
        let random = &mut Random::new(seed ^ 0x7e57, number);
        let (case, triple) = drawn(random, &cloud);
        let (points, normals, settings) = (&case.points, &case.normals, &case.settings);
        let expected = judge(points, normals, settings, triple);
        let got = call(points, normals, settings, triple);
        let context =
            || format!("triple {number} of seed {seed}, {triple:?} of {} numbers, {settings:?}", points.len());
        report.check("answer", expected.answer, got.answer, context);
        report.check("detail", expected.detail, got.detail, context);
        report.check("kind", expected.kind, got.kind, context);
        report.check("measured", expected.measured, got.measured, context);
        if expected.answer > 0 {
            report.note(&format!("refused {}:", expected.answer));
            continue;
        }
        report.note(KINDS[expected.kind as usize - 1]);
        report.check("a measure that is no number", false, expected.measured.is_nan(), context);
        let (min_triangle_area, quality_threshold) = (settings.min_triangle_area, settings.quality_threshold);
        let limits = Limits { min_triangle_area, quality_threshold, max_edge_factor: settings.max_edge_factor };
        let accepted = oracle::acceptable_amended(&measures(points, triple), settings.radius, &limits);
        report.check("good exactly where accepted", accepted, got.kind == 1, context);
    }
    report
}
