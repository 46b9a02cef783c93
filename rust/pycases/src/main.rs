//! `pycases COUNT SEED` writes generated inputs with the safe crate's answers, which the Python tests repeat bit for
//! bit.
//!
//! A case a line: its kind, then lists parted by `|`, of words parted by blanks. A word is a decimal number; a float is
//! its bits. The first list behind the inputs is the answer's number and detail; at a refusal it is the last.
//! python/tests/test_crate.py reads the lines.

use generate::Random;
use oracle::Settings;
use std::fmt::Write;
use yarrowbleat::index::Index;
use yarrowbleat::tally::{Fraction, SeasonPatch, Tally};
use yarrowbleat::{BallPivotingConfig, Error, FrontierRule};

type Points = Vec<[f32; 3]>;

/// A line that lists are added to.
struct Line(String);

impl Line {
    fn new(kind: &str) -> Self {
        Self(kind.to_string())
    }

    fn words(mut self, words: impl IntoIterator<Item = u64>) -> Self {
        self.0.push_str(" |");
        for word in words {
            write!(self.0, " {word}").expect("a string takes all");
        }
        self
    }

    fn numbers(self, words: &[u32]) -> Self {
        self.words(words.iter().map(|word| u64::from(*word)))
    }

    fn floats(self, floats: &[f32]) -> Self {
        self.words(floats.iter().map(|x| u64::from(x.to_bits())))
    }

    fn bytes(self, bytes: &[u8]) -> Self {
        self.words(bytes.iter().map(|byte| u64::from(*byte)))
    }

    fn settings(self, s: &Settings) -> Self {
        let flags = [s.additional_count, u32::from(s.adaptive_radius), s.percentile_count];
        let last = [u32::from(s.use_spatial_index), s.frontier_rule];
        let single = [s.radius, s.quality_threshold, s.max_edge_factor, s.min_triangle_area, s.spatial_cell_factor];
        self.floats(&single).floats(&s.additional_radii).floats(&s.adaptive_percentiles).numbers(&flags).numbers(&last)
    }

    /// The answer, and what the call gave where it was accepted.
    fn answered<T>(self, result: Result<T, Error>, told: impl FnOnce(Self, T) -> Self) -> String {
        match result {
            Ok(value) => told(self.words([0, 0]), value).0,
            Err(error) => self.words([u64::from(error.number()), error.detail() as u64]).0,
        }
    }
}

fn threes(list: &[f32]) -> Points {
    list.chunks_exact(3).map(|p| [p[0], p[1], p[2]]).collect()
}

/// The settings as the crate has them; none where it can't say them.
fn config(s: &Settings) -> Option<BallPivotingConfig> {
    let list = |slots: &[f32; 8], count: u32| slots.get(..count as usize).map(<[f32]>::to_vec);
    Some(BallPivotingConfig {
        radius: s.radius,
        additional_radii: list(&s.additional_radii, s.additional_count)?,
        adaptive_radius: s.adaptive_radius,
        adaptive_percentiles: list(&s.adaptive_percentiles, s.percentile_count)?,
        quality_threshold: s.quality_threshold,
        max_edge_factor: s.max_edge_factor,
        min_triangle_area: s.min_triangle_area,
        use_spatial_index: s.use_spatial_index,
        spatial_cell_factor: s.spatial_cell_factor,
        frontier_rule: FrontierRule::try_from(s.frontier_rule).ok()?,
    })
}

/// The calls over a cloud; a patch that was laid goes on to the others.
fn cloud(lines: &mut Vec<String>, seed: u64, number: u64) {
    let case = generate::case(seed, number);
    let (points, normals) = (threes(&case.points), threes(&case.normals));
    let Some(config) = config(&case.settings).filter(|_| points.len() <= 600) else { return };
    let turned = number % 2 == 1;
    let input = |kind| Line::new(kind).floats(points.as_flattened()).floats(normals.as_flattened());
    let traced = yarrowbleat::reconstruct_with_origins(&points, &normals, &config, turned);
    let line = input("reconstruct").settings(&case.settings).numbers(&[u32::from(turned)]);
    lines.push(line.answered(traced.clone(), |line, traced| {
        let (patch, origins) = (&traced.patch, &traced.origins);
        let origins: Vec<u32> = origins.iter().flat_map(|origin| [origin.parent, origin.place]).collect();
        let line = line.numbers(patch.faces.as_flattened()).numbers(&origins).floats(&patch.radii);
        line.numbers(&[patch.seeds, patch.looks, patch.pivots]).numbers(&patch.unreached())
    }));
    let estimate = yarrowbleat::estimate_optimal_radius(&points, case.percentile);
    let line = Line::new("estimate").floats(points.as_flattened()).floats(&[case.percentile]);
    lines.push(line.answered(estimate, |line, radius| line.floats(&[radius])));
    let random = &mut Random::new(seed, number);
    let triple = [0; 3].map(|_: usize| random.below(points.len() + 1));
    let verdict = yarrowbleat::judge_triangle(&points, &normals, &config, triple);
    let line = input("judge").settings(&case.settings).words(triple.map(|k| k as u64));
    lines.push(line.answered(verdict, |line, verdict| line.floats(&[verdict.measured()])));
    nearest(lines, random, &points);
    if let Ok(traced) = traced {
        stl(lines, &points, &traced.patch.faces);
        order(lines, random, traced.patch.faces, points.len());
    }
}

fn nearest(lines: &mut Vec<String>, random: &mut Random, points: &Points) {
    let far = random.pick(&[1.0, 10.0, 100.0]);
    let mut spots: Points = (0..8).map(|_| [0; 3].map(|_| random.within(-far, far) as f32)).collect();
    spots.extend(points.iter().take(4));
    if random.percent(10) {
        spots[3][1] = random.pick(&[f32::NAN, 10_001.0]);
    }
    let index = Index::build(points);
    let line = Line::new("index").floats(points.as_flattened());
    lines.push(line.answered(index.clone(), |line, index| line.numbers(index.numbers())));
    let Ok(index) = index else { return };
    let found = index.nearest_distances(points, &spots);
    let line = Line::new("nearest").floats(points.as_flattened()).floats(spots.as_flattened());
    lines.push(line.answered(found, |line, found| {
        let numbers: Vec<u32> = found.iter().map(|nearest| nearest.point).collect();
        let distances: Vec<f32> = found.iter().map(|nearest| nearest.distance).collect();
        line.numbers(&numbers).floats(&distances)
    }));
}

fn stl(lines: &mut Vec<String>, points: &Points, faces: &[[u32; 3]]) {
    let file = yarrowbleat::write_stl(faces, points);
    let line = Line::new("stl").floats(points.as_flattened()).numbers(faces.as_flattened());
    lines.push(line.answered(file, |line, file| line.bytes(&file)));
}

/// A patch's faces in another order, now and then with one changed.
fn order(lines: &mut Vec<String>, random: &mut Random, mut faces: Vec<[u32; 3]>, points: usize) {
    (1..faces.len()).for_each(|k| faces.swap(k, random.below(k + 1)));
    if random.percent(40) {
        let face = random.below(faces.len());
        faces[face][random.below(3)] = random.pick(&[0, 1, 2, points as u32, u32::MAX]);
    }
    let ordered = yarrowbleat::order_faces(&faces, points);
    let line = Line::new("order").numbers(faces.as_flattened()).words([points as u64]);
    lines.push(line.answered(ordered, |line, told| line.numbers(&told.order).numbers(&[told.seeds])));
}

/// A cloud file, now and then damaged.
fn file(lines: &mut Vec<String>, random: &mut Random) {
    let mut text = format!("{:.3}\n", random.within(0.0, 9.0));
    for _ in 0..random.below(6) {
        let fields: Vec<String> = (0..6).map(|_| format!("{:.4}", random.within(-9_999.0, 9_999.0))).collect();
        writeln!(text, "{}", fields.join(",")).expect("a string takes all");
    }
    let mut bytes = text.into_bytes();
    if random.percent(30) {
        let at = random.below(bytes.len());
        bytes[at] = random.pick(b"x,.\n-9");
    }
    let read = yarrowbleat::read_cloud(&bytes);
    lines.push(Line::new("file").bytes(&bytes).answered(read, |line, cloud| {
        line.floats(&[cloud.radius]).floats(cloud.points.as_flattened()).floats(cloud.normals.as_flattened())
    }));
}

/// A season's patches, those that are refused among them, and its figures.
fn season(lines: &mut Vec<String>, random: &mut Random) {
    let mut tally = Tally::new();
    let mut entered = Vec::new();
    for _ in 0..random.below(6) {
        let scanned = random.whole(1, 4_096) as u32;
        let most = scanned as usize + random.below(2);
        let covered = random.whole(0, most) as u32;
        let patch = SeasonPatch { number: random.next() as u32, scanned, covered, faces: random.below(10_002) as u32 };
        let answer = tally.add(patch).err().map_or(0, |error| error.number());
        entered.extend([patch.number, patch.scanned, patch.covered, patch.faces, answer]);
    }
    let words = |f: Fraction| [f.numerator, f.denominator];
    lines.push(Line::new("season").numbers(&entered).answered(tally.figures(), |line, f| {
        let figures = [f.mean, f.variance, f.coverage, f.best_coverage, f.worst_coverage];
        let line = line.words([f.patches]).words(figures.into_iter().flat_map(words));
        line.numbers(&[f.best.number, f.worst.number])
    }));
}

fn main() {
    let number = |at| std::env::args().nth(at).and_then(|word| word.parse::<u64>().ok());
    let (Some(count), Some(seed)) = (number(1), number(2)) else {
        eprintln!("usage: pycases COUNT SEED");
        std::process::exit(1);
    };
    let mut lines = Vec::new();
    for case in 0..count {
        cloud(&mut lines, seed, case);
        let random = &mut Random::new(seed, count + case);
        file(&mut lines, random);
        season(&mut lines, random);
    }
    lines.iter().for_each(|line| println!("{line}"));
}
