//! Whole calls over clouds of a fixed seed: a line a cloud, with the ratio that is to be reached.

use crate::{clock, slow};
use expect::{bits, Lent, BUDGET};
use generate::clouds::{self, Cloud};
use generate::{work_lengths, Case, Random};
use oracle::Settings;
use std::cell::RefCell;
use std::hint::black_box;
use std::time::Instant;

const UNLIMITED: u64 = u64::MAX;

/// The answer where all triangles that were judged were turned down.
const ALL_TURNED_DOWN: u32 = 16;

/// A cloud, its settings, and how many times faster than the Rust the port is to be.
struct Race {
    name: String,
    points: Vec<f32>,
    settings: Settings,
    reach: f64,
}

/// Best times in milliseconds, the Rust's and the port's.
#[derive(Clone, Copy)]
pub struct Times {
    pub rust: f64,
    pub port: f64,
}

impl Times {
    pub fn ratio(self) -> f64 {
        self.rust / self.port
    }
}

/// Both sides in turn, at least 5 times, and up to so many times while that takes no more than about a second.
fn race(most: usize, mut rust: impl FnMut(), mut port: impl FnMut()) -> Times {
    let mut best = Times { rust: f64::INFINITY, port: f64::INFINITY };
    let begin = Instant::now();
    for round in 0..most {
        if round >= 5 && begin.elapsed().as_secs_f64() > 1.0 {
            break;
        }
        let start = clock::now();
        rust();
        let middle = clock::now();
        port();
        let took = [middle - start, clock::now() - middle].map(|t| t.as_secs_f64() * 1e3);
        best = Times { rust: best.rust.min(took[0]), port: best.port.min(took[1]) };
    }
    best
}

/// Slices long enough for any cloud of this many points, with words in them that no call leaves there.
pub fn lend(points: usize) -> Lent {
    let (words, floats) = work_lengths(points);
    Lent { faces: vec![u32::MAX; 30_000], words: vec![u32::MAX; words], floats: vec![1.0; floats] }
}

/// Times one reconstruction on both sides, which have to come to the same, and tells how many faces there were.
fn reconstruct(points: &[f32], normals: &[f32], settings: &Settings) -> (u32, Times) {
    reconstruct_times(100, points, normals, settings)
}

/// The same, at most so many times. The Rust is the one whose result the port is held to: where the published one lays a
/// triangle without area, the one with the line that turns it down.
pub fn reconstruct_times(most: usize, points: &[f32], normals: &[f32], settings: &Settings) -> (u32, Times) {
    let mut lent = lend(points.len() / 3);
    let mut expected = lent.clone();
    let work = [lent.words.len(), lent.floats.len()];
    let (rust, amended) =
        expect::find_amended(points, normals, settings, work, UNLIMITED).expect("a run without a limit");
    let rust = rust.deliver(&mut expected);
    let lay = if amended { oracle::reconstruct_amended } else { oracle::reconstruct_judged };
    let found = port::reconstruct(points, normals, settings, &mut lent);
    assert_eq!((found, bits(&found.radii)), (rust, bits(&rust.radii)), "the answers differ");
    assert!(lent.is_same(&expected), "the lent slices differ");
    let times = race(
        most,
        || _ = black_box(lay(points, normals, settings, UNLIMITED)),
        || _ = black_box(port::reconstruct(points, normals, settings, &mut lent)),
    );
    (found.faces, times)
}

/// A line of the table; true if the ratio is reached.
pub fn line(name: &str, points: usize, faces: &str, times: Times, reach: f64) -> bool {
    let short = if times.ratio() < reach { "  short" } else { "" };
    let (rust, port, ratio) = (times.rust, times.port, times.ratio());
    println!("{name:<40} {points:>6} {faces:>6} {rust:>10.3} {port:>10.3} {ratio:>8.1} {reach:>8}{short}");
    short.is_empty()
}

fn at(spacing: f64, times: f64) -> Settings {
    Settings::at_radius((spacing * times) as f32)
}

fn with(name: impl Into<String>, cloud: Cloud, reach: f64) -> Race {
    Race { name: name.into(), settings: at(cloud.spacing, 2.5), points: cloud.points, reach }
}

/// How many points a wall has around, and how many rings.
const WALLS: [[usize; 2]; 4] = [[32, 16], [64, 16], [64, 32], [128, 32]];

/// A scan whose jitter is a fifth of the spacing.
fn wall([around, rings]: [usize; 2]) -> Cloud {
    clouds::wall(&mut Random::new(1, 0), around, rings, 0.2)
}

/// 512 points on whole coordinates, at even steps.
pub fn straight(along: [f64; 3]) -> Vec<f32> {
    (0..512).flat_map(|i| along.map(|x| (x * f64::from(i)) as f32)).collect()
}

/// Settings under which no triangle is acceptable, in four ways.
fn hopeless(random: &mut Random) -> Vec<Race> {
    let near: Vec<f32> = (0..301 * 3).map(|_| random.within(0.0, 0.5) as f32).collect();
    let plain = Settings::at_radius(1.0);
    let race = |name: &str, points: &[f32], settings: Settings, reach: f64| Race {
        name: format!("301 near points, {name}"),
        points: points.to_vec(),
        settings,
        reach,
    };
    vec![
        race("none by threshold", &near, Settings { quality_threshold: 100.0, ..plain }, 8.0),
        race("none by least area", &near, Settings { min_triangle_area: 1_000.0, ..plain }, 100.0),
        race("edge factor 0", &near, Settings { max_edge_factor: 0.0, ..plain }, 500.0),
        race("all equal", &vec![0.25; 301 * 3], plain, 500.0),
    ]
}

fn races(random: &mut Random) -> Vec<Race> {
    let mut races = Vec::new();
    for size in WALLS {
        races.push(with("bell wall", wall(size), 10.0));
    }
    races.push(with("jittered plane", clouds::sheet(random, 2_048, 0.2), 10.0));
    races.push(with("sphere", clouds::sphere(random, 2_048), 10.0));
    races.push(with("random volume", clouds::volume(random, 2_048), 20.0));
    for seed in 1..=3 {
        races.push(with(format!("clusters, seed {seed}"), clouds::clusters(&mut Random::new(seed, 0), 2_048), 6.0));
    }
    let wide = Settings::at_radius(1_000.0);
    races.push(Race { name: "line on an axis".into(), points: straight([1.0, 0.0, 0.0]), settings: wide, reach: 20.0 });
    races.push(Race { name: "skew line".into(), points: straight([1.0, 2.0, 3.0]), settings: wide, reach: 4.0 });
    let mut strict = with("bell wall, no index, threshold 1", wall([50, 20]), 8.0);
    strict.settings.use_spatial_index = false;
    strict.settings.quality_threshold = 1.0;
    races.push(strict);
    races.extend(hopeless(random));
    races
}

/// `bench area`, and rows of `bench clouds`: clouds without area and thresholds of zero, which the port has to refuse in
/// under 20 ms. It is timed alone: the Rust lays a triangle without area there, and the amended one tries each triple.
pub fn without_area() -> bool {
    let plain = Settings { quality_threshold: 0.0, min_triangle_area: 0.0, ..Settings::at_radius(1.0) };
    let wide = Settings { radius: 1_000.0, ..plain };
    let line: Vec<f32> = (0..4_096u16).flat_map(|i| [f32::from(i), 0.0, 0.0]).collect();
    let mut reached = true;
    for (name, points, settings) in [
        ("equal points, thresholds 0", vec![0.25; 3 * 4_096], plain),
        ("line on an axis, thresholds 0", line.clone(), plain),
        ("the same, radius 1,000", line, wide),
    ] {
        let (normals, mut lent) = (vec![0.0; points.len()], lend(points.len() / 3));
        let mut best = f64::INFINITY;
        for _ in 0..10 {
            let start = clock::now();
            let patch = port::reconstruct(&points, &normals, &settings, &mut lent);
            best = best.min((clock::now() - start).as_secs_f64() * 1e3);
            assert_eq!((patch.answer, patch.faces), (ALL_TURNED_DOWN, 0));
        }
        let short = if best < 20.0 { "" } else { "  short" };
        println!("{name:<40} {:>6} {:>6} {:>10} {best:>10.3} {:>8} below 20{short}", points.len() / 3, 0, "", "");
        reached &= short.is_empty();
    }
    reached
}

/// A line of the table of the port against itself; true if the second call takes at most so many times the first's time.
fn beside(name: &str, points: usize, faces: u32, [first, second]: [f64; 2], most: f64) -> bool {
    let times = second / first;
    let short = if times > most { "  short" } else { "" };
    println!("{name:<40} {points:>6} {faces:>6} {first:>10.3} {second:>10.3} {times:>8.2} most {most}{short}");
    short.is_empty()
}

/// Rounds of the port against itself, within the second that a row takes: a tenth or a twentieth has to show. Both calls are
/// lent the same slices, since where these lie may cost more than that.
const ROUNDS: usize = 3_000;

/// Rows of `bench clouds`: how many times as long the port takes under rule 2 as under rule 1. What it lays under rule 2 is
/// held to the Rust over a queue first.
fn rules(races: &[Race]) -> bool {
    let mut reached = true;
    for Race { name, points, settings, .. } in races {
        let normals = vec![0.0; points.len()];
        let [heap, queue] = [1, 2].map(|frontier_rule| Settings { frontier_rule, ..*settings });
        let faces = reconstruct_times(0, points, &normals, &queue).0;
        let lent = RefCell::new(lend(points.len() / 3));
        let lay =
            |settings: &Settings| _ = black_box(port::reconstruct(points, &normals, settings, &mut lent.borrow_mut()));
        let times = race(ROUNDS, || lay(&heap), || lay(&queue));
        let name = format!("{name}, rules 1, 2");
        reached &= beside(&name, points.len() / 3, faces, [times.rust, times.port], 1.1);
    }
    reached
}

/// Rows of `bench clouds`: how many times as long a call takes that tells where each face came from, as laid and turned.
/// What it gives is held to the reference first.
fn origins(races: &[Race]) -> bool {
    let mut reached = true;
    for (Race { name, points, settings, .. }, turned) in races.iter().flat_map(|race| [(race, false), (race, true)]) {
        let normals = vec![0.0; points.len()];
        let (mut lent, mut origins) = (lend(points.len() / 3), vec![u32::MAX; 20_000]);
        let (mut expected, mut expected_origins) = (lent.clone(), origins.clone());
        let work = [lent.words.len(), lent.floats.len()];
        let found = expect::find(points, &normals, settings, work, UNLIMITED).expect("a run without a limit");
        let patch = expect::origins::deliver(&found, turned, &mut expected, &mut expected_origins);
        let got = port::reconstruct_with_origins(points, &normals, settings, turned, &mut lent, &mut origins);
        assert_eq!((got, bits(&got.radii)), (patch, bits(&patch.radii)), "the answers differ");
        assert!(lent.is_same(&expected) && origins == expected_origins, "the lent slices differ");
        let lent = RefCell::new(lent);
        let times = race(
            ROUNDS,
            || _ = black_box(port::reconstruct(points, &normals, settings, &mut lent.borrow_mut())),
            || {
                let lent = &mut lent.borrow_mut();
                let traced = port::reconstruct_with_origins(points, &normals, settings, turned, lent, &mut origins);
                _ = black_box(traced);
            },
        );
        let name = format!("{name}, {}", if turned { "turned" } else { "origins" });
        reached &= beside(&name, points.len() / 3, got.faces, [times.rust, times.port], 1.05);
    }
    reached
}

/// `bench rules`: those rows alone.
pub fn rules_alone() -> bool {
    rules(&races(&mut Random::new(1, 0)))
}

/// `bench origins`: those rows alone.
pub fn origins_alone() -> bool {
    origins(&races(&mut Random::new(1, 0)))
}

fn estimates() -> bool {
    let mut reached = true;
    for (size, reach) in [(WALLS[0], 2.0), (WALLS[2], 5.0), (WALLS[3], 10.0)] {
        let cloud = wall(size);
        let mut lent = lend(cloud.points.len() / 3);
        let mut expected = lent.clone();
        let rust = expect::estimate(&cloud.points, 0.5, &mut expected, UNLIMITED).expect("a run without a limit");
        let found = port::estimate(&cloud.points, 0.5, &mut lent.words, &mut lent.floats);
        assert_eq!((found, found.radius.to_bits()), (rust, rust.radius.to_bits()), "the estimates differ");
        assert!(lent.is_same(&expected), "the lent slices differ");
        let times = race(
            100,
            || _ = black_box(oracle::estimate(&cloud.points, 0.5, UNLIMITED)),
            || _ = black_box(port::estimate(&cloud.points, 0.5, &mut lent.words, &mut lent.floats)),
        );
        reached &= line("estimate, bell wall", cloud.points.len() / 3, "", times, reach);
    }
    reached
}

/// Clouds of the comparison on which the Rust takes over 100 µs: none may be slower.
fn comparison(count: u64) -> bool {
    let (mut slow, mut slower, mut worst) = (0, 0, (f64::INFINITY, 0, ""));
    for number in 0..count {
        let Case { kind, points, normals, settings, words, floats, .. } = generate::case(1, number);
        let start = Instant::now();
        let found = expect::find(&points, &normals, &settings, [words, floats], BUDGET);
        if !matches!(found, Ok(expect::Found::Laid(_) | expect::Found::NoTriangle { .. }))
            || start.elapsed().as_micros() < 100
        {
            continue;
        }
        slow += 1;
        let ratio = reconstruct(&points, &normals, &settings).1.ratio();
        slower += i32::from(ratio < 1.0);
        if ratio < worst.0 {
            worst = (ratio, number, kind);
        }
    }
    let (ratio, number, kind) = worst;
    println!("clouds of the comparison on which the Rust takes over 100 µs: {slow}, slower than the Rust: {slower}, least ratio {ratio:.2}: cloud {number} ({kind})");
    slower == 0
}

pub fn bench() -> bool {
    let random = &mut Random::new(1, 0);
    println!(
        "{:<40} {:>6} {:>6} {:>10} {:>10} {:>8} {:>8}",
        "cloud", "points", "faces", "Rust ms", "port ms", "ratio", "reach"
    );
    let mut reached = true;
    let mut walls = Vec::new();
    let races = races(random);
    for Race { name, points, settings, reach } in &races {
        let normals = vec![0.0; points.len()];
        let (faces, times) = reconstruct(points, &normals, settings);
        reached &= line(name, points.len() / 3, &faces.to_string(), times, *reach);
        walls.push(times.port);
    }
    reached &= rules(&races);
    reached &= origins(&races);
    reached &= without_area();
    reached &= slow::rows(None, None);
    reached &= slow::large();
    reached &= estimates();
    let growth = walls[3] / walls[1];
    println!("bell walls from 1,024 to 4,096 points: {growth:.1} times the time (to reach: below 5)");
    comparison(1_000) && reached && growth < 5.0
}
