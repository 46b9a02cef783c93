//! The port alone on clouds over which no triangle is found: what a refusal takes, answer by answer.

use crate::clock;
use crate::clouds::{lend, straight};
use generate::Random;
use oracle::Settings;

/// Points on a cube's lattice, at this step.
fn lattice(side: usize, step: f32) -> Vec<f32> {
    let at = |k: usize| k as f32 * step;
    (0..side * side * side).flat_map(|k| [at(k / side / side), at(k / side % side), at(k % side)]).collect()
}

/// Pairs of points, each with one close neighbour and no other within reach.
fn pairs(count: usize, step: f32) -> Vec<f32> {
    (0..count).flat_map(|k| [(k / 2) as f32 * step, (k % 2) as f32, 0.0]).collect()
}

fn rows() -> Vec<(&'static str, Vec<f32>, Settings)> {
    let random = &mut Random::new(1, 0);
    let near: Vec<f32> = (0..301 * 3).map(|_| random.within(0.0, 0.5) as f32).collect();
    let plain = Settings::at_radius(1.0);
    let mut alone = plain;
    alone.set_additional(&[]);
    alone.set_percentiles(&[]);
    let wide = Settings::at_radius(1_000.0);
    vec![
        ("line on an axis", straight([1.0, 0.0, 0.0]), wide),
        ("skew line", straight([1.0, 2.0, 3.0]), wide),
        ("301 near points, none by threshold", near.clone(), Settings { quality_threshold: 100.0, ..plain }),
        ("301 near points, none by least area", near.clone(), Settings { min_triangle_area: 1_000.0, ..plain }),
        ("301 near points, edge factor 0", near, Settings { max_edge_factor: 0.0, ..plain }),
        ("301 equal points", vec![0.25; 301 * 3], plain),
        ("4,096 equal points", vec![0.25; 4_096 * 3], plain),
        ("4,096 points 1 apart, radius 0.001", lattice(16, 1.0), Settings::at_radius(0.001)),
        ("4,096 points 1 apart, least area", lattice(16, 1.0), Settings { min_triangle_area: 1e6, ..plain }),
        ("4,096 points in pairs, one radius", pairs(4_096, 4.0), alone),
        ("4,096 points in pairs, no index", pairs(4_096, 4.0), Settings { use_spatial_index: false, ..alone }),
    ]
}

/// Best of many calls, in milliseconds.
pub fn bench() -> bool {
    for (name, points, settings) in rows() {
        let normals = vec![0.0; points.len()];
        let mut lent = lend(points.len() / 3);
        let (mut best, begin) = (f64::INFINITY, std::time::Instant::now());
        let mut answer = 0;
        while begin.elapsed().as_secs_f64() < 1.5 {
            let start = clock::now();
            answer = port::reconstruct(&points, &normals, &settings, &mut lent).answer;
            best = best.min((clock::now() - start).as_secs_f64() * 1e3);
        }
        println!("{name:<40} answer {answer:>2} {best:>10.3} ms");
    }
    true
}
