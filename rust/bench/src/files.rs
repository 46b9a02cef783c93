//! A cloud file of 4,096 points, read by the port and by Rust's own split and `parse::<f32>` over the same bytes. Both
//! fill the same slices; the port also checks every line's form before it writes.

use crate::numbers::{judge, race};
use generate::{clouds, Random};
use std::hint::black_box;

const POINTS: usize = 4_096;

/// The points of a file: a wall's, or any.
#[derive(Clone, Copy, Debug)]
enum Points {
    Wall,
    Random,
}

/// A file of points, that many times as large, with one number of places throughout.
fn file(points: Points, scale: f64, places: usize) -> Vec<u8> {
    let random = &mut Random::new(1, 0);
    let coordinates = match points {
        Points::Wall => clouds::wall(random, 128, 32, 0.2).points,
        Points::Random => (0..3 * POINTS).map(|_| random.within(-1.0, 1.0) as f32).collect(),
    };
    let mut text = format!("{:.places$}\n", 0.5 * scale);
    for point in coordinates.chunks(3) {
        let position = point.iter().map(|x| format!("{:.places$},", f64::from(*x) * scale));
        let normal: Vec<String> = (0..3).map(|_| format!("{:.places$}", random.within(-1.0, 1.0))).collect();
        text.extend(position);
        text.push_str(&normal.join(","));
        text.push('\n');
    }
    text.into_bytes()
}

/// The radius; the numbers of the points' lines go into the slices.
fn by_rust(bytes: &[u8], points: &mut [f32], normals: &mut [f32]) -> Option<f32> {
    let mut lines = std::str::from_utf8(bytes).ok()?.lines();
    let radius = lines.next()?.parse().ok()?;
    for (line, (point, normal)) in lines.zip(points.chunks_mut(3).zip(normals.chunks_mut(3))) {
        let mut numbers = line.split(',');
        for slot in point.iter_mut().chain(normal) {
            *slot = numbers.next()?.parse().ok()?;
        }
    }
    Some(radius)
}

fn read(kind: Points, scale: f64, places: usize) -> bool {
    let bytes = file(kind, scale, places);
    let [mut points, mut normals, mut other, mut another] = [(); 4].map(|()| vec![0.0f32; 3 * POINTS]);
    let found = port::read_cloud(&bytes, &mut points, &mut normals);
    let radius = by_rust(&bytes, &mut other, &mut another);
    assert_eq!((found.answer, found.count, Some(found.radius)), (0, POINTS, radius), "the answers differ");
    assert!(points == other && normals == another, "the numbers differ");
    let times = race(
        || _ = black_box(port::read_cloud(black_box(&bytes), &mut points, &mut normals)),
        || _ = black_box(by_rust(black_box(&bytes), &mut other, &mut another)),
    );
    judge(&format!("a point of a cloud file, {kind:?}, {places} places, up to {scale}"), times, 1.0)
}

pub fn bench() -> bool {
    let rows = [Points::Wall, Points::Random]
        .into_iter()
        .flat_map(|kind| [(kind, 1.0, 6), (kind, 1_000.0, 3), (kind, 1_000.0, 6)]);
    rows.fold(true, |reached, (kind, scale, places)| read(kind, scale, places) && reached)
}
