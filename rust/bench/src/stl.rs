//! An STL file of 1,000,000 faces, written and read by the port and by a plain Rust of the same layout, which checks what
//! the port checks. Both sides write the same bytes and read the same numbers.

use crate::numbers::judge;
use generate::Random;
use std::hint::black_box;
use std::time::Instant;

const FACES: usize = 1_000_000;
const POINTS: usize = 500_000;
const ROUNDS: usize = 20;

fn written(points: &[f32], faces: &[u32], bytes: &mut [u8]) -> usize {
    let length = 84 + 50 * (faces.len() / 3);
    let good = points.iter().all(|x| x.abs() <= 10_000.0)
        && faces.iter().all(|n| (*n as usize) < points.len() / 3)
        && bytes.len() >= length;
    if !good {
        return 0;
    }
    bytes[..80].fill(0);
    bytes[80..84].copy_from_slice(&((faces.len() / 3) as u32).to_le_bytes());
    let corner = |n: u32| <[f32; 3]>::try_from(&points[3 * n as usize..3 * n as usize + 3]).expect("three");
    for (face, facet) in faces.chunks_exact(3).zip(bytes[84..length].chunks_exact_mut(50)) {
        let [p, q, r] = [corner(face[0]), corner(face[1]), corner(face[2])];
        let (e, f) = ([q[0] - p[0], q[1] - p[1], q[2] - p[2]], [r[0] - p[0], r[1] - p[1], r[2] - p[2]]);
        let v = [e[1] * f[2] - e[2] * f[1], e[2] * f[0] - e[0] * f[2], e[0] * f[1] - e[1] * f[0]];
        let long = (v[0] * v[0] + v[1] * v[1] + v[2] * v[2]).sqrt();
        let normal = if long == 0.0 { [0.0; 3] } else { v.map(|part| part / long) };
        let numbers = [normal, p, q, r];
        for (place, number) in facet.chunks_exact_mut(4).zip(numbers.as_flattened()) {
            place.copy_from_slice(&number.to_le_bytes());
        }
        facet[48..].fill(0);
    }
    length
}

fn read(bytes: &[u8], corners: &mut [f32]) -> usize {
    let Some((head, facets)) = bytes.split_at_checked(84) else { return 0 };
    let count = u32::from_le_bytes(head[80..].try_into().expect("four")) as usize;
    if facets.len() != 50 * count || corners.len() < 9 * count {
        return 0;
    }
    for (facet, nine) in facets.chunks_exact(50).zip(corners.chunks_exact_mut(9)) {
        for (place, number) in facet[12..48].chunks_exact(4).zip(nine) {
            *number = f32::from_le_bytes(place.try_into().expect("four"));
        }
    }
    count
}

/// Nanoseconds a face of both sides, each the best of its rounds.
fn race(mut ours: impl FnMut(), mut theirs: impl FnMut()) -> [f64; 2] {
    let mut best = [f64::INFINITY; 2];
    for _ in 0..ROUNDS {
        let start = Instant::now();
        ours();
        let middle = Instant::now();
        theirs();
        for (best, took) in best.iter_mut().zip([middle - start, middle.elapsed()]) {
            *best = best.min(took.as_nanos() as f64 / FACES as f64);
        }
    }
    best
}

pub fn bench() -> bool {
    let random = &mut Random::new(1, 0);
    let points: Vec<f32> = (0..3 * POINTS).map(|_| random.within(-10.0, 10.0) as f32).collect();
    let faces: Vec<u32> = (0..3 * FACES).map(|k| (k / 6 + random.below(64)).min(POINTS - 1) as u32).collect();
    let (mut bytes, mut other) = (vec![0; 84 + 50 * FACES], vec![1; 84 + 50 * FACES]);
    let told = port::write_stl(&points, &faces, &mut bytes);
    assert_eq!((told.answer, told.length, bytes.len()), (0, written(&points, &faces, &mut other), bytes.len()));
    assert!(bytes == other, "the bytes differ");
    let writing = race(
        || _ = black_box(port::write_stl(black_box(&points), &faces, &mut bytes)),
        || _ = black_box(written(black_box(&points), &faces, &mut other)),
    );
    let (mut corners, mut others) = (vec![0.0f32; 9 * FACES], vec![1.0f32; 9 * FACES]);
    assert_eq!(port::read_stl(&bytes, &mut corners).faces, read(&bytes, &mut others));
    assert!(corners == others, "the corners differ");
    let reading = race(
        || _ = black_box(port::read_stl(black_box(&bytes), &mut corners)),
        || _ = black_box(read(black_box(&bytes), &mut others)),
    );
    let read = judge("a facet of an STL file read", reading, 1.5);
    judge("a facet of an STL file written", writing, 2.3) && read
}
