//! Building an index and searching by it, against a scan with roots and, where Debian's libnanoflann-dev is installed,
//! against nanoflann's tree, on the same clouds and spots. The check that the index is the cloud's is made once a call, and
//! counts among the spots' times.

use crate::clock;
use generate::{clouds, Random};
use std::hint::black_box;
use yarrowbleat::index::Index;
use yarrowbleat::sys;

const POINTS: usize = 4_096;
const SPOTS: usize = 20_000;
const ROUNDS: usize = 40;

#[cfg(nanoflann)]
mod nano {
    extern "C" {
        pub fn nano_build(points: *const f32, count: usize) -> *mut std::ffi::c_void;
        pub fn nano_free(side: *mut std::ffi::c_void);
        pub fn nano_nearest(side: *const std::ffi::c_void, spots: *const f32, count: usize, found: *mut u32);
    }
}

/// The scan: the first point with the least length.
fn scan(points: &[f32], spot: &[f32]) -> u32 {
    let mut best = (0, f32::INFINITY);
    for (number, p) in points.chunks_exact(3).enumerate() {
        let [x, y, z] = [p[0] - spot[0], p[1] - spot[1], p[2] - spot[2]];
        let length = ((x * x + y * y) + z * z).sqrt();
        if length < best.1 {
            best = (number as u32, length);
        }
    }
    best.0
}

/// Nanoseconds an item, the best of so many rounds.
fn best(rounds: usize, items: usize, mut run: impl FnMut()) -> f64 {
    let times = (0..rounds).map(|_| {
        let start = clock::now();
        run();
        (clock::now() - start).as_nanos() as f64 / items as f64
    });
    times.fold(f64::INFINITY, f64::min)
}

struct Work {
    index: Vec<u32>,
    words: Vec<u32>,
    floats: Vec<f32>,
}

/// The spots' rows for a cloud; false where a ratio is not reached.
fn spots(name: &str, points: &[f32], spots: &[f32], most: f64, work: &mut Work) -> bool {
    let mut found = vec![0; SPOTS];
    assert_eq!(sys::build_index(points, &mut work.index, &mut work.words, &mut work.floats).answer, 0);
    let ours = best(ROUNDS, SPOTS, || {
        let answer =
            sys::nearest_points(points, spots, &work.index, &mut found, &mut work.words, &mut work.floats).answer;
        assert_eq!(black_box(answer), 0);
    });
    let mut distances = vec![0.0; SPOTS];
    let measured = best(ROUNDS, SPOTS, || {
        let (index, words, floats) = (&work.index, &mut work.words, &mut work.floats);
        let answer = sys::nearest_distances(points, spots, index, &mut found, &mut distances, words, floats).answer;
        assert_eq!(black_box(answer), 0);
    });
    let few = &spots[..3 * 200];
    let scanned: Vec<u32> = few.chunks_exact(3).map(|spot| scan(points, spot)).collect();
    assert_eq!(scanned, found[..200], "the scan finds others");
    let plain = best(ROUNDS, 200, || few.chunks_exact(3).for_each(|spot| _ = black_box(scan(points, black_box(spot)))));
    let times = plain / ours;
    let mut reached = times >= 20.0;
    print!("a spot {name}: port {ours:.0} ns, with its distance {measured:.0}, scan {plain:.0} ns, {times:.1} times as fast (to reach: 20)");
    match theirs(points, spots) {
        Some(nano) => {
            let ratio = ours / nano;
            reached &= ratio <= most;
            println!("; nanoflann {nano:.0} ns, ratio {ratio:.2} (to reach: at most {most})");
        }
        None => println!("; nanoflann isn't there"),
    }
    reached
}

#[cfg(nanoflann)]
fn theirs(points: &[f32], spots: &[f32]) -> Option<f64> {
    let mut found = vec![0; SPOTS];
    // SAFETY: the tree lives until it is freed below, over points that live longer; the slices have the lengths given.
    unsafe {
        let side = nano::nano_build(points.as_ptr(), POINTS);
        let time = best(ROUNDS, SPOTS, || nano::nano_nearest(side, spots.as_ptr(), SPOTS, found.as_mut_ptr()));
        nano::nano_free(side);
        Some(time)
    }
}

#[cfg(not(nanoflann))]
fn theirs(_points: &[f32], _spots: &[f32]) -> Option<f64> {
    None
}

/// Microseconds that nanoflann's build takes.
#[cfg(nanoflann)]
fn their_build(points: &[f32]) -> Option<f64> {
    // SAFETY: as above.
    Some(best(ROUNDS, 1_000, || unsafe { nano::nano_free(black_box(nano::nano_build(points.as_ptr(), POINTS))) }))
}

#[cfg(not(nanoflann))]
fn their_build(_points: &[f32]) -> Option<f64> {
    None
}

fn build(name: &str, points: &[f32], work: &mut Work) -> bool {
    let ours = best(ROUNDS, 1_000, || {
        _ = black_box(sys::build_index(points, &mut work.index, &mut work.words, &mut work.floats));
    });
    match their_build(points) {
        Some(nano) => {
            let ratio = ours / nano;
            println!(
                "building {name}: port {ours:.0} us, nanoflann {nano:.0} us, ratio {ratio:.2} (to reach: at most 1)"
            );
            ratio <= 1.0
        }
        None => {
            println!("building {name}: port {ours:.0} us; nanoflann isn't there");
            true
        }
    }
}

/// A single touch by the safe crate's index, by the library's call and by the scan; false where the crate is slower than
/// the scan.
fn single(name: &str, points: &[f32], spots: &[f32], work: &mut Work) -> bool {
    let cloud: Vec<[f32; 3]> = points.chunks_exact(3).map(|p| [p[0], p[1], p[2]]).collect();
    let few: Vec<[f32; 3]> = spots.chunks_exact(3).take(200).map(|p| [p[0], p[1], p[2]]).collect();
    let index = Index::build(&cloud).expect("an index");
    let scanned: Vec<u32> = few.iter().map(|spot| scan(points, spot)).collect();
    let found: Vec<u32> = few.iter().map(|spot| index.nearest_point(&cloud, spot).expect("a point").point).collect();
    assert_eq!(scanned, found, "the scan finds others");
    let plain = best(ROUNDS, 200, || few.iter().for_each(|spot| _ = black_box(scan(points, black_box(spot)))));
    let safe = best(ROUNDS, 200, || {
        few.iter().for_each(|spot| _ = black_box(index.nearest_point(&cloud, black_box(spot))));
    });
    let (numbers, words, floats) = (index.numbers(), &mut work.words, &mut work.floats);
    let library = best(ROUNDS, 5, || {
        few.iter().take(5).for_each(|spot| _ = black_box(sys::nearest_point(points, spot, numbers, words, floats)));
    });
    let [safe_us, plain_us, library_us] = [safe, plain, library].map(|ns| ns / 1_000.0);
    println!(
        "a single touch {name}: safe crate {safe_us:.1} us, scan {plain_us:.1} us, ratio {:.2} (to reach: at most 1); \
         the library's call, which checks the index, {library_us:.0} us",
        safe / plain
    );
    safe <= plain
}

pub fn bench() -> bool {
    let random = &mut Random::new(1, 0);
    let wall = clouds::wall(random, 128, 32, 0.2).points;
    let lattice: Vec<f32> = (0..POINTS).flat_map(|i| [i % 16, i / 16 % 16, i / 256].map(|k| k as f32)).collect();
    let mut work =
        Work { index: vec![0; 8 * POINTS + 64], words: vec![0; 24 * POINTS + 64], floats: vec![0.0; 4 * POINTS + 64] };
    let on = |points: &[f32], random: &mut Random| -> Vec<f32> {
        (0..SPOTS).flat_map(|_| points.chunks_exact(3).nth(random.below(POINTS)).expect("a point").to_vec()).collect()
    };
    let on_wall = on(&wall, random);
    let near: Vec<f32> = on_wall.iter().map(|x| x + random.within(-0.05, 0.05) as f32).collect();
    let far: Vec<f32> = (0..3 * SPOTS).map(|_| random.within(-100.0, 100.0) as f32).collect();
    let within: Vec<f32> = (0..3 * SPOTS).map(|_| random.within(0.0, 15.0) as f32).collect();
    let on_lattice = on(&lattice, random);
    [
        build("a wall's index", &wall, &mut work),
        build("a lattice's index", &lattice, &mut work),
        single("near the wall", &wall, &near, &mut work),
        single("within a lattice", &lattice, &within, &mut work),
        spots("near the wall", &wall, &near, 1.0, &mut work),
        spots("far from the wall", &wall, &far, 1.0, &mut work),
        spots("on a point of the wall", &wall, &on_wall, 2.0, &mut work),
        spots("within a lattice", &lattice, &within, 2.0, &mut work),
        spots("on a point of a lattice", &lattice, &on_lattice, 2.0, &mut work),
    ]
    .into_iter()
    .all(|reached| reached)
}
