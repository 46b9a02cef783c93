//! Clouds inside the domain, each with the distance at which its points usually lie.

use crate::random::Random;

/// Coordinates, three to a point, and the usual distance between neighbours.
pub struct Cloud {
    pub kind: &'static str,
    pub points: Vec<f32>,
    pub spacing: f64,
}

/// The greatest size of a coordinate.
pub const LIMIT: f32 = 10_000.0;

/// The point of the unit circle at this part of a turn, by arithmetic alone.
pub(crate) fn turn(part: f64) -> (f64, f64) {
    let eighths = part * 8.0;
    let whole = eighths.floor();
    let t = (eighths - whole) * 0.414_213_562_373_095;
    let (mut c, mut s) = ((1.0 - t * t) / (1.0 + t * t), 2.0 * t / (1.0 + t * t));
    for _ in 0..whole as usize {
        (c, s) = ((c - s) * 0.5f64.sqrt(), (c + s) * 0.5f64.sqrt());
    }
    (c, s)
}

/// The cube root of a number from 1 on, by arithmetic alone.
fn cube_root(x: f64) -> f64 {
    (0..60).fold(x, |root, _| (2.0 * root + x / (root * root)) / 3.0)
}

fn flat(points: impl IntoIterator<Item = [f64; 3]>) -> Vec<f32> {
    points.into_iter().flatten().map(|x| x as f32).collect()
}

/// How many points a cloud gets: mostly few, since the published code is slow on many.
fn size(random: &mut Random) -> usize {
    match random.below(100) {
        0..=39 => random.whole(3, 40),
        40..=79 => random.whole(20, 150),
        80..=95 => random.whole(100, 400),
        _ => random.whole(400, 1_500),
    }
}

/// A bell's wall: a surface of revolution, narrow at the shoulder, wide at the lip, scanned in rings with jitter, which is
/// told in spacings.
pub fn wall(random: &mut Random, around: usize, rings: usize, jitter: f64) -> Cloud {
    let spacing = 4.0 / around as f64;
    let jitter = jitter * spacing;
    let mut points = Vec::new();
    for ring in 0..rings {
        let height = ring as f64 * spacing;
        let t = height / (rings as f64 * spacing);
        let wall = 0.5 + 0.1 * t + 0.4 * t * t * t * t * t * t;
        for place in 0..around {
            let (c, s) = turn((place as f64 + 0.5 * (ring % 2) as f64) / around as f64 % 1.0);
            points.push([wall * c, wall * s, -height].map(|x| x + random.within(-jitter, jitter)));
        }
    }
    Cloud { kind: "bell", points: flat(points), spacing }
}

pub fn bell(random: &mut Random, size: usize) -> Cloud {
    let around = ((size as f64 * 2.5).sqrt() as usize).clamp(3, size);
    let jitter = random.pick(&[0.0, 0.02, 0.2, 0.4]);
    wall(random, around, (size / around).max(1), jitter)
}

/// A plane scanned in rows, with jitter.
pub fn sheet(random: &mut Random, size: usize, jitter: f64) -> Cloud {
    let width = (size as f64).sqrt().ceil() as usize;
    let mut points = Vec::new();
    for i in 0..size {
        let step = |whole: usize, random: &mut Random| whole as f64 + random.within(-jitter, jitter);
        points.push([step(i % width, random), step(i / width, random), random.within(-jitter, jitter)]);
    }
    Cloud { kind: "plane", points: flat(points), spacing: 1.0 }
}

pub fn plane(random: &mut Random, size: usize) -> Cloud {
    let jitter = random.pick(&[0.0, 0.05, 0.3]);
    sheet(random, size, jitter)
}

fn direction(random: &mut Random) -> [f64; 3] {
    loop {
        let v = [0; 3].map(|_| random.within(-1.0, 1.0));
        let square = v[0] * v[0] + v[1] * v[1] + v[2] * v[2];
        if square > 0.01 && square <= 1.0 {
            return v.map(|x| x / square.sqrt());
        }
    }
}

pub fn sphere(random: &mut Random, size: usize) -> Cloud {
    let points = (0..size).map(|_| direction(random));
    Cloud { kind: "sphere", points: flat(points.collect::<Vec<_>>()), spacing: 3.5 / (size as f64).sqrt() }
}

pub fn volume(random: &mut Random, size: usize) -> Cloud {
    let points = (0..size).map(|_| [0; 3].map(|_| random.unit()));
    Cloud { kind: "volume", points: flat(points.collect::<Vec<_>>()), spacing: 0.7 / cube_root(size as f64) }
}

/// Points in a line, along an axis or askew, some of them on the same place.
fn line(random: &mut Random, size: usize) -> Cloud {
    let along = if random.percent(50) {
        random.pick(&[[1.0, 0.0, 0.0], [0.0, 1.0, 0.0], [0.0, 0.0, 1.0]])
    } else {
        direction(random)
    };
    let size = size.min(60);
    let points = (0..size).map(|_| {
        let at = random.below(size) as f64;
        along.map(|x| x * at)
    });
    Cloud { kind: "line", points: flat(points.collect::<Vec<_>>()), spacing: 1.0 }
}

fn equal(random: &mut Random, size: usize) -> Cloud {
    let place = [0; 3].map(|_| random.within(-2.0, 2.0));
    Cloud { kind: "equal", points: flat(vec![place; size.min(40)]), spacing: 1.0 }
}

/// Clusters of different density.
pub fn clusters(random: &mut Random, size: usize) -> Cloud {
    let count = random.whole(2, 5);
    let places: Vec<([f64; 3], f64)> =
        (0..count).map(|_| ([0; 3].map(|_| random.within(-3.0, 3.0)), random.pick(&[0.05, 0.2, 0.5, 1.5]))).collect();
    let points = (0..size).map(|_| {
        let (place, wide) = random.pick(&places);
        place.map(|x| x + random.within(-wide, wide))
    });
    Cloud { kind: "clusters", points: flat(points.collect::<Vec<_>>()), spacing: 1.6 / cube_root(size as f64) }
}

/// 0 to 8 points on small whole coordinates, minus zero among them.
fn tiny(random: &mut Random) -> Cloud {
    let count = random.below(9);
    let high = random.pick(&[1, 2, 2, 3, 3, 4]);
    let points = (0..count * 3).map(|_| random.pick(&[1.0, 1.0, -1.0]) * random.below(high) as f32);
    Cloud { kind: "tiny", points: points.collect(), spacing: 1.0 }
}

/// Coordinates of every size.
fn sizes(random: &mut Random) -> Cloud {
    let high = random.pick(&[1e-38, 1e-20, 1e-3, 1.0, LIMIT]);
    let count = random.below(60);
    let points = (0..count * 3).map(|_| random.signed(high));
    Cloud { kind: "sizes", points: points.collect(), spacing: f64::from(high) }
}

/// Points some ten-thousandths apart, and one at a far corner: cells are as wide as a coordinate's rounding there, or
/// narrower.
fn far(random: &mut Random) -> Cloud {
    let count = random.whole(4, 24);
    let step = random.pick(&[1e-4, 2.5e-4, 4e-4]);
    let place = [0; 3].map(|_| random.pick(&[0.0, 0.0, 1_000.0, 6_384.0]));
    let flat_axis = random.percent(50);
    let mut points: Vec<[f64; 3]> = Vec::new();
    for _ in 0..count {
        let [x, y, z] = place.map(|x| x + step * random.within(-5.0, 5.0));
        points.push([x, y, if flat_axis { place[2] } else { z }]);
    }
    let corner = [0, 1, 2].map(|i| if random.percent(60) { -f64::from(LIMIT) } else { place[i] });
    points.insert(random.below(count), corner);
    Cloud { kind: "far", points: flat(points), spacing: random.pick(&[3e-4, 5e-4, 1e-3]) }
}

/// A cloud of any kind; those of a scan's kinds also scaled and moved.
pub fn cloud(random: &mut Random) -> Cloud {
    let size = size(random);
    let mut cloud = match random.below(100) {
        0..=24 => bell(random, size),
        25..=34 => plane(random, size),
        35..=44 => sphere(random, size),
        45..=54 => volume(random, size),
        55..=61 => line(random, size),
        62..=64 => equal(random, size),
        65..=74 => clusters(random, size),
        75..=88 => return tiny(random),
        89..=93 => return far(random),
        _ => return sizes(random),
    };
    if random.percent(60) {
        let scale = f64::from(random.sized(0.01, 100.0));
        let offset = [0; 3].map(|_| if random.percent(50) { 0.0 } else { random.within(-1_000.0, 1_000.0) });
        for (i, x) in cloud.points.iter_mut().enumerate() {
            *x = ((f64::from(*x) * scale + offset[i % 3]) as f32).clamp(-LIMIT, LIMIT);
        }
        cloud.spacing *= scale;
    }
    cloud
}
