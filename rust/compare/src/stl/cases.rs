//! Patches to write and files to read, drawn from a seed, with outputs of lengths around what they need.

use super::reference;
use generate::Random;

pub struct Patch {
    pub kind: &'static str,
    pub points: Vec<f32>,
    pub faces: Vec<u32>,
    pub bytes: Vec<u8>,
}

pub struct File {
    pub kind: &'static str,
    pub bytes: Vec<u8>,
    pub corners: Vec<f32>,
}

const PATCHES: [&str; 7] =
    ["valid", "points not in threes", "faces not in threes", "far", "no such point", "short output", "several wrong"];
const FILES: [&str; 9] =
    ["ours", "foreign", "solid", "odd corners", "cut", "lengthened", "a count that lies", "short output", "bytes"];

fn coordinate(random: &mut Random) -> f32 {
    match random.below(10) {
        0 => random.pick(&[0.0, -0.0, 1.0, -1.0, 10_000.0, -10_000.0, f32::MIN_POSITIVE, 2f32.powi(-37)]),
        1 => random.signed(10_000.0),
        2 => random.whole(0, 3) as f32 - 1.0,
        _ => random.within(-10_000.0, 10_000.0) as f32,
    }
}

/// Beyond the bounds: by a step, far, without end, or no number.
fn far(random: &mut Random) -> f32 {
    let size = random.pick(&[10_000.001, 1e30, f32::INFINITY, f32::NAN]);
    if random.percent(50) {
        -size
    } else {
        size
    }
}

fn noise(random: &mut Random, length: usize) -> Vec<u8> {
    (0..length).map(|_| random.next() as u8).collect()
}

fn patterns(random: &mut Random, length: usize) -> Vec<f32> {
    (0..length).map(|_| random.pattern()).collect()
}

/// A few points, some equal to others, and faces among them.
fn valid(random: &mut Random) -> (Vec<f32>, Vec<u32>) {
    let n = random.pick(&[0, 1, 2, 3, 3, 4, 7, 20]);
    let mut points: Vec<f32> = (0..3 * n).map(|_| coordinate(random)).collect();
    if n > 1 && random.percent(30) {
        let (to, from) = (3 * random.below(n), 3 * random.below(n));
        points.copy_within(from..from + 3, to);
    }
    let faces = if n == 0 { 0 } else { random.pick(&[0, 1, 1, 2, 5, 12]) };
    let faces = (0..3 * faces).map(|_| random.below(n) as u32).collect();
    (points, faces)
}

fn point_far(random: &mut Random, points: &mut [f32]) {
    if !points.is_empty() {
        let at = random.below(points.len());
        points[at] = far(random);
    }
}

fn face_missing(random: &mut Random, points: &[f32], faces: &mut Vec<u32>) {
    if faces.is_empty() {
        faces.extend([0; 3]);
    }
    let n = points.len() / 3;
    let at = random.below(faces.len());
    faces[at] = random.pick(&[n as u32, n as u32 + 1, u32::MAX]);
}

/// Patch `number` of a seed; the first two have the most faces, and one more.
pub fn patch(seed: u64, number: u64) -> Patch {
    if number < 2 {
        let faces = 1_000_000 + number as usize;
        let points = vec![0.0, 0.0, 0.0, 1.0, 0.0, -0.0, 0.0, 1.0, 2.0];
        let kind = ["the most faces", "too many faces"][number as usize];
        return Patch { kind, points, faces: [2, 0, 1].repeat(faces), bytes: vec![7; 84 + 50 * faces + 1] };
    }
    let random = &mut Random::new(seed, number);
    let kind = PATCHES[if random.percent(30) { 0 } else { random.below(PATCHES.len()) }];
    let (mut points, mut faces) = valid(random);
    let mut room = 84 + 50 * (faces.len() / 3) + random.pick(&[0, 0, 1, 49, 60]);
    match kind {
        "points not in threes" => points.extend(patterns(random, 1)),
        "faces not in threes" => faces.push(random.next() as u32),
        "far" => point_far(random, &mut points),
        "no such point" => face_missing(random, &points, &mut faces),
        "short output" => room = room.min(84 + 50 * (faces.len() / 3)) - random.pick(&[1, 1, 2, 50, 84]),
        "several wrong" => {
            point_far(random, &mut points);
            face_missing(random, &points, &mut faces);
            room = random.below(room);
            if random.percent(30) {
                faces.push(0);
            }
        }
        _ => {}
    }
    Patch { kind, points, faces, bytes: noise(random, room) }
}

/// Any header, normals and u16s, with a good count.
fn foreign(random: &mut Random) -> Vec<u8> {
    let n = random.pick(&[0, 1, 1, 2, 7]);
    let mut bytes = noise(random, 84 + 50 * n);
    bytes[80..84].copy_from_slice(&(n as u32).to_le_bytes());
    bytes
}

/// File `number` of a seed.
pub fn file(seed: u64, number: u64) -> File {
    let random = &mut Random::new(seed ^ 0x57_1c, number);
    let kind = random.pick(&FILES);
    let mut bytes = if kind == "ours" || (kind != "foreign" && random.percent(50)) {
        let (points, faces) = valid(random);
        let mut bytes = vec![0; 84 + 50 * (faces.len() / 3)];
        reference::write_stl(&points, &faces, &mut bytes);
        bytes
    } else {
        foreign(random)
    };
    let n = (bytes.len() - 84) / 50;
    match kind {
        "solid" => bytes[..6].copy_from_slice(b"solid "),
        "odd corners" => {
            for facet in 0..n {
                let at = 84 + 50 * facet + 12 + 4 * random.below(9);
                let odd =
                    random.pick(&[0x7fc0_0000u32, 0x7f80_0001, 0xffff_ffff, 0x7f80_0000, 0xff80_0000, 0x8000_0000]);
                bytes[at..at + 4].copy_from_slice(&odd.to_le_bytes());
            }
        }
        "cut" => bytes.truncate(random.pick(&[0, 1, 79, 80, 83, bytes.len() - 1, bytes.len() - 1, bytes.len() - 2])),
        "lengthened" => {
            let more = random.pick(&[1, 1, 2, 49, 50, 100]);
            bytes.extend(noise(random, more));
        }
        "a count that lies" => {
            // 50 times the fourth is 50 times the true count but for 25 times 2^32.
            let lies = [0, n as u32 + 1, u32::MAX, n as u32 ^ 0x8000_0000, (n as u32).swap_bytes()];
            bytes[80..84].copy_from_slice(&random.pick(&lies).to_le_bytes());
        }
        "bytes" => {
            let length = random.below(300);
            bytes = noise(random, length);
        }
        _ => {}
    }
    let room = match kind {
        "short output" => (9 * n).saturating_sub(random.pick(&[1, 1, 2, 9])),
        _ => 9 * n + random.pick(&[0, 0, 1, 8, 9, 20]),
    };
    File { kind, bytes, corners: patterns(random, room) }
}
