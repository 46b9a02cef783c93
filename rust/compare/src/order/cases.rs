//! Files of faces drawn from a seed: sets of few faces, grown ones, and patches that the port lays; some spoilt, some
//! damaged byte by byte; with counts of points and slices of lengths around what they need.

use super::reference::Face;
use generate::Random;

/// Bytes that stand in a file, or nearly.
const NEAR: &[u8] = b"0123456789,\n\r -+.\t\0\x80\xff/:";

pub struct Case {
    pub kind: &'static str,
    pub bytes: Vec<u8>,
    pub points: usize,
    pub order: Vec<u32>,
    pub words: Vec<u32>,
    pub floats: Vec<f32>,
}

/// Some faces and a count of points that has room for them.
type Faces = (Vec<Face>, usize);

/// The points of a face in another order.
fn turned(random: &mut Random, [a, b, c]: Face) -> Face {
    random.pick(&[[a, b, c], [b, a, c], [b, c, a], [c, a, b], [a, c, b], [c, b, a]])
}

fn shuffled<T>(random: &mut Random, list: &mut [T]) {
    for end in (1..list.len()).rev() {
        list.swap(end, random.below(end + 1));
    }
}

/// Any faces over a few points.
fn any(random: &mut Random) -> Faces {
    let points = random.whole(3, 9);
    let faces = (0..random.below(8)).map(|_| {
        let mut all: Vec<u32> = (0..points as u32).collect();
        shuffled(random, &mut all);
        [all[0], all[1], all[2]]
    });
    (faces.collect(), points)
}

/// Faces that were laid one by one, each on an edge of one before it or as a seed; in some sets one closes a gap now and
/// then, in others edges get a third face.
fn grown(random: &mut Random, most: usize) -> Faces {
    let (mut faces, mut points): (Vec<Face>, u32) = (Vec::new(), 0);
    let (gaps, thirds) = (random.percent(20), random.percent(30));
    let mut free = Vec::new();
    for _ in 0..random.below(most + 1) {
        let on = if faces.is_empty() || random.percent(12) { None } else { Some(random.pick(&faces)) };
        match on {
            None => {
                let (a, b, c) = (points, points + 1, points + 2);
                free.extend([(a, b), (b, c), (c, a)]);
                faces.push([a, b, c]);
                points += 3;
            }
            Some([a, b, c]) => {
                let at = random.below(free.len());
                let (p, q) = if thirds { random.pick(&[(a, b), (b, c), (c, a)]) } else { free.swap_remove(at) };
                let closing = gaps && random.percent(15);
                let third = if closing { random.below(points as usize) as u32 } else { points };
                free.extend([(p, third), (third, q)]);
                faces.push([p, q, third]);
                points += u32::from(!closing);
            }
        }
    }
    (faces, points as usize)
}

/// One face gets another point, is doubled, or is taken away.
fn spoil(random: &mut Random, (faces, points): &mut Faces) {
    if faces.is_empty() {
        return;
    }
    let at = random.below(faces.len());
    match random.below(6) {
        0 => faces.push(faces[at]),
        1 => drop(faces.remove(at)),
        2 => faces[at][random.below(3)] = *points as u32 + random.below(2) as u32,
        3 => faces[at][0] = faces[at][1],
        _ => faces[at][random.below(3)] = random.below(*points) as u32,
    }
}

/// Points get other numbers, lines other places, faces other turns.
fn mixed(random: &mut Random, (faces, points): &mut Faces) {
    let most = faces.iter().flatten().max().map_or(0, |point| *point as usize + 1).max(*points);
    let mut names: Vec<u32> = (0..most as u32).collect();
    shuffled(random, &mut names[..*points]);
    for face in faces.iter_mut() {
        *face = turned(random, face.map(|point| names[point as usize]));
    }
    shuffled(random, faces);
}

fn text(random: &mut Random, faces: &[Face]) -> Vec<u8> {
    let zeros = random.percent(10);
    let mut bytes = Vec::new();
    for face in faces {
        for (point, end) in face.iter().zip(b",,\n") {
            let number = if zeros && random.percent(20) { format!("{point:05}") } else { point.to_string() };
            bytes.extend(number.bytes());
            bytes.push(*end);
        }
    }
    bytes
}

/// A byte put in, taken out or changed, or the end cut off.
fn damage(random: &mut Random, bytes: &mut Vec<u8>) {
    let at = random.below(bytes.len() + 1);
    let byte = if random.percent(90) { random.pick(NEAR) } else { random.next() as u8 };
    match random.below(4) {
        0 => bytes.insert(at, byte),
        1 => bytes.truncate(at),
        _ if at == bytes.len() => bytes.push(byte),
        2 => bytes[at] = byte,
        _ => drop(bytes.remove(at)),
    }
}

/// Slices around what faces over so many points need, holding numbers of their own.
fn lent(random: &mut Random, kind: &'static str, bytes: Vec<u8>, faces: usize, points: usize) -> Case {
    let around = |random: &mut Random, need: usize| match random.below(20) {
        0 => need.saturating_sub(random.whole(1, 3)),
        1..=9 => need,
        _ => need + random.below(6),
    };
    let points = match random.below(40) {
        0 => random.pick(&[0, 4_096, 4_097, usize::MAX]),
        1 | 2 => points.saturating_sub(1),
        3..=8 => points + random.below(4),
        _ => points,
    };
    let (words, floats) = generate::work_lengths(points.min(5_000));
    let (order, words, floats) = (around(random, faces), around(random, words), around(random, floats));
    Case {
        kind,
        bytes,
        points,
        order: (0..order).map(generate::old_word).collect(),
        words: (0..words).map(generate::old_word).collect(),
        floats: (0..floats).map(|at| at as f32 - 7.5).collect(),
    }
}

/// A case of few faces, grown ones or any bytes.
pub fn case(seed: u64, number: u64) -> Case {
    let random = &mut Random::new(seed, number);
    let (kind, mut found) = match random.below(10) {
        0 | 1 => ("any", any(random)),
        2..=6 => ("few", grown(random, 7)),
        _ => ("grown", grown(random, 40)),
    };
    if random.percent(if kind == "any" { 5 } else { 40 }) {
        spoil(random, &mut found);
    }
    mixed(random, &mut found);
    let mut bytes = text(random, &found.0);
    let kind = match random.below(20) {
        0 => {
            damage(random, &mut bytes);
            "damaged"
        }
        1 => {
            bytes = (0..random.below(30)).map(|_| random.pick(NEAR)).collect();
            "near"
        }
        _ => kind,
    };
    lent(random, kind, bytes, found.0.len(), found.1)
}

/// A patch that the port lays, its points' numbers kept; one face is spoilt in two of five. None where the cloud is
/// refused or has no radii.
pub fn patch(seed: u64, number: u64) -> Option<Case> {
    let cloud = generate::case(seed, number);
    let points = cloud.points.len() / 3;
    let (words, floats) = generate::work_lengths(points);
    let mut slices = expect::Lent { faces: vec![0; 30_000], words: vec![0; words], floats: vec![0.0; floats] };
    let laid = port::reconstruct(&cloud.points, &cloud.normals, &cloud.settings, &mut slices);
    if laid.answer != 0 || laid.radii_count == 0 {
        return None;
    }
    let random = &mut Random::new(!seed, number);
    let faces: Vec<Face> = slices.faces[..3 * laid.faces as usize].chunks(3).map(|f| [f[0], f[1], f[2]]).collect();
    let mut found = (faces, points);
    let kind = if random.percent(40) {
        spoil(random, &mut found);
        "spoilt"
    } else {
        "patch"
    };
    for face in found.0.iter_mut() {
        *face = turned(random, *face);
    }
    if random.percent(80) {
        shuffled(random, &mut found.0);
    }
    let bytes = text(random, &found.0);
    let count = found.0.len();
    Some(lent(random, kind, bytes, count, points))
}
