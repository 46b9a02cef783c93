//! Files drawn from a seed: good ones, damaged copies of good ones, and bytes at random; with slices of lengths around what they need.

use generate::Random;

/// Bytes that stand in a file, or nearly.
const NEAR: &[u8] = b"0123456789-.,\n+eE \t\r\"';\0\x80\xff/:";

pub struct Case {
    pub kind: &'static str,
    pub bytes: Vec<u8>,
    pub points: Vec<f32>,
    pub normals: Vec<f32>,
}

fn digits(random: &mut Random, most: usize, out: &mut Vec<u8>) {
    for _ in 0..random.whole(1, most) {
        out.push(random.pick(b"0123456789"));
    }
}

fn number(random: &mut Random, out: &mut Vec<u8>) {
    if random.percent(30) {
        out.push(b'-');
    }
    digits(random, 5, out);
    if random.percent(60) {
        out.push(b'.');
        digits(random, 6, out);
    }
}

fn good(random: &mut Random) -> Vec<u8> {
    let mut out = Vec::new();
    number(random, &mut out);
    out.push(b'\n');
    for _ in 0..random.below(9) {
        for end in b",,,,,\n" {
            number(random, &mut out);
            out.push(*end);
        }
    }
    out
}

/// One byte or a few put in, taken out, changed, or doubled, or the end cut off.
fn damage(random: &mut Random, bytes: &mut Vec<u8>) {
    let at = random.below(bytes.len() + 1);
    let byte = if random.percent(90) { random.pick(NEAR) } else { random.next() as u8 };
    match random.below(6) {
        0 => bytes.insert(at, byte),
        1 => bytes.truncate(at),
        2 => {
            let end = (at + random.whole(1, 12)).min(bytes.len());
            let copy = bytes[at..end].to_vec();
            bytes.splice(at..at, copy);
        }
        _ if at == bytes.len() => bytes.push(byte),
        3 => bytes[at] = byte,
        4 => drop(bytes.remove(at)),
        _ => {
            let other = random.below(bytes.len());
            bytes.swap(at, other);
        }
    }
}

/// Case `number` of a seed.
pub fn case(seed: u64, number: u64) -> Case {
    let random = &mut Random::new(seed, number);
    let (kind, bytes) = match random.below(10) {
        0 | 1 => ("good", good(random)),
        2..=6 => {
            let mut bytes = good(random);
            for _ in 0..random.whole(1, 3) {
                damage(random, &mut bytes);
            }
            ("damaged", bytes)
        }
        7 | 8 => ("near", (0..random.below(40)).map(|_| random.pick(NEAR)).collect()),
        _ => ("random", (0..random.below(200)).map(|_| random.next() as u8).collect()),
    };
    let lines = bytes.iter().filter(|&&b| b == b'\n').count();
    let need = 3 * lines.saturating_sub(1);
    let mut slice = || {
        let length = (need + random.below(8)).saturating_sub(random.below(4));
        (0..length).map(|_| random.pattern()).collect::<Vec<f32>>()
    };
    Case { kind, bytes, points: slice(), normals: slice() }
}
