//! Decimals one by one: every short one, and random ones of every length, each read as the standard library reads it.

use super::CloudRead;
use generate::Random;

/// A file has a radius and one point: seven numbers.
const AT_ONCE: usize = 7;

/// The texts that are held against the standard library's reading, and what came of it.
struct Held<R> {
    read: R,
    waiting: Vec<String>,
    count: u64,
    different: u64,
}

impl<R: Fn(&[u8], &mut [f32], &mut [f32]) -> CloudRead> Held<R> {
    fn take(&mut self, text: String) {
        self.waiting.push(text);
        if self.waiting.len() == AT_ONCE {
            self.compare();
        }
    }

    /// Reads the texts that wait as the numbers of one file; those that are missing are zeros.
    fn compare(&mut self) {
        let mut texts = std::mem::take(&mut self.waiting);
        let asked = texts.len();
        texts.resize(AT_ONCE, "0".to_string());
        let (mut points, mut normals) = ([0.0; 3], [0.0; 3]);
        let file = format!("{}\n{}\n", texts[0], texts[1..].join(","));
        let r = (self.read)(file.as_bytes(), &mut points, &mut normals);
        let found = std::iter::once(r.radius).chain(points).chain(normals);
        for (text, found) in texts.iter().zip(found).take(asked) {
            let expected: f32 = text.parse().expect("a decimal");
            let same = (r.answer, r.count) == (0, 1) && expected.to_bits() == found.to_bits();
            if !same && self.different == 0 {
                println!("first difference: {text} is {expected:?}, and was read as {found:?} (answer {})", r.answer);
            }
            self.different += u64::from(!same);
        }
        self.count += asked as u64;
    }
}

/// Every number of `width` digits, leading zeros and all.
fn digits(width: usize) -> impl Iterator<Item = String> {
    (0..10u32.pow(width as u32)).map(move |n| format!("{n:0width$}"))
}

/// Every number with one or two digits before its point, and with none to four behind it.
fn every_short(mut take: impl FnMut(String)) {
    let fractions: Vec<String> = (1..=4).flat_map(digits).map(|d| format!(".{d}")).collect();
    for whole in (1..=2).flat_map(digits) {
        take(whole.clone());
        fractions.iter().for_each(|fraction| take(format!("{whole}{fraction}")));
    }
}

fn sign(random: &mut Random) -> &'static str {
    if random.percent(50) {
        "-"
    } else {
        ""
    }
}

/// Digits at random: one to five before the point, none to six behind it.
fn any(random: &mut Random) -> String {
    let mut text = sign(random).to_string();
    (0..random.whole(1, 5)).for_each(|_| text.push(random.pick(b"0123456789").into()));
    let places = random.below(7);
    text.push_str(if places > 0 { "." } else { "" });
    (0..places).for_each(|_| text.push(random.pick(b"0123456789").into()));
    text
}

/// A decimal of six places, or of fewer, next to the middle of two f32.
fn close(random: &mut Random) -> String {
    let [low, high] = [1e-6f32, 99_999.0].map(f32::to_bits);
    let below = f32::from_bits(random.whole(low as usize, high as usize) as u32);
    let middle = (f64::from(below) + f64::from(f32::from_bits(below.to_bits() + 1))) / 2.0;
    let places = if random.percent(70) { 6 } else { random.whole(1, 6) };
    let step = [-1.0, 0.0, 1.0][random.below(3)] * 0.1f64.powi(places as i32);
    format!("{}{:.places$}", sign(random), (middle + step).max(0.0))
}

/// Compares every short decimal and `count` random ones, half of which are close to a middle; prints a line, and says whether none differs.
pub fn compare(count: u64, seed: u64, read: impl Fn(&[u8], &mut [f32], &mut [f32]) -> CloudRead) -> bool {
    let mut held = Held { read, waiting: Vec::new(), count: 0, different: 0 };
    every_short(|text| held.take(text));
    held.compare();
    let short = held.count;
    let random = &mut Random::new(seed, 0);
    for number in 0..count {
        let text = if number % 2 == 0 { any(random) } else { close(random) };
        held.take(text);
    }
    held.compare();
    let different = held.different;
    println!("decimals: every short one ({short}) and {count} random ones compared, {different} different");
    different == 0 && short == 1_222_210 && held.count == short + count
}

#[cfg(test)]
mod tests {
    use super::*;
    use crate::cloud::reader::{self, read_cloud};

    /// Document 01's rule, by which the fraction is rounded before the sum, and a rule that cuts off are found out.
    #[test]
    fn wrong_rules_are_found() {
        assert!(compare(1_000, 1, read_cloud));
        let twice = |b: &[u8], p: &mut [f32], n: &mut [f32]| {
            let r = read_cloud(b, p, n);
            let text = std::str::from_utf8(b).unwrap().lines().next().unwrap();
            let (whole, fraction) = text.split_once('.').unwrap_or((text, "0"));
            let power = 10f32.powi(fraction.len() as i32);
            let sum = whole.trim_start_matches('-').parse::<f32>().unwrap() + fraction.parse::<f32>().unwrap() / power;
            reader::CloudRead { radius: sum.copysign(r.radius), ..r }
        };
        let cut = |b: &[u8], p: &mut [f32], n: &mut [f32]| {
            let r = read_cloud(b, p, n);
            let text = std::str::from_utf8(b).unwrap().lines().next().unwrap();
            let exact: f64 = text.parse().unwrap();
            let larger = f64::from(r.radius.abs()) > exact.abs();
            reader::CloudRead { radius: f32::from_bits(r.radius.to_bits() - u32::from(larger)), ..r }
        };
        assert!(!compare(0, 1, twice));
        assert!(!compare(0, 1, cut));
    }
}
