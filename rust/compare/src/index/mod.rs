//! Holds building, belonging and the nearest point against those of this module, on clouds drawn from a seed.

pub mod cases;
pub mod linked;
pub mod reference;

use cases::{Case, Damage};
use reference::Lent;
use std::collections::BTreeMap;

/// What many spots are told into: numbers and distances.
pub struct Found<'a> {
    pub numbers: &'a mut [u32],
    pub distances: &'a mut [f32],
}

/// The five calls, and the safe crate's for one spot; a float is told by its bits.
pub trait Side {
    fn build(&self, points: &[f32], index: &mut [u32], words: &mut [u32], floats: &mut [f32]) -> (u32, usize);
    fn belongs(&self, points: &[f32], index: &[u32], words: &mut [u32], floats: &mut [f32]) -> (u32, usize, bool);
    fn point(
        &self,
        points: &[f32],
        spot: [f32; 3],
        index: &[u32],
        words: &mut [u32],
        floats: &mut [f32],
    ) -> (u32, usize, u32, u32);
    fn points(
        &self,
        points: &[f32],
        spots: &[f32],
        index: &[u32],
        found: &mut [u32],
        words: &mut [u32],
        floats: &mut [f32],
    ) -> (u32, usize);
    fn distances(
        &self,
        points: &[f32],
        spots: &[f32],
        index: &[u32],
        found: Found,
        words: &mut [u32],
        floats: &mut [f32],
    ) -> (u32, usize);
    /// One spot, by an index that was built of these points just now.
    fn own(&self, points: &[f32], spot: [f32; 3]) -> (u32, usize, u32, u32);
}

/// The calls as the request has them.
pub struct Reference;

fn swept(words: &mut [u32], floats: &mut [f32]) {
    words.fill(0);
    floats.fill(0.0);
}

fn lent(index: &[u32], words: &[u32], floats: &[f32]) -> Lent {
    Lent { index: index.len(), words: words.len(), floats: floats.len() }
}

fn own(points: &[f32], index: &[u32]) -> bool {
    index[..reference::size(points.len() / 3)] == reference::build(points)
}

impl Side for Reference {
    fn build(&self, points: &[f32], index: &mut [u32], words: &mut [u32], floats: &mut [f32]) -> (u32, usize) {
        if let Some(refusal) = reference::refused(points, &[], lent(index, words, floats)) {
            return refusal;
        }
        let built = reference::build(points);
        index[..built.len()].copy_from_slice(&built);
        swept(words, floats);
        (0, 0)
    }

    fn belongs(&self, points: &[f32], index: &[u32], words: &mut [u32], floats: &mut [f32]) -> (u32, usize, bool) {
        if let Some((answer, detail)) = reference::refused(points, &[], lent(index, words, floats)) {
            return (answer, detail, false);
        }
        swept(words, floats);
        (0, 0, own(points, index))
    }

    fn point(
        &self,
        points: &[f32],
        spot: [f32; 3],
        index: &[u32],
        words: &mut [u32],
        floats: &mut [f32],
    ) -> (u32, usize, u32, u32) {
        if let Some((answer, detail)) = reference::refused(points, &spot, lent(index, words, floats)) {
            return (answer, detail, 0, 0);
        }
        swept(words, floats);
        if !own(points, index) {
            return (reference::FOREIGN, 0, 0, 0);
        }
        let (number, distance) = reference::scan(points, spot);
        (0, 0, number, distance.to_bits())
    }

    fn points(
        &self,
        points: &[f32],
        spots: &[f32],
        index: &[u32],
        found: &mut [u32],
        words: &mut [u32],
        floats: &mut [f32],
    ) -> (u32, usize) {
        if let Some(refusal) = reference::refused(points, spots, lent(index, words, floats)) {
            return refusal;
        }
        swept(words, floats);
        if found.len() < spots.len() / 3 {
            return (reference::SHORT, 0);
        }
        if !own(points, index) {
            return (reference::FOREIGN, 0);
        }
        for (place, spot) in found.iter_mut().zip(spots.chunks(3)) {
            *place = reference::scan(points, [spot[0], spot[1], spot[2]]).0;
        }
        (0, 0)
    }

    fn distances(
        &self,
        points: &[f32],
        spots: &[f32],
        index: &[u32],
        found: Found,
        words: &mut [u32],
        floats: &mut [f32],
    ) -> (u32, usize) {
        let room = found.numbers.len().min(found.distances.len());
        let answer = self.points(points, spots, index, &mut found.numbers[..room], words, floats);
        if answer.0 == 0 {
            for (place, spot) in found.distances.iter_mut().zip(spots.chunks(3)) {
                *place = reference::scan(points, [spot[0], spot[1], spot[2]]).1;
            }
        }
        answer
    }

    fn own(&self, points: &[f32], spot: [f32; 3]) -> (u32, usize, u32, u32) {
        let n = points.len() / 3;
        let (words, floats) = reference::room(n);
        match reference::refused(points, &spot, Lent { index: reference::size(n), words, floats }) {
            Some((answer, detail)) => (answer, detail, 0, 0),
            None => {
                let (number, distance) = reference::scan(points, spot);
                (0, 0, number, distance.to_bits())
            }
        }
    }
}

fn told<T: PartialEq + std::fmt::Debug>(call: &str, what: &str, expected: T, got: T) -> Result<(), String> {
    if expected == got {
        return Ok(());
    }
    Err(format!("{call}, {what}: expected {expected:?}, got {got:?}"))
}

/// The first word in which two slices differ.
fn words_told(call: &str, what: &str, expected: &[u32], got: &[u32]) -> Result<(), String> {
    let at = expected.iter().zip(got).position(|(a, b)| a != b);
    told(call, what, at.map(|at| (at, expected[at])), at.map(|at| (at, got[at])))
}

/// A call with work slices full of rubbish: what it answers, and what it leaves in them.
fn run<T>(lent: Lent, call: impl FnOnce(&mut [u32], &mut [f32]) -> T) -> (T, Vec<u32>, Vec<u32>) {
    let mut words: Vec<u32> = (0..lent.words as u32).map(|k| k.wrapping_mul(2_654_435_761)).collect();
    let mut floats: Vec<f32> =
        words.iter().map(|w| f32::from_bits(w & 0x7f7f_ffff)).cycle().take(lent.floats).collect();
    let answer = call(&mut words, &mut floats);
    (answer, words, floats.iter().map(|x| x.to_bits()).collect())
}

type Counts = BTreeMap<(&'static str, String), u64>;

/// Runs one call on both sides and compares the answer and the work slices.
fn both<T: PartialEq + std::fmt::Debug + Copy>(
    name: &'static str,
    lent: Lent,
    expected: impl FnOnce(&mut [u32], &mut [f32]) -> T,
    got: impl FnOnce(&mut [u32], &mut [f32]) -> T,
) -> Result<T, String> {
    let (a, a_words, a_floats) = run(lent, expected);
    let (b, b_words, b_floats) = run(lent, got);
    told(name, "answer", a, b)?;
    words_told(name, "words", &a_words, &b_words)?;
    words_told(name, "floats", &a_floats, &b_floats)?;
    Ok(a)
}

/// The case's spots with their distances, into slices of which either may be too short.
fn compared_distances(case: &Case, index: &[u32], side: &impl Side) -> Result<u32, String> {
    let (points, spots) = (&case.points, &case.spots);
    let numbers: Vec<u32> = (0..case.found as u32).map(|k| !k).collect();
    let length = if case.bit % 4 == 1 { case.found.saturating_sub(1) } else { case.found + case.bit as usize % 3 };
    let distances: Vec<f32> = (0..length).map(|k| k as f32 - 0.5).collect();
    let (mut first, mut second) = ((numbers.clone(), distances.clone()), (numbers, distances));
    let (answer, _) = both(
        "distances",
        case.lent,
        |w, f| {
            Reference.distances(points, spots, index, Found { numbers: &mut first.0, distances: &mut first.1 }, w, f)
        },
        |w, f| side.distances(points, spots, index, Found { numbers: &mut second.0, distances: &mut second.1 }, w, f),
    )?;
    words_told("distances", "found", &first.0, &second.0)?;
    let bits = |list: &[f32]| list.iter().map(|x| x.to_bits()).collect::<Vec<_>>();
    words_told("distances", "distances", &bits(&first.1), &bits(&second.1))?;
    Ok(answer)
}

/// The case's first spots, one at a time: by the case's index, and by one that was built just now.
fn compared_single(case: &Case, index: &[u32], side: &impl Side, counts: &mut Counts) -> Result<(), String> {
    let (points, lent) = (&case.points, case.lent);
    for spot in case.spots.chunks_exact(3).take(3) {
        let spot = [spot[0], spot[1], spot[2]];
        if points.len() % 3 == 0 {
            let expected = Reference.own(points, spot);
            told("own", "answer", expected, side.own(points, spot))?;
            *counts.entry(("own", expected.0.to_string())).or_default() += 1;
        }
        let (answer, ..) = both(
            "point",
            lent,
            |w, f| Reference.point(points, spot, index, w, f),
            |w, f| side.point(points, spot, index, w, f),
        )?;
        *counts.entry(("point", answer.to_string())).or_default() += 1;
    }
    Ok(())
}

/// The case's spots, into a slice that may be too short.
fn compared_points(case: &Case, index: &[u32], side: &impl Side) -> Result<u32, String> {
    let mut first: Vec<u32> = (0..case.found as u32).map(|k| !k).collect();
    let mut second = first.clone();
    let (answer, _) = both(
        "points",
        case.lent,
        |w, f| Reference.points(&case.points, &case.spots, index, &mut first, w, f),
        |w, f| side.points(&case.points, &case.spots, index, &mut second, w, f),
    )?;
    words_told("points", "found", &first, &second)?;
    Ok(answer)
}

/// One case: all calls.
fn compared(case: &Case, side: &impl Side, counts: &mut Counts) -> Result<(), String> {
    let (points, lent, reference) = (&case.points, case.lent, &Reference);
    let mut note = |call: &'static str, what: String| *counts.entry((call, what)).or_default() += 1;
    let rubbish = vec![0x5a5a_5a5au32; lent.index];
    let (mut first, mut second) = (rubbish.clone(), rubbish);
    let (answer, _) = both(
        "build",
        lent,
        |w, f| reference.build(points, &mut first, w, f),
        |w, f| side.build(points, &mut second, w, f),
    )?;
    words_told("build", "index", &first, &second)?;
    note("build", answer.to_string());
    let taken = reference::refused(points, &[], lent).is_none();
    let index = cases::index(case, taken.then(|| reference::build(points)));
    let (answer, _, own) = both(
        "belongs",
        lent,
        |w, f| reference.belongs(points, &index, w, f),
        |w, f| side.belongs(points, &index, w, f),
    )?;
    let damage = if case.damage == Damage::None || !taken { String::new() } else { format!(" {:?}", case.damage) };
    note("belongs", if answer == 0 { format!("{own}{damage}") } else { answer.to_string() });
    note("points", compared_points(case, &index, side)?.to_string());
    note("distances", compared_distances(case, &index, side)?.to_string());
    compared_single(case, &index, side, counts)
}

/// The answers that have to come up where many cases are compared.
const KINDS: [(&str, &[&str]); 6] = [
    ("distances", &["0", "1", "2", "3", "4", "7", "13", "22"]),
    ("own", &["0", "1", "3", "4"]),
    ("build", &["0", "1", "2", "3", "4", "7"]),
    (
        "belongs",
        &[
            "true",
            "false Order",
            "false Box",
            "false Zeros",
            "true PastEnd",
            "false Moved",
            "true Moved",
            "1",
            "2",
            "3",
            "4",
            "7",
        ],
    ),
    ("points", &["0", "1", "2", "3", "4", "7", "13", "22"]),
    ("point", &["0", "1", "2", "3", "4", "7", "22"]),
];

/// Compares `count` clouds with `spots` spots each, prints a line, and says whether none differs and every kind came up.
pub fn compare(name: &str, count: u64, seed: u64, spots: usize, side: &impl Side) -> bool {
    let (mut counts, mut kinds) = (Counts::new(), BTreeMap::<&str, u64>::new());
    let mut different = 0;
    for number in 0..count {
        let case = cases::case(seed, number, spots);
        *kinds.entry(case.kind).or_default() += 1;
        if let Err(what) = compared(&case, side, &mut counts) {
            different += 1;
            if different == 1 {
                let n = case.points.len() / 3;
                println!("first difference: seed {seed}, case {number}, {} of {n} points: {what}", case.kind);
            }
        }
    }
    let told: Vec<String> = counts.iter().map(|((call, answer), n)| format!("{call}/{answer} {n}")).collect();
    let kinds: Vec<String> = kinds.iter().map(|(kind, n)| format!("{kind} {n}")).collect();
    println!(
        "{name}: {count} clouds with {spots} spots, {different} different ({}; {})",
        kinds.join(", "),
        told.join(", ")
    );
    let missing: Vec<String> = KINDS
        .iter()
        .flat_map(|(call, answers)| answers.iter().map(move |answer| (*call, answer.to_string())))
        .filter(|kind| !counts.contains_key(kind))
        .map(|(call, answer)| format!("{call}/{answer}"))
        .collect();
    if !missing.is_empty() {
        println!("{name}: never came up: {}", missing.join(", "));
    }
    different == 0 && missing.is_empty()
}

#[cfg(test)]
mod tests;
