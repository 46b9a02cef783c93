//! Holds the orders of faces against the ones of this module, on files drawn from a seed.

pub mod cases;
pub mod reference;

use cases::Case;
pub use reference::Ordered;
use std::collections::BTreeMap;

/// The answers that a run of each sort has to have met.
const FILES: [u32; 8] = [0, 3, 7, 10, 13, 14, 17, 23];
const NUMBERS: [u32; 8] = [0, 2, 3, 7, 13, 14, 17, 23];
const PATCHES: [u32; 5] = [0, 7, 13, 14, 23];

/// The numbers of a file's faces; of one that is malformed its bytes are the numbers.
fn numbers(bytes: &[u8]) -> Vec<u32> {
    match reference::read(bytes) {
        Ok(faces) => faces.into_flattened(),
        Err(_) => bytes.iter().map(|byte| u32::from(*byte)).collect(),
    }
}

/// What differs in one case, if anything: the answer or one of the slices.
fn difference(
    case: &Case,
    right: impl Fn(&mut [u32], &mut [u32], &mut [f32]) -> Ordered,
    call: impl Fn(&mut [u32], &mut [u32], &mut [f32]) -> Ordered,
) -> (u32, Option<String>) {
    let (mut order, mut words, mut floats) = (case.order.clone(), case.words.clone(), case.floats.clone());
    let expected = right(&mut order, &mut words, &mut floats);
    let (mut order_got, mut words_got, mut floats_got) = (case.order.clone(), case.words.clone(), case.floats.clone());
    let got = call(&mut order_got, &mut words_got, &mut floats_got);
    let same = floats.iter().map(|x| x.to_bits()).eq(floats_got.iter().map(|x| x.to_bits()));
    let what = if expected != got {
        Some(format!("expected {expected:?}, got {got:?}"))
    } else if order != order_got {
        Some(format!("the order: expected {order:?}, got {order_got:?}"))
    } else if words != words_got {
        Some("the words differ".to_string())
    } else if !same {
        Some("the floats differ".to_string())
    } else {
        None
    };
    (expected.answer, what)
}

/// Compares cases, prints a line, and says whether none differs and every answer came up.
fn compare_all(
    name: &str,
    cases: impl Iterator<Item = (u64, Option<Case>)>,
    wanted: &[u32],
    compared_as: impl Fn(&Case) -> (u32, Option<String>),
) -> bool {
    let mut answers: BTreeMap<(&str, u32), u64> = BTreeMap::new();
    let (mut compared, mut different) = (0, 0);
    for (number, case) in cases {
        let Some(case) = case else { continue };
        compared += 1;
        let (answer, what) = compared_as(&case);
        *answers.entry((case.kind, answer)).or_default() += 1;
        // A patch of our own that nothing was done to is never told that it has no order.
        let refused = (case.kind == "patch" && answer == 23).then(|| "a patch of ours has no order".to_string());
        if let Some(what) = what.or(refused) {
            different += 1;
            if different == 1 {
                let text = String::from_utf8_lossy(&case.bytes);
                println!("first difference: case {number}, {}, {} points: {what}\n{text:?}", case.kind, case.points);
            }
        }
    }
    let counts: Vec<String> = answers.iter().map(|((kind, answer), n)| format!("{kind}/{answer} {n}")).collect();
    println!("{name}: {compared} compared, {different} different ({})", counts.join(", "));
    let missing: Vec<&u32> = wanted.iter().filter(|a| !answers.keys().any(|(_, met)| met == *a)).collect();
    if !missing.is_empty() {
        println!("{name}: these answers never came up: {missing:?}");
    }
    different == 0 && missing.is_empty()
}

/// Compares `count` files from number `first` on.
pub fn compare(
    name: &str,
    count: u64,
    seed: u64,
    first: u64,
    call: impl Fn(&[u8], usize, &mut [u32], &mut [u32], &mut [f32]) -> Ordered,
) -> bool {
    let cases = (first..first + count).map(|number| (number, Some(cases::case(seed, number))));
    compare_all(name, cases, &FILES, |case| compared_lines(case, &call))
}

fn compared_lines(
    case: &Case,
    call: &impl Fn(&[u8], usize, &mut [u32], &mut [u32], &mut [f32]) -> Ordered,
) -> (u32, Option<String>) {
    difference(
        case,
        |order, words, floats| reference::order_patch(&case.bytes, case.points, order, words, floats),
        |order, words, floats| call(&case.bytes, case.points, order, words, floats),
    )
}

/// Compares the faces of `count` files as numbers.
pub fn compare_numbers(
    name: &str,
    count: u64,
    seed: u64,
    call: impl Fn(&[u32], usize, &mut [u32], &mut [u32], &mut [f32]) -> Ordered,
) -> bool {
    let cases = (0..count).map(|number| (number, Some(cases::case(seed, number))));
    compare_all(name, cases, &NUMBERS, |case| {
        let numbers = numbers(&case.bytes);
        difference(
            case,
            |order, words, floats| reference::order_faces(&numbers, case.points, order, words, floats),
            |order, words, floats| call(&numbers, case.points, order, words, floats),
        )
    })
}

/// Compares `count` of the patches that the port lays over drawn clouds.
pub fn compare_patches(
    count: usize,
    seed: u64,
    call: impl Fn(&[u8], usize, &mut [u32], &mut [u32], &mut [f32]) -> Ordered,
) -> bool {
    let cases = (0..).map(|number| (number, cases::patch(seed, number))).filter(|(_, case)| case.is_some());
    compare_all("patches", cases.take(count), &PATCHES, |case| compared_lines(case, &call))
}

#[cfg(test)]
mod tests {
    use super::*;
    use reference::order_patch as right;

    /// Calls that are wrong in one way are found out.
    #[test]
    fn wrong_calls_are_found() {
        type Call = fn(&[u8], usize, &mut [u32], &mut [u32], &mut [f32]) -> Ordered;
        let equal_first: Call = |b, n, o, w, f| {
            let mut r = right(b, n, o, w, f);
            let faces = reference::read(b).unwrap_or_default();
            if r.answer == 14 && faces.iter().any(|[a, b, c]| a == b || b == c || c == a) {
                r.answer = 17;
            }
            r
        };
        let highest: Call = |b, n, o, w, f| {
            let r = right(b, n, o, w, f);
            if r.answer == 0 && r.seeds == 2 && r.faces == 2 {
                o.swap(0, 1);
            }
            r
        };
        let touched: Call = |b, n, o, w, f| {
            let r = right(b, n, o, w, f);
            if let (23, Some(x)) = (r.answer, o.last_mut()) {
                *x ^= 1;
            }
            r
        };
        let past: Call = |b, n, o, w, f| {
            let r = right(b, n, o, w, f);
            if let (0, Some(x)) = (r.answer, o.get_mut(r.faces)) {
                *x = 0;
            }
            r
        };
        let dirty: Call = |b, n, o, w, f| {
            let r = right(b, n, o, w, f);
            if r.answer == 13 {
                w[3] = 1;
            }
            r
        };
        for (name, call) in
            [("equal first", equal_first), ("highest", highest), ("touched", touched), ("past", past), ("dirty", dirty)]
        {
            assert!(!compare(name, 5000, 1, 0, call), "{name}");
        }
        assert!(compare("itself", 5000, 1, 0, right));
    }

    /// The same of calls over numbers.
    #[test]
    fn wrong_calls_over_numbers_are_found() {
        type Call = fn(&[u32], usize, &mut [u32], &mut [u32], &mut [f32]) -> Ordered;
        let cut_off: Call = |k, n, o, w, f| reference::order_faces(&k[..k.len() - k.len() % 3], n, o, w, f);
        let one_point_more: Call = |k, n, o, w, f| reference::order_faces(k, n + 1, o, w, f);
        assert!(!compare_numbers("cut off", 5000, 1, cut_off));
        assert!(!compare_numbers("one point more", 5000, 1, one_point_more));
        assert!(compare_numbers("itself", 5000, 1, reference::order_faces));
    }
}
