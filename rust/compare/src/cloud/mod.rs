//! Holds a reader of cloud files against the one of this module, on files drawn from a seed.

pub mod decimals;
pub mod files;
pub mod reader;

use files::Case;
pub use reader::CloudRead;
use std::collections::BTreeMap;

fn bits(slice: &[f32]) -> Vec<u32> {
    slice.iter().map(|x| x.to_bits()).collect()
}

/// What differs on one file, if anything: the answer or either slice.
fn difference(case: &Case, read: &impl Fn(&[u8], &mut [f32], &mut [f32]) -> CloudRead) -> (u32, Option<String>) {
    let (mut points, mut normals) = (case.points.clone(), case.normals.clone());
    let expected = reader::read_cloud(&case.bytes, &mut points, &mut normals);
    let (mut points_got, mut normals_got) = (case.points.clone(), case.normals.clone());
    let got = read(&case.bytes, &mut points_got, &mut normals_got);
    let what = if !expected.same(&got) {
        Some(format!("expected {expected:?}, got {got:?}"))
    } else if bits(&points) != bits(&points_got) {
        Some("the points slice differs".to_string())
    } else if bits(&normals) != bits(&normals_got) {
        Some("the normals slice differs".to_string())
    } else {
        None
    };
    (expected.answer, what)
}

/// Compares `count` files from number `first` on, prints a line, and says whether none differs.
pub fn compare(
    name: &str,
    count: u64,
    seed: u64,
    first: u64,
    read: impl Fn(&[u8], &mut [f32], &mut [f32]) -> CloudRead,
) -> bool {
    let mut answers: BTreeMap<(&str, u32), u64> = BTreeMap::new();
    let mut different = 0;
    for number in first..first + count {
        let case = files::case(seed, number);
        let (answer, what) = difference(&case, &read);
        *answers.entry((case.kind, answer)).or_default() += 1;
        if let Some(what) = what {
            different += 1;
            if different == 1 {
                println!(
                    "first difference: seed {seed}, file {number}: {what}\n{:?}",
                    String::from_utf8_lossy(&case.bytes)
                );
            }
        }
    }
    let counts: Vec<String> = answers.iter().map(|((kind, answer), n)| format!("{kind}/{answer} {n}")).collect();
    println!("{name}: {count} files compared, {different} different ({})", counts.join(", "));
    different == 0 && count > 0
}

#[cfg(test)]
mod tests {
    use super::*;

    /// A reader that is wrong in one way is found out.
    #[test]
    fn wrong_readers_are_found() {
        let wrong_line = |b: &[u8], p: &mut [f32], n: &mut [f32]| {
            let mut r = reader::read_cloud(b, p, n);
            r.detail += usize::from(r.answer == 10 && r.detail > 1);
            r
        };
        let touched = |b: &[u8], p: &mut [f32], n: &mut [f32]| {
            let r = reader::read_cloud(b, p, n);
            if let (11, Some(x)) = (r.answer, n.first_mut()) {
                *x = f32::from_bits(x.to_bits() ^ 1);
            }
            r
        };
        let wrong_bit = |b: &[u8], p: &mut [f32], n: &mut [f32]| {
            let mut r = reader::read_cloud(b, p, n);
            r.radius = f32::from_bits(r.radius.to_bits() ^ u32::from(r.answer == 0 && r.radius.to_bits() % 64 == 63));
            r
        };
        assert!(!compare("wrong line", 2000, 1, 0, wrong_line));
        assert!(!compare("touched", 2000, 1, 0, touched));
        assert!(!compare("wrong bit", 2000, 1, 0, wrong_bit));
        assert!(compare("itself", 2000, 1, 0, reader::read_cloud));
    }
}
