//! Holds a writer and a reader of binary STL against the ones of this module, on patches and files drawn from a seed.

pub mod cases;
pub mod readers;
pub mod reference;

use cases::{File, Patch};
use std::collections::BTreeMap;
use yarrowbleat::sys::{StlRead, StlWritten};

/// The two calls that are compared.
pub struct Side<W: Fn(&[f32], &[u32], &mut [u8]) -> StlWritten, R: Fn(&[u8], &mut [f32]) -> StlRead> {
    pub write: W,
    pub read: R,
}

/// What comes up of each call, by the kind of the case and the answer.
type Answers = BTreeMap<(&'static str, &'static str, u32), u64>;

/// Every answer of each call.
const WRITTEN: [u32; 6] = [0, 2, 3, 4, 13, 14];
const READ: [u32; 3] = [0, 12, 13];

/// The same bits; of the first `stored` floats one that is no number may be any such.
fn same(expected: &[f32], got: &[f32], stored: usize) -> bool {
    let equal = |at: usize, x: &f32, y: &f32| x.to_bits() == y.to_bits() || (at < stored && x.is_nan() && y.is_nan());
    expected.len() == got.len() && expected.iter().zip(got).enumerate().all(|(at, (x, y))| equal(at, x, y))
}

fn told(right: bool, what: &str) -> Result<(), String> {
    if right {
        return Ok(());
    }
    Err(what.to_string())
}

impl<W: Fn(&[f32], &[u32], &mut [u8]) -> StlWritten, R: Fn(&[u8], &mut [f32]) -> StlRead> Side<W, R> {
    /// What differs on one patch. One that was written is read back and written again.
    fn patch(&self, case: &Patch, answers: &mut Answers) -> Result<(), String> {
        let (mut bytes, mut bytes_got) = (case.bytes.clone(), case.bytes.clone());
        let expected = reference::write_stl(&case.points, &case.faces, &mut bytes);
        let got = (self.write)(&case.points, &case.faces, &mut bytes_got);
        *answers.entry(("write", case.kind, expected.answer)).or_default() += 1;
        told(expected == got, &format!("expected {expected:?}, got {got:?}"))?;
        told(bytes == bytes_got, "the bytes differ")?;
        if expected.answer == 0 {
            self.round_trip(case, &bytes[..expected.length])?;
        }
        Ok(())
    }

    fn round_trip(&self, case: &Patch, file: &[u8]) -> Result<(), String> {
        let at = |n: &u32| 3 * *n as usize;
        let corners: Vec<f32> = case.faces.iter().flat_map(|n| case.points[at(n)..at(n) + 3].to_vec()).collect();
        let mut read = vec![f32::NAN; corners.len()];
        let answer = (self.read)(file, &mut read);
        told(answer == StlRead { answer: 0, detail: 0, faces: case.faces.len() / 3 }, "it is not read back")?;
        told(same(&corners, &read, 0), "other corners are read back")?;
        let numbers: Vec<u32> = (0..case.faces.len() as u32).collect();
        let mut again = vec![1; file.len()];
        (self.write)(&read, &numbers, &mut again);
        told(again == file, "written again it is another file")
    }

    fn file(&self, case: &File, answers: &mut Answers) -> Result<(), String> {
        let (mut corners, mut corners_got) = (case.corners.clone(), case.corners.clone());
        let expected = reference::read_stl(&case.bytes, &mut corners);
        let got = (self.read)(&case.bytes, &mut corners_got);
        *answers.entry(("read", case.kind, expected.answer)).or_default() += 1;
        told(expected == got, &format!("expected {expected:?}, got {got:?}"))?;
        told(same(&corners, &corners_got, 9 * expected.faces), "the corners differ")
    }
}

/// Whether every answer of each call came up.
fn complete(answers: &Answers) -> bool {
    let seen = |call: &str, answer: &u32| answers.keys().any(|(c, _, a)| *c == call && a == answer);
    WRITTEN.iter().all(|answer| seen("write", answer)) && READ.iter().all(|answer| seen("read", answer))
}

/// Compares `count` patches and as many files from number `first` on, prints a line, and says whether none differs
/// and every answer came up.
pub fn compare<W: Fn(&[f32], &[u32], &mut [u8]) -> StlWritten, R: Fn(&[u8], &mut [f32]) -> StlRead>(
    name: &str,
    count: u64,
    seed: u64,
    first: u64,
    side: &Side<W, R>,
) -> bool {
    let mut answers = Answers::new();
    let mut different = 0;
    for number in first..first + count {
        let (patch, file) = (cases::patch(seed, number), cases::file(seed, number));
        let results = [(patch.kind, side.patch(&patch, &mut answers)), (file.kind, side.file(&file, &mut answers))];
        for (kind, result) in results {
            let Err(what) = result else { continue };
            different += 1;
            if different == 1 {
                println!("first difference: seed {seed}, number {number}, {kind}: {what}");
            }
        }
    }
    let counts: Vec<String> = answers.iter().map(|((call, kind, a), n)| format!("{call} {kind}/{a} {n}")).collect();
    println!("{name}: {count} patches and {count} files compared, {different} different ({})", counts.join(", "));
    if !complete(&answers) {
        println!("{name}: not every answer came up");
    }
    different == 0 && complete(&answers)
}

#[cfg(test)]
mod tests {
    use super::*;
    use reference::{read_stl, write_stl};

    type Write = fn(&[f32], &[u32], &mut [u8]) -> StlWritten;
    type Read = fn(&[u8], &mut [f32]) -> StlRead;

    const HERE: Side<Write, Read> = Side { write: write_stl, read: read_stl };

    /// Calls that are wrong in one way are found out.
    #[test]
    fn wrong_sides_are_found() {
        let minus_zero_lost = |p: &[f32], f: &[u32], b: &mut [u8]| {
            let p: Vec<f32> = p.iter().map(|x| if *x == 0.0 { 0.0 } else { *x }).collect();
            write_stl(&p, f, b)
        };
        let past_the_end = |p: &[f32], f: &[u32], b: &mut [u8]| {
            let told = write_stl(p, f, b);
            if let (0, Some(byte)) = (told.answer, b.get_mut(told.length)) {
                *byte ^= 1;
            }
            told
        };
        let named_points_only = |p: &[f32], f: &[u32], b: &mut [u8]| {
            let mut p = p.to_vec();
            (0..p.len() / 3).filter(|n| !f.contains(&(*n as u32))).for_each(|n| p[3 * n..3 * n + 3].fill(0.0));
            write_stl(&p, f, b)
        };
        let modulo = |b: &[u8], c: &mut [f32]| {
            let mut b = b.to_vec();
            if let Some(byte) = b.get_mut(83) {
                *byte &= 0x7f;
            }
            read_stl(&b, c)
        };
        let touched = |b: &[u8], c: &mut [f32]| {
            let told = read_stl(b, c);
            if let (13, Some(x)) = (told.answer, c.first_mut()) {
                *x = 1.5;
            }
            told
        };
        let no_solid = |b: &[u8], c: &mut [f32]| match b.starts_with(b"solid") {
            true => StlRead { answer: 12, ..Default::default() },
            false => read_stl(b, c),
        };
        let wrong = |name, right: bool| assert!(!right, "{name}");
        let (write, read) = (HERE.write, HERE.read);
        wrong("minus zero", compare("minus zero", 500, 1, 2, &Side { write: minus_zero_lost, read }));
        wrong("past the end", compare("past the end", 500, 1, 2, &Side { write: past_the_end, read }));
        wrong("named only", compare("named only", 500, 1, 2, &Side { write: named_points_only, read }));
        wrong("modulo", compare("modulo", 500, 1, 2, &Side { write, read: modulo }));
        wrong("touched", compare("touched", 500, 1, 2, &Side { write, read: touched }));
        wrong("no solid", compare("no solid", 500, 1, 2, &Side { write, read: no_solid }));
        assert!(compare("itself", 500, 1, 0, &HERE));
        assert!(!compare("not all answers", 500, 1, 2, &HERE));
    }

    /// The request's two normals: a length that underflows to 0, and a minus zero that stays.
    #[test]
    fn normals() {
        let bits = |corners| reference::normal(corners).map(f32::to_bits);
        assert_eq!(bits([[0.0; 3], [2f32.powi(-37), 0.0, 0.0], [0.0, 2f32.powi(-38), 0.0]]), [0, 0, 0]);
        assert_eq!(bits([[0.0; 3], [1.0, -1.0, 0.0], [0.0, 1.0, 0.0]]), [0x8000_0000, 0, 0x3f80_0000]);
    }
}
