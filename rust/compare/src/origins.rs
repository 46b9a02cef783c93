//! Where each face came from, and the turned patch, over generated clouds: the answer and every word of the four lent slices,
//! and on what the port gave, by itself, that parents share the pivoted edge and that shared edges run once each way.

use crate::clouds::{describe, lend, note_answer, unlike_patch, unlike_slices, unlike_words, QUEUED};
use crate::report::Report;
use crate::sides::Side;
use expect::{origins, Found, Lent, Patch, BUDGET};
use generate::{case, old_word, Case, Random};
use oracle::{Laid, Tally};

/// The note of patches in which a radius laid nothing before one that did.
const PASSED: &str = "with a radius passed over";
/// The note of turned patches.
const TURNED: &str = "turned";
/// The note of calls that would get 18, had the faces fitted.
const BEFORE: &str = "9 where 18 comes next";

/// Words past those that are needed, or below 0 words that are missing; of faces and of origins.
fn slacks(random: &mut Random) -> [isize; 2] {
    let long = |random: &mut Random| random.pick(&[0, 0, 0, 1, 2, 3, 30]);
    let short = |random: &mut Random| random.pick(&[-1, -1, -2, -3, isize::MIN]);
    match random.below(20) {
        0..=1 => [short(random), long(random)],
        2..=3 => [long(random), short(random)],
        4 => [short(random), short(random)],
        _ => [long(random), long(random)],
    }
}

/// The faces and origins in front of the slices of an accepted call with radii.
fn laid(patch: &Patch, lent: &Lent, origins: &[u32]) -> Laid {
    let whole = |numbers: &[u32]| numbers.iter().map(|x| *x as usize).collect::<Vec<_>>();
    let faces = whole(&lent.faces[..3 * patch.faces as usize]);
    let origins = whole(&origins[..2 * patch.faces as usize]);
    Laid {
        faces: faces.chunks_exact(3).map(|f| [f[0], f[1], f[2]]).collect(),
        origins: origins.chunks_exact(2).map(|o| [o[0], o[1]]).collect(),
        radii: patch.radii[..patch.radii_count as usize].to_vec(),
        tally: Tally { seeds: patch.seeds, ..Tally::default() },
    }
}

/// What does not hold of an accepted patch with radii, as it was given.
fn fault(patch: &Patch, turned: bool, lent: &Lent, origins: &[u32]) -> Option<String> {
    if patch.answer != 0 || patch.radii_count == 0 {
        return None;
    }
    let laid = laid(patch, lent, origins);
    match turned {
        true => origins::unturned(&laid.faces).map(|edge| format!("turned: the edge {edge:?} runs the same way twice")),
        false => origins::fault(&laid),
    }
}

fn note(report: &mut Report, case: &Case, found: &Found, turned: bool, answer: u32) {
    note_answer(report, answer);
    let Found::Laid(laid) = found else { return };
    if laid.radii.is_empty() {
        if turned && answer == 9 {
            report.note(BEFORE);
        }
        return;
    }
    if answer == 0 && turned {
        report.note(TURNED);
    }
    if answer == 0 && case.settings.frontier_rule == 2 {
        report.note(QUEUED);
    }
    let place = |face: usize| laid.origins[face][1];
    let steps = (1..laid.faces.len()).any(|face| place(face) > place(face - 1) + 1);
    if answer == 0 && (place(0) > 0 || steps) {
        report.note(PASSED);
    }
}

/// Each case as it is laid and turned, with slices of lengths of their own.
pub fn origins(side: &dyn Side, count: u64, seed: u64, first: u64) -> Report {
    let mut report = Report::new("origins");
    if first == 0 && count >= 1_000 {
        [PASSED, TURNED, BEFORE, QUEUED, "refused 9:", "refused 18:"].iter().for_each(|what| report.want(what));
    }
    for number in first..first + count {
        let case = case(seed, number);
        let work = [case.words, case.floats];
        let found = match expect::find_amended(&case.points, &case.normals, &case.settings, work, BUDGET) {
            Ok((found, _)) => found,
            Err(why) => {
                report.skip(why);
                continue;
            }
        };
        for turned in [false, true] {
            let slack = slacks(&mut Random::new(!seed, 2 * number + u64::from(turned)));
            let faces = found.need().saturating_add_signed(slack[0]);
            let length = (found.need() / 3 * 2).saturating_add_signed(slack[1]);
            let mut expected_lent = lend(faces, case.words, case.floats);
            let mut expected_origins: Vec<u32> = (0..length).map(old_word).collect();
            let (mut lent, mut origins) = (expected_lent.clone(), expected_origins.clone());
            let expected = origins::deliver(&found, turned, &mut expected_lent, &mut expected_origins);
            let got = side.origins(&case, turned, &mut lent, &mut origins);
            report.compared += 1;
            note(&mut report, &case, &found, turned, expected.answer);
            let unlike = unlike_patch(&expected, &got)
                .or_else(|| unlike_slices(&expected_lent, &lent))
                .or_else(|| unlike_words("origins", &expected_origins, &origins))
                .or_else(|| fault(&got, turned, &lent, &origins));
            if let Some(text) = unlike {
                let how = format!("turned {turned}, {faces} numbers of faces, {length} of origins");
                report.differs(|| format!("{text}\n{how}\n{}", describe(&case, number, seed)));
            }
        }
    }
    report
}
