//! The radius estimate and the reconstruction over generated clouds: the answer and every word of every lent slice.

use crate::report::{Report, Same};
use crate::sides::Side;
use expect::{bits, Estimate, Found, Lent, Patch, BUDGET};
use generate::{case, old_word, Case};
use oracle::Skip;

/// Slices of these lengths with recognisable contents.
pub fn lend(faces: usize, words: usize, floats: usize) -> Lent {
    Lent {
        faces: (0..faces).map(old_word).collect(),
        words: (0..words).map(old_word).collect(),
        floats: (0..floats).map(|at| f32::from_bits(old_word(at))).collect(),
    }
}

fn unlike<T: Same>(what: &str, expected: T, got: T) -> Option<String> {
    (!expected.same(got)).then(|| format!("{what}: expected {}, got {}", expected.show(), got.show()))
}

/// The first word that differs.
pub fn unlike_words(name: &str, expected: &[u32], got: &[u32]) -> Option<String> {
    let at = (0..expected.len()).find(|i| expected[*i] != got[*i])?;
    Some(format!("{name}[{at}] of {}: expected {:08x}, got {:08x}", expected.len(), expected[at], got[at]))
}

/// The same of three slices; a lent float is compared by its bits.
pub fn unlike_slices(expected: &Lent, got: &Lent) -> Option<String> {
    unlike_words("faces", &expected.faces, &got.faces)
        .or_else(|| unlike_words("work u32", &expected.words, &got.words))
        .or_else(|| unlike_words("work f32", &bits(&expected.floats), &bits(&got.floats)))
}

pub fn unlike_patch(expected: &Patch, got: &Patch) -> Option<String> {
    let whole = [
        ("answer", expected.answer, got.answer),
        ("detail", expected.detail, got.detail),
        ("faces", expected.faces, got.faces),
        ("seeds", expected.seeds, got.seeds),
        ("looks", expected.looks, got.looks),
        ("pivots", expected.pivots, got.pivots),
        ("radii_count", expected.radii_count, got.radii_count),
    ];
    let radii = (0..17).find_map(|i| unlike(&format!("radii[{i}]"), expected.radii[i], got.radii[i]));
    whole.into_iter().find_map(|(name, a, b)| unlike(name, a, b)).or(radii)
}

fn unlike_estimate(expected: &Estimate, got: &Estimate) -> Option<String> {
    unlike("answer", expected.answer, got.answer)
        .or_else(|| unlike("detail", expected.detail, got.detail))
        .or_else(|| unlike("radius", expected.radius, got.radius))
}

/// Everything that is needed to make the case again.
pub fn describe(case: &Case, number: u64, seed: u64) -> String {
    let bits = |x: &[f32]| x.iter().map(|x| format!("{:08x}", x.to_bits())).collect::<Vec<_>>().join(" ");
    format!(
        "case {number} of seed {seed} ({}), {} coordinates, {} normal numbers, work {} and {}, slack {}, percentile {:?}\n\
         {:?}\ncoordinates {}",
        case.kind,
        case.points.len(),
        case.normals.len(),
        case.words,
        case.floats,
        case.slack,
        case.percentile,
        case.settings,
        bits(&case.points),
    )
}

pub fn note_answer(report: &mut Report, answer: u32) {
    match answer {
        0 => report.note("accepted"),
        refusal => report.note(&format!("refused {refusal}:")),
    }
}

pub fn estimate(side: &dyn Side, count: u64, seed: u64, first: u64) -> Report {
    let mut report = Report::new("estimate");
    for number in first..first + count {
        let case = case(seed, number);
        let mut expected_lent = lend(0, case.words, case.floats);
        let mut lent = expected_lent.clone();
        let expected = match expect::estimate(&case.points, case.percentile, &mut expected_lent, BUDGET) {
            Ok(expected) => expected,
            Err(why) => {
                report.skip(why);
                continue;
            }
        };
        let got = side.estimate(&case, &mut lent);
        report.compared += 1;
        note_answer(&mut report, expected.answer);
        if let Some(text) = unlike_estimate(&expected, &got).or_else(|| unlike_slices(&expected_lent, &lent)) {
            report.differs(|| format!("{text}\n{}", describe(&case, number, seed)));
        }
    }
    report
}

/// The note of clouds on which the published code lays a face without area, so that the amended one is the reference.
pub const AMENDED: &str = "held against the amended Rust";

/// The note of patches laid under rule 2, by the published code over a queue.
pub const QUEUED: &str = "laid under rule 2";

/// What the reconstruction gives on one case.
struct Called {
    answer: u32,
    amended: bool,
    plain: bool,
    unlike: Option<String>,
}

fn call(side: &dyn Side, case: &Case) -> Result<Called, Skip> {
    let work = [case.words, case.floats];
    let (found, amended) = expect::find_amended(&case.points, &case.normals, &case.settings, work, BUDGET)?;
    let mut expected_lent = lend(case.face_words(found.need()), case.words, case.floats);
    let mut lent = expected_lent.clone();
    let expected = found.deliver(&mut expected_lent);
    let got = side.reconstruct(case, &mut lent);
    let unlike = unlike_patch(&expected, &got).or_else(|| unlike_slices(&expected_lent, &lent));
    let plain = match &found {
        Found::NoTriangle { plain, .. } => *plain,
        Found::Laid(laid) => laid.radii.is_empty(),
        Found::Early(_) => false,
    };
    Ok(Called { answer: expected.answer, amended, plain, unlike })
}

/// What differs on one case.
pub fn unlike_call(side: &dyn Side, case: &Case) -> Result<Option<String>, Skip> {
    call(side, case).map(|called| called.unlike)
}

pub fn reconstruct(side: &dyn Side, count: u64, seed: u64, first: u64) -> Report {
    let mut report = Report::new("reconstruct");
    if first == 0 {
        // One of the fixed clouds is of that kind, and three have the other rule.
        report.want(AMENDED);
        report.want(QUEUED);
    }
    for number in first..first + count {
        let case = case(seed, number);
        let called = match call(side, &case) {
            Ok(called) => called,
            Err(why) => {
                report.skip(why);
                continue;
            }
        };
        report.compared += 1;
        note_answer(&mut report, called.answer);
        if called.amended {
            report.note(AMENDED);
        }
        if called.answer == 0 && !called.plain && case.settings.frontier_rule == 2 {
            report.note(QUEUED);
        }
        if let Some(text) = called.unlike {
            report.differs(|| format!("{text}\n{}", describe(&case, number, seed)));
        }
    }
    report
}

/// The answers that `refused` has to meet on each path, so that none of the reasons goes untried.
const REASONS: [u32; 3] = [8, 15, 16];

/// Clouds over which hardly any triangle is found. A kind of answer that never comes up on a path counts as a difference.
pub fn refused(side: &dyn Side, count: u64, seed: u64, first: u64) -> Report {
    let mut report = Report::new("refused");
    let mut met = [[0_u64; 3]; 2];
    for number in first..first + count {
        let case = generate::refused(seed, number);
        let called = match call(side, &case) {
            Ok(called) => called,
            Err(why) => {
                report.skip(why);
                continue;
            }
        };
        report.compared += 1;
        let path = if called.plain { "plain" } else { "multi-radius" };
        report.note(&format!("{path} {}:", called.answer));
        if let Some(at) = REASONS.iter().position(|reason| *reason == called.answer) {
            met[usize::from(called.plain)][at] += 1;
        }
        if ["edge", "thousandth"].contains(&case.kind) && !called.plain {
            report.note(&format!("{} {}:", case.kind, called.answer));
        }
        if let Some(text) = called.unlike {
            report.differs(|| format!("{text}\n{}", describe(&case, number, seed)));
        }
    }
    if met.iter().flatten().any(|times| *times == 0) {
        report.differs(|| format!("an answer of {REASONS:?} never came up on a path: {met:?}"));
    }
    report
}
