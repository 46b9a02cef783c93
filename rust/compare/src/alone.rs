//! Checks that need no port: what must hold of the counts, and that the comparison can fail.

use crate::report::Report;
use crate::sides::{Mirror, Number};
use crate::{clouds, lengths, numbers, origins, triangles, verdicts};
use expect::{Found, BUDGET};
use generate::{case, Case};
use std::cell::Cell;

/// What the amended Rust lays: no face without area, and what the published one lays just where that lays none.
fn check_amended(report: &mut Report, case: &Case, found: &Found, differs: bool, context: impl Fn() -> String) {
    if matches!(found, Found::Early(_)) {
        return;
    }
    let faces = |(run, _): (oracle::Result<oracle::Laid>, _)| run.map(|laid| laid.faces).unwrap_or_default();
    let lay = |amended: bool| {
        let run = if amended { oracle::reconstruct_amended } else { oracle::reconstruct_judged };
        run(&case.points, &case.normals, &case.settings, BUDGET).map(faces)
    };
    let (Ok(published), Ok(amended)) = (lay(false), lay(true)) else {
        return;
    };
    if differs {
        report.note(clouds::AMENDED);
    }
    report.check("faces as published", !differs, published == amended, &context);
    let laid = oracle::Laid { faces: amended, ..Default::default() };
    report.check("a face without area", false, oracle::lays_no_area(&case.points, &laid), &context);
}

/// On the multi-radius path looks are 3F and pivots 2F + S, parents share the pivoted edge, and turned each shared edge runs
/// once each way; on the plain path seeds, looks and pivots are 0.
pub fn oracle(count: u64, seed: u64, first: u64) -> Report {
    let mut report = Report::new("oracle");
    for number in first..first + count {
        let case = case(seed, number);
        let work = [case.words, case.floats];
        let found = expect::find_amended(&case.points, &case.normals, &case.settings, work, BUDGET);
        if let Ok((found, amended)) = &found {
            check_amended(&mut report, &case, found, *amended, || format!("case {number} of seed {seed}"));
        }
        let laid = match found.map(|(found, _)| found) {
            Ok(Found::Laid(laid)) => laid,
            Ok(Found::NoTriangle { answer, .. }) => {
                report.note(&format!("no triangle, {answer}"));
                continue;
            }
            Ok(Found::Early(_)) => {
                report.note("refused early");
                continue;
            }
            Err(why) => {
                report.skip(why);
                continue;
            }
        };
        let (faces, tally) = (laid.faces.len() as u32, laid.tally);
        let expected = if laid.radii.is_empty() {
            report.note("plain path");
            [0; 3]
        } else {
            report.note(if faces > tally.seeds { "multi-radius path with pivots" } else { "multi-radius path" });
            [3 * faces, 2 * faces + tally.seeds, tally.seeds.max(1)]
        };
        if !laid.radii.is_empty() {
            let context = || format!("case {number} of seed {seed}: {:?}", expect::origins::fault(&laid));
            report.check("origins", true, expect::origins::fault(&laid).is_none(), context);
            let turned = expect::origins::unturned(&expect::origins::faces(&laid, true));
            report.check("turned", true, turned.is_none(), context);
        }
        for (name, expected, got) in [
            ("looks", expected[0], tally.looks),
            ("pivots", expected[1], tally.pivots),
            ("seeds", expected[2], tally.seeds),
        ] {
            report.check(name, expected, got, || format!("case {number} of seed {seed}"));
        }
    }
    report
}

/// The places at which the self-test turns a bit in what a cloud's call gives back.
const PATCH_FAULTS: [&str; 13] = [
    "answer",
    "detail",
    "faces",
    "seeds",
    "looks",
    "pivots",
    "radii_count",
    "first radius",
    "last radius",
    "first face word",
    "last face word",
    "last work word",
    "last work float",
];
const ORIGIN_FAULTS: [&str; 5] =
    ["answer", "first face word", "last work word", "first origin word", "last origin word"];
const ESTIMATE_FAULTS: [&str; 4] = ["answer", "radius", "last work word", "last work float"];
const TRIANGLE_FAULTS: [&str; 4] = ["circumradius", "aspect_ratio", "quality_score", "acceptable"];

/// The machine's lengths; the first of all is `off` f32 too long.
fn stretched(off: u32) -> impl Fn(&[f32; 3], &[f32; 3]) -> f32 {
    let left = Cell::new(off);
    move |p, q| f32::from_bits(lengths::machine(p, q).to_bits() + left.take())
}

/// The expected verdicts; the tenth has one field turned.
fn misjudged(field: &str) -> impl Fn(&[f32], &[f32], &oracle::Settings, [usize; 3]) -> expect::verdicts::Verdict + '_ {
    let left = Cell::new(10);
    move |points, normals, settings, triple| {
        let mut verdict = expect::verdicts::judge(points, normals, settings, triple);
        left.set(left.get() - 1);
        if left.get() == 0 {
            match field {
                "answer" => verdict.answer ^= 1,
                "detail" => verdict.detail ^= 1,
                "kind" => verdict.kind ^= 8,
                "measured" => verdict.measured = f32::from_bits(verdict.measured.to_bits() ^ 1),
                _ => {}
            }
        }
        verdict
    }
}

/// Puts the oracle in the port's place, then turns one bit of one result: each turned bit must be found, alone.
pub fn selftest() -> Report {
    let mut report = Report::new("selftest");
    let mut found = |place: &str, faults: u64, run: &dyn Fn() -> Report| {
        let seen = run().different;
        report.check("differences", faults as u32, seen as u32, || format!("fault at {place:?}"));
    };
    // Past the large fixed clouds.
    let (count, seed, first) = (90, 6, generate::fixed_count());
    found("", 0, &|| numbers::numbers(&Mirror::new(""), count, seed));
    found("", 0, &|| triangles::triangles(&Mirror::new(""), count, seed, first));
    found("", 0, &|| clouds::estimate(&Mirror::new(""), count, seed, first));
    found("", 0, &|| clouds::reconstruct(&Mirror::new(""), count, seed, first));
    found("", 0, &|| origins::origins(&Mirror::new(""), count, seed, first));
    found("", 0, &|| lengths::lengths(&stretched(0), count, seed));
    // Another length than the machine's; and, further off, one past the bound.
    found("length", 1, &|| lengths::lengths(&stretched(1), count, seed));
    found("length", 2, &|| lengths::lengths(&stretched(8), count, seed));
    for (field, faults) in [("", 0), ("answer", 1), ("detail", 1), ("kind", 1), ("measured", 1)] {
        found(field, faults, &|| verdicts::verdicts(&misjudged(field), count, seed, 50 * first));
    }
    for call in Number::ALL.map(Number::call) {
        found(call, 1, &|| numbers::numbers(&Mirror::new(call), count, seed));
    }
    for place in TRIANGLE_FAULTS {
        found(place, 1, &|| triangles::triangles(&Mirror::new(place), count, seed, first));
    }
    for place in ESTIMATE_FAULTS {
        found(place, 1, &|| clouds::estimate(&Mirror::new(place), count, seed, first));
    }
    for place in PATCH_FAULTS {
        found(place, 1, &|| clouds::reconstruct(&Mirror::new(place), count, seed, first));
    }
    for place in ORIGIN_FAULTS {
        found(place, 1, &|| origins::origins(&Mirror::new(place), count / 2, seed, first));
    }
    report
}
