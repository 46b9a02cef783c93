//! The safe crate against the published Rust: the same faces, radii, counts and refusals, and the points that its
//! faces touch, counted.

use expect::{Found, Lent, BUDGET};
use generate::{case, work_lengths, Case};
use oracle::Settings;
use std::collections::HashSet;
use yarrowbleat::{BallPivotingConfig, Error, FrontierRule, Patch};

/// Cases of a seed, those past the large fixed clouds, whose slices are whole points.
fn cases(count: u64) -> impl Iterator<Item = Case> {
    let first = generate::fixed_count();
    (first..first + count)
        .map(|number| case(11, number))
        .filter(|c| c.points.len() % 3 == 0 && c.normals.len() % 3 == 0)
        .filter(|c| (1..=2).contains(&c.settings.frontier_rule))
}

fn threes(slice: &[f32]) -> Vec<[f32; 3]> {
    slice.chunks_exact(3).map(|c| [c[0], c[1], c[2]]).collect()
}

/// The settings with lists; a count above 8 becomes a list that is too long.
fn config(s: &Settings) -> BallPivotingConfig {
    let list = |slots: &[f32; 8], count: u32| match slots.get(..count as usize) {
        Some(list) => list.to_vec(),
        None => vec![1.0; 9],
    };
    BallPivotingConfig {
        radius: s.radius,
        additional_radii: list(&s.additional_radii, s.additional_count),
        adaptive_radius: s.adaptive_radius,
        adaptive_percentiles: list(&s.adaptive_percentiles, s.percentile_count),
        quality_threshold: s.quality_threshold,
        max_edge_factor: s.max_edge_factor,
        min_triangle_area: s.min_triangle_area,
        use_spatial_index: s.use_spatial_index,
        spatial_cell_factor: s.spatial_cell_factor,
        frontier_rule: if s.frontier_rule == 2 { FrontierRule::Queue } else { FrontierRule::Heap },
    }
}

fn bits(floats: &[f32]) -> Vec<u32> {
    floats.iter().map(|x| x.to_bits()).collect()
}

/// True on the plain path.
fn same(expected: &Found, got: &Result<Patch, Error>, points: usize) -> bool {
    let laid = match expected {
        Found::Early(r) => {
            assert_eq!(got.as_ref().map_err(|e| (e.number(), e.detail() as u32)).err(), Some((r.answer, r.detail)));
            return false;
        }
        Found::NoTriangle { answer, .. } => {
            assert_eq!(got.as_ref().map_err(Error::number).err(), Some(*answer));
            return false;
        }
        Found::Laid(laid) => laid,
    };
    let patch = got.as_ref().expect("a patch");
    let faces: Vec<[u32; 3]> = laid.faces.iter().map(|face| face.map(|point| point as u32)).collect();
    assert_eq!(patch.faces, faces);
    assert_eq!(bits(&patch.radii), bits(&laid.radii));
    assert_eq!([patch.seeds, patch.looks, patch.pivots], [laid.tally.seeds, laid.tally.looks, laid.tally.pivots]);
    let touched: HashSet<&usize> = laid.faces.iter().flatten().collect();
    let coverage = patch.coverage();
    assert_eq!((coverage.covered, coverage.scanned), (touched.len(), points));
    assert_eq!(patch.unreached(), (0..points as u32).filter(|p| !touched.contains(&(*p as usize))).collect::<Vec<_>>());
    if !patch.radii.is_empty() {
        assert_eq!(coverage.covered, patch.faces.len() + 2 * patch.seeds as usize);
    }
    patch.radii.is_empty()
}

#[test]
fn reconstructions() {
    let (mut laid, mut plain, mut refused) = (0, 0, 0);
    for case in cases(250) {
        let (words, floats) = work_lengths(case.points.len() / 3);
        let Ok(found) = expect::find(&case.points, &case.normals, &case.settings, [words, floats], BUDGET / 8) else {
            continue;
        };
        let (points, normals) = (threes(&case.points), threes(&case.normals));
        let got = yarrowbleat::reconstruct_with_normals(&points, &normals, &config(&case.settings));
        let was_plain = same(&found, &got, points.len());
        laid += u32::from(got.is_ok());
        plain += u32::from(was_plain);
        refused += u32::from(got.is_err());
    }
    assert!(laid > 60 && plain > 5 && refused > 20, "{laid} laid, {plain} of them plain, {refused} refused");
}

/// The same with where each face came from, as laid and turned.
#[test]
fn origins() {
    let (mut turned_patches, mut plain) = (0, 0);
    for case in cases(120) {
        let (words, floats) = work_lengths(case.points.len() / 3);
        let Ok(found) = expect::find(&case.points, &case.normals, &case.settings, [words, floats], BUDGET / 8) else {
            continue;
        };
        let (points, normals) = (threes(&case.points), threes(&case.normals));
        for turned in [false, true] {
            let got = yarrowbleat::reconstruct_with_origins(&points, &normals, &config(&case.settings), turned);
            let Found::Laid(laid) = &found else {
                same(&found, &got.map(|traced| traced.patch), points.len());
                continue;
            };
            if turned && laid.radii.is_empty() {
                assert_eq!(got, Err(Error::TurnedPlain));
                plain += 1;
                continue;
            }
            let traced = got.expect("a patch");
            let origins: Vec<[usize; 2]> =
                traced.origins.iter().map(|o| [o.parent as usize, o.place as usize]).collect();
            assert_eq!(origins, laid.origins);
            let laid = oracle::Laid { faces: expect::origins::faces(laid, turned), ..laid.clone() };
            same(&Found::Laid(laid), &Ok(traced.patch), points.len());
            turned_patches += u32::from(turned);
        }
    }
    assert!(turned_patches > 25 && plain > 2, "{turned_patches} turned, {plain} plain");
}

#[test]
fn estimates() {
    let mut accepted = 0;
    for case in cases(250) {
        let (words, floats) = work_lengths(case.points.len() / 3);
        let mut lent = Lent { faces: vec![], words: vec![0; words], floats: vec![0.0; floats] };
        let Ok(expected) = expect::estimate(&case.points, case.percentile, &mut lent, BUDGET) else { continue };
        match yarrowbleat::estimate_optimal_radius(&threes(&case.points), case.percentile) {
            Ok(radius) => {
                assert_eq!((expected.answer, expected.radius.to_bits()), (0, radius.to_bits()));
                accepted += 1;
            }
            Err(e) => assert_eq!((expected.answer, expected.detail), (e.number(), e.detail() as u32)),
        }
    }
    assert!(accepted > 100, "{accepted} accepted");
}

/// The shipped bell wall, read and laid with the default settings.
#[test]
fn bell() {
    let cloud = yarrowbleat::read_cloud(include_bytes!("../../../tests/data/bell.csv")).unwrap();
    let (points, normals) = (cloud.points.as_flattened(), cloud.normals.as_flattened());
    let (words, floats) = work_lengths(cloud.points.len());
    let settings = Settings::at_radius(cloud.radius);
    let found = expect::find(points, normals, &settings, [words, floats], BUDGET).unwrap();
    let got = yarrowbleat::ball_pivoting_from_normals(&cloud.points, &cloud.normals, cloud.radius);
    assert!(matches!(found, Found::Laid(_)));
    same(&found, &got, cloud.points.len());
}

#[test]
fn defaults() {
    assert_eq!(config(&Settings::at_radius(0.1)), BallPivotingConfig::default());
}
