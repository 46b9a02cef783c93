//! The reference of parents, places and the turned patch, on its own: over drawn clouds, under both rules.

use expect::{origins, Found, Lent, BUDGET};
use generate::{case, fixed_count};
use oracle::Settings;

fn laid(points: &[f32], settings: &Settings) -> oracle::Laid {
    oracle::reconstruct(points, &vec![1.0; points.len()], settings, BUDGET)
        .expect("within the limits")
        .expect("a patch")
}

/// A radius alone.
fn one_radius(radius: f32, frontier_rule: u32) -> Settings {
    let mut settings = Settings { frontier_rule, ..Settings::at_radius(radius) };
    settings.set_additional(&[]);
    settings.set_percentiles(&[]);
    settings
}

const FIVE: [f32; 15] = [0.0, 0.0, 1.0, 1.0, 0.0, 0.0, 3.0, 0.0, 1.0, 0.0, 1.0, 1.0, 1.0, 1.0, 0.0];

/// Five points, by hand: a seed, a face over its first edge, and one over an edge of that, which the rules choose.
#[test]
fn five_points() {
    let heap = laid(&FIVE, &one_radius(2.0, 1));
    assert_eq!(heap.faces, [[0, 1, 2], [0, 1, 3], [3, 0, 4]]);
    assert_eq!(heap.origins, [[0, 0], [0, 0], [1, 0]]);
    assert_eq!(origins::faces(&heap, true), [[0, 1, 2], [1, 0, 3], [3, 0, 4]]);
    let queue = laid(&FIVE, &one_radius(2.0, 2));
    assert_eq!(queue.faces, [[0, 1, 2], [0, 1, 3], [1, 3, 4]]);
    assert_eq!(queue.origins, [[0, 0], [0, 0], [1, 0]]);
    assert_eq!(origins::faces(&queue, true), [[0, 1, 2], [1, 0, 3], [1, 3, 4]]);
}

/// The first radius is too small for any seed: it counts as a place all the same.
#[test]
fn a_radius_that_lays_nothing() {
    let mut settings = one_radius(2.0, 1);
    settings.set_additional(&[0.01]);
    let laid = laid(&FIVE, &settings);
    assert_eq!(laid.radii, [0.01, 2.0]);
    assert_eq!(laid.origins[0], [0, 1]);
}

/// On the plain path each face names itself and place 0, and 18 comes after 9.
#[test]
fn plain() {
    let settings = Settings { adaptive_radius: false, ..one_radius(2.0, 1) };
    let plain = laid(&FIVE, &settings);
    assert!(plain.faces.len() > 1);
    assert!(plain.origins.iter().enumerate().all(|(face, origin)| *origin == [face, 0]));
    let (faces, found) = (plain.faces.len(), Found::Laid(plain));
    let call = |turned: bool, face_words: usize, origin_words: usize| {
        let mut lent = Lent { faces: vec![7; face_words], words: vec![7; 9], floats: vec![7.0; 9] };
        let mut origins = vec![7; origin_words];
        let patch = origins::deliver(&found, turned, &mut lent, &mut origins);
        assert!(lent.words.iter().all(|word| *word == 0) && lent.floats.iter().all(|x| *x == 0.0));
        (patch.answer, patch.faces as usize, lent.faces, origins)
    };
    assert_eq!(call(true, 3 * faces, 2 * faces), (18, 0, vec![7; 3 * faces], vec![7; 2 * faces]));
    assert_eq!(call(true, 3 * faces - 1, 2 * faces), (9, 0, vec![0; 3 * faces - 1], vec![0; 2 * faces]));
    assert_eq!(call(true, 3 * faces, 2 * faces - 1), (9, 0, vec![0; 3 * faces], vec![0; 2 * faces - 1]));
    let (answer, count, numbers, origins) = call(false, 3 * faces + 1, 2 * faces + 1);
    assert_eq!((answer, count, numbers[3 * faces], origins[2 * faces]), (0, faces, 7, 7));
}

/// On drawn clouds, whichever the rule: parents come earlier and share the pivoted edge in its direction, and in the turned
/// patch each shared edge runs once each way. The faces as they are laid are the published ones, and without turning there
/// are edges that run the same way twice.
#[test]
fn drawn_clouds() {
    let (mut faces, mut same_way) = ([0; 2], 0);
    for number in fixed_count()..fixed_count() + 150 {
        let case = case(19, number);
        let work = [case.words, case.floats];
        for rule in [1, 2] {
            let settings = Settings { frontier_rule: rule, ..case.settings };
            let Ok(Found::Laid(laid)) = expect::find(&case.points, &case.normals, &settings, work, BUDGET / 8) else {
                continue;
            };
            assert_eq!(laid.origins.len(), laid.faces.len());
            assert_eq!(origins::faces(&laid, false), laid.faces);
            if laid.radii.is_empty() {
                continue;
            }
            assert_eq!(origins::fault(&laid), None, "case {number}, rule {rule}");
            assert_eq!(origins::unturned(&origins::faces(&laid, true)), None, "case {number}, rule {rule}");
            same_way += u32::from(origins::unturned(&laid.faces).is_some());
            faces[rule as usize - 1] += laid.faces.len();
        }
    }
    assert!(faces.iter().all(|count| *count > 500) && same_way > 30, "{faces:?} faces, {same_way} same way");
}

/// What the example in the safe crate's documentation says.
#[test]
fn square() {
    let points = [0.0, 0.0, 0.0, 1.0, 0.0, 0.0, 0.0, 1.0, 0.0, 1.0, 1.0, 0.0];
    let laid = laid(&points, &Settings::at_radius(1.0));
    assert_eq!(laid.faces, [[0, 1, 2], [1, 2, 3]]);
    assert_eq!(origins::faces(&laid, true), [[0, 1, 2], [2, 1, 3]]);
}
