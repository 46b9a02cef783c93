//! The scope's listing and cases of known outcome, on the oracle alone.

use oracle::{estimate, lays_no_area, reconstruct, reconstruct_amended, Error, Laid, Settings};

const BUDGET: u64 = 1_000_000;

fn lay_amended(points: &[f32], settings: &Settings) -> oracle::Result<Laid> {
    reconstruct_amended(points, &vec![1.0; points.len()], settings, BUDGET).expect("within the limits").0
}

fn lay(points: &[f32], settings: &Settings) -> oracle::Result<Laid> {
    reconstruct(points, &vec![1.0; points.len()], settings, BUDGET).expect("within the limits")
}

fn counts(laid: &Laid) -> [u32; 3] {
    [laid.tally.seeds, laid.tally.looks, laid.tally.pivots]
}

/// Radius 1, no further radii, no score asked for.
fn with_area(min_triangle_area: f32) -> Settings {
    let mut settings = Settings::at_radius(1.0);
    settings.set_additional(&[]);
    settings.set_percentiles(&[]);
    settings.quality_threshold = 0.0;
    settings.min_triangle_area = min_triangle_area;
    settings
}

#[test]
fn listing() {
    let laid = lay(&[0.0, 0.0, 0.0, 1.0, 0.0, 0.0, 0.0, 1.0, 0.0], &Settings::at_radius(1.0)).unwrap();
    assert_eq!(laid.faces, [[0, 1, 2]]);
    assert_eq!(counts(&laid), [1, 3, 3]);
}

#[test]
fn two_points_lay_nothing() {
    let refused = lay(&[0.0, 0.0, 0.0, 1.0, 0.0, 0.0], &Settings::at_radius(1.0));
    assert!(matches!(refused, Err(Error::Algorithm(_))));
}

#[test]
fn three_equal_points() {
    let laid = lay(&[0.0; 9], &with_area(0.0)).unwrap();
    assert_eq!(laid.faces, [[0, 1, 2]]);
    assert_eq!(counts(&laid), [1, 3, 3]);
    assert!(lays_no_area(&[0.0; 9], &laid));
    assert!(matches!(lay_amended(&[0.0; 9], &with_area(0.0)), Err(Error::Algorithm(_))));
    assert!(matches!(lay(&[0.0; 9], &with_area(1e-8)), Err(Error::Algorithm(_))));
}

#[test]
fn two_equal_points_and_two_others() {
    let points = [0.0, 0.0, 0.0, 0.0, 0.0, 0.0, 1.0, 0.0, 0.0, 0.0, 1.0, 0.0];
    assert_eq!(lay(&points, &with_area(0.0)).unwrap().faces, [[0, 1, 2]]);
    let amended = lay_amended(&points, &with_area(0.0)).unwrap();
    assert_eq!(amended.faces, [[0, 2, 3], [2, 3, 1]]);
    assert!(!lays_no_area(&points, &amended));
    assert_eq!(lay(&points, &with_area(0.0)).unwrap().faces, [[0, 1, 2]]);
}

#[test]
fn radii_are_compared_with_the_last_kept() {
    let mut settings = Settings::at_radius(0.5);
    settings.set_additional(&[0.500_000_7, 0.500_001_4]);
    settings.set_percentiles(&[]);
    let laid = lay(&[0.0, 0.0, 0.0, 0.5, 0.0, 0.0, 0.0, 0.5, 0.0], &settings).unwrap();
    assert_eq!(laid.radii, [0.5, 0.500_001_4]);
}

#[test]
fn estimates() {
    assert_eq!(estimate(&[3.0, 4.0, 5.0], 0.5, BUDGET), Ok(Ok(0.1)));
    assert_eq!(estimate(&[0.0, 0.0, 0.0, 0.0, 1.0, 0.0], 0.5, BUDGET), Ok(Ok(2.5)));
    assert!(matches!(estimate(&[0.0; 3], f32::NAN, BUDGET), Ok(Err(Error::InvalidData(_)))));
}

/// The fewest points on which the frontier's two orders differ.
#[test]
fn rules() {
    let points = [0.0, 0.0, 1.0, 1.0, 0.0, 0.0, 3.0, 0.0, 1.0, 0.0, 1.0, 1.0, 1.0, 1.0, 0.0];
    let mut settings = Settings::at_radius(2.0);
    settings.set_additional(&[]);
    settings.set_percentiles(&[]);
    assert_eq!(lay(&points, &settings).unwrap().faces.last(), Some(&[3, 0, 4]));
    settings.frontier_rule = 2;
    assert_eq!(lay(&points, &settings).unwrap().faces.last(), Some(&[1, 3, 4]));
    settings.frontier_rule = 1;
    assert_eq!(lay(&points, &settings).unwrap().faces.last(), Some(&[3, 0, 4]));
}

/// Entries of equal priority, as all of the frontier's are.
#[test]
fn frontier_order() {
    #[derive(Debug)]
    struct Entry(char);
    impl PartialEq for Entry {
        fn eq(&self, _: &Self) -> bool {
            true
        }
    }
    impl Eq for Entry {}
    impl PartialOrd for Entry {
        fn partial_cmp(&self, other: &Self) -> Option<std::cmp::Ordering> {
            Some(self.cmp(other))
        }
    }
    impl Ord for Entry {
        fn cmp(&self, _: &Self) -> std::cmp::Ordering {
            std::cmp::Ordering::Equal
        }
    }
    let mut frontier = std::collections::BinaryHeap::new();
    "ABCD".chars().for_each(|name| frontier.push(Entry(name)));
    let popped: String = std::iter::from_fn(|| frontier.pop()).map(|entry| entry.0).collect();
    assert_eq!(popped, "ACBD");
}
