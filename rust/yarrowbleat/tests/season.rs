//! A season through the safe crate: figures, refusals, and that a refusal changes nothing.

use yarrowbleat::sys;
use yarrowbleat::tally::{Fraction, SeasonPatch, Tally};
use yarrowbleat::Error;

fn patch(number: u32, scanned: u32, covered: u32, faces: u32) -> SeasonPatch {
    SeasonPatch { number, scanned, covered, faces }
}

#[test]
fn figures() {
    let mut tally = Tally::new();
    assert_eq!(tally.figures(), Err(Error::TallyEmpty));
    for p in [patch(7, 4, 2, 3), patch(8, 2, 1, 5), patch(9, 4, 3, 4)] {
        assert_eq!(tally.add(p), Ok(()));
    }
    let f = tally.figures().unwrap();
    assert_eq!((f.patches, f.best.number, f.worst.number), (3, 9, 7));
    assert_eq!([f.mean, f.variance, f.coverage].map(|x| x.to_string()), ["4/1", "2/3", "3/5"]);
    assert_eq!(f.best_coverage, Fraction { numerator: 3, denominator: 4 });
    assert_eq!(f.worst_coverage, Fraction { numerator: 1, denominator: 2 });
    assert_eq!(Tally::from_sums(tally.sums()), tally);
}

#[test]
fn refusals() {
    let mut tally = Tally::new();
    tally.add(patch(1, 1, 0, 0)).unwrap();
    let before = tally;
    for bad in [patch(1, 0, 0, 0), patch(1, 4_097, 0, 0), patch(1, 5, 6, 0), patch(1, 1, 0, 10_001)] {
        assert_eq!((tally.add(bad), tally), (Err(Error::SeasonPatch), before));
    }
    let full = Tally::from_sums(sys::Tally { patches: 100_000, scanned: 100_000, ..before.sums() });
    tally = full;
    assert_eq!((tally.add(patch(1, 1, 0, 0)), tally), (Err(Error::TallyFull), full));
    assert!(tally.figures().is_ok());
    let damaged = Tally::from_sums(sys::Tally { covered: 2, ..before.sums() });
    tally = damaged;
    assert_eq!((tally.add(patch(1, 0, 0, 0)), tally), (Err(Error::Tally), damaged));
    assert_eq!(tally.figures(), Err(Error::Tally));
    for error in [Error::TallyFull, Error::SeasonPatch, Error::TallyEmpty, Error::Tally] {
        assert_eq!(Error::check(error.number(), error.detail()), Err(error));
        assert!(!error.to_string().is_empty());
    }
}
