//! Exact figures over a season: a tally to which patches are added, and its figures, fractions in lowest terms.

use crate::{sys, Error, Patch};
use std::cmp::Ordering;
use std::fmt;

pub use sys::{Fraction, SeasonPatch};

impl SeasonPatch {
    /// What is entered of a patch under a number of one's own.
    pub fn new(number: u32, patch: &Patch) -> Self {
        let reached = patch.coverage();
        let (scanned, covered) = (reached.scanned as u32, reached.covered as u32);
        Self { number, scanned, covered, faces: patch.faces.len() as u32 }
    }
}

impl fmt::Display for Fraction {
    fn fmt(&self, f: &mut fmt::Formatter<'_>) -> fmt::Result {
        write!(f, "{}/{}", self.numerator, self.denominator)
    }
}

impl Fraction {
    /// The nearest `f64`, but for the rounding of a numerator or denominator of more than 53 bits.
    pub fn to_f64(self) -> f64 {
        self.numerator as f64 / self.denominator as f64
    }
}

/// By value; fractions of one value that aren't written alike come by their denominators, so that only like ones are
/// equal.
impl Ord for Fraction {
    fn cmp(&self, other: &Self) -> Ordering {
        let cross = |above: u64, below: u64| u128::from(above) * u128::from(below);
        cross(self.numerator, other.denominator)
            .cmp(&cross(other.numerator, self.denominator))
            .then(self.denominator.cmp(&other.denominator))
            .then(self.numerator.cmp(&other.numerator))
    }
}

impl PartialOrd for Fraction {
    fn partial_cmp(&self, other: &Self) -> Option<Ordering> {
        Some(self.cmp(other))
    }
}

/// The sums over the patches of a season, at most 100,000.
///
/// ```
/// use yarrowbleat::tally::{SeasonPatch, Tally};
///
/// let mut tally = Tally::new();
/// tally.add(SeasonPatch { number: 7, scanned: 4, covered: 3, faces: 1 })?;
/// tally.add(SeasonPatch { number: 8, scanned: 8, covered: 8, faces: 6 })?;
/// let figures = tally.figures()?;
/// assert_eq!((figures.mean.to_string(), figures.coverage.to_f64()), ("7/2".into(), 11.0 / 12.0));
/// assert_eq!((figures.best.number, figures.worst.number), (8, 7));
/// assert!(figures.worst_coverage < figures.best_coverage);
/// # Ok::<(), yarrowbleat::Error>(())
/// ```
#[derive(Clone, Copy, Debug, Default, PartialEq, Eq)]
pub struct Tally {
    sums: sys::Tally,
}

/// The figures of a season. Of equally covered patches the earlier one is named.
#[derive(Clone, Copy, Debug, PartialEq, Eq)]
#[non_exhaustive]
pub struct Figures {
    /// How many patches were entered.
    pub patches: u64,
    /// The mean of the face counts.
    pub mean: Fraction,
    /// Their variance.
    pub variance: Fraction,
    /// The part of all scanned points that is covered.
    pub coverage: Fraction,
    /// The best covered patch, the earlier of equal ones.
    pub best: SeasonPatch,
    /// The worst covered patch, the earlier of equal ones.
    pub worst: SeasonPatch,
    /// The best patch's coverage.
    pub best_coverage: Fraction,
    /// The worst patch's coverage.
    pub worst_coverage: Fraction,
}

impl Tally {
    /// An empty tally.
    pub fn new() -> Self {
        Self::default()
    }

    /// A tally whose sums were kept elsewhere. Sums that no season can have left are refused at the next call.
    pub fn from_sums(sums: sys::Tally) -> Self {
        Self { sums }
    }

    /// The sums, to be kept elsewhere.
    pub fn sums(&self) -> sys::Tally {
        self.sums
    }

    /// Adds a patch; a refusal changes nothing.
    pub fn add(&mut self, patch: SeasonPatch) -> Result<(), Error> {
        Error::check(sys::tally_add(&mut self.sums, patch), 0)
    }

    /// The figures of what was added.
    pub fn figures(&self) -> Result<Figures, Error> {
        let f = sys::tally_figures(&self.sums);
        Error::check(f.answer, 0)?;
        let sys::Figures { patches, mean, variance, coverage, best, worst, best_coverage, worst_coverage, .. } = f;
        Ok(Figures { patches, mean, variance, coverage, best, worst, best_coverage, worst_coverage })
    }
}
