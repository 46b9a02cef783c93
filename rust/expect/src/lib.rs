//! What a call must answer: the scope's list of refusals, in its order, over the oracle.

pub mod checks;
pub mod origins;
pub mod verdicts;

use oracle::{Error, Laid, Settings, Skip, Tried};

/// The steps of the published code that a case may take, about half a second; above it the case is skipped.
pub const BUDGET: u64 = 16_000_000;

/// The bits of floats, by which they are compared: a zero's sign counts.
pub fn bits(floats: &[f32]) -> Vec<u32> {
    floats.iter().map(|x| x.to_bits()).collect()
}

/// The answer of the radius estimate.
#[derive(Clone, Copy, Debug, Default, PartialEq)]
pub struct Estimate {
    pub answer: u32,
    pub detail: u32,
    pub radius: f32,
}

/// The answer of a reconstruction; radii past the count are zeros.
#[derive(Clone, Copy, Debug, Default, PartialEq)]
pub struct Patch {
    pub answer: u32,
    pub detail: u32,
    pub faces: u32,
    pub seeds: u32,
    pub looks: u32,
    pub pivots: u32,
    pub radii_count: u32,
    pub radii: [f32; 17],
}

/// The slices that a call is lent.
#[derive(Clone, Debug, Default)]
pub struct Lent {
    pub faces: Vec<u32>,
    pub words: Vec<u32>,
    pub floats: Vec<f32>,
}

impl Lent {
    /// Whether every word is the same.
    pub fn is_same(&self, other: &Lent) -> bool {
        self.faces == other.faces && self.words == other.words && bits(&self.floats) == bits(&other.floats)
    }

    fn clear_work(&mut self) {
        self.words.fill(0);
        self.floats.fill(0.0);
    }
}

/// A refusal: its number in the scope's list and its detail.
#[derive(Clone, Copy, Debug, PartialEq, Eq)]
pub struct Refusal {
    pub answer: u32,
    pub detail: u32,
}

/// What a reconstruction comes to before the face slice is looked at.
#[derive(Clone, Debug)]
pub enum Found {
    /// Refused by a check up to 7; every lent slice is untouched.
    Early(Refusal),
    /// No triangle: the answer is 8, 15 or 16, on the plain path or the other.
    NoTriangle {
        answer: u32,
        plain: bool,
    },
    Laid(Laid),
}

/// What a run of the Rust on so many points comes to, once the checks have passed.
fn laid_or_none(points: usize, (run, tried): (oracle::Result<Laid>, Tried)) -> Found {
    match run {
        Ok(laid) => Found::Laid(laid),
        Err(Error::Algorithm(_)) => Found::NoTriangle { answer: no_triangle(points, tried.judged), plain: tried.plain },
        Err(error) => panic!("the checks let through what the published code refuses: {error:?}"),
    }
}

/// Checks 1 to 8, and 15 and 16 in the place of 8.
pub fn find(
    points: &[f32],
    normals: &[f32],
    settings: &Settings,
    work: [usize; 2],
    budget: u64,
) -> Result<Found, Skip> {
    find_amended(points, normals, settings, work, budget).map(|(found, _)| found)
}

/// The same, and whether the published code lays a face of computed area zero: then the amended one is asked instead.
pub fn find_amended(
    points: &[f32],
    normals: &[f32],
    settings: &Settings,
    work: [usize; 2],
    budget: u64,
) -> Result<(Found, bool), Skip> {
    if let Err(refusal) = checks::reconstruct(points, normals, settings, work) {
        return Ok((Found::Early(refusal), false));
    }
    let count = points.len() / 3;
    let published = oracle::reconstruct_judged(points, normals, settings, budget)?;
    match &published.0 {
        Ok(laid) if oracle::lays_no_area(points, laid) => {
            let amended = oracle::reconstruct_amended(points, normals, settings, budget)?;
            Ok((laid_or_none(count, amended), true))
        }
        _ => Ok((laid_or_none(count, published), false)),
    }
}

/// Which of the three answers is given where no triangle was found: 8 for fewer than three points, 15 if no triple was judged,
/// 16 if all that were judged were turned down.
fn no_triangle(points: usize, judged: bool) -> u32 {
    match (points, judged) {
        (0..=2, _) => 8,
        (_, false) => 15,
        (_, true) => 16,
    }
}

impl Found {
    /// The words of a face slice that just holds the faces.
    pub fn need(&self) -> usize {
        match self {
            Found::Laid(laid) => 3 * laid.faces.len(),
            _ => 0,
        }
    }

    /// Check 9, the answer, and what becomes of the lent slices.
    pub fn deliver(&self, lent: &mut Lent) -> Patch {
        let refused = |answer, detail| Patch { answer, detail, ..Patch::default() };
        match self {
            Found::Early(refusal) => refused(refusal.answer, refusal.detail),
            Found::NoTriangle { answer, .. } => {
                lent.clear_work();
                refused(*answer, 0)
            }
            Found::Laid(laid) => {
                lent.clear_work();
                if laid.faces.len() > lent.faces.len() / 3 {
                    lent.faces.fill(0);
                    return refused(9, 0);
                }
                for (to, from) in lent.faces.iter_mut().zip(laid.faces.iter().flatten()) {
                    *to = *from as u32;
                }
                accepted(laid)
            }
        }
    }
}

fn accepted(laid: &Laid) -> Patch {
    let mut radii = [0.0; 17];
    radii[..laid.radii.len()].copy_from_slice(&laid.radii);
    Patch {
        answer: 0,
        detail: 0,
        faces: laid.faces.len() as u32,
        seeds: laid.tally.seeds,
        looks: laid.tally.looks,
        pivots: laid.tally.pivots,
        radii_count: laid.radii.len() as u32,
        radii,
    }
}

/// The estimate, and what becomes of the work slices.
pub fn estimate(points: &[f32], percentile: f32, lent: &mut Lent, budget: u64) -> Result<Estimate, Skip> {
    if let Err(refusal) = checks::estimate(points, percentile, [lent.words.len(), lent.floats.len()]) {
        return Ok(Estimate { answer: refusal.answer, detail: refusal.detail, radius: 0.0 });
    }
    let radius = oracle::estimate(points, percentile, budget)?.expect("the checks have passed");
    lent.clear_work();
    Ok(Estimate { answer: 0, detail: 0, radius })
}
