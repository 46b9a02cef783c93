//! Room for calls that is allocated once: a season lays patch after patch and allocates nothing.

use crate::{sys, BallPivotingConfig, Coverage, Error, Origin, Patch, TracedPatch, MAX_FACES, MAX_POINTS};

/// Work space for the largest cloud. A call through it writes into a patch that the caller keeps, whose room is used
/// again, so that from the second call on nothing is allocated.
///
/// ```
/// use yarrowbleat::tally::{SeasonPatch, Tally};
/// use yarrowbleat::{BallPivotingConfig, Patch, Workspace};
///
/// let clouds = [[[0.0, 0.0, 0.0], [1.0, 0.0, 0.0], [0.0, 1.0, 0.0]], [[0.0, 0.0, 0.0], [2.0, 0.0, 0.0], [0.0, 2.0, 0.0]]];
/// let (mut room, mut patch, mut tally) = (Workspace::new(), Patch::default(), Tally::new());
/// for (number, points) in (0..).zip(&clouds) {
///     room.reconstruct_with_normals(points, points, &BallPivotingConfig::new(2.0), &mut patch)?;
///     let covered = room.coverage(&patch).covered as u32;
///     tally.add(SeasonPatch { number, scanned: 3, covered, faces: patch.faces.len() as u32 })?;
/// }
/// assert_eq!(tally.figures()?.coverage.to_string(), "1/1");
/// # Ok::<(), yarrowbleat::Error>(())
/// ```
#[derive(Clone, Debug)]
pub struct Workspace {
    words: Vec<u32>,
    floats: Vec<f32>,
    origins: Vec<[u32; 2]>,
}

impl Default for Workspace {
    fn default() -> Self {
        Self::new()
    }
}

impl Workspace {
    /// Room for 4,096 points, half a megabyte.
    pub fn new() -> Self {
        let (words, floats) = crate::work(MAX_POINTS);
        Self { words, floats, origins: vec![[0; 2]; MAX_FACES] }
    }

    /// As [`crate::estimate_optimal_radius`].
    pub fn estimate_optimal_radius(&mut self, points: &[[f32; 3]], percentile: f32) -> Result<f32, Error> {
        let r = sys::estimate_optimal_radius(points.as_flattened(), percentile, &mut self.words, &mut self.floats);
        Error::check(r.answer, r.detail as usize)?;
        Ok(r.radius)
    }

    /// As [`crate::reconstruct_with_normals`]; the patch is replaced, at a refusal by an empty one.
    pub fn reconstruct_with_normals(
        &mut self,
        points: &[[f32; 3]],
        normals: &[[f32; 3]],
        config: &BallPivotingConfig,
        patch: &mut Patch,
    ) -> Result<(), Error> {
        patch.faces.resize(MAX_FACES, [0; 3]);
        let r = sys::reconstruct_with_normals(
            points.as_flattened(),
            normals.as_flattened(),
            config.into(),
            patch.faces.as_flattened_mut(),
            &mut self.words,
            &mut self.floats,
        );
        patch.take(points.len(), &r);
        Error::check(r.answer, r.detail as usize)
    }

    /// As [`crate::reconstruct_with_origins`]; the patch is replaced, at a refusal by an empty one.
    pub fn reconstruct_with_origins(
        &mut self,
        points: &[[f32; 3]],
        normals: &[[f32; 3]],
        config: &BallPivotingConfig,
        turned: bool,
        traced: &mut TracedPatch,
    ) -> Result<(), Error> {
        traced.patch.faces.resize(MAX_FACES, [0; 3]);
        let r = sys::reconstruct_with_origins(
            points.as_flattened(),
            normals.as_flattened(),
            config.into(),
            turned,
            traced.patch.faces.as_flattened_mut(),
            self.origins.as_flattened_mut(),
            &mut self.words,
            &mut self.floats,
        );
        traced.patch.take(points.len(), &r);
        traced.origins.clear();
        let origins = &self.origins[..r.faces as usize];
        traced.origins.extend(origins.iter().map(|&[parent, place]| Origin { parent, place }));
        Error::check(r.answer, r.detail as usize)
    }

    /// As [`Patch::coverage`].
    pub fn coverage(&mut self, patch: &Patch) -> Coverage {
        // A patch that was handed out has at most 4,096 points; one that was changed since may have more.
        match self.words.get_mut(..patch.points) {
            Some(marks) => {
                Coverage { covered: sys::mark_reached(patch.faces.as_flattened(), marks), scanned: patch.points }
            }
            None => patch.coverage(),
        }
    }
}
