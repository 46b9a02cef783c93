//! Ball pivoting over scanned points: the proved port, under the names of the old module.
//!
//! Memory is allocated here; `sys` has the calls over lent slices. Whatever is outside the domain is an [`Error`].
//! Every call is a function of its arguments alone, so any number of threads may call at once.

#![deny(missing_docs)]

/// The README's program, tried with the documentation.
#[cfg(doctest)]
#[doc = include_str!("../README.md")]
struct Readme;

mod answers;
mod config;
mod error;
pub mod index;
mod stl;
pub mod sys;
pub mod tally;
mod verdict;
mod workspace;

pub use answers::{answer_text, Error};
pub use config::{BallPivotingConfig, FrontierRule};
pub use stl::{read_stl, write_stl};
pub use verdict::{judge_triangle, Explained, Verdict};
pub use workspace::Workspace;

/// The most points of a cloud.
pub const MAX_POINTS: usize = 4_096;

/// The most faces that are ever found: one a point, or on the plain path 10,000.
const MAX_FACES: usize = 10_000;

/// The faces laid over a cloud, as point numbers from 0, and how they came about.
#[derive(Clone, Debug, Default, PartialEq)]
#[non_exhaustive]
pub struct Patch {
    /// How many points the cloud has, n.
    pub points: usize,
    /// The faces, F of them.
    pub faces: Vec<[u32; 3]>,
    /// The radii tried, rising; none on the plain path.
    pub radii: Vec<f32>,
    /// How many of the faces were laid as seeds, S.
    pub seeds: u32,
    /// Entries taken from the frontier.
    pub looks: u32,
    /// Looks at an edge that was not processed before.
    pub pivots: u32,
}

/// How much of the wall was reached.
#[derive(Clone, Copy, Debug, PartialEq, Eq)]
#[non_exhaustive]
pub struct Coverage {
    /// The points that a face touches.
    pub covered: usize,
    /// The cloud's points.
    pub scanned: usize,
}

impl Patch {
    /// How many of the scanned points the faces touch: F + 2S of n where there are radii, since a seed takes three new
    /// points and each further face one. On the plain path they are counted.
    pub fn coverage(&self) -> Coverage {
        Coverage { covered: self.marks().1, scanned: self.points }
    }

    /// The points that no face touches, by number, rising.
    pub fn unreached(&self) -> Vec<u32> {
        let marks = self.marks().0;
        (0..).zip(marks).filter(|(_, mark)| *mark == 0).map(|(point, _)| point).collect()
    }

    /// What a call left, whose faces stand in front; empty at a refusal.
    fn take(&mut self, points: usize, r: &sys::Patch) {
        self.points = if r.answer == 0 { points } else { 0 };
        self.faces.truncate(r.faces as usize);
        self.radii.clear();
        self.radii.extend_from_slice(&r.radii[..r.radii_count as usize]);
        (self.seeds, self.looks, self.pivots) = (r.seeds, r.looks, r.pivots);
    }

    /// A mark for each point, 1 if a face touches it, and how many do.
    fn marks(&self) -> (Vec<u32>, usize) {
        let mut marks = vec![0; self.points];
        let covered = sys::mark_reached(self.faces.as_flattened(), &mut marks);
        (marks, covered)
    }
}

/// Work slices for this many points; more than the domain has are refused before the work is looked at.
fn work(points: usize) -> (Vec<u32>, Vec<f32>) {
    let n = points.min(MAX_POINTS);
    (vec![0; 24 * n + 64], vec![0.0; 4 * n + 64])
}

/// The distance of two points. Where the coordinates are multiples of 1/64 and at most 1,000 in size its square differs
/// from the exact one by at most a part of 1/2,097,152; docs/ACCURACY.md says what that means for a tolerance.
pub fn distance(p: &[f32; 3], q: &[f32; 3]) -> f32 {
    sys::distance(p, q)
}

/// A radius that suits the cloud: 2.5 times this percentile of its points' least distances, or 0.1 if there are none.
///
/// ```
/// let points = [[0.0, 0.0, 0.0], [1.0, 0.0, 0.0], [0.0, 1.0, 0.0], [1.0, 1.0, 0.0]];
/// assert_eq!(yarrowbleat::estimate_optimal_radius(&points, 0.5)?, 2.5);
/// assert_eq!(yarrowbleat::estimate_optimal_radius(&points, 1.5), Err(yarrowbleat::Error::Percentile));
/// # Ok::<(), yarrowbleat::Error>(())
/// ```
pub fn estimate_optimal_radius(points: &[[f32; 3]], percentile: f32) -> Result<f32, Error> {
    let (mut words, mut floats) = work(points.len());
    let r = sys::estimate_optimal_radius(points.as_flattened(), percentile, &mut words, &mut floats);
    Error::check(r.answer, r.detail as usize)?;
    Ok(r.radius)
}

/// Lays a patch over the points. The normals, one for each point, are checked and change no face.
pub fn reconstruct_with_normals(
    points: &[[f32; 3]],
    normals: &[[f32; 3]],
    config: &BallPivotingConfig,
) -> Result<Patch, Error> {
    let (mut words, mut floats) = work(points.len());
    let mut faces = vec![[0; 3]; MAX_FACES];
    let r = sys::reconstruct_with_normals(
        points.as_flattened(),
        normals.as_flattened(),
        config.into(),
        faces.as_flattened_mut(),
        &mut words,
        &mut floats,
    );
    patch_of(points.len(), &r, faces)
}

/// Where a face came from; both numbers from 0.
#[derive(Clone, Copy, Debug, PartialEq, Eq)]
#[non_exhaustive]
pub struct Origin {
    /// The face over whose edge the ball was pivoted: an earlier one, which has the face's first two points as an edge.
    /// As laid the edge runs there in the same direction as in the face, in a turned patch in the other one. A seed and
    /// a face of the plain path name themselves.
    pub parent: u32,
    /// The place of the face's radius in [`Patch::radii`]; 0 on the plain path.
    pub place: u32,
}

/// A patch, and where each of its faces came from.
#[derive(Clone, Debug, Default, PartialEq)]
#[non_exhaustive]
pub struct TracedPatch {
    /// The patch, turned or as it was laid.
    pub patch: Patch,
    /// An entry for each face.
    pub origins: Vec<Origin>,
}

/// Lays a patch over the points, and says where each face came from.
///
/// As faces are laid, neighbours face opposite ways, since a new face has its parent's edge in the same direction. A turned
/// patch faces one way: a seed looks out, any other face looks out when its parent looks in and the other way about, and
/// those that look in have their first two points swapped; then each edge that lies in two faces runs once each way.
/// Order, parents and places are the same. [`Error::TurnedPlain`] where the plain path ran and a turned patch was asked for.
///
/// ```
/// use yarrowbleat::{reconstruct_with_origins, BallPivotingConfig};
///
/// // A square of four points: a seed, and a face over one of its edges.
/// let points = [[0.0, 0.0, 0.0], [1.0, 0.0, 0.0], [0.0, 1.0, 0.0], [1.0, 1.0, 0.0]];
/// let config = BallPivotingConfig::new(1.0);
/// let laid = reconstruct_with_origins(&points, &points, &config, false)?;
/// let turned = reconstruct_with_origins(&points, &points, &config, true)?;
/// assert_eq!(laid.patch.faces, [[0, 1, 2], [1, 2, 3]]);
/// assert_eq!(turned.patch.faces, [[0, 1, 2], [2, 1, 3]]);
/// assert_eq!([laid.origins[0].parent, laid.origins[1].parent], [0, 0]);
/// assert_eq!(laid.origins, turned.origins);
/// # Ok::<(), yarrowbleat::Error>(())
/// ```
pub fn reconstruct_with_origins(
    points: &[[f32; 3]],
    normals: &[[f32; 3]],
    config: &BallPivotingConfig,
    turned: bool,
) -> Result<TracedPatch, Error> {
    let (mut words, mut floats) = work(points.len());
    let mut faces = vec![[0; 3]; MAX_FACES];
    let mut origins = vec![[0; 2]; MAX_FACES];
    let r = sys::reconstruct_with_origins(
        points.as_flattened(),
        normals.as_flattened(),
        config.into(),
        turned,
        faces.as_flattened_mut(),
        origins.as_flattened_mut(),
        &mut words,
        &mut floats,
    );
    let patch = patch_of(points.len(), &r, faces)?;
    origins.truncate(patch.faces.len());
    let origins = origins.into_iter().map(|[parent, place]| Origin { parent, place }).collect();
    Ok(TracedPatch { patch, origins })
}

/// The patch that came back, whose faces stand in front.
fn patch_of(points: usize, r: &sys::Patch, faces: Vec<[u32; 3]>) -> Result<Patch, Error> {
    Error::check(r.answer, r.detail as usize)?;
    let mut patch = Patch { faces, ..Patch::default() };
    patch.take(points, r);
    patch.faces.shrink_to_fit();
    Ok(patch)
}

/// Lays a patch with the default settings but for the radius.
pub fn ball_pivoting_from_normals(points: &[[f32; 3]], normals: &[[f32; 3]], radius: f32) -> Result<Patch, Error> {
    reconstruct_with_normals(points, normals, &BallPivotingConfig::new(radius))
}

/// What a cloud file holds.
#[derive(Clone, Debug, PartialEq)]
#[non_exhaustive]
pub struct Cloud {
    /// The ball's radius, the file's first line.
    pub radius: f32,
    /// The points, in the order of their lines.
    pub points: Vec<[f32; 3]>,
    /// A normal for each point.
    pub normals: Vec<[f32; 3]>,
}

/// Reads a cloud file: a line with the radius, then a line `x,y,z,nx,ny,nz` for each point, each ended by LF.
/// A number is an optional minus, 1 to 5 digits, and optionally a point and 1 to 6 digits; it becomes the nearest f32, as
/// `str::parse` gives it. The room taken is at most twice the file's.
///
/// ```
/// let cloud = yarrowbleat::read_cloud(b"0.25\n0,0,0,0,0,1\n1.5,-2,0,0,0,1\n")?;
/// assert_eq!((cloud.radius, cloud.points), (0.25, vec![[0.0, 0.0, 0.0], [1.5, -2.0, 0.0]]));
/// assert_eq!(yarrowbleat::read_cloud(b"0.25\n0,0\n"), Err(yarrowbleat::Error::Line(2)));
/// # Ok::<(), yarrowbleat::Error>(())
/// ```
pub fn read_cloud(bytes: &[u8]) -> Result<Cloud, Error> {
    let most = lines(bytes, "0,0,0,0,0,0\n".len());
    let mut points = vec![[0.0; 3]; most];
    let mut normals = points.clone();
    let r = sys::read_cloud(bytes, points.as_flattened_mut(), normals.as_flattened_mut());
    Error::check(r.answer, r.detail)?;
    points.truncate(r.count);
    normals.truncate(r.count);
    Ok(Cloud { radius: r.radius, points, normals })
}

/// The most lines of at least this many bytes that a file can have.
fn lines(bytes: &[u8], least: usize) -> usize {
    bytes.iter().filter(|b| **b == b'\n').count().min(bytes.len() / least)
}

/// An order in which faces could have been laid.
#[derive(Clone, Debug, PartialEq, Eq)]
#[non_exhaustive]
pub struct FaceOrder {
    /// The faces' numbers, from 0 in the order in which they were given.
    pub order: Vec<u32>,
    /// How many of them share no edge with an earlier one.
    pub seeds: u32,
}

/// Reads faces of another program, lines `a,b,c` of point numbers from 0, one to five digits each and each line ended by
/// LF, and says in what order they could be a patch in shape: each seed has three points that no earlier face has, every
/// other face shares an edge with an earlier one and brings in exactly one new point, and no edge lies in more than two
/// faces. At each place stands the lowest face left that shares an edge with one placed, or where none does the lowest
/// left. [`Error::NoOrder`] where there is no such order.
///
/// ```
/// // The second face shares no edge with the first, the third has one of either: 0, 2, 1 is the order.
/// let order = yarrowbleat::order_patch(b"0,1,2\n2,3,4\n1,2,3\n", 5)?;
/// assert_eq!((order.order, order.seeds), (vec![0, 2, 1], 1));
/// assert_eq!(yarrowbleat::order_patch(b"0,1,2\n2,3,4\n", 5), Err(yarrowbleat::Error::NoOrder));
/// # Ok::<(), yarrowbleat::Error>(())
/// ```
pub fn order_patch(bytes: &[u8], points: usize) -> Result<FaceOrder, Error> {
    let (mut words, mut floats) = work(points);
    let mut order = vec![0; lines(bytes, "0,0,0\n".len())];
    let r = sys::order_patch(bytes, points, &mut order, &mut words, &mut floats);
    Error::check(r.answer, r.detail)?;
    order.truncate(r.faces);
    Ok(FaceOrder { order, seeds: r.seeds })
}

/// The same of faces that stand in memory.
///
/// ```
/// let order = yarrowbleat::order_faces(&[[0, 1, 2], [2, 3, 4], [1, 2, 3]], 5)?;
/// assert_eq!((order.order, order.seeds), (vec![0, 2, 1], 1));
/// assert_eq!(yarrowbleat::order_faces(&[[0, 1, 5]], 5), Err(yarrowbleat::Error::NoSuchPoint));
/// # Ok::<(), yarrowbleat::Error>(())
/// ```
pub fn order_faces(faces: &[[u32; 3]], points: usize) -> Result<FaceOrder, Error> {
    let (mut words, mut floats) = work(points);
    let mut order = vec![0; faces.len()];
    let r = sys::order_faces(faces.as_flattened(), points, &mut order, &mut words, &mut floats);
    Error::check(r.answer, r.detail)?;
    Ok(FaceOrder { order, seeds: r.seeds })
}
