//! The nearest scanned point: an index beside a cloud's points, by which it is found at once.

use crate::{sys, work, Error, MAX_POINTS};

/// A cloud's index: a tree of boxes over its points, as plain numbers that may be kept elsewhere.
///
/// An index that was built here keeps the points that it was built of. Where the same points are lent to
/// [`Index::nearest_point`] it belongs to them, and nothing has to be checked.
///
/// ```
/// use yarrowbleat::index::Index;
///
/// let points = [[0.0, 0.0, 0.0], [1.0, 0.0, 0.0], [0.0, 3.0, 4.0]];
/// let index = Index::build(&points)?;
/// let nearest = index.nearest_point(&points, &[0.0, 3.0, 3.5])?;
/// assert_eq!((nearest.point, nearest.distance), (2, 0.5));
/// // Two points are equally near the first spot: the lower number is named.
/// assert_eq!(index.nearest_points(&points, &[[0.5, 0.0, 0.0], [2.0, 0.0, 0.0]])?, [0, 1]);
/// // Kept elsewhere, and taken up again.
/// let kept: Vec<u32> = index.into_numbers();
/// assert!(Index::from(kept).belongs(&points)?);
/// # Ok::<(), yarrowbleat::Error>(())
/// ```
#[derive(Clone, Debug)]
pub struct Index {
    numbers: Vec<u32>,
    /// The points that the numbers were built of; none where they came from elsewhere.
    own: Vec<[f32; 3]>,
}

/// Indices are equal if their numbers are.
impl PartialEq for Index {
    fn eq(&self, other: &Self) -> bool {
        self.numbers == other.numbers
    }
}

impl Eq for Index {}

impl From<Vec<u32>> for Index {
    fn from(numbers: Vec<u32>) -> Self {
        Self { numbers, own: Vec::new() }
    }
}

impl AsRef<[u32]> for Index {
    fn as_ref(&self) -> &[u32] {
        &self.numbers
    }
}

/// The nearest point to a spot.
#[derive(Clone, Copy, Debug, PartialEq)]
#[non_exhaustive]
pub struct Nearest {
    /// Its number, the lowest among equally near ones.
    pub point: u32,
    /// Its distance, as [`crate::distance`] gives it.
    pub distance: f32,
}

impl Index {
    /// The index of these points.
    pub fn build(points: &[[f32; 3]]) -> Result<Self, Error> {
        let (mut words, mut floats) = work(points.len());
        let mut numbers = vec![0; 8 * points.len().min(MAX_POINTS) + 64];
        let r = sys::build_index(points.as_flattened(), &mut numbers, &mut words, &mut floats);
        Error::check(r.answer, r.detail as usize)?;
        Ok(Self { numbers, own: points.to_vec() })
    }

    /// An index whose numbers were kept elsewhere. One that isn't the cloud's is refused where it is used.
    pub fn from_numbers(numbers: Vec<u32>) -> Self {
        numbers.into()
    }

    /// The numbers, to be kept elsewhere: 8n + 64 for n points.
    pub fn numbers(&self) -> &[u32] {
        &self.numbers
    }

    /// The numbers themselves.
    pub fn into_numbers(self) -> Vec<u32> {
        self.numbers
    }

    /// Whether this is the points' index: building it afresh gives the same numbers.
    pub fn belongs(&self, points: &[[f32; 3]]) -> Result<bool, Error> {
        let (mut words, mut floats) = work(points.len());
        let r = sys::index_belongs(points.as_flattened(), &self.numbers, &mut words, &mut floats);
        check(r.answer, r.detail as usize, points)?;
        Ok(r.belongs)
    }

    /// The point nearest to a spot: the least computed length, the lowest number among equals.
    ///
    /// Over the points that this index was built of it is a scan, which answers as the library does and takes less time
    /// than its check of the index. Over any others the library checks and searches. For many spots take
    /// [`Index::nearest_points`].
    pub fn nearest_point(&self, points: &[[f32; 3]], spot: &[f32; 3]) -> Result<Nearest, Error> {
        // A spot outside the domain is left to the library, which says so.
        if spot.iter().all(|x| x.abs() <= FARTHEST) && same_bits(&self.own, points) && !points.is_empty() {
            return Ok(scanned(points, spot));
        }
        let (mut words, mut floats) = work(points.len());
        let r = sys::nearest_point(points.as_flattened(), spot, &self.numbers, &mut words, &mut floats);
        check(r.answer, r.detail as usize, points)?;
        Ok(Nearest { point: r.point, distance: r.distance })
    }

    /// The number of the nearest point for each of many spots; the index is looked at once.
    pub fn nearest_points(&self, points: &[[f32; 3]], spots: &[[f32; 3]]) -> Result<Vec<u32>, Error> {
        let (mut words, mut floats) = work(points.len());
        let mut found = vec![0; spots.len()];
        let (cloud, spots) = (points.as_flattened(), spots.as_flattened());
        let r = sys::nearest_points(cloud, spots, &self.numbers, &mut found, &mut words, &mut floats);
        check(r.answer, r.detail, points)?;
        Ok(found)
    }

    /// The same with the distances, at each spot as [`Index::nearest_point`] tells it.
    pub fn nearest_distances(&self, points: &[[f32; 3]], spots: &[[f32; 3]]) -> Result<Vec<Nearest>, Error> {
        let (mut words, mut floats) = work(points.len());
        let (mut found, mut distances) = (vec![0; spots.len()], vec![0.0; spots.len()]);
        let (cloud, spots) = (points.as_flattened(), spots.as_flattened());
        let index = &self.numbers;
        let r = sys::nearest_distances(cloud, spots, index, &mut found, &mut distances, &mut words, &mut floats);
        check(r.answer, r.detail, points)?;
        Ok(found.into_iter().zip(distances).map(|(point, distance)| Nearest { point, distance }).collect())
    }
}

/// How far a coordinate may be from 0.
const FARTHEST: f32 = 10_000.0;

/// The error of an answer about an index of these points. It names the spot or the index where these are meant: a bad
/// spot's detail is the number of points and its own, and the work that is lent here is never too short.
fn check(answer: u32, detail: usize, points: &[[f32; 3]]) -> Result<(), Error> {
    Error::check(answer, detail).map_err(|error| match error {
        Error::Point(at) if at >= points.len() => Error::Spot(at - points.len()),
        Error::Work => Error::ShortIndex,
        other => other,
    })
}

/// Whether two lists of points are the same, zeros with their signs.
fn same_bits(p: &[[f32; 3]], q: &[[f32; 3]]) -> bool {
    let (p, q) = (p.as_flattened(), q.as_flattened());
    p.len() == q.len() && p.iter().zip(q).fold(0, |all, (x, y)| all | (x.to_bits() ^ y.to_bits())) == 0
}

/// How many squares are worked out before they are looked at.
const BLOCK: usize = 16;

/// The first point with the least length. Roots keep the order of the squares: only a lesser square can have a lesser
/// root, and two squares may have the same one. Most blocks have none, and are passed over without a branch a point.
fn scanned(points: &[[f32; 3]], spot: &[f32; 3]) -> Nearest {
    let (mut nearest, mut least) = (Nearest { point: 0, distance: f32::INFINITY }, f32::INFINITY);
    for (first, block) in (0..).step_by(BLOCK).zip(points.chunks(BLOCK)) {
        let mut squares = [f32::INFINITY; BLOCK];
        for (square, p) in squares.iter_mut().zip(block) {
            let [x, y, z] = [p[0] - spot[0], p[1] - spot[1], p[2] - spot[2]];
            *square = (x * x + y * y) + z * z;
        }
        if squares.iter().fold(false, |any, square| any | (*square < least)) {
            (nearest, least) = nearer(nearest, least, first, &squares);
        }
    }
    nearest
}

/// The nearest and its square after a block of points from this number on.
fn nearer(mut nearest: Nearest, mut least: f32, first: u32, squares: &[f32]) -> (Nearest, f32) {
    for (point, square) in (first..).zip(squares) {
        if *square < least && square.sqrt() < nearest.distance {
            (nearest, least) = (Nearest { point, distance: square.sqrt() }, *square);
        }
    }
    (nearest, least)
}

#[cfg(test)]
mod tests {
    use super::*;

    #[test]
    fn nearest_of_a_lattice() {
        let points: Vec<[f32; 3]> = (0..1000).map(|i| [i % 10, i / 10 % 10, i / 100].map(|k| k as f32)).collect();
        let index = Index::build(&points).unwrap();
        assert_eq!(index.belongs(&points), Ok(true));
        assert_eq!(index.nearest_point(&points, &[3.1, 4.0, 5.2]).unwrap().point, 543);
        // Eight points are equally near: the lowest number is named.
        assert_eq!(index.nearest_points(&points, &[[0.5, 0.5, 0.5], [8.5, 9.0, 9.0]]), Ok(vec![0, 998]));
        assert_eq!(index.nearest_points(&points, &[[0.0; 3], [f32::NAN; 3]]), Err(Error::Spot(1)));
        let mut numbers = index.numbers().to_vec();
        numbers[8000] ^= 1;
        let damaged = Index::from_numbers(numbers);
        assert_eq!(damaged.belongs(&points), Ok(false));
        assert_eq!(damaged.nearest_points(&points, &[]), Err(Error::ForeignIndex));
        assert_eq!(Index::from_numbers(Vec::new()).belongs(&points), Err(Error::ShortIndex));
        assert_eq!(Index::build(&[]), Err(Error::NoPoints));
    }
}
