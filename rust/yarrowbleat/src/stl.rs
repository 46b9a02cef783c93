//! Patches as binary STL.

use crate::{sys, Error, Patch};

impl AsRef<[[u32; 3]]> for Patch {
    fn as_ref(&self) -> &[[u32; 3]] {
        &self.faces
    }
}

/// Writes the faces of a patch, or any faces, as binary STL, a facet a face in their order; `points` are the cloud's.
/// Any number of points is taken, and no faces are a file of 84 bytes. A facet's normal is the zero vector where its
/// cross product's length is computed as 0.
///
/// ```
/// # fn main() -> Result<(), yarrowbleat::Error> {
/// let points = [[0.0, 0.0, 0.0], [1.0, 0.0, 0.0], [0.0, 1.0, 0.0]];
/// let normals = [[0.0, 0.0, 1.0]; 3];
/// let patch = yarrowbleat::ball_pivoting_from_normals(&points, &normals, 1.0)?;
/// let bytes = yarrowbleat::write_stl(&patch, &points)?;
/// assert_eq!(bytes.len(), 134);
/// assert_eq!(yarrowbleat::read_stl(&bytes)?, [points]);
/// # Ok(())
/// # }
/// ```
pub fn write_stl(faces: impl AsRef<[[u32; 3]]>, points: &[[f32; 3]]) -> Result<Vec<u8>, Error> {
    let faces = faces.as_ref();
    // More than a million are refused before the slice is looked at.
    let mut bytes = vec![0; 84 + 50 * faces.len().min(1_000_000)];
    let r = sys::write_stl(points.as_flattened(), faces.as_flattened(), &mut bytes);
    Error::check(r.answer, r.detail)?;
    Ok(bytes)
}

/// Reads the corners of a binary STL file's facets, in order. Header, normals and the facets' last two bytes may be
/// anything; a corner's not-a-number stays one.
pub fn read_stl(bytes: &[u8]) -> Result<Vec<[[f32; 3]; 3]>, Error> {
    let mut facets = vec![[[0.0; 3]; 3]; bytes.len().saturating_sub(84) / 50];
    let r = sys::read_stl(bytes, facets.as_flattened_mut().as_flattened_mut());
    Error::check(r.answer, r.detail)?;
    Ok(facets)
}
