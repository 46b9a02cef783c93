//! Files for other programs to read, written by the library, each with the corners that they have to find in it.

use std::error::Error;
use std::path::Path;
use yarrowbleat::{ball_pivoting_from_normals, read_cloud, write_stl, Cloud};

/// The corners of the faces, a line for each facet, as bits.
fn corners(cloud: &Cloud, faces: &[[u32; 3]]) -> String {
    let line = |face: &[u32; 3]| {
        let bits = face.iter().flat_map(|point| cloud.points[*point as usize]);
        bits.map(|x| format!("{:08x}", x.to_bits())).collect::<Vec<_>>().join(" ") + "\n"
    };
    faces.iter().map(line).collect()
}

/// A bell wall and one face, of the clouds in `data`, and no faces; NAME.stl and NAME.corners in `folder`.
pub fn write(data: &Path, folder: &Path) -> Result<(), Box<dyn Error>> {
    for (name, file, faces) in [("bell", "bell.csv", true), ("one", "three.csv", true), ("none", "three.csv", false)] {
        let cloud = read_cloud(&std::fs::read(data.join(file))?)?;
        let mut patch = ball_pivoting_from_normals(&cloud.points, &cloud.normals, cloud.radius)?;
        patch.faces.retain(|_| faces);
        std::fs::write(folder.join(name).with_extension("stl"), write_stl(&patch, &cloud.points)?)?;
        std::fs::write(folder.join(name).with_extension("corners"), corners(&cloud, &patch.faces))?;
    }
    Ok(())
}
