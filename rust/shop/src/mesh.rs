//! Faces for viewers: binary STL by the library, PLY and OBJ with the points' own f32 values.

use crate::failure::Failure;
use crate::figures::cross;
use crate::laid::Laid;
use crate::words::Format;
use std::fmt::Write as _;

/// The faces, the first two corners swapped where a face looks against the mean of its points' normals.
pub fn by_normals(laid: &Laid) -> Vec<[u32; 3]> {
    let turn = |face: &[u32; 3]| {
        let normal = cross(&laid.scan.points, *face);
        let mean: [f64; 3] =
            [0, 1, 2].map(|i| face.iter().map(|point| f64::from(laid.scan.normals[*point as usize][i])).sum());
        let along: f64 = (0..3).map(|i| normal[i] * mean[i]).sum();
        let [a, b, c] = *face;
        if along < 0.0 {
            [b, a, c]
        } else {
            [a, b, c]
        }
    };
    laid.faces.iter().map(turn).collect()
}

/// A file of this kind with these faces.
pub fn write(laid: &Laid, faces: &[[u32; 3]], format: Format) -> Result<Vec<u8>, Failure> {
    match format {
        Format::Stl => yarrowbleat::write_stl(faces, &laid.scan.points).map_err(|error| Failure::of(error, "")),
        Format::Ply => Ok(ply(laid, faces)),
        Format::Obj => Ok(obj(laid, faces).into_bytes()),
    }
}

/// A vertex for each point, reached or not, so that numbers stay.
fn ply(laid: &Laid, faces: &[[u32; 3]]) -> Vec<u8> {
    let numbers: String = ["x", "y", "z", "nx", "ny", "nz"].map(|name| format!("property float {name}\n")).concat();
    let header = format!(
        "ply\nformat binary_little_endian 1.0\nelement vertex {}\n{numbers}element face {}\n\
         property list uchar int vertex_indices\nend_header\n",
        laid.scan.points.len(),
        faces.len()
    );
    let mut bytes = header.into_bytes();
    for (point, normal) in laid.scan.points.iter().zip(&laid.scan.normals) {
        bytes.extend(point.iter().chain(normal).flat_map(|x| x.to_le_bytes()));
    }
    for face in faces {
        bytes.push(3);
        bytes.extend(face.iter().flat_map(|point| point.to_le_bytes()));
    }
    bytes
}

/// Numbers from 1, as the format has them; a float's shortest text is read back as the same float.
fn obj(laid: &Laid, faces: &[[u32; 3]]) -> String {
    let mut text = String::new();
    for [x, y, z] in &laid.scan.points {
        writeln!(text, "v {x} {y} {z}").expect("to a string");
    }
    for [x, y, z] in &laid.scan.normals {
        writeln!(text, "vn {x} {y} {z}").expect("to a string");
    }
    for [a, b, c] in faces.iter().map(|face| face.map(|point| point + 1)) {
        writeln!(text, "f {a}//{a} {b}//{b} {c}//{c}").expect("to a string");
    }
    text
}
