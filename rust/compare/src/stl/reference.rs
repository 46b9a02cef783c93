//! Binary STL over byte vectors, written from the request with nothing taken from the port.

use yarrowbleat::sys::{StlRead, StlWritten};

const MOST_FACES: usize = 1_000_000;
const FARTHEST: f32 = 10_000.0;

type Vector = [f32; 3];

fn minus(a: Vector, b: Vector) -> Vector {
    [a[0] - b[0], a[1] - b[1], a[2] - b[2]]
}

/// `calculate_face_normals` of the published mesh.rs, but for the zero vector at length 0.
pub fn normal([p, q, r]: [Vector; 3]) -> Vector {
    let (e, f) = (minus(q, p), minus(r, p));
    let cross = [e[1] * f[2] - e[2] * f[1], e[2] * f[0] - e[0] * f[2], e[0] * f[1] - e[1] * f[0]];
    let length = (cross[0] * cross[0] + cross[1] * cross[1] + cross[2] * cross[2]).sqrt();
    if length == 0.0 {
        return [0.0; 3];
    }
    cross.map(|part| part / length)
}

/// The whole file.
pub fn file(facets: &[[Vector; 3]]) -> Vec<u8> {
    let mut file = vec![0; 80];
    file.extend((facets.len() as u32).to_le_bytes());
    for corners in facets {
        for vector in [normal(*corners), corners[0], corners[1], corners[2]] {
            vector.iter().for_each(|x| file.extend(x.to_le_bytes()));
        }
        file.extend([0, 0]);
    }
    file
}

/// The first refusal, or the facets' corners.
fn facets(points: &[f32], faces: &[u32], room: usize) -> Result<Vec<[Vector; 3]>, (u32, usize)> {
    if points.len() % 3 != 0 || faces.len() % 3 != 0 {
        return Err((2, 0));
    }
    if faces.len() / 3 > MOST_FACES {
        return Err((3, 0));
    }
    let points: Vec<Vector> = points.chunks(3).map(|p| [p[0], p[1], p[2]]).collect();
    // A not-a-number's size is no number that is within bounds.
    if let Some(at) = points.iter().position(|p| !p.iter().all(|x| x.abs() <= FARTHEST)) {
        return Err((4, at));
    }
    let corner = |n: &u32| points.get(*n as usize).copied();
    let corners: Option<Vec<Vector>> = faces.iter().map(corner).collect();
    let corners = corners.ok_or((14, 0))?;
    if room < 84 + 50 * faces.len() / 3 {
        return Err((13, 0));
    }
    Ok(corners.chunks(3).map(|c| [c[0], c[1], c[2]]).collect())
}

pub fn write_stl(points: &[f32], faces: &[u32], bytes: &mut [u8]) -> StlWritten {
    match facets(points, faces, bytes.len()) {
        Err((answer, detail)) => StlWritten { answer, detail, length: 0 },
        Ok(facets) => {
            let file = file(&facets);
            bytes[..file.len()].copy_from_slice(&file);
            StlWritten { answer: 0, detail: 0, length: file.len() }
        }
    }
}

/// The corners of a file's facets, if it is one.
pub fn corners(bytes: &[u8]) -> Option<Vec<f32>> {
    let (head, facets) = bytes.split_at_checked(84)?;
    let count = u32::from_le_bytes(head[80..].try_into().ok()?);
    if facets.len() as u128 != u128::from(count) * 50 {
        return None;
    }
    let number = |four: &[u8]| f32::from_bits(u32::from_le_bytes([four[0], four[1], four[2], four[3]]));
    Some(facets.chunks(50).flat_map(|facet| facet[12..48].chunks(4).map(number)).collect())
}

pub fn read_stl(bytes: &[u8], slice: &mut [f32]) -> StlRead {
    let refused = |answer| StlRead { answer, detail: 0, faces: 0 };
    let Some(corners) = corners(bytes) else { return refused(12) };
    match slice.get_mut(..corners.len()) {
        None => refused(13),
        Some(front) => {
            front.copy_from_slice(&corners);
            StlRead { answer: 0, detail: 0, faces: corners.len() / 9 }
        }
    }
}
