//! Faces as files have them: a listing, an STL or OBJ file, or lines a,b,c; which of them is told by the content.

use crate::failure::{Failure, MALFORMED};

/// The first line of a listing.
const LISTING: &str = "points,faces,seeds,looks,pivots";

/// What a file says of faces.
pub enum FacesFile {
    /// A listing: the five counts, and the faces.
    Listing([u32; 5], Vec<[u32; 3]>),
    /// Faces by their points' numbers from 0, and what they came from.
    Numbers(&'static str, Vec<[u32; 3]>),
    /// Facets by their corners, and the whole file.
    Corners(Vec<[[f32; 3]; 3]>),
}

fn malformed(line: usize, why: &str) -> Failure {
    Failure::refused(MALFORMED, format!("line {line}: {why}"))
}

fn numbers<const N: usize>(text: &str) -> Option<[u32; N]> {
    let numbers: Vec<u32> = text.split(',').map(|word| word.trim().parse().ok()).collect::<Option<_>>()?;
    numbers.try_into().ok()
}

/// Reads what the bytes hold.
pub fn read(bytes: &[u8]) -> Result<FacesFile, Failure> {
    if let Ok(facets) = yarrowbleat::read_stl(bytes) {
        return Ok(FacesFile::Corners(facets));
    }
    let unknown = "the file is no listing, no binary STL file, no OBJ file and no lines a,b,c";
    let text = std::str::from_utf8(bytes).map_err(|_| Failure::refused(MALFORMED, unknown))?;
    let first = text.lines().next().unwrap_or_default();
    if first == LISTING {
        return listing(text);
    }
    if text.lines().any(|line| line.starts_with("v ") || line.starts_with("f ")) {
        return obj(text);
    }
    if numbers::<3>(first).is_none() {
        return Err(Failure::refused(MALFORMED, unknown));
    }
    lines(text)
}

fn listing(text: &str) -> Result<FacesFile, Failure> {
    let mut lines = (1..).zip(text.lines()).skip(1);
    let counts = lines.next().and_then(|(_, line)| numbers::<5>(line));
    let counts = counts.ok_or_else(|| malformed(2, "the five counts are wanted"))?;
    let header = lines.next().map(|(_, line)| line);
    if header != Some("face,a,b,c") {
        return Err(malformed(3, "`face,a,b,c` is wanted"));
    }
    let mut faces = Vec::new();
    for (number, line) in lines {
        let [face, a, b, c] = numbers(line).ok_or_else(|| malformed(number, "it is no face,a,b,c"))?;
        if face as usize != faces.len() {
            return Err(malformed(number, &format!("it is numbered {face}, and {} is its place", faces.len())));
        }
        faces.push([a, b, c]);
    }
    Ok(FacesFile::Listing(counts, faces))
}

fn lines(text: &str) -> Result<FacesFile, Failure> {
    let mut faces = Vec::new();
    for (number, line) in (1..).zip(text.lines()) {
        faces.push(numbers(line).ok_or_else(|| malformed(number, "it is no a,b,c"))?);
    }
    Ok(FacesFile::Numbers("lines a,b,c", faces))
}

/// The faces of an OBJ file, whose numbers begin at 1; `1//1` and `1/2/3` name the point first.
fn obj(text: &str) -> Result<FacesFile, Failure> {
    let point = |word: &str| word.split('/').next()?.parse::<u32>().ok()?.checked_sub(1);
    let mut faces = Vec::new();
    for (number, line) in (1..).zip(text.lines()) {
        let mut words = line.split_ascii_whitespace();
        if words.next() != Some("f") {
            continue;
        }
        let corners: Option<Vec<u32>> = words.map(point).collect();
        let face = corners.and_then(|corners| corners.try_into().ok());
        faces.push(face.ok_or_else(|| malformed(number, "it is no face of three points from 1"))?);
    }
    Ok(FacesFile::Numbers("an OBJ file", faces))
}
