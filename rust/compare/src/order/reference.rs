//! Whether faces could be a patch in shape, and the order given along: from the request's text, with std alone. Up to
//! seven faces every order is tried.

use std::collections::{BTreeSet, HashMap, HashSet};

/// What the call answers; the counts are 0 at a refusal.
#[derive(Clone, Copy, Debug, PartialEq, Eq)]
pub struct Ordered {
    pub answer: u32,
    pub detail: usize,
    pub faces: usize,
    pub seeds: u32,
}

pub type Face = [u32; 3];

/// So many faces are still tried in every order.
pub const TRIED: usize = 7;

/// The faces of a file of lines, or the first malformed line, from 1.
pub fn read(bytes: &[u8]) -> Result<Vec<Face>, usize> {
    let lines = bytes.split_inclusive(|byte| *byte == b'\n');
    lines.zip(1..).map(|(line, number)| face(line).ok_or(number)).collect()
}

fn face(line: &[u8]) -> Option<Face> {
    let fields: Vec<&[u8]> = line.strip_suffix(b"\n")?.split(|byte| *byte == b',').collect();
    let numbers: Option<Vec<u32>> = fields.into_iter().map(number).collect();
    numbers?.try_into().ok()
}

fn number(field: &[u8]) -> Option<u32> {
    let digits = (1..=5).contains(&field.len()) && field.iter().all(u8::is_ascii_digit);
    if digits {
        std::str::from_utf8(field).ok()?.parse().ok()
    } else {
        None
    }
}

/// A face's edges, each as its lower and its higher point.
fn edges([a, b, c]: Face) -> [(u32, u32); 3] {
    [(a, b), (b, c), (c, a)].map(|(p, q)| (p.min(q), p.max(q)))
}

/// How many of the face's points are new.
fn new_points(face: Face, seen: &HashSet<u32>) -> usize {
    face.iter().filter(|point| !seen.contains(point)).count()
}

/// The faces that lie at each edge.
fn by_edge(faces: &[Face]) -> HashMap<(u32, u32), Vec<usize>> {
    let mut found: HashMap<_, Vec<usize>> = HashMap::new();
    for (number, face) in faces.iter().enumerate() {
        for edge in edges(*face) {
            found.entry(edge).or_default().push(number);
        }
    }
    found
}

/// Whether the face may come next: a seed with three new points, or one on an edge of an earlier face with one.
fn may_follow(face: Face, points: &HashSet<u32>, placed: &HashSet<(u32, u32)>) -> bool {
    let joined = edges(face).iter().any(|edge| placed.contains(edge));
    match new_points(face, points) {
        3 => true,
        1 => joined,
        _ => false,
    }
}

/// Whether the faces left can follow those placed in some order. Every order is tried up to its first misfit.
fn some_order(faces: &[Face], left: &mut Vec<usize>, placed: &mut Vec<usize>) -> bool {
    if left.is_empty() {
        return true;
    }
    let points = placed.iter().flat_map(|f| faces[*f]).collect();
    let at = placed.iter().flat_map(|f| edges(faces[*f])).collect();
    for place in 0..left.len() {
        let next = left[place];
        if !may_follow(faces[next], &points, &at) {
            continue;
        }
        left.remove(place);
        placed.push(next);
        let found = some_order(faces, left, placed);
        placed.pop();
        left.insert(place, next);
        if found {
            return true;
        }
    }
    false
}

/// At each place the lowest face left on an edge of one placed, or where none is the lowest left; how many places had
/// none; and whether every face may follow those before it.
pub fn greedy(faces: &[Face]) -> (Vec<u32>, u32, bool) {
    let at_edge = by_edge(faces);
    let mut left: BTreeSet<usize> = (0..faces.len()).collect();
    let mut offered = BTreeSet::new();
    let (mut points, mut placed) = (HashSet::new(), HashSet::new());
    let (mut order, mut seeds, mut valid) = (Vec::new(), 0, true);
    while let Some(lowest) = left.first() {
        let next = *offered.first().unwrap_or_else(|| {
            seeds += 1;
            lowest
        });
        valid &= may_follow(faces[next], &points, &placed);
        left.remove(&next);
        points.extend(faces[next]);
        placed.extend(edges(faces[next]));
        let near = edges(faces[next]).into_iter().flat_map(|edge| &at_edge[&edge]);
        offered.extend(near.filter(|face| left.contains(face)));
        offered.remove(&next);
        order.push(next as u32);
    }
    (order, seeds, valid)
}

/// Whether some order is valid.
pub fn orderable(faces: &[Face]) -> bool {
    if by_edge(faces).values().any(|at| at.len() > 2) {
        return false;
    }
    if faces.len() <= TRIED {
        return some_order(faces, &mut (0..faces.len()).collect(), &mut Vec::new());
    }
    greedy(faces).2
}

/// The refusal's number and detail, or the faces.
fn judged(
    read: Result<Vec<Face>, (u32, usize)>,
    points: usize,
    room: usize,
    words: usize,
    floats: usize,
) -> Result<Vec<Face>, (u32, usize)> {
    let faces = read?;
    let refuse = |here: bool, answer: u32| if here { Err((answer, 0)) } else { Ok(()) };
    refuse(points > 4_096, 3)?;
    refuse(faces.iter().flatten().any(|point| *point as usize >= points), 14)?;
    refuse(faces.iter().any(|[a, b, c]| a == b || b == c || c == a), 17)?;
    refuse(words < 24 * points + 64 || floats < 4 * points + 64, 7)?;
    refuse(room < faces.len(), 13)?;
    refuse(!orderable(&faces), 23)?;
    Ok(faces)
}

/// The whole call over lines.
pub fn order_patch(bytes: &[u8], points: usize, order: &mut [u32], words: &mut [u32], floats: &mut [f32]) -> Ordered {
    ordered(read(bytes).map_err(|line| (10, line)), points, order, words, floats)
}

/// The whole call over numbers.
pub fn order_faces(
    numbers: &[u32],
    points: usize,
    order: &mut [u32],
    words: &mut [u32],
    floats: &mut [f32],
) -> Ordered {
    let faces = numbers.chunks_exact(3).map(|face| [face[0], face[1], face[2]]).collect();
    ordered(if numbers.len() % 3 == 0 { Ok(faces) } else { Err((2, 0)) }, points, order, words, floats)
}

fn ordered(
    read: Result<Vec<Face>, (u32, usize)>,
    points: usize,
    order: &mut [u32],
    words: &mut [u32],
    floats: &mut [f32],
) -> Ordered {
    let found = judged(read, points, order.len(), words.len(), floats.len());
    if !matches!(found, Err((10 | 2 | 3 | 14 | 17 | 7, _))) {
        words.fill(0);
        floats.fill(0.0);
    }
    match found {
        Err((answer, detail)) => Ordered { answer, detail, faces: 0, seeds: 0 },
        Ok(faces) => {
            let (given, seeds, valid) = greedy(&faces);
            assert!(valid, "the greedy order is not valid, though some order is: {faces:?}");
            order[..faces.len()].copy_from_slice(&given);
            Ordered { answer: 0, detail: 0, faces: faces.len(), seeds }
        }
    }
}

#[cfg(test)]
mod tests {
    use super::*;

    fn told(faces: &[Face]) -> Option<(Vec<u32>, u32)> {
        orderable(faces).then(|| greedy(faces)).map(|(order, seeds, _)| (order, seeds))
    }

    #[test]
    fn orders() {
        assert_eq!(told(&[]), Some((vec![], 0)));
        assert_eq!(told(&[[0, 1, 2]]), Some((vec![0], 1)));
        assert_eq!(told(&[[3, 4, 5], [0, 1, 2]]), Some((vec![0, 1], 2)));
        // the second lies on no edge of the first, the third does
        assert_eq!(told(&[[0, 1, 2], [2, 3, 4], [2, 1, 3]]), Some((vec![0, 2, 1], 1)));
        // the same face twice, two that share a point, an edge in three faces, a closed fan
        assert_eq!(told(&[[0, 1, 2], [1, 2, 0]]), None);
        assert_eq!(told(&[[0, 1, 2], [2, 3, 4]]), None);
        assert_eq!(told(&[[0, 1, 2], [0, 1, 3], [0, 1, 4]]), None);
        assert_eq!(told(&[[0, 1, 2], [0, 2, 3], [0, 3, 1]]), None);
    }

    #[test]
    fn lines() {
        assert_eq!(read(b""), Ok(vec![]));
        assert_eq!(read(b"0,1,2\n00003,40000,99999\n"), Ok(vec![[0, 1, 2], [3, 40_000, 99_999]]));
        let wrong =
            ["\n", "0,1,2", "0,1,2\n\n", "0,1,2\r\n", "0, 1,2\n", "-1,2,3\n", "+1,2,3\n", "0,1,123456\n", "0,1\n"];
        assert_eq!(wrong.map(|text| read(text.as_bytes()).unwrap_err()), [1, 1, 2, 1, 1, 1, 1, 1, 1]);
    }
}
