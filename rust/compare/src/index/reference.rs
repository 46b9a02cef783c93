//! The index and the nearest point as the request has them: a build on lists, part by part, and a scan. Nothing is taken
//! from the port.

/// The most points of a leaf.
const LEAF: usize = 8;

/// The most points of a cloud, and the largest size of a coordinate.
const MOST: usize = 4_096;
const FARTHEST: f32 = 10_000.0;

/// The answers that the calls know.
pub const FOREIGN: u32 = 22;
pub const SHORT: u32 = 13;

type Point = [f32; 3];

/// The point with this number.
pub fn point(points: &[f32], number: usize) -> Point {
    [points[3 * number], points[3 * number + 1], points[3 * number + 2]]
}

/// The words of an index of n points.
pub fn size(n: usize) -> usize {
    8 * n + 64
}

/// The work slices' lengths for n points.
pub fn room(n: usize) -> (usize, usize) {
    (24 * n + 64, 4 * n + 64)
}

/// The least box of a list of points: least coordinates, then greatest, minus zero as zero.
fn box_of(points: &[f32], list: &[u32]) -> [f32; 6] {
    let mut sides =
        [f32::INFINITY, f32::INFINITY, f32::INFINITY, f32::NEG_INFINITY, f32::NEG_INFINITY, f32::NEG_INFINITY];
    for number in list {
        for (axis, x) in point(points, *number as usize).into_iter().enumerate() {
            sides[axis] = if x < sides[axis] { x } else { sides[axis] };
            sides[axis + 3] = if x > sides[axis + 3] { x } else { sides[axis + 3] };
        }
    }
    sides.map(|x| if x == 0.0 { 0.0 } else { x })
}

/// Splits a part: its box, then its first half's parts, then its second's.
fn part(points: &[f32], mut list: Vec<u32>, order: &mut Vec<u32>, boxes: &mut Vec<[f32; 6]>) {
    let sides = box_of(points, &list);
    boxes.push(sides);
    if list.len() <= LEAF {
        order.extend(list);
        return;
    }
    let mut longest = 0;
    for axis in 1..3 {
        if sides[axis + 3] - sides[axis] > sides[longest + 3] - sides[longest] {
            longest = axis;
        }
    }
    let along = |number: &u32| points[3 * *number as usize + longest];
    list.sort_by(|a, b| along(a).partial_cmp(&along(b)).expect("numbers").then(a.cmp(b)));
    let later = list.split_off(list.len() / 2);
    part(points, list, order, boxes);
    part(points, later, order, boxes);
}

/// The index of a cloud inside the domain.
pub fn build(points: &[f32]) -> Vec<u32> {
    let n = points.len() / 3;
    let (mut index, mut boxes) = (Vec::new(), Vec::new());
    part(points, (0..n as u32).collect(), &mut index, &mut boxes);
    index.extend(boxes.iter().flatten().map(|x| x.to_bits()));
    assert!(index.len() <= size(n) && (n <= LEAF || index.len() <= 4 * n - 6), "the sizes that the scope names");
    index.resize(size(n), 0);
    index
}

/// The length as the reconstruction computes it.
fn length(p: Point, q: Point) -> f32 {
    let [x, y, z] = [p[0] - q[0], p[1] - q[1], p[2] - q[2]];
    ((x * x + y * y) + z * z).sqrt()
}

/// The nearest point to a spot by a scan in number order: the first with the least length.
pub fn scan(points: &[f32], spot: Point) -> (u32, f32) {
    let mut best = (0, length(point(points, 0), spot));
    for number in 1..points.len() / 3 {
        let distance = length(point(points, number), spot);
        if distance < best.1 {
            best = (number as u32, distance);
        }
    }
    best
}

fn outside(values: &[f32]) -> Option<usize> {
    values.chunks(3).position(|p| !p.iter().all(|x| (-FARTHEST..=FARTHEST).contains(x)))
}

/// What is lent, by its lengths.
#[derive(Clone, Copy, Debug)]
pub struct Lent {
    pub index: usize,
    pub words: usize,
    pub floats: usize,
}

/// The refusals up to 7, with their detail; a call without spots has none.
pub fn refused(points: &[f32], spots: &[f32], lent: Lent) -> Option<(u32, usize)> {
    let n = points.len() / 3;
    let (words, floats) = room(n);
    if points.is_empty() {
        return Some((1, 0));
    }
    if points.len() % 3 != 0 || spots.len() % 3 != 0 {
        return Some((2, 0));
    }
    if n > MOST {
        return Some((3, 0));
    }
    if let Some(bad) = outside(points) {
        return Some((4, bad));
    }
    if let Some(bad) = outside(spots) {
        return Some((4, n + bad));
    }
    (lent.words < words || lent.floats < floats || lent.index < size(n)).then_some((7, 0))
}
