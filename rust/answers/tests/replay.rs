//! The port gives the stored answers too, every word of its lent slices included. The list's head says what its lines mean.

use yarrowbleat::sys::{self, BallPivotingConfig, Patch, TriangleQuality};

/// Words of a line, taken from its front.
struct Words<'a>(&'a [u32]);

impl Words<'_> {
    fn take<const N: usize>(&mut self) -> [u32; N] {
        let (front, rest) = self.0.split_at(N);
        self.0 = rest;
        front.try_into().expect("so many words")
    }

    fn one(&mut self) -> u32 {
        self.take::<1>()[0]
    }

    fn float(&mut self) -> f32 {
        f32::from_bits(self.one())
    }

    fn floats<const N: usize>(&mut self) -> [f32; N] {
        self.take::<N>().map(f32::from_bits)
    }

    fn list(&mut self, length: usize) -> Vec<u32> {
        (0..length).map(|_| self.one()).collect()
    }

    fn points(&mut self) -> Vec<f32> {
        let length = self.one() as usize;
        self.list(length).into_iter().map(f32::from_bits).collect()
    }

    fn settings(&mut self) -> BallPivotingConfig {
        BallPivotingConfig {
            radius: self.float(),
            additional_radii: self.floats(),
            additional_count: self.one(),
            adaptive_radius: self.one() == 1,
            adaptive_percentiles: self.floats(),
            percentile_count: self.one(),
            quality_threshold: self.float(),
            max_edge_factor: self.float(),
            min_triangle_area: self.float(),
            use_spatial_index: self.one() == 1,
            spatial_cell_factor: self.float(),
            frontier_rule: self.one(),
        }
    }
}

/// One pattern stands for all not-a-numbers.
fn bits(x: f32) -> u32 {
    if x.is_nan() {
        0x7fc0_0000
    } else {
        x.to_bits()
    }
}

fn measures(q: &TriangleQuality) -> Vec<u32> {
    [q.aspect_ratio, q.min_angle, q.max_angle, q.area, q.edge_ratio, q.quality_score].map(bits).to_vec()
}

/// What a lent slice holds before a call.
fn marked(length: usize) -> Vec<u32> {
    (0..length as u32).map(|i| 2_768_240_640 + i).collect()
}

/// Whether the work slices are as the answer leaves them: zeros once the checks have passed, else as they were.
fn work_is_left(answer: u32, words: &[u32], floats: &[f32]) -> bool {
    let swept = !(1..=7).contains(&answer);
    let left = |length| if swept { vec![0; length] } else { marked(length) };
    let floats: Vec<u32> = floats.iter().map(|x| x.to_bits()).collect();
    words == left(words.len()) && floats == left(floats.len())
}

fn work(words: usize, floats: usize) -> (Vec<u32>, Vec<f32>) {
    (marked(words), marked(floats).into_iter().map(f32::from_bits).collect())
}

fn estimate(given: &mut Words) -> Vec<u32> {
    let points = given.points();
    let percentile = given.float();
    let (mut words, mut floats) = work(given.one() as usize, given.one() as usize);
    let r = sys::estimate_optimal_radius(&points, percentile, &mut words, &mut floats);
    assert!(work_is_left(r.answer, &words, &floats), "the estimate's work slices");
    vec![r.answer, r.detail, bits(r.radius)]
}

/// The face slice past what comes back: as it was, or zeros at 9.
fn rest_is_left(r: &Patch, faces: &[u32]) -> bool {
    let from = 3 * r.faces as usize;
    let left = if r.answer == 9 { vec![0; faces.len()] } else { marked(faces.len()) };
    faces[from..] == left[from..]
}

fn reconstruct(given: &mut Words) -> Vec<u32> {
    let points = given.points();
    let normals = vec![1.0; given.one() as usize];
    let settings = given.settings();
    let mut faces = marked(given.one() as usize);
    let (mut words, mut floats) = work(given.one() as usize, given.one() as usize);
    let r = sys::reconstruct_with_normals(&points, &normals, settings, &mut faces, &mut words, &mut floats);
    assert!(work_is_left(r.answer, &words, &floats) && rest_is_left(&r, &faces), "the reconstruction's lent slices");
    let (count, length) = (r.radii_count as usize, 3 * r.faces as usize);
    assert!(r.radii[count..].iter().all(|x| x.to_bits() == 0), "radii past the count");
    let mut told = vec![r.answer, r.detail, r.faces, r.seeds, r.looks, r.pivots, r.radii_count];
    told.extend(r.radii[..count].iter().map(|x| bits(*x)));
    told.extend(&faces[..length]);
    told
}

fn acceptable(given: &mut Words) -> bool {
    let [aspect_ratio, min_angle, max_angle, area, edge_ratio, quality_score] = given.floats();
    let quality = TriangleQuality { aspect_ratio, min_angle, max_angle, area, edge_ratio, quality_score };
    let [radius, least, threshold, factor] = given.floats();
    sys::is_triangle_acceptable(quality, radius, least, threshold, factor)
}

/// What the port answers to a line of this kind, and what is stored.
fn answers(kind: u32, given: &mut Words) -> Vec<u32> {
    match kind {
        1 => vec![bits(sys::sqrt(given.float()))],
        2 => vec![bits(sys::acos(given.float()))],
        3 => vec![sys::cut(given.float())],
        4 => vec![sys::ceil_cut(given.float())],
        5 => measures(&sys::compute_triangle_quality(&given.floats())),
        6 => vec![u32::from(acceptable(given))],
        7 => estimate(given),
        8 => reconstruct(given),
        9 => vec![bits(sys::compute_circumradius(&given.floats()))],
        other => panic!("no line has kind {other}"),
    }
}

#[test]
fn the_port_gives_the_stored_answers() {
    let path = concat!(env!("CARGO_MANIFEST_DIR"), "/../../tests/stored-answers.txt");
    let stored = std::fs::read_to_string(path).expect("the stored list");
    let mut of_kind = [0; 10];
    for (number, line) in stored.lines().enumerate().filter(|(_, line)| !line.starts_with('#')) {
        let words: Vec<u32> = line.split(' ').map(|word| word.parse().expect("a number")).collect();
        assert_eq!(words[0] as usize, words.len() - 1, "line {}: cut short", number + 1);
        let mut given = Words(&words[2..]);
        assert_eq!(answers(words[1], &mut given), given.0, "line {}: kind {}", number + 1, words[1]);
        of_kind[words[1] as usize] += 1;
    }
    assert!(of_kind[1..].iter().all(|count| *count >= 200), "too few lines of a kind: {of_kind:?}");
}
