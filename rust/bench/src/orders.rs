//! Faces of another program, put in order by the port. The whole call is held against the reading of the same lines by
//! Rust's own split and `parse::<u32>`, and 4,000 faces against 1,000.

use crate::numbers::{judge, race};
use generate::Random;
use std::hint::black_box;

/// A patch of so many faces over two points more, each laid on a random free edge; points, lines and faces shuffled.
fn file(count: usize) -> Vec<u8> {
    let random = &mut Random::new(1, count as u64);
    let mut names: Vec<usize> = (0..count + 2).collect();
    let (mut free, mut faces) = (vec![(0, 1)], Vec::new());
    for point in 2..count + 2 {
        let at = random.below(free.len());
        let (a, b) = free.swap_remove(at);
        free.extend([(a, point), (point, b)]);
        faces.push([a, b, point]);
    }
    for end in (1..names.len()).rev() {
        names.swap(end, random.below(end + 1));
    }
    for end in (1..faces.len()).rev() {
        faces.swap(end, random.below(end + 1));
    }
    let lines = faces.iter().map(|face| {
        let [a, b, c] = face.map(|point| names[point]);
        if random.percent(50) {
            format!("{a},{b},{c}\n")
        } else {
            format!("{b},{a},{c}\n")
        }
    });
    lines.collect::<String>().into_bytes()
}

/// The numbers of the lines go into the slice.
fn by_rust(bytes: &[u8], faces: &mut [u32]) -> Option<()> {
    let lines = std::str::from_utf8(bytes).ok()?.lines();
    for (line, face) in lines.zip(faces.chunks_mut(3)) {
        let mut numbers = line.split(',');
        for slot in face {
            *slot = numbers.next()?.parse().ok()?;
        }
    }
    Some(())
}

/// A file with the slices that its call takes.
struct Call {
    bytes: Vec<u8>,
    points: usize,
    order: Vec<u32>,
    words: Vec<u32>,
    floats: Vec<f32>,
}

impl Call {
    fn new(count: usize) -> Call {
        let (words, floats) = generate::work_lengths(count + 2);
        let mut call = Call {
            bytes: file(count),
            points: count + 2,
            order: vec![0; count],
            words: vec![0; words],
            floats: vec![0.0; floats],
        };
        assert_eq!(call.order(), (0, count), "the faces have an order");
        call
    }

    fn order(&mut self) -> (u32, usize) {
        let points = self.points;
        self.over(points)
    }

    /// The call over another count of points: 4,097 are refused once every line was read.
    fn over(&mut self, points: usize) -> (u32, usize) {
        let Call { bytes, order, words, floats, .. } = self;
        let r = port::order_patch(black_box(bytes), points, order, words, floats);
        (r.answer, r.faces)
    }
}

pub fn bench() -> bool {
    let (mut large, mut small) = (Call::new(4_000), Call::new(1_000));
    let (bytes, mut faces) = (large.bytes.clone(), vec![0; 12_000]);
    assert_eq!(large.over(4_097), (3, 0));
    let reading = race(|| _ = black_box(large.order()), || _ = black_box(by_rust(black_box(&bytes), &mut faces)));
    let passing = race(|| _ = black_box(large.over(4_097)), || _ = black_box(by_rust(black_box(&bytes), &mut faces)));
    let growth = race(|| _ = black_box(large.order()), || _ = black_box(small.order()));
    judge("4,000 faces read, against Rust's reading", passing, 3.0);
    let reached = judge("4,000 faces put in order, against Rust's reading of their lines", reading, 3.0);
    judge("4,000 faces put in order, against 1,000", growth, 6.0) && reached
}
