//! Tallies and figures worked out anew from a list of patches, in exact arithmetic, with nothing taken from the port.

use yarrowbleat::sys::{Figures, Fraction, SeasonPatch, Tally};

const MOST_PATCHES: i128 = 100_000;
const MOST_POINTS: i128 = 4_096;
const MOST_FACES: i128 = 10_000;

/// What 20 refuses.
pub fn refused(p: &SeasonPatch) -> bool {
    let (scanned, covered, faces) = (i128::from(p.scanned), i128::from(p.covered), i128::from(p.faces));
    scanned == 0 || scanned > MOST_POINTS || covered > scanned || faces > MOST_FACES
}

/// What 24 refuses, in the order of the scope's sentence.
pub fn damaged(t: &Tally) -> bool {
    let [m, faces, squares, scanned, covered] =
        [t.patches, t.faces, t.face_squares, t.scanned, t.covered].map(i128::from);
    let limits =
        [(faces, MOST_FACES), (squares, MOST_FACES * MOST_FACES), (scanned, MOST_POINTS), (covered, MOST_POINTS)];
    m > MOST_PATCHES
        || limits.iter().any(|(sum, limit)| *sum > m * limit)
        || scanned < m
        || scanned < covered
        || m * squares - faces * faces < 0
        || (m != 0 && (refused(&t.best) || refused(&t.worst)))
}

/// A season as the list of the patches entered, equal ones in a row counted.
#[derive(Clone, Debug, Default)]
pub struct Season {
    pub list: Vec<(SeasonPatch, u64)>,
}

/// The sign of a's coverage less b's.
fn compared(a: &SeasonPatch, b: &SeasonPatch) -> std::cmp::Ordering {
    let cross = |x: &SeasonPatch, y: &SeasonPatch| i128::from(x.covered) * i128::from(y.scanned);
    cross(a, b).cmp(&cross(b, a))
}

impl Season {
    pub fn patches(&self) -> u64 {
        self.list.iter().map(|(_, n)| n).sum()
    }

    fn sum(&self, of: impl Fn(&SeasonPatch) -> i128) -> i128 {
        self.list.iter().map(|(p, n)| of(p) * i128::from(*n)).sum()
    }

    /// The first patch that every other one is on this side of, or equally covered.
    fn first(&self, side: std::cmp::Ordering) -> SeasonPatch {
        let is_it = |p: &SeasonPatch| self.list.iter().all(|(q, _)| compared(q, p) != side);
        self.list.iter().map(|(p, _)| *p).find(|p| is_it(p)).expect("a patch")
    }

    /// The tally that such a season leaves; `before` are the ends that an empty one holds.
    pub fn tally(&self, before: (SeasonPatch, SeasonPatch)) -> Tally {
        let empty = self.list.is_empty();
        Tally {
            patches: self.patches(),
            faces: self.sum(|p| i128::from(p.faces)) as u64,
            face_squares: self.sum(|p| i128::from(p.faces).pow(2)) as u64,
            scanned: self.sum(|p| i128::from(p.scanned)) as u64,
            covered: self.sum(|p| i128::from(p.covered)) as u64,
            best: if empty { before.0 } else { self.first(std::cmp::Ordering::Greater) },
            worst: if empty { before.1 } else { self.first(std::cmp::Ordering::Less) },
        }
    }

    /// What an addition answers, and the list after it.
    pub fn add(&mut self, patch: SeasonPatch) -> u32 {
        if refused(&patch) {
            return 20;
        }
        if i128::from(self.patches()) >= MOST_PATCHES {
            return 19;
        }
        match self.list.last_mut() {
            Some((last, n)) if *last == patch => *n += 1,
            _ => self.list.push((patch, 1)),
        }
        0
    }

    /// The figures of the list.
    pub fn figures(&self) -> Figures {
        let m = i128::from(self.patches());
        if m == 0 {
            return Figures { answer: 21, ..Default::default() };
        }
        let faces = self.sum(|p| i128::from(p.faces));
        let mean_of = |p: &SeasonPatch| i128::from(p.faces) * m - faces;
        // The sum of the squares of m times the distances from the mean: m squared times m times the variance.
        let spread = self.sum(|p| mean_of(p).pow(2));
        let (best, worst) = (self.first(std::cmp::Ordering::Greater), self.first(std::cmp::Ordering::Less));
        Figures {
            answer: 0,
            patches: m as u64,
            mean: lowest(faces, m),
            variance: lowest(spread, m * m * m),
            coverage: lowest(self.sum(|p| i128::from(p.covered)), self.sum(|p| i128::from(p.scanned))),
            best,
            worst,
            best_coverage: coverage(&best),
            worst_coverage: coverage(&worst),
        }
    }
}

fn coverage(p: &SeasonPatch) -> Fraction {
    lowest(i128::from(p.covered), i128::from(p.scanned))
}

/// Lowest terms, by taking common factors of two out and subtracting.
fn lowest(numerator: i128, denominator: i128) -> Fraction {
    let (mut a, mut b) = (numerator, denominator);
    let mut twos = 0;
    while a != 0 && a % 2 == 0 && b % 2 == 0 {
        (a, b, twos) = (a / 2, b / 2, twos + 1);
    }
    let divisor = if a == 0 {
        denominator
    } else {
        while a != b {
            while a % 2 == 0 {
                a /= 2;
            }
            while b % 2 == 0 {
                b /= 2;
            }
            match a.cmp(&b) {
                std::cmp::Ordering::Less => b -= a,
                std::cmp::Ordering::Greater => a -= b,
                std::cmp::Ordering::Equal => {}
            }
        }
        a << twos
    };
    Fraction { numerator: (numerator / divisor) as u64, denominator: (denominator / divisor) as u64 }
}

/// The figures of any tally, by its sums.
pub fn figures_of(t: &Tally) -> Figures {
    if damaged(t) {
        return Figures { answer: 24, ..Default::default() };
    }
    if t.patches == 0 {
        return Figures { answer: 21, ..Default::default() };
    }
    let [m, faces, squares] = [t.patches, t.faces, t.face_squares].map(i128::from);
    Figures {
        answer: 0,
        patches: t.patches,
        mean: lowest(faces, m),
        variance: lowest(m * squares - faces * faces, m * m),
        coverage: lowest(i128::from(t.covered), i128::from(t.scanned)),
        best: t.best,
        worst: t.worst,
        best_coverage: coverage(&t.best),
        worst_coverage: coverage(&t.worst),
    }
}

/// What an addition to any tally answers, and the tally after it.
pub fn added(t: &Tally, p: SeasonPatch) -> (u32, Tally) {
    let answer = match (damaged(t), refused(&p), i128::from(t.patches) >= MOST_PATCHES) {
        (true, _, _) => 24,
        (_, true, _) => 20,
        (_, _, true) => 19,
        _ => 0,
    };
    if answer != 0 {
        return (answer, *t);
    }
    let square = u64::from(p.faces).pow(2);
    let (best, worst) = match t.patches {
        0 => (p, p),
        _ => (
            if compared(&p, &t.best).is_gt() { p } else { t.best },
            if compared(&p, &t.worst).is_lt() { p } else { t.worst },
        ),
    };
    let next = Tally {
        patches: t.patches + 1,
        faces: t.faces + u64::from(p.faces),
        face_squares: t.face_squares + square,
        scanned: t.scanned + u64::from(p.scanned),
        covered: t.covered + u64::from(p.covered),
        best,
        worst,
    };
    (0, next)
}
