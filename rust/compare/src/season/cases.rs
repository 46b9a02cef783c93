//! Seasons and damaged tallies, drawn from a seed.

use super::reference::Season;
use generate::Random;
use yarrowbleat::sys::{SeasonPatch, Tally};

/// A case: what stands in the tally at the start, and the additions.
#[derive(Clone, Debug)]
pub struct Case {
    pub kind: &'static str,
    pub start: Start,
    pub calls: Vec<SeasonPatch>,
}

/// A season's list, with the ends that an empty tally holds, or any tally.
#[derive(Clone, Debug)]
pub enum Start {
    Listed(Season, (SeasonPatch, SeasonPatch)),
    Any(Tally),
}

const MOST: u64 = 100_000;

/// A patch that may be entered.
fn good(random: &mut Random) -> SeasonPatch {
    let scanned = random.pick(&[1, 2, 3, 4, 7, 90, 2_048, 4_095, 4_096, 0]);
    let scanned = if scanned == 0 { random.whole(1, 4_096) } else { scanned };
    let covered = match random.below(4) {
        0 => 0,
        1 => scanned,
        _ => random.whole(0, scanned),
    };
    let faces = match random.below(4) {
        0 => random.pick(&[0, 1, 9_999, 10_000]),
        _ => random.whole(0, 10_000),
    };
    SeasonPatch { number: random.next() as u32, scanned: scanned as u32, covered: covered as u32, faces: faces as u32 }
}

/// A patch with one count on the wrong side of its limit, or of any bits.
fn bad(random: &mut Random) -> SeasonPatch {
    let mut patch = good(random);
    match random.below(6) {
        0 => patch.scanned = 0,
        1 => patch.scanned = 4_097,
        2 => patch.covered = patch.scanned + 1,
        3 => patch.faces = 10_001,
        4 => {
            (patch.scanned, patch.covered, patch.faces) =
                (random.next() as u32, random.next() as u32, random.next() as u32)
        }
        _ => patch = SeasonPatch { number: 1, scanned: u32::MAX, covered: u32::MAX, faces: u32::MAX },
    }
    patch
}

fn any(random: &mut Random) -> SeasonPatch {
    if random.percent(85) {
        good(random)
    } else {
        bad(random)
    }
}

/// Patches whose coverages are equal by unlike fractions, often.
fn level(random: &mut Random) -> SeasonPatch {
    let (covered, scanned) = random.pick(&[(1, 2), (0, 1), (1, 1), (1, 3), (2, 3), (3, 7)]);
    let times = random.whole(1, 500);
    let (covered, scanned) = (covered * times as u32, scanned * times as u32);
    SeasonPatch { number: random.next() as u32, scanned, covered, faces: random.whole(0, 10_000) as u32 }
}

fn list(random: &mut Random, patches: u64) -> Season {
    let mut season = Season::default();
    let kinds = random.whole(1, 5) as u64;
    let mut left = patches;
    for kind in 0..kinds {
        let n = if kind + 1 == kinds { left } else { random.below(left as usize + 1) as u64 };
        if n > 0 {
            season.list.push((if random.percent(20) { full_patch() } else { good(random) }, n));
        }
        left -= n;
    }
    season
}

fn full_patch() -> SeasonPatch {
    SeasonPatch { number: 9, scanned: 4_096, covered: 4_096, faces: 10_000 }
}

/// A field set to a bound of its own, a step to either side, or anything.
fn damage(random: &mut Random, t: &mut Tally) {
    let m = t.patches;
    let near = |random: &mut Random, bound: u64| match random.below(8) {
        0 => random.pick(&[0, 1, u64::MAX, 1 << 32, 1 << 63]),
        1 => random.next(),
        _ => bound.wrapping_add(random.pick(&[0, 0, 1, 1, u64::MAX])),
    };
    let root = (m as f64 * t.face_squares as f64).sqrt() as u64;
    match random.below(9) {
        0 => t.patches = near(random, MOST),
        1 => t.faces = near(random, m * 10_000),
        2 => t.face_squares = near(random, m * 100_000_000),
        3 => t.scanned = near(random, m * 4_096),
        4 => t.covered = near(random, t.scanned),
        5 => t.scanned = near(random, m),
        6 => t.faces = near(random, root),
        7 => t.best = bad(random),
        _ => t.worst = bad(random),
    }
}

/// Case `number` of a seed, the fixed ones first.
pub fn case(seed: u64, number: u64) -> Case {
    let random = &mut Random::new(seed, number);
    let nothing = SeasonPatch::default();
    match number {
        0 => {
            let calls = vec![full_patch(); MOST as usize + 2];
            return Case {
                kind: "100,000 of 10,000 faces",
                start: Start::Listed(Season::default(), (nothing, nothing)),
                calls,
            };
        }
        1 => {
            let calls = (0..MOST as u32 + 2).map(|number| SeasonPatch { number, scanned: 1, covered: 0, faces: 0 });
            let start = Start::Any(Tally::default());
            return Case { kind: "100,000 of one point", start, calls: calls.collect() };
        }
        _ => {}
    }
    let calls = |random: &mut Random, most, of: fn(&mut Random) -> SeasonPatch| {
        (0..random.whole(0, most)).map(|_| of(random)).collect::<Vec<_>>()
    };
    match number % 5 {
        0 => {
            let ends = (any(random), bad(random));
            Case { kind: "begun empty", start: Start::Listed(Season::default(), ends), calls: calls(random, 40, any) }
        }
        1 => {
            let start = Start::Listed(Season::default(), (nothing, nothing));
            Case { kind: "equal coverage", start, calls: calls(random, 40, level) }
        }
        2 => {
            let room = random.below(4) as u64;
            let start = Start::Listed(list(random, MOST - room), (nothing, nothing));
            Case { kind: "nearly full", start, calls: calls(random, 8, any) }
        }
        _ => {
            let patches = random.pick(&[0, 1, 2, 3, 99_999, 100_000]);
            let season = list(random, patches);
            let mut tally = season.tally((any(random), any(random)));
            for _ in 0..random.pick(&[1, 1, 1, 2, 3]) {
                damage(random, &mut tally);
            }
            Case { kind: "damaged", start: Start::Any(tally), calls: calls(random, 3, any) }
        }
    }
}
