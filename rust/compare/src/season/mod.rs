//! Holds tallies against the ones of this module, on seasons drawn from a seed.

pub mod cases;
pub mod reference;

use cases::{Case, Start};
use std::collections::BTreeMap;
use yarrowbleat::sys::{Figures, SeasonPatch, Tally};

/// The two calls that are compared.
pub struct Side<A: Fn(&mut Tally, SeasonPatch) -> u32, F: Fn(&Tally) -> Figures> {
    pub add: A,
    pub figures: F,
}

/// What differs: the call's number, what was expected and what came.
fn told<T: PartialEq + std::fmt::Debug>(call: usize, what: &str, expected: T, got: T) -> Result<(), String> {
    if expected == got {
        return Ok(());
    }
    Err(format!("after {call} calls the {what}: expected {expected:?}, got {got:?}"))
}

type Answers<'a> = BTreeMap<(&'a str, u32), u64>;

/// A season that is kept as a list; its sums are worked out anew after each of few calls, at times after many.
fn listed<A: Fn(&mut Tally, SeasonPatch) -> u32, F: Fn(&Tally) -> Figures>(
    case: &Case,
    side: &Side<A, F>,
    answers: &mut Answers,
) -> Result<(), String> {
    let Start::Listed(season, ends) = &case.start else { return Ok(()) };
    let mut season = season.clone();
    let mut tally = season.tally(*ends);
    told(0, "figures", season.figures(), (side.figures)(&tally))?;
    for (call, patch) in case.calls.iter().enumerate() {
        let answer = season.add(*patch);
        *answers.entry((case.kind, answer)).or_default() += 1;
        told(call + 1, "answer", answer, (side.add)(&mut tally, *patch))?;
        if case.calls.len() > 1_000 && call % 997 != 0 && call + 4 < case.calls.len() {
            continue;
        }
        told(call + 1, "tally", season.tally(*ends), tally)?;
        told(call + 1, "figures", season.figures(), (side.figures)(&tally))?;
    }
    Ok(())
}

/// Any tally, each call against the one before.
fn stepped<A: Fn(&mut Tally, SeasonPatch) -> u32, F: Fn(&Tally) -> Figures>(
    case: &Case,
    side: &Side<A, F>,
    answers: &mut Answers,
) -> Result<(), String> {
    let Start::Any(start) = &case.start else { return Ok(()) };
    let (mut expected, mut tally) = (*start, *start);
    let figures = reference::figures_of(&expected);
    *answers.entry((case.kind, figures.answer)).or_default() += 1;
    told(0, "figures", figures, (side.figures)(&tally))?;
    for (call, patch) in case.calls.iter().enumerate() {
        let (answer, next) = reference::added(&expected, *patch);
        expected = next;
        *answers.entry((case.kind, answer)).or_default() += 1;
        told(call + 1, "answer", answer, (side.add)(&mut tally, *patch))?;
        told(call + 1, "tally", expected, tally)?;
        told(call + 1, "figures", reference::figures_of(&expected), (side.figures)(&tally))?;
    }
    Ok(())
}

/// Compares `count` seasons from number `first` on, prints a line, and says whether none differs.
pub fn compare<A: Fn(&mut Tally, SeasonPatch) -> u32, F: Fn(&Tally) -> Figures>(
    name: &str,
    count: u64,
    seed: u64,
    first: u64,
    side: &Side<A, F>,
) -> bool {
    let mut answers = Answers::new();
    let mut different = 0;
    for number in first..first + count {
        let case = cases::case(seed, number);
        let what = listed(&case, side, &mut answers).and(stepped(&case, side, &mut answers));
        if let Err(what) = what {
            different += 1;
            if different == 1 {
                println!("first difference: seed {seed}, season {number}, {}: {what}", case.kind);
            }
        }
    }
    let counts: Vec<String> = answers.iter().map(|((kind, answer), n)| format!("{kind}/{answer} {n}")).collect();
    println!("{name}: {count} compared, {different} different ({})", counts.join(", "));
    different == 0 && count > 0
}

#[cfg(test)]
mod tests {
    use super::*;

    fn add(t: &mut Tally, p: SeasonPatch) -> u32 {
        let (answer, next) = reference::added(t, p);
        *t = next;
        answer
    }

    /// Sides that are wrong in one way are found out.
    #[test]
    fn wrong_sides_are_found() {
        let figures = reference::figures_of;
        let later_of_equals = |t: &mut Tally, p: SeasonPatch| {
            let before = *t;
            let answer = add(t, p);
            let level = |q: SeasonPatch| {
                u64::from(p.covered) * u64::from(q.scanned) == u64::from(q.covered) * u64::from(p.scanned)
            };
            if answer == 0 && before.patches > 0 && level(before.best) {
                t.best = p;
            }
            answer
        };
        let full_first = |t: &mut Tally, p: SeasonPatch| match add(t, p) {
            20 if t.patches == 100_000 => 19,
            answer => answer,
        };
        let refusal_counts = |t: &mut Tally, p: SeasonPatch| {
            let answer = add(t, p);
            t.covered += u64::from(answer == 19);
            answer
        };
        let takes_more = |t: &mut Tally, p: SeasonPatch| match t.patches {
            100_001 => 19,
            _ => add(t, p),
        };
        let unreduced = |t: &Tally| {
            let mut f = reference::figures_of(t);
            if f.mean.denominator == 1 && t.patches > 1 {
                (f.mean.numerator, f.mean.denominator) = (t.faces, t.patches);
            }
            f
        };
        let empty_first = |t: &Tally| match t.patches {
            0 => Figures { answer: 21, ..Default::default() },
            _ => reference::figures_of(t),
        };
        let wrong = |name, good: bool| assert!(!good, "{name}");
        wrong("later of equals", compare("later of equals", 500, 1, 2, &Side { add: later_of_equals, figures }));
        wrong("full first", compare("full first", 500, 1, 2, &Side { add: full_first, figures }));
        wrong("refusal counts", compare("refusal counts", 500, 1, 2, &Side { add: refusal_counts, figures }));
        wrong("takes more", compare("takes more", 5000, 1, 2, &Side { add: takes_more, figures }));
        wrong("unreduced", compare("unreduced", 500, 1, 2, &Side { add, figures: unreduced }));
        wrong("empty first", compare("empty first", 5000, 1, 2, &Side { add, figures: empty_first }));
        assert!(compare("itself", 500, 1, 0, &Side { add, figures }));
    }
}
