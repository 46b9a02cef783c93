//! Roots, arc cosines, cuts, least, greatest and clamp.

use crate::report::Report;
use crate::sides::{Number, Side, Value};
use generate::numbers::{edges, number};
use generate::Random;

/// Two zeros of unlike sign: the language leaves open which one `min` and `max` give.
fn open_zero(call: Number, x: f32, y: f32) -> bool {
    matches!(call, Number::Min | Number::Max) && x == 0.0 && y == 0.0
}

/// `clamp` of the standard library refuses bounds that are not in order.
fn allowed(call: Number, y: f32, z: f32) -> bool {
    call != Number::Clamp || y <= z
}

fn compare(report: &mut Report, side: &dyn Side, call: Number, x: f32, y: f32, z: f32) {
    if !allowed(call, y, z) {
        return;
    }
    let context = || format!("{} of {:08x} {:08x} {:08x}", call.call(), x.to_bits(), y.to_bits(), z.to_bits());
    match (call.oracle(x, y, z), side.number(call, x, y, z)) {
        (Value::Float(expected), Value::Float(got)) if open_zero(call, x, y) => {
            report.check(call.call(), expected == 0.0, got == 0.0, context)
        }
        (Value::Float(expected), Value::Float(got)) => report.check(call.call(), expected, got, context),
        (Value::Whole(expected), Value::Whole(got)) => report.check(call.call(), expected, got, context),
        _ => unreachable!("each call has one kind of result"),
    }
}

/// Every call on the edge patterns and on `count` random numbers.
pub fn numbers(side: &dyn Side, count: u64, seed: u64) -> Report {
    let mut report = Report::new("numbers");
    let edges = edges();
    for call in Number::ALL {
        let random = &mut Random::new(seed, call as u64);
        for x in &edges {
            let (y, z) = (random.pick(&edges), random.pick(&edges));
            compare(&mut report, side, call, *x, y, z);
        }
        for _ in 0..count {
            let (x, y) = (number(random), number(random));
            let z = if random.percent(10) { y } else { number(random) };
            let y = if random.percent(10) { x } else { y };
            compare(&mut report, side, call, x, y, z);
        }
    }
    report
}

/// Some calls on every `step`-th pattern.
fn every(side: &dyn Side, name: &str, calls: &[Number], step: u64) -> Report {
    let mut report = Report::new(name);
    for bits in (0..=u64::from(u32::MAX)).step_by(step as usize) {
        for call in calls {
            compare(&mut report, side, *call, f32::from_bits(bits as u32), 0.0, 0.0);
        }
    }
    report
}

/// The root of every `step`-th pattern against the machine's.
pub fn roots(side: &dyn Side, step: u64) -> Report {
    every(side, "roots", &[Number::Sqrt], step)
}

/// The cut of every `step`-th pattern, and that of its `ceil`, against Rust's `as u32`.
pub fn cuts(side: &dyn Side, step: u64) -> Report {
    every(side, "cuts", &[Number::Cut, Number::CeilCut], step)
}
