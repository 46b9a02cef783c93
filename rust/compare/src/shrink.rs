//! The smallest cloud that is left of one on which the two sides differ, for a difference to be looked at or kept.

use crate::clouds::unlike_call;
use crate::sides::Side;
use generate::{case, work_lengths, Case};

/// The case with just enough work, and all normals alike.
fn trimmed(mut case: Case) -> Case {
    (case.words, case.floats) = work_lengths(case.points.len() / 3);
    case.normals = vec![1.0; case.points.len()];
    case.slack = 7;
    case
}

fn without(case: &Case, point: usize) -> Case {
    let mut less = case.clone();
    less.points.drain(3 * point..3 * point + 3);
    trimmed(less)
}

/// The case with one setting made plainer.
fn plainer(case: &Case) -> Vec<Case> {
    let change = |change: &dyn Fn(&mut Case)| {
        let mut plain = case.clone();
        change(&mut plain);
        plain
    };
    vec![
        change(&|c| c.settings.set_additional(&[])),
        change(&|c| c.settings.set_percentiles(&[])),
        change(&|c| c.settings.quality_threshold = 0.0),
        change(&|c| c.settings.min_triangle_area = 0.0),
        change(&|c| c.settings.max_edge_factor = 3.0),
        change(&|c| c.settings.spatial_cell_factor = 2.0),
        change(&|c| c.settings.frontier_rule = 1),
    ]
}

/// Leaves out points, from the last on, and settings, as long as something differs; prints what is left.
pub fn shrink(side: &dyn Side, number: u64, seed: u64) -> bool {
    let differs = |case: &Case| unlike_call(side, case).is_ok_and(|text| text.is_some());
    let mut left = trimmed(case(seed, number));
    if !differs(&left) {
        println!("shrink: case {number} of seed {seed} does not differ");
        return false;
    }
    loop {
        let points = left.points.len() / 3;
        let smaller = (0..points).rev().map(|point| without(&left, point)).find(|case| differs(case));
        let Some(smaller) = smaller.or_else(|| {
            let unlike = |c: &&Case| format!("{:?}", c.settings) != format!("{:?}", left.settings);
            plainer(&left).iter().filter(unlike).find(|case| differs(case)).cloned()
        }) else {
            break;
        };
        left = smaller;
    }
    println!("shrink: {:?}", left.settings);
    left.points.chunks(3).enumerate().for_each(|(i, p)| println!("{i}: {p:?}"));
    println!("{}", unlike_call(side, &left).ok().flatten().unwrap_or_default());
    true
}
