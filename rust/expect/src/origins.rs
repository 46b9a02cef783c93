//! The call that says where each face came from, and the turned patch: written from the request, not from the port.

use crate::{accepted, Found, Lent, Patch};
use oracle::Laid;

/// Which faces look out: a seed does; any other face does when its parent looks in.
fn looking_out(laid: &Laid) -> Vec<bool> {
    let mut out: Vec<bool> = Vec::new();
    for (face, [parent, _]) in laid.origins.iter().enumerate() {
        let looks_out = *parent == face || !out[*parent];
        out.push(looks_out);
    }
    out
}

/// The faces as they are asked for: turned, those that look in have their first two points swapped.
pub fn faces(laid: &Laid, turned: bool) -> Vec<[usize; 3]> {
    let swap = |(face, out): (&[usize; 3], bool)| match (turned, out, *face) {
        (true, false, [a, b, c]) => [b, a, c],
        (_, _, face) => face,
    };
    laid.faces.iter().zip(looking_out(laid)).map(swap).collect()
}

/// Checks 9 and 18, the answer, and what becomes of the lent slices.
pub fn deliver(found: &Found, turned: bool, lent: &mut Lent, origins: &mut [u32]) -> Patch {
    let Found::Laid(laid) = found else {
        return found.deliver(lent);
    };
    lent.words.fill(0);
    lent.floats.fill(0.0);
    let refused = |answer| Patch { answer, ..Patch::default() };
    if laid.faces.len() > lent.faces.len() / 3 || laid.faces.len() > origins.len() / 2 {
        lent.faces.fill(0);
        origins.fill(0);
        return refused(9);
    }
    if turned && laid.radii.is_empty() {
        return refused(18);
    }
    let numbers = faces(laid, turned);
    lent.faces.iter_mut().zip(numbers.iter().flatten()).for_each(|(to, from)| *to = *from as u32);
    origins.iter_mut().zip(laid.origins.iter().flatten()).for_each(|(to, from)| *to = *from as u32);
    accepted(laid)
}

/// What has to hold of every patch with radii and its origins, by the request's words: the first fault.
pub fn fault(laid: &Laid) -> Option<String> {
    let edges = |[a, b, c]: [usize; 3]| [[a, b], [b, c], [c, a]];
    let mut seeds = 0;
    for (number, (face, [parent, place])) in laid.faces.iter().zip(&laid.origins).enumerate() {
        let earlier = &laid.faces[..number];
        let first = laid.faces.iter().position(|other| face[..2].iter().all(|point| other.contains(point)));
        if *parent == number {
            seeds += 1;
            if earlier.iter().flatten().any(|point| face.contains(point)) {
                return Some(format!("face {number} is a seed and has an old point"));
            }
        } else if *parent > number || !edges(laid.faces[*parent]).contains(&[face[0], face[1]]) {
            return Some(format!("face {number} does not share its first edge with its parent {parent}"));
        } else if laid.origins[*parent][1] != *place {
            return Some(format!("face {number} has another place than its parent {parent}"));
        }
        if first != Some(*parent) {
            return Some(format!("face {number}: the first face with its first two points is {first:?}, not {parent}"));
        }
        if *place >= laid.radii.len() || (number > 0 && laid.origins[number - 1][1] > *place) {
            return Some(format!("face {number} has place {place}"));
        }
    }
    (seeds != laid.tally.seeds).then(|| format!("{seeds} faces name themselves, {} are seeds", laid.tally.seeds))
}

/// The first edge of a turned patch that lies in two faces and does not run once each way, or lies in more than two.
pub fn unturned(faces: &[[usize; 3]]) -> Option<[usize; 2]> {
    let mut met = std::collections::HashMap::new();
    for [a, b, c] in faces {
        for (from, to) in [(a, b), (b, c), (c, a)] {
            let runs: &mut [u32; 2] = met.entry([*from.min(to), *from.max(to)]).or_default();
            runs[usize::from(from > to)] += 1;
        }
    }
    met.into_iter().find(|(_, runs)| runs.iter().any(|times| *times > 1)).map(|(edge, _)| edge)
}
