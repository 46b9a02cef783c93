//! Sides that are wrong in one way are found out.

use super::*;

/// The reference with one thing done otherwise.
#[derive(Clone, Copy, PartialEq, Debug)]
enum Wrong {
    Nothing,
    LaterOfEquals,
    HigherDetail,
    ForeignFirst,
    ZerosUnread,
    PastEndRead,
    WorkKept,
    FoundPastEnd,
    DistancesSquared,
    DistancesUnchecked,
    OwnLater,
}

impl Side for Wrong {
    fn build(&self, points: &[f32], index: &mut [u32], words: &mut [u32], floats: &mut [f32]) -> (u32, usize) {
        let before = words.to_vec();
        let answer = Reference.build(points, index, words, floats);
        if *self == Wrong::WorkKept && answer.0 == 0 {
            words.copy_from_slice(&before);
        }
        answer
    }

    fn belongs(&self, points: &[f32], index: &[u32], words: &mut [u32], floats: &mut [f32]) -> (u32, usize, bool) {
        let (answer, detail, own) = Reference.belongs(points, index, words, floats);
        if answer != 0 {
            return (answer, detail, own);
        }
        let built = reference::build(points);
        let last = built.iter().rposition(|w| *w != 0).map_or(0, |at| at + 1);
        match self {
            Wrong::ZerosUnread => (0, 0, index[..last] == built[..last]),
            Wrong::PastEndRead => (0, 0, own && index[built.len()..].iter().all(|w| *w == 0xa5a5_a5a5)),
            _ => (0, 0, own),
        }
    }

    fn point(
        &self,
        points: &[f32],
        spot: [f32; 3],
        index: &[u32],
        words: &mut [u32],
        floats: &mut [f32],
    ) -> (u32, usize, u32, u32) {
        let (answer, detail, number, distance) = Reference.point(points, spot, index, words, floats);
        if *self == Wrong::LaterOfEquals && answer == 0 {
            let same = |i: &usize| reference::point(points, *i) == reference::point(points, number as usize);
            let last = (0..points.len() / 3).rfind(same).expect("itself");
            return (answer, detail, last as u32, distance);
        }
        (answer, detail, number, distance)
    }

    fn points(
        &self,
        points: &[f32],
        spots: &[f32],
        index: &[u32],
        found: &mut [u32],
        words: &mut [u32],
        floats: &mut [f32],
    ) -> (u32, usize) {
        let (answer, detail) = Reference.points(points, spots, index, found, words, floats);
        match self {
            Wrong::HigherDetail if answer == 4 => (answer, detail + 1),
            Wrong::ForeignFirst if answer == reference::SHORT && !own(points, index) => (reference::FOREIGN, 0),
            Wrong::FoundPastEnd if answer == 0 && found.len() > spots.len() / 3 => {
                *found.last_mut().expect("past the spots") = 0;
                (answer, detail)
            }
            _ => (answer, detail),
        }
    }

    fn distances(
        &self,
        points: &[f32],
        spots: &[f32],
        index: &[u32],
        found: Found,
        words: &mut [u32],
        floats: &mut [f32],
    ) -> (u32, usize) {
        let Found { numbers, distances } = found;
        if *self == Wrong::DistancesUnchecked {
            let mut longer = vec![0.0; numbers.len()];
            let answer =
                Reference.distances(points, spots, index, Found { numbers, distances: &mut longer }, words, floats);
            if answer.0 == 0 {
                distances.iter_mut().zip(longer).take(spots.len() / 3).for_each(|(place, x)| *place = x);
            }
            return answer;
        }
        let before = Found { numbers, distances: &mut *distances };
        let answer = Reference.distances(points, spots, index, before, words, floats);
        if *self == Wrong::DistancesSquared && answer.0 == 0 {
            distances.iter_mut().take(spots.len() / 3).for_each(|x| *x *= *x);
        }
        answer
    }

    fn own(&self, points: &[f32], spot: [f32; 3]) -> (u32, usize, u32, u32) {
        let (answer, detail, number, distance) = Reference.own(points, spot);
        (answer, detail, number + u32::from(*self == Wrong::OwnLater && answer == 0), distance)
    }
}

#[test]
fn wrong_sides_are_found() {
    for wrong in [
        Wrong::LaterOfEquals,
        Wrong::HigherDetail,
        Wrong::ForeignFirst,
        Wrong::ZerosUnread,
        Wrong::PastEndRead,
        Wrong::WorkKept,
        Wrong::FoundPastEnd,
        Wrong::DistancesSquared,
        Wrong::DistancesUnchecked,
        Wrong::OwnLater,
    ] {
        assert!(!compare(&format!("{wrong:?}"), 1_400, 1, 5, &wrong), "{wrong:?}");
    }
    assert!(compare("itself", 1_400, 1, 5, &Wrong::Nothing));
}
