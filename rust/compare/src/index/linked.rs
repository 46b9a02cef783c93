//! The library's calls, as the comparison of indices wants them.

use super::{Found, Side};
use yarrowbleat::index::Index;
use yarrowbleat::{sys, Error};

/// The library's calls.
pub struct Port;

impl Side for Port {
    fn build(&self, points: &[f32], index: &mut [u32], words: &mut [u32], floats: &mut [f32]) -> (u32, usize) {
        let r = sys::build_index(points, index, words, floats);
        (r.answer, r.detail as usize)
    }

    fn belongs(&self, points: &[f32], index: &[u32], words: &mut [u32], floats: &mut [f32]) -> (u32, usize, bool) {
        let r = sys::index_belongs(points, index, words, floats);
        (r.answer, r.detail as usize, r.belongs)
    }

    fn point(
        &self,
        points: &[f32],
        spot: [f32; 3],
        index: &[u32],
        words: &mut [u32],
        floats: &mut [f32],
    ) -> (u32, usize, u32, u32) {
        let r = sys::nearest_point(points, &spot, index, words, floats);
        (r.answer, r.detail as usize, r.point, r.distance.to_bits())
    }

    fn points(
        &self,
        points: &[f32],
        spots: &[f32],
        index: &[u32],
        found: &mut [u32],
        words: &mut [u32],
        floats: &mut [f32],
    ) -> (u32, usize) {
        let r = sys::nearest_points(points, spots, index, found, words, floats);
        (r.answer, r.detail)
    }

    fn distances(
        &self,
        points: &[f32],
        spots: &[f32],
        index: &[u32],
        found: Found,
        words: &mut [u32],
        floats: &mut [f32],
    ) -> (u32, usize) {
        let r = sys::nearest_distances(points, spots, index, found.numbers, found.distances, words, floats);
        (r.answer, r.detail)
    }

    fn own(&self, points: &[f32], spot: [f32; 3]) -> (u32, usize, u32, u32) {
        let points: Vec<[f32; 3]> = points.chunks_exact(3).map(|p| [p[0], p[1], p[2]]).collect();
        match Index::build(&points).and_then(|index| index.nearest_point(&points, &spot)) {
            Ok(nearest) => (0, 0, nearest.point, nearest.distance.to_bits()),
            // The library counts spots on from the points.
            Err(Error::Spot(spot)) => (4, points.len() + spot, 0, 0),
            Err(error) => (error.number(), error.detail(), 0, 0),
        }
    }
}
