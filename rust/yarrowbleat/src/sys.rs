//! The calls as the static library has them: types, declarations, and a safe function for each over lent slices.
//!
//! c/yarrowbleat.h says what each takes, answers and leaves. tests/same.rs holds this file and that one against the
//! Rattle source.

use std::mem::{offset_of, size_of};

/// The six measures of a triangle, in the published order.
#[repr(C)]
#[derive(Clone, Copy, Debug)]
pub struct TriangleQuality {
    /// The radius of the circle inside over that of the circle through the points.
    pub aspect_ratio: f32,
    /// The least angle, in radians.
    pub min_angle: f32,
    /// The largest angle, in radians.
    pub max_angle: f32,
    /// The area.
    pub area: f32,
    /// The longest edge over the shortest.
    pub edge_ratio: f32,
    /// The score, made from the least angle and the two ratios.
    pub quality_score: f32,
}

/// The answer of the radius estimate.
#[repr(C)]
#[derive(Clone, Copy, Debug)]
pub struct Estimate {
    /// The answer's number, 0 where the call accepts.
    pub answer: u32,
    /// The answer's detail, 0 where none is named.
    pub detail: u32,
    /// The radius.
    pub radius: f32,
}

/// The settings; slots past a list's count are never read.
#[repr(C)]
#[derive(Clone, Copy, Debug)]
pub struct BallPivotingConfig {
    /// The radius.
    pub radius: f32,
    /// Further radii.
    pub additional_radii: [f32; 8],
    /// How many of them count.
    pub additional_count: u32,
    /// Whether radii are taken from the cloud's density.
    pub adaptive_radius: bool,
    /// The percentiles of the density.
    pub adaptive_percentiles: [f32; 8],
    /// How many of them count.
    pub percentile_count: u32,
    /// The least score of a triangle that is laid.
    pub quality_threshold: f32,
    /// The longest edge, in radii.
    pub max_edge_factor: f32,
    /// The least area.
    pub min_triangle_area: f32,
    /// Whether neighbours are looked for near by only.
    pub use_spatial_index: bool,
    /// The width of a cell, in radii.
    pub spatial_cell_factor: f32,
    /// The frontier's order: 1 is the old program's, 2 first in, first out.
    pub frontier_rule: u32,
}

/// The answer of a reconstruction; radii past their count are zeros.
#[repr(C)]
#[derive(Clone, Copy, Debug)]
pub struct Patch {
    /// The answer's number, 0 where the call accepts.
    pub answer: u32,
    /// The answer's detail, 0 where none is named.
    pub detail: u32,
    /// The faces laid.
    pub faces: u32,
    /// Of these, the ones laid as seeds.
    pub seeds: u32,
    /// Entries taken from the frontier.
    pub looks: u32,
    /// Looks at an edge that was not processed before.
    pub pivots: u32,
    /// The radii tried.
    pub radii_count: u32,
    /// These radii, rising.
    pub radii: [f32; 17],
}

/// The answer of the cloud reader.
#[repr(C)]
#[derive(Clone, Copy, Debug)]
pub struct CloudRead {
    /// The answer's number, 0 where the call accepts.
    pub answer: u32,
    /// The answer's detail, 0 where none is named.
    pub detail: usize,
    /// The radius.
    pub radius: f32,
    /// The points read.
    pub count: usize,
}

/// The answer of the STL writer.
#[repr(C)]
#[derive(Clone, Copy, Debug, Default, PartialEq, Eq)]
pub struct StlWritten {
    /// The answer's number, 0 where the call accepts.
    pub answer: u32,
    /// The answer's detail, 0 where none is named.
    pub detail: usize,
    /// The file's length.
    pub length: usize,
}

/// The answer of the STL reader.
#[repr(C)]
#[derive(Clone, Copy, Debug, Default, PartialEq, Eq)]
pub struct StlRead {
    /// The answer's number, 0 where the call accepts.
    pub answer: u32,
    /// The answer's detail, which is 0.
    pub detail: usize,
    /// The facets read.
    pub faces: usize,
}

/// Why a triangle was turned down, or that it was not.
#[repr(C)]
#[derive(Clone, Copy, Debug)]
pub struct Verdict {
    /// The answer's number, 0 where there is a verdict.
    pub answer: u32,
    /// The answer's detail, 0 where none is named.
    pub detail: u32,
    /// 1 good, 2 no area, 3 small, 4 poor, 5 long; 0 at a refusal.
    pub kind: u32,
    /// What was measured; 0 at a refusal.
    pub measured: f32,
}

/// The answer about faces of another program.
#[repr(C)]
#[derive(Clone, Copy, Debug, PartialEq, Eq)]
pub struct Ordered {
    /// The answer's number, 0 where the call accepts.
    pub answer: u32,
    /// The answer's detail, 0 where none is named.
    pub detail: usize,
    /// The faces.
    pub faces: usize,
    /// Of these, the ones that share no edge with an earlier one in the order.
    pub seeds: u32,
}

/// What is entered of a patch: the number that its caller gave, and its counts.
#[repr(C)]
#[derive(Clone, Copy, Debug, Default, PartialEq, Eq)]
pub struct SeasonPatch {
    /// The caller's own number.
    pub number: u32,
    /// The cloud's points.
    pub scanned: u32,
    /// Of these, the ones that a face touches.
    pub covered: u32,
    /// The faces.
    pub faces: u32,
}

/// The sums over a season's patches; all zeros is an empty tally.
#[repr(C)]
#[derive(Clone, Copy, Debug, Default, PartialEq, Eq)]
pub struct Tally {
    /// How many patches were entered.
    pub patches: u64,
    /// The sum of the face counts.
    pub faces: u64,
    /// The sum of the squared face counts.
    pub face_squares: u64,
    /// The sum of the clouds' points.
    pub scanned: u64,
    /// The sum of the points that a face touches.
    pub covered: u64,
    /// The best covered patch, the earlier of equal ones.
    pub best: SeasonPatch,
    /// The worst covered patch, the earlier of equal ones.
    pub worst: SeasonPatch,
}

/// A fraction in lowest terms.
#[repr(C)]
#[derive(Clone, Copy, Debug, Default, PartialEq, Eq)]
pub struct Fraction {
    /// The part above the line.
    pub numerator: u64,
    /// The part below it.
    pub denominator: u64,
}

/// The figures of a season; zeros but for the answer at a refusal.
#[repr(C)]
#[derive(Clone, Copy, Debug, Default, PartialEq, Eq)]
pub struct Figures {
    /// The answer's number, 0 where the call accepts.
    pub answer: u32,
    /// How many patches were entered.
    pub patches: u64,
    /// The mean of the face counts.
    pub mean: Fraction,
    /// Their variance.
    pub variance: Fraction,
    /// The part of all scanned points that is covered.
    pub coverage: Fraction,
    /// The best covered patch, the earlier of equal ones.
    pub best: SeasonPatch,
    /// The worst covered patch, the earlier of equal ones.
    pub worst: SeasonPatch,
    /// The best patch's coverage.
    pub best_coverage: Fraction,
    /// The worst patch's coverage.
    pub worst_coverage: Fraction,
}

/// The answer of building an index.
#[repr(C)]
#[derive(Clone, Copy, Debug, PartialEq, Eq)]
pub struct Indexed {
    /// The answer's number, 0 where the call accepts.
    pub answer: u32,
    /// The answer's detail, 0 where none is named.
    pub detail: u32,
}

/// Whether an index is a cloud's.
#[repr(C)]
#[derive(Clone, Copy, Debug, PartialEq, Eq)]
pub struct Belongs {
    /// The answer's number, 0 where the call accepts.
    pub answer: u32,
    /// The answer's detail, 0 where none is named.
    pub detail: u32,
    /// Whether the index is this cloud's; no at a refusal.
    pub belongs: bool,
}

/// The nearest point to a spot.
#[repr(C)]
#[derive(Clone, Copy, Debug, PartialEq)]
pub struct Nearest {
    /// The answer's number, 0 where the call accepts.
    pub answer: u32,
    /// The answer's detail, 0 where none is named.
    pub detail: u32,
    /// The nearest point, the lowest number among equals; 0 at a refusal.
    pub point: u32,
    /// Its distance; 0 at a refusal.
    pub distance: f32,
}

/// The answer of a search for many spots.
#[repr(C)]
#[derive(Clone, Copy, Debug, PartialEq, Eq)]
pub struct Searched {
    /// The answer's number, 0 where the call accepts.
    pub answer: u32,
    /// The answer's detail, 0 where none is named.
    pub detail: usize,
}

/// A struct's name, its size, and each field with its offset.
pub type Layout = (&'static str, usize, &'static [(&'static str, usize)]);

/// Holds each struct to its size and its fields' offsets, and lists them.
macro_rules! layouts {
    ($($name:ident $size:literal: $($field:ident $at:literal),*;)*) => {
        $(
            const _: () = assert!(size_of::<$name>() == $size);
            $(const _: () = assert!(offset_of!($name, $field) == $at);)*
        )*
        /// The layout of every struct.
        pub const LAYOUTS: &[Layout] = &[$((stringify!($name), $size, &[$((stringify!($field), $at)),*])),*];
    };
}

layouts! {
    TriangleQuality 24: aspect_ratio 0, min_angle 4, max_angle 8, area 12, edge_ratio 16, quality_score 20;
    Estimate 12: answer 0, detail 4, radius 8;
    BallPivotingConfig 104: radius 0, additional_radii 4, additional_count 36, adaptive_radius 40,
        adaptive_percentiles 44, percentile_count 76, quality_threshold 80, max_edge_factor 84, min_triangle_area 88,
        use_spatial_index 92, spatial_cell_factor 96, frontier_rule 100;
    Patch 96: answer 0, detail 4, faces 8, seeds 12, looks 16, pivots 20, radii_count 24, radii 28;
    CloudRead 32: answer 0, detail 8, radius 16, count 24;
    StlWritten 24: answer 0, detail 8, length 16;
    StlRead 24: answer 0, detail 8, faces 16;
    Ordered 32: answer 0, detail 8, faces 16, seeds 24;
    SeasonPatch 16: number 0, scanned 4, covered 8, faces 12;
    Tally 72: patches 0, faces 8, face_squares 16, scanned 24, covered 32, best 40, worst 56;
    Fraction 16: numerator 0, denominator 8;
    Figures 128: answer 0, patches 8, mean 16, variance 32, coverage 48, best 64, worst 80, best_coverage 96,
        worst_coverage 112;
    Verdict 16: answer 0, detail 4, kind 8, measured 12;
    Indexed 8: answer 0, detail 4;
    Belongs 12: answer 0, detail 4, belongs 8;
    Nearest 16: answer 0, detail 4, point 8, distance 12;
    Searched 16: answer 0, detail 8;
}

/// The layouts as one number, FNV-1a over their names, sizes and offsets: another number is another layout.
pub const LAYOUT: u32 = {
    let mut hash = 0x811c_9dc5;
    let mut i = 0;
    while i < LAYOUTS.len() {
        let (name, size, fields) = LAYOUTS[i];
        hash = hashed(hash, name, size);
        let mut k = 0;
        while k < fields.len() {
            hash = hashed(hash, fields[k].0, fields[k].1);
            k += 1;
        }
        i += 1;
    }
    hash
};

const fn hashed(mut hash: u32, name: &str, number: usize) -> u32 {
    let (name, number) = (name.as_bytes(), (number as u32).to_le_bytes());
    let mut i = 0;
    while i < name.len() + 4 {
        let byte = if i < name.len() { name[i] } else { number[i - name.len()] };
        hash = (hash ^ byte as u32).wrapping_mul(0x0100_0193);
        i += 1;
    }
    hash
}

/// The number that a text of digits is.
const fn digits(text: &str) -> u32 {
    let (text, mut number, mut i) = (text.as_bytes(), 0, 0);
    while i < text.len() {
        number = 10 * number + (text[i] - b'0') as u32;
        i += 1;
    }
    number
}

// build.rs read it from the name of a symbol of the library that is linked.
const _: () = assert!(LAYOUT == digits(env!("YARROWBLEAT_LAYOUT")), "the library has other structs than this crate");

mod linked {
    use super::*;

    extern "C" {
        pub fn yb_version() -> u32;
        pub fn yb_layout() -> u32;
        pub fn yb_release_4000_1298813845() -> u32;
        pub fn yb_sqrt(x: f32) -> f32;
        pub fn yb_acos(v: f32) -> f32;
        pub fn yb_cut(x: f32) -> u32;
        pub fn yb_ceil_cut(x: f32) -> u32;
        pub fn yb_min(a: f32, b: f32) -> f32;
        pub fn yb_max(a: f32, b: f32) -> f32;
        pub fn yb_clamp(v: f32, lo: f32, hi: f32) -> f32;
        pub fn yb_distance(x1: f32, y1: f32, z1: f32, x2: f32, y2: f32, z2: f32) -> f32;
        pub fn yb_compute_circumradius(
            x1: f32,
            y1: f32,
            z1: f32,
            x2: f32,
            y2: f32,
            z2: f32,
            x3: f32,
            y3: f32,
            z3: f32,
        ) -> f32;
        pub fn yb_compute_triangle_quality(
            x1: f32,
            y1: f32,
            z1: f32,
            x2: f32,
            y2: f32,
            z2: f32,
            x3: f32,
            y3: f32,
            z3: f32,
        ) -> TriangleQuality;
        pub fn yb_is_triangle_acceptable(
            quality: TriangleQuality,
            radius: f32,
            min_triangle_area: f32,
            quality_threshold: f32,
            max_edge_factor: f32,
        ) -> bool;
        pub fn yb_default_config(radius: f32) -> BallPivotingConfig;
        pub fn yb_estimate_optimal_radius(
            points: *const f32,
            points_len: usize,
            percentile: f32,
            work_u32: *mut u32,
            work_u32_len: usize,
            work_f32: *mut f32,
            work_f32_len: usize,
        ) -> Estimate;
        pub fn yb_reconstruct_with_normals(
            points: *const f32,
            points_len: usize,
            normals: *const f32,
            normals_len: usize,
            settings: BallPivotingConfig,
            faces: *mut u32,
            faces_len: usize,
            words: *mut u32,
            words_len: usize,
            floats: *mut f32,
            floats_len: usize,
        ) -> Patch;
        pub fn yb_reconstruct_with_origins(
            points: *const f32,
            points_len: usize,
            normals: *const f32,
            normals_len: usize,
            settings: BallPivotingConfig,
            turned: bool,
            faces: *mut u32,
            faces_len: usize,
            origins: *mut u32,
            origins_len: usize,
            words: *mut u32,
            words_len: usize,
            floats: *mut f32,
            floats_len: usize,
        ) -> Patch;
        pub fn yb_read_cloud(
            bytes: *const u8,
            bytes_len: usize,
            points: *mut f32,
            points_len: usize,
            normals: *mut f32,
            normals_len: usize,
        ) -> CloudRead;
        pub fn yb_mark_reached(faces: *const u32, faces_len: usize, reached: *mut u32, reached_len: usize) -> usize;
        pub fn yb_write_stl(
            points: *const f32,
            points_len: usize,
            faces: *const u32,
            faces_len: usize,
            bytes: *mut u8,
            bytes_len: usize,
        ) -> StlWritten;
        pub fn yb_read_stl(bytes: *const u8, bytes_len: usize, corners: *mut f32, corners_len: usize) -> StlRead;
        pub fn yb_judge_triangle(
            points: *const f32,
            points_len: usize,
            normals: *const f32,
            normals_len: usize,
            settings: BallPivotingConfig,
            i: usize,
            j: usize,
            k: usize,
        ) -> Verdict;
        pub fn yb_order_patch(
            bytes: *const u8,
            bytes_len: usize,
            point_count: usize,
            order: *mut u32,
            order_len: usize,
            words: *mut u32,
            words_len: usize,
            floats: *mut f32,
            floats_len: usize,
        ) -> Ordered;
        pub fn yb_order_faces(
            faces: *const u32,
            faces_len: usize,
            point_count: usize,
            order: *mut u32,
            order_len: usize,
            words: *mut u32,
            words_len: usize,
            floats: *mut f32,
            floats_len: usize,
        ) -> Ordered;
        pub fn yb_tally_add(tally: *mut Tally, patch: SeasonPatch) -> u32;
        pub fn yb_tally_figures(tally: *const Tally) -> Figures;
        pub fn yb_build_index(
            points: *const f32,
            points_len: usize,
            index: *mut u32,
            index_len: usize,
            words: *mut u32,
            words_len: usize,
            floats: *mut f32,
            floats_len: usize,
        ) -> Indexed;
        pub fn yb_index_belongs(
            points: *const f32,
            points_len: usize,
            index: *const u32,
            index_len: usize,
            words: *mut u32,
            words_len: usize,
            floats: *mut f32,
            floats_len: usize,
        ) -> Belongs;
        pub fn yb_nearest_point(
            points: *const f32,
            points_len: usize,
            x: f32,
            y: f32,
            z: f32,
            index: *const u32,
            index_len: usize,
            words: *mut u32,
            words_len: usize,
            floats: *mut f32,
            floats_len: usize,
        ) -> Nearest;
        pub fn yb_nearest_points(
            points: *const f32,
            points_len: usize,
            spots: *const f32,
            spots_len: usize,
            index: *const u32,
            index_len: usize,
            found: *mut u32,
            found_len: usize,
            words: *mut u32,
            words_len: usize,
            floats: *mut f32,
            floats_len: usize,
        ) -> Searched;
        pub fn yb_nearest_distances(
            points: *const f32,
            points_len: usize,
            spots: *const f32,
            spots_len: usize,
            index: *const u32,
            index_len: usize,
            found: *mut u32,
            found_len: usize,
            distances: *mut f32,
            distances_len: usize,
            words: *mut u32,
            words_len: usize,
            floats: *mut f32,
            floats_len: usize,
        ) -> Searched;
    }
}

// SAFETY, for all of the below: the calls read and write the slices and structs that they are lent and nothing else;
// each pointer comes from a slice that lives through the call, with its own length, or from a reference.

/// The version of the library, a million times the first number, a thousand times the second, and the third.
pub fn version() -> u32 {
    unsafe { linked::yb_version() }
}

/// The version again, by the symbol that is named for version and layout: another library has no such symbol.
pub fn release() -> u32 {
    unsafe { linked::yb_release_4000_1298813845() }
}

/// The layout of the library's structs, [`LAYOUT`].
pub fn layout() -> u32 {
    unsafe { linked::yb_layout() }
}

/// The nearest float to the square root; a not-a-number below zero.
pub fn sqrt(x: f32) -> f32 {
    unsafe { linked::yb_sqrt(x) }
}

/// The arc cosine as musl has it; a not-a-number outside -1 to 1.
pub fn acos(v: f32) -> f32 {
    unsafe { linked::yb_acos(v) }
}

/// The fraction dropped, held to a `u32`; of a not-a-number 0.
pub fn cut(x: f32) -> u32 {
    unsafe { linked::yb_cut(x) }
}

/// The same of the least whole number that is not below `x`.
pub fn ceil_cut(x: f32) -> u32 {
    unsafe { linked::yb_ceil_cut(x) }
}

/// The lesser; where one is a not-a-number, the other.
pub fn min(a: f32, b: f32) -> f32 {
    unsafe { linked::yb_min(a, b) }
}

/// The greater; where one is a not-a-number, the other.
pub fn max(a: f32, b: f32) -> f32 {
    unsafe { linked::yb_max(a, b) }
}

/// `v` held to `lo` .. `hi`; a not-a-number is passed on.
pub fn clamp(v: f32, lo: f32, hi: f32) -> f32 {
    unsafe { linked::yb_clamp(v, lo, hi) }
}

/// How far two points are from each other, rounded as the reconstruction has it.
pub fn distance(p: &[f32; 3], q: &[f32; 3]) -> f32 {
    unsafe { linked::yb_distance(p[0], p[1], p[2], q[0], q[1], q[2]) }
}

/// The radius of the circle through three points.
pub fn compute_circumradius(c: &[f32; 9]) -> f32 {
    unsafe { linked::yb_compute_circumradius(c[0], c[1], c[2], c[3], c[4], c[5], c[6], c[7], c[8]) }
}

/// The measures of the triangle of three points.
pub fn compute_triangle_quality(c: &[f32; 9]) -> TriangleQuality {
    unsafe { linked::yb_compute_triangle_quality(c[0], c[1], c[2], c[3], c[4], c[5], c[6], c[7], c[8]) }
}

/// Whether a triangle with these measures is laid at this radius, under these three settings. An area of exactly zero,
/// of either sign, is turned down under every setting.
pub fn is_triangle_acceptable(
    quality: TriangleQuality,
    radius: f32,
    min_triangle_area: f32,
    quality_threshold: f32,
    max_edge_factor: f32,
) -> bool {
    unsafe { linked::yb_is_triangle_acceptable(quality, radius, min_triangle_area, quality_threshold, max_edge_factor) }
}

/// The default settings at a radius.
pub fn default_config(radius: f32) -> BallPivotingConfig {
    unsafe { linked::yb_default_config(radius) }
}

/// A radius that suits the cloud, over lent work slices.
pub fn estimate_optimal_radius(points: &[f32], percentile: f32, words: &mut [u32], floats: &mut [f32]) -> Estimate {
    unsafe {
        linked::yb_estimate_optimal_radius(
            points.as_ptr(),
            points.len(),
            percentile,
            words.as_mut_ptr(),
            words.len(),
            floats.as_mut_ptr(),
            floats.len(),
        )
    }
}

/// Lays a patch of triangles over the cloud, over a lent face slice and lent work slices.
pub fn reconstruct_with_normals(
    points: &[f32],
    normals: &[f32],
    settings: BallPivotingConfig,
    faces: &mut [u32],
    words: &mut [u32],
    floats: &mut [f32],
) -> Patch {
    unsafe {
        linked::yb_reconstruct_with_normals(
            points.as_ptr(),
            points.len(),
            normals.as_ptr(),
            normals.len(),
            settings,
            faces.as_mut_ptr(),
            faces.len(),
            words.as_mut_ptr(),
            words.len(),
            floats.as_mut_ptr(),
            floats.len(),
        )
    }
}

/// The same, with a second lent slice for where each face came from, two numbers a face: its parent's number and the
/// place of its radius; turned, a patch that faces one way.
#[allow(clippy::too_many_arguments)]
pub fn reconstruct_with_origins(
    points: &[f32],
    normals: &[f32],
    settings: BallPivotingConfig,
    turned: bool,
    faces: &mut [u32],
    origins: &mut [u32],
    words: &mut [u32],
    floats: &mut [f32],
) -> Patch {
    unsafe {
        linked::yb_reconstruct_with_origins(
            points.as_ptr(),
            points.len(),
            normals.as_ptr(),
            normals.len(),
            settings,
            turned,
            faces.as_mut_ptr(),
            faces.len(),
            origins.as_mut_ptr(),
            origins.len(),
            words.as_mut_ptr(),
            words.len(),
            floats.as_mut_ptr(),
            floats.len(),
        )
    }
}

/// Reads a cloud file into two lent slices.
pub fn read_cloud(bytes: &[u8], points: &mut [f32], normals: &mut [f32]) -> CloudRead {
    unsafe {
        linked::yb_read_cloud(
            bytes.as_ptr(),
            bytes.len(),
            points.as_mut_ptr(),
            points.len(),
            normals.as_mut_ptr(),
            normals.len(),
        )
    }
}

/// Marks the points that faces have with 1, the others with 0; the answer is how many are marked.
pub fn mark_reached(faces: &[u32], reached: &mut [u32]) -> usize {
    unsafe { linked::yb_mark_reached(faces.as_ptr(), faces.len(), reached.as_mut_ptr(), reached.len()) }
}

/// Writes faces as binary STL into a lent slice; the answer is 0, 2, 3, 4, 14 or 13.
pub fn write_stl(points: &[f32], faces: &[u32], bytes: &mut [u8]) -> StlWritten {
    unsafe {
        linked::yb_write_stl(
            points.as_ptr(),
            points.len(),
            faces.as_ptr(),
            faces.len(),
            bytes.as_mut_ptr(),
            bytes.len(),
        )
    }
}

/// Whether the faces of a file of lines could be a patch's, and in what order, over a lent slice for the order and lent
/// work slices.
pub fn order_patch(
    bytes: &[u8],
    point_count: usize,
    order: &mut [u32],
    words: &mut [u32],
    floats: &mut [f32],
) -> Ordered {
    unsafe {
        linked::yb_order_patch(
            bytes.as_ptr(),
            bytes.len(),
            point_count,
            order.as_mut_ptr(),
            order.len(),
            words.as_mut_ptr(),
            words.len(),
            floats.as_mut_ptr(),
            floats.len(),
        )
    }
}

/// The same of faces that stand in a slice, three point numbers each.
pub fn order_faces(
    faces: &[u32],
    point_count: usize,
    order: &mut [u32],
    words: &mut [u32],
    floats: &mut [f32],
) -> Ordered {
    unsafe {
        linked::yb_order_faces(
            faces.as_ptr(),
            faces.len(),
            point_count,
            order.as_mut_ptr(),
            order.len(),
            words.as_mut_ptr(),
            words.len(),
            floats.as_mut_ptr(),
            floats.len(),
        )
    }
}

/// Reads the corners of a binary STL file into a lent slice, nine numbers a facet; the answer is 0, 12 or 13.
pub fn read_stl(bytes: &[u8], corners: &mut [f32]) -> StlRead {
    unsafe { linked::yb_read_stl(bytes.as_ptr(), bytes.len(), corners.as_mut_ptr(), corners.len()) }
}

/// Why the triangle of three points of a cloud was turned down, or that it was not.
pub fn judge_triangle(points: &[f32], normals: &[f32], settings: BallPivotingConfig, triple: [usize; 3]) -> Verdict {
    let [i, j, k] = triple;
    let (points_len, normals_len) = (points.len(), normals.len());
    unsafe { linked::yb_judge_triangle(points.as_ptr(), points_len, normals.as_ptr(), normals_len, settings, i, j, k) }
}

/// Adds a patch to a tally, where it is; the answer is 0, 24, 20 or 19.
pub fn tally_add(tally: &mut Tally, patch: SeasonPatch) -> u32 {
    unsafe { linked::yb_tally_add(tally, patch) }
}

/// The figures of a tally; the answer is 0, 24 or 21.
pub fn tally_figures(tally: &Tally) -> Figures {
    unsafe { linked::yb_tally_figures(tally) }
}

/// Builds a cloud's index in a lent slice of at least 8n + 64 words.
pub fn build_index(points: &[f32], index: &mut [u32], words: &mut [u32], floats: &mut [f32]) -> Indexed {
    unsafe {
        linked::yb_build_index(
            points.as_ptr(),
            points.len(),
            index.as_mut_ptr(),
            index.len(),
            words.as_mut_ptr(),
            words.len(),
            floats.as_mut_ptr(),
            floats.len(),
        )
    }
}

/// Whether an index is this cloud's.
pub fn index_belongs(points: &[f32], index: &[u32], words: &mut [u32], floats: &mut [f32]) -> Belongs {
    unsafe {
        linked::yb_index_belongs(
            points.as_ptr(),
            points.len(),
            index.as_ptr(),
            index.len(),
            words.as_mut_ptr(),
            words.len(),
            floats.as_mut_ptr(),
            floats.len(),
        )
    }
}

/// The nearest point to a spot, by the cloud's index.
pub fn nearest_point(points: &[f32], spot: &[f32; 3], index: &[u32], words: &mut [u32], floats: &mut [f32]) -> Nearest {
    unsafe {
        linked::yb_nearest_point(
            points.as_ptr(),
            points.len(),
            spot[0],
            spot[1],
            spot[2],
            index.as_ptr(),
            index.len(),
            words.as_mut_ptr(),
            words.len(),
            floats.as_mut_ptr(),
            floats.len(),
        )
    }
}

/// The nearest points to many spots, three numbers a spot: a point number goes to each spot's place in `found`.
pub fn nearest_points(
    points: &[f32],
    spots: &[f32],
    index: &[u32],
    found: &mut [u32],
    words: &mut [u32],
    floats: &mut [f32],
) -> Searched {
    unsafe {
        linked::yb_nearest_points(
            points.as_ptr(),
            points.len(),
            spots.as_ptr(),
            spots.len(),
            index.as_ptr(),
            index.len(),
            found.as_mut_ptr(),
            found.len(),
            words.as_mut_ptr(),
            words.len(),
            floats.as_mut_ptr(),
            floats.len(),
        )
    }
}

/// The same with the distances, which go to each spot's place in `distances`.
pub fn nearest_distances(
    points: &[f32],
    spots: &[f32],
    index: &[u32],
    found: &mut [u32],
    distances: &mut [f32],
    words: &mut [u32],
    floats: &mut [f32],
) -> Searched {
    unsafe {
        linked::yb_nearest_distances(
            points.as_ptr(),
            points.len(),
            spots.as_ptr(),
            spots.len(),
            index.as_ptr(),
            index.len(),
            found.as_mut_ptr(),
            found.len(),
            distances.as_mut_ptr(),
            distances.len(),
            words.as_mut_ptr(),
            words.len(),
            floats.as_mut_ptr(),
            floats.len(),
        )
    }
}
