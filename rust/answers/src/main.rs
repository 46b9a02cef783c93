//! Writes the stored answers of the Rust to standard output; the head of what it writes describes the format.

mod clouds;
mod single;

use std::io::Write;

const HEAD: &str = "\
# Answers of the published Rust, made by `cargo run --release --offline -p answers` in rust/, from fixed seeds;
# where it takes a triangle whose computed area is zero, those of the Rust with the line that turns it down.
# One case a line; a line that begins with # is a comment. Words are decimal u32, parted by one space, and a float is
# its bit pattern; a not-a-number among the results is always 2143289344. The first word of a line is how many words
# follow (at most 4,096), the second its kind:
#  1 root              x, result
#  2 arc cosine        x, result
#  3 cut               x, result as u32
#  4 ceil, then cut    x, result as u32
#  5 quality           9 coordinates, then aspect_ratio min_angle max_angle area edge_ratio quality_score
#  6 acceptable        those 6 measures, radius, min_triangle_area, quality_threshold, max_edge_factor, then 0 or 1
#  7 estimate          length of points, points, percentile, lengths of both work slices (u32, f32),
#                      then answer, detail, radius
#  8 reconstruct       length of points, points, length of normals (every component is 1.0, bits 1065353216),
#                      settings (26 words: radius, 8 additional_radii, their count, adaptive_radius, 8
#                      adaptive_percentiles, their count, quality_threshold, max_edge_factor, min_triangle_area,
#                      use_spatial_index, spatial_cell_factor, frontier_rule), lengths of the face slice and of both
#                      work slices, then answer, detail, faces, seeds, looks, pivots, count of radii, the radii, 3
#                      words a face
#  9 circumradius      9 coordinates, result
# Before a call, word i of each lent slice is 2768240640 + i. After it a work slice is all zeros if the answer is 0, 8,
# 9, 15 or 16, and as before otherwise; the face slice is as before past the faces, or all zeros if the answer is 9.
";

/// A not-a-number's payload is left open by the language: one pattern stands for all.
pub fn bits(x: f32) -> u32 {
    if x.is_nan() {
        0x7fc0_0000
    } else {
        x.to_bits()
    }
}

/// One line: how many words follow, the kind, the words.
pub fn line(kind: u32, words: &[u32]) -> String {
    let mut out = format!("{} {kind}", words.len() + 1);
    for word in words {
        out.push(' ');
        out.push_str(&word.to_string());
    }
    out.push('\n');
    out
}

fn main() -> std::io::Result<()> {
    let mut out = String::from(HEAD);
    single::write(&mut out);
    clouds::write(&mut out);
    std::io::stdout().write_all(out.as_bytes())
}
