//! Draws a bell wall laid half-way under each of the frontier's rules, as SVG on standard output: docs/draw-rules.
//!
//! The wall is unrolled, its top edge above, with the seed in the middle. The first half of the faces is shown, dark
//! where it was laid early. The faces are those of the published Rust over its heap, and over a queue.

use generate::clouds::{self, Cloud};
use generate::Random;
use oracle::Settings;
use std::fmt::Write;

const WIDE: f64 = 560.0;
const HIGH: f64 = 280.0;
const GAP: f64 = 24.0;
const TITLE: f64 = 34.0;

/// A point of the unrolled wall: the part of a turn, and the height from the top.
type Place = (f64, f64);

fn unrolled(cloud: &Cloud) -> Vec<Place> {
    let at = |p: &[f32]| (f64::from(p[1]).atan2(f64::from(p[0])) / std::f64::consts::TAU, -f64::from(p[2]));
    cloud.points.chunks(3).map(at).collect()
}

fn laid(cloud: &Cloud, frontier_rule: u32) -> Vec<[usize; 3]> {
    let mut settings = Settings { frontier_rule, ..Settings::at_radius((2.5 * cloud.spacing) as f32) };
    settings.set_additional(&[]);
    settings.set_percentiles(&[]);
    let normals = vec![1.0; cloud.points.len()];
    let laid = oracle::reconstruct(&cloud.points, &normals, &settings, u64::MAX);
    laid.expect("a run without a limit").expect("a patch").faces
}

/// From dark blue over red to a light yellow.
fn colour(part: f64) -> String {
    const STOPS: [[f64; 3]; 4] =
        [[38.0, 22.0, 92.0], [160.0, 38.0, 110.0], [237.0, 105.0, 60.0], [252.0, 222.0, 140.0]];
    let at = (part * 3.0).min(2.999);
    let (stop, rest) = (at as usize, at.fract());
    let mix = |i: usize| (STOPS[stop][i] * (1.0 - rest) + STOPS[stop + 1][i] * rest).round() as u8;
    format!("#{:02x}{:02x}{:02x}", mix(0), mix(1), mix(2))
}

/// One wall, with the first half of its faces.
fn wall(out: &mut String, places: &[Place], faces: &[[usize; 3]], left: f64, title: &str) {
    let middle = places[faces[0][0]].0;
    let low = places.iter().map(|p| p.1).fold(f64::INFINITY, f64::min);
    let high = places.iter().map(|p| p.1).fold(f64::NEG_INFINITY, f64::max);
    let across = |turn: f64| (turn - middle + 0.5).rem_euclid(1.0);
    let down = |height: f64| TITLE + (height - low) / (high - low) * HIGH;
    writeln!(out, r#"<text x="{left:.0}" y="20">{title}</text>"#).unwrap();
    writeln!(out, r#"<svg x="{left:.0}" y="0" width="{WIDE:.0}" height="{:.0}">"#, TITLE + HIGH + 4.0).unwrap();
    let dots: Vec<String> =
        places.iter().map(|(turn, height)| format!("M{:.1},{:.1}h0", across(*turn) * WIDE, down(*height))).collect();
    let dots = dots.join("\n");
    writeln!(out, r##"<path stroke="#b8b8b8" stroke-width="2.6" stroke-linecap="round" d="{dots}"/>"##).unwrap();
    writeln!(out, r##"<g stroke="#ffffff" stroke-width="0.4">"##).unwrap();
    let half = &faces[..faces.len() / 2];
    for (number, face) in half.iter().enumerate() {
        let first = across(places[face[0]].0);
        // A face across the seam is drawn where its first point is.
        let near = |turn: f64| first + (turn - places[face[0]].0 + 0.5).rem_euclid(1.0) - 0.5;
        let corners: Vec<String> =
            face.iter().map(|p| format!("{:.1},{:.1}", near(places[*p].0) * WIDE, down(places[*p].1))).collect();
        let fill = colour(number as f64 / half.len() as f64);
        writeln!(out, r#"<polygon fill="{fill}" points="{}"/>"#, corners.join(" ")).unwrap();
    }
    out.push_str("</g>\n</svg>\n");
}

fn main() {
    let cloud = clouds::wall(&mut Random::new(1, 0), 64, 24, 0.2);
    let places = unrolled(&cloud);
    let (width, height) = (2.0 * WIDE + GAP + 20.0, TITLE + HIGH + 14.0);
    let mut out = format!(
        "<svg xmlns=\"http://www.w3.org/2000/svg\" viewBox=\"0 0 {width:.0} {height:.0}\" \
         font-family=\"sans-serif\" font-size=\"15\">\n<rect width=\"100%\" height=\"100%\" fill=\"#ffffff\"/>\n"
    );
    for (rule, title) in [(1, "Rule 1, the heap's order"), (2, "Rule 2, first come, first pivoted")] {
        let faces = laid(&cloud, rule);
        let title = format!("{title}: {} of {} faces", faces.len() / 2, faces.len());
        wall(&mut out, &places, &faces, 10.0 + (WIDE + GAP) * f64::from(rule - 1), &title);
    }
    out.push_str("</svg>\n");
    print!("{out}");
}
