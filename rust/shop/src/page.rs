//! One page with a cloud's points and faces, to turn and to read: what it shows goes in, its text comes out.

use std::collections::HashSet;
use std::fmt::Write as _;

const PAGE: &str = include_str!("page.html");

/// All that a page shows.
pub struct PageInput<'a> {
    /// The file's name.
    pub name: &'a str,
    pub points: &'a [[f32; 3]],
    pub faces: &'a [[u32; 3]],
    /// The radii tried; none on the plain path.
    pub radii: &'a [f32],
    pub seeds: u32,
    /// The points that no face touches, rising.
    pub unreached: &'a [u32],
    /// Edges that lie in one face alone.
    pub open_edges: usize,
    /// The sum of the faces' areas.
    pub area: f64,
    /// Lines on how the scan was read: that points were left out, that the radius is an estimate.
    pub notes: &'a [String],
}

/// Text as a page has it.
fn escaped(text: &str) -> String {
    text.replace('&', "&amp;").replace('<', "&lt;").replace('>', "&gt;").replace('"', "&quot;")
}

/// The counts in words, with F + 2S of n where there are radii, and what they mean.
fn summary(input: &PageInput) -> String {
    let (faces, seeds, scanned) = (input.faces.len(), input.seeds, input.points.len());
    let missing = input.unreached.len();
    let covered = scanned - missing;
    let laid = if input.radii.is_empty() {
        format!(
            "{faces} faces were laid on the plain path, which has no seeds. They reach {covered} of {scanned} points"
        )
    } else {
        format!(
            "{faces} faces were laid, {seeds} of them as seeds. They reach F + 2S = {faces} + 2 · {seeds} = {covered} \
             of {scanned} points"
        )
    };
    let (edges, area) = (input.open_edges, input.area);
    let mut text = format!(
        "{laid}; {missing} are not reached. {edges} edges are open, and the faces' area is {area:.6}. A point is \
         reached where a face touches it; between the points much of a wall has no face, as the open edges show."
    );
    for note in input.notes {
        write!(text, " Note: {}.", escaped(note)).expect("to a string");
    }
    text
}

fn unreached(points: &[u32]) -> String {
    if points.is_empty() {
        return "Every point is reached.".to_string();
    }
    format!("Not reached: {}.", points.iter().map(u32::to_string).collect::<Vec<_>>().join(", "))
}

fn point_rows(input: &PageInput) -> String {
    let missing: HashSet<&u32> = input.unreached.iter().collect();
    let mut rows = String::new();
    for (number, [x, y, z]) in (0..).zip(input.points) {
        let (class, reached) = if missing.contains(&number) { (" class=\"missing\"", "no") } else { ("", "yes") };
        writeln!(rows, "<tr{class}><td>{number}</td><td>{x}</td><td>{y}</td><td>{z}</td><td>{reached}</td></tr>")
            .expect("to a string");
    }
    rows
}

/// A seed is a face with three points that no earlier face has; on the plain path there are none.
fn face_rows(input: &PageInput) -> String {
    let mut seen = HashSet::new();
    let mut rows = String::new();
    for (number, [a, b, c]) in input.faces.iter().enumerate() {
        let new = [a, b, c].into_iter().filter(|point| seen.insert(**point)).count();
        let laid = if new == 3 && !input.radii.is_empty() { "seed" } else { "" };
        writeln!(rows, "<tr><td>{number}</td><td>{a}</td><td>{b}</td><td>{c}</td><td>{laid}</td></tr>")
            .expect("to a string");
    }
    rows
}

/// The page's text; the name comes last, since it may hold anything.
pub fn page(input: &PageInput) -> String {
    PAGE.replace("{{summary}}", &summary(input))
        .replace("{{unreached}}", &unreached(input.unreached))
        .replace("{{points}}", &point_rows(input))
        .replace("{{faces}}", &face_rows(input))
        .replace("{{name}}", &escaped(input.name))
}
