//! How much of a wall a patch covers: points reached, edges that are open, and the faces' area.

use crate::laid::Laid;
use serde::Serialize;
use std::collections::HashMap;

#[derive(Clone, Debug, PartialEq, Serialize)]
pub struct Figures {
    pub points: usize,
    pub faces: usize,
    pub seeds: u32,
    pub looks: u32,
    pub pivots: u32,
    /// Points that a face touches.
    pub reached: usize,
    /// Edges that lie in one face alone.
    pub open_edges: usize,
    /// Edges that lie in two faces or more.
    pub shared_edges: usize,
    /// The sum of the faces' areas.
    pub area: f64,
    pub radius: f32,
    pub radius_estimated: bool,
    pub radii: Vec<f32>,
}

/// The points that no face touches, rising.
pub fn unreached(laid: &Laid) -> Vec<u32> {
    let mut reached = vec![false; laid.scan.points.len()];
    for point in laid.faces.as_flattened() {
        reached[*point as usize] = true;
    }
    (0..).zip(reached).filter(|(_, reached)| !reached).map(|(point, _)| point).collect()
}

/// How many faces each edge lies in.
fn edges(faces: &[[u32; 3]]) -> HashMap<[u32; 2], u32> {
    let mut edges = HashMap::new();
    for [a, b, c] in faces {
        for [p, q] in [[a, b], [b, c], [c, a]] {
            *edges.entry([*p.min(q), *p.max(q)]).or_insert(0) += 1;
        }
    }
    edges
}

fn difference(p: [f32; 3], q: [f32; 3]) -> [f64; 3] {
    [0, 1, 2].map(|i| f64::from(q[i]) - f64::from(p[i]))
}

/// The cross product of a face's first two edges, in doubles.
pub fn cross(points: &[[f32; 3]], [a, b, c]: [u32; 3]) -> [f64; 3] {
    let [a, b, c] = [a, b, c].map(|point| points[point as usize]);
    let (u, v) = (difference(a, b), difference(a, c));
    [u[1] * v[2] - u[2] * v[1], u[2] * v[0] - u[0] * v[2], u[0] * v[1] - u[1] * v[0]]
}

fn area(points: &[[f32; 3]], face: [u32; 3]) -> f64 {
    let [x, y, z] = cross(points, face);
    (x * x + y * y + z * z).sqrt() / 2.0
}

pub fn of(laid: &Laid) -> Figures {
    let edges = edges(&laid.faces);
    let open_edges = edges.values().filter(|faces| **faces == 1).count();
    Figures {
        points: laid.scan.points.len(),
        faces: laid.faces.len(),
        seeds: laid.seeds,
        looks: laid.looks,
        pivots: laid.pivots,
        reached: laid.scan.points.len() - unreached(laid).len(),
        open_edges,
        shared_edges: edges.len() - open_edges,
        area: laid.faces.iter().map(|face| area(&laid.scan.points, *face)).sum(),
        radius: laid.radius,
        radius_estimated: laid.estimated,
        radii: laid.radii.clone(),
    }
}
