//! Which of a scan's points are laid: all of at most 4,096, those in a box, or one in each cell of a grid.

use crate::failure::{grouped, Failure, BAD_POINT, NO_POINTS, TOO_MANY};
use serde::{Deserialize, Serialize};
use std::collections::HashMap;
use yarrowbleat::MAX_POINTS;

/// x, y, z and the normal.
pub type Point = [f32; 6];

/// The points that are asked for: those from one corner to the other, and at most so many of these.
#[derive(Clone, Debug, Default, PartialEq)]
pub struct Selection {
    pub crop: Option<[[f32; 3]; 2]>,
    pub thin: Option<usize>,
}

impl Selection {
    fn is_all(&self) -> bool {
        *self == Self::default()
    }
}

/// How the cloud differs from the scan.
#[derive(Clone, Debug, PartialEq, Serialize, Deserialize)]
pub struct LeftOut {
    pub scanned: u64,
    /// Points with a coordinate that is no number.
    pub not_numbers: u64,
    pub cropped: u64,
    pub thinned: u64,
    /// The side of the cells of which each keeps one point.
    pub cell: Option<f64>,
}

impl LeftOut {
    /// That this is another cloud, in words.
    pub fn words(&self) -> String {
        let left = self.not_numbers + self.cropped + self.thinned;
        let mut why = Vec::new();
        let parts = [(self.not_numbers, "are no numbers"), (self.cropped, "lie outside the crop")];
        why.extend(parts.iter().filter(|(n, _)| *n > 0).map(|(n, words)| format!("{} {words}", grouped(*n))));
        if let Some(cell) = self.cell {
            why.push(format!("{} share a cell of side {cell} with a lower-numbered point", grouped(self.thinned)));
        }
        let why = if why.is_empty() { String::new() } else { format!(" ({})", why.join(", ")) };
        let (kept, all) = (grouped(self.scanned - left), grouped(self.scanned));
        format!("another cloud than the scan: {kept} of {all} points, {} were left out{why}", grouped(left))
    }
}

/// A grid's cells, each with the lowest-numbered point in it; the side doubles until few enough are taken.
///
/// Cells of twice the side hold whole cells, so that what is kept in the end is what one pass at that side would keep.
struct Grid {
    side: f64,
    cells: HashMap<[i64; 3], (u64, Point)>,
}

impl Grid {
    fn cell(side: f64, point: &Point) -> [i64; 3] {
        [point[0], point[1], point[2]].map(|x| (f64::from(x) / side).floor() as i64)
    }

    fn add(&mut self, number: u64, point: Point, most: usize) {
        self.cells.entry(Self::cell(self.side, &point)).or_insert((number, point));
        while self.cells.len() > most {
            self.side *= 2.0;
            let mut cells: HashMap<[i64; 3], (u64, Point)> = HashMap::with_capacity(most + 1);
            for (number, point) in self.cells.drain().map(|(_, kept)| kept) {
                let kept = cells.entry(Self::cell(self.side, &point)).or_insert((number, point));
                if number < kept.0 {
                    *kept = (number, point);
                }
            }
            self.cells = cells;
        }
    }
}

/// The sides that are tried: 4, 5, 6 and 7 times powers of two, from this one on.
const LEAST_SIDE: f64 = 1.0 / (1 << 24) as f64;

/// Coordinates up to this size have cells; the library takes up to 10,000.
const FARTHEST: f32 = 1e9;

/// Takes a scan's points one by one, in bounded memory.
pub struct Keep {
    selection: Selection,
    scanned: u64,
    not_numbers: u64,
    cropped: u64,
    points: Vec<Point>,
    grids: Vec<Grid>,
}

impl Keep {
    pub fn new(selection: Selection) -> Self {
        let grid = |m: f64| Grid { side: m * LEAST_SIDE, cells: HashMap::new() };
        let grids = if selection.thin.is_some() { [4.0, 5.0, 6.0, 7.0].map(grid).into() } else { Vec::new() };
        Self { selection, scanned: 0, not_numbers: 0, cropped: 0, points: Vec::new(), grids }
    }

    /// Refuses a scan of which a header says that it has too many points, before they are read.
    pub fn expect(&self, count: u64) -> Result<(), Failure> {
        if self.selection.is_all() && count > MAX_POINTS as u64 {
            return Err(too_many(&grouped(count)));
        }
        Ok(())
    }

    pub fn take(&mut self, point: Point) -> Result<(), Failure> {
        let number = self.scanned;
        self.scanned += 1;
        let place = [point[0], point[1], point[2]];
        if !self.selection.is_all() && place.iter().any(|x| !x.is_finite()) {
            self.not_numbers += 1;
            return Ok(());
        }
        let inside = |[low, high]: &[[f32; 3]; 2]| (0..3).all(|i| low[i] <= place[i] && place[i] <= high[i]);
        if !self.selection.crop.as_ref().is_none_or(inside) {
            self.cropped += 1;
            return Ok(());
        }
        if let Some(most) = self.selection.thin {
            if place.iter().any(|x| x.abs() > FARTHEST) {
                let words = format!("point {number} is {}, {}, {}; --crop leaves it out", place[0], place[1], place[2]);
                return Err(Failure::refused(BAD_POINT, words));
            }
            self.grids.iter_mut().for_each(|grid| grid.add(number, point, most));
            return Ok(());
        }
        if self.points.len() == MAX_POINTS {
            return Err(too_many(&format!("more than {}", grouped(MAX_POINTS as u64))));
        }
        self.points.push(point);
        Ok(())
    }

    /// What was kept, in the scan's order.
    pub fn end(mut self) -> Result<(Vec<Point>, Option<LeftOut>), Failure> {
        let mut cell = None;
        // Of the grids the finest: each has at most as many cells as points are asked for.
        let finest = self.grids.into_iter().min_by(|a, b| a.side.total_cmp(&b.side));
        if let Some(grid) = finest {
            let mut kept: Vec<(u64, Point)> = grid.cells.into_values().collect();
            kept.sort_unstable_by_key(|(number, _)| *number);
            self.points = kept.into_iter().map(|(_, point)| point).collect();
            cell = Some(grid.side);
        }
        if self.points.is_empty() {
            let why = if self.scanned == 0 { "the file has no points" } else { "no point of the scan is left" };
            return Err(Failure::refused(NO_POINTS, why));
        }
        let thinned = self.scanned - self.not_numbers - self.cropped - self.points.len() as u64;
        let (scanned, not_numbers, cropped) = (self.scanned, self.not_numbers, self.cropped);
        let left = LeftOut { scanned, not_numbers, cropped, thinned, cell };
        Ok((self.points, (!self.selection.is_all()).then_some(left)))
    }
}

fn too_many(count: &str) -> Failure {
    let most = grouped(MAX_POINTS as u64);
    let words = format!(
        "the scan has {count} points, and a patch is laid over {most} at most; \
         --thin {MAX_POINTS} keeps one point a cell, --crop those in a box"
    );
    Failure::refused(TOO_MANY, words)
}
