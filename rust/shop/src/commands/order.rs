//! `yarrowbleat order`: whether faces of another program could be a patch in shape.

use super::json;
use crate::failure::Failure;
use crate::output;
use crate::words::Order;
use serde::Serialize;
use std::io::Read;

#[derive(Serialize)]
struct Ordered<'a> {
    file: String,
    faces: usize,
    seeds: u32,
    order: &'a [u32],
}

/// The largest file of faces that is read: far more than the library takes.
const MOST: u64 = 1 << 24;

pub fn bytes_of(path: &std::path::Path) -> Result<Vec<u8>, Failure> {
    let mut bytes = Vec::new();
    let read = match path.to_str() {
        Some("-") => std::io::stdin().take(MOST).read_to_end(&mut bytes),
        _ => std::fs::File::open(path).and_then(|file| file.take(MOST).read_to_end(&mut bytes)),
    };
    read.map_err(|error| Failure::new(error).at(path))?;
    Ok(bytes)
}

/// One more than the highest number of the file, whatever else stands there.
fn points_of(bytes: &[u8]) -> usize {
    let numbers = bytes.split(|b| !b.is_ascii_digit()).filter_map(|word| std::str::from_utf8(word).ok()?.parse().ok());
    numbers.max().map_or(0, |highest: usize| highest.saturating_add(1))
}

pub fn run(words: &Order) -> Result<(), Failure> {
    let bytes = bytes_of(&words.faces)?;
    let points = words.points.unwrap_or_else(|| points_of(&bytes));
    let found = yarrowbleat::order_patch(&bytes, points).map_err(|error| {
        let remedy = match error {
            yarrowbleat::Error::Line(_) => "a line is three point numbers a,b,c from 0, ended by a line feed",
            _ => "",
        };
        Failure::of(error, remedy).at(&words.faces)
    })?;
    if words.json {
        let (file, faces) = (words.faces.display().to_string(), found.order.len());
        return output::print(json(&Ordered { file, faces, seeds: found.seeds, order: &found.order })?);
    }
    let order: String = found.order.iter().map(|face| format!(" {face}")).collect();
    output::print(format!("faces {}, seeds {}, in the order:{order}\n", found.order.len(), found.seeds))
}
