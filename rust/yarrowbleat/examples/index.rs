//! Reads two cloud files and prints, for each point of the second, the nearest point of the first and how far it is; at
//! the end how far apart the two are at most. Two scans of one wall tell so where it has changed.

use std::error::Error;
use yarrowbleat::index::Index;

fn read(path: &str) -> Result<yarrowbleat::Cloud, Box<dyn Error>> {
    Ok(yarrowbleat::read_cloud(&std::fs::read(path)?)?)
}

fn nearest() -> Result<(), Box<dyn Error>> {
    let paths: Vec<String> = std::env::args().skip(1).collect();
    let [first, second] = paths.as_slice() else { return Err("usage: index FIRST.csv SECOND.csv".into()) };
    let (first, second) = (read(first)?, read(second)?);
    let index = Index::build(&first.points)?;
    let nearest = index.nearest_distances(&first.points, &second.points)?;
    for (spot, found) in nearest.iter().enumerate() {
        println!("point {spot}: nearest is {}, {:.3} away", found.point, found.distance);
    }
    let farthest = nearest.iter().map(|found| found.distance).fold(0.0, f32::max);
    println!("at most {farthest:.3} apart");
    Ok(())
}

fn main() {
    if let Err(error) = nearest() {
        eprintln!("refused: {error}");
        std::process::exit(1);
    }
}
