//! Reads a cloud file, lays a patch over it, and says how much of the wall was reached, and which points were not.

use std::error::Error;
use std::io::Read;

fn coverage() -> Result<(), Box<dyn Error>> {
    let mut bytes = Vec::new();
    match std::env::args().nth(1) {
        Some(path) => bytes = std::fs::read(path)?,
        None => _ = std::io::stdin().read_to_end(&mut bytes)?,
    }
    let cloud = yarrowbleat::read_cloud(&bytes)?;
    let patch = yarrowbleat::ball_pivoting_from_normals(&cloud.points, &cloud.normals, cloud.radius)?;
    let reached = patch.coverage();
    println!("faces: {}", patch.faces.len());
    println!("reached: {} of {} points", reached.covered, reached.scanned);
    let unreached: String = patch.unreached().iter().map(|point| format!(" {point}")).collect();
    println!("not reached:{unreached}");
    Ok(())
}

fn main() {
    if let Err(error) = coverage() {
        eprintln!("refused: {error}");
        std::process::exit(1);
    }
}
