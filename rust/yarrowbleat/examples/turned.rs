//! Reads a cloud file, lays a patch over it that faces one way, and prints each face with its parent and its radius.

use std::error::Error;
use yarrowbleat::BallPivotingConfig;

fn turned() -> Result<(), Box<dyn Error>> {
    let path = std::env::args().nth(1).ok_or("usage: turned CLOUD.csv")?;
    let cloud = yarrowbleat::read_cloud(&std::fs::read(path)?)?;
    let config = BallPivotingConfig::new(cloud.radius);
    let traced = yarrowbleat::reconstruct_with_origins(&cloud.points, &cloud.normals, &config, true)?;
    for (face, ([a, b, c], origin)) in traced.patch.faces.iter().zip(&traced.origins).enumerate() {
        let radius = traced.patch.radii[origin.place as usize];
        println!("face {face}: {a}, {b}, {c}, from face {} at radius {radius:.3}", origin.parent);
    }
    Ok(())
}

fn main() {
    if let Err(error) = turned() {
        eprintln!("refused: {error}");
        std::process::exit(1);
    }
}
