//! Lays a patch over a cloud file, hands its faces on in reverse, as another program might, and prints in what order
//! they could have been laid.

use std::error::Error;

fn order() -> Result<(), Box<dyn Error>> {
    let path = std::env::args().nth(1).ok_or("usage: order CLOUD.csv")?;
    let cloud = yarrowbleat::read_cloud(&std::fs::read(path)?)?;
    let patch = yarrowbleat::ball_pivoting_from_normals(&cloud.points, &cloud.normals, cloud.radius)?;
    let faces: Vec<[u32; 3]> = patch.faces.into_iter().rev().collect();
    let told = yarrowbleat::order_faces(&faces, cloud.points.len())?;
    println!("faces: {}, of these seeds: {}", faces.len(), told.seeds);
    for face in told.order {
        println!("face {face}: {:?}", faces[face as usize]);
    }
    Ok(())
}

fn main() {
    if let Err(error) = order() {
        eprintln!("refused: {error}");
        std::process::exit(1);
    }
}
