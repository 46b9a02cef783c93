//! Reads a cloud file, lays a patch over it, and writes the patch as a binary STL file, which a viewer opens.

use std::error::Error;

fn write() -> Result<(), Box<dyn Error>> {
    let paths: Vec<String> = std::env::args().skip(1).collect();
    let [cloud, stl] = paths.as_slice() else { return Err("usage: stl CLOUD.csv PATCH.stl".into()) };
    let cloud = yarrowbleat::read_cloud(&std::fs::read(cloud)?)?;
    let patch = yarrowbleat::ball_pivoting_from_normals(&cloud.points, &cloud.normals, cloud.radius)?;
    std::fs::write(stl, yarrowbleat::write_stl(&patch, &cloud.points)?)?;
    Ok(())
}

fn main() {
    if let Err(error) = write() {
        eprintln!("refused: {error}");
        std::process::exit(1);
    }
}
