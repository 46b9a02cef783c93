//! Lays every cloud file of a folder, in the order of their names, and prints the figures of the season.

use std::error::Error;
use std::path::{Path, PathBuf};
use yarrowbleat::tally::{SeasonPatch, Tally};

fn clouds(folder: &Path) -> Result<Vec<PathBuf>, Box<dyn Error>> {
    let mut files = Vec::new();
    for entry in std::fs::read_dir(folder)? {
        let path = entry?.path();
        if path.extension().is_some_and(|e| e == "csv") {
            files.push(path);
        }
    }
    files.sort();
    Ok(files)
}

fn entry(number: usize, file: &Path) -> Result<SeasonPatch, Box<dyn Error>> {
    let cloud = yarrowbleat::read_cloud(&std::fs::read(file)?)?;
    let patch = yarrowbleat::ball_pivoting_from_normals(&cloud.points, &cloud.normals, cloud.radius)?;
    Ok(SeasonPatch::new(number as u32, &patch))
}

fn season(folder: &Path) -> Result<(), Box<dyn Error>> {
    let files = clouds(folder)?;
    let name = |patch: SeasonPatch| files[patch.number as usize].file_name().unwrap_or_default().to_string_lossy();
    let mut tally = Tally::new();
    for (number, file) in files.iter().enumerate() {
        match entry(number, file) {
            Ok(patch) => tally.add(patch)?,
            Err(error) => eprintln!("{}: left out, {error}", file.display()),
        }
    }
    let f = tally.figures()?;
    println!("patches: {}", f.patches);
    println!("faces: mean {}, variance {}", f.mean, f.variance);
    println!("covered: {}", f.coverage);
    println!("best: {}, {}", name(f.best), f.best_coverage);
    println!("worst: {}, {}", name(f.worst), f.worst_coverage);
    Ok(())
}

fn main() {
    let folder = std::env::args().nth(1).unwrap_or_else(|| ".".into());
    if let Err(error) = season(Path::new(&folder)) {
        eprintln!("refused: {error}");
        std::process::exit(1);
    }
}
