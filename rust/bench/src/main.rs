//! Times the port against the machine and the Rust, in one process.
//!
//! `bench` times the root and a triangle's quality, `bench clouds` whole calls over clouds of a fixed seed, the families of
//! slow clouds among them, which `bench slow [NAME] [POINTS]` times alone. `bench hunt SECONDS SEED` looks for clouds on which
//! the port is slower than the Rust. `bench files` times the reading of cloud files, `bench stl` STL files, `bench nearest` the
//! index of points, `bench orders` the order of faces, `bench area` the refusal of clouds without area, `bench refused` that of
//! clouds over which no triangle is found, `bench rules` rule 2 beside rule 1, `bench origins` calls that tell where each face
//! came from beside those that don't. Both sides are called in turn, and the best of their rounds counts. It fails where a
//! ratio that is to be reached is not. `bench alone NAME POINTS` times the port on a family without the Rust, `bench large` the
//! families at many points.

mod clock;
mod clouds;
mod files;
mod nearest;
mod numbers;
mod orders;
mod refused;
mod slow;
mod stl;

fn main() {
    let reached = match std::env::args().nth(1).as_deref() {
        None => numbers::bench(),
        Some("clouds") => clouds::bench(),
        Some("area") => clouds::without_area(),
        Some("origins") => clouds::origins_alone(),
        Some("rules") => clouds::rules_alone(),
        Some("files") => files::bench(),
        Some("stl") => stl::bench(),
        Some("nearest") => nearest::bench(),
        Some("orders") => orders::bench(),
        Some("slow") => slow::bench(),
        Some("refused") => refused::bench(),
        Some("alone") => slow::alone(),
        Some("large") => slow::large(),
        Some("hunt") => slow::hunt(),
        Some(other) => panic!(
            "bench {other}: there are only `bench` and `bench` clouds, area, rules, origins, files, stl, nearest, orders, refused, slow, alone, large and hunt"
        ),
    };
    std::process::exit(i32::from(!reached));
}
