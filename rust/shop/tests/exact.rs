//! A scan is laid at its own f32 values: the faces are the library's own on these.

mod common;
use common::*;

/// Scans in metres as binary PLY files, of which the old six places changed nearly every coordinate.
#[test]
fn metre_scale_scans() {
    let here = folder("metres");
    let mut draw = Draw(41);
    let mut words: Vec<String> = ["lay", "--listing", "--radius", "0.003"].map(String::from).into();
    let mut expected = String::new();
    let mut faces = 0;
    for number in 0..1000 {
        let points = wall(&mut draw, 10 + number % 7, 12 + number % 5);
        let path = file(&here, &format!("{number:04}.ply"), binary_ply(&points));
        let listing = listing(&points, 0.003).expect("a wall that is laid");
        faces += listing.lines().count() - 3;
        expected += &format!("file,{path}\n{listing}");
        words.push(path);
    }
    assert!(faces > 100_000, "{faces} faces");
    assert!(said(&words) == expected, "a listing differs");
}

/// ASCII text, doubles, big-endian bytes and lines of numbers give the same faces as the floats.
#[test]
fn every_form() {
    let here = folder("every-form");
    let points = wall(&mut Draw(7), 20, 23);
    let expected = listing(&points, 0.003).unwrap();
    let header = |format: &str, kind: &str| {
        let names = ["x", "y", "z", "normal_x", "normal_y", "normal_z"].map(|name| format!("property {kind} {name}\n"));
        format!("ply\nformat {format} 1.0\nelement vertex 460\n{}end_header\n", names.concat())
    };
    let lines: String = points.iter().map(|p| p.map(|x| x.to_string()).join(" ") + "\n").collect();
    let little = |bytes: Vec<u8>| [header("binary_little_endian", "double").into_bytes(), bytes].concat();
    let doubles: Vec<u8> = points.as_flattened().iter().flat_map(|x| f64::from(*x).to_le_bytes()).collect();
    let big: Vec<u8> = points.as_flattened().iter().flat_map(|x| x.to_be_bytes()).collect();
    let files = [
        ("ascii.ply", [header("ascii", "float"), lines.clone()].concat().into_bytes()),
        ("ascii-double.ply", [header("ascii", "double"), lines.clone()].concat().into_bytes()),
        ("double.ply", little(doubles)),
        ("big.ply", [header("binary_big_endian", "float").into_bytes(), big].concat()),
        ("lines.xyz", lines.into_bytes()),
    ];
    for (name, bytes) in files {
        let path = file(&here, name, bytes);
        assert_eq!(said(&["lay", "--listing", "--radius", "0.003", &path]), expected, "{name}");
    }
}

/// A double is rounded once: the nearest f32 of a double just above a tie is not that of the tie.
#[test]
fn doubles_are_rounded_once() {
    let here = folder("once");
    let tie = 1.0 + f64::from(f32::EPSILON) / 2.0;
    let above = f64::from_bits(tie.to_bits() + 1);
    let names: String = ["x", "y", "z", "nx", "ny", "nz"].map(|name| format!("property double {name}\n")).concat();
    let header = format!("ply\nformat binary_little_endian 1.0\nelement vertex 3\n{names}end_header\n");
    let points: [[f64; 6]; 3] =
        [[tie, 0.0, 0.0, 0.0, 0.0, 1.0], [above, 1.0, 0.0, 0.0, 0.0, 1.0], [0.0, 1.0, 0.0, 0.0, 0.0, 1.0]];
    let mut bytes = header.into_bytes();
    bytes.extend(points.as_flattened().iter().flat_map(|x| x.to_le_bytes()));
    let path = file(&here, "scan.ply", bytes);
    let out = here.join("mesh.obj");
    said(&["stl", &path, "--radius", "1", "-o", out.to_str().unwrap()]);
    let mesh = std::fs::read_to_string(out).unwrap();
    assert!(mesh.starts_with("v 1 0 0\nv 1.0000001 1 0\nv 0 1 0\n"), "{mesh}");
}
