//! Scans as scanners write them, and what is told of files that are none.

mod common;
use common::*;
use std::fs;

/// A scan's points as `convert` writes them at radius 1.
fn converted(path: &str) -> String {
    said(&["convert", path, "--radius", "1"])
}

/// What MeshLab wrote of the bell wall (see tests/data/README.md) becomes the bell wall again.
#[test]
fn meshlab() {
    let bell = fs::read_to_string(data("bell.csv")).unwrap();
    for name in ["meshlab-ascii.ply", "meshlab-binary.ply", "meshlab.xyz"] {
        assert_eq!(said(&["convert", &data(name), "--radius", "0.3"]), bell, "{name}");
    }
    let lay = |name: &str| said(&["lay", "--listing", "--radius", "0.3", &data(name)]);
    assert_eq!(lay("meshlab-binary.ply"), lay("bell.csv"));
}

const MIXED: &str = "1\n0.25,-2,30,0,0,1\n0.125,0,-0.5,0,0,-1\n";

/// Further properties, lists, an element before, doubles, other names for normals, CR LF, comments in Latin-1.
#[test]
fn ply_forms() {
    let here = folder("ply-forms");
    let mixed = b"ply\r\nformat ascii 1.0\r\ncomment Gr\xfc\xdfe\r\nelement camera 1\r\nproperty list uchar int ids\r\n\
        property double f\r\nelement vertex 2\r\nproperty uchar red\r\nproperty double Normal_Z\r\nproperty double x\r\n\
        property double y\r\nproperty list uchar float extra\r\nproperty double z\r\nproperty float normal_x\r\n\
        property float ny\r\nelement face 1\r\nproperty list uchar int vertex_indices\r\nend_header\r\n3 1 2 3 0.5\r\n\
        255 1 0.25 -2 2 7 8 3e1 0 0\r\n\r\n0 -1 0.125 0 0 -0.5 0 0\r\n3 0 1 1\r\n";
    assert_eq!(converted(&file(&here, "mixed.ply", mixed)), MIXED);
    let header = "ply\nformat FORMAT 1.0\nelement camera 2\nproperty list int double ids\nproperty short s\n\
        element vertex 2\nproperty short x\nproperty list uchar ushort extra\nproperty double y\nproperty float z\n\
        property char nx\nproperty uint ny\nproperty ushort nz\nend_header\n";
    for big in [false, true] {
        let mut body: Vec<Vec<u8>> = Vec::new();
        for camera in 0..2 {
            body.push(2i32.to_le_bytes().into());
            body.extend([1.5f64, 2.5].map(|x| x.to_le_bytes().into()));
            body.push((camera as i16).to_le_bytes().into());
        }
        for (x, y, z) in [(7i16, -2.5f64, 0.5f32), (-300, 1e3, 2.0)] {
            body.extend([x.to_le_bytes().into(), vec![1], 9u16.to_le_bytes().into()]);
            body.extend([y.to_le_bytes().into(), z.to_le_bytes().into()]);
            body.extend([vec![0xff], 0u32.to_le_bytes().into(), 1u16.to_le_bytes().into()]);
        }
        let turned = |number: Vec<u8>| if big { number.into_iter().rev().collect() } else { number };
        let format = if big { "binary_big_endian" } else { "binary_little_endian" };
        let mut bytes = header.replace("FORMAT", format).into_bytes();
        bytes.extend(body.into_iter().flat_map(turned));
        let expected = "1\n7,-2.5,0.5,-1,0,1\n-300,1000,2,-1,0,1\n";
        assert_eq!(converted(&file(&here, "binary.ply", bytes)), expected, "{format}");
    }
}

/// Lines of numbers with all that stands around them.
#[test]
fn lines_of_numbers() {
    let here = folder("lines");
    for (name, text) in [
        ("blanks", "0.25 -2 30 0 0 1\n0.125\t0  -0.5 0 0 -1\n"),
        ("commas", "0.25,-2,30,0,0,1\r\n0.125,0,-0.5, 0, 0,-1\r\n"),
        ("semicolons", "\u{feff}0.25;-2;30;0;0;1\n0.125;0;-0.5;0;0;-1;\n"),
        ("decimal commas", "0,25;-2;30;0;0;1\n0,125;0;-0,5;0;0;-1\n"),
        ("decimal commas and blanks", "0,25 -2,0 30 0 0 1\n0,125 0 -0,5 0 0 -1\n"),
        ("remarks", "# a scan\n// x\n\n0.25 -2 30 0 0 1 # first\n0.125 0 -0.5 0 0 -1 // last\n"),
        ("header", "X Y Z Nx Ny Nz\n0.25 -2 30 0 0 1\n0.125 0 -0.5 0 0 -1\n"),
        ("CloudCompare", "//X,Y,Z,R,G,B,Nx,Ny,Nz\n0.25,-2,30,1,2,3,0,0,1\n0.125,0,-0.5,3,4,5,0,0,-1\n"),
        ("other order", "\"nx\" \"ny\" \"nz\" X[m] Y[m] Z[m] t\n0 0 1 0.25 -2 30 7\n0 0 -1 0.125 0 -0.5 7\n"),
        ("title", "Scan of the tenor bell\n0.25 -2 30 0 0 1\n0.125 0 -0.5 0 0 -1\n"),
        ("count and decimal commas", "2\n0,25 -2,0 30 0 0 1\n0,125 0 -0,5 0 0 -1\n"),
        ("count", "2\n0.25 -2 30 0 0 1\n0.125 0 -0.5 0 0 -1\n"),
        ("colours last", "0.25 -2 30 0 0 1 255 0 0\n0.125 0 -0.5 0 0 -1 0 1 2\n"),
        ("colours first", "0.25 -2 30 255 0 0 0 0 1\n0.125 0 -0.5 1 0 2 0.0 0 -1\n"),
    ] {
        assert_eq!(converted(&file(&here, "scan.xyz", text)), MIXED, "{name}");
    }
    let seven = file(&here, "seven.xyz", "0.25 -2 30 7 0 0 1\n0.125 0 -0.5 7 0 0 -1\n");
    let (status, line) = failed(&["lay", &seven]);
    assert!(status == 30 && line.contains("--columns x,y,z,-,nx,ny,nz"), "{line}");
    assert_eq!(said(&["convert", &seven, "--columns", "x,y,z,-,nx,ny,nz", "--radius", "1"]), MIXED);
}

/// Each file that is no scan is refused with its own cause and the status of its answer.
#[test]
fn no_scans() {
    let here = folder("no-scans");
    let header = "ply\nformat ascii 1.0\nelement vertex 2\nproperty float x\nproperty float y\nproperty float z\n";
    let ascii = format!("{header}property float nx\nproperty float ny\nproperty float nz\nend_header\n");
    let scans: [(&str, i32, &str); 21] = [
        ("", 21, "the file is empty"),
        ("0 0 0 0 0\n", 30, "line 1: it has 5 numbers"),
        ("0 0 0 0 0 1\n0 0 x 0 0 1\n", 30, "line 2: x is no number"),
        ("0 0 0 0 0 1\n0 0 0 0 0\n", 30, "line 2: it has 5 numbers, and the lines before have 6"),
        ("0 0 0 10 20 255\n1 1 1 3 4 5\n", 30, "its points have no normals"),
        ("0,1,0.5 0 0 1\n", 30, "commas and blanks part its numbers by turns"),
        ("3\n0 0 0 0 0 1\n", 30, "its first line counts 3 points, and 1 lines of numbers follow"),
        ("a\nb\n", 30, "has no line of numbers"),
        (&format!("{header}end_header\n0 0 0\n"), 30, "its vertices have no nx: export the scan with normals"),
        (&format!("{ascii}0 0 0 0 0 1\n0 0"), 30, "line 12: it has fewer numbers than the 6 of a vertex"),
        (&format!("{ascii}0 0 0 0 0 1\n"), 30, "the file ends before its vertex 2 of 2"),
        (&format!("{ascii}0 0 0 0 0 1\n0 0 0 0 0 1\n1 1 1 0 0 1\n"), 30, "the file goes on after them"),
        (&ascii.replace("ascii", "binary_little_endian"), 30, "the file ends before its vertex 1 of 2"),
        (&ascii.replace("vertex 2", "face 0"), 30, "the PLY file has no vertices"),
        (&ascii.replace("format ascii 1.0\n", ""), 30, "the PLY header has no line `format`"),
        (&ascii.replace("float x", "real x"), 30, "the PLY header has an unknown type, real"),
        (&ascii.replace("float y", "float x"), 30, "its vertices have x twice"),
        ("ply\nformat ascii 1.0\n", 30, "the PLY header has no end"),
        ("v 0 0 0\nf 1 2 3\n", 30, "this is an OBJ file"),
        ("0.3\n0 0 0 0 0 1\n", 30, "line 1: it is one number, as in a cloud file"),
        ("0 0 0 0 0 1\r1 0 0 0 0 1\r", 30, "its lines end in CR alone"),
    ];
    for (scan, expected, why) in scans {
        let (status, line) = failed(&["lay", &file(&here, "scan", scan)]);
        assert!(status == expected && line.contains(why), "{scan}: {status}, {line}");
    }
    let kinds: [(&[u8], &str); 5] = [
        (b"\x89PNG\r\n\x1a\n\0\0\0\rIHDR", "a PNG picture"),
        (b"PK\x03\x04\x14\0", "a ZIP archive"),
        (b"LASF\0\0", "a LAS or LAZ scan, which has no normals"),
        (b"\xff\xfe0\0", "text in UTF-16"),
        (b"\0\x01\x02", "a binary file"),
    ];
    for (bytes, kind) in kinds {
        let (status, line) = failed(&["lay", &file(&here, "scan", bytes)]);
        assert!(status == 30 && line.contains(kind), "{line}");
    }
    let stl = here.join("bell.stl").to_str().unwrap().to_string();
    said(&["stl", &data("bell.csv"), "-o", &stl]);
    assert!(failed(&["lay", &stl]).1.contains("an STL file, faces and no scan"));
}

/// A cloud file that is not quite one: the cause is told, and `convert` mends what it can.
#[test]
fn cloud_files() {
    let here = folder("cloud-files");
    let bell = fs::read_to_string(data("bell.csv")).unwrap();
    let crlf = bell.replace('\n', "\r\n");
    for (text, why) in [
        (crlf.clone(), "its lines end in CR LF instead of LF; `yarrowbleat convert` mends it"),
        (format!("\u{feff}{bell}"), "the file begins with a byte order mark"),
        (format!("\u{feff}{crlf}"), "the file begins with a byte order mark, its lines end in CR LF"),
        (bell.trim_end().to_string(), "its last line has no line feed"),
        (bell.replace(',', ", "), "there are blanks beside its numbers"),
    ] {
        let path = file(&here, "cloud.csv", &text);
        let (status, line) = failed(&["lay", &path]);
        assert!(status == 30 && line.contains(why), "{line}");
        assert_eq!(said(&["convert", &path]), bell);
    }
    for (text, why) in [
        ("0.3\n0,0,0,0,0,1\n1,0,0.1234567,0,0,1\n", "0.1234567: a number of a cloud file is"),
        ("0.3\n0,0,0,0,0\n", "it has 5 fields where the six numbers"),
        ("0.3\n0,0,0,0,0,1\n\n1,0,0,0,0,1\n", "it is empty"),
    ] {
        let (status, line) = failed(&["lay", &file(&here, "cloud.csv", text)]);
        assert!(status == 30 && line.contains(why), "{line}");
    }
    // Numbers in another form are converted where six places keep them.
    let other = file(&here, "other.csv", "3e-1\n0.0000000,0,0,0,0,1\n1,0,5e-1,0,0,1\n");
    assert!(failed(&["lay", &other]).1.contains("`yarrowbleat convert` reads others too"));
    assert_eq!(said(&["convert", &other]), "0.3\n0,0,0,0,0,1\n1,0,0.5,0,0,1\n");
    let three = file(&here, "three.csv", "3\n0,0,0,0,0,1\n1,0,0,0,0,1\n0,1,0,0,0,1\n");
    let output = run(&["lay", &three]);
    assert!(output.status.success() && text(&output.stderr).contains("was taken as the radius"));
}

/// No face depends on normals, so that a scan without them can be laid.
#[test]
fn without_normals() {
    let here = folder("without-normals");
    let lines = |count: usize| {
        let lines = fs::read_to_string(data("meshlab.xyz")).unwrap();
        let short = |line: &str| line.split_whitespace().take(count).collect::<Vec<_>>().join(" ") + "\n";
        lines.lines().map(short).collect::<String>()
    };
    let path = file(&here, "scan.xyz", lines(3));
    assert!(failed(&["lay", &path]).1.contains("--without-normals"));
    let bare = said(&["lay", &path, "--without-normals", "--listing", "--radius", "0.3"]);
    assert_eq!(bare, said(&["lay", &data("bell.csv"), "--listing"]));
    assert_eq!(failed(&["stl", &path, "--without-normals", "--by-normals", "-o", "-"]).0, 1);
}

/// More than 4,096 points are refused at once by the header's count, and --thin and --crop make a cloud of them.
#[test]
fn many_points() {
    let here = folder("many-points");
    let names: String = ["x", "y", "z", "nx", "ny", "nz"].map(|name| format!("property float {name}\n")).concat();
    let header = format!("ply\nformat binary_little_endian 1.0\nelement vertex 80000000\n{names}end_header\n");
    let (status, line) = failed(&["lay", &file(&here, "header.ply", header)]);
    assert!(status == 23 && line.contains("80,000,000 points") && line.contains("--thin 4096"), "{line}");
    let points = wall(&mut Draw(3), 100, 100);
    let path = file(&here, "wall.ply", binary_ply(&points));
    let output = run(&["lay", &path, "--thin", "4096", "--json"]);
    let json: serde_json::Value = serde_json::from_slice(&output.stdout).unwrap();
    let told = text(&output.stderr);
    assert!(output.status.success() && told.contains("another cloud than the scan"), "{told}");
    let (kept, left) = (json["points"].as_u64().unwrap(), &json["left_out"]);
    assert!((1000..=4096).contains(&kept), "{kept}");
    assert_eq!((left["scanned"].as_u64(), left["thinned"].as_u64()), (Some(10_000), Some(10_000 - kept)));
    let cell = left["cell"].as_f64().unwrap();
    assert_eq!(thinned(&points, cell).len() as u64, kept);
    // The points are those of the rule, in the scan's order, and the next smaller side would leave too many.
    let out = here.join("kept.obj").to_str().unwrap().to_string();
    said(&["stl", &path, "--thin", "4096", "-o", &out, "--quiet", "--radius", "0.01"]);
    let vertices: Vec<String> = fs::read_to_string(out).unwrap().lines().map(String::from).collect();
    let expected = thinned(&points, cell).into_iter().map(|p| format!("v {} {} {}", p[0], p[1], p[2]));
    assert!(expected.zip(&vertices).all(|(expected, vertex)| expected == *vertex));
    let next = [8.0 / 7.0, 5.0 / 4.0, 6.0 / 5.0, 7.0 / 6.0].map(|step| thinned(&points, cell / step).len());
    assert!(next.iter().any(|count| *count > 4096), "{next:?}");
}

/// One point a cell, the lowest-numbered.
fn thinned(points: &[[f32; 6]], side: f64) -> Vec<[f32; 6]> {
    let mut cells = std::collections::HashSet::new();
    let cell = |p: &[f32; 6]| [p[0], p[1], p[2]].map(|x| (f64::from(x) / side).floor() as i64);
    points.iter().filter(|p| cells.insert(cell(p))).copied().collect()
}

#[test]
fn cropped() {
    let here = folder("cropped");
    let lines: String = (0..5000).map(|i| format!("{} {} 0 0 0 1\n", i % 100, i / 100)).collect();
    let path = file(&here, "wall.xyz", format!("{lines}nan nan nan 0 0 1\n"));
    let (status, line) = failed(&["lay", &path]);
    assert!(status == 23 && line.contains("more than 4,096 points"), "{line}");
    let output = run(&["convert", &path, "--crop=3,3,0,-1,-1,0", "--radius", "1"]);
    assert_eq!(text(&output.stdout).lines().count(), 17);
    let told = text(&output.stderr);
    let words = "16 of 5,001 points, 4,985 were left out (1 are no numbers, 4,984 lie outside the crop)";
    assert!(told.contains(words), "{told}");
    let (status, line) = failed(&["lay", &path, "--crop", "3,3,1,4,4,2"]);
    assert!(status == 21 && line.contains("no point of the scan is left"), "{line}");
    let (status, line) = failed(&["lay", &path, "--crop", "3,3,1"]);
    assert!(status == 1 && line.contains("two corners"), "{line}");
    // A cloud file above a mebibyte is read line by line, at the same values.
    let cloud: String = (0..60_000).map(|i| format!("{}.5,{},0.000000,0,0,1\n", i % 300, i / 300)).collect();
    let large = file(&here, "large.csv", format!("0.9\n{cloud}"));
    assert_eq!(failed(&["lay", &large]).0, 23);
    let kept = said(&["convert", &large, "--crop", "0,0,0,2,1,0", "--quiet"]);
    assert_eq!(kept, "0.9\n0.5,0,0,0,0,1\n1.5,0,0,0,0,1\n0.5,1,0,0,0,1\n1.5,1,0,0,0,1\n");
}
