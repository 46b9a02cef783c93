//! The subcommands that pass the library's other calls on: faces for viewers, verdicts, seasons, orders, settings.

mod common;
use common::*;
use serde_json::Value;
use std::fs;

/// STL, PLY and OBJ have the same faces, as laid, turned or by normals.
#[test]
fn meshes() {
    let here = folder("meshes");
    let hole = data("hole.csv");
    let out = |name: &str| here.join(name).to_str().unwrap().to_string();
    let write = |words: &[&str], name: &str| {
        said(&[&["stl", &hole, "-o", &out(name)][..], words].concat());
        fs::read(out(name)).unwrap()
    };
    let cloud = yarrowbleat::read_cloud(&fs::read(&hole).unwrap()).unwrap();
    let config = yarrowbleat::BallPivotingConfig::new(cloud.radius);
    let traced =
        |turned| yarrowbleat::reconstruct_with_origins(&cloud.points, &cloud.normals, &config, turned).unwrap().patch;
    let (laid, turned) = (traced(false), traced(true));
    assert_eq!(write(&[], "laid.stl"), yarrowbleat::write_stl(&laid, &cloud.points).unwrap());
    assert_eq!(write(&["--turned"], "turned.stl"), yarrowbleat::write_stl(&turned, &cloud.points).unwrap());
    let facets = yarrowbleat::read_stl(&write(&["--by-normals"], "sided.stl")).unwrap();
    let mut swapped = 0;
    for (facet, face) in facets.iter().zip(&laid.faces) {
        let [a, b, c] = face.map(|point| cloud.points[point as usize]);
        swapped += usize::from(*facet == [b, a, c]);
        assert!(*facet == [a, b, c] || *facet == [b, a, c]);
        assert!(along(*facet, face.map(|point| cloud.normals[point as usize])) >= 0.0);
    }
    assert!(swapped > 0 && swapped < facets.len());
    let obj = String::from_utf8(write(&[], "laid.obj")).unwrap();
    let faces = obj.lines().filter(|line| line.starts_with("f "));
    let expected = laid.faces.iter().map(|f| f.map(|p| format!(" {0}//{0}", p + 1)).concat());
    assert!(faces.map(|line| line[1..].to_string()).eq(expected));
    // A PLY file with faces is a scan again, at the same values.
    write(&["--turned"], "turned.ply");
    let again = said(&["lay", "--listing", "--radius", &cloud.radius.to_string(), &out("turned.ply")]);
    assert_eq!(again, said(&["lay", "--listing", &hole]));
    let (status, line) = failed(&["stl", &hole, "--turned", "--by-normals", "-o", "-"]);
    assert!(status == 1 && line.contains("cannot be used with"), "{line}");
}

/// How far a facet looks along the mean of three normals.
fn along(facet: [[f32; 3]; 3], normals: [[f32; 3]; 3]) -> f64 {
    let [a, b, c] = facet.map(|corner| corner.map(f64::from));
    let [u, v] = [b, c].map(|p| [p[0] - a[0], p[1] - a[1], p[2] - a[2]]);
    let cross = [u[1] * v[2] - u[2] * v[1], u[2] * v[0] - u[0] * v[2], u[0] * v[1] - u[1] * v[0]];
    (0..3).map(|i| cross[i] * normals.iter().map(|n| f64::from(n[i])).sum::<f64>()).sum()
}

#[test]
fn estimates() {
    let scan = data("meshlab-binary.ply");
    let cloud = yarrowbleat::read_cloud(&fs::read(data("bell.csv")).unwrap()).unwrap();
    let radius = |percentile| yarrowbleat::estimate_optimal_radius(&cloud.points, percentile).unwrap();
    assert_eq!(said(&["estimate", &scan]), format!("{scan}: radius {}\n", radius(0.5)));
    let csv = said(&["estimate", "--csv", "--percentile", "0.9", &scan]);
    assert_eq!(csv, format!("file,status,points,percentile,radius\n{scan},0,62,0.9,{}\n", radius(0.9)));
    let object: Value = serde_json::from_str(&said(&["estimate", "--json", &scan])).unwrap();
    assert_eq!(object["radius"].as_f64().map(|radius| radius as f32), Some(radius(0.5)));
    assert_eq!(failed(&["estimate", &scan, "--percentile", "2"]).0, 26);
    // A scan without a radius is laid at the estimate to six places, as its cloud file is.
    let line = said(&["lay", &scan]);
    assert!(
        line.contains(&format!("radius {} (an estimate)", format!("{:.6}", radius(0.5)).trim_end_matches('0'))),
        "{line}"
    );
}

#[test]
fn verdicts() {
    let bell = data("bell.csv");
    let cloud = yarrowbleat::read_cloud(&fs::read(&bell).unwrap()).unwrap();
    let config = yarrowbleat::BallPivotingConfig::new(cloud.radius);
    for triple in [[0, 1, 2], [0, 29, 14], [0, 60, 30]] {
        let verdict = yarrowbleat::judge_triangle(&cloud.points, &cloud.normals, &config, triple).unwrap();
        let [a, b, c] = triple.map(|point| point.to_string());
        let expected = format!("{a}, {b}, {c}: {}, at radius {}\n", verdict.under(&config), cloud.radius);
        assert_eq!(said(&["why", &bell, &a, &b, &c]), expected);
        let object: Value = serde_json::from_str(&said(&["why", "--json", &bell, &a, &b, &c])).unwrap();
        assert_eq!(object["words"], verdict.under(&config).to_string());
    }
    assert_eq!(failed(&["why", &bell, "0", "1", "62"]).0, 34);
    assert_eq!(failed(&["why", &bell, "0", "1", "1"]).0, 37);
}

#[test]
fn nearest_points() {
    let here = folder("nearest");
    let bell = data("bell.csv");
    let cloud = yarrowbleat::read_cloud(&fs::read(&bell).unwrap()).unwrap();
    let spots = [[0.5f32, -0.25, 0.125], [-1.0, 2.0, -3.0]];
    let mut expected = String::new();
    for [x, y, z] in spots {
        let to = |point: &[f32; 3]| yarrowbleat::distance(point, &[x, y, z]);
        let least = cloud.points.iter().map(to).fold(f32::INFINITY, f32::min);
        let number = cloud.points.iter().position(|point| to(point) == least).unwrap();
        let [a, b, c] = cloud.points[number];
        expected += &format!("{x},{y},{z}: point {number} at {a},{b},{c}, distance {least}\n");
    }
    assert_eq!(said(&["nearest", &bell, "0.5", "-0.25", "0.125", "-1", "2", "-3"]), expected);
    let file = file(&here, "spots", "0.5 -0.25 0.125\n-1 2 -3\n");
    assert_eq!(said(&["nearest", &bell, "--spots", &file]), expected);
    let json = said(&["nearest", &bell, "--spots", &file, "--json"]);
    assert!(json.lines().all(|line| serde_json::from_str::<Value>(line).unwrap()["point"].is_u64()));
    assert_eq!(failed(&["nearest", &bell, "1", "2"]).0, 1);
}

/// The figures of the season that the example prints, with decimals, and files by their names.
#[test]
fn seasons() {
    let season = format!("{DATA}/../season");
    let figures = said(&["season", &season]);
    let plain: String = figures
        .lines()
        .map(|line| {
            line.replace(&format!("{season}/"), "")
                .split(" (")
                .map(|part| part.split_once(')').map_or(part, |(_, rest)| rest))
                .collect::<String>()
                + "\n"
        })
        .collect();
    assert_eq!(plain, fs::read_to_string(format!("{season}/expected")).unwrap());
    let object: Value = serde_json::from_str(&said(&["season", "--json", &season])).unwrap();
    let mean = &object["faces_mean"];
    let decimal = mean["numerator"].as_f64().unwrap() / mean["denominator"].as_f64().unwrap();
    assert_eq!(mean["decimal"].as_f64(), Some(decimal));
    let output = run(&["season", &season, &case("two-points")]);
    assert_eq!(output.status.code(), Some(28));
    assert_eq!(text(&output.stdout), figures);
    assert_eq!(failed(&["season", &case("two-points")]).0, 28);
}

#[test]
fn orders() {
    let here = folder("orders");
    let faces = file(&here, "faces", "1,2,3\n5,6,7\n0,1,2\n");
    let found = yarrowbleat::order_patch(&fs::read(&faces).unwrap(), 8).unwrap();
    let order: String = found.order.iter().map(|face| format!(" {face}")).collect();
    assert_eq!(said(&["order", &faces]), format!("faces 3, seeds {}, in the order:{order}\n", found.seeds));
    let object: Value = serde_json::from_str(&said(&["order", "--json", &faces, "--points", "9"])).unwrap();
    assert_eq!(object["seeds"].as_u64(), Some(found.seeds.into()));
    assert_eq!(failed(&["order", &faces, "--points", "7"]).0, 34);
    assert_eq!(failed(&["order", &file(&here, "none", "0,1,2\n2,3,4\n")]).0, 43);
    let (status, line) = failed(&["order", &file(&here, "bad", "0 1 2\n")]);
    assert!(status == 30 && line.contains("three point numbers a,b,c"), "{line}");
}

/// The printed settings are read back as the same, and each bound holds where it is said to.
#[test]
fn settings() {
    let here = folder("settings");
    let bell = data("bell.csv");
    let printed = said(&["settings", "--print"]);
    let default = file(&here, "default.toml", &printed);
    assert_eq!(said(&["settings", &default, "--print"]), printed);
    assert_eq!(said(&["lay", &bell, "--settings", &default]), said(&["lay", &bell]));
    let lay = |text: &str| run(&["lay", &bell, "--settings", &file(&here, "settings.toml", text)]);
    let usual = "radius = 0.3 # as in the file\nadditional_radii = [0.05, 0.15, 0.2]\nadaptive_percentiles=[0.25,0.5,0.75,0.9]\n";
    assert_eq!(lay(usual).stdout, run(&["lay", &bell]).stdout);
    assert!(text(&lay("adaptive_radius = false\n").stdout).contains("seeds 0,"));
    assert!(lay("frontier_rule = 2\n").status.success());
    let inside = [
        "radius = 0.001",
        "radius = 1000",
        "additional_radii = []",
        "adaptive_percentiles = [0, 1]",
        "quality_threshold = 1_000_000",
        "max_edge_factor = 0.0",
        "min_triangle_area = 0",
        "spatial_cell_factor = 0.5",
        "spatial_cell_factor = 16",
    ];
    let outside = [
        ("radius = 1001", "0.001 to 1,000"),
        ("additional_radii = [0]", "at most 8, each 0.001 to 1,000"),
        ("adaptive_percentiles = [1.1]", "each 0 to 1"),
        ("quality_threshold = -1", "0 to 1,000,000"),
        ("max_edge_factor = 1e7", "0 to 1,000,000"),
        ("min_triangle_area = -1", "0 to 1,000,000"),
        ("spatial_cell_factor = 0.4", "0.5 to 16"),
        ("spatial_cell_factor = 16.1", "0.5 to 16"),
    ];
    for line in inside {
        said(&["settings", &file(&here, "inside.toml", line)]);
    }
    for (line, bounds) in outside {
        let (status, told) = failed(&["settings", &file(&here, "outside.toml", line)]);
        assert!(status == 25 && told.contains(bounds), "{told}");
        assert!(printed.contains(bounds), "{bounds}");
    }
    let wrong = [
        "radius 1",
        "speed = 1",
        "radius = \"x\"",
        "adaptive_radius = 1",
        "frontier_rule = 0",
        "radius = 1\nradius = 2",
    ];
    for line in wrong {
        let (status, told) = failed(&["settings", &file(&here, "wrong.toml", line)]);
        assert!(status == 1 && told.contains("a setting is not understood"), "{told}");
    }
}

/// A number of a settings file is the nearest f32 to its text, not the nearest to the nearest double.
#[test]
fn settings_are_rounded_once() {
    let here = folder("settings-once");
    // Just above the middle of two f32: the nearest double is the middle itself.
    let text = "1.00000005960464477539062500000001";
    assert_ne!(text.parse::<f32>().unwrap(), text.parse::<f64>().unwrap() as f32);
    let printed = said(&["settings", "--print", &file(&here, "s.toml", format!("radius = {text}\n"))]);
    assert!(printed.contains("radius = 1.0000001\n"), "{printed}");
}

#[test]
fn verified() {
    let here = folder("verified");
    let bell = data("bell.csv");
    let listing = file(&here, "listing", said(&["lay", "--listing", &bell]));
    let stl = here.join("bell.stl").to_str().unwrap().to_string();
    let obj = here.join("bell.obj").to_str().unwrap().to_string();
    let turned = here.join("turned.stl").to_str().unwrap().to_string();
    said(&["stl", &bell, "-o", &stl]);
    said(&["stl", &bell, "-o", &obj]);
    said(&["stl", &bell, "--turned", "-o", &turned]);
    let lines = fs::read_to_string(&listing).unwrap();
    let faces: String = lines.lines().skip(3).map(|line| line.split_once(',').unwrap().1.to_string() + "\n").collect();
    let faces = file(&here, "faces", faces);
    for same in [&listing, &stl, &obj, &faces] {
        assert!(said(&["verify", &bell, same]).starts_with("the same: "), "{same}");
    }
    said(&["verify", &bell, &turned, "--turned"]);
    let (status, line) = failed(&["verify", &bell, &turned]);
    assert!(status == 12 && line.contains("face 3: the file has"), "{line}");
    let other = file(&here, "other", lines.replacen("\n7,", "\n7,9", 1));
    let (status, line) = failed(&["verify", &bell, &other]);
    assert!(status == 12 && line.contains("face 7: the file has 9"), "{line}");
    let counts = file(&here, "counts", lines.replacen("62,54,3,162", "62,54,3,163", 1));
    let (status, line) = failed(&["verify", &bell, &counts]);
    assert!(status == 12 && line.contains("the file has 163 looks, and 162 are laid"), "{line}");
    let short = file(&here, "short", lines.lines().take(10).map(|line| format!("{line}\n")).collect::<String>());
    assert!(failed(&["verify", &bell, &short]).1.contains("face 7: the file has nothing"));
    let output = run(&["verify", "--json", &bell, &other]);
    let object: Value = serde_json::from_slice(&output.stdout).unwrap();
    assert!(output.status.code() == Some(12) && object["same"] == false);
    assert_eq!(failed(&["verify", &bell, &data("README.md")]).0, 30);
}

/// The manual page has every command and every status, and shells get completions.
#[test]
fn manuals() {
    let man = said(&["man"]);
    let help = said(&["--help"]);
    let commands = help.split("Commands:").nth(1).unwrap().split("Options:").next().unwrap();
    let names: Vec<&str> =
        commands.lines().filter_map(|line| line.strip_prefix("  ")).filter(|n| !n.starts_with(' ')).collect();
    assert!(names.len() == 14, "{names:?}");
    for name in names.iter().filter(|name| **name != "help") {
        assert!(man.contains(&format!(".SS \"yarrowbleat {name}\"")), "{name}");
    }
    for status in help.split("Status").nth(1).unwrap().lines().skip(1).filter(|line| !line.trim().is_empty()) {
        let (number, words) = status.trim().split_once("  ").unwrap();
        let plain = man.replace("\\-", "-").replace("\\*(Aq", "'");
        assert!(plain.contains(words), "{number}: {words}");
    }
    for shell in ["bash", "zsh", "fish"] {
        assert!(said(&["completions", shell]).contains("require-reached"), "{shell}");
    }
}

/// Results in a watched folder would be scans.
#[test]
fn not_into_the_watched_folder() {
    let here = folder("watched-results");
    let here = here.to_str().unwrap();
    let (status, line) = failed(&["stl", "--watch", here, "--out-dir", &format!("{here}/.")]);
    assert!(status == 1 && line.contains("--out-dir is the watched folder"), "{line}");
}

/// What six places can't keep is refused, and rounded where that is asked for.
#[test]
fn converted() {
    let here = folder("converted");
    let scan = file(&here, "scan.xyz", "# a scan\n0 0 0 0 0 1\n1 0 0 0 0 1\n0 1 0.1234567 0 0 1\n");
    let (status, line) = failed(&["convert", &scan, "--radius", "2.5"]);
    let told = "1 of 19 numbers can't be kept in six places: point 2's z, 0.1234567, becomes 0.123457";
    assert!(status == 1 && line.contains(told), "{line}");
    let output = run(&["convert", &scan, "--radius", "2.5", "--rounded"]);
    assert_eq!(text(&output.stdout), "2.5\n0,0,0,0,0,1\n1,0,0,0,0,1\n0,1,0.123457,0,0,1\n");
    assert!(text(&output.stderr).contains("the faces may differ"));
    let far = file(&here, "far.xyz", "100000 0 0 0 0 1\n");
    assert!(failed(&["convert", &far, "--radius", "1", "--rounded"]).1.contains("point 0's x, 100000, has no place"));
    let estimate = run(&["convert", &data("meshlab-binary.ply")]);
    assert!(estimate.status.success() && text(&estimate.stderr).contains("an estimate; --radius gives another"));
    // The cloud file is laid as the scan is, the estimated radius included.
    let cloud = file(&here, "cloud.csv", &estimate.stdout);
    let listing = |path: &str| said(&["lay", "--listing", path]);
    assert_eq!(listing(&cloud), listing(&data("meshlab-binary.ply")));
    let many = here.join("many");
    said(&["convert", &data("bell.csv"), &data("hole.csv"), "--out-dir", many.to_str().unwrap()]);
    assert_eq!(fs::read(many.join("hole.csv")).unwrap(), fs::read(data("hole.csv")).unwrap());
}
