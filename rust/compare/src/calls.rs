//! The comparisons with independent Rust, over the library's calls.

use compare::cloud::{self, CloudRead};
use compare::order::{self, Ordered};
use compare::{index, season, stl};
use std::path::Path;
use yarrowbleat::sys;

fn read_cloud(bytes: &[u8], points: &mut [f32], normals: &mut [f32]) -> CloudRead {
    let r = sys::read_cloud(bytes, points, normals);
    CloudRead { answer: r.answer, detail: r.detail, radius: r.radius, count: r.count }
}

fn order_patch(bytes: &[u8], points: usize, order: &mut [u32], words: &mut [u32], floats: &mut [f32]) -> Ordered {
    let r = sys::order_patch(bytes, points, order, words, floats);
    Ordered { answer: r.answer, detail: r.detail, faces: r.faces, seeds: r.seeds }
}

fn order_faces(faces: &[u32], points: usize, order: &mut [u32], words: &mut [u32], floats: &mut [f32]) -> Ordered {
    let r = sys::order_faces(faces, points, order, words, floats);
    Ordered { answer: r.answer, detail: r.detail, faces: r.faces, seeds: r.seeds }
}

/// Writes STL files for other programs to read; whether that was done.
pub fn stl_files(data: &str, folder: &str) -> bool {
    let written = stl::readers::write(Path::new(data), Path::new(folder));
    if let Err(error) = &written {
        eprintln!("compare: {error}");
    }
    written.is_ok()
}

/// A comparison with independent Rust, or none of this name: whether nothing differs.
pub fn independent(command: &str, numbers: &[u64]) -> Option<bool> {
    let &[count, seed, ref rest @ ..] = numbers else { return None };
    let first = rest.first().copied();
    let start = first.unwrap_or(0);
    let tally = season::Side { add: sys::tally_add, figures: sys::tally_figures };
    let facets = stl::Side { write: sys::write_stl, read: sys::read_stl };
    Some(match command {
        "cloud" => cloud::compare("cloud files", count, seed, start, read_cloud),
        "decimals" => cloud::decimals::compare(count, seed, read_cloud),
        "season" => season::compare("seasons", count, seed, start, &tally),
        "stl" => stl::compare("stl", count, seed, start, &facets),
        "index" => {
            index::compare("index", count, seed, first.map_or(100, |spots| spots as usize), &index::linked::Port)
        }
        "order" => order::compare("files of faces", count, seed, start, order_patch),
        "order-numbers" => order::compare_numbers("faces", count, seed, order_faces),
        "patches" => order::compare_patches(count as usize, seed, order_patch),
        _ => return None,
    })
}
