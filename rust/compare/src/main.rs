//! compare COMMAND: the comparisons of the port. Without a command it says which there are.

mod calls;

use compare::sides::Linked;
use compare::{alone, clouds, lay, lengths, numbers, origins, shrink, triangles, verdicts};
use std::io::Read;

const USAGE: &str = "usage:
  with the published Rust:
  compare numbers COUNT SEED              roots, arc cosines, cuts, min, max, clamp
  compare roots STEP                      the root of every STEP-th pattern
  compare cuts STEP                       the cut of every STEP-th pattern, and of its ceil
  compare lengths COUNT SEED              the largest error of a length, beside its bound
  compare triangles COUNT SEED [FIRST]    circumradius, quality, acceptance
  compare verdicts COUNT SEED [FIRST]     why a triangle was turned down, of points of generated clouds
  compare estimate COUNT SEED [FIRST]     the radius estimate on generated clouds
  compare reconstruct COUNT SEED [FIRST]  the reconstruction on generated clouds
  compare origins COUNT SEED [FIRST]      the reconstruction with where each face came from, as laid and turned
  compare refused COUNT SEED [FIRST]      clouds without a triangle, for each of the reasons
  compare shrink NUMBER SEED              the smallest cloud left of a case on which the two differ
  compare lay-files COUNT SEED            target/bin/lay on drawn files
  with independent Rust:
  compare cloud COUNT SEED [FIRST]        the reader of cloud files
  compare decimals COUNT SEED             its decimals with the standard library's: every short one, COUNT random ones
  compare season COUNT SEED [FIRST]       tallies
  compare stl COUNT SEED [FIRST]          the writer and the reader of STL files
  compare index COUNT SEED [SPOTS]        the index and the nearest points, of SPOTS spots a cloud, 100 if none are named
  compare order COUNT SEED [FIRST]        orders of faces, on drawn files
  compare order-numbers COUNT SEED        orders of the same faces as numbers
  compare patches COUNT SEED              orders of faces of patches that the port lays, shuffled, turned, some spoilt
  beside these:
  compare oracle COUNT SEED [FIRST]       needs no port: what must hold of the oracle's counts, and of the amended one
  compare selftest                        needs no port: a turned bit is found
  compare lay < FILE                      what the program `lay` is to print
  compare bell SIZE SEED                  a cloud file of a bell's wall
  compare defaults                        the published settings
  compare stl-files DATA FOLDER           STL files for other programs to read, from clouds in DATA";

fn main() {
    let words: Vec<String> = std::env::args().skip(1).collect();
    let words: Vec<&str> = words.iter().map(String::as_str).collect();
    let numbers: Vec<u64> = words.iter().skip(1).filter_map(|word| word.parse().ok()).collect();
    let Some(&command) = words.first() else { usage() };
    if let ("stl-files", [_, data, folder]) = (command, words.as_slice()) {
        end(calls::stl_files(data, folder));
    }
    if numbers.len() + 1 != words.len() {
        usage();
    }
    print_text(command, &numbers);
    end(published(command, &numbers).or_else(|| calls::independent(command, &numbers)).unwrap_or_else(|| usage()));
}

fn end(right: bool) -> ! {
    std::process::exit(i32::from(!right));
}

fn usage() -> ! {
    eprintln!("{USAGE}");
    std::process::exit(2);
}

/// The commands that print a text and compare nothing; they end the program.
fn print_text(command: &str, numbers: &[u64]) {
    let text = match (command, numbers) {
        ("lay", []) => {
            let mut bytes = Vec::new();
            std::io::stdin().read_to_end(&mut bytes).expect("standard input");
            lay::printed(&bytes)
        }
        ("bell", [size, seed]) => lay::bell(*size as usize, *seed),
        ("defaults", []) => lay::defaults(),
        _ => return,
    };
    print!("{text}");
    end(true);
}

/// A comparison with the published Rust, or none of this name: whether nothing differs.
fn published(command: &str, given: &[u64]) -> Option<bool> {
    let report = match (command, given) {
        ("shrink", [number, seed]) => return Some(shrink::shrink(&Linked, *number, *seed)),
        ("lay-files", [count, seed]) => return Some(lay::files(*count, *seed)),
        ("numbers", [count, seed]) => numbers::numbers(&Linked, *count, *seed),
        ("roots", [step]) if *step > 0 => numbers::roots(&Linked, *step),
        ("cuts", [step]) if *step > 0 => numbers::cuts(&Linked, *step),
        ("lengths", [count, seed]) => lengths::lengths(&port::distance, *count, *seed),
        ("triangles", [count, seed, first @ ..]) => triangles::triangles(&Linked, *count, *seed, start(first)),
        ("verdicts", [count, seed, first @ ..]) => verdicts::verdicts(&port::judge, *count, *seed, start(first)),
        ("estimate", [count, seed, first @ ..]) => clouds::estimate(&Linked, *count, *seed, start(first)),
        ("reconstruct", [count, seed, first @ ..]) => clouds::reconstruct(&Linked, *count, *seed, start(first)),
        ("origins", [count, seed, first @ ..]) => origins::origins(&Linked, *count, *seed, start(first)),
        ("refused", [count, seed, first @ ..]) => clouds::refused(&Linked, *count, *seed, start(first)),
        ("oracle", [count, seed, first @ ..]) => alone::oracle(*count, *seed, start(first)),
        ("selftest", []) => alone::selftest(),
        _ => return None,
    };
    Some(report.finish())
}

/// The number of the first case, 0 if none is named.
fn start(first: &[u64]) -> u64 {
    first.first().copied().unwrap_or(0)
}
