//! `yarrowbleat verify`: whether a file of faces is what is laid today.

use super::order::bytes_of;
use super::{json, notes, tell_notes};
use crate::faces_file::{self, FacesFile};
use crate::failure::{Failure, DIFFERENT};
use crate::laid::{Laid, Task};
use crate::output;
use crate::words::Verify;
use serde::Serialize;

#[derive(Serialize)]
struct Verified<'a> {
    file: String,
    listing: String,
    form: &'a str,
    same: bool,
    faces: usize,
    difference: Option<&'a str>,
}

/// Where two lists first differ, in words.
fn first_difference<T: PartialEq>(theirs: &[T], ours: &[T], show: impl Fn(&T) -> String) -> Option<String> {
    let at = (0..theirs.len().max(ours.len())).find(|at| theirs.get(*at) != ours.get(*at))?;
    let shown = |face: Option<&T>| face.map_or("nothing".to_string(), &show);
    Some(format!("face {at}: the file has {}, and {} is laid", shown(theirs.get(at)), shown(ours.get(at))))
}

fn by_numbers(theirs: &[[u32; 3]], ours: &[[u32; 3]]) -> Option<String> {
    first_difference(theirs, ours, |[a, b, c]| format!("{a},{b},{c}"))
}

fn counts(theirs: [u32; 5], laid: &Laid) -> Option<String> {
    let ours = [laid.scan.points.len() as u32, laid.faces.len() as u32, laid.seeds, laid.looks, laid.pivots];
    let names = ["points", "faces", "seeds", "looks", "pivots"];
    let at = (0..5).find(|at| theirs[*at] != ours[*at])?;
    Some(format!("the file has {} {}, and {} are laid", theirs[at], names[at], ours[at]))
}

/// Corners as bits, so that no two numbers count as equal that are not the same.
fn by_corners(theirs: &[[[f32; 3]; 3]], laid: &Laid) -> Option<String> {
    let bits = |corners: [[f32; 3]; 3]| corners.map(|corner| corner.map(f32::to_bits));
    let theirs: Vec<_> = theirs.iter().map(|corners| bits(*corners)).collect();
    let corners = |face: &[u32; 3]| face.map(|point| laid.scan.points[point as usize]);
    let ours: Vec<_> = laid.faces.iter().map(|face| bits(corners(face))).collect();
    first_difference(&theirs, &ours, |corners| {
        let corner = |corner: [u32; 3]| corner.map(|x| f32::from_bits(x).to_string()).join(",");
        corners.map(corner).join(" ")
    })
}

/// What kind of file it is, how many faces it has, and where it first differs from what is laid.
fn compared(file: &FacesFile, laid: &Laid) -> (&'static str, usize, Option<String>) {
    match file {
        FacesFile::Listing(theirs, faces) => {
            ("a listing", faces.len(), by_numbers(faces, &laid.faces).or_else(|| counts(*theirs, laid)))
        }
        FacesFile::Numbers(form, faces) => (form, faces.len(), by_numbers(faces, &laid.faces)),
        FacesFile::Corners(facets) => ("an STL file", facets.len(), by_corners(facets, laid)),
    }
}

pub fn run(words: &Verify) -> Result<(), Failure> {
    let laid = Task::new(&words.lay, words.limit.limit, words.turned)?.lay(&words.file)?;
    tell_notes(&words.file, &notes(&laid), words.lay.quiet);
    let file = faces_file::read(&bytes_of(&words.listing)?).map_err(|failure| failure.at(&words.listing))?;
    let (form, faces, difference) = compared(&file, &laid);
    if words.json {
        let (file, listing) = (words.file.display().to_string(), words.listing.display().to_string());
        let same = difference.is_none();
        output::print(json(&Verified { file, listing, form, same, faces, difference: difference.as_deref() })?)?;
    }
    match difference {
        None if words.json => Ok(()),
        None => output::print(format!("the same: {form} of {faces} faces is what is laid today\n")),
        Some(words_) => Err(Failure::with_status(DIFFERENT, words_).at(&words.listing)),
    }
}
