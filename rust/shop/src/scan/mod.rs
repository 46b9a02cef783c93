//! Scans as they come: cloud files, PLY files and lines of numbers, told by their content, at their own f32 values.

mod cloud;
mod columns;
mod keep;
mod kinds;
mod lines;
mod ply;
mod ply_header;
mod source;

pub use keep::{Keep, LeftOut, Selection};
pub use lines::Columns;

use crate::failure::{Failure, MALFORMED, NO_POINTS};
use serde::{Deserialize, Serialize};
use source::Source;
use std::path::Path;

/// What a file turned out to be.
#[derive(Clone, Copy, Debug, PartialEq, Eq, Serialize, Deserialize)]
#[serde(rename_all = "lowercase")]
pub enum Form {
    Cloud,
    Ply,
    Xyz,
}

/// The points of a scan with a normal each, and the radius where the file has one.
#[derive(Clone, Debug, PartialEq, Serialize, Deserialize)]
pub struct Scan {
    pub form: Form,
    #[serde(with = "crate::bits")]
    pub radius: Option<f32>,
    #[serde(with = "crate::bits")]
    pub points: Vec<[f32; 3]>,
    #[serde(with = "crate::bits")]
    pub normals: Vec<[f32; 3]>,
    /// Set where points were left out, so that this is another cloud than the scan.
    pub left_out: Option<LeftOut>,
    /// What a person should know of how the file was read.
    pub notes: Vec<String>,
}

/// How a file is to be read.
#[derive(Clone, Debug, Default)]
pub struct Reading {
    pub selection: Selection,
    pub columns: Option<Columns>,
    pub without_normals: bool,
    /// Cloud files with CR LF, a byte order mark or no last line feed are taken too.
    pub mend: bool,
    pub quiet: bool,
}

/// What a reader found, beside the points that it handed on.
#[derive(Debug, Default)]
pub struct Found {
    pub radius: Option<f32>,
    pub notes: Vec<String>,
}

/// A malformed file.
fn malformed(why: impl std::fmt::Display) -> Failure {
    Failure::refused(MALFORMED, why)
}

/// The scan of a file; `-` is standard input.
pub fn read(path: &Path, reading: &Reading) -> Result<Scan, Failure> {
    Source::open(path, reading.quiet).and_then(|source| scan(source, reading)).map_err(|failure| failure.at(path))
}

fn scan(mut source: Source, reading: &Reading) -> Result<Scan, Failure> {
    let mut keep = Keep::new(reading.selection.clone());
    let head = source.head();
    if head.is_empty() {
        return Err(Failure::refused(NO_POINTS, "the file is empty"));
    }
    if head.contains(&b'\r') && !head.contains(&b'\n') {
        return Err(malformed("its lines end in CR alone; save it with lines that end in LF"));
    }
    let (form, found) = if ply::is_ply(head) {
        (Form::Ply, ply::read(&mut source, reading, &mut keep)?)
    } else if let Some(kind) = kinds::other_kind(head) {
        return Err(malformed(format!("this is {kind}; a PLY file, lines of numbers or a cloud file is wanted")));
    } else if cloud::is_cloud(head) {
        (Form::Cloud, cloud::read(&mut source, reading, &mut keep)?)
    } else {
        (Form::Xyz, lines::read(&mut source, reading, &mut keep)?)
    };
    let (points, left_out) = keep.end()?;
    let normals = points.iter().map(|p| [p[3], p[4], p[5]]).collect();
    let points = points.iter().map(|p| [p[0], p[1], p[2]]).collect();
    Ok(Scan { form, radius: found.radius, points, normals, left_out, notes: found.notes })
}
