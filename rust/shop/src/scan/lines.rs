//! Lines of numbers as scanners' programs write them: x y z nx ny nz, with remarks, a header line, a count, colours.

use super::columns::{self, Separator};
use super::keep::{Keep, Point};
use super::source::Source;
use super::{malformed, Found, Reading};
use crate::failure::{grouped, Failure};

pub use super::columns::Columns;

/// How the lines of a file are taken apart.
struct Layout {
    separator: Separator,
    columns: Columns,
}

/// What stood before the first point.
#[derive(Default)]
struct Front {
    names: Option<Columns>,
    count: Option<u64>,
    skipped: u64,
}

/// More lines than stand before the points of any file.
const MOST_FRONT: u64 = 1_000;

/// A line without the remark at its end, and without blanks around it.
fn without_remark(line: &[u8]) -> &[u8] {
    let line = line.strip_prefix(b"\xef\xbb\xbf").unwrap_or(line);
    let hash = line.iter().position(|b| *b == b'#');
    let slashes = line.windows(2).position(|pair| pair == b"//");
    let end = hash.into_iter().chain(slashes).min().unwrap_or(line.len());
    line[..end].trim_ascii()
}

/// The words of a line that names columns: of a remark those behind its mark.
fn named(line: &[u8]) -> Option<Columns> {
    let text = String::from_utf8_lossy(line).into_owned();
    Columns::of_header(text.trim_start_matches(['\u{feff}', '#', '/', ';', '%', '!', ' ', '\t']))
}

impl Front {
    /// Takes a line that stands before the first point; false if it is one.
    fn takes(&mut self, line: &[u8], source: &Source) -> Result<bool, Failure> {
        let numbers = without_remark(line);
        if numbers.is_empty() {
            self.names = self.names.take().or_else(|| named(line));
            return Ok(true);
        }
        let Ok(text) = std::str::from_utf8(numbers) else { return self.skips(source) };
        let first = text.split([' ', '\t', ',', ';']).next().unwrap_or_default();
        if first.parse::<f32>().is_ok() || columns::decimal(first).is_some() {
            let count = text.parse().ok().filter(|_| self.count.is_none());
            self.count = self.count.or(count);
            return Ok(count.is_some());
        }
        match named(line) {
            Some(names) => self.names = Some(names),
            None => return self.skips(source),
        }
        Ok(true)
    }

    /// A line of words at the top.
    fn skips(&mut self, source: &Source) -> Result<bool, Failure> {
        self.skipped += 1;
        if source.line > MOST_FRONT {
            return Err(malformed("it is neither a PLY file nor a cloud file nor lines of numbers"));
        }
        Ok(true)
    }
}

/// How the file is laid out, by its first line of numbers, what stood before it, and the lines at its head.
fn layout(text: &str, front: &Front, source: &Source, reading: &Reading) -> Result<Layout, Failure> {
    let at = |why: String| malformed(format!("line {}: {why}", source.line));
    let separator = Separator::of(text).map_err(at)?;
    let count = separator.fields(text).count();
    let given = reading.columns.as_ref().or(front.names.as_ref());
    let columns = match given {
        Some(columns) if columns.len() != count => {
            let by = if reading.columns.is_some() { "--columns names" } else { "the header line names" };
            return Err(at(format!("it has {count} numbers, and {by} {}", columns.len())));
        }
        Some(columns) => columns.clone(),
        None => guessed(separator, count, source.head()).map_err(at)?,
    };
    let columns = if reading.without_normals { columns.without_normals() } else { columns };
    columns.complete(reading.without_normals).map_err(malformed)?;
    Ok(Layout { separator, columns })
}

/// Which columns are which where nothing names them: six numbers, or nine with colours among them.
fn guessed(separator: Separator, count: usize, head: &[u8]) -> Result<Columns, String> {
    let colours = |from: usize| columns::are_colours(separator, count, from, head);
    match count {
        1 => Err("it is one number, as in a cloud file, but no commas part the numbers of the next line".to_string()),
        3 => Ok(Columns::places("x,y,z")),
        6 if colours(3) => Ok(Columns::places("x,y,z,-,-,-")),
        6 => Ok(Columns::places("x,y,z,nx,ny,nz")),
        9 if colours(6) && !colours(3) => Ok(Columns::places("x,y,z,nx,ny,nz,-,-,-")),
        9 if colours(3) && !colours(6) => Ok(Columns::places("x,y,z,-,-,-,nx,ny,nz")),
        _ => Err(format!(
            "it has {count} numbers, and nothing says which are the normal's; --columns does, as in \
             --columns x,y,z,-,nx,ny,nz"
        )),
    }
}

fn point(text: &str, layout: &Layout) -> Result<Point, String> {
    let mut point = [0.0; 6];
    let mut count = 0;
    for field in layout.separator.fields(text) {
        if let Some(place) = layout.columns.place(count) {
            point[place] = layout.separator.value(field).ok_or_else(|| format!("{field} is no number"))?;
        }
        count += 1;
    }
    if count != layout.columns.len() {
        return Err(format!("it has {count} numbers, and the lines before have {}", layout.columns.len()));
    }
    Ok(point)
}

/// Hands the points on.
pub fn read(source: &mut Source, reading: &Reading, keep: &mut Keep) -> Result<Found, Failure> {
    let mut front = Front::default();
    let mut layout_found: Option<Layout> = None;
    let mut line = Vec::new();
    let mut points = 0;
    while source.next_line(&mut line)? {
        if layout_found.is_none() && front.takes(&line, source)? {
            continue;
        }
        let numbers = without_remark(&line);
        if numbers.is_empty() {
            continue;
        }
        let bad = |why: String| malformed(format!("line {}: {why}", grouped(source.line)));
        let text = std::str::from_utf8(numbers).map_err(|_| bad("it is no text".into()))?;
        let known = match layout_found.take() {
            Some(known) => known,
            None => {
                keep.expect(front.count.unwrap_or(0))?;
                layout(text, &front, source, reading)?
            }
        };
        keep.take(point(text, &known).map_err(bad)?)?;
        points += 1;
        layout_found = Some(known);
    }
    found(&front, points, layout_found.is_some())
}

/// What is known at the file's end.
fn found(front: &Front, points: u64, any: bool) -> Result<Found, Failure> {
    if !any && front.skipped > 0 {
        return Err(malformed("it is neither a PLY file nor a cloud file, and has no line of numbers"));
    }
    match front.count {
        Some(count) if count != points => {
            let (count, points) = (grouped(count), grouped(points));
            Err(malformed(format!("its first line counts {count} points, and {points} lines of numbers follow")))
        }
        _ => Ok(Found::default()),
    }
}
