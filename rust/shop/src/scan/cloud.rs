//! Cloud files, as the library reads them; and what is wrong with one that it does not.

use super::keep::{Keep, Point};
use super::source::Source;
use super::{malformed, Found, Reading};
use crate::failure::{grouped, Failure};
use yarrowbleat::Error;

const MARK: &[u8] = b"\xef\xbb\xbf";

/// The first two lines of the bytes, without their ends.
fn first_lines(head: &[u8]) -> (&[u8], Option<&[u8]>) {
    let mut lines = head.strip_prefix(MARK).unwrap_or(head).split(|b| *b == b'\n').map(<[u8]>::trim_ascii);
    (lines.next().unwrap_or_default(), lines.next())
}

fn is_number(field: &[u8]) -> bool {
    std::str::from_utf8(field).is_ok_and(|text| text.parse::<f32>().is_ok())
}

/// True if the first line is one number and the second, if there is one, has fields with commas between them.
pub fn is_cloud(head: &[u8]) -> bool {
    let (first, second) = first_lines(head);
    is_number(first) && second.is_none_or(|line| line.is_empty() || has_commas(line))
}

/// True if commas part the fields of a line, and nothing else does.
fn has_commas(line: &[u8]) -> bool {
    let blank = |b: &u8| matches!(b, b' ' | b'\t' | b';');
    line.contains(&b',') && !line.split(|b| *b == b',').any(|field| field.trim_ascii().iter().any(blank))
}

/// Hands the points on.
pub fn read(source: &mut Source, reading: &Reading, keep: &mut Keep) -> Result<Found, Failure> {
    if !source.is_whole() {
        return streamed(source, keep);
    }
    let bytes = source.head();
    let (cloud, mut notes) = match yarrowbleat::read_cloud(bytes) {
        Ok(cloud) => (cloud, Vec::new()),
        Err(Error::Line(line)) => {
            let (text, mended) = mended(bytes);
            match yarrowbleat::read_cloud(&text) {
                Ok(cloud) if reading.mend => (cloud, vec![format!("mended: {mended}")]),
                Ok(_) => {
                    return Err(Failure::of(Error::Line(line), format!("{mended}; `yarrowbleat convert` mends it")))
                }
                Err(Error::Line(line)) => match other_numbers(&text).filter(|_| reading.mend) {
                    Some(cloud) => return taken(cloud, keep),
                    None => return Err(Failure::of(Error::Line(line), cause(&text, line))),
                },
                Err(error) => return Err(Failure::of(error, "")),
            }
        }
        Err(error) => return Err(Failure::of(error, "")),
    };
    if cloud.radius == cloud.points.len() as f32 {
        let count = cloud.points.len();
        notes.push(format!("the first line, {count}, was taken as the radius; if it counts the points, give --radius"));
    }
    keep.expect(cloud.points.len() as u64)?;
    for (p, n) in cloud.points.iter().zip(&cloud.normals) {
        keep.take([p[0], p[1], p[2], n[0], n[1], n[2]])?;
    }
    Ok(Found { radius: Some(cloud.radius), notes })
}

/// The file as it should be, and what was wrong with it in words.
fn mended(bytes: &[u8]) -> (Vec<u8>, String) {
    let mut wrong = Vec::new();
    if bytes.starts_with(MARK) {
        wrong.push("the file begins with a byte order mark");
    }
    let bytes = bytes.strip_prefix(MARK).unwrap_or(bytes);
    if bytes.windows(2).any(|pair| pair == b"\r\n") {
        wrong.push("its lines end in CR LF instead of LF");
    }
    if bytes.last() != Some(&b'\n') {
        wrong.push("its last line has no line feed");
    }
    let mut text = Vec::with_capacity(bytes.len() + 1);
    let mut blanks = false;
    for line in bytes.split(|b| *b == b'\n') {
        let line = line.strip_suffix(b"\r").unwrap_or(line);
        blanks |= line.iter().any(|b| matches!(b, b' ' | b'\t'));
        text.extend(line.iter().filter(|b| !matches!(b, b' ' | b'\t')));
        text.push(b'\n');
    }
    // The text ends in a line feed, after which nothing stands.
    while text.ends_with(b"\n\n") {
        text.pop();
    }
    if blanks {
        wrong.push("there are blanks beside its numbers");
    }
    (text, wrong.join(", "))
}

/// What is wrong with a line of a cloud file, from 1.
fn cause(text: &[u8], line: usize) -> String {
    let line_text = text.split(|b| *b == b'\n').nth(line.saturating_sub(1)).unwrap_or_default();
    let shown = |field: &[u8]| String::from_utf8_lossy(&field[..field.len().min(40)]).into_owned();
    let fields: Vec<&[u8]> = line_text.split(|b| *b == b',').collect();
    let wanted = if line == 1 { 1 } else { 6 };
    if line_text.is_empty() {
        return "it is empty".to_string();
    }
    if fields.len() != wanted {
        let numbers = if wanted == 1 { "the radius alone" } else { "the six numbers x,y,z,nx,ny,nz" };
        return format!("it has {} fields where {numbers} should stand", fields.len());
    }
    match fields.iter().find(|field| number(field).is_none()) {
        Some(field) => format!("{}: {FORM}; `yarrowbleat convert` reads others too", shown(field)),
        None => String::new(),
    }
}

const FORM: &str =
    "a number of a cloud file is an optional minus, 1 to 5 digits, and optionally a point and 1 to 6 digits";

/// A number as a cloud file may have it, the nearest f32.
fn number(field: &[u8]) -> Option<f32> {
    let digits = field.strip_prefix(b"-").unwrap_or(field);
    let mut parts = digits.split(|b| *b == b'.');
    let (before, after) = (parts.next()?, parts.next());
    let fits = |part: &[u8], most| (1..=most).contains(&part.len()) && part.iter().all(u8::is_ascii_digit);
    let good = fits(before, 5) && after.is_none_or(|part| fits(part, 6)) && parts.next().is_none();
    good.then(|| std::str::from_utf8(field).ok()?.parse().ok()).flatten()
}

/// The radius and the points of a file that is a cloud file but for how its numbers are written.
fn other_numbers(text: &[u8]) -> Option<(f32, Vec<Point>)> {
    let number = |field: &str| field.parse::<f32>().ok().filter(|x| x.is_finite());
    let mut lines = std::str::from_utf8(text).ok()?.lines();
    let radius = number(lines.next()?)?;
    let point = |line: &str| line.split(',').map(number).collect::<Option<Vec<f32>>>()?.try_into().ok();
    Some((radius, lines.map(point).collect::<Option<_>>()?))
}

/// Hands such points on.
fn taken((radius, points): (f32, Vec<Point>), keep: &mut Keep) -> Result<Found, Failure> {
    for point in points {
        keep.take(point)?;
    }
    let notes = vec!["mended: its numbers are written otherwise than in a cloud file".to_string()];
    Ok(Found { radius: Some(radius), notes })
}

/// A file that is larger than any cloud file of 4,096 points, line by line.
fn streamed(source: &mut Source, keep: &mut Keep) -> Result<Found, Failure> {
    let mut line = Vec::new();
    source.next_line(&mut line)?;
    let bad = |line: u64| Failure::of(Error::Line(line as usize), FORM);
    let radius = number(&line).ok_or_else(|| bad(1))?;
    while source.next_line(&mut line)? {
        let mut point = [0.0; 6];
        let mut fields = line.split(|b| *b == b',');
        for place in &mut point {
            *place = fields.next().and_then(number).ok_or_else(|| bad(source.line))?;
        }
        if fields.next().is_some() {
            return Err(malformed(format!("line {} has more than six numbers", grouped(source.line))));
        }
        keep.take(point)?;
    }
    Ok(Found { radius: Some(radius), notes: Vec::new() })
}
