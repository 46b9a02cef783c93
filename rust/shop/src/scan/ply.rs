//! The vertices of a PLY file, ASCII or binary in either order of bytes, at their own f32 values, doubles rounded once.

use super::keep::{Keep, Point};
use super::ply_header::{self, Element, Format, Kind, Property};
use super::source::Source;
use super::{malformed, Found, Reading};
use crate::failure::{grouped, Failure};

/// The names of a vertex's six numbers as programs write them.
const NAMES: [&[&str]; 6] = [
    &["x"],
    &["y"],
    &["z"],
    &["nx", "normal_x", "normalx", "n_x"],
    &["ny", "normal_y", "normaly", "n_y"],
    &["nz", "normal_z", "normalz", "n_z"],
];

/// True if the bytes begin as a PLY file does.
pub fn is_ply(head: &[u8]) -> bool {
    head.starts_with(b"ply") && head.get(3).is_some_and(u8::is_ascii_whitespace)
}

/// Hands the vertices on.
pub fn read(source: &mut Source, reading: &Reading, keep: &mut Keep) -> Result<Found, Failure> {
    let header = ply_header::read(source)?;
    let at = header.elements.iter().position(|element| element.name == "vertex");
    let at = at.ok_or_else(|| malformed("the PLY file has no vertices"))?;
    let vertex = &header.elements[at];
    let places = places(vertex, reading.without_normals)?;
    keep.expect(vertex.count)?;
    let mut body = Body { source, format: header.format, line: Vec::new() };
    for element in &header.elements[..at] {
        body.pass(element)?;
    }
    body.vertices(vertex, &places, keep)?;
    let last = header.elements[at + 1..].iter().all(|element| element.count == 0);
    if last && !body.source.is_at_end()? {
        let words = format!("the header counts {} vertices, and the file goes on after them", grouped(vertex.count));
        return Err(malformed(words));
    }
    Ok(Found::default())
}

/// For each property the place of its number in a point, if it has one.
fn places(vertex: &Element, without_normals: bool) -> Result<Vec<Option<usize>>, Failure> {
    let place = |p: &Property| {
        let name = p.name.to_ascii_lowercase();
        let place = NAMES.iter().position(|names| names.contains(&name.as_str()));
        place.filter(|place| p.list.is_none() && !(without_normals && *place > 2))
    };
    let places: Vec<Option<usize>> = vertex.properties.iter().map(place).collect();
    for (number, names) in NAMES.iter().enumerate().take(if without_normals { 3 } else { 6 }) {
        match places.iter().filter(|place| **place == Some(number)).count() {
            1 => {}
            0 if number < 3 => return Err(malformed(format!("its vertices have no {}", names[0]))),
            0 => return Err(malformed(format!("its vertices have no {}: {}", names[0], NO_NORMALS))),
            _ => return Err(malformed(format!("its vertices have {} twice", names[0]))),
        }
    }
    Ok(places)
}

/// What to do about a scan without normals.
pub const NO_NORMALS: &str =
    "export the scan with normals, or lay it with --without-normals, since no face depends on them";

/// What stands behind the header.
struct Body<'a> {
    source: &'a mut Source,
    format: Format,
    line: Vec<u8>,
}

impl Body<'_> {
    fn vertices(&mut self, vertex: &Element, places: &[Option<usize>], keep: &mut Keep) -> Result<(), Failure> {
        let fixed = vertex.properties.iter().all(|p| p.list.is_none()) && self.format != Format::Ascii;
        let size: usize = vertex.properties.iter().map(|p| p.kind.size()).sum();
        let mut row = vec![0; if fixed { size } else { 0 }];
        for number in 0..vertex.count {
            let missing = || short(vertex, number);
            let point = if self.format == Format::Ascii {
                self.ascii(vertex, places, number)?
            } else if !fixed {
                self.listed(vertex, places, number)?
            } else if self.source.exactly(&mut row)? {
                self.row(&row, vertex, places)
            } else {
                return Err(missing());
            };
            keep.take(point)?;
        }
        Ok(())
    }

    /// The point of a row of scalars.
    fn row(&self, row: &[u8], vertex: &Element, places: &[Option<usize>]) -> Point {
        let mut point = [0.0; 6];
        let mut at = 0;
        for (property, place) in vertex.properties.iter().zip(places) {
            let end = at + property.kind.size();
            if let Some(place) = place {
                point[*place] = scalar(&row[at..end], property.kind, self.format);
            }
            at = end;
        }
        point
    }

    /// The point of an entry with lists, which are passed over.
    fn listed(&mut self, vertex: &Element, places: &[Option<usize>], number: u64) -> Result<Point, Failure> {
        let mut point = [0.0; 6];
        for (property, place) in vertex.properties.iter().zip(places) {
            if self.pass_list(property)?.ok_or_else(|| short(vertex, number))? {
                continue;
            }
            let mut bytes = [0; 8];
            let bytes = &mut bytes[..property.kind.size()];
            if !self.source.exactly(bytes)? {
                return Err(short(vertex, number));
            }
            if let Some(place) = place {
                point[*place] = scalar(bytes, property.kind, self.format);
            }
        }
        Ok(point)
    }

    /// Passes over a list, of a property that is one: true if so, and `None` where the file ends in it.
    fn pass_list(&mut self, property: &Property) -> Result<Option<bool>, Failure> {
        let Some(count) = property.list else { return Ok(Some(false)) };
        let mut bytes = [0; 4];
        let bytes = &mut bytes[..count.size()];
        if !self.source.exactly(bytes)? {
            return Ok(None);
        }
        let entries = whole(bytes, count, self.format);
        let entries =
            u64::try_from(entries).map_err(|_| malformed(format!("a list {} has {entries} entries", property.name)))?;
        Ok(self.source.pass(entries * property.kind.size() as u64)?.then_some(true))
    }

    /// The next line that is not empty; an entry of an ASCII file has one of its own.
    fn next_line(&mut self) -> Result<bool, Failure> {
        while self.source.next_line(&mut self.line)? {
            if !self.line.iter().all(u8::is_ascii_whitespace) {
                return Ok(true);
            }
        }
        Ok(false)
    }

    fn ascii(&mut self, vertex: &Element, places: &[Option<usize>], number: u64) -> Result<Point, Failure> {
        if !self.next_line()? {
            return Err(short(vertex, number));
        }
        let bad = |line: u64, why: String| malformed(format!("line {line}: {why}"));
        let line = self.source.line;
        let text = std::str::from_utf8(&self.line).map_err(|_| bad(line, "it is no text".into()))?;
        let mut words = text.split_ascii_whitespace();
        let few = || bad(line, format!("it has fewer numbers than the {} of a vertex", vertex.properties.len()));
        let mut point = [0.0; 6];
        for (property, place) in vertex.properties.iter().zip(places) {
            let word = words.next().ok_or_else(few)?;
            let value: f32 = word.parse().map_err(|_| bad(line, format!("{word} is no number")))?;
            if property.list.is_some() {
                let count: usize = word.parse().map_err(|_| bad(line, format!("{word} is no list's count")))?;
                words.by_ref().take(count).count();
            } else if let Some(place) = place {
                point[*place] = value;
            }
        }
        match words.next() {
            Some(_) => Err(bad(line, format!("it has more numbers than the {} of a vertex", vertex.properties.len()))),
            None => Ok(point),
        }
    }

    /// Passes over an element that stands before the vertices.
    fn pass(&mut self, element: &Element) -> Result<(), Failure> {
        if element.properties.is_empty() {
            return Ok(());
        }
        let lists = element.properties.iter().any(|p| p.list.is_some());
        if self.format != Format::Ascii && !lists {
            let size: u64 = element.properties.iter().map(|p| p.kind.size() as u64).sum();
            let passed = self.source.pass(element.count.saturating_mul(size))?;
            return if passed { Ok(()) } else { Err(short(element, 0)) };
        }
        let none = vec![None; element.properties.len()];
        for number in 0..element.count {
            if self.format != Format::Ascii {
                self.listed(element, &none, number)?;
            } else if !self.next_line()? {
                return Err(short(element, number));
            }
        }
        Ok(())
    }
}

fn short(element: &Element, number: u64) -> Failure {
    let (name, all) = (&element.name, grouped(element.count));
    malformed(format!("the file ends before its {name} {} of {all}", grouped(number + 1)))
}

/// The bytes in the order of a little-endian machine.
fn turned<const N: usize>(bytes: &[u8], format: Format) -> [u8; N] {
    let mut turned: [u8; N] = bytes.try_into().expect("as many bytes as the type has");
    if format == Format::Big {
        turned.reverse();
    }
    turned
}

fn whole(bytes: &[u8], kind: Kind, format: Format) -> i64 {
    match kind {
        Kind::I8 => i8::from_le_bytes(turned(bytes, format)).into(),
        Kind::U8 => u8::from_le_bytes(turned(bytes, format)).into(),
        Kind::I16 => i16::from_le_bytes(turned(bytes, format)).into(),
        Kind::U16 => u16::from_le_bytes(turned(bytes, format)).into(),
        Kind::I32 => i32::from_le_bytes(turned(bytes, format)).into(),
        Kind::U32 => u32::from_le_bytes(turned(bytes, format)).into(),
        Kind::F32 | Kind::F64 => unreachable!("a float is no whole number"),
    }
}

/// The nearest f32: a float as it is, a double or a whole number rounded once.
fn scalar(bytes: &[u8], kind: Kind, format: Format) -> f32 {
    match kind {
        Kind::F32 => f32::from_le_bytes(turned(bytes, format)),
        Kind::F64 => f64::from_le_bytes(turned(bytes, format)) as f32,
        _ => whole(bytes, kind, format) as f32,
    }
}
