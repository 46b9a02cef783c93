//! The header of a PLY file: its format, its elements and their properties.

use super::malformed;
use super::source::Source;
use crate::failure::Failure;

/// A scalar's type.
#[derive(Clone, Copy, Debug, PartialEq, Eq)]
pub enum Kind {
    I8,
    U8,
    I16,
    U16,
    I32,
    U32,
    F32,
    F64,
}

impl Kind {
    fn of(name: &str) -> Result<Self, Failure> {
        Ok(match name {
            "char" | "int8" => Self::I8,
            "uchar" | "uint8" => Self::U8,
            "short" | "int16" => Self::I16,
            "ushort" | "uint16" => Self::U16,
            "int" | "int32" => Self::I32,
            "uint" | "uint32" => Self::U32,
            "float" | "float32" => Self::F32,
            "double" | "float64" => Self::F64,
            _ => return Err(malformed(format!("the PLY header has an unknown type, {name}"))),
        })
    }

    /// How many bytes one takes in a binary file.
    pub fn size(self) -> usize {
        match self {
            Self::I8 | Self::U8 => 1,
            Self::I16 | Self::U16 => 2,
            Self::I32 | Self::U32 | Self::F32 => 4,
            Self::F64 => 8,
        }
    }
}

pub struct Property {
    pub name: String,
    pub kind: Kind,
    /// The type of a list's count.
    pub list: Option<Kind>,
}

pub struct Element {
    pub name: String,
    pub count: u64,
    pub properties: Vec<Property>,
}

#[derive(Clone, Copy, Debug, PartialEq, Eq)]
pub enum Format {
    Ascii,
    Little,
    Big,
}

pub struct Header {
    pub format: Format,
    pub elements: Vec<Element>,
}

/// More lines than any header has.
const MOST_LINES: u64 = 10_000;

/// Reads the lines up to `end_header`.
pub fn read(source: &mut Source) -> Result<Header, Failure> {
    let mut format = None;
    let mut elements = Vec::new();
    let mut bytes = Vec::new();
    while source.line < MOST_LINES && source.next_line(&mut bytes)? {
        // Comments may be in any encoding; what is understood of a header is ASCII.
        let line = String::from_utf8_lossy(&bytes);
        let words: Vec<&str> = line.split_ascii_whitespace().collect();
        match words.as_slice() {
            ["end_header"] => {
                let format = format.ok_or_else(|| malformed("the PLY header has no line `format`"))?;
                return Ok(Header { format, elements });
            }
            ["format", name, _] => format = Some(format_of(name)?),
            ["element", name, count] => elements.push(element(name, count)?),
            ["property", rest @ ..] => {
                let none = || malformed("the PLY header has a property of no element");
                let element: &mut Element = elements.last_mut().ok_or_else(none)?;
                element.properties.push(property(rest)?);
            }
            ["ply" | "comment" | "obj_info", ..] | [] => {}
            _ => return Err(malformed(format!("line {} of the PLY header is not understood", source.line))),
        }
    }
    Err(malformed("the PLY header has no end: the line `end_header` is missing"))
}

fn format_of(name: &str) -> Result<Format, Failure> {
    match name {
        "ascii" => Ok(Format::Ascii),
        "binary_little_endian" => Ok(Format::Little),
        "binary_big_endian" => Ok(Format::Big),
        _ => Err(malformed(format!("the PLY header has an unknown format, {name}"))),
    }
}

fn element(name: &str, count: &str) -> Result<Element, Failure> {
    let bad = |_| malformed(format!("the PLY header's count of {name} is no number: {count}"));
    Ok(Element { name: name.into(), count: count.parse().map_err(bad)?, properties: Vec::new() })
}

fn property(words: &[&str]) -> Result<Property, Failure> {
    match words {
        ["list", count, kind, name] => match Kind::of(count)? {
            Kind::F32 | Kind::F64 => Err(malformed(format!("the PLY header counts a list's entries in {count}"))),
            count => Ok(Property { name: (*name).into(), kind: Kind::of(kind)?, list: Some(count) }),
        },
        [kind, name] => Ok(Property { name: (*name).into(), kind: Kind::of(kind)?, list: None }),
        _ => Err(malformed("the PLY header has a property that is not understood")),
    }
}
