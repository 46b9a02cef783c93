//! The columns of lines of numbers: what parts them, and which are coordinates and normals.

use super::ply::NO_NORMALS;

/// What parts the numbers of a line.
#[derive(Clone, Copy, Debug, PartialEq, Eq)]
pub enum Separator {
    /// Blanks, tabs or commas.
    Plain,
    /// Semicolons; a comma is a decimal point.
    Semicolons,
    /// Blanks or tabs; a comma is a decimal point.
    DecimalCommas,
}

impl Separator {
    /// By a line of numbers.
    pub fn of(text: &str) -> Result<Self, String> {
        if text.contains(';') {
            return Ok(Self::Semicolons);
        }
        let words: Vec<&str> = text.split_ascii_whitespace().map(|word| word.trim_matches(',')).collect();
        let inside = |word: &&str| word.contains(',');
        if words.len() < 2 || !words.iter().any(inside) {
            return Ok(Self::Plain);
        }
        if text.contains('.') || words.iter().any(|word| word.matches(',').count() > 1) {
            return Err("commas and blanks part its numbers by turns; write one of them throughout".to_string());
        }
        Ok(Self::DecimalCommas)
    }

    /// The fields of a line.
    pub fn fields(self, text: &str) -> impl Iterator<Item = &str> {
        let parts = move |c: char| match self {
            Self::Plain => c.is_ascii_whitespace() || c == ',',
            Self::Semicolons => c.is_ascii_whitespace() || c == ';',
            Self::DecimalCommas => c.is_ascii_whitespace(),
        };
        text.split(parts).filter(|field| !field.is_empty())
    }

    /// A field's number: the nearest f32.
    pub fn value(self, field: &str) -> Option<f32> {
        match self {
            Self::Plain => field.parse().ok(),
            _ => field.parse().ok().or_else(|| decimal(field)),
        }
    }
}

/// A number with a comma for its point.
pub fn decimal(field: &str) -> Option<f32> {
    (field.matches(',').count() == 1).then(|| field.replace(',', ".").parse().ok()).flatten()
}

/// For each column its place in a point: x, y, z and the normal.
#[derive(Clone, Debug, PartialEq, Eq)]
pub struct Columns(Vec<Option<usize>>);

const NAMES: [&str; 6] = ["x", "y", "z", "nx", "ny", "nz"];

/// A column's place by its name in a file's header, whatever stands around it: `Normal_X`, `"nx"`, `X[m]`.
fn place_of(word: &str) -> Option<usize> {
    let word = word.trim_matches('"').to_ascii_lowercase();
    let name = word.split(['[', '(']).next().unwrap_or_default();
    let name = name.replace("normal", "n").replace('_', "");
    NAMES.iter().position(|known| *known == name)
}

impl Columns {
    /// By words such as `x,y,z,-,nx,ny,nz`, where `-` is a column that is passed over.
    pub fn parse(words: &str) -> Result<Self, String> {
        let place = |word: &str| match NAMES.iter().position(|name| *name == word) {
            None if word != "-" => {
                Err(format!("{word} is no column: x, y, z, nx, ny, nz, or - for one that is passed over"))
            }
            place => Ok(place),
        };
        words.split(',').map(place).collect::<Result<_, _>>().map(Self)
    }

    /// The same of words that are known to be good.
    pub fn places(words: &str) -> Self {
        Self::parse(words).expect("known names")
    }

    /// By a header line, if it names x, y and z.
    pub fn of_header(text: &str) -> Option<Self> {
        let words = text.split([' ', '\t', ',', ';']).filter(|word| !word.is_empty());
        let columns = Self(words.map(place_of).collect());
        (0..3).all(|place| columns.count(place) == 1).then_some(columns)
    }

    pub fn len(&self) -> usize {
        self.0.len()
    }

    pub fn place(&self, column: usize) -> Option<usize> {
        self.0.get(column).copied().flatten()
    }

    fn count(&self, place: usize) -> usize {
        self.0.iter().filter(|column| **column == Some(place)).count()
    }

    /// The same with no column for a normal.
    pub fn without_normals(self) -> Self {
        Self(self.0.into_iter().map(|place| place.filter(|place| *place < 3)).collect())
    }

    /// That each number of a point has one column.
    pub fn complete(&self, without_normals: bool) -> Result<(), String> {
        for (place, name) in NAMES.iter().enumerate().take(if without_normals { 3 } else { 6 }) {
            match self.count(place) {
                1 => {}
                0 if place < 3 => return Err(format!("no column is {name}")),
                0 => return Err(format!("its points have no normals; {NO_NORMALS}; --columns names columns")),
                _ => return Err(format!("two columns are {name}")),
            }
        }
        Ok(())
    }
}

/// True if three columns hold colours: whole numbers from 0 to 255, one of them above 1, in all the lines at the head.
pub fn are_colours(separator: Separator, count: usize, from: usize, head: &[u8]) -> bool {
    let mut above = false;
    for line in head.split(|b| *b == b'\n') {
        let Ok(text) = std::str::from_utf8(line) else { continue };
        let fields: Vec<&str> = separator.fields(text.trim()).collect();
        let all_numbers = fields.iter().all(|field| separator.value(field).is_some());
        if fields.len() != count || !all_numbers {
            continue;
        }
        for field in &fields[from..from + 3] {
            let Ok(value) = field.parse::<u8>() else { return false };
            above |= value > 1;
        }
    }
    above
}

impl std::fmt::Display for Columns {
    fn fmt(&self, f: &mut std::fmt::Formatter<'_>) -> std::fmt::Result {
        let names: Vec<&str> = self.0.iter().map(|place| place.map_or("-", |place| NAMES[place])).collect();
        f.write_str(&names.join(","))
    }
}
