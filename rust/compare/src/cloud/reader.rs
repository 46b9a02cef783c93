//! The cloud file, read a second time and in another way: split into lines, lines into fields, and the standard library reads the numbers.

/// What a reader answers: the refusal's number or 0, its detail, and what was read.
#[derive(Clone, Copy, Debug)]
pub struct CloudRead {
    pub answer: u32,
    pub detail: usize,
    pub radius: f32,
    pub count: usize,
}

impl CloudRead {
    fn refused(answer: u32, detail: usize) -> Self {
        Self { answer, detail, radius: 0.0, count: 0 }
    }

    /// Equal bit for bit.
    pub fn same(&self, other: &Self) -> bool {
        let key = |r: &Self| (r.answer, r.detail, r.radius.to_bits(), r.count);
        key(self) == key(other)
    }
}

/// Whether this is a run of ASCII digits of an allowed length.
fn digits(field: &[u8], most: usize) -> bool {
    (1..=most).contains(&field.len()) && field.iter().all(u8::is_ascii_digit)
}

/// The f32 of a field: the standard library's, where the field has a number's form.
pub fn number(field: &[u8]) -> Option<f32> {
    let magnitude = field.strip_prefix(b"-").unwrap_or(field);
    let right = match magnitude.iter().position(|&b| b == b'.') {
        None => digits(magnitude, 5),
        Some(at) => digits(&magnitude[..at], 5) && digits(&magnitude[at + 1..], 6),
    };
    right.then(|| std::str::from_utf8(field).unwrap().parse().unwrap())
}

/// The numbers of a line that has `count` of them and a line feed.
fn line(bytes: &[u8], count: usize) -> Option<Vec<f32>> {
    let fields: Vec<&[u8]> = bytes.strip_suffix(b"\n")?.split(|&b| b == b',').collect();
    if fields.len() != count {
        return None;
    }
    fields.into_iter().map(number).collect()
}

/// The whole file: the radius and six numbers a point, or the first malformed line, from 1.
fn file(bytes: &[u8]) -> Result<(f32, Vec<Vec<f32>>), usize> {
    let mut lines = bytes.split_inclusive(|&b| b == b'\n');
    let radius = lines.next().and_then(|l| line(l, 1)).ok_or(1usize)?[0];
    let points = lines.enumerate().map(|(i, l)| line(l, 6).ok_or(i + 2));
    Ok((radius, points.collect::<Result<_, _>>()?))
}

pub fn read_cloud(bytes: &[u8], points: &mut [f32], normals: &mut [f32]) -> CloudRead {
    let (radius, read) = match file(bytes) {
        Ok(cloud) => cloud,
        Err(line) => return CloudRead::refused(10, line),
    };
    if read.len() * 3 > points.len().min(normals.len()) {
        return CloudRead::refused(11, 0);
    }
    for (i, six) in read.iter().enumerate() {
        points[3 * i..3 * i + 3].copy_from_slice(&six[..3]);
        normals[3 * i..3 * i + 3].copy_from_slice(&six[3..]);
    }
    CloudRead { answer: 0, detail: 0, radius, count: read.len() }
}

#[cfg(test)]
mod tests {
    use super::*;

    #[test]
    fn numbers_have_one_form() {
        let bits = |text: &[u8]| number(text).map(f32::to_bits);
        assert_eq!(bits(b"1.57"), Some(0x3fc8_f5c3));
        assert_eq!(bits(b"-0"), Some(0x8000_0000));
        assert_eq!(bits(b"00012.50"), Some(0x4148_0000));
        for wrong in ["", "-", "+1", "1.", ".5", "1e3", " 1", "1 ", "123456", "1.1234567", "--1", "1.2.3", "\"1\""] {
            assert_eq!(number(wrong.as_bytes()), None, "{wrong:?}");
        }
    }

    #[test]
    fn lines_are_counted_from_one() {
        let answer = |bytes: &[u8]| {
            let r = read_cloud(bytes, &mut [0.0; 3], &mut [0.0; 3]);
            (r.answer, r.detail, r.count)
        };
        assert_eq!(answer(b""), (10, 1, 0));
        assert_eq!(answer(b"1\n"), (0, 0, 0));
        assert_eq!(answer(b"1\n0,0,0,0,0,1"), (10, 2, 0));
        assert_eq!(answer(b"1\n0,0,0,0,0,1\n"), (0, 0, 1));
        assert_eq!(answer(b"1\n0,0,0,0,0,1\n\n"), (10, 3, 0));
        assert_eq!(answer(b"1\n0,0,0,0,0,1\n0,0,0,0,0,1\n"), (11, 0, 0));
    }
}
