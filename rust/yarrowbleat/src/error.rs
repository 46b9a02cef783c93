//! How a refusal is shown: its words, and its detail by name.

use crate::Error;
use std::fmt;

/// The settings in the order in which they are checked, each with its bounds.
const SETTINGS: [(&str, &str); 8] = [
    ("radius", "0.001 to 1,000"),
    ("additional_radii", "at most 8, each 0.001 to 1,000"),
    ("adaptive_percentiles", "at most 8, each 0 to 1"),
    ("quality_threshold", "0 to 1,000,000"),
    ("max_edge_factor", "0 to 1,000,000"),
    ("min_triangle_area", "0 to 1,000,000"),
    ("spatial_cell_factor", "0.5 to 16"),
    ("frontier_rule", "1 or 2"),
];

impl fmt::Display for Error {
    fn fmt(&self, f: &mut fmt::Formatter<'_>) -> fmt::Result {
        f.write_str(self.words())?;
        match (self, self.counted()) {
            (Error::Unknown { answer, detail }, _) => write!(f, ": {answer}, {detail}"),
            (Error::Setting(setting), _) => match setting.checked_sub(1).and_then(|at| SETTINGS.get(at)) {
                Some((name, bounds)) => write!(f, ": {name} is to be {bounds}"),
                None => write!(f, ": setting {setting}"),
            },
            (_, Some(counted)) => write!(f, ": {counted} {}", self.detail()),
            _ => Ok(()),
        }
    }
}

impl std::error::Error for Error {}

#[cfg(test)]
mod tests {
    use super::*;

    /// A number that the crate has no name for is an error like the others, and 0 is none.
    #[test]
    fn numbers_and_details() {
        assert_eq!(Error::check(0, 7), Ok(()));
        for answer in (1..30).chain([1000, u32::MAX]) {
            let error = Error::check(answer, 7).unwrap_err();
            assert_eq!((error.number(), Error::check(answer, error.detail())), (answer, Err(error)));
            assert!(error.to_string().starts_with(crate::answer_text(answer)), "{error}");
        }
        assert!(Error::check(1000, 7).unwrap_err().to_string().ends_with("no words for: 1000, 7"));
    }

    #[test]
    fn details_by_name() {
        assert!(Error::Point(3).to_string().ends_with(": point 3"));
        assert!(Error::Spot(1).to_string().ends_with("a spot is outside the domain: spot 1"));
        assert!(Error::Line(2).to_string().ends_with(": line 2"));
        assert!(Error::Setting(7).to_string().ends_with(": spatial_cell_factor is to be 0.5 to 16"));
        assert!(Error::Setting(9).to_string().ends_with(": setting 9"));
        assert_eq!((Error::Spot(1).number(), Error::ShortIndex.number()), (4, 7));
        assert_eq!(Error::ShortIndex.to_string(), "the index is too short");
    }
}
