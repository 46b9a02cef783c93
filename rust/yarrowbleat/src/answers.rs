//! Why a call refused: the scope's numbers, words and details. Made from answers.toml by tests/answers.

/// A refusal. Later versions add answers, so a match needs an arm for the rest.
#[derive(Clone, Copy, Debug, PartialEq, Eq)]
#[non_exhaustive]
pub enum Error {
    /// 1. The points slice is empty.
    NoPoints,
    /// 2. The points' length (or the faces' or the spots') is not a multiple of 3, or the normals' length differs from
    ///    it.
    Lengths,
    /// 3. There are more than 4,096 points, or more than 1,000,000 faces to write.
    TooManyPoints,
    /// 4. A coordinate is not within -10,000 to 10,000, or a normal's component is not finite; detail: the first such
    ///    point, from 0; of a spot the number of points and the spot's number.
    Point(usize),
    /// 5. A setting is outside its bounds; detail: the first such setting's number.
    Setting(usize),
    /// 6. The percentile of the radius estimate is not within 0 to 1.
    Percentile,
    /// 7. A work slice, or the index, is too short.
    Work,
    /// 8. No triangle was found: there are fewer than three points.
    TooFewPoints,
    /// 9. More faces were found than a third of the face slice's length, or than a half of the origins' slice's,
    ///    rounded down.
    Faces,
    /// 10. A line of the file is malformed; detail: the first such line, from 1.
    Line(usize),
    /// 11. All lines are well formed, but the points don't fit the slices, or a program's input exceeds 65,536 bytes.
    Room,
    /// 12. The bytes are no STL file: fewer than 84, or not 84 + 50 times the count that they name.
    BadStl,
    /// 13. An output slice is too short.
    OutputTooShort,
    /// 14. A face or a number names a point that isn't there.
    NoSuchPoint,
    /// 15. No triangle was found: of the triples that were tried none lay close enough together to be judged, at any
    ///     radius. Scan closer, or set larger radii. Only the first 1,000 points are tried as a triple's first.
    NoneClose,
    /// 16. No triangle was found: all triples that were judged were turned down. Loosen the settings.
    AllTurnedDown,
    /// 17. Two of three point numbers are equal.
    EqualNumbers,
    /// 18. A turned patch was asked for, and the plain path ran, whose faces have no parents.
    TurnedPlain,
    /// 19. The tally is full: it has 100,000 patches.
    TallyFull,
    /// 20. A season's patch has no points, more than 4,096, more covered than scanned or more than 10,000 faces.
    SeasonPatch,
    /// 21. Figures are asked of an empty tally.
    TallyEmpty,
    /// 22. The index isn't this cloud's.
    ForeignIndex,
    /// 23. No order of the faces could be a patch's.
    NoOrder,
    /// 24. No season can have left the tally.
    Tally,
    /// 4. A coordinate of this spot is outside the domain; detail: the first such spot, from 0.
    Spot(usize),
    /// 7. The index has fewer than 8n + 64 numbers for n points.
    ShortIndex,
    /// An answer that this version of the crate has no name for.
    Unknown {
        /// Its number.
        answer: u32,
        /// Its detail.
        detail: usize,
    },
}

/// An answer in words, whatever the number; c/yarrowbleat.h has the same.
pub fn answer_text(answer: u32) -> &'static str {
    match answer {
        0 => "accepted",
        1 => "there are no points",
        2 => "the lengths of the slices don't belong together",
        3 => "there are too many points, or too many faces to write",
        4 => "a coordinate or normal is outside the domain",
        5 => "a setting is outside its bounds",
        6 => "the percentile is not within 0 to 1",
        7 => "a work slice is too short",
        8 => "no triangle was found: there are fewer than three points",
        9 => "the faces found don't fit the face slice",
        10 => "a line of the file is malformed",
        11 => "the file's points don't fit the slices",
        12 => "the bytes are no STL file, or not as many as it says",
        13 => "an output slice is too short",
        14 => "a face or a number names a point that isn't there",
        15 => "no triangle was found: no three points lie close enough together",
        16 => "no triangle was found: all that were judged were turned down",
        17 => "two of three point numbers are equal",
        18 => "a turned patch was asked for, and the plain path ran",
        19 => "the tally has 100,000 patches",
        20 => "the patch's counts can't be entered",
        21 => "the tally is empty",
        22 => "the index isn't this cloud's",
        23 => "no order of the faces could be a patch's",
        24 => "no season can have left this tally",
        _ => "an answer that this version has no words for",
    }
}

impl Error {
    /// The error of an answer of the library; 0 is none.
    pub fn check(answer: u32, detail: usize) -> Result<(), Error> {
        Err(match answer {
            0 => return Ok(()),
            1 => Error::NoPoints,
            2 => Error::Lengths,
            3 => Error::TooManyPoints,
            4 => Error::Point(detail),
            5 => Error::Setting(detail),
            6 => Error::Percentile,
            7 => Error::Work,
            8 => Error::TooFewPoints,
            9 => Error::Faces,
            10 => Error::Line(detail),
            11 => Error::Room,
            12 => Error::BadStl,
            13 => Error::OutputTooShort,
            14 => Error::NoSuchPoint,
            15 => Error::NoneClose,
            16 => Error::AllTurnedDown,
            17 => Error::EqualNumbers,
            18 => Error::TurnedPlain,
            19 => Error::TallyFull,
            20 => Error::SeasonPatch,
            21 => Error::TallyEmpty,
            22 => Error::ForeignIndex,
            23 => Error::NoOrder,
            24 => Error::Tally,
            answer => Error::Unknown { answer, detail },
        })
    }

    /// The refusal's number in the scope's list.
    pub fn number(&self) -> u32 {
        match self {
            Error::NoPoints => 1,
            Error::Lengths => 2,
            Error::TooManyPoints => 3,
            Error::Point(_) => 4,
            Error::Setting(_) => 5,
            Error::Percentile => 6,
            Error::Work => 7,
            Error::TooFewPoints => 8,
            Error::Faces => 9,
            Error::Line(_) => 10,
            Error::Room => 11,
            Error::BadStl => 12,
            Error::OutputTooShort => 13,
            Error::NoSuchPoint => 14,
            Error::NoneClose => 15,
            Error::AllTurnedDown => 16,
            Error::EqualNumbers => 17,
            Error::TurnedPlain => 18,
            Error::TallyFull => 19,
            Error::SeasonPatch => 20,
            Error::TallyEmpty => 21,
            Error::ForeignIndex => 22,
            Error::NoOrder => 23,
            Error::Tally => 24,
            Error::Spot(_) => 4,
            Error::ShortIndex => 7,
            Error::Unknown { answer, .. } => *answer,
        }
    }

    /// The refusal's detail, 0 if none is named.
    pub fn detail(&self) -> usize {
        match self {
            Error::Point(detail) | Error::Setting(detail) | Error::Line(detail) | Error::Spot(detail) => *detail,
            Error::Unknown { detail, .. } => *detail,
            _ => 0,
        }
    }

    /// What the detail counts, if there is one.
    pub(crate) fn counted(&self) -> Option<&'static str> {
        match self {
            Error::Point(_) => Some("point"),
            Error::Setting(_) => Some("setting"),
            Error::Line(_) => Some("line"),
            Error::Spot(_) => Some("spot"),
            _ => None,
        }
    }

    /// The refusal in words, without its detail.
    pub(crate) fn words(&self) -> &'static str {
        match self {
            Error::Spot(_) => "a coordinate of a spot is outside the domain",
            Error::ShortIndex => "the index is too short",
            other => answer_text(other.number()),
        }
    }
}
