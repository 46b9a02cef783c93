"""The words for each answer's number, and what a detail counts. Made from answers.toml by tests/answers."""

WORDS = {
    1: "there are no points",
    2: "the lengths of the slices don't belong together",
    3: "there are too many points, or too many faces to write",
    4: "a coordinate or normal is outside the domain",
    5: "a setting is outside its bounds",
    6: "the percentile is not within 0 to 1",
    7: "a work slice is too short",
    8: "no triangle was found: there are fewer than three points",
    9: "the faces found don't fit the face slice",
    10: "a line of the file is malformed",
    11: "the file's points don't fit the slices",
    12: "the bytes are no STL file, or not as many as it says",
    13: "an output slice is too short",
    14: "a face or a number names a point that isn't there",
    15: "no triangle was found: no three points lie close enough together",
    16: "no triangle was found: all that were judged were turned down",
    17: "two of three point numbers are equal",
    18: "a turned patch was asked for, and the plain path ran",
    19: "the tally has 100,000 patches",
    20: "the patch's counts can't be entered",
    21: "the tally is empty",
    22: "the index isn't this cloud's",
    23: "no order of the faces could be a patch's",
    24: "no season can have left this tally",
}

SHOWN = {
    4: "point",
    5: "setting",
    10: "line",
}

SPOT = "a coordinate of a spot is outside the domain"
SHORT_INDEX = "the index is too short"
