"""The exception that a refusal becomes."""
from ._words import SHORT_INDEX, SHOWN, SPOT, WORDS

#: The settings in the order in which they are checked, each with its bounds, as the safe crate has them.
SETTINGS = (
    ("radius", "0.001 to 1,000"),
    ("additional_radii", "at most 8, each 0.001 to 1,000"),
    ("adaptive_percentiles", "at most 8, each 0 to 1"),
    ("quality_threshold", "0 to 1,000,000"),
    ("max_edge_factor", "0 to 1,000,000"),
    ("min_triangle_area", "0 to 1,000,000"),
    ("spatial_cell_factor", "0.5 to 16"),
    ("frontier_rule", "1 or 2"),
)


class Refusal(ValueError):
    """What the library refuses.

    ``number`` is the answer's number in the header's list, ``detail`` its detail, 0 where none is named, and ``words``
    what it says. Numbers 8, 15 and 16 say that no triangle was found. A spot's detail is its own number, from 0.
    """

    def __init__(self, number: int, detail: int, words: str, named: str = "") -> None:
        self.number = number
        self.detail = detail
        self.words = words
        self._named = named
        super().__init__(f"{words}: {named}" if named else words)

    def __reduce__(self) -> "tuple[type[Refusal], tuple[int, int, str, str]]":
        return type(self), (self.number, self.detail, self.words, self._named)


def accept(answer: int, detail: int) -> None:
    """Raises the refusal that an answer is; 0 is none."""
    if answer == 0:
        return
    words = WORDS.get(answer, "an answer that this version has no words for")
    if answer == 5 and 1 <= detail <= len(SETTINGS):
        raise Refusal(answer, detail, words, "{} is to be {}".format(*SETTINGS[detail - 1]))
    raise Refusal(answer, detail, words, f"{SHOWN[answer]} {detail}" if answer in SHOWN else "")


def accept_index(answer: int, detail: int, points: int) -> None:
    """The same of a call with an index: a detail from the number of points on is a spot's, and 7 the index's."""
    if answer == 4 and detail >= points:
        raise Refusal(answer, detail - points, SPOT, f"spot {detail - points}")
    if answer == 7:
        raise Refusal(answer, detail, SHORT_INDEX)
    accept(answer, detail)
