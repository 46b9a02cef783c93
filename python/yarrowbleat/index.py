"""The nearest scanned point: an index beside a cloud's points, by which it is found at once."""
from typing import NamedTuple, Optional, Sequence

import numpy as np
from numpy.typing import ArrayLike

from ._answers import accept, accept_index
from ._arrays import MAX_POINTS, Floats, Words, lent, rows, shared, slices, words_of, work
from ._library import C


class Found(NamedTuple):
    """The nearest point to each spot, and its distance."""

    points: Words
    distances: Floats


class Index:
    """The index of a cloud, with the points that it is of.

    The points are copied once, so that they can't change under the index; ``numbers`` may be kept elsewhere.
    """

    def __init__(self, points: ArrayLike, numbers: Optional[ArrayLike] = None) -> None:
        """Builds the index, or takes one whose numbers were kept; one that isn't the cloud's is refused here.

        Raises `Refusal`.
        """
        self._points = rows(points, "points").copy()
        count = len(self._points)
        words, floats = work(count)
        if numbers is None:
            self._numbers = np.empty(8 * min(count, MAX_POINTS) + 64, np.uint32)
            r = C.yb_build_index(*slices(self._points, self._numbers, words, floats))
            accept(r.answer, r.detail)
        else:
            self._numbers = words_of(numbers, "numbers").copy()
            r = C.yb_index_belongs(*slices(self._points, self._numbers, words, floats))
            accept_index(r.answer if r.answer or r.belongs else 22, r.detail, count)
        self._points.flags.writeable = False
        self._numbers.flags.writeable = False

    @property
    def points(self) -> Floats:
        """The points, read-only."""
        return self._points

    @property
    def numbers(self) -> Words:
        """The index itself, 8n + 64 numbers for n points, read-only."""
        return self._numbers

    def nearest(
        self, spots: ArrayLike, *, points: Optional[Words] = None, distances: Optional[Floats] = None
    ) -> Found:
        """The nearest point to each of many spots, an (m, 3) array: the lowest number among equally near ones.

        It is exactly what a scan over all points finds. ``points`` and ``distances`` may be arrays to write to, of m
        entries. Raises `Refusal`.
        """
        asked = rows(spots, "spots")
        found = lent(points, "points", len(asked), np.uint32)
        lengths = lent(distances, "distances", len(asked), np.float32)
        shared((asked, "spots"), (found, "points"), (lengths, "distances"))
        words, floats = work(len(self._points))
        r = C.yb_nearest_distances(*slices(self._points, asked, self._numbers, found, lengths, words, floats))
        accept_index(r.answer, r.detail, len(self._points))
        return Found(found, lengths)

    def nearest_one(self, spot: Sequence[float]) -> "tuple[int, float]":
        """The nearest point to one spot, and its distance."""
        found = self.nearest(np.asarray(spot)[np.newaxis])
        return int(found.points[0]), float(found.distances[0])
