"""Exact figures over a season: a tally to which patches are added, and its figures."""
from ctypes import byref
from dataclasses import dataclass
from fractions import Fraction
from typing import NamedTuple, Optional, Union

from . import _library
from ._answers import accept
from ._library import C
from .clouds import Patch


class SeasonPatch(NamedTuple):
    """What is entered of a patch: a number of one's own, the cloud's points, those that a face touches, the faces."""

    number: int
    scanned: int
    covered: int
    faces: int


@dataclass(frozen=True)
class Figures:
    """The figures of a season, exact. Of equally covered patches the earlier one is named."""

    patches: int
    #: Of the face counts.
    mean: Fraction
    variance: Fraction
    #: The part of all scanned points that is covered.
    coverage: Fraction
    best: SeasonPatch
    worst: SeasonPatch
    best_coverage: Fraction
    worst_coverage: Fraction


class Tally:
    """The sums over the patches of a season, at most 100,000."""

    def __init__(self, kept: Optional[bytes] = None) -> None:
        """An empty tally, or one that was kept; sums that no season can have left are refused at the next call."""
        if kept is None:
            self._sums = _library.Tally()
        elif len(kept) != len(bytes(_library.Tally())):
            raise ValueError(f"kept: a tally has {len(bytes(_library.Tally()))} bytes, these are {len(kept)}")
        else:
            self._sums = _library.Tally.from_buffer_copy(kept)

    def __bytes__(self) -> bytes:
        """The tally, to be kept elsewhere."""
        return bytes(self._sums)

    def add(self, patch: Union[Patch, SeasonPatch], number: int = 0) -> None:
        """Adds a patch under a number of one's own, or its counts; a refusal changes nothing. Raises `Refusal`."""
        if isinstance(patch, Patch):
            patch = SeasonPatch(number, patch.points, patch.covered, len(patch.faces))
        for name, value in zip(patch._fields, patch):
            if not 0 <= value <= 0xFFFF_FFFF:
                raise ValueError(f"{name}: {value} is below 0 or above 4294967295")
        accept(C.yb_tally_add(byref(self._sums), _library.SeasonPatch(*patch)), 0)

    def figures(self) -> Figures:
        """The figures of what was added. Raises `Refusal`."""
        f = C.yb_tally_figures(byref(self._sums))
        accept(f.answer, 0)
        return Figures(
            patches=int(f.patches),
            mean=_fraction(f.mean),
            variance=_fraction(f.variance),
            coverage=_fraction(f.coverage),
            best=_patch(f.best),
            worst=_patch(f.worst),
            best_coverage=_fraction(f.best_coverage),
            worst_coverage=_fraction(f.worst_coverage),
        )


def _fraction(f: _library.Fraction) -> Fraction:
    return Fraction(f.numerator, f.denominator)


def _patch(p: _library.SeasonPatch) -> SeasonPatch:
    return SeasonPatch(p.number, p.scanned, p.covered, p.faces)
