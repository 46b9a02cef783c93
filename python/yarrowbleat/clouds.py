"""Clouds: their settings, the radius that suits them, the patch over them, and why a triangle was turned down."""
from dataclasses import dataclass, field
from enum import IntEnum
from typing import NamedTuple, Optional, Sequence, Tuple

import numpy as np
from numpy.typing import ArrayLike, NDArray

from ._answers import accept
from ._arrays import Bytes, Floats, Words, bytes_of, rows, slices, work
from ._library import BallPivotingConfig, C, Patch as _Patch

#: The most faces that are ever found.
_MAX_FACES = 10_000


class FrontierRule(IntEnum):
    """The order in which the edges that wait are pivoted over."""

    #: The old program's, which is that of its heap.
    HEAP = 1
    #: First come, first pivoted: the surface spreads evenly from its seed.
    QUEUE = 2


@dataclass(frozen=True)
class Settings:
    """The settings of a reconstruction; c/yarrowbleat.h has their bounds, and a list has at most 8 entries.

    Beside the radius the defaults are the library's own: ``Settings(radius=0.5, quality_threshold=0.2)``.
    """

    radius: float = 0.1
    additional_radii: Sequence[float] = field(default_factory=lambda: _default_radii())
    adaptive_radius: bool = field(default_factory=lambda: bool(_DEFAULTS.adaptive_radius))
    adaptive_percentiles: Sequence[float] = field(default_factory=lambda: _default_percentiles())
    quality_threshold: float = field(default_factory=lambda: float(_DEFAULTS.quality_threshold))
    max_edge_factor: float = field(default_factory=lambda: float(_DEFAULTS.max_edge_factor))
    min_triangle_area: float = field(default_factory=lambda: float(_DEFAULTS.min_triangle_area))
    use_spatial_index: bool = field(default_factory=lambda: bool(_DEFAULTS.use_spatial_index))
    spatial_cell_factor: float = field(default_factory=lambda: float(_DEFAULTS.spatial_cell_factor))
    frontier_rule: int = FrontierRule.HEAP

    def _lent(self) -> BallPivotingConfig:
        """The struct that the library takes. Of a list over 8 the count alone says that it is too long."""
        lent = BallPivotingConfig(
            radius=self.radius,
            additional_count=min(len(self.additional_radii), 9),
            adaptive_radius=self.adaptive_radius,
            percentile_count=min(len(self.adaptive_percentiles), 9),
            quality_threshold=self.quality_threshold,
            max_edge_factor=self.max_edge_factor,
            min_triangle_area=self.min_triangle_area,
            use_spatial_index=self.use_spatial_index,
            spatial_cell_factor=self.spatial_cell_factor,
            frontier_rule=int(self.frontier_rule),
        )
        lent.additional_radii[: len(self.additional_radii[:8])] = list(self.additional_radii[:8])
        lent.adaptive_percentiles[: len(self.adaptive_percentiles[:8])] = list(self.adaptive_percentiles[:8])
        return lent


_DEFAULTS: BallPivotingConfig = C.yb_default_config(0.1)


def _default_radii() -> "Tuple[float, ...]":
    return tuple(_DEFAULTS.additional_radii[: _DEFAULTS.additional_count])


def _default_percentiles() -> "Tuple[float, ...]":
    return tuple(_DEFAULTS.adaptive_percentiles[: _DEFAULTS.percentile_count])


@dataclass(frozen=True, eq=False)
class Patch:
    """The faces laid over a cloud, and how they came about."""

    #: How many points the cloud has.
    points: int
    #: The faces, an (F, 3) array of point numbers from 0.
    faces: Words
    #: Where each face came from, an (F, 2) array: the face over whose edge the ball was pivoted, a seed itself, and the
    #: place of the face's radius in ``radii``.
    origins: Words
    #: The radii tried, rising; none on the plain path.
    radii: Floats
    #: How many of the faces were laid as seeds.
    seeds: int
    #: Entries taken from the frontier.
    looks: int
    #: Looks at an edge that was not processed before.
    pivots: int

    @property
    def reached(self) -> "NDArray[np.bool_]":
        """For each point whether a face touches it."""
        marks = np.empty(self.points, np.uint32)
        C.yb_mark_reached(*slices(self.faces, marks))
        return marks.astype(np.bool_)

    @property
    def covered(self) -> int:
        """How many points a face touches."""
        return int(np.count_nonzero(self.reached))

    @property
    def open_edges(self) -> Words:
        """The edges that lie in one face alone, an (E, 2) array in the order of the faces; each runs as in its face."""
        edges = self.faces[:, [[0, 1], [1, 2], [2, 0]]].reshape(-1, 2)
        _, place, count = np.unique(np.sort(edges, axis=1), axis=0, return_inverse=True, return_counts=True)
        alone: Words = edges[count[place.reshape(-1)] == 1]
        return alone


def reconstruct(
    points: ArrayLike,
    normals: ArrayLike,
    radius: Optional[float] = None,
    settings: Optional[Settings] = None,
    *,
    turned: bool = False,
) -> Patch:
    """Lays a patch of triangles over the points.

    ``points`` and ``normals`` are (n, 3) arrays, n at most 4,096; the normals are checked and change no face. Either a
    ``radius`` is given, with the default settings, or ``settings``, which have one. As faces are laid neighbours face
    opposite ways; a ``turned`` patch faces one way. Raises `Refusal`.
    """
    chosen = _chosen(radius, settings)
    cloud, up = rows(points, "points"), rows(normals, "normals")
    words, floats = work(len(cloud))
    faces, origins = np.empty((_MAX_FACES, 3), np.uint32), np.empty((_MAX_FACES, 2), np.uint32)
    r: _Patch = C.yb_reconstruct_with_origins(
        *slices(cloud, up), chosen._lent(), turned, *slices(faces, origins, words, floats)
    )
    accept(r.answer, r.detail)
    # Nothing else refers to them: the room that is left over is given back, and nothing is copied.
    faces.resize((r.faces, 3), refcheck=False)
    origins.resize((r.faces, 2), refcheck=False)
    radii = np.array(r.radii[: r.radii_count], np.float32)
    return Patch(len(cloud), faces, origins, radii, int(r.seeds), int(r.looks), int(r.pivots))


def _chosen(radius: Optional[float], settings: Optional[Settings]) -> Settings:
    if radius is not None and settings is None:
        return Settings(radius=radius)
    if radius is None and settings is not None:
        return settings
    raise TypeError("reconstruct: either a radius is wanted or settings, which have one")


def estimate_radius(points: ArrayLike, percentile: float = 0.5) -> float:
    """A radius that suits the cloud: 2.5 times this percentile of its points' least distances.

    It is 0.1 if there are none. Raises `Refusal`.
    """
    cloud = rows(points, "points")
    words, floats = work(len(cloud))
    r = C.yb_estimate_optimal_radius(*slices(cloud), percentile, *slices(words, floats))
    accept(r.answer, r.detail)
    return float(r.radius)


class Kind(IntEnum):
    """What the acceptance test says of a triangle, in the order of its tests but for the first."""

    GOOD = 1
    NO_AREA = 2
    SMALL = 3
    POOR = 4
    LONG = 5


class Verdict(NamedTuple):
    """A triangle's kind, what was measured, and the limit that it was held to, if there is one."""

    kind: Kind
    #: Of good and poor the score, of no area and small the area, of long the edge ratio times the root of the area.
    measured: float
    limit: Optional[float]

    def __str__(self) -> str:
        told = f"{self.kind.name.lower().replace('_', ' ')}: {_short(self.measured)}"
        return told if self.limit is None else f"{told}, the limit is {_short(self.limit)}"


def _short(number: float) -> str:
    return np.format_float_positional(np.float32(number), trim="-")


def judge(points: ArrayLike, normals: ArrayLike, settings: Settings, triangle: Sequence[int]) -> Verdict:
    """Why the triangle of three points was turned down, or that it was not, at the settings' radius.

    The points are measured in the order given. Raises `Refusal`.
    """
    cloud, up = rows(points, "points"), rows(normals, "normals")
    if len(triangle) != 3:
        raise ValueError(f"triangle: three point numbers are wanted, these are {len(triangle)}")
    i, j, k = (_number(value) for value in triangle)
    lent = settings._lent()
    r = C.yb_judge_triangle(*slices(cloud, up), lent, i, j, k)
    accept(r.answer, r.detail)
    kind = Kind(r.kind)
    limit = {
        Kind.GOOD: lent.quality_threshold,
        Kind.POOR: lent.quality_threshold,
        Kind.SMALL: lent.min_triangle_area,
        Kind.LONG: float(np.float32(lent.radius) * np.float32(lent.max_edge_factor)),
    }.get(kind)
    return Verdict(kind, float(r.measured), limit)


def _number(value: int) -> int:
    if not 0 <= int(value) < 1 << 64:
        raise ValueError(f"triangle: {value} is no point's number")
    return int(value)


class Cloud(NamedTuple):
    """What a cloud file holds: the radius, and an (n, 3) array of points and one of normals."""

    radius: float
    points: Floats
    normals: Floats


def read_cloud(data: Bytes) -> Cloud:
    """Reads a cloud file's bytes: a line with the radius, then a line ``x,y,z,nx,ny,nz`` for each point.

    Each line is ended by LF. A number is an optional minus, 1 to 5 digits, and optionally a point and 1 to 6 digits; it
    becomes the nearest float32. Raises `Refusal`.
    """
    file = bytes_of(data)
    # A point's line has 12 bytes at least, so that the room is bounded by the file; the first line has no point.
    most = min(int(np.count_nonzero(file == 10)), len(file) // 12)
    points, normals = np.empty((most, 3), np.float32), np.empty((most, 3), np.float32)
    r = C.yb_read_cloud(*slices(file, points, normals))
    accept(r.answer, r.detail)
    points.resize((r.count, 3), refcheck=False)
    normals.resize((r.count, 3), refcheck=False)
    return Cloud(float(r.radius), points, normals)
