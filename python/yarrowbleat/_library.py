"""The shared library: its structs and functions, as c/yarrowbleat.h declares them.

tests/test_header.py holds this file to the header. A call through ctypes releases the interpreter's lock.
"""
from ctypes import CDLL, POINTER, Structure, c_bool, c_float, c_size_t, c_uint32, c_uint64, c_void_p
from pathlib import Path
from typing import Any

#: The version and the layout of the structs that this package was written for.
VERSION = 4000
LAYOUT = 1298813845


class TriangleQuality(Structure):
    _fields_ = [
        ("aspect_ratio", c_float),
        ("min_angle", c_float),
        ("max_angle", c_float),
        ("area", c_float),
        ("edge_ratio", c_float),
        ("quality_score", c_float),
    ]


class Estimate(Structure):
    _fields_ = [("answer", c_uint32), ("detail", c_uint32), ("radius", c_float)]


class BallPivotingConfig(Structure):
    _fields_ = [
        ("radius", c_float),
        ("additional_radii", c_float * 8),
        ("additional_count", c_uint32),
        ("adaptive_radius", c_bool),
        ("adaptive_percentiles", c_float * 8),
        ("percentile_count", c_uint32),
        ("quality_threshold", c_float),
        ("max_edge_factor", c_float),
        ("min_triangle_area", c_float),
        ("use_spatial_index", c_bool),
        ("spatial_cell_factor", c_float),
        ("frontier_rule", c_uint32),
    ]


class Patch(Structure):
    _fields_ = [
        ("answer", c_uint32),
        ("detail", c_uint32),
        ("faces", c_uint32),
        ("seeds", c_uint32),
        ("looks", c_uint32),
        ("pivots", c_uint32),
        ("radii_count", c_uint32),
        ("radii", c_float * 17),
    ]


class CloudRead(Structure):
    _fields_ = [("answer", c_uint32), ("detail", c_size_t), ("radius", c_float), ("count", c_size_t)]


class StlWritten(Structure):
    _fields_ = [("answer", c_uint32), ("detail", c_size_t), ("length", c_size_t)]


class StlRead(Structure):
    _fields_ = [("answer", c_uint32), ("detail", c_size_t), ("faces", c_size_t)]


class Verdict(Structure):
    _fields_ = [("answer", c_uint32), ("detail", c_uint32), ("kind", c_uint32), ("measured", c_float)]


class Ordered(Structure):
    _fields_ = [("answer", c_uint32), ("detail", c_size_t), ("faces", c_size_t), ("seeds", c_uint32)]


class SeasonPatch(Structure):
    _fields_ = [("number", c_uint32), ("scanned", c_uint32), ("covered", c_uint32), ("faces", c_uint32)]


class Tally(Structure):
    _fields_ = [
        ("patches", c_uint64),
        ("faces", c_uint64),
        ("face_squares", c_uint64),
        ("scanned", c_uint64),
        ("covered", c_uint64),
        ("best", SeasonPatch),
        ("worst", SeasonPatch),
    ]


class Fraction(Structure):
    _fields_ = [("numerator", c_uint64), ("denominator", c_uint64)]


class Figures(Structure):
    _fields_ = [
        ("answer", c_uint32),
        ("patches", c_uint64),
        ("mean", Fraction),
        ("variance", Fraction),
        ("coverage", Fraction),
        ("best", SeasonPatch),
        ("worst", SeasonPatch),
        ("best_coverage", Fraction),
        ("worst_coverage", Fraction),
    ]


class Indexed(Structure):
    _fields_ = [("answer", c_uint32), ("detail", c_uint32)]


class Belongs(Structure):
    _fields_ = [("answer", c_uint32), ("detail", c_uint32), ("belongs", c_bool)]


class Nearest(Structure):
    _fields_ = [("answer", c_uint32), ("detail", c_uint32), ("point", c_uint32), ("distance", c_float)]


class Searched(Structure):
    _fields_ = [("answer", c_uint32), ("detail", c_size_t)]


#: A lent slice: its place and its length.
_SLICE = [c_void_p, c_size_t]
_WORK = 2 * _SLICE

#: What each function returns, and what it takes.
FUNCTIONS: "dict[str, tuple[Any, list[Any]]]" = {
    "yb_version": (c_uint32, []),
    "yb_layout": (c_uint32, []),
    "yb_release_4000_1298813845": (c_uint32, []),
    "yb_sqrt": (c_float, [c_float]),
    "yb_acos": (c_float, [c_float]),
    "yb_cut": (c_uint32, [c_float]),
    "yb_ceil_cut": (c_uint32, [c_float]),
    "yb_min": (c_float, 2 * [c_float]),
    "yb_max": (c_float, 2 * [c_float]),
    "yb_clamp": (c_float, 3 * [c_float]),
    "yb_distance": (c_float, 6 * [c_float]),
    "yb_compute_circumradius": (c_float, 9 * [c_float]),
    "yb_compute_triangle_quality": (TriangleQuality, 9 * [c_float]),
    "yb_is_triangle_acceptable": (c_bool, [TriangleQuality] + 4 * [c_float]),
    "yb_default_config": (BallPivotingConfig, [c_float]),
    "yb_estimate_optimal_radius": (Estimate, _SLICE + [c_float] + _WORK),
    "yb_reconstruct_with_normals": (Patch, 2 * _SLICE + [BallPivotingConfig] + _SLICE + _WORK),
    "yb_reconstruct_with_origins": (Patch, 2 * _SLICE + [BallPivotingConfig, c_bool] + 2 * _SLICE + _WORK),
    "yb_read_cloud": (CloudRead, 3 * _SLICE),
    "yb_mark_reached": (c_size_t, 2 * _SLICE),
    "yb_write_stl": (StlWritten, 3 * _SLICE),
    "yb_read_stl": (StlRead, 2 * _SLICE),
    "yb_judge_triangle": (Verdict, 2 * _SLICE + [BallPivotingConfig] + 3 * [c_size_t]),
    "yb_order_patch": (Ordered, _SLICE + [c_size_t] + _SLICE + _WORK),
    "yb_order_faces": (Ordered, _SLICE + [c_size_t] + _SLICE + _WORK),
    "yb_tally_add": (c_uint32, [POINTER(Tally), SeasonPatch]),
    "yb_tally_figures": (Figures, [POINTER(Tally)]),
    "yb_build_index": (Indexed, 2 * _SLICE + _WORK),
    "yb_index_belongs": (Belongs, 2 * _SLICE + _WORK),
    "yb_nearest_point": (Nearest, _SLICE + 3 * [c_float] + _SLICE + _WORK),
    "yb_nearest_points": (Searched, 4 * _SLICE + _WORK),
    "yb_nearest_distances": (Searched, 5 * _SLICE + _WORK),
}


def _load() -> CDLL:
    path = Path(__file__).with_name("libyarrowbleat.so.0")
    try:
        library = CDLL(str(path))
    except OSError as error:
        raise ImportError(f"yarrowbleat: {error}: install the package by `pip install`, which builds it") from error
    for name, (result, arguments) in FUNCTIONS.items():
        function = getattr(library, name, None)
        if function is None:
            raise ImportError(f"yarrowbleat: {path} has no {name}: it is of another version than this package")
        function.restype, function.argtypes = result, arguments
    if (library.yb_version(), library.yb_layout()) != (VERSION, LAYOUT):
        raise ImportError(f"yarrowbleat: {path} is of another version than this package")
    return library


#: The library's functions, by their names in the header.
C = _load()
