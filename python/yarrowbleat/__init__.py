"""Ball pivoting over scanned points: numpy over the proved port.

Arrays of float32 and uint32 that lie row after row are lent to the library as they are; others are copied. Every call
is a function of its arguments alone and runs without the interpreter's lock, so threads run side by side. What is
outside the domain raises `Refusal`, with the library's number, detail and words; an array of the wrong kind or shape
a TypeError or ValueError that names it.
"""
from ._answers import Refusal
from ._library import VERSION as _VERSION
from .clouds import (
    Cloud,
    FrontierRule,
    Kind,
    Patch,
    Settings,
    Verdict,
    estimate_radius,
    judge,
    read_cloud,
    reconstruct,
)
from .files import FaceOrder, order_patch, read_stl, write_stl
from .index import Found, Index
from .season import Figures, SeasonPatch, Tally

__version__ = f"{_VERSION // 1_000_000}.{_VERSION // 1_000 % 1_000}.{_VERSION % 1_000}"

__all__ = [
    "Cloud",
    "FaceOrder",
    "Figures",
    "Found",
    "FrontierRule",
    "Index",
    "Kind",
    "Patch",
    "Refusal",
    "SeasonPatch",
    "Settings",
    "Tally",
    "Verdict",
    "estimate_radius",
    "judge",
    "order_patch",
    "read_cloud",
    "read_stl",
    "reconstruct",
    "write_stl",
]
