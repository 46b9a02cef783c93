"""Faces of other programs, and STL files."""
from typing import NamedTuple, Union

import numpy as np
from numpy.typing import ArrayLike

from ._answers import accept
from ._arrays import Bytes, Floats, Words, bytes_of, faces_of, rows, slices, work
from ._library import C


class FaceOrder(NamedTuple):
    """An order in which faces could have been laid: their numbers, and how many share no edge with an earlier one."""

    order: Words
    seeds: int


def order_patch(faces: Union[Bytes, ArrayLike], points: int) -> FaceOrder:
    """Says in what order faces of another program could be a patch in shape, over so many points.

    ``faces`` is an (F, 3) array of point numbers from 0, or the bytes of a file of lines ``a,b,c``. Each seed has three
    points that no earlier face has, every other face shares an edge with an earlier one and brings in exactly one new
    point, and no edge lies in more than two faces. Raises `Refusal`, number 23 where there is no such order.
    """
    if points < 0:
        raise ValueError(f"points: {points} is below 0")
    words, floats = work(points)
    if isinstance(faces, (bytes, bytearray, memoryview)):
        file = bytes_of(faces)
        # A line has 6 bytes at least, so that the room is bounded by the file.
        order = np.empty(min(int(np.count_nonzero(file == 10)), len(file) // 6), np.uint32)
        r = C.yb_order_patch(*slices(file), points, *slices(order, words, floats))
    else:
        numbers = faces_of(faces, "faces")
        order = np.empty(len(numbers), np.uint32)
        r = C.yb_order_faces(*slices(numbers), points, *slices(order, words, floats))
    accept(r.answer, r.detail)
    return FaceOrder(order, int(r.seeds))


def write_stl(points: ArrayLike, faces: ArrayLike) -> bytes:
    """The faces as a binary STL file, a facet a face in their order; any number of points. Raises `Refusal`."""
    cloud, numbers = rows(points, "points"), faces_of(faces, "faces")
    # More than a million are refused before the slice is looked at.
    file = np.empty(84 + 50 * min(len(numbers), 1_000_000), np.uint8)
    r = C.yb_write_stl(*slices(cloud, numbers, file))
    accept(r.answer, r.detail)
    return file.tobytes()


def read_stl(data: Bytes) -> Floats:
    """The corners of a binary STL file's facets, an (F, 3, 3) array. Raises `Refusal`.

    Header, normals and the facets' last two bytes may be anything; a corner's not-a-number stays one.
    """
    file = bytes_of(data)
    corners = np.empty((max(len(file) - 84, 0) // 50, 3, 3), np.float32)
    r = C.yb_read_stl(*slices(file, corners))
    accept(r.answer, r.detail)
    return corners
