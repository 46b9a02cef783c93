"""Arrays as the library takes them: 32 bits, row after row. One that is so already is lent, any other is copied."""
from typing import Any, List, Optional, Tuple, Union

import numpy as np
from numpy.typing import ArrayLike, NDArray

Floats = NDArray[np.float32]
Words = NDArray[np.uint32]

#: The most points of a cloud, above which no work space is made: the library refuses it before it looks at one.
MAX_POINTS = 4096


def rows(value: ArrayLike, name: str) -> Floats:
    """Coordinates, an (n, 3) array of real numbers, as float32."""
    array = np.asarray(value)
    if array.dtype.kind not in "fiu":
        raise TypeError(f"{name}: real numbers are wanted, these are {array.dtype}")
    _in_threes(array, name)
    with np.errstate(over="ignore"):
        return np.ascontiguousarray(array, np.float32)


def faces_of(value: ArrayLike, name: str) -> Words:
    """Point numbers, an (n, 3) array of whole numbers from 0, as uint32."""
    array = np.asarray(value)
    if array.size == 0 and array.dtype.kind == "f":
        array = array.astype(np.uint32)
    if array.dtype.kind not in "iu":
        raise TypeError(f"{name}: whole numbers are wanted, these are {array.dtype}")
    _in_threes(array, name)
    _within_words(array, name)
    return np.ascontiguousarray(array, np.uint32)


def words_of(value: ArrayLike, name: str) -> Words:
    """A list of whole numbers from 0, as uint32."""
    array = np.asarray(value)
    if array.dtype.kind not in "iu":
        raise TypeError(f"{name}: whole numbers are wanted, these are {array.dtype}")
    if array.ndim != 1:
        raise ValueError(f"{name}: an array of one dimension is wanted, this has the shape {array.shape}")
    _within_words(array, name)
    return np.ascontiguousarray(array, np.uint32)


def _in_threes(array: "NDArray[Any]", name: str) -> None:
    if array.ndim != 2 or array.shape[1] != 3:
        raise ValueError(f"{name}: an array of shape (n, 3) is wanted, this has {array.shape}")


def _within_words(array: "NDArray[Any]", name: str) -> None:
    if array.size and (array.min() < 0 or array.max() > 0xFFFF_FFFF):
        raise ValueError(f"{name}: a number is below 0 or above 4294967295")


def lent(value: "Optional[NDArray[Any]]", name: str, length: int, dtype: Any) -> "NDArray[Any]":
    """An array that is written to: the caller's, if it can be lent as it is, or a new one where there is none."""
    if value is None:
        return np.empty(length, dtype)
    if not isinstance(value, np.ndarray) or value.dtype != dtype:
        raise TypeError(f"{name}: an array of {np.dtype(dtype)} is wanted, this is {_kind(value)}")
    if value.shape != (length,):
        raise ValueError(f"{name}: the shape ({length},) is wanted, this has {value.shape}")
    if not value.flags.c_contiguous:
        raise ValueError(f"{name}: its entries have to lie next to each other, its strides are {value.strides}")
    if not value.flags.writeable:
        raise ValueError(f"{name}: it is read-only")
    return value


def _kind(value: object) -> str:
    return str(value.dtype) if isinstance(value, np.ndarray) else type(value).__name__


def work(points: int) -> "Tuple[Words, Floats]":
    """Work space for so many points."""
    n = min(points, MAX_POINTS)
    return np.empty(24 * n + 64, np.uint32), np.empty(4 * n + 64, np.float32)


def slices(*arrays: "NDArray[Any]") -> "List[int]":
    """Each array's place and length, as the library takes slices."""
    return [number for array in arrays for number in (array.ctypes.data, array.size)]


def shared(*pairs: "Tuple[NDArray[Any], str]") -> None:
    """Refuses arrays that are written to where two of them, or one and an input, lie in the same memory."""
    for place, (array, name) in enumerate(pairs):
        for other, other_name in pairs[:place]:
            if np.shares_memory(array, other):
                raise ValueError(f"{name}: it shares memory with {other_name}")


Bytes = Union[bytes, bytearray, memoryview]


def bytes_of(value: Bytes) -> "NDArray[np.uint8]":
    """A file's bytes."""
    if not isinstance(value, (bytes, bytearray, memoryview)):
        raise TypeError(f"bytes are wanted, this is {type(value).__name__}")
    return np.frombuffer(value, np.uint8)
