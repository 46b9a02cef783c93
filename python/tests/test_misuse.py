"""What can't be taken says so: the kind and shape of arrays, and refusals with number, detail and words."""
import pickle
from pathlib import Path

import numpy as np
import pytest
import yarrowbleat as yb
from yarrowbleat import _library

SQUARE = np.float32([[0, 0, 0], [1, 0, 0], [0, 1, 0], [1, 1, 0]])
UP = np.tile(np.float32([0, 0, 1]), (4, 1))


def test_kinds_that_are_taken():
    faces = [[0, 1, 2], [1, 2, 3]]
    wide = np.zeros((4, 6), np.float32)
    wide[:, ::2] = SQUARE
    read_only = SQUARE.copy()
    read_only.flags.writeable = False
    for points in (SQUARE, SQUARE.astype(np.float64), SQUARE.astype(np.int16), SQUARE.tolist(), wide[:, ::2]):
        assert yb.reconstruct(points, UP, radius=1.0).faces.tolist() == faces
    assert yb.reconstruct(np.asfortranarray(SQUARE), read_only, 1.0).faces.tolist() == faces
    assert yb.reconstruct(read_only, UP, settings=yb.Settings(radius=1.0)).faces.tolist() == faces


@pytest.mark.parametrize(
    "points, error, words",
    [
        (SQUARE.astype(complex), TypeError, "points: real numbers are wanted, these are complex"),
        (SQUARE.astype(str), TypeError, "points: real numbers are wanted"),
        (np.array([[None] * 3]), TypeError, "points: real numbers are wanted, these are object"),
        (SQUARE > 0, TypeError, "points: real numbers are wanted, these are bool"),
        (SQUARE.reshape(-1), ValueError, r"points: an array of shape \(n, 3\) is wanted, this has \(12,\)"),
        (SQUARE[:, :2], ValueError, r"points: an array of shape \(n, 3\) is wanted, this has \(4, 2\)"),
        (SQUARE.T, ValueError, r"points: an array of shape \(n, 3\) is wanted, this has \(3, 4\)"),
    ],
)
def test_kinds_that_are_not(points, error, words):
    for call in (lambda: yb.reconstruct(points, UP, 1.0), lambda: yb.estimate_radius(points), lambda: yb.Index(points)):
        with pytest.raises(error, match=words):
            call()
    with pytest.raises(error, match=words.replace("points", "normals")):
        yb.reconstruct(SQUARE, points, 1.0)


def refusal(call):
    with pytest.raises(yb.Refusal) as caught:
        call()
    return caught.value


def test_refusals():
    bad = SQUARE.copy()
    bad[2, 1] = np.nan
    told = refusal(lambda: yb.reconstruct(bad, UP, 1.0))
    assert (told.number, told.detail) == (4, 2)
    assert str(told) == "a coordinate or normal is outside the domain: point 2"
    assert told.words == "a coordinate or normal is outside the domain"
    assert isinstance(told, ValueError)
    again = pickle.loads(pickle.dumps(told))
    assert (again.number, again.detail, str(again)) == (4, 2, str(told))
    assert refusal(lambda: yb.reconstruct(SQUARE.astype(float) * 1e300, UP, 1.0)).number == 4
    assert refusal(lambda: yb.reconstruct(np.zeros((0, 3)), np.zeros((0, 3)), 1.0)).number == 1
    assert refusal(lambda: yb.reconstruct(SQUARE, UP[:3], 1.0)).number == 2
    assert refusal(lambda: yb.reconstruct(np.zeros((4097, 3)), np.zeros((4097, 3)), 1.0)).number == 3
    assert str(refusal(lambda: yb.reconstruct(SQUARE, UP, 0.0))).endswith(": radius is to be 0.001 to 1,000")
    long = yb.Settings(radius=1.0, additional_radii=[1.0] * 9)
    assert refusal(lambda: yb.reconstruct(SQUARE, UP, settings=long)).detail == 2
    assert refusal(lambda: yb.estimate_radius(SQUARE, 1.5)).number == 6
    assert refusal(lambda: yb.reconstruct(SQUARE, UP, 0.001)).number == 15
    assert refusal(lambda: yb.judge(SQUARE, UP, yb.Settings(radius=1.0), (0, 1, 4))).number == 14
    assert str(refusal(lambda: yb.read_cloud(b"1\n2,3\n"))).endswith(": line 2")
    assert refusal(lambda: yb.read_stl(b"solid")).number == 12
    assert refusal(lambda: yb.order_patch([[0, 1, 2], [2, 3, 4]], 5)).number == 23
    assert refusal(lambda: yb.Tally().figures()).number == 21


def test_other_mistakes():
    with pytest.raises(TypeError, match="either a radius is wanted or settings"):
        yb.reconstruct(SQUARE, UP)
    with pytest.raises(TypeError, match="bytes are wanted, this is str"):
        yb.read_cloud("1\n")
    with pytest.raises(TypeError, match="faces: whole numbers are wanted, these are float"):
        yb.write_stl(SQUARE, [[0.5, 1, 2]])
    with pytest.raises(ValueError, match="faces: a number is below 0"):
        yb.write_stl(SQUARE, [[0, 1, -1]])
    with pytest.raises(ValueError, match="triangle: -1 is no point's number"):
        yb.judge(SQUARE, UP, yb.Settings(radius=1.0), (0, 1, -1))
    with pytest.raises(ValueError, match="triangle: three point numbers are wanted, these are 2"):
        yb.judge(SQUARE, UP, yb.Settings(radius=1.0), (0, 1))
    with pytest.raises(ValueError, match="faces: 4294967296 is below 0 or above"):
        yb.Tally().add(yb.SeasonPatch(1, 1, 1, 1 << 32))
    with pytest.raises(ValueError, match="a tally has 72 bytes, these are 3"):
        yb.Tally(b"abc")


def test_arrays_that_are_written_to():
    index = yb.Index(SQUARE)
    found, distances = np.empty(4, np.uint32), np.empty(4, np.float32)
    told = index.nearest(SQUARE, points=found, distances=distances)
    assert told.points is found and told.distances is distances
    assert found.tolist() == [0, 1, 2, 3] and not distances.any()
    read_only = found.copy()
    read_only.flags.writeable = False
    for points, error, words in [
        (np.empty(4, np.int64), TypeError, "points: an array of uint32 is wanted, this is int64"),
        ([0] * 4, TypeError, "points: an array of uint32 is wanted, this is list"),
        (np.empty(3, np.uint32), ValueError, r"points: the shape \(4,\) is wanted, this has \(3,\)"),
        (np.empty(8, np.uint32)[::2], ValueError, r"its strides are \(8,\)"),
        (read_only, ValueError, "points: it is read-only"),
        (distances.view(np.uint32), ValueError, "distances: it shares memory with points"),
    ]:
        with pytest.raises(error, match=words):
            index.nearest(SQUARE, points=points, distances=distances)


def test_an_index_of_its_own_points():
    points = SQUARE.copy()
    index = yb.Index(points)
    points[0] = 9
    assert index.nearest_one((0, 0, 0.5)) == (0, 0.5)
    with pytest.raises(ValueError, match="read-only"):
        index.points[0] = 9
    kept = index.numbers.copy()
    assert yb.Index(SQUARE, kept).nearest_one((1, 1, 1)) == (3, 1.0)
    assert refusal(lambda: yb.Index(points, kept)).number == 22
    short = refusal(lambda: yb.Index(SQUARE, kept[:-1]))
    assert (short.number, str(short)) == (7, "the index is too short")
    told = refusal(lambda: index.nearest([[0, 0, 0], [0, np.inf, 0]]))
    assert (told.number, told.detail) == (4, 1)
    assert str(told) == "a coordinate of a spot is outside the domain: spot 1"


def test_nothing_is_copied(monkeypatch):
    """Arrays as the library takes them are lent at the place where they are, and what comes back owns its memory."""
    from yarrowbleat import _arrays

    assert np.shares_memory(_arrays.rows(SQUARE, "points"), SQUARE)
    faces = np.uint32([[0, 1, 2]])
    assert np.shares_memory(_arrays.faces_of(faces, "faces"), faces)
    patch = yb.reconstruct(SQUARE, UP, 1.0)
    for array in (patch.faces, patch.origins):
        assert array.flags.owndata and array.flags.c_contiguous and array.dtype == np.uint32


def test_open_edges():
    patch = yb.reconstruct(SQUARE, UP, 1.0, turned=True)
    assert patch.faces.tolist() == [[0, 1, 2], [2, 1, 3]]
    assert patch.open_edges.tolist() == [[0, 1], [2, 0], [1, 3], [3, 2]]
    assert patch.reached.all() and patch.covered == 4


def test_defaults():
    """The default settings are the library's, at any radius, and what they lay is what the examples print."""
    for radius in (0.001, 0.1, 0.3, 1.0, 1000.0):
        ours, theirs = yb.Settings(radius=radius)._lent(), _library.C.yb_default_config(radius)
        for name, _ in ours._fields_:
            assert np.array_equal(getattr(ours, name), getattr(theirs, name)), name
    data = Path(__file__).resolve().parent.parent.parent / "tests/data"
    cloud = yb.read_cloud((data / "bell.csv").read_bytes())
    patch = yb.reconstruct(cloud.points, cloud.normals, cloud.radius)
    unreached = " ".join(str(point) for point in np.flatnonzero(~patch.reached))
    told = f"faces: {len(patch.faces)}\nreached: {patch.covered} of {patch.points} points\nnot reached: {unreached}\n"
    assert told == (data / "bell.expected").read_text()


def test_verdicts():
    told = yb.judge(SQUARE, UP, yb.Settings(radius=0.1, max_edge_factor=3.0), (0, 1, 2))
    assert told.kind == yb.Kind.LONG and str(told) == "long: 0.99999994, the limit is 0.3"
    flat = np.float32([[0, 0, 0], [1, 0, 0], [2, 0, 0]])
    assert str(yb.judge(flat, flat, yb.Settings(radius=1.0), (0, 1, 2))) == "no area: 0"
