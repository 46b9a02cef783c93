"""The calls that lay and estimate, against the stored answers of the published Rust."""
from pathlib import Path

import numpy as np
import yarrowbleat as yb
from yarrowbleat import _library

STORED = Path(__file__).resolve().parent.parent.parent / "tests/stored-answers.txt"
NAN = 2143289344


def bits(*floats):
    """The bits of floats, one pattern for all not-a-numbers."""
    words = np.float32(floats).view(np.uint32)
    return [NAN if np.isnan(x) else int(word) for x, word in zip(np.float32(floats), words)]


def floats(words):
    return [float(x) for x in np.uint32(words).view(np.float32)]


def refused(call):
    try:
        return call(), 0, 0
    except yb.Refusal as refusal:
        return None, refusal.number, refusal.detail


def settings(words):
    f = floats(words)
    return yb.Settings(
        radius=f[0],
        additional_radii=f[1 : 1 + min(words[9], 8)] + [0.0] * (words[9] > 8),
        adaptive_radius=words[10] == 1,
        adaptive_percentiles=f[11 : 11 + min(words[19], 8)] + [0.0] * (words[19] > 8),
        quality_threshold=f[20],
        max_edge_factor=f[21],
        min_triangle_area=f[22],
        use_spatial_index=words[23] == 1,
        spatial_cell_factor=f[24],
        frontier_rule=words[25],
    )


def enough(points, words, lent):
    """Whether the work slices of a stored call were long enough: Python's always are."""
    n = points // 3
    return words >= 24 * n + 64 and lent >= 4 * n + 64


def estimate(words):
    length = words[0]
    points, (percentile, lent_words, lent_floats, answer, detail, radius) = words[1 : 1 + length], words[1 + length :]
    if length % 3 or not enough(length, lent_words, lent_floats):
        return False
    cloud = np.uint32(points).view(np.float32).reshape(-1, 3)
    told = refused(lambda: yb.estimate_radius(cloud, floats([percentile])[0]))
    assert told[1:] == (answer, detail)
    assert answer or bits(told[0]) == [radius]
    return True


def reconstruct(words):
    length = words[0]
    points, normals, rest = words[1 : 1 + length], words[1 + length], words[2 + length :]
    chosen, (face_words, lent_words, lent_floats), told = settings(rest[:26]), rest[26:29], rest[29:]
    answer, detail, faces, seeds, looks, pivots, radii = told[:7]
    if length % 3 or normals % 3 or answer == 9 or not enough(length, lent_words, lent_floats):
        return False
    cloud = np.uint32(points).view(np.float32).reshape(-1, 3)
    up = np.ones((normals // 3, 3), np.float32)
    patch, number, place = refused(lambda: yb.reconstruct(cloud, up, settings=chosen))
    assert (number, place) == (answer, detail)
    if patch is not None:
        assert [len(patch.faces), patch.seeds, patch.looks, patch.pivots] == [faces, seeds, looks, pivots]
        assert bits(*patch.radii) == told[7 : 7 + radii]
        assert patch.faces.reshape(-1).tolist() == told[7 + radii :]
    return True


def single(kind, words):
    """The calls over numbers and triangles, which the package lends as the library has them."""
    C = _library.C
    if kind == 6:
        quality = _library.TriangleQuality(*floats(words[:6]))
        return [int(C.yb_is_triangle_acceptable(quality, *floats(words[6:10])))], words[10:]
    if kind == 5:
        q = C.yb_compute_triangle_quality(*floats(words[:9]))
        return bits(*(getattr(q, name) for name, _ in q._fields_)), words[9:]
    if kind == 9:
        return bits(C.yb_compute_circumradius(*floats(words[:9]))), words[9:]
    if kind in (3, 4):
        return [(C.yb_cut if kind == 3 else C.yb_ceil_cut)(*floats(words[:1]))], words[1:]
    return bits((C.yb_sqrt if kind == 1 else C.yb_acos)(*floats(words[:1]))), words[1:]


def test_the_stored_answers():
    seen = dict.fromkeys(range(1, 10), 0)
    for line in STORED.read_text().splitlines():
        if line.startswith("#"):
            continue
        count, kind, *words = map(int, line.split(" "))
        assert count == len(words) + 1
        if kind == 7:
            seen[kind] += estimate(words)
        elif kind == 8:
            seen[kind] += reconstruct(words)
        else:
            told, stored = single(kind, words)
            assert told == stored, line
            seen[kind] += 1
    assert min(seen.values()) > 100, seen
