"""Every call against the safe Rust crate, bit for bit, on what `pycases` generates."""
import os
import subprocess
from collections import Counter
from fractions import Fraction
from pathlib import Path

import numpy as np
import yarrowbleat as yb

ROOT = Path(__file__).resolve().parent.parent.parent
PYCASES = os.environ.get("YARROWBLEAT_PYCASES", str(ROOT / "target/rust/release/pycases"))


class Given:
    """The lists of a line, in turn."""

    def __init__(self, line):
        self.kind, *lists = line.split(" |")
        self.lists = [np.array(words.split(), np.uint64) for words in lists]

    def words(self):
        return self.lists.pop(0).astype(np.uint32)

    def whole(self):
        return [int(word) for word in self.lists.pop(0)]

    def floats(self):
        return self.words().view(np.float32)

    def rows(self):
        return self.floats().reshape(-1, 3)

    def data(self):
        return self.lists.pop(0).astype(np.uint8).tobytes()

    def settings(self):
        radius, threshold, factor, area, cell = (float(x) for x in self.floats())
        radii, percentiles = self.floats(), self.floats()
        (radii_count, adaptive, percentile_count), (spatial, rule) = self.whole(), self.whole()
        return yb.Settings(
            radius=radius,
            additional_radii=[float(x) for x in radii[:radii_count]],
            adaptive_radius=bool(adaptive),
            adaptive_percentiles=[float(x) for x in percentiles[:percentile_count]],
            quality_threshold=threshold,
            max_edge_factor=factor,
            min_triangle_area=area,
            use_spatial_index=bool(spatial),
            spatial_cell_factor=cell,
            frontier_rule=rule,
        )

    def answered(self, call):
        """What the call gives, or None where it refuses as the crate does."""
        number, detail = self.whole()
        try:
            result = call()
        except yb.Refusal as refusal:
            assert (refusal.number, refusal.detail) == (number, detail)
            assert not self.lists
            return None
        assert (number, detail) == (0, 0)
        return result


def same(found, stored):
    assert found.dtype == stored.dtype
    assert np.array_equal(found.reshape(-1).view(np.uint32), stored.reshape(-1).view(np.uint32))


def reconstruct(given):
    points, normals, settings, (turned,) = given.rows(), given.rows(), given.settings(), given.whole()
    patch = given.answered(lambda: yb.reconstruct(points, normals, settings=settings, turned=bool(turned)))
    if patch is not None:
        same(patch.faces, given.words())
        same(patch.origins, given.words())
        same(patch.radii, given.floats())
        assert [patch.seeds, patch.looks, patch.pivots] == given.whole()
        unreached = given.words()
        same(np.flatnonzero(~patch.reached).astype(np.uint32), unreached)
        assert patch.covered == len(points) - len(unreached)


def estimate(given):
    points, (percentile,) = given.rows(), given.floats()
    radius = given.answered(lambda: yb.estimate_radius(points, float(percentile)))
    if radius is not None:
        same(np.float32([radius]), given.floats())


def judge(given):
    points, normals, settings, triangle = given.rows(), given.rows(), given.settings(), given.whole()
    verdict = given.answered(lambda: yb.judge(points, normals, settings, triangle))
    if verdict is not None:
        same(np.float32([verdict.measured]), given.floats())


def index(given):
    points = given.rows()
    built = given.answered(lambda: yb.Index(points))
    if built is not None:
        same(built.numbers, given.words())
        assert yb.Index(points, built.numbers).numbers is not built.numbers


def nearest(given):
    points, spots = given.rows(), given.rows()
    found = given.answered(lambda: yb.Index(points).nearest(spots))
    if found is not None:
        same(found.points, given.words())
        same(found.distances, given.floats())


def stl(given):
    points, faces = given.rows(), given.words().reshape(-1, 3)
    file = given.answered(lambda: yb.write_stl(points, faces))
    if file is not None:
        assert file == given.data()
        same(yb.read_stl(file), points[faces])


def order(given):
    faces, (points,) = given.words().reshape(-1, 3), given.whole()
    told = given.answered(lambda: yb.order_patch(faces, points))
    if told is not None:
        same(told.order, given.words())
        assert [told.seeds] == given.whole()
        lines = "".join("%d,%d,%d\n" % tuple(face) for face in faces).encode()
        same(yb.order_patch(lines, points).order, told.order)


def file(given):
    data = given.data()
    cloud = given.answered(lambda: yb.read_cloud(data))
    if cloud is not None:
        same(np.float32([cloud.radius]), given.floats())
        same(cloud.points, given.floats())
        same(cloud.normals, given.floats())


def season(given):
    tally = yb.Tally()
    for number, scanned, covered, faces, answer in given.words().reshape(-1, 5).tolist():
        try:
            tally.add(yb.SeasonPatch(number, scanned, covered, faces))
            assert answer == 0
        except yb.Refusal as refusal:
            assert refusal.number == answer
    kept = yb.Tally(bytes(tally))
    f = given.answered(kept.figures)
    if f is not None:
        assert [f.patches] == given.whole()
        told = [f.mean, f.variance, f.coverage, f.best_coverage, f.worst_coverage]
        stored = given.whole()
        assert told == [Fraction(*pair) for pair in zip(stored[::2], stored[1::2])]
        assert [f.best.number, f.worst.number] == given.whole()


KINDS = (reconstruct, estimate, judge, index, nearest, stl, order, file, season)


def test_python_answers_as_the_crate_does():
    calls = {call.__name__: call for call in KINDS}
    told = subprocess.run([PYCASES, "400", "1"], check=True, capture_output=True, text=True).stdout
    seen = Counter()
    for line in told.splitlines():
        given = Given(line)
        calls[given.kind](given)
        assert not given.lists, "something was not compared"
        seen[given.kind] += 1
    assert set(seen) == set(calls)
    assert min(seen.values()) > 100, seen
