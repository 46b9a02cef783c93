"""One scanned wall, laid by this package and by Open3D's ball pivoting, at the same radius.

`beside_open3d.py CLOUD.csv` prints for each how many triangles it lays, how many points they reach, how many edges lie
in one face, in two and in more, and how many neighbours face opposite ways.
"""
import sys
from pathlib import Path

import numpy as np
import open3d as o3d
import yarrowbleat


def by_open3d(cloud: yarrowbleat.Cloud) -> np.ndarray:
    scan = o3d.geometry.PointCloud()
    scan.points = o3d.utility.Vector3dVector(cloud.points.astype(np.float64))
    scan.normals = o3d.utility.Vector3dVector(cloud.normals.astype(np.float64))
    radii = o3d.utility.DoubleVector([cloud.radius])
    mesh = o3d.geometry.TriangleMesh.create_from_point_cloud_ball_pivoting(scan, radii)
    return np.asarray(mesh.triangles).astype(np.uint32)


def tell(name: str, faces: np.ndarray, points: int) -> None:
    edges = faces[:, [[0, 1], [1, 2], [2, 0]]].reshape(-1, 2)
    _, faces_at = np.unique(np.sort(edges, axis=1), axis=0, return_counts=True)
    _, same_way = np.unique(edges, axis=0, return_counts=True)
    reached = len(np.unique(faces))
    print(f"{name}: {len(faces)} triangles, {reached} of {points} points reached")
    one, two, more = (np.sum(count) for count in (faces_at == 1, faces_at == 2, faces_at > 2))
    print(f"  edges in one face: {one}, in two: {two}, in more: {more}")
    print(f"  neighbours that face opposite ways: {np.sum(same_way > 1)}")


def main() -> None:
    cloud = yarrowbleat.read_cloud(Path(sys.argv[1]).read_bytes())
    patch = yarrowbleat.reconstruct(cloud.points, cloud.normals, cloud.radius, turned=True)
    tell("yarrowbleat", patch.faces, len(cloud.points))
    tell("Open3D", by_open3d(cloud), len(cloud.points))


main()
