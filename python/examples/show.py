"""Lays a patch over a cloud file and writes it as a mesh: `show.py CLOUD.csv MESH.stl`.

meshio writes what the name's ending says, .ply, .obj, .vtk; with Open3D installed and no second name the mesh is shown.
"""
import sys
from pathlib import Path

import yarrowbleat


def write(points, faces, name: str) -> None:
    import meshio

    meshio.Mesh(points, [("triangle", faces)]).write(name)


def show(points, faces) -> None:
    import open3d as o3d

    mesh = o3d.geometry.TriangleMesh(
        o3d.utility.Vector3dVector(points.astype("float64")), o3d.utility.Vector3iVector(faces.astype("int32"))
    )
    mesh.compute_vertex_normals()
    o3d.visualization.draw_geometries([mesh])


def main() -> None:
    cloud = yarrowbleat.read_cloud(Path(sys.argv[1]).read_bytes())
    patch = yarrowbleat.reconstruct(cloud.points, cloud.normals, cloud.radius, turned=True)
    reached = f"{patch.covered} of {patch.points} points reached"
    print(f"{len(patch.faces)} faces, {reached}, {len(patch.open_edges)} open edges")
    if len(sys.argv) > 2:
        write(cloud.points, patch.faces, sys.argv[2])
    else:
        show(cloud.points, patch.faces)


main()
