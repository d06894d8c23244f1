"""viewers FOLDER: opens PLY files of `bed` with a reader that others wrote, assimp, and compares each corner's position and normal with
the mesh file, bit for bit. Where it is not there that is said, and nothing is compared. FOLDER is that of scripts/make-tank; BED
names the command."""
import os
import shutil
import subprocess
import sys

from common import *

TANK = os.path.abspath(sys.argv[1])
enter_folder()


def rounded(words):
    """the floats that nine digits name"""
    return struct.unpack(f"<{len(words)}f", struct.pack(f"<{len(words)}f", *map(float, words)))


def corners(positions, normals, triangles):
    """triangles by positions and normals, since a reader may number vertices anew; the order of three corners and of the triangles stays"""
    return [tuple(positions[index] + normals[index] for index in triangle) for triangle in triangles]


def by_assimp(name):
    subprocess.run(["assimp", "export", name, "read.obj"], stdout=subprocess.DEVNULL, check=True)
    lines = [line.split() for line in open("read.obj") if line.strip()]
    positions = [rounded(line[1:4]) for line in lines if line[0] == "v"]
    normals = [rounded(line[1:4]) for line in lines if line[0] == "vn"]
    faces = [[tuple(int(number) - 1 for number in word.split("//")) for word in line[1:]] for line in lines if line[0] == "f"]
    return [tuple(positions[p] + normals[n] for p, n in face) for face in faces]


if not shutil.which("assimp"):
    finish("viewers: assimp is not there, NOTHING was compared")
expect("meshed", bed("mesh", f"{TANK}/tank.npy", "-o", "tank.mesh", "--ply", "call.ply")[0] == 0)
expect("made of the file", bed("ply", "tank.mesh", "file.ply")[0] == 0)
wanted = corners(*mesh_file(got("tank.mesh")))
for name in ("call.ply", "file.ply"):
    expect(f"{name} as assimp reads it", by_assimp(name) == wanted)
finish(f"viewers: assimp reads the same corners and normals, of {len(wanted)} triangles")
