"""What the tests of the command share: grids as files, runs of the command, and plain readings of mesh files and PLY that take
nothing from the repository's own code."""
import atexit
import glob
import os
import shutil
import signal
import struct
import subprocess
import sys
import tempfile
import time

BED = os.environ["BED"]
failures = []


def expect(what, holds):
    if not holds:
        failures.append(what)
        print(f"NOT SO: {what}")


def finish(words):
    print("FAILED" if failures else words)
    sys.exit(1 if failures else 0)


def enter_folder():
    """into a new folder, which is gone when the test is done"""
    folder = tempfile.mkdtemp()
    atexit.register(shutil.rmtree, folder)
    os.chdir(folder)


def bed(*words):
    """status, output, errors of a run"""
    done = subprocess.run([BED, *map(str, words)], capture_output=True, text=True, stdin=subprocess.DEVNULL)
    return done.returncode, done.stdout, done.stderr


def stopped_run(reader, writer, *words):
    """what a run writes to this error stream, and whether it was stopped amid its work, for more than a second, with some of its
    files begun"""
    run = subprocess.Popen([BED, *words], stdout=subprocess.DEVNULL, stderr=writer)
    os.close(writer)
    while run.poll() is None and not glob.glob("*.part"):
        time.sleep(0.001)
    stopped = False
    if run.poll() is None:
        run.send_signal(signal.SIGSTOP)
        time.sleep(1.2)
        stopped = 0 < len(glob.glob("*.part")) < 150
        run.send_signal(signal.SIGCONT)
    seen = b""
    try:
        while piece := os.read(reader, 4096):
            seen += piece
    except OSError:  # so a terminal ends
        pass
    expect("done", run.wait() == 0)
    return seen, stopped


def npy(numbers, dims, kind="<f4", order="False", shape=None):
    x, y, z = dims
    header = f"{{'descr': '{kind}', 'fortran_order': {order}, 'shape': {shape or f'({z}, {y}, {x})'}, }}\n".encode()
    return b"\x93NUMPY\x01\x00" + struct.pack("<H", len(header)) + header + numbers


def floats(numbers):
    return struct.pack(f"<{len(numbers)}f", *numbers)


def put(path, content):
    with open(path, "wb") as file:
        file.write(content)
    return path


def got(path):
    with open(path, "rb") as file:
        return file.read()


def ball_grid(side, middle, radius):
    """the distances of a ball, in whole numbers so that every kind of file holds them"""
    return [round(((x - middle) ** 2 + (y - middle) ** 2 + (z - middle) ** 2) ** 0.5 * 7 - radius * 7)
            for z in range(side) for y in range(side) for x in range(side)]


def mesh_file(content):
    """positions, normals and triangles of a mesh file, read as request 2 of document 02 says"""
    positions, normals, triangles = [], [], []
    records = list(struct.iter_unpack("<8I", content))
    for words in records:
        assert sum(words[:7]) % 2 ** 32 == words[7]
    for words in records[:-1]:
        if words[0] == 1:
            six = struct.unpack("<6f", struct.pack("<6I", *words[1:7]))
            positions.append(six[:3])
            normals.append(six[3:])
        else:
            triangles.append(words[1:4])
    assert records[-1][:3] == (3, len(positions), len(triangles))
    return positions, normals, triangles


def ply_file(content):
    """names of a vertex's properties, vertices and triangles of a binary PLY"""
    header, body = content.split(b"end_header\n", 1)
    lines = header.decode().split("\n")
    assert lines[:2] == ["ply", "format binary_little_endian 1.0"]
    vertices = int(next(line for line in lines if line.startswith("element vertex")).split()[2])
    faces = int(next(line for line in lines if line.startswith("element face")).split()[2])
    names = [line.split()[2] for line in lines if line.startswith(("property float", "property uchar"))]
    form = struct.Struct("<6f" + ("B" if "crossings" in names else ""))
    at = form.size * vertices
    triangles = list(struct.iter_unpack("<B3I", body[at:]))
    assert len(triangles) == faces and all(four[0] == 3 for four in triangles)
    return names, list(form.iter_unpack(body[:at])), [four[1:] for four in triangles]


def sixfold(positions, triangles):
    """request 14's sum, in whole numbers"""
    steps = [[int(coordinate * 256) for coordinate in position] for position in positions]
    total = 0
    for triangle in triangles:
        a, b, c = (steps[index] for index in triangle)
        total += a[0] * (b[1] * c[2] - b[2] * c[1]) + a[1] * (b[2] * c[0] - b[0] * c[2]) + a[2] * (b[0] * c[1] - b[1] * c[0])
    return total


def weighed(positions, triangles):
    """the sum of (az + bz + cz) times twice the area seen from above, over the triangles a, b, c, in whole numbers: of an open sheet too it is six
    times the volume down to z = 0"""
    steps = [[int(coordinate * 256) for coordinate in position] for position in positions]
    total = 0
    for triangle in triangles:
        a, b, c = (steps[index] for index in triangle)
        total += (a[2] + b[2] + c[2]) * ((b[0] - a[0]) * (c[1] - a[1]) - (b[1] - a[1]) * (c[0] - a[0]))
    return total


def shown(positions, triangles):
    """the triangles by their corners' positions, sorted, so that two meshes with other vertex numbers compare"""
    return sorted(tuple(positions[index] for index in triangle) for triangle in triangles)
