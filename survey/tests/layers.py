"""layers FOLDER: runs `bed mesh` and `bed survey` with --memory 1, so that every grid stays in its file and is taken layer by layer, and
compares what comes out with what they make of the same grid in memory: mesh files and PLY byte for byte, pages line by line. Then
what may go wrong: refused grids, pipes, a file that changes meanwhile; and the most memory that a run had. FOLDER is that of
scripts/make-tank; BED names the command."""
import glob
import json
import os
import pty
import random
import re
import shutil
import signal
import subprocess
import sys
import threading
import time

from common import *

TANK = os.path.abspath(sys.argv[1])
LAYERS = "--memory", "1"
MEMORY = "--memory", "4G"
enter_folder()
random.seed(11)


def both(*words):
    """a run in memory and one layer by layer: what both print, and each file that they wrote"""
    ends = []
    for way in (MEMORY, LAYERS):
        before = set(os.listdir("."))
        end = bed(*words, *way)
        files = {name: got(name) for name in set(os.listdir(".")) - before}
        for name in files:
            os.remove(name)
        ends.append((*end, files))
    return ends


def values(kind, count):
    """numbers that every kind of file holds, and their bytes"""
    some = random.choice(((-9, 9), (-1, 30), (-30, 1), (-1, 1)))
    numbers = [random.randint(*some) for _ in range(count)]
    letter = {"float32": "f", "int16": "h", "int8": "b"}[kind]
    return struct.pack(f"<{count}{letter}", *numbers)


def corners(dims):
    low = [random.randrange(size) for size in dims]
    high = [random.randrange(least, size) for least, size in zip(low, dims)]
    return "--box", ",".join(map(str, low + high))


def meshes():
    shapes = {"float32": "<f4", "int16": "<i2", "int8": "|i1"}
    faces = 0
    for number in range(180):
        dims = [random.choice((1, 2, 5, 9, 13, 17)) for _ in range(3)]
        kind = random.choice(list(shapes))
        numbers = values(kind, dims[0] * dims[1] * dims[2])
        words = ["mesh", "in.grid", "-o", "out.mesh", "--max-plane"]
        words.append("".join(axis for axis in "xyz" if random.random() < 0.5) or "-")
        if number % 2:
            words += corners(dims)
        if number % 3:
            words += "--ply", "out.ply"
        if number % 5:
            put("in.grid", npy(numbers, dims, shapes[kind]))
        else:
            put("in.grid", numbers)
            words += "--type", kind, "--dims", ",".join(map(str, dims))
        one, other = both(*words)
        expect(f"{words} of {dims} {kind}: {other[:3]}", one == other and one[0] == 0 and one[2] == "")
        expect("its files", set(one[3]) == {"out.mesh"} | ({"out.ply"} if number % 3 else set()))
        faces += int(one[1].split()[3])
    expect("there are faces", faces > 10000)
    # more records than are gathered before they are written
    put("large.npy", npy(random.randbytes(37 * 38 * 39), (37, 38, 39), "|i1"))
    one, other = both("mesh", "large.npy", "-o", "out.mesh", "--max-plane", "xz", "--ply", "out.ply")
    expect("a large mesh", one == other and len(one[3]["out.mesh"]) > 32 * 100000)
    print(f"layers: {faces} triangles of 180 small grids, {one[1].split()[3]} of a large one, the same bytes")


def refusals():
    """the same numbers, and the old file stays"""
    dims = (4, 5, 6)
    good = [1.0] * 120
    good[61] = -1.0
    bad = good[:-1] + [float("nan")]
    put("out.mesh", b"old")
    for number, content, more in (
            (1, npy(b"", (70000, 70000, 1)), ()), (1, npy(b"", (16777218, 1, 1)), ()), (2, npy(floats(good), dims), ("--box", "0,0,0,4,1,1")),
            (2, npy(floats(good), dims), ("--box", "3,0,0,2,1,1")), (2, npy(floats(good), dims), ("--box", "0,0,3,2,1,2")),
            (2, npy(floats(bad[1:]), dims), ("--box", "0,0,0,1,1,6")), (3, npy(floats(bad[1:]), dims), ()),
            (3, npy(floats(good + [0]), dims), ("--box", "0,0,0,1,1,1")), (3, npy(b"", dims), ()), (5, npy(floats(bad), dims), ()),
            (5, npy(floats([3e37] + good[1:]), dims), ())):
        put("bad.npy", content)
        before = sorted(os.listdir("."))
        for words in (("mesh", "bad.npy", "-o", "out.mesh", *more), ("mesh", "bad.npy", "-o", "out.mesh", "--ply", "out.ply", *more),
                      *([("survey", "bad.npy", "-o", "out.mesh")] if not more else [])):
            for way in (MEMORY, LAYERS):
                status, output, errors = bed(*words, *way)
                expect(f"{words} {way} is refused {number}: {errors}", (status, output) == (1, "") and f"bed: bad.npy: refused {number}: " in errors)
            expect("the old file stays, and nothing else is there", sorted(os.listdir(".")) == before and got("out.mesh") == b"old")
    os.remove("out.mesh")
    put("bad.npy", npy(floats(bad), dims))
    for way in (MEMORY, LAYERS):
        errors = bed("mesh", "bad.npy", "-o", "out.mesh", *way)[2]
        expect(f"the bad distance is named: {errors}", errors.endswith(": the only one stands at x 3, y 4, z 5 and is NaN\n"))
    several = list(good)
    several[1 + 4 * (2 + 5 * 3)], several[2 + 4 * (0 + 5 * 4)], several[0] = float("-inf"), 3e37, float("nan")
    put("bad.npy", npy(floats(several), dims))
    for way in (MEMORY, LAYERS):
        errors = bed("mesh", "bad.npy", "-o", "out.mesh", "--box", "1,0,0,3,4,5", *way)[2]
        expect(f"the first of those in the box: {errors}", errors.endswith(": 2 of them, the first at x 1, y 2, z 3 is -inf\n"))
        put("short.npy", npy(floats(good[:7]), dims))
        errors = bed("mesh", "short.npy", "-o", "out.mesh", *way)[2]
        expect(f"both counts: {errors}", errors.endswith(": 7 numbers are there, 4 x 5 x 6 = 120 are wanted\n"))
        os.remove("short.npy")
    put("bad.npy", npy(floats(bad), dims))
    one, other = both("mesh", "bad.npy", "-o", "out.mesh", "--box", "0,0,0,3,4,4")
    expect("a bad distance outside the box", one == other and one[0] == 0)


def fixtures():
    """cut out of each layer as it is read: the same meshes, pages and counts as in memory, of every kind of number"""
    record = struct.Struct("<I6fI").pack
    dims = (35, 9, 11)
    for kind, code in (("float32", "<f4"), ("int16", "<i2"), ("int8", "|i1")):
        put("in.npy", npy(values(kind, 35 * 9 * 11), dims, code))
        put("two.fixtures", record(2, *struct.unpack("<6f", struct.pack("<6I", 2, 0, 0, 0, 0, 0)), 0)
            + record(1, 30.5, 1, 2, 40, 7, 5.5, 0) + record(1, 3, 2.25, 6, 9, 8, 20, 0))
        for more in ((), ("--closed",), ("--open",)):
            one, other = both("survey", "in.npy", "--fixtures", "two.fixtures", "-o", "out.mesh", "--json", "out.json", *more)
            expect(f"fixtures, {kind} {more}: {other[:3]}", one[3]["out.mesh"] == other[3]["out.mesh"] and one[0] == other[0] in (0, 3))
            told = [[line for line in end[1].splitlines() if line.startswith("fixtures: ")] for end in (one, other)]
            cut = [json.loads(end[3]["out.json"])["points_cut"] for end in (one, other)]
            expect(f"so many points, {told} {cut}", cut[0] == cut[1] > 0 and told[0] == told[1] == [f"fixtures: two.fixtures: cut out, {cut[0]} of 3465 points changed"])
    put("away.fixtures", record(1, 300, 1, 2, 400, 7, 5.5, 0))
    one, other = both("survey", "in.npy", "--fixtures", "away.fixtures", "-o", "out.mesh")
    for end in (one, other):
        expect(f"fixtures in the wrong place: {end[1]}", "fixtures: away.fixtures: cut out, NO POINT CHANGED" in end[1])
    put("empty.fixtures", b"")
    for way in (MEMORY, LAYERS):
        status, output, errors = bed("survey", "in.npy", "--fixtures", "empty.fixtures", "-o", "out.mesh", *way)
        expect(f"an empty file, {way}: {errors}", (status, output) == (1, "") and "bed: empty.fixtures: refused 51: " in errors)


def wrong(*words, says):
    before = sorted(os.listdir("."))
    status, output, errors = bed(*words)
    expect(f"{words} is wrong: {status} {errors}", (status, output) == (2, "") and says in errors)
    expect(f"{words} writes nothing", sorted(os.listdir(".")) == before)


def uses():
    ball = put("ball.npy", npy(floats(ball_grid(8, 3.5, 2)), (8, 8, 8)))
    for size in ("", "K", "1k", "-1", "1.5G", "all", "1T", "99999999999999999999"):
        wrong("mesh", ball, "-o", "out.mesh", "--memory", size, says="--memory")
        wrong("survey", ball, "-o", "out.mesh", "--memory", size, says="--memory")
    wrong("plan", "none.plan", ball, "--memory", "1", says="no such option")
    put("half.npy", got(ball)[:-1])
    wrong("mesh", "half.npy", "-o", "out.mesh", *LAYERS, says="half.npy: ends inside a number")
    # the command's own four MiB, 512 points, a map of them and the mesh; how it is added up the command's own tests say
    for size, layers in (("4194304", True), ("4096K", True), ("4M", True), ("5M", False), ("0", True), ("1M", True), ("1G", False)):
        status, output, _ = bed("survey", ball, "-o", "out.mesh", "--memory", size)
        expect(f"--memory {size}", status == 0 and ("\nlayers: " in output) == layers)
        joined = bed("survey", ball, "--output=out.mesh", f"--memory={size}")
        expect(f"--memory={size}", joined == (status, output, ""))
    expect("without it", "\nlayers: " not in bed("survey", ball, "-o", "out.mesh")[1])
    wanted = got("out.mesh")
    for name in ("half.npy", "out.mesh"):
        os.remove(name)
    os.mkfifo("pipe")
    for way, status in (((), 0), (LAYERS, 2)):
        feeding = threading.Thread(target=fed, args=(got(ball),))
        feeding.start()
        end = bed("mesh", "pipe", "-o", "out.mesh", *way)
        feeding.join()
        expect(f"a pipe {way}: {end}", end[0] == status and (status == 0 or "pipe: is no plain file and cannot be read twice" in end[2]))
    expect("the pipe's mesh", got("out.mesh") == wanted)
    # in memory the grid would fit, its mesh not: the pipe is read, and cannot be read again
    put("noise.npy", npy(random.randbytes(40 ** 3), (40,) * 3, "|i1"))
    for command in ("mesh", "survey"):
        feeding = threading.Thread(target=fed, args=(got("noise.npy"),))
        feeding.start()
        status, _, errors = bed(command, "pipe", "-o", "out.mesh", "--memory", "5M")
        feeding.join()
        expect(f"a pipe with a large mesh, {command}: {errors}", status == 2 and "cannot be read twice" in errors)
        status, output, _ = bed(command, "noise.npy", "-o", "noise.mesh", "--memory", "5M")
        in_layers = got("noise.mesh")
        expect(f"a large mesh, {command}", status == 0 and bed(command, "noise.npy", "-o", "noise.mesh", "--memory", "4G")[0] == 0
               and got("noise.mesh") == in_layers and (command == "mesh" or "\nlayers: " in output))
    for name in ("noise.npy", "noise.mesh"):
        os.remove(name)
    os.remove("pipe")
    os.remove("out.mesh")


def fed(content):
    try:
        put("pipe", content)
    except BrokenPipeError:
        pass


def lines(output):
    """the page's own lines, without what they rest on"""
    return [line for line in output.split("\n") if not line.startswith((" ", "layers: "))]


def surveys():
    tank, plan = f"{TANK}/tank.npy", f"{TANK}/tank.plan"
    put("slabs.plan", b"0 0 0 96 64 32 xz\n0 0 0 96 64 11 x\n10 10 10 11 11 11 -\n0 0 10 96 64 20 x\n0 0 19 96 64 32 xz\n")
    put("none.plan", b"0 0 0 0 0 0 -\n")
    put("open.npy", npy(floats([z - 1.5 for z in range(4) for _ in range(16)]), (4, 4, 4)))
    far = [1.0] * (140 * 5 * 5)
    far[136 + 140 * (2 + 5 * 2)] = -1.0
    put("far.npy", npy(floats(far), (140, 5, 5)))
    high = [1.0] * (5 * 5 * 140)
    high[2 + 5 * (2 + 5 * 136)] = -1.0
    put("high.npy", npy(floats(high), (5, 5, 140)))
    put("noise.npy", npy(random.randbytes(9 ** 3), (9, 9, 9), "|i1"))
    for words, blocks, hole, volume in (
            ((tank,), 1, "none", r"\d+\.\d{3} cubed"), ((tank, "--plan", plan), 200, "none", r"\d+\.\d{3} cubed"),
            ((tank, "--plan", "slabs.plan"), 4, "none", r"\d+\.\d{3} cubed"), (("open.npy",), 1, "none", "1[23].* cubed"),
            ((tank, "--closed"), 1, "none", r"\d+\.\d{3} cubed"), ((tank, "--closed", "--plan", plan), 200, "none", r"\d+\.\d{3} cubed"),
            (("open.npy", "--open"), 1, "not asked", "none is told"), (("far.npy",), 1, "none", "0.* cubed"), (("high.npy",), 1, "none", "0.* cubed"),
            (("noise.npy",), 1, "none", r"\d+.* cubed"), (("noise.npy", "--closed"), 1, "none", r"\d+.* cubed"),
            (("noise.npy", "--plan", "none.plan"), 0, "", "")):
        one, other = both("survey", *words, "-o", "out.mesh")
        wanted = 3 if "--open" in words else 0
        expect(f"survey {words}: {other[2]}", one[0] == other[0] == wanted and one[2] == other[2] == "")
        manifest = 1 if "--plan" in words else 0
        expect(f"the files of {words}", one[3] == other[3] and len(one[3]) == blocks + manifest and ("out.manifest" in one[3]) == bool(manifest))
        expect(f"the page of {words}", lines(one[1]) == lines(other[1]) and "\nlayers: taken one by one" in other[1])
        expect(f"what it says of {words}", f"\nhole: {hole}" in other[1] and re.search(f"^volume: {volume}", other[1], re.M))
        expect("what is not proved", ("not proved: that this command hands on the closed grid's layers" in other[1]) == (wanted == 0) and "not proved: that" not in one[1]
               and "not proved: that this command hands on the layers" in other[1])
    # a block outside the grid, and a plan that is none
    put("bad.plan", b"0 0 0 8 8 8 -\n0 0 0 8 8 8 -\n0 0 0 0 0 40 -\n")
    before = sorted(os.listdir("."))
    status, output, errors = bed("survey", "noise.npy", "--plan", "bad.plan", "-o", "out.mesh", *LAYERS)
    expect(f"the bad block: {errors}", (status, output) == (1, "") and "the block of bad.plan, line 3: refused 2: " in errors)
    put("bad.plan", b"0 0 0 9 8 8 -\n0 0 0 9 8 8 -\n")
    status, output, errors = bed("survey", "noise.npy", "--plan", "bad.plan", "-o", "out.mesh", *LAYERS)
    expect(f"the bad whole: {errors}", (status, output) == (1, "") and "bed: noise.npy: refused 2: " in errors)
    expect("nothing is written", sorted(os.listdir(".")) == before)


def changes():
    """another grid is written over the first while the run is stopped: one of the two meshes, or a refusal that leaves the old file"""
    contents = [npy(random.randbytes(24 ** 3), (24,) * 3, "|i1") for _ in range(2)]
    wholes = []
    for content in contents:
        put("in.npy", content)
        start = time.monotonic()
        expect("meshed", bed("mesh", "in.npy", "-o", "out.mesh", *LAYERS)[0] == 0)
        longest = time.monotonic() - start
        wholes.append(got("out.mesh"))
    seen = {"old": 0, "new": 0, "changed": 0}
    for _ in range(150):
        put("in.npy", contents[0])
        put("out.mesh", b"old")
        run = subprocess.Popen([BED, "mesh", "in.npy", "-o", "out.mesh", *LAYERS], stdout=subprocess.DEVNULL, stderr=subprocess.PIPE, text=True)
        time.sleep(random.uniform(0, longest))
        run.send_signal(signal.SIGSTOP)
        with open("in.npy", "r+b") as file:
            file.write(contents[1])
        run.send_signal(signal.SIGCONT)
        _, errors = run.communicate()
        if run.returncode == 0:
            expect("one of the two meshes", got("out.mesh") in wholes)
            seen["old" if got("out.mesh") == wholes[0] else "new"] += 1
        else:
            expect(f"says that it changed: {errors}", run.returncode == 2 and errors.startswith("bed: in.npy: changed while it was read"))
            expect("the old file stays", got("out.mesh") == b"old")
            seen["changed"] += 1
    expect(f"some changed: {seen}", seen["changed"] > 0)
    expect("nothing is left", glob.glob("*.part") == [])
    os.remove("out.mesh")
    print(f"layers: the grid changed amid 150 runs: {seen}")


def progress():
    words = "mesh", f"{TANK}/tank.npy", "-o", "out.mesh", *LAYERS
    seen, stopped = stopped_run(*pty.openpty(), *words)
    if stopped:
        expect(f"progress on a terminal: {seen}", re.search(rb"\r\d+ of 66 layers, \d+ vertices", seen) and seen.endswith(b"\r\x1b[K"))
    else:
        print("progress: the run was too quick to be stopped amid its layers, skipped")
    expect("none in a pipe", stopped_run(*os.pipe(), *words)[0] == b"")
    os.remove("out.mesh")


SIDE = 256


def tube(layers):
    """a grid of many layers: a tube with a floor and a lid, in a border; made without holding it"""
    middle = (SIDE - 1) / 2
    inside = floats([((x - middle) ** 2 + (y - middle) ** 2) ** 0.5 - 70 for y in range(SIDE) for x in range(SIDE)])
    border = floats([30.0] * SIDE ** 2)
    with open("tube.npy", "wb") as file:
        file.write(npy(b"", (SIDE, SIDE, layers)))
        for z in range(layers):
            file.write(inside if 0 < z < layers - 2 else border)
    return os.path.getsize("tube.npy")


def peak(*words):
    """the most memory of a run, in bytes"""
    done = subprocess.run(["time", "-f", "%M", "-o", "peak", BED, *words], stdout=subprocess.DEVNULL)
    expect(f"{words}", done.returncode == 0)
    return int(got("peak").split()[-1]) * 1024


def memory():
    if not shutil.which("time"):
        print("time is not there: the most memory of a run is not looked at")
        return
    peaks = []
    for layers in (32, 1024):
        size = tube(layers)
        peaks.append([peak(command, "tube.npy", "-o", "out.mesh", "--memory", "16M") for command in ("mesh", "survey")])
    expect(f"within the memory that is named: {peaks}", max(peaks[1]) < 16 << 20)
    expect(f"whatever the number of layers: {peaks}", all(large < small + (1 << 20) for small, large in zip(*peaks)))
    by_layers = got("out.mesh")
    expect("in memory", bed("mesh", "tube.npy", "-o", "out.mesh", *MEMORY)[0] == 0)
    expect("the same mesh", got("out.mesh") == by_layers)
    print(f"layers: a grid of {size} bytes in {max(peaks[1]) >> 10} kB, to a mesh file of {len(by_layers)} bytes")


meshes()
refusals()
fixtures()
uses()
surveys()
changes()
progress()
memory()
expect("no part is left", glob.glob("*.part") == [])
finish("layers: all as it should be")
