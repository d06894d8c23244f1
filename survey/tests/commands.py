"""commands FOLDER: runs each command of `bed` on good and bad files, FOLDER being that of scripts/make-tank, and compares what it
writes with plain readings of document 02. BED names the command."""
import glob
import os
import pty
import random
import re
import subprocess
import sys

from common import *

TANK = os.path.abspath(sys.argv[1])
HERE = os.path.dirname(os.path.realpath(__file__))
enter_folder()
SIDE = 12
BALL = ball_grid(SIDE, 5.5, 4)
BALL_FILE = put("ball.npy", npy(floats(BALL), (SIDE,) * 3))


def refused(number, *words, name):
    """the run is refused by the library, names the file and writes nothing"""
    before = sorted(os.listdir("."))
    status, output, errors = bed(*words)
    expect(f"{words} is refused {number}", status == 1 and output == "" and f"{name}: refused {number}: " in errors)
    expect(f"{words} writes nothing", sorted(os.listdir(".")) == before)


def wrong(*words, says=""):
    before = sorted(os.listdir("."))
    status, output, errors = bed(*words)
    expect(f"{words} is wrong use: {status} {errors}", status == 2 and output == "" and errors.startswith("bed: ") and says in errors)
    expect(f"{words} writes nothing", sorted(os.listdir(".")) == before)


def helps():
    version = bed("--version")[1]
    source = open(f"{HERE}/../../include/bed.h").read()
    expect("one version", version == f"bed {re.search('BED_VERSION .(.*).$', source, re.M)[1]}\n")
    expect("python's version", f'VERSION = "{version[4:-1]}"' in open(f"{HERE}/../../python/bed.py").read())
    expect("rust's version", f'version = "{version[4:-1]}"' in open(f"{HERE}/../../rust/Cargo.toml").read())
    expect("the package's version", f'version = "{version[4:-1]}"' in open(f"{HERE}/../../python/pyproject.toml").read())
    parts = [re.search(f"BED_VERSION_{part} (.*)$", source, re.M)[1] for part in ("MAJOR", "MINOR", "PATCH")]
    expect("the header's numbers", ".".join(parts) == version[4:-1])
    expect("help", bed("--help")[0] == 0)
    for command in "survey mesh info volume ply plan cut fixtures".split():
        status, output, errors = bed(command, "--help")
        expect(f"{command} --help", status == 0 and output.startswith(f"bed {command} ") and errors == "")
        expect(f"{command} in the help", f"bed {command} " in bed("--help")[1])
        expect(f"{command} --version", bed(command, "--version")[:2] == (0, version))
        expect(f"{command} -- --help", bed(command, "--", "--help")[0] == 2)
    expect("what is said of no plan", "with the lines of the plan that own it" in bed("plan", "--help")[1])


def uses():
    wrong()
    wrong("dig", says="dig")
    wrong("mesh", BALL_FILE, says="-o")
    wrong("mesh", "-o", "out.mesh")
    wrong("mesh", BALL_FILE, "-o")
    wrong("mesh", BALL_FILE, "-o", "a", "-o", "b", says="twice")
    wrong("mesh", BALL_FILE, BALL_FILE, "-o", "out.mesh")
    wrong("mesh", BALL_FILE, "-o", "out.mesh", "--deep", "3", says="--deep")
    for corners in ("1,2,3", "0,0,0,1,1,1,1", "0,0,0,1,1,-1", "a,0,0,1,1,1", "", "0,0,0,1,1,4294967296"):
        wrong("mesh", BALL_FILE, "-o", "out.mesh", "--box", corners, says="--box")
    for letters in ("w", "xx", "xyzx", ""):
        wrong("mesh", BALL_FILE, "-o", "out.mesh", "--max-plane", letters, says="--max-plane")
    wrong("mesh", "none.npy", "-o", "out.mesh", says="none.npy: ")
    wrong("mesh", BALL_FILE, "-o", "none/out.mesh", says="none/out.mesh: ")
    wrong("mesh", BALL_FILE, "-o", "/dev/null", says="no plain file")
    wrong("mesh", BALL_FILE, "-o", ".", says="no plain file")
    wrong("mesh", BALL_FILE, "-o", "./ball.npy", says="written over")
    wrong("mesh", BALL_FILE, "-o", "a.mesh", "--ply", "a.mesh", says="one file")
    wrong("info", "none.mesh", says="none.mesh: ")
    wrong("mesh", BALL_FILE, "-o", "out.mesh", "--type", "int8", says="--dims")
    wrong("mesh", BALL_FILE, "-o=out.mesh", says="no such option")
    wrong("mesh", BALL_FILE, "--output", "a", "-o", "b", says="twice")
    wrong("mesh", BALL_FILE, "--memory=", "-o", "out.mesh", says="--memory")
    wrong("mesh", "--", "-o", "out.mesh", says="1 files are wanted, 2 are given")
    put("-grid", got(BALL_FILE))
    for words in (("mesh", "--output", "-mesh", "--", "-grid"), ("mesh", "--output=-mesh", "--memory=4G", "--max-plane=-", "--", "-grid")):
        expect(f"{words}", bed(*words)[0] == 0 and mesh_file(got("-mesh"))[2])
    for name in ("-grid", "-mesh"):
        os.remove(name)


def grids():
    status, output, errors = bed("mesh", BALL_FILE, "-o", "ball.mesh", "--ply", "ball.ply")
    good = got("ball.mesh")
    positions, normals, triangles = mesh_file(good)
    expect("mesh", (status, output, errors) == (0, f"vertices {len(positions)} triangles {len(triangles)}\n", ""))
    expect("info", bed("info", "ball.mesh") == (0, output, ""))
    raw = {"<f4": ("float32", floats(BALL)), "<i2": ("int16", struct.pack(f"<{len(BALL)}h", *BALL)),
           "|i1": ("int8", struct.pack(f"<{len(BALL)}b", *BALL))}
    for kind, (name, numbers) in raw.items():
        put("in.npy", npy(numbers, (SIDE,) * 3, kind))
        expect(f"{name} as .npy", bed("mesh", "in.npy", "-o", "out.mesh")[0] == 0 and got("out.mesh") == good)
        put("in.raw", numbers)
        bed("mesh", "in.raw", "-o", "out.mesh", "--dims", f"{SIDE},{SIDE},{SIDE}", "--type", name, "--ply", "out.ply")
        expect(f"{name} raw", got("out.mesh") == good and got("out.ply") == got("ball.ply"))
    # x is innermost: dimensions that differ, and a box
    slab = [x + 10 * y - 13 * z + 1 for z in range(5) for y in range(4) for x in range(3)]
    put("slab.npy", npy(floats(slab), (3, 4, 5)))
    put("slab.raw", floats(slab))
    bed("mesh", "slab.npy", "-o", "one.mesh", "--max-plane", "xyz")
    bed("mesh", "slab.raw", "-o", "two.mesh", "--dims", "3,4,5", "--box", "0,0,0,2,3,4", "--max-plane", "zxy")
    expect("dimensions", len(got("one.mesh")) > 320 and got("one.mesh") == got("two.mesh"))
    long = b"\x93NUMPY\x02\x00" + struct.pack("<I", 80) + npy(b"", (SIDE,) * 3)[10:-1].ljust(79) + b"\n" + floats(BALL)
    put("long.npy", long)
    expect("a .npy of version 2", bed("mesh", "long.npy", "-o", "out.mesh")[0] == 0 and got("out.mesh") == good)
    for words, content in (("big-endian", npy(floats(BALL), (SIDE,) * 3, ">f4")), ("float64", npy(floats(BALL), (SIDE,) * 3, "<f8")),
                           ("Fortran order", npy(floats(BALL), (SIDE,) * 3, order="True")), ("two dimensions", npy(b"", (1, 1, 1), shape="(1, 1)")),
                           ("no .npy", floats(BALL)), ("empty", b""), ("cut in the header", npy(b"", (1, 1, 1))[:20]),
                           ("half a number", npy(floats(BALL)[:-1], (SIDE,) * 3))):
        put("bad.npy", content)
        wrong("mesh", "bad.npy", "-o", "out.mesh", says=".astype('float32')" if words == "float64" else "bad.npy: ")
    whole = (SIDE,) * 3
    for number, content, more in (
            (1, npy(b"", (0, 1, 1)), ()), (2, npy(floats(BALL), whole), ("--box", "0,0,0,12,1,1")),
            (2, npy(floats(BALL), whole), ("--box", "3,0,0,2,1,1")), (3, npy(floats(BALL[1:]), whole), ()),
            (3, npy(floats(BALL + [0]), whole), ()), (5, npy(floats(BALL[1:] + [float("nan")]), whole), ())):
        put("bad.npy", content)
        refused(number, "mesh", "bad.npy", "-o", "out.mesh", *more, name="bad.npy")
        expect("the old file stays", got("out.mesh") == good)
        if number != 2:
            refused(number, "survey", "bad.npy", "-o", "out.mesh", name="bad.npy")
        if number in (1, 3):
            refused(number, "cut", f"{TANK}/rake.fixtures", "bad.npy", "-o", "never.npy", name="bad.npy")


def files():
    good = got("ball.mesh")
    positions, normals, triangles = mesh_file(good)
    for length in sorted({0, 1, 31, 32, 33, len(good) - 32, len(good) - 1} | {random.randrange(len(good)) for _ in range(40)}):
        put("cut.mesh", good[:length])
        refused(21, "info", "cut.mesh", name="cut.mesh")
    put("cut.mesh", good + b"\0")
    refused(28, "volume", "cut.mesh", name="cut.mesh")
    refused(28, "ply", "cut.mesh", "never.ply", name="cut.mesh")
    expect("volume", bed("volume", "ball.mesh")[1].startswith(f"sixfold {sixfold(positions, triangles)} volume "))
    expect("ply", bed("ply", "ball.mesh", "again.ply") == (0, "", ""))
    names, vertices, faces = ply_file(got("again.ply"))
    expect("ply of a file", names == "x y z nx ny nz".split() and faces == triangles)
    expect("its numbers", vertices == [p + n for p, n in zip(positions, normals)])
    names, vertices, faces = ply_file(got("ball.ply"))
    expect("ply of a call", names == "x y z nx ny nz crossings".split() and faces == triangles)
    expect("its crossings", [v[:6] for v in vertices] == [p + n for p, n in zip(positions, normals)]
           and {v[6] for v in vertices} <= {3, 4, 5, 6, 7, 8, 9, 12})
    os.symlink("ball.mesh", "link.mesh")
    bed("mesh", BALL_FILE, "-o", "link.mesh", "--box", "0,0,0,6,11,11")
    expect("a link stays one", os.path.islink("link.mesh") and got("ball.mesh") != good)
    put("ball.mesh", good)


def fixtures():
    low, high = (3.0, 2.5, 4.0), (8.0, 9.0, 20.0)
    put("box.fixtures", struct.pack("<I6fI", 1, *low, *high, 0))
    expect("cut", bed("cut", "box.fixtures", BALL_FILE, "-o", "cut.npy") == (0, "", ""))
    wanted = []
    for place, old in enumerate(BALL):
        point = place % SIDE, place // SIDE % SIDE, place // SIDE ** 2
        value = max(max(l - p, p - h) for l, p, h in zip(low, point, high))
        wanted.append(max(-value, old))
    content = got("cut.npy")
    expect("the cut grid", content[-4 * len(BALL):] == floats(wanted) and (len(content) - 4 * len(BALL)) % 64 == 0)
    bed("mesh", "cut.npy", "-o", "one.mesh")
    bed("survey", BALL_FILE, "--fixtures", "box.fixtures", "-o", "two.mesh")
    expect("cut and meshed at once", got("one.mesh") == got("two.mesh") != got("ball.mesh"))
    put("empty.fixtures", b"")
    refused(51, "cut", "empty.fixtures", BALL_FILE, "-o", "never.npy", name="empty.fixtures")
    refused(51, "survey", BALL_FILE, "--fixtures", "empty.fixtures", "-o", "never.mesh", name="empty.fixtures")
    wrong("survey", BALL_FILE, "--fixtures", "none.fixtures", "-o", "never.mesh", says="none.fixtures")


def fixtures_as_text():
    """texts against the records that document 02 says, and wherever fixtures are taken"""
    def record(*words):
        kind, *rest = words
        if kind == 1:
            return struct.pack("<I6fI", 1, *rest, 0)
        return struct.pack("<8I", kind, *rest, *[0] * 6)

    text = b"""# a weir and a rake, with a slot
    difference {
        union { box 3 2.5 4 8 9 20
                intersection{ box 0 0 0 2 2 2 box 1 1 1 9 9 9 } }   # two boxes' common part
        box 4 4 4 5 5 5
    }"""
    records = b"".join((record(4, 2), record(2, 2), record(1, 3, 2.5, 4, 8, 9, 20), record(3, 2), record(1, 0, 0, 0, 2, 2, 2),
                        record(1, 1, 1, 1, 9, 9, 9), record(1, 4, 4, 4, 5, 5, 5)))
    put("weir.text", text)
    expect("records of a text", bed("fixtures", "weir.text", "-o", "weir.fixtures") == (0, "fixtures records 7\n", "") and got("weir.fixtures") == records)
    expect("records stay records", bed("fixtures", "weir.fixtures", "-o", "same.fixtures")[0] == 0 and got("same.fixtures") == records)
    for name in ("text", "fixtures"):
        expect(f"cut, {name}", bed("cut", f"weir.{name}", BALL_FILE, "-o", f"{name}.npy")[0] == 0)
        expect(f"surveyed, {name}", bed("survey", BALL_FILE, "--fixtures", f"weir.{name}", "-o", f"{name}.mesh")[0] == 0)
    expect("the same grid and mesh", got("text.npy") == got("fixtures.npy") and got("text.mesh") == got("fixtures.mesh"))
    put("metres.text", b"\xef\xbb\xbfbox 2 .3 0.4 2.1 4e-1 1")
    expect("in metres", bed("fixtures", "metres.text", "-o", "metres.fixtures", "--step", "0.05")[0] == 0 and
           got("metres.fixtures") == record(1, 40, 6, 8, 42, 8, 20))
    put("steps.text", b"box 40 6 8 42 8 20\n")
    expect("in grid steps", bed("fixtures", "steps.text", "-o", "steps.fixtures")[0] == 0 and got("steps.fixtures") == record(1, 40, 6, 8, 42, 8, 20))
    put("near.text", b"box .15 .125 .2 .4 .45 1")
    for command in ("cut", "survey"):
        words = ("cut", "near.text", BALL_FILE) if command == "cut" else ("survey", BALL_FILE, "--fixtures", "near.text")
        expect(f"{command} in metres", bed(*words, "-o", "metres.out", "--step", "0.05")[0] == 0)
        plain = [word if word != "near.text" else "box.fixtures" for word in words]
        expect(f"{command} in steps", bed(*plain, "-o", "steps.out")[0] == 0 and got("metres.out") == got("steps.out"))
    wrong("cut", "box.fixtures", BALL_FILE, "-o", "never.npy", "--step", "0.05", says="records")
    for step in ("0", "-1", "nan", "inf", "x", ""):
        wrong("fixtures", "near.text", "-o", "never.fixtures", "--step", step, says="--step")
    for bad, line in ((b"box 1 2 3 4 5", 1), (b"union {\nbox 1 2 3 4 5 6\n", 2), (b"# ball\nball 3", 2), (b"box 1 2 3 4 5 6 }", 1)):
        put("bad.text", bad)
        wrong("fixtures", "bad.text", "-o", "never.fixtures", says=f"bad.text, line {line}: ")
        wrong("cut", "bad.text", BALL_FILE, "-o", "never.npy", says=f"bad.text, line {line}: ")
    # what the records say is the library's to judge
    for number, bad in ((53, b"union { " * 8 + b"box 1 2 3 4 5 6" + b" }" * 8), (54, b"union { }"), (54, b"difference { box 1 2 3 4 5 6 }"),
                        (55, b"box 1 2 3 4 5 16777217.5")):
        put("bad.text", bad)
        refused(number, "fixtures", "bad.text", "-o", "never.fixtures", name="bad.text")
    put("deep.text", b"union { " * 7 + b"box 1 2 3 4 5 6" + b" }" * 7)
    expect("eight deep", bed("fixtures", "deep.text", "-o", "deep.fixtures")[1] == "fixtures records 8\n")


def owned(line):
    """the edges that a line of a plan owns, one by one"""
    x0, y0, z0, x1, y1, z1, letters = line.split()
    low, high = [int(word) for word in (x0, y0, z0)], [int(word) for word in (x1, y1, z1)]
    for axis in range(3):
        ranges = [range(low[k] + (k != axis), high[k] - (k == axis and "xyz"[k] not in letters)) for k in range(3)]
        yield from ((axis, x, y, z) for x in ranges[0] for y in ranges[1] for z in ranges[2])


def first_wrong(lines):
    """what is said of a plan whose whole is the first line, counted edge by edge; nothing where it is one"""
    owners = {}
    for number, line in enumerate(lines[1:], 2):
        for edge in owned(line):
            owners.setdefault(edge, []).append(number)
    whole = set(owned(lines[0]))
    wrong = [edge for edge in whole | set(owners) if len(owners.get(edge, [])) != (edge in whole)]
    if not wrong:
        return None
    axis, x, y, z = min(wrong, key=lambda edge: (edge[0], edge[3], edge[2], edge[1]))
    its = owners.get((axis, x, y, z), [])
    words = (f"lines {its[0]} and {its[1]} both own it" if len(its) > 1 else f"line {its[0]} owns it, and the whole does not" if its
             else "the whole owns it, and no line does")
    return f"no plan: edge along {'xyz'[axis]} from ({x},{y},{z}): {words}"


def made_plans():
    """each edge of a plan that is made is owned once, counted one by one"""
    put("odd.npy", npy(floats([1.0] * (7 * 10 * 6)), (7, 10, 6)))
    for counts, letters in (("1,1,1", "-"), ("2,3,1", "-"), ("6,9,5", "-"), ("3,4,5", "xz"), ("2,2,2", "xyz")):
        blocks = [int(word) for word in counts.split(",")]
        status, output, errors = bed("plan", "--make", counts, "odd.npy", "--max-plane", letters)
        whole, *lines = output.split("\n")[:-1] or [""]
        if blocks[0] * blocks[1] * blocks[2] > 200:
            expect(f"{counts}: {errors}", (status, output) == (1, "") and "refused 41: " in errors)
            continue
        expect(f"{counts}: {errors}", status == 0 and whole == f"0 0 0 6 9 5 {letters}" and len(lines) == blocks[0] * blocks[1] * blocks[2])
        expect(f"{counts}: every edge once", sorted(edge for line in lines for edge in owned(line)) == sorted(owned(whole)))
        expect("written", bed("plan", f"--make={counts}", "odd.npy", "--max-plane", letters, "-o", "made.plan") == (0, f"plan yes blocks {len(lines)}\n", "")
               and got("made.plan").decode() == output)
        expect("it fits", bed("plan", "made.plan", "odd.npy")[1].startswith(f"plan yes blocks {len(lines)}\n"))
    wrong("plan", "--make", "7,1,1", "odd.npy", says="1 to 6 blocks on x")
    wrong("plan", "--make", "1,0,1", "odd.npy", says="1 to 9 blocks on y")
    wrong("plan", "--make", "1,1", "odd.npy", says="--make")
    wrong("plan", "made.plan", "odd.npy", "-o", "never.plan", says="-o is for --make")
    wrong("plan", "--", "--make", "odd.npy", says="--make: No such file")
    put("marked.plan", b"\xef\xbb\xbf" + got("made.plan"))
    expect("a mark at the head", bed("plan", "marked.plan", "odd.npy") == bed("plan", "made.plan", "odd.npy"))


def plans():
    whole, lower, upper = "0 0 0 11 11 11 -", "0 0 0 6 11 11 -", "5 0 0 11 11 11 -"

    def plan(*lines):
        return put("a.plan", "\n".join(lines).encode())

    expect("yes", bed("plan", plan(whole, lower, upper), BALL_FILE)[1].startswith("plan yes blocks 2\n"))
    for lines in ((whole, lower), (whole, lower, upper, upper), (whole, lower, upper.replace("-", "x")), (whole,)):
        before = sorted(os.listdir("."))
        for words in (("plan", plan(*lines), BALL_FILE), ("survey", BALL_FILE, "--plan", "a.plan", "-o", "never.mesh")):
            status, output, errors = bed(*words)
            expect(f"{lines} is no plan: {errors}", (status, output, errors) == (1, "", f"bed: a.plan: {first_wrong(lines)}\n"))
        expect("nothing is written", sorted(os.listdir(".")) == before)
    seen = set()
    for _ in range(150):
        lines = ["0 0 0 11 9 7 " + random.choice(("-", "y", "xz")), "0 0 0 6 9 7 -", "5 0 0 11 4 7 x", "5 3 0 11 9 7 xz", "2 2 1 3 3 2 xyz"]
        words = lines[random.randrange(1, 5)].split()
        place = random.randrange(7)
        words[place] = random.choice(("-", "x", "yz", "xyz")) if place == 6 else str(max(0, int(words[place]) + random.choice((-1, 1))))
        if all(int(words[axis]) <= int(words[axis + 3]) for axis in range(3)):
            lines.append(" ".join(words))
            random.choice((lines.pop, lambda at: None))(random.randrange(1, 5))
            status, output, errors = bed("plan", plan(*lines), BALL_FILE)
            wanted = first_wrong(lines)
            expect(f"{lines}: {errors} for {wanted}", wanted is None or (status, errors) == (1, f"bed: a.plan: {wanted}\n"))
            seen.add(re.sub(r"[0-9]+", "0", (wanted or "a plan").split(": ")[-1]))
    expect(f"each kind of edge: {seen}", len(seen) >= 3)
    plan("# tank", whole, "", lower, "5 0 0 11 11 xyz  # a number is missing")
    wrong("plan", "a.plan", BALL_FILE, says="a.plan, line 5: ")
    wrong("survey", BALL_FILE, "--plan", "a.plan", "-o", "never.mesh", says="a.plan, line 5: ")
    refused(41, "plan", plan(whole, *[lower] * 201), BALL_FILE, name="a.plan")
    refused(42, "plan", plan(whole, "3 0 0 2 11 11 -"), BALL_FILE, name="a.plan")
    refused(42, "plan", plan(whole, "0 0 0 16777217 11 11 -"), BALL_FILE, name="a.plan")
    # a plan, but one block lies outside the grid: it is named by its line
    plan(whole, lower, "# flat, and outside", "0 0 0 0 0 40 -", upper)
    refused(2, "plan", "a.plan", BALL_FILE, name="the block of a.plan, line 4")
    refused(2, "survey", BALL_FILE, "--plan", "a.plan", "-o", "never.mesh", name="the block of a.plan, line 4")
    refused(2, "plan", plan("0 0 0 12 11 11 -", lower, "5 0 0 12 11 11 -"), BALL_FILE, name="the whole")


def whole_numbers():
    """grids of int16 and int8, the ends of their ranges among them, against the float grids of the same values"""
    put("halves.plan", b"0 0 0 11 11 11 -\n0 0 0 6 11 11 -\n5 0 0 11 11 11 -\n")
    for kind, code, least in (("<i2", "h", -2 ** 15), ("|i1", "b", -2 ** 7)):
        values = [random.choice((least, -least - 1, 0, -1, 1, random.randint(least, -least - 1))) for _ in BALL]
        put("integers.npy", npy(struct.pack(f"<{len(values)}{code}", *values), (SIDE,) * 3, kind))
        put("floats.npy", npy(floats(values), (SIDE,) * 3))
        for command, *more in (("mesh", "--max-plane", "xz"), ("mesh", "--box", "1,2,3,9,11,10"), ("survey",),
                               ("survey", "--fixtures", "box.fixtures"), ("survey", "--plan", "halves.plan")):
            said = []
            for name in ("integers", "floats"):
                status, output, errors = bed(command, f"{name}.npy", "-o", f"{name}.mesh", *more)
                lines = [line.replace(name, "grid") for line in output.split("\n") if "points, " not in line]
                made = sorted(glob.glob(f"{name}*.mesh"))
                said.append((status, errors, lines, [got(one) for one in made]))
                for one in made:
                    os.remove(one)
            expect(f"{kind}, {command} {more}", said[0] == said[1] and said[0][0] == 0 and len(said[0][3]) == 1 + ("--plan" in more))
        expect("its plan", bed("plan", "halves.plan", "integers.npy") == bed("plan", "halves.plan", "floats.npy"))
        for name in ("integers", "floats"):
            bed("cut", "box.fixtures", f"{name}.npy", "-o", f"{name}.cut")
        expect("cut out of whole numbers", got("integers.cut") == got("floats.cut"))


def page(*words):
    status, output, errors = bed("survey", *words)
    expect(f"survey {words}: {errors}", status == 0 and errors == "")
    return dict(line.split(": ", 1) for line in output.split("\n") if line and line[0] != " "), output


def surveys():
    grid, plan, rake = (f"{TANK}/{name}" for name in ("tank.npy", "tank.plan", "rake.fixtures"))
    one, text = page(grid, "--fixtures", rake, "--closed", "-o", "tank.mesh")
    whole = mesh_file(got("tank.mesh"))
    weight = sixfold(whole[0], whole[2])
    expect("more than request 14's volume takes at once", len(whole[2]) > 16384)
    expect("the whole's volume", one["volume"].endswith(f" {weight}") and weight > 0)
    expect("no hole", one["hole"].startswith("none"))
    sides = {}
    for a, b, c in whole[2]:
        for side in ((a, b), (b, c), (c, a)):
            sides[side] = sides.get(side, 0) + 1
    expect("none is counted", all(count == sides.get(side[::-1], 0) for side, count in sides.items()))
    two, text = page(grid, "--plan", plan, "--fixtures", rake, "--closed", "-o", "block.mesh")
    names = sorted(glob.glob("block.*.mesh"))
    expect("two hundred blocks", names == [f"block.{number:03}.mesh" for number in range(1, 201)] and "yes, 200 blocks" in two["plan"])
    blocks = [mesh_file(got(name)) for name in names]
    expect("the blocks' volume", two["volume"] == one["volume"])
    expect("the blocks' own sums", sum(sixfold(p, t) for p, _, t in blocks) == weight)
    together = sorted(face for p, _, t in blocks for face in shown(p, t))
    expect("the blocks' triangles are the whole's", together == shown(whole[0], whole[2]))
    expect("as many triangles", "counted: as many triangles as the whole needs" in text)
    # the open bed's: those of the whole's own call, with its max planes
    three, text = page(grid, "--plan", plan, "--fixtures", rake, "-o", "block.mesh")
    bed("cut", rake, grid, "-o", "cut.npy")
    bed("mesh", "cut.npy", "--max-plane", "xz", "-o", "open.mesh")
    blocks = [mesh_file(got(name)) for name in sorted(glob.glob("block.*.mesh"))]
    whole = mesh_file(got("open.mesh"))
    expect("the open blocks' triangles", sorted(face for p, _, t in blocks for face in shown(p, t)) == shown(whole[0], whole[2]))
    expect("the same volume", three["volume"] == one["volume"] and "counted: as many triangles as the whole needs" in text)
    # a bed on the floor: asked openly there is no volume, and the status says it
    put("open.npy", npy(floats([z - 1.5 for z in range(4) for _ in range(16)]), (4, 4, 4)))
    status, output, errors = bed("survey", "open.npy", "--open", "-o", "open.mesh")
    expect("an open bed", (status, errors) == (3, "") and "\nvolume: none is told\n" in output and "\nhole: not asked" in output)
    one, text = page("open.npy", "--closed", "-o", "open.mesh")
    weight = sixfold(*mesh_file(got("open.mesh"))[::2])
    expect("closed", one["hole"].startswith("none") and one["volume"].endswith(f" {weight}") and 12 <= weight / (6 * 256 ** 3) <= 13.5)
    far = [1.0] * (140 * 5 * 5)
    far[136 + 140 * (2 + 5 * 2)] = -1.0
    put("far.npy", npy(floats(far), (140, 5, 5)))
    one, text = page("far.npy", "-o", "far.mesh")
    weight = sixfold(*mesh_file(got("far.mesh"))[::2])
    expect("further out than request 14's volume goes", one["volume"].startswith("0.") and bed("volume", "far.mesh")[1].startswith(f"sixfold {weight} "))
    put("none.plan", b"0 0 0 0 0 0 -\n")
    one, text = page(BALL_FILE, "--plan", "none.plan", "-o", "empty.mesh")
    expect("a plan without blocks", one["files"].startswith("none") and one["mesh"].startswith("0 vertices, 0 triangles"))
    wrong("survey", BALL_FILE, "--plan", "none.plan", "--closed", "-o", "empty.mesh", says="no plan of the whole")


def progress():
    """on a terminal, once a second has passed; none in a pipe"""
    words = "survey", f"{TANK}/tank.npy", "--plan", f"{TANK}/tank.plan", "-o", "block.mesh"
    seen, stopped = stopped_run(*pty.openpty(), *words)
    if stopped:
        expect(f"progress on a terminal: {seen}", re.search(rb"\r\d+ of 200 blocks, \d+ vertices", seen) and seen.endswith(b"\r\x1b[K"))
    else:
        print("progress: the run was too quick to be stopped amid its blocks, skipped")
    seen, _ = stopped_run(*os.pipe(), *words)
    expect("none in a pipe", seen == b"")
    reader, writer = pty.openpty()
    subprocess.run([BED, "mesh", BALL_FILE, "-o", "out.mesh"], stdout=subprocess.DEVNULL, stderr=writer)
    os.set_blocking(reader, False)
    try:
        expect("none where the work is short", os.read(reader, 4096) == b"")
    except OSError:
        pass


helps()
uses()
grids()
files()
fixtures()
fixtures_as_text()
made_plans()
plans()
whole_numbers()
surveys()
progress()
expect("no part is left", glob.glob("*.part") == [])
finish("commands: all as it should be")
