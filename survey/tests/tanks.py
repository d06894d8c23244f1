"""tanks FOLDER: surveys tanks as tanks are, with sludge on the floor and against all walls, whose truth is known without the library: in closed form, or point by point
from the distances. In memory and layer by layer, at three widths, with plans and without; metres, levels, JSON, what is said of full and empty tanks, and
that no sum over an open sheet is called a volume. FOLDER is that of scripts/make-tank; BED names the command."""
import glob
import hashlib
import json
import math
import os
import random
import re
import subprocess
import sys

from common import *

HERE = os.path.dirname(os.path.realpath(__file__))
TANK = os.path.abspath(sys.argv[1])
enter_folder()
WAYS = ("--memory", "4G"), ("--memory", "1")
DIMS = 100, 60, 30
STEP = 6 * 256 ** 3
# what may differ between two ways to the same numbers
OWN = "time", "by_layers", "page", "volume_standing"


def plane(x, y):
    """a tilted bed that stands in the lower third; sixteenths of a step, so that every width holds the distances"""
    return 5 + x / 16 + y / 16


def grid(dims, height, kind="<f4", factor=1):
    """distances straight down to the bed, in the kind of number, as near as it comes to them"""
    letter, least = {"<f4": ("f", None), "<i2": ("h", -2 ** 15), "|i1": ("b", -2 ** 7)}[kind]
    heights = [height(x, y) for y in range(dims[1]) for x in range(dims[0])]
    numbers = [(z - one) * factor for z in range(dims[2]) for one in heights]
    if least is not None:
        numbers = [min(max(round(one), least), -least - 1) for one in numbers]
    return npy(struct.pack(f"<{len(numbers)}{letter}", *numbers), dims, kind)


def survey(*words, status=0):
    """the page and the JSON of a survey"""
    done, output, errors = bed("survey", *words, "-o", "bed.mesh", "--json", "bed.json")
    expect(f"survey {words} ends with {status}: {done} {errors}", done == status and errors == "")
    told = json.loads(got("bed.json"))
    expect(f"survey {words}: its status", told["status"] == status)
    return output, told


def clear():
    for name in glob.glob("bed.*"):
        os.remove(name)


def near(what, found, wanted, share):
    expect(f"{what}: {found} for {wanted}", found is not None and abs(found - wanted) <= share * abs(wanted))


def same(one, other, but=OWN):
    def plain(told):
        told = {name: value for name, value in told.items() if name not in but}
        told["closed_bed"] = told["closed_bed"] and {**told["closed_bed"], "by_layers": None}
        return told
    return plain(one) == plain(other)


def tilted():
    """truth in closed form: the volume under the plane, its highest and lowest corner, its mean"""
    across, along = DIMS[0] - 1, DIMS[1] - 1
    mean = plane(across / 2, along / 2)
    truth = across * along * mean
    first = None
    for kind, factor in (("<f4", 1), ("<i2", 160), ("|i1", 16)):
        put("in.npy", grid(DIMS, plane, kind, factor))
        for way in WAYS:
            page, told = survey("in.npy", *way)
            near(f"volume {kind} {way}", told["volume_steps"], truth, 0.001)
            expect("three places on the page", f"\nvolume: {told['volume_in_words']} cubed grid steps, of the closed bed; six-fold" in page)
            expect("the words are the number", abs(float(told["volume_in_words"]) - told["volume_steps"]) < 0.001 and int(told["sixfold"]) / STEP == told["volume_steps"])
            expect(f"levels {kind} {way}: {told['levels']}", (told["level_highest"], told["level_lowest"], told["level_mean"]) == (plane(across, along), 5.0, mean))
            expect("their places", (told["levels"]["highest"]["column"], told["levels"]["lowest"]["column"]) == ([across, along], [0, 0]))
            expect("their columns", told["levels"]["filled"] == told["levels"]["columns"] == DIMS[0] * DIMS[1])
            expect("on the page", f"level: highest {plane(across, along):.3f} at x {across}, y {along}; lowest 5.000 at x 0, y 0; mean {mean:.3f}; over 6000 columns of 6000" in page)
            expect("nothing in metres", told["volume_m3"] is None and told["step_m"] is None)
            expect("on the planes", told["closed_bed"]["vertices_beyond_the_box"] == 0)
            expect("no hole, and inside", (told["hole"], told["closed"], told["cross_check"]) == ("none", True, "inside"))
            cells = told["library_counts"]
            expect(f"two countings: {cells}", told["counts_agree"] and (cells["cells_below"], cells["cells_surface"], cells["faces"])
                   == (told["cells_below"], told["cells_surface"], told["edges_that_change"]))
            sixths = 6 * cells["cells_below"] - cells["faces"], 6 * (cells["cells_below"] + cells["cells_surface"]) + cells["faces"]
            near("proved from", told["proved_bounds"][0], sixths[0] / 6, 1e-12)
            near("proved to", told["proved_bounds"][1], sixths[1] / 6, 1e-12)
            expect("it lies there", sixths[0] <= 6 * told["volume_steps"] <= sixths[1])
            words = "proved: the volume of a closed bed with these counts lies from" if "1" in way else "proved: the volume lies from"
            low, high = (f"{number * 1000 // 6 / 1000:.3f}" for number in sixths)
            expect(f"bounds on the page: {words} {low} to {high}", f"\n    {words} {low} to {high}\n" in page)
            expect("nothing strange", (told["columns"]["several_changes_of_sign"], told["columns"]["below_zero_at_the_top"]) == (0, 0))
            expect("which way", told["by_layers"] == ("1" in way) == told["closed_bed"]["by_layers"])
            expect("what it was made of", told["grid"]["sha256"] == hashlib.sha256(got("in.npy")).hexdigest() and told["time"].endswith("Z"))
            expect("by which archive", told["archive"]["sha256"] == hashlib.sha256(open(os.environ["BED_ARCHIVE"], "rb").read()).hexdigest())
            expect("of which version", told["versions"]["library"] == told["versions"]["bed"])
            mine = {**told, "grid": None, "closed_bed": {**told["closed_bed"], "wall": None}, "mesh": None}
            first = first or mine
            expect(f"the same numbers at every width and way: {kind} {way}", same(first, mine))
            # the file is the open bed's
            positions, _, triangles = mesh_file(got("bed.mesh"))
            expect("an open sheet", not balanced(triangles) and told["mesh"]["of"] == "open" and told["mesh"]["triangles"] == len(triangles))
            expect("its digest", told["mesh"]["files"][0]["sha256"] == hashlib.sha256(got("bed.mesh")).hexdigest())
            standings = {claim["standing"] for line in told["page"] for claim in line["rests_on"]}
            expect(f"standings: {standings}", standings == {"proved", "counted", "not claimed"})
    counted(told, grid(DIMS, plane))
    clear()


def counted(told, content):
    """cells and edges, counted here from the definitions"""
    below = [number < 0 for (number,) in struct.iter_unpack("<f", content[-4 * DIMS[0] * DIMS[1] * DIMS[2]:])]
    x, y, _ = DIMS
    at = lambda a, b, c: all(0 <= p < n for p, n in zip((a, b, c), DIMS)) and below[a + x * (b + y * c)]
    cells = [0] * 9
    for c in range(-1, DIMS[2]):
        for b in range(-1, DIMS[1]):
            slab = [at(a, b, c) + at(a, b + 1, c) + at(a, b, c + 1) + at(a, b + 1, c + 1) for a in range(-1, DIMS[0] + 1)]
            for one, other in zip(slab, slab[1:]):
                cells[one + other] += 1
    expect("cells", (told["cells_below"], told["cells_surface"]) == (cells[8], sum(cells[1:8])))


def balanced(triangles):
    sides = {}
    for a, b, c in triangles:
        for side in ((a, b), (b, c), (c, a)):
            sides[side] = sides.get(side, 0) + 1
    return all(count == sides.get(side[::-1], 0) for side, count in sides.items())


def metres():
    put("in.npy", grid((20, 12, 16), plane))
    plain = survey("in.npy")[1]
    for words, step, origin in ((("--step", "0.1"), (0.1,) * 3, (0.0,) * 3), (("--step", "0.5,0.25,0.125"), (0.5, 0.25, 0.125), (0.0,) * 3),
                                (("--step", "0.5,0.25,0.125", "--origin", "100,-20,7.5"), (0.5, 0.25, 0.125), (100.0, -20.0, 7.5))):
        for way in WAYS:
            page, told = survey("in.npy", *words, *way, "--levels", "levels.npy")
            cubic = plain["volume_steps"] * step[0] * step[1] * step[2]
            expect("steps stay", told["volume_steps"] == plain["volume_steps"])
            near("cubic metres", told["volume_m3"], cubic, 1e-12)
            expect("on the page", f"{cubic:.3f} m³" in page)
            for name in ("highest", "lowest"):
                level, column = plain["levels"][name]["steps"], plain["levels"][name]["column"]
                near(name, told[f"level_{name}"], origin[2] + level * step[2], 1e-12)
                expect("the column in metres", told["levels"][name]["column"] == column and told["levels"][name]["column_m"] == [origin[a] + column[a] * step[a] for a in (0, 1)])
            near("mean", told["level_mean"], origin[2] + plain["level_mean"] * step[2], 1e-12)
            content = got("levels.npy")
            expect("shape y, x", b"'shape': (12, 20)" in content)
            levels = [one for (one,) in struct.iter_unpack("<f", content[-4 * 240:])]
            wanted = [origin[2] + plane(x, y) * step[2] for y in range(12) for x in range(20)]
            expect("each column", all(abs(one - other) < 1e-5 for one, other in zip(levels, wanted)))
            # the closed file: its own origin is one step further down
            told = survey("in.npy", *words, *way, "--closed")[1]
            expect("the closed file's place", told["mesh"]["of"] == "closed" and told["mesh"]["steps_to_the_grid"] == [-1, -1, -1]
                   and told["mesh"]["origin_m"] == [o - s for o, s in zip(origin, step)] and told["volume_steps"] == plain["volume_steps"])
    for bad in (("--step", "0"), ("--step", "1,2"), ("--step", "1,-2,3"), ("--step", "nan"), ("--step", "inf,1,1"), ("--step", ""), ("--origin", "1,2,3"),
                ("--step", "1", "--origin", "1,2"), ("--step", "1", "--origin", "1,2,x")):
        status, output, errors = bed("survey", "in.npy", "-o", "never.mesh", *bad)
        expect(f"{bad}: {errors}", (status, output) == (2, "") and bad[-2] in errors and not os.path.exists("never.mesh"))
    # fixtures as text in metres stand where the grid does
    put("m.text", b"box 101 -19.5 0 103 -18 100")
    put("s.text", b"box 2 2 -60 6 8 740")
    one = survey("in.npy", "--fixtures", "m.text", "--step", "0.5,0.25,0.125", "--origin", "100,-20,7.5")[1]
    two = survey("in.npy", "--fixtures", "s.text")[1]
    expect("cut in metres", one["volume_steps"] == two["volume_steps"] < plain["volume_steps"])
    expect("the fixtures' digest", one["fixtures"] == {"name": "m.text", "sha256": hashlib.sha256(got("m.text")).hexdigest()})
    put("box.fixtures", struct.pack("<I6fI", 1, 2, 2, -60, 6, 8, 740, 0))
    three = survey("in.npy", "--fixtures", "box.fixtures", "--step", "0.5")[1]
    expect("records stay in grid steps", three["volume_steps"] == two["volume_steps"])
    clear()


def closed():
    """the closed bed's file: no hole, the page's volume, each vertex one step further"""
    put("in.npy", grid((20, 12, 16), plane))
    survey("in.npy")
    opened = mesh_file(got("bed.mesh"))
    files = set()
    for way in WAYS:
        page, told = survey("in.npy", "--closed", *way)
        positions, _, triangles = mesh_file(got("bed.mesh"))
        files.add(got("bed.mesh"))
        expect("no hole", balanced(triangles) and told["hole"] == "none")
        expect("the page's volume", sixfold(positions, triangles) == int(told["sixfold"]) and told["mesh"]["triangles"] == len(triangles) == told["closed_bed"]["triangles"])
        expect("the file's sum", "counted: the sums of the files are the volume" in page)
        expect("said", "in the files, of the closed bed" in page and "\nvertices: a vertex stands in the grid -1, -1, -1 steps" in page)
        expect("bed volume says the same", bed("volume", "bed.mesh") == (0, f"sixfold {told['sixfold']} volume {told['volume_in_words']}\n", ""))
        moved = {tuple(round(c + 1, 4) for c in one) for one in opened[0]}
        expect("the open bed's vertices are among it", len(moved - {tuple(round(c, 4) for c in one) for one in positions}) == 0)
        low, high = [min(p[a] for p in positions) for a in range(3)], [max(p[a] for p in positions) for a in range(3)]
        expect("on the planes of the outermost points", low == [1, 1, 1] and high[:2] == [20, 12])
    expect("the same bytes both ways", len(files) == 1)
    # in blocks
    clear()
    bed("plan", "--make", "3,2,2", "in.npy", "-o", "in.plan")
    for way in WAYS:
        page, told = survey("in.npy", "--closed", "--plan", "in.plan", *way)
        names = sorted(glob.glob("bed.0*.mesh"))
        blocks = [mesh_file(got(name)) for name in names]
        expect("twelve blocks", len(names) == 12 and "counted: as many triangles as the whole needs" in page)
        expect("the blocks' triangles are the whole's", sorted(face for p, _, t in blocks for face in shown(p, t)) == shown(positions, triangles))
        manifest = got("bed.manifest").decode()
        expect("the manifest", "\nmesh closed -1 -1 -1\nwhole 0 0 0 22 14 18 -\n" in manifest and f"\nvolume {told['sixfold']}\n" in manifest)
        status, output, errors = bed("volume", *names)
        last = output.split("\n")[-2]
        expect(f"all blocks: {last}", (status, errors) == (0, "") and last == f"all 12 blocks of one closed survey: sixfold {told['sixfold']} volume {told['volume_in_words']}")
        expect("each by itself is a sheet", output.count("open sheet: no volume") == sum(bool(t) and not balanced(t) for _, _, t in blocks) > 3)
        # one is missing, twice there, changed, or moved away
        for some in (names[1:], names + names[:1], names[:-1] + names[:1]):
            status, output, _ = bed("volume", *some)
            expect(f"not all: {output}", status == 3 and re.search(r"\nsum of \d+ files, not the blocks of one survey", output) and "one closed survey" not in output)
        good = got(names[3])
        bed("mesh", "in.npy", "-o", names[3])
        status, output, _ = bed("volume", *names)
        expect("one is another", status == 3 and f"{names[3]} is not what bed.manifest says" in output)
        put(names[3], good)
        # a whole manifest that tells another volume, or none
        before = got("bed.manifest")
        for other in (str(int(told["sixfold"]) + 1), "none"):
            text = before[:before.rindex(b"volume ")] + f"volume {other}\n".encode()
            put("bed.manifest", text + b"sum " + hashlib.sha256(text).hexdigest().encode() + b"\n")
            status, output, _ = bed("volume", *names)
            expect(f"another volume: {output}", status == 3 and "bed.manifest tells another volume, or none" in output)
        put("bed.manifest", before)
        put("bed.manifest", got("bed.manifest")[:-2] + b"\n")
        expect("no manifest", bed("volume", *names)[0] == 3)
        os.remove("bed.manifest")
        clear()
    survey("in.npy", "--plan", "in.plan")
    names = sorted(glob.glob("bed.0*.mesh"))
    status, output, _ = bed("volume", *names)
    expect("blocks of the open bed", status == 3 and "\nall 12 blocks of one open survey: over its shadow " in output)
    clear()
    status, output, errors = bed("survey", "in.npy", "-o", "never.mesh", "--closed", "--open")
    expect("one of both", (status, output) == (2, "") and "--closed and --open" in errors)


def volumes():
    """an open sheet, an empty mesh, several files"""
    put("in.npy", grid((20, 12, 16), plane))
    bed("mesh", "in.npy", "-o", "bed.mesh")
    positions, _, triangles = mesh_file(got("bed.mesh"))
    steps = [[int(c * 256) for c in one] for one in positions]
    total = shadow = 0
    for t in triangles:
        a, b, c = (steps[i] for i in t)
        twice = (b[0] - a[0]) * (c[1] - a[1]) - (b[1] - a[1]) * (c[0] - a[0])
        total, shadow = total + (a[2] + b[2] + c[2]) * twice, shadow + twice
    status, output, errors = bed("volume", "bed.mesh")
    thousandths, area = total * 1000 // STEP, shadow * 1000 // (2 * 256 ** 2)
    expect(f"an open sheet: {output}", (status, errors) == (3, "") and output.startswith("open sheet: no volume; ") and
           output.endswith(f"; over its shadow {thousandths // 1000}.{thousandths % 1000:03} cubed grid steps down to z = 0, the shadow {area // 1000}.{area % 1000:03} squared\n"))
    put("full.npy", npy(floats([-1.0] * 27), (3, 3, 3)))
    bed("mesh", "full.npy", "-o", "full.mesh")
    status, output, _ = bed("volume", "full.mesh")
    expect(f"an empty mesh: {output}", status == 3 and output.startswith("no triangle: no volume"))
    put("ball.npy", npy(floats(ball_grid(12, 5.5, 4)), (12,) * 3))
    bed("mesh", "ball.npy", "-o", "ball.mesh")
    weight = sixfold(*mesh_file(got("ball.mesh"))[::2])
    expect("a closed one", bed("volume", "ball.mesh")[:2] == (0, f"sixfold {weight} volume {weight * 1000 // STEP / 1000:.3f}\n"))
    status, output, _ = bed("volume", "ball.mesh", "bed.mesh")
    expect(f"several: {output}", status == 3 and output.startswith(f"ball.mesh: sixfold {weight} volume") and "\nbed.mesh: open sheet: no volume" in output
           and "\nsum of 2 files, not the blocks of one survey (no manifest names them): " in output)
    status, output, _ = bed("volume", "ball.mesh", "ball.mesh")
    expect("two volumes", status == 0 and "\nsum of 2 files, not the blocks of one survey" in output)
    # more than 16,384 triangles, and far out
    wide = npy(struct.pack(f"<{300 * 200 * 4}f", *(1.0 if z != 1 or not 0 < x < 298 or not 0 < y < 198 else -1.0 for z in range(4) for y in range(200) for x in range(300))), (300, 200, 4))
    put("wide.npy", wide)
    bed("mesh", "wide.npy", "-o", "wide.mesh")
    weight = sixfold(*mesh_file(got("wide.mesh"))[::2])
    expect("a large one", bed("volume", "wide.mesh")[1].startswith(f"sixfold {weight} volume "))
    one, two = bed("info", "ball.mesh")[1], bed("info", "wide.mesh")[1]
    put("cut.mesh", got("ball.mesh")[:-1])
    expect("info of several", bed("info", "ball.mesh", "wide.mesh") == (0, f"ball.mesh: {one}wide.mesh: {two}", ""))
    status, output, _ = bed("info", "cut.mesh", "ball.mesh")
    expect("one is cut off", status == 1 and output.startswith("cut.mesh: refused 21: ") and output.endswith(f"ball.mesh: {one}"))
    for command in ("info", "volume"):
        expect(f"{command} of none", bed(command)[0] == 2)
        expect(f"{command} of one that is not there", bed(command, "none.mesh")[0] == 2)


def heaps():
    """a plan whose whole covers one of two heaps: what is closed is the whole, and what is outside is counted"""
    dims = 40, 20, 12

    def height(x, y):
        return max(6 - ((x - 9) ** 2 + (y - 10) ** 2) / 8, 4 - ((x - 31) ** 2 + (y - 9) ** 2) / 8, -1.25)

    put("in.npy", grid(dims, height))
    numbers = [one for (one,) in struct.iter_unpack("<f", got("in.npy")[-4 * 40 * 20 * 12:])]
    at = lambda x, y, z: numbers[x + 40 * (y + 20 * z)]
    low, high = (3, 2, 0), (19, 18, 9)
    sides = [h - l + 1 for l, h in zip(low, high)]
    put("one.npy", npy(floats([at(x, y, z) for z in range(low[2], high[2] + 1) for y in range(low[1], high[1] + 1) for x in range(low[0], high[0] + 1)]), sides))
    put("one.plan", b"3 2 0 19 18 9 -\n3 2 0 12 18 9 -\n11 2 0 19 18 9 -\n")
    alone = survey("one.npy")[1]
    clear()
    outside = sum(one < 0 for one in numbers) - sum(at(x, y, z) < 0 for z in range(low[2], high[2] + 1) for y in range(low[1], high[1] + 1) for x in range(low[0], high[0] + 1))
    for way in WAYS:
        page, told = survey("in.npy", "--plan", "one.plan", *way)
        expect("one heap alone", told["sixfold"] == alone["sixfold"] and told["level_highest"] == alone["level_highest"] == 6.0)
        expect("its place is the grid's", told["levels"]["highest"]["column"] == [9, 10])
        expect(f"outside: {told['points_below_zero_outside']} for {outside}", told["points_below_zero_outside"] == outside > 0 and f"; {outside} outside the plan's whole, which are in no volume" in page)
        columns = [(x, y) for y in range(2, 19) for x in range(11, 20) if height(x, y) > 0]
        block = told["mesh"]["files"][1]["levels"]
        expect(f"the second block's levels: {block}", block["filled"] == len(columns) and block["columns"] == 17 * 9 and
               abs(block["highest"]["steps"] - max(height(x, y) for x, y in columns)) < 1e-5 and abs(block["mean_steps"] - sum(height(x, y) for x, y in columns) / len(columns)) < 1e-5)
        expect("each block on the page", re.search(r"\nlevels of the blocks: .*\n    counted: 001: highest 6.000 at x 9, y 10; .*\n    counted: 002: highest ", page))
        clear()
    told = survey("in.npy", "--plan", "one.plan", "--closed", "--step", "2", "--origin", "10,20,30")[1]
    expect("where the closed blocks stand", told["mesh"]["steps_to_the_grid"] == [2, 1, -1] and told["mesh"]["origin_m"] == [14, 22, 28])
    expect("in the manifest", "\nmesh closed 2 1 -1\nmetres 2 2 2 14 22 28\n" in got("bed.manifest").decode())
    clear()
    bed("plan", "--make", "2,2,1", "in.npy", "-o", "all.plan")
    for kind in ("<f4", "<i2", "|i1"):
        put("in.npy", grid(dims, height, kind, 8))
        told = [survey("in.npy", *words, *way)[1] for words in ((), ("--plan", "all.plan")) for way in WAYS if not clear()]
        expect(f"whole, plan and layers: {kind}", all(same(told[0], one, (*OWN, "mesh", "plan", "manifest")) for one in told))
        expect("the plan's digest", told[2]["plan"]["sha256"] == hashlib.sha256(got("all.plan")).hexdigest())
    clear()


def strange():
    """full, empty, an echo over the bed, a border of its own, and what cannot be closed"""
    put("full.npy", npy(floats([-2.0] * 7 * 5 * 4), (7, 5, 4)))
    put("empty.npy", npy(floats([2.0] * 7 * 5 * 4), (7, 5, 4)))
    echo = [z - 2.5 for z in range(9) for _ in range(30)]
    echo[14 + 30 * 6] = -1.0
    put("echo.npy", npy(floats(echo), (6, 5, 9)))
    for way in WAYS:
        page, told = survey("full.npy", *way)
        expect("a full tank", page.startswith("tank: every point is below zero: a full tank, or a head that dropped out\n"))
        expect("its volume", told["volume_steps"] == 6 * 4 * 3 and told["cross_check"] == "inside")
        expect("its level", told["level_highest"] == told["level_lowest"] == 3.0 and told["columns"]["below_zero_at_the_top"] == 35)
        page, told = survey("empty.npy", *way, "--levels", "bed.levels")
        expect("an empty tank", page.startswith("tank: no point is below zero") and told["volume_steps"] == 0 and told["cross_check"] == "inside")
        expect("no level", told["level_highest"] is told["level_lowest"] is told["level_mean"] is None and "\nlevel: none" in page)
        expect("not-a-number in each column", all(math.isnan(one) for (one,) in struct.iter_unpack("<f", got("bed.levels")[-4 * 35:])))
        page, told = survey("echo.npy", *way)
        expect("an echo is the level, and said", told["level_highest"] > 6 and told["columns"]["several_changes_of_sign"] == 1 and
               "1 columns with more than one change of sign, the first at x 2, y 2: an echo over the bed would be its level" in page)
        expect("the others", told["level_lowest"] == 2.5 and told["levels"]["highest"]["column"] == [2, 2])
        page, told = survey("echo.npy", "--open", *way, status=3)
        expect("open: no volume", told["volume_steps"] is None and told["closed"] is False and "\nvolume: none is told\n" in page and told["cross_check"] is None)
        expect("open: the levels", told["level_lowest"] == 2.5 and told["hole"] == "not ruled out")
    put("ball.npy", npy(floats(ball_grid(12, 5.5, 4)), (12,) * 3))
    told = survey("ball.npy")[1]
    weight = sixfold(*mesh_file(got("bed.mesh"))[::2])
    near("a bed with a border of its own", told["volume_steps"], weight / STEP, 1e-3)
    # the border would be too much
    long = 16777216
    put("long.npy", npy(b"\x01" * 7 + b"\xff" * 9 + b"\x01" * (long - 16), (long, 1, 1), "|i1"))
    page, told = survey("long.npy", status=3)
    expect("it cannot be closed", "\nclosed: refused 73: " in page and told["closing_refused"]["number"] == 73 and told["volume_steps"] is None)
    status, output, errors = bed("survey", "long.npy", "-o", "never.mesh", "--closed")
    expect(f"nor written closed: {errors}", (status, output) == (1, "") and "long.npy: refused 73: " in errors and not os.path.exists("never.mesh"))
    os.remove("long.npy")
    clear()


def readme_tank():
    """the tank of scripts/make-tank: its volume by fine integration, and the integration by one that is finer"""
    make = os.path.join(HERE, "../../scripts/make-tank")
    truth = float(subprocess.run([make, "--volume"], capture_output=True, text=True, check=True).stdout)
    code = open(make).read().split("\nif sys.argv")[0]
    names = {}
    exec(compile(code, make, "exec"), names)
    near("a finer integration", truth, names["volume"](8), 1e-6)
    told = [survey(f"{TANK}/tank.npy", *words)[1] for words in ((), WAYS[1], ("--plan", f"{TANK}/tank.plan")) if not clear()]
    for one in told:
        near("the tank of the README", one["volume_steps"], truth, 0.001)
    expect("one volume", len({one["sixfold"] for one in told}) == 1)
    expect("on the floor and against walls", told[0]["mesh"]["enclosed"] is False and told[0]["levels"]["filled"] == 97 * 65)
    clear()


def readme_page():
    """the command of README.md makes the lines that it shows; one that ends with .. is the beginning of a line"""
    readme = open(os.path.join(HERE, "../../README.md")).read()
    words = re.search(r"^\S*bed (survey .*)$", readme, re.M)[1].split()
    shown_there = re.search(r"Of the page:\n\n```text\n(.*?)```", readme, re.S)[1].split("\n")[:-1]
    os.symlink(TANK, "examples")
    os.mkdir("target")
    status, output, errors = bed(*words)
    page = output.split("\n")
    expect(f"the README's survey: {errors}", status == 0 and len(shown_there) > 5)
    for line in shown_there:
        expect(f"the README's line: {line}", line in page or line.endswith(" ..") and any(one.startswith(line[:-3]) for one in page))


def noise():
    """small grids of any signs: levels and columns by a plain model, the volume by the closed file's triangles, both ways"""
    random.seed(23)
    seen = set()
    for number in range(60):
        dims = [random.choice((1, 2, 3, 5, 7)) for _ in range(3)]
        x, y, z = dims
        share = random.random()
        values = [random.randint(-9, -1) if random.random() < share else random.randint(0, 9) for _ in range(x * y * z)]
        kind, letter = random.choice((("<f4", "f"), ("<i2", "h"), ("|i1", "b")))
        put("in.npy", npy(struct.pack(f"<{len(values)}{letter}", *values), dims, kind))
        levels, several, top = {}, 0, 0
        for column in range(x * y):
            up = [values[column + x * y * layer] for layer in range(z)]
            below = [layer for layer in range(z) if up[layer] < 0]
            several += sum((a < 0) != (b < 0) for a, b in zip(up, up[1:])) > 1
            top += up[-1] < 0
            if below:
                last = below[-1]
                levels[column] = last + (up[last] / (up[last] - up[last + 1]) if last + 1 < z else 0)
        told = [survey("in.npy", "--closed", *way)[1] for way in WAYS]
        expect(f"{dims} {kind}: both ways", same(*told))
        positions, _, triangles = mesh_file(got("bed.mesh"))
        told = told[0]
        expect(f"{dims} {kind}: its volume", balanced(triangles) and sixfold(positions, triangles) == int(told["sixfold"]) and told["cross_check"] != "outside")
        expect(f"{dims} {kind}: its columns", told["columns"] == {"all": x * y, "below_zero_somewhere": len(levels), "below_zero_at_the_top": top, "several_changes_of_sign": several})
        expect(f"{dims} {kind}: its points", told["points_below_zero"] == sum(one < 0 for one in values) and told["points"] == len(values))
        if levels:
            wanted = max(levels.values()), min(levels.values()), sum(levels.values()) / len(levels)
            found = told["level_highest"], told["level_lowest"], told["level_mean"]
            expect(f"{dims} {kind}: {found} for {wanted}", all(abs(one - other) < 1e-5 for one, other in zip(found, wanted)))
            a, b = told["levels"]["highest"]["column"]
            expect("the place of the highest", abs(levels[a + x * b] - wanted[0]) < 1e-5)
        seen.add(told["cross_check"])
    expect(f"sharp and not: {seen}", "inside" in seen)
    clear()


def memory():
    """the grid fits and the closed one does not: the same numbers and bytes"""
    put("in.npy", grid(DIMS, plane))
    seen = {}
    for size in ("1", "7M", "8M", "12M"):
        for more in ((), ("--closed",)):
            told = survey("in.npy", "--memory", size, *more)[1]
            seen.setdefault(more, []).append((told["sixfold"], got("bed.mesh")))
            seen.setdefault("ways", set()).add((told["by_layers"], told["closed_bed"]["by_layers"]))
    expect("the same", all(len(set(seen[more])) == 1 for more in ((), ("--closed",))))
    expect(f"three ways: {seen['ways']}", seen["ways"] == {(True, True), (False, True), (False, False)})
    clear()


def names():
    """levels and JSON are files like the others"""
    put("in.npy", grid((8, 7, 16), plane))
    for words, says in ((("--json", "in.npy"), "written over"), (("--levels", "./in.npy"), "written over"), (("--json", "a", "--levels", "a"), "one file"),
                        (("--json", "bed.mesh"), "one file"), (("--levels", "none/x"), "none/x")):
        status, output, errors = bed("survey", "in.npy", "-o", "bed.mesh", *words)
        expect(f"{words}: {errors}", (status, output) == (2, "") and says in errors and not glob.glob("bed*"))
    quoted = 'a "b"\\c\n\u00e9.npy'
    put(quoted, got("in.npy"))
    expect("a name in JSON", survey(quoted)[1]["grid"]["name"] == quoted)
    clear()


tilted()
metres()
closed()
volumes()
heaps()
strange()
readme_tank()
readme_page()
noise()
memory()
names()
expect("no part is left", glob.glob("*.part") == [])
finish("tanks: volume and level as they should be")
