"""python_face: tries python/bed.py, by ctypes, on NumPy arrays where NumPy is there and on plain buffers, and holds the winding of
every face against the drawing in include/bed.h. BED_SHARED names libbed.so; PYTHONPATH has python/."""
import array
import ctypes
import platform
import random
import struct
import sys

import bed

random.seed(3)
failures = []


def expect(what, holds):
    if not holds:
        failures.append(what)
        print(f"NOT SO: {what}")


def refused(number, function, *words, **more):
    try:
        function(*words, **more)
        expect(f"{function.__name__} is refused {number}", False)
    except bed.Refused as refusal:
        expect(f"{function.__name__} is refused {number}, not {refusal}", refusal.number == number)


def wrong(function, *words, **more):
    try:
        function(*words, **more)
        expect(f"{function.__name__}{words} is of a wrong type", False)
    except TypeError:
        pass


def no_number(function, *words, **more):
    try:
        function(*words, **more)
        expect(f"{function.__name__}{words} {more} is a wrong value", False)
    except ValueError:
        pass


def rows(matrix):
    return [tuple(row) for row in matrix.tolist()]


def ball():
    grid = array.array("f", [1.0] * 27)
    grid[13] = -1.0
    mesh = bed.surface_nets(grid, dims=(3, 3, 3))
    expect("document 01's Ball", (mesh.positions.shape, mesh.indices.tolist()) ==
           ((8, 3), [2, 1, 0, 2, 3, 1, 1, 4, 0, 1, 5, 4, 4, 2, 0, 4, 6, 2]))
    expect("its map", [n for n in mesh.stride_to_index.tolist() if n != bed.NO_VERTEX] == list(range(8)))
    expect("its strides", mesh.strides.tolist() == [0, 1, 3, 4, 9, 10, 12, 13])
    expect("its cells", rows(mesh.cells)[5] == (1, 0, 1))
    expect("its crossings", mesh.crossings.tolist() == [3] * 8)
    expect("with max plane", len(bed.surface_nets(grid, (3, 3, 3), max_plane=(True,) * 3).indices) == 36)
    expect("nothing", bed.surface_nets(array.array("f", [1.0] * 27), (3, 3, 3)).positions.shape[0] == 0)
    file = bed.write_mesh(mesh)
    again = bed.read_mesh(file)
    expect("the file", len(file) == 32 * 15 and bed.check_mesh(file) == (8, 6))
    expect("read back", rows(again.positions) == rows(mesh.positions) and again.indices.tolist() == mesh.indices.tolist()
           and rows(again.normals) == rows(mesh.normals))
    expect("its counts alone", bed.counts(grid, (3, 3, 3)) == (8, 18) and bed.counts(grid, (3, 3, 3), max_plane=(True,) * 3) == (8, 36))
    refused(2, bed.counts, grid, (3, 3, 3), max=(3, 2, 2))
    pieces = bytearray(len(file))
    bits = struct.Struct("<6f")
    words = [(1, *struct.unpack("<6I", bits.pack(*position, *normal))) for position, normal in zip(rows(mesh.positions), rows(mesh.normals))]
    corners = mesh.indices.tolist()
    words += [(2, *corners[at:at + 3], 0, 0, 0) for at in range(0, len(corners), 3)]
    for number, record in enumerate([*words, (3, 8, 6, 0, 0, 0, 0)]):
        bed.write_record(pieces, 32 * number, record)
    expect("the file, record by record", bytes(pieces) == file)
    refused(29, bed.write_record, pieces, len(file) - 31, words[0])
    refused(29, bed.write_record, pieces, 2 ** 64 - 1, words[0])
    expect("and no more", bytes(pieces) == file)
    wrong(bed.write_record, bytes(32), 0, words[0])
    refused(21, bed.read_mesh, file[:-1])
    refused(21, bed.check_mesh, b"")
    refused(28, bed.check_mesh, file + b"\0")
    refused(3, bed.surface_nets, grid, dims=(3, 3, 4))
    refused(1, bed.surface_nets, grid, dims=(0, 3, 3))
    refused(2, bed.surface_nets, grid, dims=(3, 3, 3), max=(3, 2, 2))
    refused(5, bed.surface_nets, array.array("f", [float("nan")]), dims=(1, 1, 1))
    refused(61, bed.volume, array.array("f", [0.0]), array.array("I"))
    wrong(bed.surface_nets, grid)
    wrong(bed.surface_nets, array.array("d", [1.0] * 27), dims=(3, 3, 3))
    wrong(bed.cut_fixtures, b"", bytes(108), dims=(3, 3, 3))
    wrong(bed.cut_fixtures, b"", array.array("h", [1] * 27), dims=(3, 3, 3))
    expect("a buffer that is only read", rows(bed.surface_nets(memoryview(grid.tobytes()).cast("f"), (3, 3, 3)).positions) == rows(mesh.positions))
    inside = array.array("f", [1.0] * 64)
    inside[21] = -1.0
    expect("enclosed", bed.is_enclosed(inside, (4, 4, 4)) and not bed.is_enclosed(inside, (4, 4, 4), max=(2, 2, 2)))
    closed = bed.surface_nets(inside, (4, 4, 4))
    expect("the volume of a single point", bed.volume(closed.positions, closed.indices) == 6 * 85 ** 3)


def numbers():
    """exactly three numbers from 0 up, exactly three flags; a number above 2^32 - 1 gets the documents' answer for it, in their order"""
    grid = array.array("f", [1.0] * 13 + [-1.0] + [1.0] * 13)
    three, large = (3, 3, 3), 2 ** 32
    for function in (bed.surface_nets, bed.counts):
        for flags in ((True,), (), (True,) * 4, (True, False, 2), (True, False, -1), (True, False, None), (True, False, "no"), None, 7):
            no_number(function, grid, three, max_plane=flags)
        expect("flags of 0 and 1", bed.counts(grid, three, max_plane=(1, 0, 1)) == bed.counts(grid, three, max_plane=(True, False, True)))
    for function in (bed.surface_nets, bed.counts, bed.is_enclosed):
        for bad in ((3, 9), (3, 3, 3, 1), (-3, -3, 3), (3, 3.0, 3), (3, None, 9), "333", 27, iter(int, 1)):
            no_number(function, grid, bad)
        for bad in ((2, 2), (2, 2, 2, 2), (2, 2, -1), (2.5, 2, 2), "222", 2):
            no_number(function, grid, three, max=bad)
            no_number(function, grid, three, min=bad)
        for number, words in ((1, {"dims": (large + 3, 3, 3)}), (1, {"dims": (3, 3, 2 ** 70)}), (1, {"dims": (0, 3, 3), "max": (large + 2, 2, 2)}),
                              (2, {"dims": three, "max": (large + 2, 2, 2)}), (2, {"dims": three, "min": (0, 0, large)}),
                              (2, {"dims": three, "min": (large,) * 3, "max": (large,) * 3}), (2, {"dims": (3, 3, 4), "max": (2, 2 ** 64, 2)}),
                              (3, {"dims": (3, 3, 4)})):
            refused(number, function, grid, **words)
    refused(1, bed.cut_fixtures, b"", grid, (3, 3, large + 3))
    no_number(bed.cut_fixtures, b"", grid, (3, 9))
    whole = bed.Block(max=(2, 2, 2))
    expect("a plan's block is no smaller one", bed.check_plan([bed.Block(max=(2, 2, 2))], whole))
    refused(42, bed.check_plan, [bed.Block(max=(large + 2, 2, 2))], whole)
    refused(42, bed.check_plan, [whole], bed.Block(max=(2, 2, large + 2)))
    refused(41, bed.check_plan, [bed.Block(max=(large + 2, 2, 2))] * 201, whole)
    whole.max = (2, large + 2, 2)
    refused(42, bed.check_plan, [], whole)
    for bad in ({"min": (0, 0)}, {"max": (1, 1, -1)}, {"max_plane": (True,)}, {"max": (1, 1, 0.5)}):
        no_number(bed.Block, **bad)
    wrong(bed.check_plan, [(0, 0, 0)], bed.Block())
    wrong(bed.check_plan, [], None)
    room = bytearray(64)
    for bad in ((1,) * 6, (1,) * 8, (-1,) * 7, (large,) * 7, (1.0,) * 7):
        no_number(bed.write_record, room, 0, bad)
    no_number(bed.write_record, room, -1, (1,) * 7)
    refused(29, bed.write_record, room, 2 ** 64, (1,) * 7)
    expect("nothing was written", room == bytearray(64))


def buffers():
    """kinds, order and alignment of what is lent"""
    grid = array.array("f", [-1.0] * 27)
    shifted = memoryview(bytearray(b"\0" + grid.tobytes()))[1:].cast("f")
    expect("distances at an odd address", bed.counts(shifted, (3, 3, 3)) == bed.counts(grid, (3, 3, 3)))
    wrong(bed.cut_fixtures, struct.pack("<I6fI", 1, 0, 0, 0, 1, 1, 1, 0), shifted, (3, 3, 3))
    for bad in (None, 7, "text", [1.0] * 27, array.array("f", [1.0] * 54)[::2].tolist(), memoryview(array.array("f", [1.0] * 54))[::2]):
        wrong(bed.surface_nets, bad, (3, 3, 3))
    # the file is a part of the grid that is changed
    shared = bytearray(struct.pack("<I6fI", 1, 0, 0, 0, 9, 9, 9, 0) + struct.pack("<19f", *[-5.0] * 19))
    apart = array.array("f", bytes(shared))
    bed.cut_fixtures(bytes(shared[:32]), apart, (3, 3, 3))
    bed.cut_fixtures(memoryview(shared)[:32], memoryview(shared).cast("f"), (3, 3, 3))
    expect("a file inside the grid", bytes(shared) == apart.tobytes())


def layers():
    """every layer offered: joined, the whole mesh; refusals, also of a layer that is then offered again"""
    dims, corners = (5, 4, 6), {"min": (0, 1, 1), "max": (4, 3, 5)}
    values = [random.choice((-1, 1)) * random.uniform(0.1, 3) for _ in range(120)]
    grid = array.array("f", values)
    whole = bed.surface_nets(grid, dims, max_plane=(True, False, True), **corners)
    taking = bed.Layers(dims, max_plane=(True, False, True), **corners)
    parts = []
    for z in range(1, 6):
        layer = grid[20 * z:20 * z + 20]
        refused(3, taking.offer, layer[1:])
        refused(5, taking.offer, layer[:9] + array.array("f", [float("inf")]) + layer[10:])
        wrong(taking.offer, array.array("d", layer))
        parts.append(taking.offer(layer))
        expect("so many are taken", taking.taken == z)
    refused(8, taking.offer, grid[:20])
    expect("something came out", len(whole.indices) > 50 and len(parts[0].positions) == 0)
    for name in ("positions", "normals", "indices", "cells", "strides", "crossings"):
        expect(f"{name} of all layers", b"".join(getattr(part, name).tobytes() for part in parts) == getattr(whole, name).tobytes())
    expect("in words", repr(taking) == f"<bed.Layers: 5 layers taken, {len(whole.positions)} vertices so far>")
    refused(1, bed.Layers, (0, 4, 6))
    refused(1, bed.Layers, (2 ** 32 + 5, 4, 6))
    refused(2, bed.Layers, dims, max=(5, 3, 5))
    refused(2, bed.Layers, dims, max=(4, 3, 2 ** 32 + 5))
    no_number(bed.Layers, (5, 4))
    no_number(bed.Layers, dims, max_plane=(True,))


def in_words():
    ball = bed.surface_nets(array.array("f", [1.0] * 13 + [-1.0] + [1.0] * 13), (3, 3, 3))
    expect("a mesh", repr(ball) == "<bed.Mesh: 8 vertices, 6 triangles>")
    expect("a block", repr(bed.Block(max=(1, 2, 3))) == "bed.Block(min=(0, 0, 0), max=(1, 2, 3), max_plane=(False, False, False))")
    expect("a refusal", repr(bed.Refused(2)) == "Refused(2)" and str(bed.Refused(2)).startswith("refused 2: "))


def whole_numbers():
    """grids of int16 and int8 against the float grid of the same values, the ends of the ranges among them"""
    for kind, least, most in (("h", -2 ** 15, 2 ** 15 - 1), ("b", -2 ** 7, 2 ** 7 - 1)):
        vertices = yes = 0
        for turn in range(40):
            dims = tuple(random.randrange(3, 7) for _ in range(3))
            count = dims[0] * dims[1] * dims[2]
            values = [random.choice((random.randint(least, most), least, most, 0, 1, -1)) for _ in range(count)]
            if turn % 2:  # few below zero, so that some grids are enclosed
                values = [value if value >= 0 or random.random() < 0.02 else min(-value, most) for value in values]
            whole, floats = array.array(kind, values), array.array("f", values)
            flags = tuple(random.random() < 0.5 for _ in range(3))
            one, other = (bed.surface_nets(grid, dims, max_plane=flags) for grid in (whole, floats))
            for name in ("positions", "normals", "indices", "cells", "strides", "crossings", "stride_to_index"):
                expect(f"{name} of {kind}", getattr(one, name).tobytes() == getattr(other, name).tobytes())
            expect(f"enclosed, {kind}", bed.is_enclosed(whole, dims) == bed.is_enclosed(floats, dims))
            only_read = bed.surface_nets(memoryview(whole.tobytes()).cast(kind), dims)
            expect(f"only read, {kind}", only_read.positions.tobytes() == one.positions.tobytes())
            vertices += one.positions.shape[0]
            yes += bed.is_enclosed(whole, dims)
        expect(f"something to compare, {kind}", vertices > 500 and 0 < yes < 40)
        least_alone = array.array(kind, [most] * 13 + [least] + [most] * 13)
        expect(f"the least of {kind} is a distance", bed.surface_nets(least_alone, (3, 3, 3)).positions.shape == (8, 3))
        refused(3, bed.surface_nets, least_alone, dims=(3, 3, 4))
        refused(2, bed.surface_nets, least_alone, dims=(3, 3, 3), max=(3, 2, 2))
        refused(3, bed.is_enclosed, least_alone, dims=(3, 3, 4))
        wrong(bed.surface_nets, array.array(kind.upper(), [1] * 27), dims=(3, 3, 3))


def tallied():
    """cells below and on the surface, by a plain count; whole, and layer by layer whatever stands in the counts before; their bounds hold the volume"""
    seen = [0, 0, 0]
    for turn in range(60):
        dims = x, y, z = tuple(random.randrange(2, 7) for _ in range(3))
        kind, share = "fhb"[turn % 3], random.choice((0.5, 0.8, 0.95))
        values = [random.randrange(1, 9) * (-1 if random.random() < share else 1) for _ in range(x * y * z)]
        grid = array.array(kind, values)
        low = tuple(random.randrange(2) for _ in range(3))
        high, flags = tuple(size - 1 for size in dims), tuple(random.random() < 0.5 for _ in range(3))
        whole, vertices, indices = bed.tally(grid, dims, low, high, flags)
        corners = [sum(values[a + i % 2 + x * (b + i // 2 % 2 + y * (c + i // 4))] < 0 for i in range(8))
                   for c in range(low[2], z - 1) for b in range(low[1], y - 1) for a in range(low[0], x - 1)]
        expect("counted", (whole, vertices, indices) == (corners.count(8), len(corners) - corners.count(8) - corners.count(0), bed.counts(grid, dims, low, high, flags)[1]))
        counts, below = (2 ** 64 - 1, 5, 7), grid[:0]
        for height in range(low[2], z):
            layer = grid[x * y * height:][:x * y]
            counts, below = bed.tally_layer(below, layer, dims, height, counts, low, high, flags), layer
        expect("layer by layer", counts == (whole, vertices, indices))
        seen = [one + other for one, other in zip(seen, counts)]
        closed = bed.close(grid, dims=dims)
        sizes = tuple(size + 3 for size in dims)
        whole, vertices, indices = bed.tally(closed, sizes)
        mesh = bed.surface_nets(closed, sizes)
        volume = bed.weigh(mesh.positions, mesh.indices)[0] / (6 * 256 ** 3)
        expect(f"the bounds hold {volume}", whole - indices / 36 <= volume <= whole + vertices + indices / 36)
    expect(f"something counted: {seen}", min(seen) > 100)
    grid = array.array("f", [1.0] * 27)
    refused(3, bed.tally, grid, dims=(3, 3, 4))
    refused(2, bed.tally, grid, dims=(3, 3, 3), max=(3, 2, 2))
    refused(91, bed.tally_layer, grid[:9], grid[:9], (3, 3, 3), 3)
    refused(92, bed.tally_layer, grid[:9], grid[:9], (3, 3, 3), 1, (0, 2 ** 60 + 1, 0))
    wrong(bed.tally_layer, grid[:9], array.array("b", [1] * 9), (3, 3, 3), 1)


def fixtures_and_plans():
    grid = array.array("f", [-0.75] * 64)
    file = struct.pack("<I6fI", 1, 1, 1, 1, 2, 2, 2, 0)
    bed.cut_fixtures(file, grid, (4, 4, 4))
    expect("fixtures, in their place", (grid[0], grid[21], grid[63]) == (-0.75, 0.0, -0.75))
    refused(51, bed.cut_fixtures, file[:-1], grid, (4, 4, 4))
    for kind in "fhb":
        layers = [array.array(kind, [-3] * 16) for _ in range(4)]
        cut = [bed.cut_fixtures_layer(file, layer, (4, 4, 4), z) for z, layer in enumerate(layers)]
        at_once = array.array("f", [-3.0] * 64)
        bed.cut_fixtures(file, at_once, (4, 4, 4))
        one_by_one = [number for layer in (layers if kind == "f" else (sum(map(list, rows(part)), []) for part in cut)) for number in layer]
        expect(f"fixtures layer by layer, {kind}", one_by_one == at_once.tolist() and at_once[21] == 0.0)
        expect("whole numbers stay", kind == "f" or layers == [array.array(kind, [-3] * 16)] * 4)
        refused(81, bed.cut_fixtures_layer, file, layers[0], (4, 4, 4), 2 ** 40)
        refused(3, bed.cut_fixtures_layer, file, layers[0], (4, 5, 4), 3)
        refused(51, bed.cut_fixtures_layer, file[:-1], layers[0], (4, 4, 4), 3)
    whole = bed.Block(max=(6, 4, 4))
    lower, upper = bed.Block(max=(4, 4, 4)), bed.Block((3, 0, 0), (6, 4, 4))
    expect("a block is 28 bytes", ctypes.sizeof(bed._Block) == 28)
    expect("a plan", bed.check_plan([lower, upper], whole) and not bed.check_plan([lower], whole) and not bed.check_plan([], whole))
    expect("flags", not bed.check_plan([lower, bed.Block((3, 0, 0), (6, 4, 4), (True, False, False))], whole))
    expect("no edge is wrong", bed.plan_witness([lower, upper], whole) is None)
    for blocks, told in (([lower], (0, (3, 1, 1), None, None)), ([lower, upper, upper], (0, (3, 1, 1), 1, 2)), ([], (0, (0, 1, 1), None, None)),
                         ([lower, bed.Block((3, 0, 0), (6, 4, 4), (False, False, True))], (2, (4, 1, 3), 1, None))):
        expect(f"the first wrong edge: {bed.plan_witness(blocks, whole)}", bed.plan_witness(blocks, whole) == bed.Witness(*told))
    for asked in (bed.check_plan, bed.plan_witness):
        refused(41, asked, [lower] * 201, whole)
        refused(42, asked, [bed.Block(min=(1, 0, 0))], whole)
    wrong(bed.plan_witness, [(0, 0, 0)], whole)


def winding():
    """every face of random grids against the drawing of bed.h: the cells of a b c and a c d, seen from outside"""
    sides = faces = 0
    for _ in range(40):
        dims = [random.randrange(3, 7) for _ in range(3)]
        grid = array.array("f", (random.choice((-1, 1)) * random.uniform(0.1, 3) for _ in range(dims[0] * dims[1] * dims[2])))
        mesh = bed.surface_nets(grid, tuple(dims), max_plane=(True,) * 3)
        cells, indices = rows(mesh.cells), mesh.indices.tolist()

        def negative(point):
            return grid[point[0] + dims[0] * (point[1] + dims[1] * point[2])] < 0

        for at in range(0, len(indices), 6):
            one, other = indices[at:at + 3], indices[at + 3:at + 6]
            corners = {cells[index] for index in one + other}
            axis = next(axis for axis in range(3) if len({corner[axis] for corner in corners}) == 1)
            low = tuple(max(corner[k] for corner in corners) for k in range(3))
            high = tuple(low[k] + (k == axis) for k in range(3))
            right, up = (axis + 1) % 3, (axis + 2) % 3
            expect("a face of four cells", len(corners) == 4 and negative(low) != negative(high))
            # triangles that share a diagonal and nothing else; seen from the upper end, counter-clockwise if below is the bed
            expect("one diagonal", len(set(one) & set(other)) == 2)
            for triangle in (one, other):
                a, b, c = (cells[index] for index in triangle)
                turn = (b[right] - a[right]) * (c[up] - a[up]) - (b[up] - a[up]) * (c[right] - a[right])
                expect("counter-clockwise seen from outside", turn == (1 if negative(low) else -1))
            faces += 1
            sides += negative(low)
    expect("both ways", 0 < sides < faces)
    print(f"winding: {faces} faces as they are drawn")


def environment():
    """subnormal distances, with another rounding and, on x86-64, flush-to-zero set: the same bits, and the setting stands again"""
    mathematics = ctypes.CDLL("libm.so.6")
    grid = array.array("f", [random.choice((-1, 1)) * random.uniform(1e-40, 3e-39) for _ in range(125)])
    wanted = bed.surface_nets(grid, (5, 5, 5))
    usual, other, after = (ctypes.create_string_buffer(256) for _ in range(3))
    mathematics.fegetenv(usual)
    mathematics.fegetenv(other)
    if platform.machine() == "x86_64":
        # MXCSR stands last in the C library's fenv_t: flush-to-zero, denormals-are-zero, rounding down
        control = struct.unpack_from("<I", other, 28)[0] & ~0x6000 | 0xA040
        struct.pack_into("<I", other, 28, control)
    try:
        mathematics.fesetenv(other)
        found = bed.surface_nets(grid, (5, 5, 5))
        mathematics.fegetenv(after)
    finally:
        mathematics.fesetenv(usual)
    expect("the same bits in another environment", rows(found.positions) == rows(wanted.positions) and len(rows(wanted.positions)) > 20)
    expect("the caller's environment stands again", after.raw == other.raw)


def with_numpy():
    numpy = bed.numpy
    if numpy is None:
        print("NumPy is not there: memoryviews alone are tried")
        return
    z, y, x = numpy.mgrid[0:9, 0:10, 0:11]
    grid = (numpy.sqrt((x - 5) ** 2 + (y - 4.5) ** 2 + (z - 4) ** 2) - 3).astype(numpy.float32)
    mesh = bed.surface_nets(grid)
    expect("arrays", isinstance(mesh.positions, numpy.ndarray) and mesh.positions.dtype == numpy.float32 and mesh.indices.dtype == numpy.uint32)
    expect("the same from a plain buffer", (bed.surface_nets(grid.ravel(), (11, 10, 9)).positions == mesh.positions).all())
    expect("a shape of z, y, x", (mesh.cells.max(axis=0) < [11, 10, 9]).all() and mesh.cells[:, 0].max() > 6)
    whole = (grid * 10).round()
    for kind in (numpy.int16, numpy.int8):
        expect(f"{kind}", (bed.surface_nets(whole.astype(kind)).positions == bed.surface_nets(whole).positions).all())
        expect(f"{kind} enclosed", bed.is_enclosed(whole.astype(kind)) == bed.is_enclosed(whole))
        wrong(bed.surface_nets, numpy.asfortranarray(whole.astype(kind)))
    wrong(bed.surface_nets, whole.astype(">i2"))
    wrong(bed.surface_nets, grid.astype(numpy.float64))
    wrong(bed.surface_nets, numpy.asfortranarray(grid))
    wrong(bed.surface_nets, grid.astype(">f4"))
    grid.flags.writeable = False
    expect("an array that is only read", (bed.surface_nets(grid).positions == mesh.positions).all())
    wrong(bed.cut_fixtures, b"", grid)
    expect("its file", bed.check_mesh(bed.write_mesh(mesh)) == (len(mesh.positions), len(mesh.indices) // 3))
    of_the_ball = 4 / 3 * 3.14159 * 27
    volume = bed.volume(mesh.positions, mesh.indices) / (6 * 256 ** 3)
    expect(f"its volume {volume}, the ball's own {of_the_ball}", 0.8 * of_the_ball < volume < of_the_ball)
    print("NumPy arrays are tried")


ball()
numbers()
buffers()
layers()
in_words()
whole_numbers()
tallied()
fixtures_and_plans()
winding()
environment()
with_numpy()
print("FAILED" if failures else "bed.py: all as it should be")
sys.exit(1 if failures else 0)
