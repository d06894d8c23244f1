"""python_fuzz [TIMES]: calls each function of python/bed.py with random Python arguments, 100,000 times or TIMES, and looks that each call
ends: done, or with Refused, ValueError or TypeError. The calls are made in a process of their own, so that one which ends it is
seen. BED_SHARED names libbed.so; PYTHONPATH has python/."""
import array
import collections
import random
import struct
import subprocess
import sys

import bed

TIMES = int(sys.argv[1]) if len(sys.argv) > 1 else 100000
SEEDS = 4
numpy = bed.numpy


def number():
    return random.choice((0, 1, 2, 3, 3, 3, 4, 5, True, -1, 2.0, 2 ** 24 + 1, 2 ** 31, 2 ** 32 - 1, 2 ** 32, 2 ** 32 + 3, 2 ** 64, 2 ** 70,
                          -2 ** 70, None, "3", float("nan"), 1j))


def three():
    good = random.random() < 0.5
    count = 3 if good or random.random() < 0.5 else random.randrange(6)
    row = [random.choice((0, 1, 2, 2, 3, 3, 4)) if good else number() for _ in range(count)]
    return random.choice((tuple, list, iter))(row) if good or random.random() < 0.9 else random.choice((None, 3, "333", b"333", {}, [[3] * 3] * 3))


def flags():
    if random.random() < 0.6:
        return tuple(random.random() < 0.5 for _ in range(3))
    return random.choice((None, (), (True,), (True,) * 4, (1, 0, 1), (2, 0, 0), "xyz", (None,) * 3, [True, False, float("nan")]))


def floats(count):
    some = random.choice(((-1.0, 1.0), (1.0,), (-3.5, 2.0 ** 124, 0.0), (float("nan"), 1.0), (float("inf"), -1.0)))
    return array.array("f", [random.choice(some) for _ in range(count)])


def buffer():
    """of any kind, length, order and alignment"""
    count = random.choice((0, 1, 3, 8, 9, 18, 24, 27, 27, 27, 27, 32, 36, 64, 100))
    kind = random.randrange(12)
    if kind < 4:
        return floats(count)
    if kind == 4:
        return array.array(random.choice("bBhHiIlLqQd"), [random.randrange(100) for _ in range(count)])
    if kind == 5:
        return memoryview(bytearray(random.randbytes(4 * count + 1)))[1:].cast(random.choice("fhbBI"))
    if kind == 6:
        return memoryview(floats(2 * count))[::2]
    if kind == 7:
        return random.choice((bytes, bytearray))(random.randbytes(random.choice((0, 31, 32, 33, 64, 96, 4 * count))))
    if kind == 8:
        return file()
    if kind == 9 and numpy is not None:
        shape = random.choice(((3, 3, 3), (2, 3, 4), (4, 4, 4), (0, 3, 3), (3, 3), (27,), (), (1, 1, 1, 27)))
        dtype = random.choice(("<f4", ">f4", "<i2", "i1", "u1", "f8", "f2", "u4", "c8", "O", "S3", "V0", "M8[s]", "?", [("a", "<f4")]))
        made = numpy.zeros(shape, dtype, order=random.choice("CF"))
        if made.ndim and random.random() < 0.5:
            made = made[::-1]
        if random.random() < 0.2:
            made = made.copy()
            made.flags.writeable = False
        return made
    if kind == 10:
        return memoryview(floats(27).tobytes()).cast("f", (3, 3, 3))
    return random.choice((None, 5, "text", [1.0] * 27, object(), 3.5, range(27), (1.0,) * 27))


def file():
    """a mesh file or a file of fixtures, whole or spoiled"""
    if random.random() < 0.5:
        mesh = bed.surface_nets(array.array("f", [1.0] * 13 + [-1.0] + [1.0] * 13), (3, 3, 3))
        made = bytearray(bed.write_mesh(mesh))
    else:
        made = bytearray(struct.pack("<8I", 2, 2, 0, 0, 0, 0, 0, 0) + 2 * struct.pack("<I6fI", 1, 0, 0, 0, 1, 1.5, 1, 0))
    if random.random() < 0.5:
        made[random.randrange(len(made))] ^= 1 << random.randrange(8)
    return made[:random.choice((len(made), random.randrange(len(made) + 1)))]


def lists():
    """positions, normals and indices, some of them a mesh's"""
    triangle = array.array("f", [0.0, 1.0, 2.0] * 3), array.array("f", [1.0] * 9), array.array("I", [0, 1, random.randrange(4)])
    return [one if random.random() < 0.8 else buffer() for one in triangle]


def record():
    if random.random() < 0.5:
        return [random.randrange(2 ** 32) for _ in range(7)]
    return [number() for _ in range(random.choice((7, 7, 7, 6)))]


def block():
    if random.random() < 0.1:
        return random.choice((None, 3, (0, 0, 0), "block"))
    made = bed.Block(max=[random.randrange(4) for _ in range(3)])
    if random.random() < 0.3:
        setattr(made, random.choice(("min", "max", "max_plane")), random.choice((three(), flags())))
    return made


def words(optional):
    return {name: make() for name, make in optional.items() if random.random() < 0.5}


BOX = {"min": three, "max": three}
LAYERS = []


def start():
    # no layer of 2^24 points: to take memory for it is slow, and not what is tried here
    row = [random.randrange(6) if random.random() < 0.9 else number() for _ in range(3 if random.random() < 0.9 else 2)]
    dims = [size if size != 2 ** 24 + 1 else 2 ** 24 + 2 for size in row]
    made = bed.Layers(dims, **words({**BOX, "max_plane": flags}))
    LAYERS[:] = [made, *LAYERS[:5]]


def offer():
    taking = random.choice(LAYERS) if LAYERS else bed.Layers((3, 3, 3))
    taking.offer(floats(taking._points) if random.random() < 0.7 else buffer())
    repr(taking)


def dims():
    return {"dims": three() if random.random() < 0.4 else (3, 3, 3)} if random.random() < 0.8 else {}


def small():
    """dimensions that a layer of nine points fits, or others; none so large that memory for them is slow to take"""
    made = (3, 3, random.randrange(1, 4)) if random.random() < 0.8 else three()
    if not isinstance(made, (tuple, list)):
        return made
    return [size if size not in (2 ** 24, 2 ** 24 + 1) else 2 ** 24 + 2 for size in made]


def layer():
    kind = random.random()
    return floats(9) if kind < 0.5 else floats(0) if kind < 0.8 else buffer()


def real():
    return random.choice((1.0, 2.0 ** 30, 0.0, -1.0, float("nan"), float("inf"), 1e300, -0.0, 3, 10 ** 400, None, "text", number()))


CALLS = {
    "surface_nets": lambda: repr(bed.surface_nets(buffer(), **dims(), **words({**BOX, "max_plane": flags}))),
    "counts": lambda: bed.counts(buffer(), **dims(), **words({**BOX, "max_plane": flags})),
    "is_enclosed": lambda: bed.is_enclosed(buffer(), **dims(), **words(BOX)),
    "check_plan": lambda: bed.check_plan([block() for _ in range(random.choice((0, 1, 2, 201)))] if random.random() < 0.9 else number(), block()),
    "plan_witness": lambda: repr(bed.plan_witness([block() for _ in range(random.choice((0, 1, 2, 3, 201)))] if random.random() < 0.9 else number(), block())),
    "Block": lambda: repr(bed.Block(**words({**BOX, "max_plane": flags}))),
    "cut_fixtures": lambda: bed.cut_fixtures(file() if random.random() < 0.7 else buffer(), buffer(), **dims()),
    "volume": lambda: bed.volume(*lists()[::2]),
    "weigh": lambda: bed.weigh(*lists()[::2], **words({"first": number})),
    "deepest": lambda: bed.deepest(buffer(), **words({"so_far": real}), **dims()),
    "wall_for": lambda: bed.wall_for(real()),
    "close": lambda: bed.close(buffer(), **words({"wall": real}), **dims()),
    "close_layer": lambda: bed.close_layer(layer(), small(), number() if random.random() < 0.3 else random.randrange(6), real()),
    "levels": lambda: bed.levels(buffer(), **dims(), **words(BOX)),
    "levels_layer": lambda: bed.levels_layer(layer(), layer(), small(), random.choice((0, 1, 2, number())), floats(9) if random.random() < 0.8 else buffer(), **words(BOX)),
    "tally": lambda: bed.tally(buffer(), **dims(), **words({**BOX, "max_plane": flags})),
    "tally_layer": lambda: bed.tally_layer(layer(), layer(), small(), random.choice((0, 1, 2, number())), **words({**BOX, "max_plane": flags, "so_far": three})),
    "write_mesh": lambda: bed.write_mesh(bed.Mesh(*lists())),
    "write_record": lambda: bed.write_record(file() if random.random() < 0.6 else buffer(), number(), record()),
    "check_mesh": lambda: bed.check_mesh(file() if random.random() < 0.7 else buffer()),
    "read_mesh": lambda: repr(bed.read_mesh(file() if random.random() < 0.7 else buffer())),
    "Layers": start,
    "offer": offer,
}


def calls(seed, times):
    random.seed(seed)
    ends = collections.Counter()
    for _ in range(times):
        name = random.choice(list(CALLS))
        print(name, file=sys.stderr)
        try:
            CALLS[name]()
            ends[name, "done"] += 1
        except (bed.Refused, ValueError, TypeError) as error:
            ends[name, type(error).__name__] += 1
    # each function was done some of the time, and refused, so that the calls are not all turned away at the door
    missed = [name for name in CALLS if not ends[name, "done"]]
    if missed:
        sys.exit(f"never done: {missed}")
    print(*(sum(count for (_, end), count in ends.items() if end == kind) for kind in ("done", "Refused", "ValueError", "TypeError")))


def main():
    if len(sys.argv) == 4:
        return calls(int(sys.argv[2]), int(sys.argv[3]))
    total = [0] * 4
    for seed in range(SEEDS):
        done = subprocess.run([sys.executable, "-B", __file__, str(TIMES), str(seed), str(TIMES // SEEDS)], capture_output=True, text=True)
        if done.returncode:
            last = "\n".join(done.stderr.split("\n")[-12:])
            sys.exit(f"python fuzz, seed {seed}: ended with {done.returncode}, the last call and what it said:\n{last}")
        total = [one + other for one, other in zip(total, map(int, done.stdout.split()))]
    print("python fuzz: {} calls: {} done, {} refused, {} wrong values, {} wrong types, none ended the process".format(sum(total), *total))


main()
