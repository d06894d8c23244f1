"""The bed mesher for Python: the proved library's C functions, as include/bed.h says, by ctypes.

    import bed
    mesh = bed.surface_nets(distances)            # a NumPy array of float32, shape z, y, x
    bed.is_enclosed(distances), bed.volume(mesh.positions, mesh.indices)

Distances are anything with a buffer of float32, int16 or int8 in C order, whole numbers meaning the floats of the same
values; none is converted. One without three dimensions wants dims=(x, y, z). Lists come back as NumPy arrays where NumPy
is there, and else as memoryviews. A refused call raises Refused, with the answer's number.

Whatever is passed, no call reads or writes outside what it was lent: numbers, flags and buffers are looked at before the
library is called. What is no three whole numbers from 0 up, or no three flags, is a ValueError; a buffer of another kind
or order a TypeError. A number above 2^32 - 1 gets the answer that the documents give it: it is a dimension, corner or
coordinate like another, and too large.

The library is found by BED_SHARED, the path of libbed.so; else as libbed.so in the folder of this file; else by the
system's own search. Every call is made in the default floating-point environment, and the caller's is set again after it."""
import builtins
import ctypes
import ctypes.util
import itertools
import operator
import os
import sys

try:
    import numpy
except ImportError:
    numpy = None

VERSION = "0.2.0"
NO_VERTEX = 4294967295
WORDS = {
    1: "a dimension is 0 or above 16777217, or the product of the dimensions is above 1073741824",
    2: "the box does not fit: min is above max on an axis, or max is not below its dimension",
    3: "the grid's length is not the product of the dimensions",
    4: "the cell map is shorter than the grid",
    5: "a distance in the box is not finite or is above 2^124 in magnitude",
    6: "no room for the vertices",
    7: "no room for the indices",
    8: "the box has no more layers",
    21: "the file is cut off before the end of its closing record",
    22: "a record's sum is wrong",
    23: "a record is of no known kind, or a vertex comes after a triangle",
    24: "a word that should be zero is not",
    25: "the closing record's counts are not those of the file",
    26: "an index has no vertex",
    27: "a position or normal is not finite",
    28: "bytes follow the closing record",
    29: "the lent room is too short",
    30: "a list is not in threes, normals are not as long as positions, or a count is above 32 bits",
    41: "the list has more than 200 blocks",
    42: "a box has min above max on an axis, or a coordinate above 16777216",
    51: "the fixture file is cut off",
    52: "a record is of no known kind",
    53: "a record lies deeper than 8",
    54: "a count is wrong, or a word that should be zero is not",
    55: "a float is not finite or is above 2^24 in magnitude",
    56: "bytes follow the solid",
    61: "positions or indices are not in threes",
    62: "there are more than 16384 triangles",
    63: "a coordinate is not finite or not from 0 to 128",
    64: "an index is not below the number of vertices",
    71: "the closed grid has no such layer",
    72: "the wall is not a number, not above zero or above 2^124",
    73: "with a border round it the grid has too many points",
    74: "the lent room is too short",
    75: "there are more than 2^33 triangles",
    76: "a triangle is wider than two grid steps",
    77: "the box has no such layer",
    78: "the lent room is too short",
    81: "the grid has no such layer",
    82: "the lent room is too short",
    91: "the box has no such layer",
    92: "a count so far is above 2^60",
}

# What 3 says of a layer that fixtures are cut out of.
CUT_WORDS = {3: "the layer's length is not the product of the first two dimensions"}

# What 63 and 64 say of a mesh that is weighed.
WEIGH_WORDS = {
    63: "a coordinate is not finite or not from 0 to 16777216",
    64: "an index is not that of a vertex given",
}


# What 3, 4 and 5 say of a layer.
LAYER_WORDS = {
    3: "the layer's length is not that of the dimensions",
    4: "the kept memory is too short",
    5: "a distance of the layer is not finite or is above 2^124 in magnitude",
}


class Refused(Exception):
    """The library refused a call; it changed nothing."""

    def __init__(self, number, words=None):
        super().__init__(f"refused {number}: {words or WORDS.get(number, 'unknown')}")
        self.number = number

    def __repr__(self):
        return f"Refused({self.number})"


class Mesh:
    """The lists of a mesh. Those that a mesh file does not keep are None where it was read from one."""

    def __init__(self, positions, normals, indices, cells=None, strides=None, crossings=None, stride_to_index=None):
        self.positions, self.normals, self.indices = positions, normals, indices
        self.cells, self.strides, self.crossings, self.stride_to_index = cells, strides, crossings, stride_to_index

    def __repr__(self):
        try:
            return f"<bed.Mesh: {len(self.positions)} vertices, {len(self.indices) // 3} triangles>"
        except TypeError:
            return "<bed.Mesh>"


class Block:
    """A block of a plan, or its whole: the corners, and the max plane for each axis."""

    def __init__(self, min=(0, 0, 0), max=(0, 0, 0), max_plane=(False, False, False)):
        self.min, self.max, self.max_plane = _three("min", min), _three("max", max), _flags(max_plane)

    def __eq__(self, other):
        return isinstance(other, Block) and repr(self) == repr(other)

    __hash__ = None

    def __repr__(self):
        return f"bed.Block(min={self.min}, max={self.max}, max_plane={self.max_plane})"


class Witness:
    """An edge at which blocks are no plan: it goes one step up along the axis, 0, 1 or 2, from the point `at`; `first` and `second` are the places in the list of the
    first two blocks that own it, or None."""

    def __init__(self, axis, at, first, second):
        self.axis, self.at, self.first, self.second = axis, at, first, second

    def __eq__(self, other):
        return isinstance(other, Witness) and repr(self) == repr(other)

    __hash__ = None

    def __repr__(self):
        return f"bed.Witness(axis={self.axis}, at={self.at}, first={self.first}, second={self.second})"


# ---- numbers and flags, looked at before a call

_LARGEST = 2 ** 32 - 1


def _whole(name, number, largest=None):
    """a whole number from 0 up, and up to the largest where one is named"""
    try:
        number = operator.index(number)
    except TypeError:
        raise ValueError(f"{name}: {number!r} is no whole number") from None
    if number < 0 or largest is not None and number > largest:
        raise ValueError(f"{name}: {number} is not from 0 to {largest if largest is not None else _LARGEST}")
    return number


def _row(name, values, count):
    """exactly so many values, as a tuple"""
    try:
        row = tuple(itertools.islice(values, count + 1))
    except TypeError:
        raise ValueError(f"{name}: {count} values are wanted, not {values!r}") from None
    if len(row) != count:
        raise ValueError(f"{name}: exactly {count} values are wanted")
    return row


def _three(name, numbers):
    return tuple(_whole(name, number) for number in _row(name, numbers, 3))


def _flags(max_plane):
    return tuple(map(_flag, _row("max_plane", max_plane, 3)))


def _flag(flag):
    if isinstance(flag, bool) or numpy is not None and isinstance(flag, numpy.bool_):
        return bool(flag)
    return bool(_whole("max_plane", flag, 1))


def _passed(*lists):
    """numbers as the library takes them. One above 2^32 - 1 is passed as 2^32 - 1, which gets the same answer: as a dimension 1, as
    a box's corner 2, since no dimension is above it, as a plan's coordinate 42"""
    return [min(number, _LARGEST) for numbers in lists for number in numbers]


# ---- the library, its functions, and the environment they are called in

_FLOAT, _NUMBER, _BYTE = ctypes.c_float, ctypes.c_uint32, ctypes.c_uint8
_COUNT, _FLAG = ctypes.c_uint64, ctypes.c_bool
_CODES = {_FLOAT: "f", _NUMBER: "I", _BYTE: "B"}
# the kinds of distances, by a buffer's code, and how the functions over them are called
_DISTANCES = {"f": (_FLOAT, ""), "h": (ctypes.c_int16, "_i16"), "b": (ctypes.c_int8, "_i8")}


class _Block(ctypes.Structure):
    """bed.h's struct bed_block"""

    _fields_ = [("min", _NUMBER * 3), ("max", _NUMBER * 3), ("max_plane", _FLAG * 3)]


class _State(ctypes.Structure):
    """bed.h's struct bed_layers"""

    _fields_ = [("dims", _NUMBER * 3), ("min", _NUMBER * 3), ("max", _NUMBER * 3), ("max_plane", _NUMBER * 3),
                ("taken", _NUMBER), ("next", _NUMBER), ("first", _NUMBER)]


class _BedBox(ctypes.Structure):
    """bed.h's struct bed_box"""

    _fields_ = [("dims", _NUMBER * 3), ("min", _NUMBER * 3), ("max", _NUMBER * 3), ("max_plane", _NUMBER * 3)]


class _Witness(ctypes.Structure):
    """bed.h's struct bed_witness"""

    _fields_ = [("axis", _NUMBER), ("at", _NUMBER * 3), ("first", _NUMBER), ("second", _NUMBER)]


def _bed_box(dims, low=(0, 0, 0), high=(0, 0, 0), max_plane=(False, False, False)):
    return ctypes.byref(_BedBox(*(tuple(_passed(three)) for three in (dims, low, high, max_plane))))


class _BedCounts(ctypes.Structure):
    """bed.h's struct bed_counts"""

    _fields_ = [("whole", _COUNT), ("vertices", _COUNT), ("indices", _COUNT)]


def _lists(*kinds):
    return [part for kind in kinds for part in (ctypes.POINTER(kind), ctypes.c_size_t)]


def _out(*kinds):
    return [ctypes.POINTER(kind) for kind in kinds]


def _signatures():
    """what each function of include/bed.h that is called here takes"""
    box, flags, counts = [_NUMBER] * 6, [_FLAG] * 3, _out(_COUNT, _COUNT)
    block, words, kept = _out(_BedBox), [_NUMBER] * 7, (_FLOAT, _NUMBER, _FLOAT)
    vertices = (_FLOAT, _FLOAT, _NUMBER, _NUMBER, _BYTE)
    all_of = {
        "bed_check_plan": _lists(_Block) + box + flags + _out(_FLAG),
        "bed_plan_witness": _lists(_NUMBER) + _out(_BedBox, _Witness),
        "bed_write_mesh": _lists(_FLOAT, _FLOAT, _NUMBER, _BYTE) + _out(_COUNT),
        "bed_write_record": _lists(_BYTE) + [_COUNT] + words,
        "bed_read_mesh": _lists(_BYTE, _FLOAT, _FLOAT, _NUMBER) + counts,
        "bed_check_mesh": _lists(_BYTE) + counts,
        "bed_cut_fixtures": _lists(_BYTE) + block + _lists(_FLOAT),
        "bed_volume": _lists(_FLOAT, _NUMBER) + _out(ctypes.c_int64),
        "bed_layers_start": _out(_State) + block + _lists(*kept),
        "bed_layers_offer": _out(_State) + _lists(_FLOAT, *kept, *vertices, _NUMBER) + counts,
    }
    all_of["bed_weigh"] = _lists(_FLOAT) + [_NUMBER] + _lists(_NUMBER) + _out(_COUNT, ctypes.c_int64, ctypes.c_int64)
    all_of["bed_wall_for"] = [_FLOAT]
    all_of["bed_version"] = []
    all_of["bed_cut_fixtures_layer"] = _lists(_BYTE) + block + [_NUMBER] + _lists(_FLOAT)
    for kind, ending in _DISTANCES.values():
        if ending:
            all_of["bed_cut_fixtures_layer" + ending] = _lists(_BYTE, kind) + block + [_NUMBER] + _lists(_FLOAT)
        all_of["bed_close" + ending] = _lists(kind) + block + [_FLOAT] + _lists(_FLOAT)
        all_of["bed_close_layer" + ending] = _lists(kind) + block + [_NUMBER, _FLOAT] + _lists(_FLOAT)
        all_of["bed_deepest" + ending] = [_FLOAT] + _lists(kind)
        all_of["bed_levels" + ending] = _lists(kind) + block + _lists(_FLOAT)
        all_of["bed_levels_layer" + ending] = _lists(kind, kind) + block + [_NUMBER] + _lists(_FLOAT)
        all_of["bed_tally" + ending] = _lists(kind) + block + _out(_BedCounts)
        all_of["bed_tally_layer" + ending] = _lists(kind, kind) + block + [_NUMBER] + _out(_BedCounts)
        asked = _lists(kind) + block
        all_of["bed_surface_nets" + ending] = asked + _lists(*vertices, _NUMBER, _NUMBER) + counts
        all_of["bed_answer" + ending] = asked + [_COUNT] * 7 + counts
        all_of["bed_is_enclosed" + ending] = asked + _out(_FLAG)
        all_of["bed_is_enclosed_layer" + ending] = _lists(kind) + block + [_NUMBER] + _out(_FLAG)
    return all_of


def _loaded():
    beside = os.path.join(os.path.dirname(os.path.abspath(__file__)), "libbed.so")
    named = os.environ.get("BED_SHARED") or (beside if os.path.exists(beside) else None)
    library = ctypes.CDLL(named or ctypes.util.find_library("bed") or "libbed.so.0.2")
    for name, arguments in _signatures().items():
        function = getattr(library, name)
        told = _FLOAT if name.startswith(("bed_deepest", "bed_wall_for")) else ctypes.c_uint32
        function.argtypes, function.restype = arguments, told
    # another version may take other arguments
    if _version(library) != VERSION:
        raise ImportError(f"the library is version {_version(library)}, and this module is for {VERSION}")
    return library


def _version(library):
    number = library.bed_version()
    return f"{number >> 16}.{number >> 8 & 255}.{number & 255}"


def _environment():
    mathematics = ctypes.CDLL(ctypes.util.find_library("m") or "libm.so.6")
    for function in (mathematics.fegetenv, mathematics.fesetenv):
        function.argtypes, function.restype = [ctypes.c_void_p], ctypes.c_int
    return mathematics


_library, _mathematics = _loaded(), _environment()
_DEFAULT_ENVIRONMENT = ctypes.c_void_p(-1)  # FE_DFL_ENV of the C libraries of Linux


class _Environment:
    def __enter__(self):
        self.kept = ctypes.create_string_buffer(256)
        _mathematics.fegetenv(self.kept)
        _mathematics.fesetenv(_DEFAULT_ENVIRONMENT)

    def __exit__(self, *_):
        _mathematics.fesetenv(self.kept)


def _call(name, *arguments):
    function = getattr(_library, name)
    with _Environment():
        return function(*arguments)


def _done(answer, words=None):
    if answer:
        raise Refused(answer, (words or {}).get(answer))


# ---- lists: each is passed as a pointer and its length

def _room(kind, count):
    """room for so many numbers"""
    return (kind * count).from_buffer(bytearray(count * ctypes.sizeof(kind))) if count else (kind * 0)()


def _lent(*rooms):
    return [part for room in rooms for part in (room, len(room))]


def _given(room, columns=1):
    """a list for the caller, in rows of so many numbers"""
    kind, count = room._type_, len(room)
    shape = (count // columns, columns) if columns > 1 else (count,)
    if numpy is not None:
        return numpy.frombuffer(room, dtype=numpy.dtype(kind)).reshape(shape) if count else numpy.empty(shape, numpy.dtype(kind))
    view = memoryview(room).cast("B").cast(_CODES[kind]) if count else memoryview(b"").cast(_CODES[kind])
    return view.cast("B").cast(_CODES[kind], shape) if columns > 1 and count else view


def _view(buffer):
    try:
        view = memoryview(buffer)
    except (TypeError, ValueError, BufferError) as error:
        raise TypeError(f"a buffer is wanted: {error}") from None
    if not view.c_contiguous:
        raise TypeError("the buffer is not in C order")
    little = "<" if sys.byteorder == "little" else ">"
    return view, view.format.lstrip("@=" + little)


def _read(kind, buffer):
    """a buffer for reading, as it stands where it can be"""
    view, code = _view(buffer)
    same = {_FLOAT: "f", _NUMBER: "IL", _BYTE: "Bbc"}[kind]
    if code and code in same and view.itemsize == ctypes.sizeof(kind):
        return _taken(kind, view)
    raise TypeError(f"a buffer of {code!r} is given where {_CODES[kind]!r} is wanted")


def _written(kind, buffer, what):
    """a buffer that is changed in its place"""
    view = _view(buffer)[0]
    if view.readonly:
        raise TypeError(f"{what} in their place: a buffer for writing is wanted")
    taken = _read(kind, buffer)
    if len(taken) and not _aligned(kind, view):
        raise TypeError(f"{what} in their place: an aligned buffer is wanted")
    return taken


def _aligned(kind, view):
    first = (_BYTE * view.nbytes).from_buffer(view)
    return ctypes.addressof(first) % ctypes.alignment(kind) == 0


def _taken(kind, view):
    """what the library may read: a copy where the buffer is only for reading, which ctypes does not lend, or not aligned"""
    count = view.nbytes // ctypes.sizeof(kind)
    if count == 0:
        return (kind * 0)()
    source = kind * count
    return source.from_buffer_copy(view) if view.readonly or not _aligned(kind, view) else source.from_buffer(view)


def _grid(distances, dims):
    """the distances, the dimensions and what the names of the functions over such distances end with"""
    view, code = _view(distances)
    if code not in _DISTANCES or view.itemsize != ctypes.sizeof(_DISTANCES[code][0]):
        wanted = "; .astype('float32') makes one" if code == "d" else ""
        raise TypeError(f"a buffer of {code!r} is given where float32, int16 or int8 is wanted{wanted}")
    kind, ending = _DISTANCES[code]
    if dims is None:
        if view.ndim != 3:
            raise TypeError("the distances have not three dimensions: give dims=(x, y, z)")
        dims = view.shape[::-1]
    return _taken(kind, view), _three("dims", dims), ending


def _box(dims, low, high):
    """the corners, the highest point where no max is given"""
    return _three("min", low), _three("max", high) if high is not None else tuple(max(size, 1) - 1 for size in dims)


def _asked(distances, dims, low, high, max_plane):
    """the grid, what the names of its functions end with, and the grid with the box and the max plane as the library takes them"""
    grid, dims, ending = _grid(distances, dims)
    return grid, ending, [*_lent(grid), _bed_box(dims, *_box(dims, low, high), _flags(max_plane))]


def _counted(grid, ending, asked):
    """V and I, asked with nothing lent but a map as long as the grid"""
    vertices, indices = _COUNT(), _COUNT()
    lengths = (0, 0, 0, 0, 0, len(grid), 0)
    answer = _call("bed_answer" + ending, *asked, *lengths, ctypes.byref(vertices), ctypes.byref(indices))
    _done(answer if answer not in (6, 7) else 0)
    return vertices.value, indices.value


def _vertex_rooms(vertices):
    """positions, normals, cells, strides and crossings of so many vertices"""
    three = 3 * vertices
    return [_room(_FLOAT, three), _room(_FLOAT, three), _room(_NUMBER, three), _room(_NUMBER, vertices), _room(_BYTE, vertices)]


# ---- the functions of include/bed.h

def version():
    """The library's version, which is VERSION: another one is not loaded."""
    return _version(_library)


def counts(distances, dims=None, min=(0, 0, 0), max=None, max_plane=(False, False, False)):
    """How many vertices and indices surface_nets makes of the same words."""
    return _counted(*_asked(distances, dims, min, max, max_plane))


def surface_nets(distances, dims=None, min=(0, 0, 0), max=None, max_plane=(False, False, False)):
    """Meshes a box of a grid, the whole one where no box is given."""
    grid, ending, asked = _asked(distances, dims, min, max, max_plane)
    vertices, indices = _counted(grid, ending, asked)
    stride_to_index = _room(_NUMBER, len(grid))
    ctypes.memset(stride_to_index, 255, ctypes.sizeof(stride_to_index))
    rooms = [*_vertex_rooms(vertices), stride_to_index, _room(_NUMBER, indices)]
    _done(_call("bed_surface_nets" + ending, *asked, *_lent(*rooms), ctypes.byref(_COUNT()), ctypes.byref(_COUNT())))
    positions, normals, cells, strides, crossings, stride_to_index, indices = rooms
    return Mesh(_given(positions, 3), _given(normals, 3), _given(indices), _given(cells, 3), _given(strides),
                _given(crossings), _given(stride_to_index))


def is_enclosed(distances, dims=None, min=(0, 0, 0), max=None):
    """Whether every distance below zero lies from min + 1 to max - 2; then the mesh has no hole."""
    grid, dims, ending = _grid(distances, dims)
    enclosed = _FLAG()
    _done(_call("bed_is_enclosed" + ending, *_lent(grid), _bed_box(dims, *_box(dims, min, max)), ctypes.byref(enclosed)))
    return enclosed.value


def is_enclosed_layer(layer, dims, z, min=(0, 0, 0), max=None):
    """is_enclosed of one layer of the grid, the layer z: a grid is enclosed exactly if each layer of the box is."""
    dims, z = _three("dims", dims), _whole("z", z)
    low, high = _box(dims, min, max)
    numbers, _, ending = _grid(layer, dims)
    enclosed = _FLAG()
    _done(_call("bed_is_enclosed_layer" + ending, *_lent(numbers), _bed_box(dims, low, high), builtins.min(z, _LARGEST), ctypes.byref(enclosed)))
    return enclosed.value


def check_plan(blocks, whole):
    """Whether the blocks make each face of the whole exactly once, and no other."""
    blocks = _blocks(blocks, whole)
    lent, holds = (_Block * len(blocks))(*map(_of_a_block, blocks)), _FLAG()
    corners = _of_a_block(whole)
    _done(_call("bed_check_plan", *_lent(lent), *corners.min, *corners.max, *corners.max_plane, ctypes.byref(holds)))
    return holds.value


def plan_witness(blocks, whole):
    """The first edge at which the blocks are no plan of the whole, as a Witness, or None exactly where check_plan says yes: x edges before y before z edges, and then by
    the lowest z, y and x."""
    words = [word for block in _blocks(blocks, whole) for word in _twelve(block)]
    lent, told = (_NUMBER * len(words))(*words), _Witness()
    answer = _call("bed_plan_witness", *_lent(lent), ctypes.byref(_BedBox.from_buffer_copy((_NUMBER * 12)(*_twelve(whole)))), ctypes.byref(told))
    if answer == 43:
        return None
    _done(answer)
    first, second = (None if number == _LARGEST else number for number in (told.first, told.second))
    return Witness(told.axis, tuple(told.at), first, second)


def _blocks(blocks, whole):
    blocks = list(blocks)
    for block in (*blocks, whole):
        if not isinstance(block, Block):
            raise TypeError(f"{block!r} is no bed.Block")
    return blocks


def _twelve(block):
    lent = _of_a_block(block)
    return (0, 0, 0, *lent.min, *lent.max, *map(int, lent.max_plane))


def _of_a_block(block):
    # what stands there may have been set after the block was made
    low, high, flags = _three("min", block.min), _three("max", block.max), _flags(block.max_plane)
    return _Block(tuple(_passed(low)), tuple(_passed(high)), flags)


def cut_fixtures(file, distances, dims=None):
    """Cuts a file of fixtures out of a grid of float32, in its place."""
    if _view(distances)[1] != "f":
        raise TypeError("the distances are changed in their place: float32 is wanted")
    sizes = _grid(distances, dims)[1]
    grid = _written(_FLOAT, distances, "the distances are changed")
    _done(_call("bed_cut_fixtures", *_lent(_apart(_read(_BYTE, file), grid)), _bed_box(sizes), *_lent(grid)))


def cut_fixtures_layer(file, layer, dims, z):
    """Cuts a file of fixtures out of the layer z of a grid: a layer of float32 in its place, and of int16 or int8 into a new one of float32, which is
    returned, shape y, x."""
    dims, z = _three("dims", dims), builtins.min(_whole("z", z), _LARGEST)
    grid, _, ending = _grid(layer, dims)
    if ending:
        points = dims[0] * dims[1]
        room = _room(_FLOAT, points if points <= 2 ** 30 else 0)
        _done(_call("bed_cut_fixtures_layer" + ending, *_lent(_read(_BYTE, file)), *_lent(grid), _bed_box(dims), z, *_lent(room)), CUT_WORDS)
        return _shaped(room, (dims[1], dims[0]))
    room = _written(_FLOAT, layer, "the distances are changed")
    _done(_call("bed_cut_fixtures_layer", *_lent(_apart(_read(_BYTE, file), room)), _bed_box(dims), z, *_lent(room)), CUT_WORDS)
    return None


def _apart(read, written):
    """what is read, as a copy where it shares bytes with what is written"""
    begin, end = ctypes.addressof(read), ctypes.addressof(read) + ctypes.sizeof(read)
    first, last = ctypes.addressof(written), ctypes.addressof(written) + ctypes.sizeof(written)
    return type(read).from_buffer_copy(read) if len(read) and begin < last and first < end else read


def volume(positions, indices):
    """Six times the signed volume, in cubed steps of 1/256."""
    sixfold = ctypes.c_int64()
    _done(_call("bed_volume", *_lent(_read(_FLOAT, positions), _read(_NUMBER, indices)), ctypes.byref(sixfold)))
    return sixfold.value


def weigh(positions, indices, first=0):
    """Six times the volume between the triangles and the plane z = 0, in cubed steps of 1/256, and twice their area seen from above, in squared steps: of a
    mesh of any size. `first` is the number of the first vertex given, where the triangles are those of one layer."""
    low, high, shadow = _COUNT(), ctypes.c_int64(), ctypes.c_int64()
    lists = _lent(_read(_FLOAT, positions)), _lent(_read(_NUMBER, indices))
    first = _whole("first", first, _LARGEST)
    answer = _call("bed_weigh", *lists[0], first, *lists[1], ctypes.byref(low), ctypes.byref(high), ctypes.byref(shadow))
    _done(answer, WEIGH_WORDS)
    return (high.value << 64) + low.value, shadow.value


def deepest(distances, so_far=0.0, dims=None):
    """The largest magnitude of the distances below zero, or so_far where that is larger."""
    view, code = _view(distances)
    grid, _, ending = _grid(distances, dims if dims is not None or view.ndim == 3 else (view.nbytes, 1, 1))
    return _call("bed_deepest" + ending, _float("so_far", so_far), *_lent(grid))


def wall_for(depth):
    """A wall that is far enough for a bed that lies so deep."""
    return _call("bed_wall_for", _float("depth", depth))


def close(distances, wall=None, dims=None):
    """The grid with a border round it, one layer at min and two at max on each axis, so that its mesh has no hole: float32, shape z, y, x. The wall is that
    of wall_for where none is given. Positions of its mesh are one more on each axis than the grid's own."""
    grid, dims, ending = _grid(distances, dims)
    if wall is None:
        wall = wall_for(_call("bed_deepest" + ending, 0.0, *_lent(grid)))
    sizes = [size + 3 for size in dims]
    points = sizes[0] * sizes[1] * sizes[2]
    # where the closed grid is too large the library refuses before it looks at the room
    room = _room(_FLOAT, points if points <= 2 ** 30 else 0)
    _done(_call("bed_close" + ending, *_lent(grid), _bed_box(dims), _float("wall", wall), *_lent(room)))
    return _shaped(room, sizes[::-1])


def close_layer(layer, dims, z, wall):
    """The layer z of the closed grid, from the layer z - 1 of the grid, or from an empty buffer where it is wall alone."""
    dims, z = _three("dims", dims), _whole("z", z)
    grid, _, ending = _grid(layer, dims)
    points = (dims[0] + 3) * (dims[1] + 3)
    room = _room(_FLOAT, points if points <= 2 ** 30 else 0)
    _done(_call("bed_close_layer" + ending, *_lent(grid), _bed_box(dims), builtins.min(z, _LARGEST), _float("wall", wall), *_lent(room)))
    return _shaped(room, (dims[1] + 3, dims[0] + 3))


def levels(distances, dims=None, min=(0, 0, 0), max=None):
    """The level of each column of a box in grid steps, float32, shape y, x: -1.0 where no point of the column is below zero."""
    grid, dims, ending = _grid(distances, dims)
    low, high = _box(dims, min, max)
    shape = [builtins.max(top - bottom, 0) + 1 for bottom, top in zip(low, high)][1::-1]
    room = _room(_FLOAT, shape[0] * shape[1] if shape[0] * shape[1] <= 2 ** 30 else 0)
    _done(_call("bed_levels" + ending, *_lent(grid), _bed_box(dims, low, high), *_lent(room)))
    return _shaped(room, shape)


def levels_layer(below, layer, dims, z, levels, min=(0, 0, 0), max=None):
    """The levels after one more layer, in their place: `below` is the layer before it, an empty buffer at min z."""
    dims, z = _three("dims", dims), _whole("z", z)
    low, high = _box(dims, min, max)
    (lower, _, ending), (upper, _, other) = _grid(below, dims), _grid(layer, dims)
    if ending != other:
        raise TypeError("the two layers are of two kinds of numbers")
    room = _written(_FLOAT, levels, "the levels are changed")
    lists = [*_lent(_apart(lower, room)), *_lent(_apart(upper, room))]
    _done(_call("bed_levels_layer" + ending, *lists, _bed_box(dims, low, high), builtins.min(z, _LARGEST), *_lent(room)))


def tally(distances, dims=None, min=(0, 0, 0), max=None, max_plane=(False, False, False)):
    """The cells of a box whose eight corners are below zero, V and I, counted from the distances alone. Of a closed bed these bound the volume of its mesh, in
    cubed grid steps: from whole - indices / 36 to whole + vertices + indices / 36."""
    grid, dims, ending = _grid(distances, dims)
    counts = _BedCounts()
    _done(_call("bed_tally" + ending, *_lent(grid), _bed_box(dims, *_box(dims, min, max), _flags(max_plane)), ctypes.byref(counts)))
    return counts.whole, counts.vertices, counts.indices


def tally_layer(below, layer, dims, z, so_far=(0, 0, 0), min=(0, 0, 0), max=None, max_plane=(False, False, False)):
    """The three counts of tally after one more layer, from those so far: `below` is the layer before it, an empty buffer at min z."""
    dims, z = _three("dims", dims), _whole("z", z)
    (lower, _, ending), (upper, _, other) = _grid(below, dims), _grid(layer, dims)
    if ending != other:
        raise TypeError("the two layers are of two kinds of numbers")
    counts = _BedCounts(*(_whole("so_far", count, 2 ** 64 - 1) for count in _row("so_far", so_far, 3)))
    box = _bed_box(dims, *_box(dims, min, max), _flags(max_plane))
    _done(_call("bed_tally_layer" + ending, *_lent(lower), *_lent(upper), box, builtins.min(z, _LARGEST), ctypes.byref(counts)))
    return counts.whole, counts.vertices, counts.indices


def _float(name, number):
    try:
        return float(number)
    except (TypeError, ValueError, OverflowError):
        raise ValueError(f"{name}: {number!r} is no number") from None


def _shaped(room, shape):
    """a list for the caller, in this shape"""
    flat = _given(room)
    if numpy is not None:
        return flat.reshape(shape)
    return flat.cast("B").cast("f", tuple(shape)) if len(room) else flat


def write_mesh(mesh):
    """The bytes of the mesh file."""
    positions, normals, indices = _read(_FLOAT, mesh.positions), _read(_FLOAT, mesh.normals), _read(_NUMBER, mesh.indices)
    file, count = _room(_BYTE, 32 * (len(positions) // 3 + len(indices) // 3 + 1)), _COUNT()
    _done(_call("bed_write_mesh", *_lent(positions, normals, indices, file), ctypes.byref(count)))
    return bytes(file)[:count.value]


def write_record(file, at, words):
    """Writes one record of a mesh file, seven words and their sum, into 32 bytes of a buffer, in their place."""
    numbers = [_whole("words", word, _LARGEST) for word in _row("words", words, 7)]
    # a place above 2^64 - 1 is past every buffer, as 2^64 - 1 is
    place = min(_whole("at", at), 2 ** 64 - 1)
    _done(_call("bed_write_record", *_lent(_written(_BYTE, file, "the bytes are written")), place, *numbers))


def check_mesh(file):
    """The vertices and triangles of a mesh file."""
    vertices, triangles = _COUNT(), _COUNT()
    _done(_call("bed_check_mesh", *_lent(_read(_BYTE, file)), ctypes.byref(vertices), ctypes.byref(triangles)))
    return vertices.value, triangles.value


def read_mesh(file):
    """The mesh of a mesh file."""
    # one reading of the buffer: it may be shared, and what is counted must be what is read
    lent = _read(_BYTE, bytes(_view(file)[0].cast("B")) if not isinstance(file, bytes) else file)
    vertices, triangles = check_mesh(lent)
    rooms = [_room(_FLOAT, 3 * vertices), _room(_FLOAT, 3 * vertices), _room(_NUMBER, 3 * triangles)]
    _done(_call("bed_read_mesh", *_lent(lent, *rooms), ctypes.byref(_COUNT()), ctypes.byref(_COUNT())))
    positions, normals, indices = rooms
    return Mesh(_given(positions, 3), _given(normals, 3), _given(indices))


class Layers:
    """A bed taken layer by layer, for who cannot hold the grid: dimensions, box and max plane first, then each layer of the box
    by offer, from min z to max z. What all layers bring out, joined, is the mesh of surface_nets, its map apart.

        bed_of_layers = bed.Layers((x, y, z))
        for layer in layers:                       # float32, x * y distances
            part = bed_of_layers.offer(layer)      # a Mesh; vertex numbers run on from part to part

    The memory between the layers, seven numbers for each of a layer's points, is held here."""

    def __init__(self, dims, min=(0, 0, 0), max=None, max_plane=(False, False, False)):
        dims = _three("dims", dims)
        self._points, self._state = dims[0] * dims[1], _State()
        self._asked = _bed_box(dims, *_box(dims, min, max), _flags(max_plane))
        self._kept = [_room(kind, 0) for kind in (_FLOAT, _NUMBER, _FLOAT)]
        # dimensions and box are judged before memory is measured, and none is taken for bad ones
        answer = self._start()
        if answer == 4:
            self._kept = [_room(kind, times * self._points) for kind, times in ((_FLOAT, 2), (_NUMBER, 2), (_FLOAT, 3))]
            answer = self._start()
        _done(answer, LAYER_WORDS)

    def _start(self):
        return _call("bed_layers_start", ctypes.byref(self._state), self._asked, *_lent(*self._kept))

    @property
    def taken(self):
        """how many layers were taken"""
        return self._state.taken

    def offer(self, layer):
        """Takes the next layer, and gives the vertices and triangles of the cells below it; the first layer brings out none. A
        refused layer changes nothing and can be offered again."""
        distances = _read(_FLOAT, layer)
        rooms = self._offered(distances, 0, 0)
        if not isinstance(rooms, list):
            rooms = self._offered(distances, *rooms)
        positions, normals, cells, strides, crossings, indices = rooms
        return Mesh(_given(positions, 3), _given(normals, 3), _given(indices), _given(cells, 3), _given(strides), _given(crossings))

    def _offered(self, distances, vertices, indices):
        """what the layer brought out, or the V and I that it wants room for"""
        rooms, counts = [*_vertex_rooms(vertices), _room(_NUMBER, indices)], (_COUNT(), _COUNT())
        answer = _call("bed_layers_offer", ctypes.byref(self._state), *_lent(distances, *self._kept, *rooms), *map(ctypes.byref, counts))
        if answer in (6, 7):
            return counts[0].value, counts[1].value
        _done(answer, LAYER_WORDS)
        return rooms

    def __repr__(self):
        return f"<bed.Layers: {self.taken} layers taken, {self._state.next} vertices so far>"
