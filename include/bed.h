/* bed.h: the bed mesher for C and C++.
 *
 * The library makes a triangle mesh of the surface where a grid of signed distances, floats or whole
 * numbers of 16 or 8 bits, changes sign (naive surface nets), writes and reads meshes as files, and gives a
 * mesh's volume. It allocates nothing, keeps no state between calls and calls nothing of yours: all it reads
 * and writes is lent by the caller for the length of the call. It may be called from several threads at once
 * on memory of their own.
 *
 * Link libbed.a. Numbers are IEEE 754 binary32; every operation rounds once, so that the same call gives
 * the same bits on every machine.
 *
 * All that is said here is said of the floating-point environment in which every program starts: round to
 * nearest, subnormal numbers kept, no traps. The library neither tests nor sets it. See bed_environment.
 */
#ifndef BED_H
#define BED_H

#include <stddef.h>
#include <stdint.h>
#ifndef __cplusplus
#include <stdbool.h>
#endif
#if defined(__x86_64__) || defined(_M_X64)
#include <xmmintrin.h>
#else
#include <fenv.h>
#endif

#ifdef __cplusplus
extern "C" {
#endif

/* The version of this header, as text, as numbers, and as one number: major * 65536 + minor * 256 + patch, 0x000200 for 0.2.0. */
#define BED_VERSION "0.2.0"
#define BED_VERSION_STRING BED_VERSION
#define BED_VERSION_MAJOR 0
#define BED_VERSION_MINOR 2
#define BED_VERSION_PATCH 0
#define BED_VERSION_NUMBER (UINT32_C(65536) * BED_VERSION_MAJOR + UINT32_C(256) * BED_VERSION_MINOR + BED_VERSION_PATCH)

/* The version of the library, as one number: BED_VERSION_NUMBER where it is the one that this header came with. Another minor
 * version may take other arguments, and calling it by this header is then undefined: compare before the first call where the
 * library is found at run time. Libraries before 0.2.0 have no such function. */
uint32_t (bed_version)(void);

/* Dimensions, a box and its max plane as one block of twelve 32-bit words, in this order, each for x, y and z. Every function
 * that takes dimensions takes them so, and says where a part of the block does not matter.
 *
 *   dims             the grid's dimensions, in points.
 *   min, max         the box's corner points, both included. Its cells run from min to max - 1; a cell is named by its lowest
 *                    corner.
 *   max_plane        for each axis, whether faces are also made of grid edges along it that end on the box's max side, as blocks
 *                    at a tank wall need it: 0 is no, any other number is yes. See bed_surface_nets for blocks that share a layer
 *                    of cells.
 */
struct bed_box {
    uint32_t dims[3];
    uint32_t min[3];
    uint32_t max[3];
    uint32_t max_plane[3];
};

/* What holds of every pointer that is passed here, unless a function says more:
 *
 *   - Each is aligned for its type.
 *   - A list is a pointer and its length in elements; the pointer may be null only where the length is 0.
 *   - box is never null, and all of its twelve words are set, to anything where they do not matter. It is only read.
 *   - Nothing that may be written overlaps anything else that is passed. What is only read may overlap what is only read.
 *   - What a single number or flag is written to, vertex_count, index_count, byte_count, triangle_count, volume, enclosed and
 *     holds, is never null and is written on every answer. What stood there before never matters, but a bool holds false or true
 *     before the call, as every bool that was given a value does: set it to false first.
 */

/* A guard for callers who do not know their thread's floating-point environment. Start-up code that
 * -ffast-math links in, audio and graphics code set flush-to-zero, denormals-are-zero or another rounding
 * direction, and the library would then compute in it: vertices that are not numbers on BED_DONE, a
 * surface that is missed, a bed called enclosed that is not. Every function below is to be called in the
 * default environment, and between these two it is:
 *
 *     bed_environment kept = bed_enter_environment();
 *     answer = bed_surface_nets(..);
 *     bed_leave_environment(kept);
 *
 * bed_enter_environment sets the thread's default environment and gives back what stood there;
 * bed_leave_environment sets that again, its exception flags included. They take tens of nanoseconds.
 * Between them keep to calls of this library: a compiler may move your own arithmetic into that place or out
 * of it. On x86-64 the environment is MXCSR, since the library's code is SSE alone; elsewhere it is the C
 * library's, and -lm is to be linked. */
#if defined(__x86_64__) || defined(_M_X64)
typedef unsigned int bed_environment;

static inline bed_environment bed_enter_environment(void)
{
    bed_environment kept = _mm_getcsr();
    _mm_setcsr(0x1F80);
    return kept;
}

static inline void bed_leave_environment(bed_environment kept)
{
    _mm_setcsr(kept);
}
#else
typedef fenv_t bed_environment;

static inline bed_environment bed_enter_environment(void)
{
    bed_environment kept;
    fegetenv(&kept);
    fesetenv(FE_DFL_ENV);
    return kept;
}

static inline void bed_leave_environment(bed_environment kept)
{
    fesetenv(&kept);
}
#endif

/* What a call answers. The conditions are tried in the order of their numbers and the first that holds
 * answers. On every answer but BED_DONE nothing at all is changed but the two counts. */
enum bed_call_answer {
    /* The mesh was written. A box that is flat on an axis is accepted too and has no vertices. */
    BED_DONE = 0,
    /* A dimension is 0 or above 16,777,217, or the product of the three is above 1,073,741,824. */
    BED_BAD_DIMENSIONS = 1,
    /* min is above max on an axis, or max is not below its dimension. */
    BED_BAD_BOX = 2,
    /* The grid's length is not the product of the dimensions. */
    BED_BAD_GRID_LENGTH = 3,
    /* The cell map is shorter than the grid. */
    BED_MAP_SHORT = 4,
    /* A point of the box, both corners included, is not finite or is above 2^124 in magnitude. Of floats
     * alone: a whole number of 16 or 8 bits is neither. */
    BED_BAD_DISTANCE = 5,
    /* positions, normals or cells are shorter than 3 V, or strides or crossings are shorter than V. */
    BED_VERTICES_SHORT = 6,
    /* indices are shorter than I. */
    BED_INDICES_SHORT = 7
};

/* An entry of the cell map for a point of the box without a vertex: a cell that has none, or no cell. */
#define BED_NO_VERTEX UINT32_C(4294967295)

/* Meshes a box of a grid of distances.
 *
 * In:
 *   sdf              the distances, x innermost: point (x, y, z) stands at x + dims[0] * (y + dims[1] * z).
 *                    Below zero is inside; 0.0 and -0.0 are not. Only points of the box are looked at.
 *   box              the grid's dimensions, the box's corners and its max plane on each axis.
 *
 * Lent for writing, each a pointer and its length in elements:
 *   positions        three floats a vertex, in grid coordinates.
 *   normals          three floats a vertex: the gradient of the distances, not of unit length.
 *   cells            the three coordinates of each vertex's cell.
 *   strides          the index of each vertex's cell in the grid.
 *   crossings        how many of the twelve edges of each vertex's cell the surface crosses, a byte each:
 *                    3 to 9, or 12.
 *   stride_to_index  the cell map, as long as the grid at least: entry i is the vertex of the cell at
 *                    grid index i, or BED_NO_VERTEX where a point of the box has none.
 *   indices          triangles, three vertex numbers each, two triangles a face. Counted from 0. A face
 *                    looks from the negative end of its grid edge to the other, out of the bed: seen from
 *                    there its corners run counter-clockwise round the edge, x, y, z being right-handed.
 *                    So a sixth of the sum of the triangles' determinants is the bed's volume, not its
 *                    negative, where the mesh is closed.
 *
 *                    A face seen from outside the bed, its grid edge coming out of the page at the middle
 *                    (*), negative behind it. The order of a triangle's three numbers is that of the arrows;
 *                    the diagonal may run the other way, and a triangle may begin at any of its corners.
 *
 *                        d <------- c        along x: to the right y, up z
 *                        |        / ^        along y: to the right z, up x
 *                        |     /    |        along z: to the right x, up y
 *                        |   *      |
 *                        | /        |        the triangles a b c and a c d
 *                        v -------> b
 *                        a
 *
 *                    With the negative end before the page the axes are the same and the arrows turn round:
 *                    seen from behind, which is then outside, they run counter-clockwise again.
 *
 * Out, on every answer:
 *   vertex_count     V, the number of vertices: written on BED_DONE, needed on BED_VERTICES_SHORT and
 *   index_count      I, the number of indices:   BED_INDICES_SHORT. Both are 0 on answers 1 to 5.
 *
 * What is written on BED_DONE: the first 3 V numbers of positions, normals and cells, the first V of
 * strides and of crossings, the first I of indices, and the map entry of each point of the box: a cell's
 * vertex number, or BED_NO_VERTEX for a cell without a vertex and for a point that is no cell, on the
 * box's max sides. A flat box has only such points. Everything else keeps what it held: the rest of those
 * buffers, and every map entry of a point outside the box. What the buffers held before never matters:
 * inside the box no entry of an earlier call is left. bed_answer tells V and I before anything is lent.
 *
 * Cutting a box into blocks: a cut on an axis at k, min <= k < max there, gives a lower piece from min to
 * k + 1 and an upper piece from k to max on that axis; a piece may be cut again. On the cut axis the lower
 * piece has its max plane off and the upper keeps the whole's; on the other axes both keep the whole's.
 * Then the pieces make the faces of the whole, each exactly once, none lost and none doubled, for any max
 * planes of the whole. Both pieces hold the cells of layer k, so vertices there come twice, with the same
 * position, normal and number of crossings. Were the lower piece's max plane left on, so would the faces of
 * edges along the cut axis from k.
 *
 * Nothing that is lent may overlap anything else, the two counts included. Pointers are aligned for their
 * type; a pointer may be null only where its length is 0. The two counts' pointers are never null.
 */
uint32_t bed_surface_nets(
    const float *sdf, size_t sdf_len,
    const struct bed_box *box,
    float *positions, size_t positions_len,
    float *normals, size_t normals_len,
    uint32_t *cells, size_t cells_len,
    uint32_t *strides, size_t strides_len,
    uint8_t *crossings, size_t crossings_len,
    uint32_t *stride_to_index, size_t stride_to_index_len,
    uint32_t *indices, size_t indices_len,
    uint64_t *vertex_count, uint64_t *index_count);

/* Tells what bed_surface_nets answers with lists of these lengths, with no list lent: so how much to lend. It
 * reads the distances of the box and writes the two counts.
 *
 * In:
 *   sdf, box                as in bed_surface_nets.
 *   positions_len ..        the lengths of its seven lists, in elements and in its order. They are only
 *   indices_len             compared.
 *
 * Out, on every answer:
 *   vertex_count     V and I, as in bed_surface_nets: both 0 on answers 1 to 5.
 *   index_count
 *
 * The usual way: ask with sdf_len for the map and 0 for all other lengths. If BED_DONE, BED_VERTICES_SHORT or
 * BED_INDICES_SHORT answers, then bed_surface_nets answers BED_DONE with the same V and I on lists of 3 V, 3 V,
 * 3 V, V and V numbers, a map of sdf_len and I indices, or longer ones. Any other answer is its answer too,
 * however much is lent beside such a map.
 *
 * The counts may not overlap the grid or each other; their pointers are aligned and never null. sdf may be
 * null only where its length is 0. Its answers are those of enum bed_call_answer.
 */
uint32_t bed_answer(
    const float *sdf, size_t sdf_len,
    const struct bed_box *box,
    uint64_t positions_len, uint64_t normals_len, uint64_t cells_len,
    uint64_t strides_len, uint64_t crossings_len,
    uint64_t stride_to_index_len, uint64_t indices_len,
    uint64_t *vertex_count, uint64_t *index_count);

/* Meshes a box of a grid of signed 16-bit distances, as old heads deliver them.
 *
 * Each number means the float of the same value: below zero is inside, 0 is not. The answer, the counts and
 * every buffer afterwards are those of bed_surface_nets on the grid of those floats, bit for bit, and what is
 * said there of dimensions, box, max planes and lent memory holds here. BED_BAD_DISTANCE is never answered:
 * each such number is finite and far below 2^124. The grid is read as it stands and no converted copy of it
 * is made. sdf_len counts numbers, not bytes.
 */
uint32_t bed_surface_nets_i16(
    const int16_t *sdf, size_t sdf_len,
    const struct bed_box *box,
    float *positions, size_t positions_len,
    float *normals, size_t normals_len,
    uint32_t *cells, size_t cells_len,
    uint32_t *strides, size_t strides_len,
    uint8_t *crossings, size_t crossings_len,
    uint32_t *stride_to_index, size_t stride_to_index_len,
    uint32_t *indices, size_t indices_len,
    uint64_t *vertex_count, uint64_t *index_count);

/* The same of signed 8-bit distances, as the portable head delivers them. */
uint32_t bed_surface_nets_i8(
    const int8_t *sdf, size_t sdf_len,
    const struct bed_box *box,
    float *positions, size_t positions_len,
    float *normals, size_t normals_len,
    uint32_t *cells, size_t cells_len,
    uint32_t *strides, size_t strides_len,
    uint8_t *crossings, size_t crossings_len,
    uint32_t *stride_to_index, size_t stride_to_index_len,
    uint32_t *indices, size_t indices_len,
    uint64_t *vertex_count, uint64_t *index_count);

/* bed_answer for signed 16-bit and for signed 8-bit distances. */
uint32_t bed_answer_i16(
    const int16_t *sdf, size_t sdf_len,
    const struct bed_box *box,
    uint64_t positions_len, uint64_t normals_len, uint64_t cells_len,
    uint64_t strides_len, uint64_t crossings_len,
    uint64_t stride_to_index_len, uint64_t indices_len,
    uint64_t *vertex_count, uint64_t *index_count);

uint32_t bed_answer_i8(
    const int8_t *sdf, size_t sdf_len,
    const struct bed_box *box,
    uint64_t positions_len, uint64_t normals_len, uint64_t cells_len,
    uint64_t strides_len, uint64_t crossings_len,
    uint64_t stride_to_index_len, uint64_t indices_len,
    uint64_t *vertex_count, uint64_t *index_count);

/* Tests whether the mesh of a box has no hole: whether every point of the box with a distance below zero
 * lies from min + 1 to max - 2 on each axis. It reads the distances of the box and writes one yes or no.
 *
 * Answers BED_DONE, BED_BAD_DIMENSIONS, BED_BAD_BOX or BED_BAD_GRID_LENGTH, tried in the order of their
 * numbers; sdf and box are as in bed_surface_nets, but that box->max_plane does not matter. What bed_surface_nets refuses for
 * other reasons is tested all the same: a distance that is not a number is not below zero.
 *
 * Out, on every answer:
 *   enclosed         the test's outcome on BED_DONE, false on every other answer.
 *
 * A yes means, proved: if bed_surface_nets answers BED_DONE on the same grid and box, with any max
 * planes, then in the first I indices, read as triangles, each directed side from one vertex to another
 * occurs exactly as often as its reverse. A side may occur twice, and then its reverse occurs twice. A box
 * without a point below zero is enclosed, and its mesh has no triangle.
 *
 * It does not say that triangles have an area, that the mesh does not touch or cross itself, or that it is
 * in one piece. A no does not say that there is a hole.
 *
 * A bed that touches floor or walls has points below zero on the box's sides, so it is never enclosed, and
 * its mesh is an open sheet. To close it, mesh a copy of the grid with a border of points above zero: one
 * layer at min and two at max, on each axis; bed_close makes it. The wall then lies between the outermost
 * point and the border, the nearer to the point the larger the border's value, and on the point itself
 * with the value of bed_wall_for.
 *
 * enclosed is never null, points to a bool that holds false or true, whichever, and may not overlap the grid; sdf may
 * be null only where its length is 0.
 */
uint32_t bed_is_enclosed(
    const float *sdf, size_t sdf_len,
    const struct bed_box *box,
    bool *enclosed);

/* bed_is_enclosed of signed 16-bit and of signed 8-bit distances: the answer and the yes or no are those of
 * bed_is_enclosed on the grid of the floats of the same values, and a yes speaks of the mesh that
 * bed_surface_nets_i16 or bed_surface_nets_i8 makes. */
uint32_t bed_is_enclosed_i16(
    const int16_t *sdf, size_t sdf_len,
    const struct bed_box *box,
    bool *enclosed);

uint32_t bed_is_enclosed_i8(
    const int8_t *sdf, size_t sdf_len,
    const struct bed_box *box,
    bool *enclosed);

/* What the test for holes of one layer answers. The conditions are tried in this order, and the first that holds
 * answers: 1, 2, 77, 3. */
enum bed_enclosed_layer_answer {
    /* The test was made. */
    BED_ENCLOSED_LAYER_DONE = 0,
    /* A dimension is 0 or above 16,777,217, or the product of the three is above 1,073,741,824. */
    BED_ENCLOSED_LAYER_DIMENSIONS = 1,
    /* Min is above max on an axis, or max is not below its dimension. */
    BED_ENCLOSED_LAYER_BOX = 2,
    /* z is below min[2] or above max[2]. */
    BED_ENCLOSED_LAYER_HEIGHT = 77,
    /* The layer's length is not dims[0] * dims[1]. */
    BED_ENCLOSED_LAYER_LENGTH = 3
};

/* bed_is_enclosed layer by layer, for who cannot hold the grid: whether every point of the box in the layer z with a
 * distance below zero lies from min + 1 to max - 2 on each axis.
 *
 * In:
 *   layer            the layer z of the grid, exactly dims[0] * dims[1] distances, x innermost. Only those of the box
 *                    are read.
 *   box              dimensions of the grid, min and max. max_plane is not read.
 *   z                from min[2] to max[2].
 *
 * Out, on every answer:
 *   enclosed         the test's outcome on BED_ENCLOSED_LAYER_DONE, false on every other answer.
 *
 * Proved: of a grid that bed_is_enclosed does not refuse it says yes exactly if this function says yes of every layer from
 * min[2] to max[2]. Then what bed_layers_offer brings out of all of them has no hole either.
 *
 * enclosed and box are never null, and enclosed may not overlap the others; it points to a bool that holds false or
 * true, whichever. layer may be null only where its length is 0.
 */
uint32_t bed_is_enclosed_layer(
    const float *layer, size_t layer_len,
    const struct bed_box *box, uint32_t z,
    bool *enclosed);

uint32_t bed_is_enclosed_layer_i16(
    const int16_t *layer, size_t layer_len,
    const struct bed_box *box, uint32_t z,
    bool *enclosed);

uint32_t bed_is_enclosed_layer_i8(
    const int8_t *layer, size_t layer_len,
    const struct bed_box *box, uint32_t z,
    bool *enclosed);

/* What closing a grid, or a layer, answers. The conditions are tried in this order, and the first that holds
 * answers: 1, 71, 3, 72, 73, 74. BED_CLOSE_HEIGHT is of a layer alone. */
enum bed_close_answer {
    /* The closed grid, or layer, was written. */
    BED_CLOSE_DONE = 0,
    /* A dimension is 0 or above 16,777,217, or their product is above 1,073,741,824. */
    BED_CLOSE_DIMENSIONS = 1,
    /* z is not below dims[2] + 3. */
    BED_CLOSE_HEIGHT = 71,
    /* The grid is not as long as the product of the dimensions; or the layer not as long as it should be. */
    BED_CLOSE_LENGTH = 3,
    /* The wall is not a number, not above zero, or above 2^124. */
    BED_CLOSE_WALL = 72,
    /* The closed dimensions are such that BED_BAD_DIMENSIONS would refuse them. */
    BED_CLOSE_TOO_LARGE = 73,
    /* closed is shorter than the closed grid, or layer. */
    BED_CLOSE_ROOM = 74
};

/* Closes a grid: a bed that touches floor or walls has an open skin, and a border of far points above zero,
 * one layer at min and two at max on each axis, closes it.
 *
 * In:
 *   sdf              the distances, x innermost, exactly dims[0] * dims[1] * dims[2] of them.
 *   box              the grid's dimensions in box->dims. Nothing else of box matters.
 *   wall             the value of every point of the border; see bed_wall_for.
 *
 * Lent for writing:
 *   closed           on BED_CLOSE_DONE its first (dims[0] + 3) * (dims[1] + 3) * (dims[2] + 3) numbers are the
 *                    closed grid: at (x + 1, y + 1, z + 1) the distance at (x, y, z), and everywhere else the
 *                    wall. What stands past it is kept. On every other answer nothing changes.
 *
 * Proved: bed_is_enclosed says yes of every closed grid and its whole box, from 0, 0, 0 to its dimensions less
 * 1, so that its mesh has no hole; and bed_surface_nets takes the closed grid where it takes the open one's
 * distances and the map is as long as the closed grid. Positions are those of the closed grid: subtract 1 on
 * each axis for the open one's.
 *
 * The lists may not overlap. Pointers are aligned for their type; box is never null, and another pointer may be
 * null only where its length is 0.
 */
uint32_t bed_close(
    const float *sdf, size_t sdf_len,
    const struct bed_box *box, float wall,
    float *closed, size_t closed_len);

/* bed_close of signed 16-bit and of signed 8-bit distances, each number meaning the float of the same value;
 * the closed grid is of floats. */
uint32_t bed_close_i16(
    const int16_t *sdf, size_t sdf_len,
    const struct bed_box *box, float wall,
    float *closed, size_t closed_len);

uint32_t bed_close_i8(
    const int8_t *sdf, size_t sdf_len,
    const struct bed_box *box, float wall,
    float *closed, size_t closed_len);

/* The layer z of the closed grid, for who has the bed one layer at a time. From z = 0 to dims[2] + 2 the layers
 * one behind the other are what bed_close writes.
 *
 * In:
 *   layer            the layer z - 1 of the open grid, dims[0] * dims[1] distances; and where z is 0,
 *                    dims[2] + 1 or dims[2] + 2, so that the closed layer is wall alone, no number at all.
 *   box, wall        as in bed_close.
 *
 * Lent for writing:
 *   closed           on BED_CLOSE_DONE its first (dims[0] + 3) * (dims[1] + 3) numbers are the closed layer.
 */
uint32_t bed_close_layer(
    const float *layer, size_t layer_len,
    const struct bed_box *box, uint32_t z, float wall,
    float *closed, size_t closed_len);

uint32_t bed_close_layer_i16(
    const int16_t *layer, size_t layer_len,
    const struct bed_box *box, uint32_t z, float wall,
    float *closed, size_t closed_len);

uint32_t bed_close_layer_i8(
    const int8_t *layer, size_t layer_len,
    const struct bed_box *box, uint32_t z, float wall,
    float *closed, size_t closed_len);

/* How deep distances lie below zero: the largest of so_far and the negated distances, in their order. Begin
 * with 0, which is also the answer where no distance is below zero; give the answer of one layer, or grid, to
 * the next as so_far. A distance that is not a number is passed over. */
float bed_deepest(float so_far, const float *sdf, size_t sdf_len);

float bed_deepest_i16(float so_far, const int16_t *sdf, size_t sdf_len);

float bed_deepest_i8(float so_far, const int8_t *sdf, size_t sdf_len);

/* A wall that is far enough for a bed that lies so deep: the least power of two that is at least 2^25 times
 * deepest, and 2^124 where that is too small; 1.0 where deepest is not above zero.
 *
 * Proved, for distances that are finite and lie at most 2^99 below zero: with this wall the vertices of the
 * border stand, bit for bit, on the outermost points of the open grid. On an axis of n points, in the closed
 * grid's coordinates, the position is 1.0 where the cell's coordinate is 0, and n where it is n; and there is
 * no vertex in a cell beyond. */
float bed_wall_for(float deepest);

/* What the levels of the bed answer. The conditions are tried in this order, and the first that holds answers:
 * 1, 2, 77, 3, 5, 78. BED_LEVELS_HEIGHT is of a layer alone. On every answer but BED_LEVELS_DONE nothing is
 * changed. */
enum bed_levels_answer {
    /* The levels were written. */
    BED_LEVELS_DONE = 0,
    /* A dimension is 0 or above 16,777,217, or the product of the three is above 1,073,741,824. */
    BED_LEVELS_DIMENSIONS = 1,
    /* min is above max on an axis, or max is not below its dimension. */
    BED_LEVELS_BOX = 2,
    /* z is below min[2] or above max[2]. */
    BED_LEVELS_HEIGHT = 77,
    /* The grid's length is not the product of the dimensions; or the layer's is not dims[0] * dims[1]; or the
     * layer below is not as long, nor 0 long where z is min[2]. */
    BED_LEVELS_LENGTH = 3,
    /* A point of the box, both corners included, is not finite or is above 2^124 in magnitude: in the grid, or in
     * the layer or the layer below it. Of floats alone: a whole number of 16 or 8 bits is neither. */
    BED_LEVELS_DISTANCE = 5,
    /* There is room for fewer levels than the box has columns. */
    BED_LEVELS_ROOM = 78
};

/* The level of the bed in each column of a box: how high it stands, in grid steps.
 *
 * In:
 *   sdf              the distances, x innermost, as in bed_surface_nets. Only points of the box are looked at.
 *   box              the grid's dimensions and the corners of the box. max_plane does not matter.
 *
 * Lent for writing:
 *   levels           one float a column, x innermost: the column at x and y stands at
 *                    (x - min[0]) + (max[0] - min[0] + 1) * (y - min[1]). Numbers behind the columns are kept.
 *
 * The level of a column, over its points from min[2] to max[2], is
 *   -1.0             where none of them is below zero;
 *   max[2]           where the point there is below zero;
 *   z + f            else, rounded once, z being the highest point below zero and f = d / (d - e) the fraction at
 *                    which the mesh crosses the edge from it to the next point, d and e their distances.
 * 0.0 and -0.0 are not below zero. Where a bed has a hollow the highest of its levels is told. A level is never
 * below its z and never above z + 1, and so is, in z, each vertex that bed_surface_nets makes in the four cells
 * round that edge, where they lie in the box: mesh and level are never more than one step apart.
 *
 * The lists may not overlap. Pointers are aligned for their type; a list's pointer may be null only where its
 * length is 0; box is never null.
 */
uint32_t bed_levels(
    const float *sdf, size_t sdf_len,
    const struct bed_box *box,
    float *levels, size_t levels_len);

/* bed_levels of signed 16-bit and of signed 8-bit distances: the answer and the levels are those of bed_levels on
 * the grid of the floats of the same values. */
uint32_t bed_levels_i16(
    const int16_t *sdf, size_t sdf_len,
    const struct bed_box *box,
    float *levels, size_t levels_len);

uint32_t bed_levels_i8(
    const int8_t *sdf, size_t sdf_len,
    const struct bed_box *box,
    float *levels, size_t levels_len);

/* The levels layer by layer, for who cannot hold the grid: takes the layer z on the levels of the layers below it.
 *
 * In:
 *   below            the layer z - 1, dims[0] * dims[1] distances; of length 0 where z is min[2].
 *   layer            the layer z, as long.
 *   box              as in bed_levels.
 *   z                from min[2] to max[2].
 *
 * Lent for reading and writing:
 *   levels           as in bed_levels. At min[2] what stands there is not looked at.
 *
 * All layers from min[2] to max[2], one call after the other on the same list, leave there what bed_levels leaves.
 * A call keeps nothing: each column's level becomes z where the layer's point is below zero, and else z - 1 + f
 * where the point below is, and else stays; at min[2] it becomes -1.0 or z. Any lists may come, and below and
 * layer may be the same or overlap; neither may overlap levels.
 */
uint32_t bed_levels_layer(
    const float *below, size_t below_len,
    const float *layer, size_t layer_len,
    const struct bed_box *box, uint32_t z,
    float *levels, size_t levels_len);

uint32_t bed_levels_layer_i16(
    const int16_t *below, size_t below_len,
    const int16_t *layer, size_t layer_len,
    const struct bed_box *box, uint32_t z,
    float *levels, size_t levels_len);

uint32_t bed_levels_layer_i8(
    const int8_t *below, size_t below_len,
    const int8_t *layer, size_t layer_len,
    const struct bed_box *box, uint32_t z,
    float *levels, size_t levels_len);

/* What the counts of the bed's cells answer. The conditions are tried in this order, and the first that holds
 * answers: 1, 2, 91, 3, 5, 92. BED_TALLY_HEIGHT and BED_TALLY_COUNTS are of a layer alone. On every answer but
 * BED_TALLY_DONE nothing is changed. */
enum bed_tally_answer {
    /* The counts were written. */
    BED_TALLY_DONE = 0,
    /* A dimension is 0 or above 16,777,217, or the product of the three is above 1,073,741,824. */
    BED_TALLY_DIMENSIONS = 1,
    /* min is above max on an axis, or max is not below its dimension. */
    BED_TALLY_BOX = 2,
    /* z is below min[2] or above max[2]. */
    BED_TALLY_HEIGHT = 91,
    /* The grid's length is not the product of the dimensions; or the layer's is not dims[0] * dims[1]; or the
     * layer below is not as long, nor 0 long where z is min[2]. */
    BED_TALLY_LENGTH = 3,
    /* A point of the box, both corners included, is not finite or is above 2^124 in magnitude: in the grid, or in
     * the layer or the layer below it. Of floats alone. */
    BED_TALLY_DISTANCE = 5,
    /* A count so far is above 2^60, which no box has. Not tried at min[2], where the counts so far do not matter. */
    BED_TALLY_COUNTS = 92
};

/* Three counts from the distances alone. */
struct bed_counts {
    /* The cells of the box whose eight corners are all below zero: they lie wholly in the sludge. */
    uint64_t whole;
    /* V and I as bed_answer tells them: the cells that the surface passes through, and six for each face. */
    uint64_t vertices;
    uint64_t indices;
};

/* Counts the cells of a box below and on the surface.
 *
 * In:
 *   sdf              the distances, x innermost, as in bed_surface_nets. Only points of the box are looked at.
 *   box              the grid's dimensions, the corners of the box, and the max plane, which V does not depend on
 *                    and I does.
 *
 * Lent for writing:
 *   counts           the three counts.
 *
 * They bound the volume of a closed bed. Proved: where bed_tally and bed_surface_nets answer 0 on the same grid,
 * box and max plane and bed_is_enclosed says yes of them, the volume of the mesh in cubed grid steps, which is the
 * sum of bed_weigh, or that of bed_volume, divided by 6 * 256^3, lies
 *   from   whole - indices / 36   to   whole + vertices + indices / 36.
 *
 * counts may not overlap the others. Pointers are aligned for their type; a list's pointer may be null only where
 * its length is 0; box and counts are never null.
 */
uint32_t bed_tally(
    const float *sdf, size_t sdf_len,
    const struct bed_box *box,
    struct bed_counts *counts);

/* bed_tally of signed 16-bit and of signed 8-bit distances: the answer and the counts are those of bed_tally on
 * the grid of the floats of the same values. */
uint32_t bed_tally_i16(
    const int16_t *sdf, size_t sdf_len,
    const struct bed_box *box,
    struct bed_counts *counts);

uint32_t bed_tally_i8(
    const int8_t *sdf, size_t sdf_len,
    const struct bed_box *box,
    struct bed_counts *counts);

/* The counts layer by layer, for who cannot hold the grid: adds the cells between the layer z - 1 and the layer z.
 *
 * In:
 *   below            the layer z - 1, dims[0] * dims[1] distances; of length 0 where z is min[2].
 *   layer            the layer z, as long.
 *   box              as in bed_tally.
 *   z                from min[2] to max[2].
 *
 * Lent for reading and writing:
 *   counts           what was counted so far. At min[2] what stands there is not looked at, and all become 0.
 *
 * All layers from min[2] to max[2], one call after the other on the same counts, leave there what bed_tally
 * leaves. A call keeps nothing. Any numbers may come, and below and layer may be the same or overlap; neither may
 * overlap counts.
 */
uint32_t bed_tally_layer(
    const float *below, size_t below_len,
    const float *layer, size_t layer_len,
    const struct bed_box *box, uint32_t z,
    struct bed_counts *counts);

uint32_t bed_tally_layer_i16(
    const int16_t *below, size_t below_len,
    const int16_t *layer, size_t layer_len,
    const struct bed_box *box, uint32_t z,
    struct bed_counts *counts);

uint32_t bed_tally_layer_i8(
    const int8_t *below, size_t below_len,
    const int8_t *layer, size_t layer_len,
    const struct bed_box *box, uint32_t z,
    struct bed_counts *counts);

/* A tank's block plan: the blocks that a tank's box is meshed in, each by a call of its own. */

/* What checking a plan answers. BED_PLAN_LIST is tried before BED_PLAN_BOX. */
enum bed_plan_answer {
    /* The plan was checked. */
    BED_PLAN_CHECKED = 0,
    /* The list has more than 200 blocks. */
    BED_PLAN_LIST = 41,
    /* A box, the whole's or a block's, has min above max on an axis or a coordinate above 16,777,216. */
    BED_PLAN_BOX = 42
};

/* A block: the box of a call, min and max corner, and the max plane for each axis. 28 bytes, aligned to 4:
 * six numbers, then three flags of one byte each, 0 or 1, then one byte that is never read. */
struct bed_block {
    uint32_t min_x, min_y, min_z;
    uint32_t max_x, max_y, max_z;
    bool max_plane_x, max_plane_y, max_plane_z;
};

/* Whether a list of blocks is a plan of a box.
 *
 * It is, exactly if every edge that the whole box owns with its flags is owned by exactly one block, and
 * no block owns any other edge. Then the blocks' faces are the whole's faces, each once, however the blocks
 * lie. An edge is owned by a box if its lower end is the lowest corner of a cell of the box, is above min on
 * the two other axes and, unless the box has max plane on the edge's axis, is not at max - 1 along it. So a
 * box of one cell owns nothing and may stand in any plan, anywhere and more than once; and so may a
 * flat box. An empty list is a plan of a box that owns nothing.
 *
 * In:
 *   blocks           the blocks, at most 200.
 *   min_x .. max_plane_z    the whole: its corners and its max plane for each axis.
 *
 * Out, on every answer:
 *   holds            yes or no; no on every answer but BED_PLAN_CHECKED.
 *
 * No edge is visited: the time is bounded by the number of blocks alone. holds is never null, points to a bool that holds
 * false or true, whichever, and may not overlap the blocks; blocks may be null only where its length is 0.
 */
uint32_t bed_check_plan(
    const struct bed_block *blocks, size_t blocks_len,
    uint32_t min_x, uint32_t min_y, uint32_t min_z,
    uint32_t max_x, uint32_t max_y, uint32_t max_z,
    bool max_plane_x, bool max_plane_y, bool max_plane_z,
    bool *holds);

/* What asking why blocks are no plan answers. The conditions are tried in the order of their numbers and the first
 * that holds answers. On every answer but BED_WITNESS_TOLD nothing is changed. */
enum bed_witness_answer {
    /* The blocks are no plan, and the edge that shows it was written. */
    BED_WITNESS_TOLD = 0,
    /* The list's length is no multiple of twelve. */
    BED_WITNESS_WORDS = 40,
    /* As BED_PLAN_LIST and BED_PLAN_BOX. */
    BED_WITNESS_LIST = 41,
    BED_WITNESS_BOX = 42,
    /* The blocks are a plan: there is no such edge. */
    BED_WITNESS_NONE = 43
};

/* An edge at which blocks are no plan: it goes one step up along the axis, 0, 1 or 2 for x, y or z, from the point at.
 * first and second are the numbers, counted from 0, of the first and the second block in the list that own it, and
 * BED_NO_BLOCK where there is none. */
struct bed_witness {
    uint32_t axis;
    uint32_t at[3];
    uint32_t first, second;
};

#define BED_NO_BLOCK UINT32_C(4294967295)

/* Why a list of blocks is no plan of a box: the first edge that the whole owns and no block or more than one does, or
 * that a block owns and the whole does not. The first is that of the lowest axis and then of the lowest z, y and x.
 *
 * In:
 *   blocks           the blocks, at most 200, twelve words each, as struct bed_box has them; the dimensions among them
 *                    are not read. blocks_len counts words: pass (const uint32_t *)list and 12 * count.
 *   whole            the whole box; its dimensions are not read.
 *
 * Lent for writing:
 *   witness          the edge, on BED_WITNESS_TOLD alone.
 *
 * Proved: an edge is told exactly if bed_check_plan says no of the same blocks and whole, and BED_WITNESS_NONE is
 * answered exactly if it says yes. If first is BED_NO_BLOCK, the whole owns the edge and no block does; if only second
 * is, the block first owns it and the whole does not; else both own it. The search goes from corner to corner of the
 * blocks: its time depends on their number and not on the box's size.
 *
 * whole and witness are never null and may not overlap; blocks may be null only where its length is 0.
 */
uint32_t bed_plan_witness(
    const uint32_t *blocks, size_t blocks_len,
    const struct bed_box *whole,
    struct bed_witness *witness);

/* Mesh files: a mesh as bytes that show a power cut. The library opens no file; the bytes are lent, as
 * everything else is.
 *
 * A file is records of 32 bytes without a header, each of eight 32-bit words, the lowest byte first. The
 * eighth word is the sum of the other seven modulo 2^32. First a record for each vertex: 1, its position,
 * its normal (the bits of the floats); then one for each triangle: 2, three indices, three zeros; then the
 * closing record: 3, the number of vertices, the number of triangles, four zeros. Nothing follows it. A
 * file that was written whole is accepted; every shorter beginning of it is refused with BED_FILE_CUT. */

/* What checking, reading or writing a mesh file answers. The reader goes record by record and the first
 * fault answers, in one record the lowest number; BED_FILE_ROOM comes last of all. The writer looks at the
 * lists as a whole and tries BED_FILE_LISTS, BED_FILE_INDEX, BED_FILE_NOT_FINITE and BED_FILE_ROOM, in
 * this order; it refuses for nothing else. On every answer but BED_FILE_DONE nothing at all is changed but
 * the counts, which are then 0. */
enum bed_file_answer {
    /* The mesh was read, the file was written, or it was checked and is good. */
    BED_FILE_DONE = 0,
    /* The file ends before its closing record does: it was cut off, or is empty. */
    BED_FILE_CUT = 21,
    /* A record's eighth word is not the sum of the other seven. */
    BED_FILE_SUM = 22,
    /* A record is of no known kind, or a vertex comes after a triangle. */
    BED_FILE_KIND = 23,
    /* A word of a triangle or of the closing record that should be zero is not. */
    BED_FILE_ZERO = 24,
    /* The closing record's counts are not those of the records before it. */
    BED_FILE_COUNTS = 25,
    /* An index is not below the number of vertices: reading, of those before it, which are all there can
     * be. */
    BED_FILE_INDEX = 26,
    /* A position or normal is infinite or not a number. */
    BED_FILE_NOT_FINITE = 27,
    /* Bytes follow the closing record. */
    BED_FILE_AFTER = 28,
    /* What was lent is too short. */
    BED_FILE_ROOM = 29,
    /* Writing: a list is not in threes, normals are not as long as positions, or there are 2^32 vertices
     * or triangles, or more. */
    BED_FILE_LISTS = 30
};

/* The number of bytes of the file of a mesh, as a uint64_t: 32 for each vertex, each triangle and the closing
 * record. */
#define BED_MESH_FILE_SIZE(vertices, triangles) (UINT64_C(32) * ((uint64_t)(vertices) + (uint64_t)(triangles) + 1))

/* Writes the file of a mesh into lent bytes.
 *
 * In:
 *   positions        three floats a vertex.
 *   normals          three floats a vertex, as many as positions.
 *   indices          three vertex numbers a triangle.
 * After an answer BED_DONE of bed_surface_nets these are the first 3 V, 3 V and I numbers of its lists:
 * pass those lengths and not the lists' own. Such a mesh is refused with BED_FILE_LISTS if it has 2^32
 * triangles or more, and else only with BED_FILE_ROOM.
 *
 * Lent for writing:
 *   file             room for the file: BED_MESH_FILE_SIZE(vertices, triangles) bytes are enough.
 *
 * Out, on every answer:
 *   byte_count       the number of bytes written; 0 on every answer but BED_FILE_DONE.
 *
 * What is written on BED_FILE_DONE: the first byte_count bytes. The rest of the room keeps what it held.
 *
 * Nothing that is lent for writing may overlap anything else, the count included. Pointers are aligned
 * for their type; a pointer may be null only where its length is 0. The count's pointer is never null.
 */
uint32_t bed_write_mesh(
    const float *positions, size_t positions_len,
    const float *normals, size_t normals_len,
    const uint32_t *indices, size_t indices_len,
    uint8_t *file, size_t file_len,
    uint64_t *byte_count);

/* Writes one record of a mesh file into lent bytes, seven words and their sum: for who writes a file piece by
 * piece and never holds all of it.
 *
 * In:
 *   at               where in the lent bytes the record begins.
 *   kind, a .. f     its first seven words: 1 and the bits of a position and a normal; 2, three indices and
 *                    three zeros; 3, the two counts and four zeros. They are written as they are, whatever
 *                    they say: a file that the reader refuses can be written so.
 *
 * Lent for writing:
 *   file             the bytes: 32 of them, with at 0, for a record alone, or more.
 *
 * Answers BED_FILE_DONE, where the 32 bytes from at on are written and all others kept; or BED_FILE_ROOM, where
 * at + 32 is above file_len and nothing is changed. The records of a mesh's vertices, of its triangles and the
 * closing one, one after the other, are its file, byte for byte as bed_write_mesh writes it.
 *
 * The file's pointer may be null only where its length is 0.
 */
uint32_t bed_write_record(
    uint8_t *file, size_t file_len,
    uint64_t at,
    uint32_t kind, uint32_t a, uint32_t b, uint32_t c, uint32_t d, uint32_t e, uint32_t f);

/* Reads the mesh of a file into lent lists. The whole file is checked before anything is written.
 *
 * In:
 *   file             the bytes of the file, all of them and no more.
 *
 * Lent for writing:
 *   positions        room for three floats a vertex.
 *   normals          room for three floats a vertex.
 *   indices          room for three vertex numbers a triangle.
 * A file of n bytes has fewer than n / 32 vertices and triangles together; bed_check_mesh tells how many.
 *
 * Out, on every answer:
 *   vertex_count     the number of vertices read,  both 0 on every answer but BED_FILE_DONE, so also
 *   triangle_count   the number of triangles read: where the room is too short.
 *
 * What is written on BED_FILE_DONE: the first 3 * vertex_count numbers of positions and normals and the
 * first 3 * triangle_count of indices, with the bits that were written to the file. The rest of the lists
 * keeps what it held. Every index is below vertex_count and every float is finite.
 *
 * Nothing that is lent for writing may overlap anything else, the counts included. Pointers are aligned
 * for their type; a pointer may be null only where its length is 0. The counts' pointers are never null.
 */
uint32_t bed_read_mesh(
    const uint8_t *file, size_t file_len,
    float *positions, size_t positions_len,
    float *normals, size_t normals_len,
    uint32_t *indices, size_t indices_len,
    uint64_t *vertex_count, uint64_t *triangle_count);

/* Checks a file and counts its mesh, with no list lent: what to lend to bed_read_mesh. It answers what
 * bed_read_mesh answers on the same bytes where there is room, so never BED_FILE_ROOM; 3 * vertex_count
 * floats for positions and for normals and 3 * triangle_count indices are room enough.
 *
 * In:
 *   file             the bytes of the file, all of them and no more.
 *
 * Out, on every answer:
 *   vertex_count     the number of vertices,  both 0 on every answer but BED_FILE_DONE.
 *   triangle_count   the number of triangles:
 *
 * The counts may not overlap the file or each other; their pointers are aligned and never null. The file's
 * pointer may be null only where its length is 0.
 */
uint32_t bed_check_mesh(
    const uint8_t *file, size_t file_len,
    uint64_t *vertex_count, uint64_t *triangle_count);

/* Fixtures: rakes, weirs and whatever else stands in a tank, cut out of a grid of distances before it is
 * meshed. The library opens no file; the bytes are lent, as everything else is.
 *
 * A fixture file is records of 32 bytes without a header, each of eight 32-bit words, the lowest byte first.
 * The first word is the kind. 1, a box: words two to seven are the bits of six floats, low x, y, z and then
 * high x, y, z, in grid coordinates. 2, a union, 3, an intersection, or 4, a difference: word two is the
 * count of members, which follow one after the other. All other words are zero. A member is a box or a
 * group with its own members; the file is one solid, nested at most 8 deep, a lone box being 1.
 *
 * The value of a box at a point is the largest of low minus point and point minus high over the axes, so
 * that it is below zero inside; a box with low above high is none the less one. The value of a union is
 * the least of its members' values, of an intersection the greatest, of a difference the greater of the
 * first and the negated second. The order of comparing is that of the records, and of two equal values
 * the first stands, which shows where zeros of both signs meet. */

/* What cutting fixtures answers. BED_DONE, BED_BAD_DIMENSIONS and BED_BAD_GRID_LENGTH are as in enum bed_call_answer;
 * those two refusals are tried first. Then the first faulty record in file order answers, in one record the
 * lowest number, and BED_FIXTURE_AFTER comes last of all. On every answer but BED_DONE nothing is changed. */
enum bed_fixture_answer {
    /* A record is needed and the file has fewer than 32 bytes left: it was cut off, or is empty. */
    BED_FIXTURE_CUT = 51,
    /* A record is of no known kind. */
    BED_FIXTURE_KIND = 52,
    /* A record lies deeper than 8. */
    BED_FIXTURE_DEEP = 53,
    /* A group's count is 0, or a difference's is not 2, or a word that should be zero is not. */
    BED_FIXTURE_WORD = 54,
    /* A float of a box is not finite or is above 2^24 in magnitude. */
    BED_FIXTURE_FLOAT = 55,
    /* Bytes follow the solid. */
    BED_FIXTURE_AFTER = 56,
    /* Of a layer alone, tried right after BED_BAD_DIMENSIONS: z is not below dims[2]. */
    BED_FIXTURE_HEIGHT = 81,
    /* Of a layer of whole numbers alone, tried last of all: out is shorter than the layer. */
    BED_FIXTURE_ROOM = 82
};

/* Cuts the solid of a fixture file out of a grid of distances.
 *
 * In:
 *   file             the bytes of the file, all of them and no more.
 *   box              the grid's dimensions in box->dims. Nothing else of box matters.
 *
 * Lent for reading and writing:
 *   sdf              the distances, x innermost, exactly dims[0] * dims[1] * dims[2] of them.
 *
 * What is written on BED_DONE: each point whose distance is below the negated value of the solid there takes
 * that negated value. Every other point keeps its bits, one that is not a number too. The whole file is
 * checked before the first point is written. Cutting a second time with the same file changes nothing.
 * A distance that bed_surface_nets takes stays one: the solid's value is finite and at most 2^25 in
 * magnitude.
 *
 * The time taken is that of reading the file's records once for every 32 points. A count larger than the file
 * costs nothing: reading stops at the first fault.
 *
 * The file and the grid may not overlap. Pointers are aligned for their type; a pointer may be null only
 * where its length is 0.
 */
uint32_t bed_cut_fixtures(
    const uint8_t *file, size_t file_len,
    const struct bed_box *box,
    float *sdf, size_t sdf_len);

/* The same for one layer, for who has the bed one layer at a time. Proved: the layers of a grid, each cut at its
 * own z, one behind the other are what bed_cut_fixtures makes of the grid, and each is answered as it is.
 *
 * In:
 *   file             as in bed_cut_fixtures.
 *   box              its dims are the grid's dimensions; its other words are not read.
 *   z                which layer of the grid it is, below dims[2].
 *
 * Lent for reading and writing:
 *   layer            the distances of the layer, x innermost, exactly dims[0] * dims[1] of them; changed as the
 *                    points of bed_cut_fixtures are. BED_BAD_GRID_LENGTH speaks of its length.
 *
 * The conditions are tried in this order: 1, 81, 3, then the file's. On every answer but BED_DONE nothing is
 * changed. No two of file, box and layer may overlap; box is never null, and another pointer may be null only
 * where its length is 0.
 */
uint32_t bed_cut_fixtures_layer(
    const uint8_t *file, size_t file_len,
    const struct bed_box *box, uint32_t z,
    float *layer, size_t layer_len);

/* The same for a layer of signed 16-bit and of signed 8-bit distances, each number meaning the float of the same
 * value. The layer is only read.
 *
 * Lent for writing:
 *   out              on BED_DONE its first dims[0] * dims[1] numbers are what bed_cut_fixtures_layer makes of
 *                    those floats. What stands past them is kept. On every other answer nothing changes.
 *
 * The conditions are tried in this order: 1, 81, 3, then the file's, then 82.
 */
uint32_t bed_cut_fixtures_layer_i16(
    const uint8_t *file, size_t file_len,
    const int16_t *layer, size_t layer_len,
    const struct bed_box *box, uint32_t z,
    float *out, size_t out_len);

uint32_t bed_cut_fixtures_layer_i8(
    const uint8_t *file, size_t file_len,
    const int8_t *layer, size_t layer_len,
    const struct bed_box *box, uint32_t z,
    float *out, size_t out_len);

/* What the volume of a mesh answers. The conditions are tried in the order of their numbers and the first
 * that holds answers. */
enum bed_volume_answer {
    /* The volume was worked out. */
    BED_VOLUME_DONE = 0,
    /* positions or indices are not in threes. */
    BED_VOLUME_THREES = 61,
    /* There are more than 16,384 triangles. */
    BED_VOLUME_TOO_MANY = 62,
    /* A coordinate, of any vertex, whether or not a triangle has it, is not finite or not from 0 to 128.
     * -0.0 counts as 0. */
    BED_VOLUME_OUTSIDE = 63,
    /* A triangle has an index that is not below the number of vertices. */
    BED_VOLUME_INDEX = 64
};

/* Six times the signed volume of a mesh, as a whole number.
 *
 * In:
 *   positions        three floats a vertex, each from 0 to 128.
 *   indices          three vertex numbers a triangle, at most 16,384 triangles.
 * After bed_surface_nets these are the first 3 V and I numbers of its lists: pass those lengths and not
 * the lists' own.
 *
 * Out, on every answer:
 *   volume           the sum, in cubed steps; 0 on every answer but BED_VOLUME_DONE.
 *
 * Each coordinate is turned into steps of 1/256, rounded down, worked out exactly: the whole part of
 * 256 x. The volume is the sum, over the triangles, of the determinant whose rows are the triangle's
 * three corners in steps. It is at most 2^60 in magnitude. Divide by 6 * 256^3 for cubed grid steps.
 *
 * Sign: the triangles of bed_surface_nets turn counter-clockwise as seen from outside the sludge, where
 * the distances are not below zero, x, y and z being a right-handed system. A closed mesh that faces out
 * so has a volume above zero; turned round, the same below zero, which is an answer like any other.
 *
 * The sum is a volume where the mesh has no hole (bed_is_enclosed) and does not cross itself; then it does
 * not change when every vertex moves by the same whole steps. In any case the sums of the pieces of a box
 * that was cut add up to that of the whole. Each coordinate moves by less than 1/256, down.
 *
 * volume is never null and may not overlap the lists; a list's pointer may be null only where its length
 * is 0.
 */
uint32_t bed_volume(
    const float *positions, size_t positions_len,
    const uint32_t *indices, size_t indices_len,
    int64_t *volume);

/* What the weighing of a mesh answers. The conditions are tried in the order of their numbers and the
 * first that holds answers. */
enum bed_weigh_answer {
    /* The mesh was weighed. */
    BED_WEIGH_DONE = 0,
    /* positions or indices are not in threes. */
    BED_WEIGH_THREES = 61,
    /* A coordinate, of any vertex lent, whether or not a triangle has it, is not finite or not from 0 to
     * 16,777,216. -0.0 counts as 0. */
    BED_WEIGH_OUTSIDE = 63,
    /* A triangle has an index that is below first, or not below first and the number of vertices lent. */
    BED_WEIGH_INDEX = 64,
    /* There are more than 2^33 triangles. */
    BED_WEIGH_TOO_MANY = 75,
    /* A triangle's second or third corner is more than 512 steps, two grid steps, from its first in x or
     * in y. No triangle of bed_surface_nets is. */
    BED_WEIGH_WIDE = 76
};

/* Six times the volume that stands between the triangles of a mesh of any size and the plane z = 0, and
 * twice their area as seen from above, as whole numbers.
 *
 * In:
 *   positions        three floats a vertex, each from 0 to 16,777,216.
 *   first            the number of the first vertex lent: 0 for a whole mesh. With another number the
 *                    triangles of one layer are weighed from the positions of its vertices and of those
 *                    of the layer below, whose numbers run on.
 *   indices          three vertex numbers a triangle; the vertex v stands at positions + 3 (v - first).
 * After bed_surface_nets these are the first 3 V and I numbers of its lists: pass those lengths and not
 * the lists' own. A mesh that bed_surface_nets answered 0 is never refused.
 *
 * Out, on every answer:
 *   sum_low, sum_high  the sum, *sum_high * 2^64 + *sum_low, in cubed steps; both 0 on every answer but
 *                    BED_WEIGH_DONE.
 *   shadow           twice the area seen from above, in squared steps, a triangle that turns clockwise
 *                    there counting below zero; 0 on every answer but BED_WEIGH_DONE.
 *
 * Each coordinate is turned into steps of 1/256, as bed_volume does. The sum goes over the triangles a, b,
 * c, each with (az + bz + cz) ((bx - ax) (cy - ay) - (by - ay) (cx - ax)), and the shadow with the second
 * factor alone. Divide the sum by 6 * 256^3 for cubed grid steps.
 *
 * Where each directed side occurs as often as its reverse (bed_is_enclosed), the sum is that of bed_volume.
 * In any case the sums of the parts of a list of triangles add up to that of the whole, and those of the
 * pieces of a box that was cut to that of the whole box.
 *
 * The sum over an open sheet is the volume between the sheet and the plane z = 0 over the sheet's own shadow. The
 * sheet of a bed on floor and walls ends about half a step inside the walls: close the bed first (bed_close) where
 * the whole tank is meant.
 *
 * sum_low, sum_high and shadow are never null and may not overlap each other nor the lists; a list's pointer
 * may be null only where its length is 0.
 */
uint32_t bed_weigh(
    const float *positions, size_t positions_len,
    uint32_t first,
    const uint32_t *indices, size_t indices_len,
    uint64_t *sum_low, int64_t *sum_high, int64_t *shadow);

/* What a bed taken layer by layer answers. A layer's conditions are tried in this order, and the first that
 * holds answers: 1, 2, 8, 3, 4, 5, 6, 7. The start gives 0, 1, 2 or 4. */
enum bed_layers_answer {
    /* The layer was taken, or the bed begun. */
    BED_LAYERS_DONE = 0,
    /* As BED_BAD_DIMENSIONS and BED_BAD_BOX. */
    BED_LAYERS_DIMENSIONS = 1,
    BED_LAYERS_BOX = 2,
    /* The layer is not dims[0] * dims[1] long. */
    BED_LAYERS_LENGTH = 3,
    /* kept_distances or kept_map is shorter than 2 * dims[0] * dims[1], or kept_positions than 3 * dims[0] * dims[1]. */
    BED_LAYERS_MEMORY = 4,
    /* A point of the layer inside the box is not finite or above 2^124 in magnitude. */
    BED_LAYERS_DISTANCE = 5,
    /* As BED_VERTICES_SHORT and BED_INDICES_SHORT, for V and I of this layer. */
    BED_LAYERS_VERTEX_ROOM = 6,
    BED_LAYERS_INDEX_ROOM = 7,
    /* As many layers were taken as the box has points in z. */
    BED_LAYERS_FINISHED = 8
};

/* Where a bed stands between two layers: plain numbers, which you may copy, store and send on. Whatever
 * numbers stand here, a call stays within the lists that are lent to it. */
struct bed_layers {
    /* The grid's dimensions and the box, as the start was given them: with the max planes the words of a bed_box. */
    uint32_t dim_x, dim_y, dim_z;
    uint32_t min_x, min_y, min_z;
    uint32_t max_x, max_y, max_z;
    /* The max plane for each axis: 0 is no, any other number is yes. */
    uint32_t max_plane_x, max_plane_y, max_plane_z;
    /* How many layers were taken. */
    uint32_t taken;
    /* The number of the next vertex, and of the first vertex of the last layer of cells. */
    uint32_t next;
    uint32_t first;
};

/* The most vertices and indices that one layer brings out, as a uint64_t, for dimensions of 32 bits: room for 3, 3, 3, 1 and 1
 * times BED_LAYER_VERTICES numbers in positions, normals, cells, strides and crossings, and for BED_LAYER_INDICES in indices, is
 * always enough. They never overflow: where dim_x * dim_y is above 1,073,741,824 or 0 the start answers BED_LAYERS_DIMENSIONS,
 * and they are 0. Where size_t has 32 bits, compare with SIZE_MAX before memory is asked for. */
#define BED_LAYER_VERTICES(dim_x, dim_y) \
    ((uint32_t)(dim_x) == 0 || (uint32_t)(dim_y) == 0 || (uint64_t)(uint32_t)(dim_x) * (uint32_t)(dim_y) > UINT64_C(1073741824) \
         ? UINT64_C(0) \
         : ((uint64_t)(uint32_t)(dim_x) - 1) * ((uint64_t)(uint32_t)(dim_y) - 1))
#define BED_LAYER_INDICES(dim_x, dim_y) (UINT64_C(18) * BED_LAYER_VERTICES(dim_x, dim_y))

/* Begins a bed that is taken layer by layer: for a head that sends one z layer at a time and cannot hold the
 * grid. Returns BED_LAYERS_DONE, _DIMENSIONS, _BOX or _MEMORY; on BED_LAYERS_DONE *layers is the state before the
 * first layer, else it is untouched. box is as in bed_surface_nets, and is not needed after the start. Kept memory is
 * only measured here, and written by bed_layers_offer alone:
 *
 *     kept_distances   2 * dims[0] * dims[1] numbers: two layers
 *     kept_map         2 * dims[0] * dims[1] numbers: their maps
 *     kept_positions   3 * dims[0] * dims[1] numbers: the positions of the last layer of cells
 *
 * Lend the same three to every offer, and leave them and the state as they are between layers. The start writes nothing to
 * them, and every claim is about lists that hold numbers, so set memory that was never written, as malloc's, once by memset
 * before the start. What it is set to never matters. *layers itself need not be set.
 *
 * After t + 1 layers were taken, the half t mod 2 of kept_distances is the last layer as it was offered, all of it; the same half
 * of kept_map has no vertex at any point of the box, and the other half the numbers of the cells that came out last, where
 * BED_NO_VERTEX is a point of the box without one; kept_positions begins with the positions of those vertices, the first of
 * them being the vertex number layers->first. All else in them is as the offer found it.
 *
 * layers is never null, aligned, and overlaps neither box nor a list. The three lists are only measured here, and a pointer may be
 * null only where its length is 0.
 */
uint32_t bed_layers_start(
    struct bed_layers *layers,
    const struct bed_box *box,
    const float *kept_distances, size_t kept_distances_len,
    const uint32_t *kept_map, size_t kept_map_len,
    const float *kept_positions, size_t kept_positions_len);

/* Offers the next layer, dims[0] * dims[1] distances, from min z to max z. The first is only kept, with counts 0, 0;
 * the layer z + 1 brings out all vertices and faces of the cells at z, to the first 3V, 3V, 3V, V, V and I numbers
 * of the lists lent for output. Strides are those of the whole grid, and vertex numbers run on from layer to layer.
 * All output joined, each list in the order of the layers, is that of bed_surface_nets on the whole grid.
 *
 * vertex_count and index_count are V and I of this layer on BED_LAYERS_DONE, _VERTEX_ROOM and _INDEX_ROOM, and 0
 * on every other answer. A refusal changes nothing, so that the same layer can be offered again with more room.
 * BED_LAYER_VERTICES and BED_LAYER_INDICES tell room that is always enough.
 *
 * On BED_LAYERS_DONE the entry of each point of the box in this layer's half of kept_map becomes 4,294,967,295,
 * and the half of the cells that came out is their map; entries outside the box are kept. The layer number t of
 * the box has the half t mod 2.
 *
 * If state or kept memory were touched between layers a call still stays within its lists; what it then writes
 * follows from what it found there.
 *
 * layers, the layer, the three kept lists, the six lists for output and the two counts are lent apart: none overlaps another,
 * and so the layer is not a part of kept_distances. layers and the counts are never null; a list's pointer may be null only
 * where its length is 0. Every pointer is aligned for its type.
 */
uint32_t bed_layers_offer(
    struct bed_layers *layers,
    const float *layer, size_t layer_len,
    float *kept_distances, size_t kept_distances_len,
    uint32_t *kept_map, size_t kept_map_len,
    float *kept_positions, size_t kept_positions_len,
    float *positions, size_t positions_len,
    float *normals, size_t normals_len,
    uint32_t *cells, size_t cells_len,
    uint32_t *strides, size_t strides_len,
    uint8_t *crossings, size_t crossings_len,
    uint32_t *indices, size_t indices_len,
    uint64_t *vertex_count, uint64_t *index_count);

/* The name of an answer of bed_layers_start or bed_layers_offer, as enum bed_layers_answer has it; "unknown" for any other
 * number. The numbers 0 to 7 have other names there than in enum bed_call_answer. */
static inline const char *bed_layers_answer_name(uint32_t answer)
{
    switch (answer) {
    case BED_LAYERS_DONE: return "BED_LAYERS_DONE";
    case BED_LAYERS_DIMENSIONS: return "BED_LAYERS_DIMENSIONS";
    case BED_LAYERS_BOX: return "BED_LAYERS_BOX";
    case BED_LAYERS_LENGTH: return "BED_LAYERS_LENGTH";
    case BED_LAYERS_MEMORY: return "BED_LAYERS_MEMORY";
    case BED_LAYERS_DISTANCE: return "BED_LAYERS_DISTANCE";
    case BED_LAYERS_VERTEX_ROOM: return "BED_LAYERS_VERTEX_ROOM";
    case BED_LAYERS_INDEX_ROOM: return "BED_LAYERS_INDEX_ROOM";
    case BED_LAYERS_FINISHED: return "BED_LAYERS_FINISHED";
    default: return "unknown";
    }
}

/* The name of an answer, as the enumerations above have it; "BED_DONE" for 0, which all of them share, and
 * "unknown" for a number that no function answers. For a bed taken layer by layer: bed_layers_answer_name. */
static inline const char *bed_answer_name(uint32_t answer)
{
    switch (answer) {
    case BED_DONE: return "BED_DONE";
    case BED_BAD_DIMENSIONS: return "BED_BAD_DIMENSIONS";
    case BED_BAD_BOX: return "BED_BAD_BOX";
    case BED_BAD_GRID_LENGTH: return "BED_BAD_GRID_LENGTH";
    case BED_MAP_SHORT: return "BED_MAP_SHORT";
    case BED_BAD_DISTANCE: return "BED_BAD_DISTANCE";
    case BED_VERTICES_SHORT: return "BED_VERTICES_SHORT";
    case BED_INDICES_SHORT: return "BED_INDICES_SHORT";
    case BED_LAYERS_FINISHED: return "BED_LAYERS_FINISHED";
    case BED_WITNESS_WORDS: return "BED_WITNESS_WORDS";
    case BED_PLAN_LIST: return "BED_PLAN_LIST";
    case BED_PLAN_BOX: return "BED_PLAN_BOX";
    case BED_WITNESS_NONE: return "BED_WITNESS_NONE";
    case BED_FILE_CUT: return "BED_FILE_CUT";
    case BED_FILE_SUM: return "BED_FILE_SUM";
    case BED_FILE_KIND: return "BED_FILE_KIND";
    case BED_FILE_ZERO: return "BED_FILE_ZERO";
    case BED_FILE_COUNTS: return "BED_FILE_COUNTS";
    case BED_FILE_INDEX: return "BED_FILE_INDEX";
    case BED_FILE_NOT_FINITE: return "BED_FILE_NOT_FINITE";
    case BED_FILE_AFTER: return "BED_FILE_AFTER";
    case BED_FILE_ROOM: return "BED_FILE_ROOM";
    case BED_FILE_LISTS: return "BED_FILE_LISTS";
    case BED_FIXTURE_CUT: return "BED_FIXTURE_CUT";
    case BED_FIXTURE_KIND: return "BED_FIXTURE_KIND";
    case BED_FIXTURE_DEEP: return "BED_FIXTURE_DEEP";
    case BED_FIXTURE_WORD: return "BED_FIXTURE_WORD";
    case BED_FIXTURE_FLOAT: return "BED_FIXTURE_FLOAT";
    case BED_FIXTURE_AFTER: return "BED_FIXTURE_AFTER";
    case BED_FIXTURE_HEIGHT: return "BED_FIXTURE_HEIGHT";
    case BED_FIXTURE_ROOM: return "BED_FIXTURE_ROOM";
    case BED_VOLUME_THREES: return "BED_VOLUME_THREES";
    case BED_VOLUME_TOO_MANY: return "BED_VOLUME_TOO_MANY";
    case BED_VOLUME_OUTSIDE: return "BED_VOLUME_OUTSIDE";
    case BED_VOLUME_INDEX: return "BED_VOLUME_INDEX";
    case BED_CLOSE_HEIGHT: return "BED_CLOSE_HEIGHT";
    case BED_CLOSE_WALL: return "BED_CLOSE_WALL";
    case BED_CLOSE_TOO_LARGE: return "BED_CLOSE_TOO_LARGE";
    case BED_CLOSE_ROOM: return "BED_CLOSE_ROOM";
    case BED_WEIGH_TOO_MANY: return "BED_WEIGH_TOO_MANY";
    case BED_WEIGH_WIDE: return "BED_WEIGH_WIDE";
    case BED_LEVELS_HEIGHT: return "BED_LEVELS_HEIGHT";
    case BED_LEVELS_ROOM: return "BED_LEVELS_ROOM";
    case BED_TALLY_HEIGHT: return "BED_TALLY_HEIGHT";
    case BED_TALLY_COUNTS: return "BED_TALLY_COUNTS";
    default: return "unknown";
    }
}

#ifdef __cplusplus
}
#endif

#endif /* BED_H */
