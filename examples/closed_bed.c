/* closed_bed.c: closes a bed that lies on the floor and against the walls of its tank, weighs it and tells its level.
 *
 * Such a bed has points below zero on the sides of its grid, so it is not enclosed and its mesh is an open
 * sheet. bed_close puts a border of far points round it, one layer at min and two at max on each axis: then it
 * is enclosed, and its mesh has no hole. With the wall of bed_wall_for the mesh ends at the outermost points. */

#include "bed.h"

#include <stdio.h>
#include <stdlib.h>
#include <string.h>

/* The tank's grid, and the same with a border. */
enum { X = 20, Y = 16, Z = 12 };
enum { BX = X + 3, BY = Y + 3, BZ = Z + 3 };
enum { POINTS = X * Y * Z, BORDERED = BX * BY * BZ };

static float tank[POINTS], bordered[BORDERED];

/* How high the sludge stands: a slope from one corner to the other. */
static float height(int x, int y) { return 2.3f + 0.2f * (float)x + 0.15f * (float)y; }

static void fill_tank(void) {
    for (int z = 0; z < Z; z++)
        for (int y = 0; y < Y; y++)
            for (int x = 0; x < X; x++)
                tank[x + X * (y + Y * z)] = (float)z - height(x, y);
}

static const struct bed_box whole = { { X, Y, Z }, { 0, 0, 0 }, { X - 1, Y - 1, Z - 1 }, { 0, 0, 0 } };

static void expect_done(uint32_t answer) {
    if (answer != BED_DONE) {
        fprintf(stderr, "refused: %s\n", bed_answer_name(answer));
        exit(1);
    }
}

static void close_bed(void) {
    float wall = bed_wall_for(bed_deepest(0.0f, tank, POINTS));
    expect_done(bed_close(tank, POINTS, &whole, wall, bordered, BORDERED));
}

/* Whether the box that leaves out `less` layers at max on each axis is enclosed. */
static bool enclosed(const float *sdf, uint32_t x, uint32_t y, uint32_t z, uint32_t less) {
    bool yes = false;
    struct bed_box box = { { x, y, z }, { 0, 0, 0 }, { x - 1 - less, y - 1 - less, z - 1 - less }, { 0, 0, 0 } };
    expect_done(bed_is_enclosed(sdf, (size_t)x * y * z, &box, &yes));
    return yes;
}

/* The mesh of a grid, with room for any of these grids; then its volume, and whether it has no hole. */

enum { CELLS = BORDERED };
static float positions[3 * CELLS], normals[3 * CELLS];
static uint32_t cells[3 * CELLS], strides[CELLS], map[BORDERED], indices[18 * CELLS];
static uint8_t crossings[CELLS];
static uint64_t vertex_count, index_count;

static void mesh(const float *sdf, uint32_t x, uint32_t y, uint32_t z) {
    struct bed_box box = { { x, y, z }, { 0, 0, 0 }, { x - 1, y - 1, z - 1 }, { 0, 0, 0 } };
    expect_done(bed_surface_nets(
        sdf, (size_t)x * y * z, &box,
        positions, 3 * CELLS, normals, 3 * CELLS, cells, 3 * CELLS, strides, CELLS, crossings, CELLS,
        map, BORDERED, indices, 18 * CELLS, &vertex_count, &index_count));
}

/* In cubed grid steps: a sixth of the sum, which is in cubed steps of 1/256. */
static double volume(void) {
    uint64_t low;
    int64_t high, shadow;
    expect_done(bed_weigh(positions, 3 * vertex_count, 0, indices, index_count, &low, &high, &shadow));
    return ((double)high * 18446744073709551616.0 + (double)low) / (6.0 * 256 * 256 * 256);
}

/* The largest difference between a column's level and the slope. */
static double level_error(void) {
    static float levels[X * Y];
    double worst = 0;
    expect_done(bed_levels(tank, POINTS, &whole, levels, X * Y));
    for (int i = 0; i < X * Y; i++) {
        double error = (double)levels[i] - height(i % X, i / X);
        worst = error > worst ? error : -error > worst ? -error : worst;
    }
    return worst;
}

static int by_number(const void *a, const void *b) {
    uint64_t x = *(const uint64_t *)a, y = *(const uint64_t *)b;
    return (x > y) - (x < y);
}

/* All directed sides, sorted, beside all reversed ones, sorted: the two lists are the same if the skin has
 * no hole. */
static bool no_hole(void) {
    static uint64_t sides[18 * CELLS], reverses[18 * CELLS];
    for (uint64_t i = 0; i < index_count; i++) {
        uint64_t from = indices[i], to = indices[i % 3 == 2 ? i - 2 : i + 1];
        sides[i] = from << 32 | to;
        reverses[i] = to << 32 | from;
    }
    qsort(sides, index_count, sizeof *sides, by_number);
    qsort(reverses, index_count, sizeof *reverses, by_number);
    return memcmp(sides, reverses, index_count * sizeof *sides) == 0;
}

/* What stands under the slope, over the rectangle of the grid's outermost points. */
static double sludge(void) {
    double middle = (height(0, 0) + height(X - 1, Y - 1)) / 2.0;
    return middle * (X - 1) * (Y - 1);
}

int main(void) {
    fill_tank();
    bool open_is_enclosed = enclosed(tank, X, Y, Z, 0);
    mesh(tank, X, Y, Z);
    bool open_has_hole = !no_hole();
    printf("as it is:      enclosed %s, hole %s\n", open_is_enclosed ? "yes" : "no", open_has_hole ? "yes" : "no");

    close_bed();
    bool one_layer_is_enough = enclosed(bordered, BX, BY, BZ, 1);
    bool closed_is_enclosed = enclosed(bordered, BX, BY, BZ, 0);
    mesh(bordered, BX, BY, BZ);
    bool closed_has_hole = !no_hole();
    double got = volume(), wanted = sludge(), error = level_error();
    printf("with a border: enclosed %s, hole %s, volume %.2f, the sludge's own %.2f, level off by %.6f\n",
           closed_is_enclosed ? "yes" : "no", closed_has_hole ? "yes" : "no", got, wanted, error);

    printf("with one layer at max: enclosed %s\n", one_layer_is_enough ? "yes" : "no");

    bool good = !open_is_enclosed && open_has_hole && !one_layer_is_enough && closed_is_enclosed &&
                !closed_has_hole && got > 0.995 * wanted && got < 1.005 * wanted && error < 0.00001;
    if (!good)
        fputs("that is not as it should be\n", stderr);
    return !good;
}
