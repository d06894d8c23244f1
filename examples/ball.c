/* ball.c: meshes a ball and prints its counts, its first triangle, how many vertices have each number of crossings and
 * the volume that its triangles enclose; then counts the same ball in 16-bit numbers.
 *
 * The usual way to call: V and I are asked for, then lists of that length are lent. The volume shows which way
 * triangles wind: turned the other way it would be below zero. */

#include "bed.h"

#include <math.h>
#include <stdio.h>
#include <stdlib.h>

enum { SIDE = 20, POINTS = SIDE * SIDE * SIDE };

/* The lists of a mesh, with room for V vertices and I indices. */
struct mesh {
    float *positions, *normals;
    uint32_t *cells, *strides, *indices;
    uint8_t *crossings;
    uint64_t vertices, indices_used;
};

static const struct bed_box whole = {
    { SIDE, SIDE, SIDE }, { 0, 0, 0 }, { SIDE - 1, SIDE - 1, SIDE - 1 }, { 0, 0, 0 } };

static float sdf[POINTS];
static int16_t sent[POINTS];
static uint32_t map[POINTS];

static void fill_with_ball(float middle, float radius) {
    for (int i = 0; i < POINTS; i++) {
        float x = (float)(i % SIDE) - middle;
        float y = (float)(i / SIDE % SIDE) - middle;
        float z = (float)(i / SIDE / SIDE) - middle;
        sdf[i] = sqrtf(x * x + y * y + z * z) - radius;
    }
}

/* V and I, with nothing lent but, in words, the map. */
static uint32_t count_whole_grid(struct mesh *m) {
    return bed_answer(
        sdf, POINTS, &whole,
        0, 0, 0, 0, 0, POINTS, 0,
        &m->vertices, &m->indices_used);
}

static uint32_t mesh_whole_grid(struct mesh *m) {
    size_t vertices = m->vertices, indices = m->indices_used;
    return bed_surface_nets(
        sdf, POINTS, &whole,
        m->positions, 3 * vertices,
        m->normals, 3 * vertices,
        m->cells, 3 * vertices,
        m->strides, vertices,
        m->crossings, vertices,
        map, POINTS,
        m->indices, indices,
        &m->vertices, &m->indices_used);
}

static void *room_for(size_t elements, size_t size) {
    void *memory = calloc(elements, size);
    if (memory == NULL) {
        fputs("no memory\n", stderr);
        exit(1);
    }
    return memory;
}

static void make_room(struct mesh *m) {
    m->positions = room_for(3 * m->vertices, sizeof *m->positions);
    m->normals = room_for(3 * m->vertices, sizeof *m->normals);
    m->cells = room_for(3 * m->vertices, sizeof *m->cells);
    m->strides = room_for(m->vertices, sizeof *m->strides);
    m->crossings = room_for(m->vertices, sizeof *m->crossings);
    m->indices = room_for(m->indices_used, sizeof *m->indices);
}

static void print_first_triangle(const struct mesh *m) {
    for (int corner = 0; corner < 3; corner++) {
        const float *at = m->positions + 3 * m->indices[corner];
        printf("  vertex %u at %.4f %.4f %.4f\n", (unsigned)m->indices[corner], at[0], at[1], at[2]);
    }
}

/* Of the twelve edges of a vertex's cell the surface crosses 3 to 9, or 12. */
static void print_crossings(const struct mesh *m) {
    unsigned long long having[13] = {0};
    for (uint64_t v = 0; v < m->vertices; v++)
        having[m->crossings[v]]++;
    fputs("vertices by crossings:", stdout);
    for (int n = 3; n <= 12; n++)
        if (having[n] > 0)
            printf(" %d: %llu", n, having[n]);
    putchar('\n');
}

/* A sixth of the sum of the triangles' determinants: above zero if they look outwards. */
static double volume(const struct mesh *m) {
    double sum = 0;
    for (uint64_t i = 0; i < m->indices_used; i += 3) {
        const float *a = m->positions + 3 * m->indices[i];
        const float *b = m->positions + 3 * m->indices[i + 1];
        const float *c = m->positions + 3 * m->indices[i + 2];
        sum += (double)a[0] * ((double)b[1] * c[2] - (double)b[2] * c[1]);
        sum += (double)a[1] * ((double)b[2] * c[0] - (double)b[0] * c[2]);
        sum += (double)a[2] * ((double)b[0] * c[1] - (double)b[1] * c[0]);
    }
    return sum / 6;
}

/* The ball as an old head sends it: in twentieths of a grid step, rounded down, so that signs are kept. What is below
 * zero decides V and I, so that they are those of the floats. */
static uint32_t count_in_16_bits(uint64_t *vertices, uint64_t *indices) {
    for (int i = 0; i < POINTS; i++)
        sent[i] = (int16_t)floorf(20 * sdf[i]);
    return bed_surface_nets_i16(
        sent, POINTS, &whole,
        NULL, 0, NULL, 0, NULL, 0, NULL, 0, NULL, 0,
        map, POINTS,
        NULL, 0,
        vertices, indices);
}

static void free_mesh(struct mesh *m) {
    free(m->positions);
    free(m->normals);
    free(m->cells);
    free(m->strides);
    free(m->crossings);
    free(m->indices);
}

int main(void) {
    struct mesh m = {0};
    const double radius = 7, of_the_ball = 4.0 / 3.0 * 3.14159265358979 * radius * radius * radius;
    fill_with_ball(9.5f, (float)radius);
    uint32_t answer = count_whole_grid(&m);
    if (answer != BED_VERTICES_SHORT) {
        fprintf(stderr, "answer %u where a lack of room was awaited\n", (unsigned)answer);
        return 1;
    }
    make_room(&m);
    answer = mesh_whole_grid(&m);
    if (answer != BED_DONE) {
        fprintf(stderr, "refused: %u\n", (unsigned)answer);
        return 1;
    }
    printf("vertices %llu, indices %llu\n", (unsigned long long)m.vertices,
           (unsigned long long)m.indices_used);
    puts("first triangle");
    print_first_triangle(&m);
    print_crossings(&m);
    double enclosed = volume(&m);
    free_mesh(&m);
    printf("volume %.1f, the ball's own %.1f\n", enclosed, of_the_ball);
    if (enclosed < 0.95 * of_the_ball || enclosed > of_the_ball) {
        fputs("the triangles do not look outwards, or the mesh is not the ball's\n", stderr);
        return 1;
    }
    uint64_t vertices, indices;
    answer = count_in_16_bits(&vertices, &indices);
    printf("in 16-bit numbers: vertices %llu, indices %llu\n", (unsigned long long)vertices,
           (unsigned long long)indices);
    if (answer != BED_VERTICES_SHORT || vertices != m.vertices || indices != m.indices_used) {
        fputs("the 16-bit ball is another\n", stderr);
        return 1;
    }
    return 0;
}
