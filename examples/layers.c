/* layers.c: meshes a bed that a file holds, one z layer at a time, with room for two layers and no more of the grid.
 *
 *     layers FILE     FILE: 32-bit floats of this machine, layer after layer, x innermost, of a cube of SIDE points
 *     layers          the same from a temporary file that holds a ball
 *
 * Where the lists are too short for a layer, the same layer is offered again with more room. */

#include "bed.h"

#include <math.h>
#include <stdio.h>
#include <stdlib.h>

enum { SIDE = 20, PLANE = SIDE * SIDE };

/* What stands between two layers. */
static struct bed_layers bed;
static float kept_distances[2 * PLANE], kept_positions[3 * PLANE];
static uint32_t kept_map[2 * PLANE];

/* The lists of one layer, which grow. */
static float *positions, *normals;
static uint32_t *cells, *strides, *indices;
static uint8_t *crossings;
static uint64_t vertices_lent, indices_lent;

static void *room_for(void *old, size_t elements, size_t size) {
    void *memory = realloc(old, elements * size + 1);
    if (memory == NULL) {
        fputs("no memory\n", stderr);
        exit(1);
    }
    return memory;
}

static uint32_t offer(const float *layer, uint64_t *vertices, uint64_t *faces) {
    return bed_layers_offer(
        &bed, layer, PLANE,
        kept_distances, 2 * PLANE, kept_map, 2 * PLANE, kept_positions, 3 * PLANE,
        positions, 3 * vertices_lent, normals, 3 * vertices_lent, cells, 3 * vertices_lent,
        strides, vertices_lent, crossings, vertices_lent, indices, indices_lent,
        vertices, faces);
}

static void grow(uint64_t vertices, uint64_t numbers) {
    positions = room_for(positions, 3 * vertices, sizeof *positions);
    normals = room_for(normals, 3 * vertices, sizeof *normals);
    cells = room_for(cells, 3 * vertices, sizeof *cells);
    strides = room_for(strides, vertices, sizeof *strides);
    crossings = room_for(crossings, vertices, sizeof *crossings);
    indices = room_for(indices, numbers, sizeof *indices);
    vertices_lent = vertices;
    indices_lent = numbers;
}

static FILE *ball(void) {
    FILE *file = tmpfile();
    for (int i = 0; file != NULL && i < SIDE * PLANE; i++) {
        float x = (float)(i % SIDE) - 9.5f, y = (float)(i / SIDE % SIDE) - 9.5f, z = (float)(i / PLANE) - 9.5f;
        float distance = sqrtf(x * x + y * y + z * z) - 7.0f;
        fwrite(&distance, sizeof distance, 1, file);
    }
    if (file != NULL)
        rewind(file);
    return file;
}

int main(int count, char **words) {
    FILE *file = count > 1 ? fopen(words[1], "rb") : ball();
    if (file == NULL) {
        perror("layers");
        return 1;
    }
    static const struct bed_box whole = {
        { SIDE, SIDE, SIDE }, { 0, 0, 0 }, { SIDE - 1, SIDE - 1, SIDE - 1 }, { 0, 0, 0 } };
    uint32_t answer = bed_layers_start(
        &bed, &whole,
        kept_distances, 2 * PLANE, kept_map, 2 * PLANE, kept_positions, 3 * PLANE);
    uint64_t all_vertices = 0, all_indices = 0, again = 0;
    float layer[PLANE];
    while (answer == BED_LAYERS_DONE && fread(layer, sizeof *layer, PLANE, file) == PLANE) {
        uint64_t vertices, numbers;
        answer = offer(layer, &vertices, &numbers);
        if (answer == BED_LAYERS_VERTEX_ROOM || answer == BED_LAYERS_INDEX_ROOM) {
            again++;
            grow(vertices, numbers);
            answer = offer(layer, &vertices, &numbers);
        }
        if (answer == BED_LAYERS_DONE) {
            /* Here the layer's lists would be sent on. */
            all_vertices += vertices;
            all_indices += numbers;
        }
    }
    printf("answer %u, layers %u, vertices %llu, triangles %llu, offered again %llu\n", (unsigned)answer, (unsigned)bed.taken,
        (unsigned long long)all_vertices, (unsigned long long)(all_indices / 3), (unsigned long long)again);
    return answer == BED_LAYERS_DONE && bed.taken == SIDE ? 0 : 1;
}
