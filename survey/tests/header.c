/* header.c: what bed.h has beside the library's functions: the version, the names of the answers, the size of a mesh
 * file, the room for a layer, and what kept memory holds. Built as C and as C++. */
#include "bed.h"

#include <stdio.h>
#include <string.h>

#define NAMED(name) \
    if (strcmp(bed_answer_name(name), #name) != 0) { \
        printf("%s has the name %s\n", #name, bed_answer_name(name)); \
        return 1; \
    }

#define NAMED_OF_LAYERS(name) \
    if (strcmp(bed_layers_answer_name(name), #name) != 0) { \
        printf("%s has the name %s\n", #name, bed_layers_answer_name(name)); \
        return 1; \
    }

static int names_of_layers(void)
{
    NAMED_OF_LAYERS(BED_LAYERS_DONE) NAMED_OF_LAYERS(BED_LAYERS_DIMENSIONS) NAMED_OF_LAYERS(BED_LAYERS_BOX)
    NAMED_OF_LAYERS(BED_LAYERS_LENGTH) NAMED_OF_LAYERS(BED_LAYERS_MEMORY) NAMED_OF_LAYERS(BED_LAYERS_DISTANCE)
    NAMED_OF_LAYERS(BED_LAYERS_VERTEX_ROOM) NAMED_OF_LAYERS(BED_LAYERS_INDEX_ROOM) NAMED_OF_LAYERS(BED_LAYERS_FINISHED)
    unsigned known = 0;
    for (uint32_t answer = 0; answer < 1000; answer++)
        known += strcmp(bed_layers_answer_name(answer), "unknown") != 0;
    return known == 9 ? 0 : 1;
}

/* The room of a layer, at the ends of the range too. */
static int rooms(void)
{
    static uint32_t enough[BED_LAYER_INDICES(4, 3)];
    (void)enough;
    return BED_LAYER_VERTICES(4, 3) == 6 && BED_LAYER_INDICES(4, 3) == 108 && BED_LAYER_VERTICES(0, 7) == 0
                   && BED_LAYER_VERTICES(1, 1) == 0 && BED_LAYER_VERTICES(32768, 32768) == UINT64_C(1073676289)
                   && BED_LAYER_INDICES(32768, 32768) == UINT64_C(19326173202) && BED_LAYER_INDICES(32769, 32768) == 0
                   && BED_LAYER_INDICES(UINT32_MAX, UINT32_MAX) == 0 && sizeof(BED_LAYER_VERTICES(2, 2)) == 8
               ? 0
               : 1;
}

static const struct bed_box ball_box = { { 3, 3, 3 }, { 0, 0, 0 }, { 2, 2, 2 }, { 0, 0, 0 } };

/* One point below zero in a box smaller than its grid, whose sides are all different. The box has two cells on one axis and three on
 * the others, and the point is the second on each: of the six grid edges at it the box owns all but the one that ends on the max side
 * of the short axis, and that one too with the max plane of this axis. So the mesh has 8 vertices, and 30 or 36 indices. */
static int one_flag(int shorter)
{
    static const uint32_t yes[4] = { 1, 0x100, 0x80000000u, 0xFFFFFFFFu };
    static float grid[7 * 8 * 9];
    struct bed_box box = { { 7, 8, 9 }, { 1, 2, 3 }, { 4, 5, 6 }, { 0, 0, 0 } };
    box.max[shorter]--;
    for (int i = 0; i < 7 * 8 * 9; i++)
        grid[i] = 1.0f;
    grid[2 + 7 * (3 + 8 * 4)] = -1.0f;
    for (int axis = 0; axis < 3; axis++)
        for (int word = 0; word < 4; word++) {
            uint64_t vertices = 0, indices = 0;
            struct bed_layers layers;
            float none[3 * 56] = { 0 };
            uint32_t no_map[2 * 56] = { 0 };
            box.max_plane[axis] = yes[word];
            uint32_t answer = bed_answer(grid, 7 * 8 * 9, &box, 24, 24, 24, 8, 8, 7 * 8 * 9, 36, &vertices, &indices);
            if (answer != BED_DONE || vertices != 8 || indices != (axis == shorter ? 36u : 30u))
                return 1;
            if (bed_layers_start(&layers, &box, none, 2 * 56, no_map, 2 * 56, none, 3 * 56) != BED_LAYERS_DONE)
                return 1;
            uint32_t kept[3] = { layers.max_plane_x, layers.max_plane_y, layers.max_plane_z };
            for (int other = 0; other < 3; other++)
                if ((kept[other] != 0) != (other == axis))
                    return 1;
            if (memcmp(&layers, &box, 9 * sizeof(uint32_t)) != 0)
                return 1;
            box.max_plane[axis] = 0;
        }
    return 0;
}

/* The library is the one that this header came with. */
static int version(void)
{
    char numbers[32];
    snprintf(numbers, sizeof numbers, "%d.%d.%d", BED_VERSION_MAJOR, BED_VERSION_MINOR, BED_VERSION_PATCH);
    return bed_version() == BED_VERSION_NUMBER && strcmp(numbers, BED_VERSION) == 0 ? 0 : 1;
}

/* Ball layer by layer in memory that was not set, with the room that is always enough: what stands in kept memory after
 * each layer, as bed_layers_start says. */
static int kept_memory(unsigned char before)
{
    float distances[18], kept_positions[27], positions[12], normals[12];
    uint32_t map[18], cells[12], strides[4], indices[72];
    uint8_t crossings[4];
    struct bed_layers layers;
    memset(distances, before, sizeof distances);
    memset(kept_positions, before, sizeof kept_positions);
    memset(map, before, sizeof map);
    memset(&layers, before, sizeof layers);
    if (bed_layers_start(&layers, &ball_box, distances, 18, map, 18, kept_positions, 27) != BED_LAYERS_DONE)
        return 1;
    for (uint32_t t = 0; t < 3; t++) {
        float layer[9];
        uint64_t vertices = 9, count = 9;
        for (int i = 0; i < 9; i++)
            layer[i] = t == 1 && i == 4 ? -1.0f : 1.0f + (float)i;
        uint32_t answer = bed_layers_offer(
            &layers, layer, 9, distances, 18, map, 18, kept_positions, 27, positions, 3 * BED_LAYER_VERTICES(3, 3), normals, 12,
            cells, 12, strides, BED_LAYER_VERTICES(3, 3), crossings, 4, indices, BED_LAYER_INDICES(3, 3), &vertices, &count);
        if (answer != BED_LAYERS_DONE || vertices != (t == 0 ? 0u : 4u))
            return 1;
        if (memcmp(distances + 9 * (t % 2), layer, sizeof layer) != 0 || layers.first != (t == 2 ? 4u : 0u))
            return 1;
        for (int i = 0; i < 9; i++)
            if (map[9 * (t % 2) + i] != BED_NO_VERTEX)
                return 1;
        if (memcmp(kept_positions, positions, 12 * (size_t)vertices) != 0)
            return 1;
        for (int i = 0; t > 0 && i < 9; i++) {
            int cell = i % 3 < 2 && i / 3 < 2;
            uint32_t number = layers.first + (uint32_t)(i % 3 + 2 * (i / 3));
            if (map[9 * ((t + 1) % 2) + i] != (cell ? number : BED_NO_VERTEX))
                return 1;
        }
    }
    return 0;
}

static int names(void)
{
    NAMED(BED_DONE)
    NAMED(BED_BAD_DIMENSIONS) NAMED(BED_BAD_BOX) NAMED(BED_BAD_GRID_LENGTH) NAMED(BED_MAP_SHORT)
    NAMED(BED_BAD_DISTANCE) NAMED(BED_VERTICES_SHORT) NAMED(BED_INDICES_SHORT)
    NAMED(BED_FILE_CUT) NAMED(BED_FILE_SUM) NAMED(BED_FILE_KIND) NAMED(BED_FILE_ZERO) NAMED(BED_FILE_COUNTS)
    NAMED(BED_FILE_INDEX) NAMED(BED_FILE_NOT_FINITE) NAMED(BED_FILE_AFTER) NAMED(BED_FILE_ROOM) NAMED(BED_FILE_LISTS)
    NAMED(BED_LAYERS_FINISHED)
    NAMED(BED_PLAN_LIST) NAMED(BED_PLAN_BOX) NAMED(BED_WITNESS_WORDS) NAMED(BED_WITNESS_NONE)
    NAMED(BED_FIXTURE_CUT) NAMED(BED_FIXTURE_KIND) NAMED(BED_FIXTURE_DEEP) NAMED(BED_FIXTURE_WORD)
    NAMED(BED_FIXTURE_FLOAT) NAMED(BED_FIXTURE_AFTER) NAMED(BED_FIXTURE_HEIGHT) NAMED(BED_FIXTURE_ROOM)
    NAMED(BED_VOLUME_THREES) NAMED(BED_VOLUME_TOO_MANY) NAMED(BED_VOLUME_OUTSIDE) NAMED(BED_VOLUME_INDEX)
    NAMED(BED_CLOSE_HEIGHT) NAMED(BED_CLOSE_WALL) NAMED(BED_CLOSE_TOO_LARGE) NAMED(BED_CLOSE_ROOM)
    NAMED(BED_WEIGH_TOO_MANY) NAMED(BED_WEIGH_WIDE) NAMED(BED_LEVELS_HEIGHT) NAMED(BED_LEVELS_ROOM)
    NAMED(BED_TALLY_HEIGHT) NAMED(BED_TALLY_COUNTS)
    unsigned known = 0;
    for (uint32_t answer = 0; answer < 1000; answer++)
        known += strcmp(bed_answer_name(answer), "unknown") != 0;
    /* 0, 1 to 8, 21 to 30, 40 to 43, 51 to 56, 61 to 64, 71 to 78, 81 and 82, 91 and 92 */
    return known == 1 + 8 + 10 + 4 + 6 + 4 + 8 + 2 + 2 ? 0 : 1;
}

static int size(void)
{
    float triangle[9] = {0, 0, 0, 1, 0, 0, 0, 1, 0};
    uint32_t indices[3] = {0, 1, 2};
    uint8_t file[BED_MESH_FILE_SIZE(3, 1)];
    uint64_t bytes = 0, less = 1;
    uint32_t done = bed_write_mesh(triangle, 9, triangle, 9, indices, 3, file, sizeof file, &bytes);
    uint32_t short_of_one = bed_write_mesh(triangle, 9, triangle, 9, indices, 3, file, sizeof file - 1, &less);
    /* a product of 32 bits would not hold this */
    uint32_t many = 4294967295u;
    return done == BED_FILE_DONE && bytes == BED_MESH_FILE_SIZE(3, 1) && short_of_one == BED_FILE_ROOM && less == 0
                   && BED_MESH_FILE_SIZE(many, many) == UINT64_C(274877906912)
               ? 0
               : 1;
}

/* Document 01's Ball, asked about with a map and nothing else. */
static int told(void)
{
    float ball[27];
    uint64_t vertices = 0, indices = 0;
    for (int i = 0; i < 27; i++)
        ball[i] = i == 13 ? -1.0f : 1.0f;
    enum bed_call_answer wanted = BED_VERTICES_SHORT;
    uint32_t answer = bed_answer(ball, 27, &ball_box, 0, 0, 0, 0, 0, 27, 0, &vertices, &indices);
    return answer == (uint32_t)wanted && vertices == 8 && indices == 18 ? 0 : 1;
}

/* Why blocks are no plan: a tank from (1, 2, 3) to (7, 6, 8) with the max plane of y, and a lower block alone; with its upper block, which is a plan; with the
 * upper twice; and the refusals, which keep what stood there. */
static int witnesses(void)
{
    struct bed_box whole = {{0, 0, 0}, {1, 2, 3}, {7, 6, 8}, {0, 5, 0}};
    struct bed_box blocks[201] = {{{9, 9, 9}, {1, 2, 3}, {5, 6, 8}, {0, 1, 0}}, {{0, 0, 0}, {4, 2, 3}, {7, 6, 8}, {0, 1, 0}}};
    struct bed_witness gap = {0, {4, 3, 4}, BED_NO_BLOCK, BED_NO_BLOCK}, twice = {0, {4, 3, 4}, 1, 2}, kept = {6, {5, 4, 3}, 2, 1}, told = kept;
    const uint32_t *words = (const uint32_t *)blocks;
    if (sizeof told != 24 || bed_plan_witness(words, 12, &whole, &told) != BED_WITNESS_TOLD || memcmp(&told, &gap, sizeof told) != 0)
        return 1;
    told = kept;
    if (bed_plan_witness(words, 24, &whole, &told) != BED_WITNESS_NONE || bed_plan_witness(words, 23, &whole, &told) != BED_WITNESS_WORDS
        || bed_plan_witness(words, 12 * 201, &whole, &told) != BED_WITNESS_LIST || memcmp(&told, &kept, sizeof told) != 0)
        return 1;
    blocks[2] = blocks[1];
    if (bed_plan_witness(words, 36, &whole, &told) != BED_WITNESS_TOLD || memcmp(&told, &twice, sizeof told) != 0)
        return 1;
    blocks[2].min[1] = 16777217;
    told = kept;
    return bed_plan_witness(words, 36, &whole, &told) == BED_WITNESS_BOX && memcmp(&told, &kept, sizeof told) == 0 ? 0 : 1;
}

int main(void)
{
    if (names() != 0 || names_of_layers() != 0 || size() != 0 || rooms() != 0 || told() != 0 || witnesses() != 0) {
        puts("bed.h: not as it should be");
        return 1;
    }
    if (version() != 0) {
        puts("bed.h: another version than the library's");
        return 1;
    }
    if (sizeof(struct bed_box) != 48 || one_flag(0) != 0 || one_flag(1) != 0 || one_flag(2) != 0) {
        puts("bed.h: a max plane is taken for another's");
        return 1;
    }
    if (kept_memory(0) != 0 || kept_memory(255) != 0 || kept_memory(0x5a) != 0) {
        puts("bed.h: kept memory is not as it says");
        return 1;
    }
    printf("bed.h " BED_VERSION_STRING ": names and sizes as they should be\n");
    return 0;
}
