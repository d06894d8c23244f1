/* plan.c: a tank's block plan that no run of cuts makes, checked from C; and that struct bed_block lies in memory as
 * bed.h says. */
#include <stddef.h>
#include <stdio.h>

#include "bed.h"

_Static_assert(sizeof(struct bed_block) == 28 && _Alignof(struct bed_block) == 4, "a block is 28 bytes, aligned to 4");
_Static_assert(offsetof(struct bed_block, min_x) == 0 && offsetof(struct bed_block, min_z) == 8, "min comes first");
_Static_assert(offsetof(struct bed_block, max_x) == 12 && offsetof(struct bed_block, max_z) == 20, "then max");
_Static_assert(offsetof(struct bed_block, max_plane_x) == 24 && offsetof(struct bed_block, max_plane_y) == 25
                   && offsetof(struct bed_block, max_plane_z) == 26,
               "then the flags, a byte each");

int main(void)
{
    struct bed_block blocks[] = {
        {0, 0, 0, 3, 2, 3, false, false, false},
        {2, 0, 0, 4, 3, 3, false, false, false},
        {1, 2, 0, 4, 4, 3, false, false, false},
        {0, 1, 0, 2, 4, 3, false, false, false},
        {1, 1, 0, 3, 3, 3, false, false, false},
    };
    bool holds = false;
    uint32_t answer = bed_check_plan(blocks, 5, 0, 0, 0, 4, 4, 3, false, false, false, &holds);
    printf("pinwheel: answer %u, %s\n", (unsigned)answer, holds ? "yes" : "no");
    if (answer != BED_PLAN_CHECKED || !holds) {
        return 1;
    }
    /* each field is read where it stands: changed alone, the plan is none */
    for (int field = 0; field < 9; field++) {
        struct bed_block kept = blocks[0];
        switch (field) {
        case 0: blocks[0].min_x += 1; break;
        case 1: blocks[0].min_y += 1; break;
        case 2: blocks[0].min_z += 1; break;
        case 3: blocks[0].max_x += 1; break;
        case 4: blocks[0].max_y += 1; break;
        case 5: blocks[0].max_z += 1; break;
        case 6: blocks[0].max_plane_x = true; break;
        case 7: blocks[0].max_plane_y = true; break;
        case 8: blocks[0].max_plane_z = true; break;
        }
        holds = true;
        answer = bed_check_plan(blocks, 5, 0, 0, 0, 4, 4, 3, false, false, false, &holds);
        if (answer != BED_PLAN_CHECKED || holds) {
            printf("field %d is not read\n", field);
            return 1;
        }
        blocks[0] = kept;
    }
    holds = true;
    answer = bed_check_plan(NULL, 0, 1, 0, 0, 0, 4, 3, false, false, false, &holds);
    printf("min above max: answer %u, %s\n", (unsigned)answer, holds ? "yes" : "no");
    return answer == BED_PLAN_BOX && !holds ? 0 : 1;
}
