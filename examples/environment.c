/* environment.c: the mesher in other floating-point environments, through bed.h's guard and without it.
 *
 * For each environment it calls twice. Through the guard every number must be as in the default environment,
 * and the caller's environment must stand afterwards as before; without it some number must be another, or
 * the program could not see a guard that does nothing. Exit status: 0 it is so; 1 not. */

#define _POSIX_C_SOURCE 200112L
#include "bed.h"

#include <signal.h>
#include <stdio.h>
#include <stdlib.h>
#include <string.h>
#include <sys/wait.h>
#include <unistd.h>

/* The processor's control register, and what stands in it in each environment. */

struct environment {
    const char *name;
    unsigned long control;
};

#if defined(__x86_64__)
static unsigned long control(void) { return _mm_getcsr(); }
static void set_control(unsigned long word) { _mm_setcsr((unsigned)word); }

enum { FLAGS = 0x3F, TRAPS_ON = 0, DEFAULT = 0x1F80, FLUSH_TO_ZERO = 0, SUBNORMALS_ARE_ZERO = 1 };
static const struct environment environments[] = {
    {"flush to zero", 0x9F80},     {"denormals are zero", 0x1FC0}, {"both of these", 0x9FC0},
    {"rounding down", 0x3F80},     {"rounding up", 0x5F80},        {"rounding toward zero", 0x7F80},
    {"all but traps", 0xFFC0},
};
#elif defined(__aarch64__)
static unsigned long control(void)
{
    unsigned long word;
    __asm__ volatile("mrs %0, fpcr" : "=r"(word));
    return word;
}
static void set_control(unsigned long word) { __asm__ volatile("msr fpcr, %0" : : "r"(word) : "memory"); }

enum { FLAGS = 0, DEFAULT = 0, SUBNORMALS_ARE_ZERO = 0 };
static const struct environment environments[] = {
    {"flush to zero", 1ul << 24},
    {"rounding up", 1ul << 22},
    {"rounding down", 2ul << 22},
    {"rounding toward zero", 3ul << 22},
};
#else
#error "another processor: say what its environments are"
#endif

/* One call on a grid of SIDE points an axis, with room enough for any mesh of it. */

enum { SIDE = 6, POINTS = SIDE * SIDE * SIDE, CELLS = (SIDE - 1) * (SIDE - 1) * (SIDE - 1) };

struct outcome {
    float positions[3 * CELLS], normals[3 * CELLS];
    uint32_t cells[3 * CELLS], strides[CELLS], map[POINTS], indices[18 * CELLS];
    uint8_t crossings[CELLS];
    uint64_t vertices, index_count;
    uint32_t answer, enclosed_answer;
    bool enclosed;
};

static float grid[POINTS];

static void call(struct outcome *o)
{
    static const struct bed_box whole = {
        { SIDE, SIDE, SIDE }, { 0, 0, 0 }, { SIDE - 1, SIDE - 1, SIDE - 1 }, { 1, 1, 1 } };
    o->answer = bed_surface_nets(
        grid, POINTS, &whole,
        o->positions, 3 * CELLS, o->normals, 3 * CELLS, o->cells, 3 * CELLS, o->strides, CELLS,
        o->crossings, CELLS, o->map, POINTS, o->indices, 18 * CELLS, &o->vertices, &o->index_count);
    o->enclosed_answer = bed_is_enclosed(grid, POINTS, &whole, &o->enclosed);
}

static void call_through_guard(struct outcome *o)
{
    bed_environment kept = bed_enter_environment();
    call(o);
    bed_leave_environment(kept);
}

/* A call in an environment; the default one stands again afterwards. Says whether the environment stood
 * after the call as before it, the flags of exceptions apart where the call is not guarded. */
static bool call_in(unsigned long word, bool guarded, struct outcome *o)
{
    memset(o, 0, sizeof *o);
    set_control(word);
    if (guarded)
        call_through_guard(o);
    else
        call(o);
    unsigned long after = control();
    set_control(DEFAULT);
    return guarded ? after == word : (after & ~(unsigned long)FLAGS) == word;
}

/* The grids. No arithmetic on floats: they are made of bits. */

static float float_of(uint32_t bits)
{
    float f;
    memcpy(&f, &bits, sizeof f);
    return f;
}

static void fill_all(uint32_t bits)
{
    for (int i = 0; i < POINTS; i++)
        grid[i] = float_of(bits);
}

/* Of both signs: subnormal, near the least normal number, and near one. */
static void fill_with_all_sizes(void)
{
    uint32_t state = 0x0BED5EED;
    for (int i = 0; i < POINTS; i++) {
        state ^= state << 13;
        state ^= state >> 17;
        state ^= state << 5;
        uint32_t exponent = state % 3 == 0 ? 0 : state % 3 == 1 ? 1 + (state >> 8) % 3 : 125 + (state >> 8) % 4;
        grid[i] = float_of((state & 0x80000000) | exponent << 23 | (state >> 4 & 0x7FFFFF));
    }
}

/* All 1.0 but one subnormal number below zero, on the box's side: one cell's corner, and not enclosed. */
static void fill_with_one_subnormal(void)
{
    fill_all(0x3F800000);
    grid[0] = float_of(0x800AE398);
}

static int failures;

static void judge(const char *what, const char *name, bool good)
{
    if (!good)
        failures++;
    printf("%-22s %-22s %s\n", name, what, good ? "as it should be" : "NOT AS IT SHOULD BE");
}

static bool same(const struct outcome *a, const struct outcome *b) { return memcmp(a, b, sizeof *a) == 0; }

#if defined(__x86_64__)
/* What x86-64 alone can do: flush results to zero and not operands, and trap. */

/* Of both signs, all subnormal. */
static void fill_with_subnormals(void)
{
    fill_with_all_sizes();
    for (int i = 0; i < POINTS; i++) {
        uint32_t bits;
        memcpy(&bits, &grid[i], sizeof bits);
        grid[i] = float_of((bits & 0x807FFFFF) | 1);
    }
}

/* By its bits: under -ffast-math a compiler may take it that there is none. */
static bool some_not_a_number(const struct outcome *o)
{
    for (uint64_t i = 0; i < 3 * o->vertices; i++) {
        uint32_t bits;
        memcpy(&bits, &o->positions[i], sizeof bits);
        if ((bits & 0x7FFFFFFF) > 0x7F800000)
            return true;
    }
    return false;
}

/* Whether a child that calls with every trap on is killed by one. */
static bool dies_of_a_trap(bool guarded)
{
    static struct outcome o;
    fflush(stdout);
    pid_t child = fork();
    if (child == 0) {
        call_in(TRAPS_ON, guarded, &o);
        _exit(0);
    }
    int status = 0;
    return waitpid(child, &status, 0) == child && WIFSIGNALED(status) && WTERMSIG(status) == SIGFPE;
}
#endif

int main(void)
{
    static struct outcome wanted, got;
    const size_t n = sizeof environments / sizeof *environments;

    fill_with_all_sizes();
    call_in(DEFAULT, false, &wanted);
    judge("has faces", "default", wanted.answer == BED_DONE && wanted.index_count > 0);
    judge("through the guard", "default", call_in(DEFAULT, true, &got) && same(&got, &wanted));
    for (size_t i = 0; i < n; i++) {
        const struct environment *e = &environments[i];
        bool kept = call_in(e->control, true, &got);
        judge("through the guard", e->name, kept && same(&got, &wanted));
        kept = call_in(e->control, false, &got);
        judge("without it: other bits", e->name, kept && !same(&got, &wanted));
    }

    fill_with_one_subnormal();
    call_in(DEFAULT, false, &wanted);
    judge("a vertex, not enclosed", "default", wanted.answer == 0 && wanted.vertices == 1 && !wanted.enclosed);
    const struct environment *zero = &environments[SUBNORMALS_ARE_ZERO];
    call_in(zero->control, true, &got);
    judge("the same, guarded", zero->name, same(&got, &wanted));
    call_in(zero->control, false, &got);
    judge("without it: enclosed", zero->name, got.answer == 0 && got.vertices == 0 && got.enclosed);

#if defined(__x86_64__)
    fill_with_subnormals();
    call_in(environments[FLUSH_TO_ZERO].control, true, &got);
    judge("through the guard", "subnormal numbers", got.answer == BED_DONE && !some_not_a_number(&got));
    call_in(environments[FLUSH_TO_ZERO].control, false, &got);
    judge("without it: no numbers", "subnormal numbers", got.answer == BED_DONE && some_not_a_number(&got));

    fill_with_all_sizes();
    judge("through the guard", "traps", !dies_of_a_trap(true));
    judge("without it: killed", "traps", dies_of_a_trap(false));
#endif
    puts(failures == 0 ? "ALL GOOD" : "NOT GOOD");
    return failures != 0;
}
