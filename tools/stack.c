/* How many bytes of stack a call of each operation takes. No proof speaks of it, and what the compiler puts into which frame moves with who calls whom.
 * Each call runs on a stack of its own that was painted before; what is painted no more was taken. From the project's root:
 *
 *     gcc -O2 tools/stack.c -Iinclude -Lcrates/abi/out -labi -o target/stack && target/stack
 *
 * -L names the folder of the archive that is measured. The code is that of m = 8, n = 288, k = 200; every call is accepted. */
#include <stdio.h>
#include <stdlib.h>
#include <string.h>
#include <ucontext.h>

#include "vakhudle.h"

enum { N = 288, K = 200, HOURS = K * 8 / 15, STACK = 1 << 18, PAINT = 0xA5 };

static uint8_t xs[N], ys[N], coefficients[K], symbols[N], received[N], trusts[N], message[K], block[K], mask[40], rows[K * N], state[64];
static uint8_t work[VAKHUDLE_WORKING_SPACE], answer[VAKHUDLE_SHEET_ROOM];
static uint16_t places[N], chosen[K];
static uint32_t stamps[60], figures[VAKHUDLE_FIGURES];
static int16_t readings[60], means[HOURS];
static const char sheet[] = "field=8\ncurve=0,0,1,0,0\ndimension=2\nplaces=1,3\nmessage=1,2\n";
static unsigned char stack[STACK];
static ucontext_t here, there;
static int32_t result;

#define CODE 8, 0, 0, 1, 0, g6, xs, N, ys, N, K
#define WORK work, sizeof work
static uint8_t g6;

static void nothing(void) { result = 0; }
static void points(void) { result = vakhudle_points(8, 0, 0, 1, 0, g6, xs, N, ys, N); }
static void means_of(void) { result = vakhudle_means(stamps, 60, readings, 60, 0, means, 1); }
static void fresh(void) { result = vakhudle_rolling_fresh(state, sizeof state); }
static void rolling(void) { result = vakhudle_rolling(state, sizeof state, 7, 100, means, 1); }
static void plain(void) { result = vakhudle_plain(CODE, coefficients, K, symbols, N); }
static void heard(void) { result = vakhudle_heard(CODE, mask, sizeof mask, places, N); }
static void pack(void) { result = vakhudle_pack(CODE, means, HOURS, block, K); }
static void unpack(void) { result = vakhudle_unpack(CODE, block, K, means, HOURS); }
static void recover(void) { result = vakhudle_recover(CODE, symbols, N, coefficients, K, WORK); }
static void function(void) { result = vakhudle_systematic_function(CODE, chosen, K, message, K, coefficients, K, WORK); }
static void word(void) { result = vakhudle_systematic_word(CODE, chosen, K, message, K, symbols, N, WORK); }
static void matrix(void) { result = vakhudle_matrix(CODE, chosen, K, rows, sizeof rows, WORK); }
static void relation(void) { result = vakhudle_relation(CODE, places, K, coefficients, K, WORK); }
static void pick(void) { result = vakhudle_pick(CODE, places, N, chosen, K, WORK); }
static void rebuild(void) { result = vakhudle_rebuild(CODE, places, N, symbols, N, received, N, WORK); }
static void correct(void) { result = vakhudle_correct(CODE, received, N, symbols, N, WORK); }
static void best(void) { result = vakhudle_best(CODE, received, N, trusts, N, 2000, symbols, N, figures, VAKHUDLE_FIGURES, WORK); }
static void job(void) { result = vakhudle_sheet((const uint8_t *)sheet, sizeof sheet - 1, answer, sizeof answer); }

/* In an order in which each finds what it needs: Heard lists all places, of which Pick keeps k. */
static const struct {
    const char *name;
    void (*call)(void);
} calls[] = {{"Points", points},          {"Means", means_of},
             {"fresh state", fresh},      {"Rolling", rolling},
             {"Plain", plain},            {"Heard", heard},
             {"Pack", pack},              {"Unpack", unpack},
             {"Recover", recover},        {"Pick", pick},
             {"Relation", relation},      {"Systematic function", function},
             {"Systematic word", word},   {"Matrix", matrix},
             {"Rebuild", rebuild},        {"Correct", correct},
             {"Best", best},              {"job sheet", job}};

static size_t taken_by(void (*call)(void)) {
    memset(stack, PAINT, STACK);
    getcontext(&there);
    there.uc_stack.ss_sp = stack;
    there.uc_stack.ss_size = STACK;
    there.uc_link = &here;
    makecontext(&there, call, 0);
    swapcontext(&here, &there);
    size_t i = 0;
    while (i < STACK && stack[i] == PAINT) i++;
    return STACK - i;
}

int main(void) {
    while (vakhudle_points(8, 0, 0, 1, 0, g6, xs, N, ys, N) != N) {
        if (++g6 == 0) return 2;
    }
    for (int i = 0; i < 60; i++) stamps[i] = (uint32_t)i + 1;
    for (int i = 0; i < K; i++) coefficients[i] = (uint8_t)(7 * i + 1), message[i] = (uint8_t)(11 * i + 5);
    for (int i = 0; i < N; i++) trusts[i] = (uint8_t)(13 * i);
    memset(mask, 0xFF, N / 8);
    size_t empty = taken_by(nothing);
    for (size_t i = 0; i < sizeof calls / sizeof *calls; i++) {
        size_t taken = taken_by(calls[i].call) - empty;
        if (result < 0) {
            printf("%s was refused: %d\n", calls[i].name, (int)-result);
            return 1;
        }
        printf("%s: %zu\n", calls[i].name, taken);
    }
    return 0;
}
