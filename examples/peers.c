/* What the decode matrix costs for 60 heard of 80 places, over a thousand fresh choices, beside what one would take instead. Not part of the gate.
 * On Debian, with libisal-dev, libjerasure-dev, libm4rie-dev and libm4ri-dev, from the project's root:
 *
 *     (cd crates/abi && rt lib) && gcc -O2 examples/peers.c -Iinclude -I/usr/include/jerasure -Lcrates/abi/out -labi \
 *         -lisal -lJerasure -lm4rie -lm4ri -o target/peers && target/peers
 *
 * ISA-L and Jerasure invert the 60 rows of the heard places of a systematic Cauchy code over 256 elements, whose first 60 places are the message.
 * M4RIE and ours make the 60 by 80 generator matrix of the code at the points of Y^2 + Y = X^3 over 64 elements the unit matrix at the heard places.
 * Only that is timed, not filling in what they start from; ours tests the code, too. */
#include <stdio.h>
#include <stdlib.h>
#include <string.h>
#include <time.h>

#include <isa-l/erasure_code.h>
#include <jerasure.h>
#include <m4rie/m4rie.h>

#include "vakhudle.h"

enum { N = 80, K = 60, CHOICES = 1000, OURS = 0, ISAL, JERASURE, M4RIE, SIDES };

static const char *const names[SIDES] = {"vakhudle_matrix", "ISA-L gf_invert_matrix", "jerasure_invert_matrix", "M4RIE mzed_echelonize"};
static double times[SIDES][CHOICES], ratios[SIDES][CHOICES];
static uint8_t xs[288], ys[288], ours[K * N], work[VAKHUDLE_WORKING_SPACE];

static double now(void) {
    struct timespec t;
    clock_gettime(CLOCK_MONOTONIC, &t);
    return t.tv_sec * 1e9 + t.tv_nsec;
}

static void demand(int holds, const char *what) {
    if (!holds) {
        printf("%s\n", what);
        exit(1);
    }
}

/* K places, ascending, as Heard lists them. */
static void choose(uint16_t *places) {
    for (int p = 0, count = 0; count < K; p++) {
        if (rand() % (N - p) < K - count) places[count++] = p + 1;
    }
}

/* Answers 0, or minus the refusal's number. */
static int32_t time_ours(const uint16_t *places, double *time) {
    double start = now();
    int32_t answer = vakhudle_matrix(6, 0, 0, 1, 0, 0, xs, N, ys, N, K, places, K, ours, sizeof ours, work, sizeof work);
    *time = now() - start;
    return answer;
}

/* Both invert the same matrix over the same field, so that each is a check of the other. */
static void time_inversions(const uint16_t *places, const unsigned char *code, double *isal, double *jerasure) {
    unsigned char in[K * K], out[K * K];
    int in_too[K * K], out_too[K * K];
    for (int i = 0; i < K; i++) memcpy(in + i * K, code + (places[i] - 1) * K, K);
    for (int i = 0; i < K * K; i++) in_too[i] = in[i];
    double start = now();
    int failed = gf_invert_matrix(in, out, K);
    *isal = now() - start;
    start = now();
    int failed_too = jerasure_invert_matrix(in_too, out_too, K, 8);
    *jerasure = now() - start;
    demand(!failed && !failed_too, "not inverted");
    for (int i = 0; i < K * K; i++) demand(out[i] == out_too[i], "ISA-L and Jerasure differ");
}

/* The monomials 1, X, Y, X^2, XY, .. at all points, those of the heard places first; the result must be our matrix. */
static void time_echelon(const uint16_t *places, gf2e *field, double *time) {
    int order[N], next = K;
    for (int p = 0, i = 0; p < N; p++) {
        if (i < K && places[i] == p + 1) order[i++] = p;
        else order[next++] = p;
    }
    mzed_t *rows = mzed_init(field, K, N);
    for (int i = 0; i < N; i++) {
        word x = xs[order[i]], values[K] = {1, x, ys[order[i]]};
        for (int j = 3; j < K; j++) values[j] = gf2e_mul(field, x, values[j - 2]);
        for (int j = 0; j < K; j++) mzed_write_elem(rows, j, i, values[j]);
    }
    double start = now();
    rci_t rank = mzed_echelonize(rows, 1);
    *time = now() - start;
    demand(rank == K, "dependent");
    for (int j = 0; j < K; j++) {
        for (int i = 0; i < N; i++) demand(mzed_read_elem(rows, j, i) == ours[j * N + order[i]], "M4RIE and ours differ");
    }
    mzed_free(rows);
}

static int compare(const void *a, const void *b) {
    double d = *(const double *)a - *(const double *)b;
    return (d > 0) - (d < 0);
}

static double median(double *list) {
    qsort(list, CHOICES, sizeof *list, compare);
    return list[CHOICES / 2];
}

int main(void) {
    unsigned char code[N * K];
    gf_gen_cauchy1_matrix(code, N, K);
    gf2e *field = gf2e_init(0x43);
    demand(vakhudle_points(6, 0, 0, 1, 0, 0, xs, sizeof xs, ys, sizeof ys) == N, "not 80 points");
    srand(7);
    for (int c = 0; c < CHOICES; c++) {
        uint16_t places[K];
        /* about one choice of 64 is dependent, and another is drawn */
        do choose(places);
        while (time_ours(places, &times[OURS][c]) < 0);
        time_inversions(places, code, &times[ISAL][c], &times[JERASURE][c]);
        time_echelon(places, field, &times[M4RIE][c]);
        for (int side = 0; side < SIDES; side++) ratios[side][c] = times[side][c] / times[OURS][c];
    }
    gf2e_free(field);
    printf("| the decode matrix, 60 heard of 80 | median (ns) | ours is times as fast |\n|---|---|---|\n");
    for (int side = 0; side < SIDES; side++) printf("| %s | %.0f | %.1f |\n", names[side], median(times[side]), median(ratios[side]));
    return 0;
}
