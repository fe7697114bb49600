/* Writes a file of the desk from plain numbers, field after field as docs/SPECIFICATION.md has them in "The file". It needs no library:
 *
 *     cc -std=c11 samples/write_file.c -o write_file && ./write_file f.file && ./run f.file
 *
 * Compiled with -DWITH_DESK -Iinclude, and linked with target/staticlib/libdesk.a, it opens the file too and lists its mean. */
#include <inttypes.h>
#include <stdint.h>
#include <stdio.h>

#ifdef WITH_DESK
#include "desk.h"
#endif

enum { J = 1, PARTS = 2 * J + 1, LENGTH = 10 + 20 * PARTS + 8 * (J + 1) * (J + 2) };
enum { T = 1048576 }; /* ticks of a doubling */

static const uint64_t CLOSENESS = 1;                          /* ticks */
static const uint64_t SIGMA[J + 1] = {1 << 30, 1 << 30};      /* variances, in squared ticks */
static const uint64_t TAU[J] = {1 << 30};
static const int64_t PRIOR_MEANS[PARTS] = {10 * T, T, -T};    /* ticks: of phi 0, phi 1, then psi 0; a variance of 0 is no prior */
static const uint64_t PRIOR_VARIANCES[PARTS] = {UINT64_C(1) << 46, UINT64_C(1) << 46, UINT64_C(1) << 46};
static const uint64_t PAID[J + 1][J + 1] = {{1024, 2048}, {1024}}; /* cumulative amounts: a row for each accident year */
static const uint64_t INCURRED[J + 1][J + 1] = {{4096, 2048}, {4096}};

static uint8_t file[LENGTH];
static size_t written;

/* The next field: the highest byte first, a negative number in two's complement. */
static void put(uint64_t number, int bytes) {
    for (int k = bytes - 1; k >= 0; k--) file[written++] = (uint8_t)(number >> 8 * k);
}

/* Accident year i has the development years 0 to J - i. */
static void put_triangle(const uint64_t amounts[J + 1][J + 1]) {
    for (int i = 0; i <= J; i++) {
        for (int j = 0; j <= J - i; j++) put(amounts[i][j], 8);
    }
}

static void put_file(void) {
    put(LENGTH, 4);
    put(1, 1); /* the version of the format */
    put(J, 1);
    put(CLOSENESS, 4);
    for (int j = 0; j <= J; j++) put(SIGMA[j], 8);
    for (int j = 0; j < J; j++) put(TAU[j], 8);
    for (int part = 0; part < PARTS; part++) {
        put((uint64_t)PRIOR_MEANS[part], 4);
        put(PRIOR_VARIANCES[part], 8);
    }
    put_triangle(PAID);
    put_triangle(INCURRED);
}

#ifdef WITH_DESK
/* A part of a mean record: 4 bytes in two's complement, behind the length and the version. */
static int32_t part_of(const uint8_t *record, int part) {
    uint32_t bits = 0;
    for (int k = 0; k < 4; k++) bits = bits << 8 | record[5 + 4 * part + k];
    return (int32_t)bits;
}

static int list_mean(void) {
    desk_session session = DESK_EMPTY;
    desk_sweeping swept = {{0, 0}, 0, 0};
    uint8_t record[DESK_LONGEST_RECORD];
    desk_refusal refusal = desk_open(&session, file, sizeof file);
    if (refusal.number == 0) refusal = (swept = desk_sweep(&session, DESK_MOST_SWEEPS)).refusal;
    if (refusal.number == 0) refusal = desk_read(&session, record, sizeof record); /* 24 where the mean did not settle */
    if (refusal.number != 0) {
        fprintf(stderr, "refused %" PRIu64 " at %" PRIu64 ": %s\n", refusal.number, refusal.place, desk_refusal_text(refusal.number));
        return 1;
    }
    printf("J %d\nsweeps %" PRIu64 "\n", J, swept.total);
    for (int j = 0; j <= J; j++) printf("phi %d %" PRId32 "\n", j, part_of(record, j));
    for (int j = 0; j < J; j++) printf("psi %d %" PRId32 "\n", j, part_of(record, J + 1 + j));
    return 0;
}
#endif

int main(int count, char **arguments) {
    put_file();
    FILE *out = count == 2 ? fopen(arguments[1], "wb") : NULL;
    if (out == NULL || fwrite(file, 1, written, out) != LENGTH || fclose(out) != 0) {
        fprintf(stderr, "usage: write_file OUT, a file that can be written\n");
        return 2;
    }
#ifdef WITH_DESK
    return list_mean();
#else
    return 0;
#endif
}
