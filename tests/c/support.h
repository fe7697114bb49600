/* What the tests of the C interface share: assertions that end the program at the first that fails, drawn numbers, files with J = 1, also
 * opened, and a plain one of any J. Its functions are inline, as each program uses a part of them. */
#include "desk.h"

#include <inttypes.h>
#include <stdio.h>
#include <stdlib.h>
#include <string.h>

#define T INT64_C(1048576)
#define MOST_PART (INT64_C(1) << 26) /* a part of a mean is from minus this to this */
#define COUNT(array) (sizeof(array) / sizeof *(array))
enum { F_LENGTH = 118, F_RECORD = 17, F_PAGE = 84, F_RESIDUES = 24, LONGEST_FILE = 2806 };

static unsigned long checked; /* so many facts */
static const char *running;   /* the test's name */

static inline void expect(int line, const char *what, int holds) {
    checked++;
    if (!holds) {
        fprintf(stderr, "%s, line %d: not so: %s\n", running, line, what);
        exit(1);
    }
}

static inline void expect_refusal(int line, const char *call, desk_refusal got, uint64_t number, uint64_t place) {
    checked++;
    if (got.number != number || got.place != place) {
        fprintf(stderr, "%s, line %d: %s is refused with %" PRIu64 " at %" PRIu64 ", not with %" PRIu64 " at %" PRIu64 "\n",
                running, line, call, got.number, got.place, number, place);
        exit(1);
    }
}

#define RUN(test) (running = #test, test)
#define EXPECT(fact) expect(__LINE__, #fact, (fact))
#define EXPECT_DONE(refusal) expect_refusal(__LINE__, #refusal, (refusal), 0, 0)

/* The call is refused so, and the session stays as it was. */
#define EXPECT_REFUSED(session, refusal, number, place)                                                                        \
    do {                                                                                                                       \
        const desk_session before_call = *(session);                                                                           \
        expect_refusal(__LINE__, #refusal, (refusal), (number), (place));                                                      \
        EXPECT(memcmp(&before_call, (session), sizeof before_call) == 0);                                                      \
    } while (0)

static inline uint64_t drawn(void) { /* xorshift: the same numbers in every run */
    static uint64_t state = 88172645463325252;
    state ^= state << 13;
    state ^= state >> 7;
    return state ^= state << 17;
}

static inline int64_t drawn_part(void) {
    return (int64_t)(drawn() % (uint64_t)(2 * MOST_PART + 1)) - MOST_PART;
}

/* A big-endian field; a negative value in two's complement. */
static inline void put(uint8_t *bytes, size_t place, size_t width, uint64_t value) {
    for (size_t k = width; k-- > 0; value >>= 8) bytes[place + k] = (uint8_t)value;
}

static inline size_t record_of(uint8_t *record, const int64_t *parts, size_t count) {
    put(record, 0, 4, 5 + 4 * count);
    record[4] = 1;
    for (size_t k = 0; k < count; k++) put(record, 5 + 4 * k, 4, (uint64_t)parts[k]);
    return 5 + 4 * count;
}

/* A file with J = 1: variances of sigma 0, sigma 1, tau 0; priors of phi 0, phi 1, psi 0; amounts paid, then incurred. */
static inline void file_of(uint8_t file[F_LENGTH], uint64_t closeness, const uint64_t variances[3],
                           const int64_t prior_means[3], const uint64_t prior_variances[3], const uint64_t amounts[6]) {
    put(file, 0, 4, F_LENGTH);
    put(file, 4, 1, 1);
    put(file, 5, 1, 1);
    put(file, 6, 4, closeness);
    for (size_t k = 0; k < 3; k++) {
        put(file, 10 + 8 * k, 8, variances[k]);
        put(file, 34 + 12 * k, 4, (uint64_t)prior_means[k]);
        put(file, 38 + 12 * k, 8, prior_variances[k]);
    }
    for (size_t k = 0; k < 6; k++) put(file, 70 + 8 * k, 8, amounts[k]);
}

static inline void file_f(uint8_t file[F_LENGTH], uint64_t closeness) {
    const uint64_t variances[3] = {1 << 30, 1 << 30, 1 << 30};
    const int64_t prior_means[3] = {10 * T, T, -T};
    const uint64_t prior_variances[3] = {UINT64_C(1) << 46, UINT64_C(1) << 46, UINT64_C(1) << 46};
    const uint64_t amounts[6] = {1 << 10, 1 << 11, 1 << 10, 1 << 12, 1 << 11, 1 << 12};
    file_of(file, closeness, variances, prior_means, prior_variances, amounts);
}

/* A file whose amounts are all 1, so that each step is 0: every p and q is 65,536, every prior has mean 0 and weight 1. Its length is
 * given back. */
static inline size_t plain_file(uint8_t file[LONGEST_FILE], uint64_t last) {
    const size_t parts = 2 * last + 1, cells = (last + 1) * (last + 2), length = 10 + 20 * parts + 8 * cells;
    put(file, 0, 4, length);
    put(file, 4, 1, 1);
    put(file, 5, 1, last);
    put(file, 6, 4, 1);
    for (size_t k = 0; k < parts; k++) {
        put(file, 10 + 8 * k, 8, 1 << 30);
        put(file, 10 + 8 * parts + 12 * k, 4, 0);
        put(file, 10 + 8 * parts + 12 * k + 4, 8, UINT64_C(1) << 46);
    }
    for (size_t k = 0; k < cells; k++) put(file, 10 + 20 * parts + 8 * k, 8, 1);
    return length;
}

static inline desk_session opened(const uint8_t *file, size_t length) {
    desk_session s = DESK_EMPTY;
    EXPECT_DONE(desk_open(&s, file, length));
    return s;
}

static inline desk_session opened_f(uint64_t closeness) {
    uint8_t file[F_LENGTH];
    file_f(file, closeness);
    return opened(file, sizeof file);
}

/* The reference's spent_at_a_limit: phi 1 belongs near 66 doublings and is kept at 64, so its mean never passes. */
static inline void file_that_never_settles(uint8_t file[F_LENGTH]) {
    const uint64_t high = UINT64_C(1) << 40;
    const uint64_t variances[3] = {1 << 30, high, 1 << 18};
    const int64_t prior_means[3] = {0, 0, MOST_PART};
    const uint64_t prior_variances[3] = {UINT64_C(1) << 46, UINT64_C(1) << 46, 1 << 18};
    const uint64_t amounts[6] = {1, high, 1, 1, high, high};
    file_of(file, 1, variances, prior_means, prior_variances, amounts);
}

static inline desk_judgement judged(const desk_session *s, int64_t phi_0, int64_t phi_1, int64_t psi_0) {
    const int64_t parts[3] = {phi_0, phi_1, psi_0};
    uint8_t record[F_RECORD];
    const desk_session before = *s;
    const desk_judgement answer = desk_judge(s, record, record_of(record, parts, 3));
    EXPECT(memcmp(&before, s, sizeof before) == 0);
    return answer;
}

static inline void expect_passed(desk_judgement answer) {
    EXPECT_DONE(answer.refusal);
    EXPECT(answer.passed == 1);
}
