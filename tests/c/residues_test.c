/* Residues from C: file F by hand, with a step struck and without priors; the order of refusals and what they leave; buffers of every
 * length; and files of every J, with drawn numbers, flat priors and strikes, as the figures give them. */
#include "support.h"

/* The record of a mean of F beside its exact one, and its residues: 131,073, 32,768 and -98,305. */
static const uint8_t BESIDE_F[F_RECORD] = "\0\0\0\x11\1\0\xA0\0\1\0\x10\0\0\xFF\xEF\xFF\xFF";
static const uint8_t WRITTEN[F_RESIDUES] = "\0\0\0\0\0\2\0\1\0\0\0\0\0\0\x80\0\xFF\xFF\xFF\xFF\xFF\xFE\x7F\xFF";

static int64_t residue_at(const uint8_t *buffer, size_t part) {
    uint64_t bits = 0;
    for (size_t byte = 0; byte < 8; byte++) bits = bits << 8 | buffer[8 * part + byte];
    return (int64_t)bits;
}

/* In 64 bits that wrap, so that a sum which leaves them on the way is right at its end. */
static int64_t by_the_matrix(const desk_system *shown, const int64_t *parts, size_t part) {
    uint64_t residue = 0 - (uint64_t)shown->right_hand[part];
    for (size_t l = 0; l <= 2 * shown->last; l++) residue += (uint64_t)shown->matrix[part][l] * (uint64_t)parts[l];
    return (int64_t)residue;
}

/* Record and buffer are lent from the heap, where valgrind sees a byte that is read or written behind them. */
static void expect_as_the_figures(const desk_session *s, const int64_t *parts) {
    const desk_session before = *s;
    const desk_system shown = desk_figures(s);
    const size_t count = 2 * shown.last + 1, length = 5 + 4 * count, size = 8 * count;
    uint8_t *record = malloc(length), *buffer = malloc(size);
    EXPECT(record != NULL && buffer != NULL && record_of(record, parts, count) == length);
    EXPECT_DONE(desk_residues(s, record, length, buffer, size));
    int passes = 1;
    for (size_t k = 0; k < count; k++) {
        const int64_t residue = residue_at(buffer, k);
        EXPECT(residue == by_the_matrix(&shown, parts, k));
        passes = passes && (uint64_t)llabs(residue) <= shown.closeness * shown.own[k];
    }
    EXPECT(desk_judge(s, record, length).passed == (uint64_t)passes);
    EXPECT(memcmp(&before, s, sizeof before) == 0);
    free(record);
    free(buffer);
}

static void expect_residues(const desk_session *s, const int64_t parts[3], int64_t phi_0, int64_t phi_1, int64_t psi_0) {
    uint8_t record[F_RECORD], buffer[F_RESIDUES];
    EXPECT_DONE(desk_residues(s, record, record_of(record, parts, 3), buffer, sizeof buffer));
    EXPECT(residue_at(buffer, 0) == phi_0 && residue_at(buffer, 1) == phi_1 && residue_at(buffer, 2) == psi_0);
}

static const int64_t EXACT[3] = {10 * T, T, -T}, UP[3] = {10 * T + 1, T, -T}, PHI_1[3] = {10 * T, T + 1, -T}, ZERO[3] = {0, 0, 0};

static void test_file_f(void) {
    desk_session s = opened_f(1);
    expect_residues(&s, EXACT, 0, 0, 0);
    expect_residues(&s, UP, 131073, 0, 0);
    expect_residues(&s, PHI_1, 0, 98305, -32768);
    expect_residues(&s, ZERO, -1310730 * T, -131073 * T, 131073 * T);
    EXPECT_DONE(desk_strike(&s, DESK_PAID, 0, 0));
    expect_residues(&s, EXACT, 0, 0, 0);
    expect_residues(&s, UP, 65537, 0, 0);
    expect_residues(&s, ZERO, -655370 * T, -131073 * T, 131073 * T);
}

/* The mean of a prior that weighs nothing counts for nothing, wherever it is. */
static void test_without_priors(void) {
    uint8_t file[F_LENGTH];
    for (int far = 0; far <= 1; far++) {
        file_f(file, 1);
        for (size_t k = 0; k < 3; k++) put(file, 38 + 12 * k, 8, 0);
        if (far) put(file, 34, 4, (uint64_t)-MOST_PART);
        const desk_session s = opened(file, sizeof file);
        expect_residues(&s, EXACT, 0, 0, 0);
        expect_residues(&s, UP, 131072, 0, 0);
        expect_residues(&s, PHI_1, 0, 98304, -32768);
    }
}

/* It is refused so, with room and without, and leaves the buffer as it was. */
static void expect_refused(const desk_session *s, const uint8_t *record, size_t length, uint64_t number, uint64_t place) {
    uint8_t buffer[DESK_LONGEST_RESIDUES], untouched[DESK_LONGEST_RESIDUES];
    memset(buffer, 0xA5, sizeof buffer);
    memset(untouched, 0xA5, sizeof untouched);
    EXPECT_REFUSED(s, desk_residues(s, record, length, buffer, sizeof buffer), number, place);
    EXPECT_REFUSED(s, desk_residues(s, record, length, buffer, F_RESIDUES - 1), number, place);
    EXPECT_REFUSED(s, desk_residues(s, record, length, NULL, 0), number, place);
    EXPECT(memcmp(buffer, untouched, sizeof buffer) == 0);
}

/* What judge refuses, with the same number and place. */
static void expect_record_refused(const desk_session *s, const uint8_t *record, size_t length, uint64_t number, uint64_t place) {
    const desk_session none = DESK_EMPTY;
    EXPECT_REFUSED(s, desk_judge(s, record, length).refusal, number, place);
    expect_refused(s, record, length, number, place);
    expect_refused(&none, record, length, 21, 0);
}

static void test_refusals(void) {
    const int64_t parts[7] = {10 * T, T, -T};
    desk_session s = opened_f(1), closed = s;
    uint8_t record[33];
    desk_close(&closed);
    expect_refused(&closed, BESIDE_F, sizeof BESIDE_F, 21, 0);
    expect_record_refused(&s, NULL, 0, 1, 0);
    for (size_t cut = 0; cut < sizeof BESIDE_F; cut++) expect_record_refused(&s, BESIDE_F, cut, 1, 0);
    for (size_t count = 0; count <= 7; count++) {
        const size_t length = record_of(record, parts, count);
        if (count != 3) expect_record_refused(&s, record, length, 4, 0);
        record[4] = 2; /* 2 comes before 4 */
        expect_record_refused(&s, record, length, 2, 4);
    }
    for (size_t part = 0; part < 3; part++) {
        for (int sign = -1; sign <= 1; sign += 2) {
            const size_t length = record_of(record, parts, 3);
            put(record, 5 + 4 * part, 4, (uint64_t)(sign * (MOST_PART + 1)));
            expect_record_refused(&s, record, length, 11, 5 + 4 * part);
        }
    }
}

static void test_buffers(void) {
    const desk_session s = opened_f(1);
    for (size_t size = 0; size <= 64; size++) {
        uint8_t buffer[64], expected[64];
        memset(buffer, 0xA5, sizeof buffer);
        memset(expected, 0xA5, sizeof expected);
        if (size >= sizeof WRITTEN) memcpy(expected, WRITTEN, sizeof WRITTEN);
        EXPECT_REFUSED(&s, desk_residues(&s, BESIDE_F, sizeof BESIDE_F, buffer, size), size >= sizeof WRITTEN ? 0 : 13, 0);
        EXPECT(memcmp(buffer, expected, sizeof buffer) == 0);
    }
    EXPECT_REFUSED(&s, desk_residues(&s, BESIDE_F, sizeof BESIDE_F, NULL, 0), 13, 0);
}

/* Variances, priors and amounts of any size, or all weights and steps as large as they can be; of some parts no prior. */
static desk_session opened_drawn(uint64_t last, int largest) {
    static uint8_t file[LONGEST_FILE];
    const size_t length = plain_file(file, last), parts = 2 * last + 1, cells = (last + 1) * (last + 2);
    put(file, 6, 4, 1 + drawn() % 65536);
    for (size_t k = 0; k < parts; k++) {
        put(file, 10 + 8 * k, 8, largest ? 1 << 18 : UINT64_C(1) << (18 + drawn() % 23));
        put(file, 10 + 8 * parts + 12 * k, 4, (uint64_t)(largest ? (drawn() % 2 ? MOST_PART : -MOST_PART) : drawn_part()));
        put(file, 10 + 8 * parts + 12 * k + 4, 8, drawn() % 3 == 0 ? 0 : largest ? 1 << 18 : UINT64_C(1) << (18 + drawn() % 29));
    }
    uint8_t *amounts = file + 10 + 20 * parts;
    for (size_t k = 0; k < cells; k++) put(amounts, 8 * k, 8, largest && drawn() % 2 ? 1 : UINT64_C(1) << (largest ? 44 : drawn() % 45));
    memcpy(amounts + 4 * cells + 8 * last, amounts + 8 * last, 8); /* year 0 ends with one amount */
    return opened(file, length);
}

static void expect_means(const desk_session *s, uint64_t last) {
    int64_t parts[31];
    for (int round = 0; round < 6; round++) { /* at either limit, phi and psi apart, drawn */
        for (size_t k = 0; k <= 2 * last; k++) {
            const int high = round < 2 ? round : round < 4 ? (round == 2) == (k <= last) : (int)(drawn() % 2);
            parts[k] = round == 5 ? drawn_part() : high ? MOST_PART : -MOST_PART;
        }
        expect_as_the_figures(s, parts);
    }
    expect_as_the_figures(s, s->mean);
}

static void test_every_j(void) {
    for (uint64_t last = 1; last <= 15; last++) {
        for (int round = 0; round < 6; round++) {
            desk_session s = opened_drawn(last, round % 2);
            expect_means(&s, last);
            for (uint64_t k = 0; k < last * last; k++) desk_strike(&s, drawn() % 2, drawn() % (last + 1), drawn() % (last + 1));
            expect_means(&s, last);
            EXPECT_DONE(desk_sweep(&s, 3).refusal);
            expect_means(&s, last);
        }
    }
}

int main(void) {
    RUN(test_file_f)();
    RUN(test_without_priors)();
    RUN(test_refusals)();
    RUN(test_buffers)();
    RUN(test_every_j)();
    printf("%lu\n", checked);
    return 0;
}
