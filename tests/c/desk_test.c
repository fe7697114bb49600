/* The C interface, call by call: answers, numbers and places of refusals, what a refusal leaves unchanged, null with length 0, and
 * sizes. Expected numbers are the specification's; those of the sample and of the file that never settles are the reference's.
 * Arguments: the sample's file, its listing and its page. */
#include "support.h"

/* The calls that write into a lent buffer, and what each writes for F. */
typedef desk_refusal writing(const desk_session *s, uint8_t *buffer, size_t length);
static const struct { writing *call; size_t length; const char *written; } WRITING[] = {
    {desk_read, F_RECORD, "\0\0\0\x11\1\0\xA0\0\0\0\x10\0\0\xFF\xF0\0\0"},
    {desk_page, F_PAGE, "phi  0  10485760     131073\nphi  1   1048576      65537\npsi  0  -1048576      65537\n"},
};

/* They are refused so, with room and without, and leave the buffer as it was; and so is an ultimate, of whatever year. */
static void expect_writing_refused(const desk_session *s, uint64_t number) {
    uint8_t buffer[DESK_LONGEST_PAGE], untouched[DESK_LONGEST_PAGE];
    memset(buffer, 0xA5, sizeof buffer);
    memset(untouched, 0xA5, sizeof untouched);
    for (size_t k = 0; k < COUNT(WRITING); k++) {
        EXPECT_REFUSED(s, WRITING[k].call(s, buffer, sizeof buffer), number, 0);
        EXPECT_REFUSED(s, WRITING[k].call(s, buffer, 1), number, 0);
        EXPECT_REFUSED(s, WRITING[k].call(s, NULL, 0), number, 0);
    }
    EXPECT(memcmp(buffer, untouched, sizeof buffer) == 0);
    EXPECT_REFUSED(s, desk_ultimate(s, 1).refusal, number, 0);
    EXPECT_REFUSED(s, desk_ultimate(s, 0).refusal, number, 0);
}

static void expect_fails(desk_judgement answer, uint64_t part) {
    EXPECT_DONE(answer.refusal);
    EXPECT(answer.passed == 0 && answer.part == part);
}

/* What the header declares is what the library was built with. */
static void test_sizes(void) {
    static const desk_session ZEROS;
    const desk_session s = DESK_EMPTY;
    EXPECT(desk_fits() == 1);
    EXPECT(desk_size(8) == 496 && desk_size(9) == 0 && desk_size(UINT64_MAX) == 0);
    uint64_t numbers = 0;
    for (uint64_t array = 0; array < 8; array++) {
        numbers += desk_size(array);
    }
    EXPECT(sizeof s == 8 * numbers + desk_size(8)); /* the marks of steps have one byte each */
    EXPECT(memcmp(&s, &ZEROS, sizeof s) == 0);
}

static void test_figures_of_f(void) {
    desk_session s = opened_f(1);
    expect_passed(judged(&s, 10 * T, T, -T));
    expect_passed(judged(&s, 10 * T + 1, T, -T));
    expect_fails(judged(&s, 10 * T + 2, T, -T), 0);
    expect_fails(judged(&s, 10 * T, T + 1, -T), 1);
    const desk_sweeping swept = desk_sweep(&s, DESK_MOST_SWEEPS);
    EXPECT_DONE(swept.refusal);
    EXPECT(swept.settled == 1 && swept.total == 0);
    desk_close(&s);
    const desk_session wider = opened_f(2);
    expect_passed(judged(&wider, 10 * T, T + 1, -T));
}

/* The same numbers whatever stands above the diagonal or behind the parts, of which nothing counts. */
static void test_system_of_f(void) {
    static const desk_system F = {
        .last = 1, .closeness = 1, .own = {131073, 65537, 65537},
        .matrix = {{131073, 0, 0}, {0, 98305, -32768}, {0, -32768, 98305}},
        .right_hand = {1310730 * T, 131073 * T, -131073 * T},
    };
    static const desk_system NONE = {.refusal = {21, 0}};
    desk_session s = opened_f(1);
    for (int spoiled = 0; spoiled <= 1; spoiled++) {
        const desk_session before = s;
        const desk_system shown = desk_figures(&s);
        EXPECT(memcmp(&shown, &F, sizeof F) == 0);
        EXPECT(memcmp(&before, &s, sizeof s) == 0);
        for (size_t k = 0; k < 31; k++) {
            for (size_t l = k < 3 ? k + 1 : 0; l < 31; l++) s.matrix[31 * k + l] = INT64_MIN;
            if (k >= 3) s.own[k] = UINT64_MAX, s.right_hand[k] = s.mean[k] = INT64_MIN;
        }
    }
    s.held[1] = 65537; /* no session that a call leaves */
    for (int closed = 0; closed <= 1; closed++) {
        const desk_system shown = desk_figures(&s);
        EXPECT(memcmp(&shown, &NONE, sizeof NONE) == 0);
        desk_close(&s);
    }
}

/* F with prior variances of 0: each prior weighs nothing, and its mean is where the sweep starts. */
static void test_without_priors(void) {
    static const desk_system FLAT = {
        .last = 1, .closeness = 1, .own = {131072, 65536, 65536},
        .matrix = {{131072, 0, 0}, {0, 98304, -32768}, {0, -32768, 98304}},
        .right_hand = {1310720 * T, 131072 * T, -131072 * T},
    };
    uint8_t file[F_LENGTH];
    for (int far = 0; far <= 1; far++) {
        file_f(file, 1);
        for (size_t k = 0; k < 3; k++) put(file, 38 + 12 * k, 8, 0);
        if (far) put(file, 34, 4, (uint64_t)-MOST_PART);
        desk_session s = opened(file, sizeof file);
        const desk_system shown = desk_figures(&s);
        EXPECT(memcmp(&shown, &FLAT, sizeof FLAT) == 0);
        EXPECT(s.mean[0] == (far ? -MOST_PART : 10 * T));
        const desk_sweeping swept = desk_sweep(&s, DESK_MOST_SWEEPS);
        EXPECT_DONE(swept.refusal);
        EXPECT(swept.settled && swept.total == (uint64_t)far && s.mean[0] == 10 * T);
    }
}

/* One field of F changed, and the refusal that this must give. */
static const struct { size_t place, width; uint64_t value, number, refused_at; } SPOILED[] = {
    {0, 4, 117, 1, 0},
    {4, 1, 0, 2, 4},
    {4, 1, 2, 2, 4},
    {5, 1, 0, 3, 5},
    {5, 1, 16, 3, 5},
    {5, 1, 2, 4, 0},
    {6, 4, 0, 5, 6},
    {6, 4, 65537, 5, 6},
    {10, 8, (1 << 18) - 1, 6, 10},
    {26, 8, (UINT64_C(1) << 40) + 1, 6, 26},
    {38, 8, (1 << 18) - 1, 7, 38},
    {50, 8, 1, 7, 50},
    {62, 8, (UINT64_C(1) << 46) + 1, 7, 62},
    {34, 4, (uint64_t)(-MOST_PART - 1), 8, 34},
    {58, 4, (uint64_t)(MOST_PART + 1), 8, 58},
    {70, 8, (UINT64_C(1) << 44) + 1, 9, 70},
    {86, 8, (UINT64_C(1) << 44) + 1, 9, 86},
    {86, 8, 0, 9, 86},
    {94, 8, (UINT64_C(1) << 44) + 1, 9, 94},
    {110, 8, (UINT64_C(1) << 44) + 1, 9, 110},
    {110, 8, 0, 9, 110},
    {102, 8, 1 << 12, 10, 78},
};

static void expect_row_refused(desk_shown row, uint64_t number, uint64_t place) {
    expect_refusal(__LINE__, "desk_row", row.refusal, number, place);
    EXPECT(row.length == 0);
}

static void expect_file_refused(const uint8_t *file, size_t length, uint64_t number, uint64_t place) {
    desk_session s = DESK_EMPTY;
    EXPECT_REFUSED(&s, desk_open(&s, file, length), number, place);
    expect_row_refused(desk_row(file, length, 2, 99), number, place); /* 1 to 10 come before 14 and 15 */
}

static void test_files_refused(void) {
    uint8_t file[F_LENGTH + 8] = {0};
    for (size_t k = 0; k < COUNT(SPOILED); k++) {
        file_f(file, 1);
        put(file, SPOILED[k].place, SPOILED[k].width, SPOILED[k].value);
        expect_file_refused(file, F_LENGTH, SPOILED[k].number, SPOILED[k].refused_at);
    }
    file_f(file, 1);
    for (size_t length = 0; length < F_LENGTH; length++) expect_file_refused(file, length, 1, 0);
    expect_file_refused(NULL, 0, 1, 0);
    put(file, 0, 4, F_LENGTH + 8);
    expect_file_refused(file, F_LENGTH + 8, 4, 0);
    file_f(file, 1); /* 7 before 8, although its place is behind */
    put(file, 34, 4, (uint64_t)(MOST_PART + 1));
    put(file, 62, 8, 1);
    expect_file_refused(file, F_LENGTH, 7, 62);
}

static void test_limits_are_taken(void) {
    static const struct { size_t place, width; uint64_t low, high; } LIMITS[] = {
        {6, 4, 1, 65536},
        {10, 8, 1 << 18, UINT64_C(1) << 40},
        {34, 4, (uint64_t)-MOST_PART, (uint64_t)MOST_PART},
        {38, 8, 1 << 18, UINT64_C(1) << 46},
        {86, 8, 1, UINT64_C(1) << 44},
    };
    for (size_t k = 0; k < COUNT(LIMITS); k++) {
        for (int high = 0; high <= 1; high++) {
            uint8_t file[F_LENGTH];
            file_f(file, 1);
            put(file, LIMITS[k].place, LIMITS[k].width, high ? LIMITS[k].high : LIMITS[k].low);
            desk_session s = opened(file, sizeof file);
            EXPECT_REFUSED(&s, desk_open(&s, file, sizeof file), 22, 0);
        }
    }
}

static void test_nothing_open(void) {
    desk_session s = DESK_EMPTY;
    for (int closed = 0; closed <= 1; closed++) { /* a new session, then one that was closed */
        const int64_t parts[3] = {0, 0, 0};
        uint8_t record[F_RECORD];
        EXPECT_REFUSED(&s, desk_judge(&s, record, record_of(record, parts, 3)).refusal, 21, 0);
        EXPECT_REFUSED(&s, desk_judge(&s, NULL, 0).refusal, 21, 0);
        EXPECT_REFUSED(&s, desk_residues(&s, record, sizeof record, NULL, 0), 21, 0);
        EXPECT_REFUSED(&s, desk_residues(&s, NULL, 0, NULL, 0), 21, 0);
        EXPECT_REFUSED(&s, desk_sweep(&s, 1).refusal, 21, 0);
        EXPECT_REFUSED(&s, desk_sweep(&s, 0).refusal, 21, 0);
        expect_writing_refused(&s, 21);
        EXPECT_REFUSED(&s, desk_figures(&s).refusal, 21, 0);
        EXPECT_REFUSED(&s, desk_strike(&s, DESK_PAID, 0, 0), 21, 0);
        s = opened_f(1);
        desk_close(&s);
    }
}

static void test_open_twice(void) {
    uint8_t file[F_LENGTH];
    file_f(file, 1);
    desk_session s = opened(file, sizeof file);
    EXPECT_REFUSED(&s, desk_open(&s, file, sizeof file), 22, 0);
    EXPECT_REFUSED(&s, desk_open(&s, NULL, 0), 22, 0);
    desk_close(&s);
    desk_close(&s);
    EXPECT_DONE(desk_open(&s, file, sizeof file));
}

static void test_judge_refused(void) {
    const desk_session s = opened_f(1);
    const int64_t parts[7] = {10 * T, T, -T};
    uint8_t record[33];
    EXPECT_REFUSED(&s, desk_judge(&s, NULL, 0).refusal, 1, 0);
    const size_t length = record_of(record, parts, 3);
    for (size_t cut = 0; cut < length; cut++) EXPECT_REFUSED(&s, desk_judge(&s, record, cut).refusal, 1, 0);
    record[4] = 0;
    EXPECT_REFUSED(&s, desk_judge(&s, record, length).refusal, 2, 4);
    for (size_t count = 0; count <= 7; count++) {
        if (count != 3) EXPECT_REFUSED(&s, desk_judge(&s, record, record_of(record, parts, count)).refusal, 4, 0);
    }
    for (size_t part = 0; part < 3; part++) {
        record_of(record, parts, 3);
        for (int sign = -1; sign <= 1; sign += 2) {
            put(record, 5 + 4 * part, 4, (uint64_t)(sign * (MOST_PART + 1)));
            EXPECT_REFUSED(&s, desk_judge(&s, record, length).refusal, 11, 5 + 4 * part);
            EXPECT(desk_judge(&s, record, length).passed == 0);
        }
    }
    expect_fails(judged(&s, MOST_PART, -MOST_PART, -MOST_PART), 0);
}

static void test_numbers_of_sweeps_refused(void) {
    static const uint64_t OUTSIDE[] = {0, DESK_MOST_SWEEPS + 1, UINT64_C(1) << 32, (UINT64_C(1) << 32) + 1, UINT64_MAX};
    desk_session s = opened_f(1);
    for (size_t k = 0; k < COUNT(OUTSIDE); k++) {
        EXPECT_REFUSED(&s, desk_sweep(&s, OUTSIDE[k]).refusal, 12, 0);
        EXPECT(desk_sweep(&s, OUTSIDE[k]).settled == 0);
    }
}

static void test_spent(void) {
    uint8_t file[F_LENGTH];
    file_that_never_settles(file);
    desk_session s = opened(file, sizeof file);
    uint64_t total = 0;
    for (uint64_t n = 1; total < DESK_MOST_SWEEPS; n *= 2) {
        const desk_sweeping swept = desk_sweep(&s, n);
        EXPECT_DONE(swept.refusal);
        total = total + n < DESK_MOST_SWEEPS ? total + n : DESK_MOST_SWEEPS;
        EXPECT(swept.settled == 0 && swept.total == total);
    }
    EXPECT_REFUSED(&s, desk_sweep(&s, 1).refusal, 23, 0);
    EXPECT_REFUSED(&s, desk_sweep(&s, 0).refusal, 12, 0);
    expect_writing_refused(&s, 24);
}

static void expect_written(writing *call, size_t length, const char *written, size_t size) {
    const desk_session s = opened_f(1), before = s;
    uint8_t buffer[128], expected[128];
    memset(buffer, 0xA5, sizeof buffer);
    memset(expected, 0xA5, sizeof expected);
    if (size >= length) {
        memcpy(expected, written, length);
        EXPECT_DONE(call(&s, buffer, size));
        EXPECT(memcmp(&before, &s, sizeof s) == 0);
    } else {
        EXPECT_REFUSED(&s, call(&s, buffer, size), 13, 0);
    }
    EXPECT(memcmp(buffer, expected, sizeof buffer) == 0);
}

static void test_buffers(void) {
    const desk_session s = opened_f(1);
    for (size_t k = 0; k < COUNT(WRITING); k++) {
        for (size_t size = 0; size <= 128; size++) expect_written(WRITING[k].call, WRITING[k].length, WRITING[k].written, size);
        EXPECT_REFUSED(&s, WRITING[k].call(&s, NULL, 0), 13, 0);
    }
}

static void expect_row(const uint8_t *file, size_t length, uint64_t channel, uint64_t year, uint64_t start, uint64_t bytes) {
    const desk_shown row = desk_row(file, length, channel, year);
    EXPECT_DONE(row.refusal);
    EXPECT(row.start == start && row.length == bytes);
}

static void test_rows_of_f(void) {
    static const uint64_t FAR[] = {2, 256, UINT64_C(1) << 32, UINT64_MAX}; /* their low bytes are inside */
    uint8_t file[F_LENGTH];
    file_f(file, 1);
    expect_row(file, sizeof file, DESK_PAID, 0, 70, 16);
    expect_row(file, sizeof file, DESK_PAID, 1, 86, 8);
    expect_row(file, sizeof file, DESK_INCURRED, 0, 94, 16);
    expect_row(file, sizeof file, DESK_INCURRED, 1, 110, 8);
    for (size_t k = 0; k < COUNT(FAR); k++) {
        expect_row_refused(desk_row(file, sizeof file, FAR[k], 2), 14, 0);
        expect_row_refused(desk_row(file, sizeof file, DESK_INCURRED, FAR[k]), 15, 0);
    }
}

static size_t contents(const char *name, uint8_t *bytes, size_t room) {
    FILE *file = fopen(name, "rb");
    EXPECT(file != NULL);
    const size_t length = fread(bytes, 1, room, file);
    EXPECT(fclose(file) == 0 && length < room);
    return length;
}

/* The listing that the reference made of the sample: J, sweeps, and the mean part by part. */
static size_t parts_of_listing(const char *name, uint64_t *last, uint64_t *sweeps, int64_t parts[31]) {
    FILE *listing = fopen(name, "r");
    EXPECT(listing != NULL);
    EXPECT(fscanf(listing, "J %" SCNu64 " sweeps %" SCNu64, last, sweeps) == 2);
    size_t count = 0;
    while (count < 31 && fscanf(listing, " %*s %*u %" SCNd64, &parts[count]) == 1) count++;
    EXPECT(fclose(listing) == 0 && count == 2 * *last + 1);
    return count;
}

/* As the reference made it. */
static void expect_page(const desk_session *s, const char *name) {
    uint8_t page[DESK_LONGEST_PAGE + 1], buffer[DESK_LONGEST_PAGE];
    const size_t length = contents(name, page, sizeof page);
    EXPECT_REFUSED(s, desk_page(s, buffer, length - 1), 13, 0);
    EXPECT_DONE(desk_page(s, buffer, length));
    EXPECT(memcmp(buffer, page, length) == 0);
}

static void test_sample(const char *sample, const char *listing, const char *page) {
    static uint8_t file[LONGEST_FILE + 1];
    uint64_t last, sweeps;
    int64_t parts[31];
    uint8_t record[DESK_LONGEST_RECORD], buffer[DESK_LONGEST_RECORD];
    const size_t length = contents(sample, file, sizeof file);
    const size_t record_length = record_of(record, parts, parts_of_listing(listing, &last, &sweeps, parts));
    desk_session s = opened(file, length);
    for (uint64_t total = 1; total <= sweeps; total++) {
        expect_writing_refused(&s, 24);
        const desk_sweeping swept = desk_sweep(&s, 1);
        EXPECT_DONE(swept.refusal);
        EXPECT(swept.total == total && swept.settled == (total == sweeps));
    }
    expect_passed(desk_judge(&s, record, record_length));
    EXPECT_DONE(desk_read(&s, buffer, sizeof buffer));
    EXPECT(memcmp(buffer, record, record_length) == 0);
    expect_page(&s, page);
    uint64_t start = 10 + 20 * (2 * last + 1); /* the paid block, and behind it the incurred one */
    for (uint64_t channel = DESK_PAID; channel <= DESK_INCURRED; channel++) {
        for (uint64_t year = 0; year <= last; start += 8 * (last - year + 1), year++) {
            expect_row(file, length, channel, year, start, 8 * (last - year + 1));
        }
    }
    EXPECT(start == length);
}

int main(int count, char **arguments) {
    if (count != 4) {
        fprintf(stderr, "usage: desk_test SAMPLE LISTING PAGE\n");
        return 2;
    }
    RUN(test_sizes)();
    RUN(test_figures_of_f)();
    RUN(test_system_of_f)();
    RUN(test_without_priors)();
    RUN(test_files_refused)();
    RUN(test_limits_are_taken)();
    RUN(test_nothing_open)();
    RUN(test_open_twice)();
    RUN(test_judge_refused)();
    RUN(test_numbers_of_sweeps_refused)();
    RUN(test_spent)();
    RUN(test_buffers)();
    RUN(test_rows_of_f)();
    RUN(test_sample)(arguments[1], arguments[2], arguments[3]);
    printf("%lu\n", checked);
    return 0;
}
