/* Sessions of arbitrary bytes: every call answers, and changes nothing where it is refused. */
#include "support.h"

static int is_one_of(uint64_t number, const uint64_t *numbers) { /* which a 0 ends: the call may also do its job */
    while (*numbers != 0 && *numbers != number) numbers++;
    return *numbers == number;
}

/* Whether there are so many bytes, in lines of 28, and zeros behind. */
static int are_lines(const uint8_t page[DESK_LONGEST_PAGE], size_t length) {
    for (size_t k = 0; k < DESK_LONGEST_PAGE; k++) {
        if ((page[k] == '\n') != (k < length && k % 28 == 27) || (page[k] == 0) != (k >= length)) return 0;
    }
    return 1;
}

/* A record, a page and an ultimate are refused alike; where they are not, the page has a line for each part, nothing is written behind,
 * and the ultimate is inside what its limits allow. */
static void expect_written_alike(const desk_session *s) {
    static const uint64_t WRITE[] = {21, 24, 0};
    uint8_t record[DESK_LONGEST_RECORD], page[DESK_LONGEST_PAGE] = {0};
    const uint64_t number = desk_page(s, page, sizeof page).number;
    EXPECT(is_one_of(number, WRITE));
    EXPECT(desk_read(s, record, sizeof record).number == number);
    EXPECT(are_lines(page, number == 0 ? 28 * (2 * s->held[0] + 1) : 0));
    const desk_projection found = desk_ultimate(s, number == 0 ? s->held[0] : drawn());
    EXPECT(found.refusal.number == number && found.refusal.place == 0);
    EXPECT(llabs(found.floor) <= 16 * MOST_PART && found.divisor <= UINT64_C(30) << 40);
    EXPECT(number == 0 ? found.remainder < found.divisor : found.floor == 0 && found.remainder == 0 && found.divisor == 0);
}

/* The residues of a mean are refused as it is by judge; where they are not, there is a number for each part, whatever the observations and
 * the marks are, and nothing is written behind. */
static void expect_residues(const desk_session *s) {
    uint8_t record[DESK_LONGEST_RECORD], buffer[DESK_LONGEST_RESIDUES + 1], untouched[DESK_LONGEST_RESIDUES + 1];
    int64_t parts[31];
    const size_t count = s->held[0] <= 15 ? 2 * s->held[0] + 1 : 3;
    for (size_t k = 0; k < count; k++) parts[k] = drawn_part();
    const size_t length = record_of(record, parts, count);
    memset(buffer, 0xA5, sizeof buffer);
    memset(untouched, 0xA5, sizeof untouched);
    const desk_refusal judged = desk_judge(s, record, length).refusal;
    EXPECT(judged.number == 0 || judged.number == 21);
    if (judged.number == 0) {
        EXPECT_REFUSED(s, desk_residues(s, record, length, buffer, 8 * count - 1), 13, 0);
        EXPECT(memcmp(buffer, untouched, sizeof buffer) == 0);
        EXPECT_REFUSED(s, desk_residues(s, record, length, buffer, sizeof buffer), 0, 0);
        EXPECT(memcmp(buffer + 8 * count, untouched, sizeof buffer - 8 * count) == 0);
    } else {
        EXPECT_REFUSED(s, desk_residues(s, record, length, buffer, sizeof buffer), 21, 0);
        EXPECT(memcmp(buffer, untouched, sizeof buffer) == 0);
    }
}

/* Whatever is marked as struck: a strike is done or refused, by state and channel first. Done, it begins all anew, and the step is out. */
static void expect_strikes(desk_session *s) {
    static const uint64_t STRIKE[] = {26, 27, 0};
    for (int round = 0; round < 6; round++) {
        const uint64_t channel = drawn() % 3, year = drawn() % 17, column = round < 3 ? drawn() % 3 : drawn();
        const int is_open = desk_figures(s).refusal.number == 0;
        const desk_session before = *s;
        const desk_refusal refusal = desk_strike(s, channel, year, column);
        EXPECT(refusal.place == 0);
        EXPECT(!is_open ? refusal.number == 21 : channel == 2 ? refusal.number == 14 : is_one_of(refusal.number, STRIKE));
        if (refusal.number != 0) {
            EXPECT(memcmp(&before, s, sizeof before) == 0);
            continue;
        }
        EXPECT(s->held[0] == before.held[0] && s->held[1] == before.held[1] && s->held[2] == 0);
        EXPECT_REFUSED(s, desk_strike(s, channel, year, column), 26, 0);
        EXPECT_DONE(desk_figures(s).refusal);
        expect_written_alike(s);
        expect_residues(s);
    }
}

/* Of a file with one of its fields spoiled, each of the checks 1 to 10 in turn, an open leaves every byte of the session. */
static void expect_refused_files(desk_session *s, const uint8_t good[F_LENGTH]) {
    static const struct { size_t at; uint8_t byte; uint64_t number, place; } SPOILED[] = {
        {3, 0, 1, 0}, {4, 2, 2, 4}, {5, 0, 3, 5}, {5, 2, 4, 0}, {6, 1, 5, 6}, {10, 1, 6, 10},
        {38, 1, 7, 38}, {34, 127, 8, 34}, {70, 1, 9, 70}, {85, 1, 10, 78},
    };
    for (size_t k = 0; k < sizeof SPOILED / sizeof SPOILED[0]; k++) {
        uint8_t file[F_LENGTH];
        memcpy(file, good, sizeof file);
        file[SPOILED[k].at] = SPOILED[k].byte;
        EXPECT_REFUSED(s, desk_open(s, file, sizeof file), SPOILED[k].number, SPOILED[k].place);
    }
}

/* Every call on a session that no call has made: it answers, and changes nothing where it is refused. */
static void expect_answers(desk_session *s) {
    static const uint64_t JUDGE[] = {21, 4, 0}, SWEEP[] = {21, 23, 0}, OPEN[] = {22, 0};
    uint8_t file[F_LENGTH], record[F_RECORD];
    const int64_t parts[3] = {MOST_PART, -MOST_PART, 0};
    file_f(file, 1);
    desk_session before = *s;
    EXPECT(is_one_of(desk_judge(s, record, record_of(record, parts, 3)).refusal.number, JUDGE));
    expect_written_alike(s);
    expect_residues(s);
    EXPECT((desk_figures(s).refusal.number == 21) == (desk_sweep(s, 0).refusal.number == 21));
    EXPECT(memcmp(&before, s, sizeof before) == 0);
    const desk_sweeping swept = desk_sweep(s, drawn() % DESK_MOST_SWEEPS + 1);
    EXPECT(is_one_of(swept.refusal.number, SWEEP));
    EXPECT(swept.refusal.number == 0 || memcmp(&before, s, sizeof before) == 0);
    expect_strikes(s);
    before = *s;
    const desk_refusal refusal = desk_open(s, file, sizeof file);
    EXPECT(is_one_of(refusal.number, OPEN));
    EXPECT(refusal.number == 0 || memcmp(&before, s, sizeof before) == 0);
    desk_close(s);
    EXPECT_REFUSED(s, desk_sweep(s, 1).refusal, 21, 0);
    expect_refused_files(s, file);
    EXPECT_DONE(desk_open(s, file, sizeof file));
    expect_passed(judged(s, 10 * T, T, -T));
}

static void test_arbitrary_sessions(void) {
    desk_session s;
    uint8_t *bytes = (uint8_t *)&s;
    for (int value = 0; value <= 0xFF; value++) {
        memset(&s, value, sizeof s);
        expect_answers(&s);
    }
    for (int round = 0; round < 200; round++) { /* drawn bytes, with heads from none right to all right */
        for (size_t k = 0; k < sizeof s; k++) bytes[k] = (uint8_t)drawn();
        if (round % 2) s.held[0] = drawn() % 18;
        if (round % 3) s.held[1] = drawn() % 65538;
        if (round % 5) s.held[2] = drawn() % 4098;
        expect_answers(&s);
    }
    for (int round = 0; round < 200; round++) { /* an open session with a byte changed */
        s = opened_f(1 + drawn() % 65536);
        bytes[drawn() % sizeof s] ^= (uint8_t)(1 + drawn() % 255);
        expect_answers(&s);
    }
    for (int round = 0; round < 200; round++) { /* an open session whose observations and marks are anything */
        s = opened_f(1);
        for (size_t k = offsetof(desk_session, ticks); k < sizeof s; k++) bytes[k] = (uint8_t)drawn();
        if (round % 2) memset(s.struck, round % 4 == 1 ? 0xFF : 0, sizeof s.struck);
        expect_answers(&s);
    }
    for (int round = 0; round < 200; round++) { /* one of the fields in use at an extreme */
        s = opened_f(1);
        int64_t *fields[] = {&s.matrix[drawn() % 65], &s.right_hand[drawn() % 3], &s.mean[drawn() % 3]};
        *fields[round % 3] = round % 2 ? INT64_MIN : INT64_MAX;
        s.own[drawn() % 3] = round % 7 ? s.own[0] : UINT64_MAX;
        expect_answers(&s);
    }
}

int main(void) {
    RUN(test_arbitrary_sessions)();
    printf("%lu\n", checked);
    return 0;
}
