/* Strikes from C: file F by hand, the order of refusals, numbers of any 64 bits, what begins anew, every step of every J, and marks
 * that no call has left. */
#include "support.h"

#define TOP (UINT64_C(1) << 63)
#define WORD (UINT64_C(1) << 32)

/* F without x_(0,0): of phi 0 the other step and the prior are left, at 10 doublings both, of weight 65,536 and 1. */
static const desk_system F_LEFT = {
    .last = 1, .closeness = 1, .own = {65537, 65537, 65537},
    .matrix = {{65537, 0, 0}, {0, 98305, -32768}, {0, -32768, 98305}},
    .right_hand = {655370 * T, 131073 * T, -131073 * T},
};

static void expect_system(const desk_session *s, const desk_system *wanted) {
    const desk_system shown = desk_figures(s);
    EXPECT(memcmp(&shown, wanted, sizeof shown) == 0);
}

static void test_file_f(void) {
    for (uint64_t year = 0; year <= 1; year++) { /* both steps of the column are alike */
        desk_session s = opened_f(1);
        const desk_session before = s;
        EXPECT_DONE(desk_strike(&s, DESK_PAID, year, 0));
        expect_system(&s, &F_LEFT);
        for (size_t mark = 0; mark < sizeof s.struck; mark++) EXPECT((s.struck[mark] != 0) == (mark == year));
        EXPECT(memcmp(s.ticks, before.ticks, sizeof s.ticks) == 0);
        EXPECT(memcmp(s.weights, before.weights, sizeof s.weights) == 0);
        EXPECT(memcmp(s.variances, before.variances, sizeof s.variances) == 0);
        expect_passed(judged(&s, 10 * T + 1, T, -T));
        EXPECT(judged(&s, 10 * T + 2, T, -T).part == 0 && judged(&s, 10 * T, T + 1, -T).part == 1);
        EXPECT(desk_ultimate(&s, 1).floor == 11 * T);
        char page[F_PAGE];
        EXPECT_DONE(desk_page(&s, (uint8_t *)page, sizeof page));
        EXPECT(memcmp(page, "phi  0  10485760      65537\n", 28) == 0);
    }
}

/* Channel, year and column, and the number that refuses them in F. A sum or a place that wraps would be inside. */
static const struct { uint64_t channel, year, column, number; } REFUSED[] = {
    {2, 0, 0, 14}, {256, 0, 0, 14}, {257, 2, 2, 14}, {WORD, 0, 0, 14}, {WORD + 1, 0, 1, 14}, {TOP, 0, 0, 14}, {UINT64_MAX, 0, 0, 14},
    {0, 1, 1, 26}, {0, 2, 0, 26}, {0, 0, 2, 26}, {0, 256, 0, 26}, {0, 0, 256, 26}, {0, WORD, 0, 26}, {0, 0, WORD, 26},
    {0, WORD + 1, 0, 26}, {0, 0, WORD + 1, 26}, {0, 0, UINT64_C(1) << 60, 26}, {0, TOP, TOP, 26}, {0, UINT64_MAX, 0, 26},
    {0, 0, UINT64_MAX, 26}, {0, UINT64_MAX, 1, 26}, {0, 1, UINT64_MAX, 26}, {0, UINT64_MAX, 2, 26}, {0, UINT64_MAX, UINT64_MAX, 26},
    {1, 0, 1, 26}, {1, 1, 0, 26}, {1, 1, 1, 26}, {1, WORD, 0, 26}, {1, 0, WORD, 26}, {1, TOP, TOP, 26}, {1, UINT64_MAX, 1, 26},
    {1, 1, UINT64_MAX, 26}, {1, 0, UINT64_MAX - 1, 26}, {1, UINT64_MAX, UINT64_MAX, 26},
    {0, 0, 1, 27}, {1, 0, 0, 27},
};

static void test_refusals(void) {
    desk_session none = DESK_EMPTY, s = opened_f(1), closed = s;
    desk_close(&closed);
    for (size_t k = 0; k < COUNT(REFUSED); k++) {
        const uint64_t channel = REFUSED[k].channel, year = REFUSED[k].year, column = REFUSED[k].column;
        EXPECT_REFUSED(&none, desk_strike(&none, channel, year, column), 21, 0);
        EXPECT_REFUSED(&closed, desk_strike(&closed, channel, year, column), 21, 0);
        EXPECT_REFUSED(&s, desk_strike(&s, channel, year, column), REFUSED[k].number, 0);
    }
    EXPECT_DONE(desk_strike(&s, DESK_PAID, 0, 0));
    EXPECT_REFUSED(&s, desk_strike(&s, DESK_PAID, 0, 0), 26, 0);
    EXPECT_REFUSED(&s, desk_strike(&s, DESK_PAID, 1, 0), 27, 0);
    EXPECT_REFUSED(&s, desk_strike(&s, 2, 0, 0), 14, 0);
    for (size_t k = 0; k < COUNT(REFUSED); k++) {
        EXPECT_REFUSED(&s, desk_strike(&s, REFUSED[k].channel, REFUSED[k].year, REFUSED[k].column), REFUSED[k].number, 0);
    }
}

/* The prior means and no sweep, which a refused strike does not bring back. */
static void test_begins_anew(void) {
    uint8_t file[F_LENGTH];
    file_that_never_settles(file);
    desk_session s = opened(file, sizeof file);
    int64_t priors[31];
    memcpy(priors, s.mean, sizeof priors);
    EXPECT(desk_sweep(&s, DESK_MOST_SWEEPS).total == DESK_MOST_SWEEPS);
    EXPECT(memcmp(priors, s.mean, sizeof priors) != 0);
    EXPECT_REFUSED(&s, desk_strike(&s, DESK_PAID, 0, 1), 27, 0);
    EXPECT_REFUSED(&s, desk_sweep(&s, 1).refusal, 23, 0);
    EXPECT_DONE(desk_strike(&s, DESK_PAID, 0, 0));
    EXPECT(memcmp(priors, s.mean, sizeof priors) == 0);
    EXPECT(desk_sweep(&s, 3).total == 3);
}

static void test_close_forgets(void) {
    uint8_t file[F_LENGTH];
    file_f(file, 1);
    const desk_session fresh = opened(file, sizeof file);
    desk_session s = fresh;
    EXPECT_DONE(desk_strike(&s, DESK_PAID, 1, 0));
    EXPECT_REFUSED(&s, desk_open(&s, file, sizeof file), 22, 0);
    desk_close(&s);
    EXPECT_DONE(desk_open(&s, file, sizeof file));
    EXPECT(memcmp(&fresh, &s, sizeof s) == 0);
    EXPECT_DONE(desk_strike(&s, DESK_PAID, 0, 0));
}

static desk_session opened_plain(uint64_t last) {
    static uint8_t file[LONGEST_FILE];
    return opened(file, plain_file(file, last));
}

/* How many steps a column has; none behind the last one. */
static uint64_t steps_in(uint64_t last, uint64_t channel, uint64_t column) {
    const uint64_t columns = channel == DESK_PAID ? last + 1 : last;
    return column < columns ? columns - column : 0;
}

/* Every step but the last of each column, or these from the last to the first; answers how many. */
static uint64_t strike_all_but_one(desk_session *s, uint64_t last, int backward) {
    uint64_t count = 0;
    for (uint64_t k = 0; k < 2 * (last + 1); k++) {
        const uint64_t turn = backward ? 2 * (last + 1) - 1 - k : k, channel = turn % 2, column = turn / 2;
        const uint64_t steps = steps_in(last, channel, column);
        for (uint64_t i = 0; i + 1 < steps; i++, count++) EXPECT_DONE(desk_strike(s, channel, backward ? steps - 2 - i : i, column));
    }
    return count;
}

static void expect_one_left(desk_session *s, uint64_t last) {
    const desk_system shown = desk_figures(s);
    for (size_t k = 0; k <= 2 * last; k++) EXPECT(shown.own[k] == 65537 && shown.right_hand[k] == 0);
    EXPECT(desk_sweep(s, 1).settled == 1);
    for (uint64_t channel = DESK_PAID; channel <= DESK_INCURRED; channel++) {
        for (uint64_t column = 0; column <= 16; column++) {
            const uint64_t steps = steps_in(last, channel, column);
            for (uint64_t year = 0; year <= 16; year++) {
                EXPECT_REFUSED(s, desk_strike(s, channel, year, column), year + 1 == steps ? 27 : 26, 0);
            }
        }
    }
}

/* In either order the same is left, and nothing of what is left can be struck. */
static void test_every_j(void) {
    for (uint64_t last = 1; last <= 15; last++) {
        desk_session s = opened_plain(last), other = s;
        EXPECT(strike_all_but_one(&s, last, 0) == last * last);
        EXPECT(strike_all_but_one(&other, last, 1) == last * last);
        EXPECT(memcmp(&s, &other, sizeof s) == 0);
        expect_one_left(&s, last);
    }
}

/* Any mark but 0 is one. A column that is marked throughout counts as unmarked, and marks of no step count for nothing. */
static void test_marks_that_no_call_has_left(void) {
    for (int mark = 1; mark <= 0xFF; mark += 127) {
        desk_session s = opened_f(1);
        s.struck[1] = (uint8_t)mark;
        EXPECT_REFUSED(&s, desk_strike(&s, DESK_PAID, 1, 0), 26, 0);
        EXPECT_REFUSED(&s, desk_strike(&s, DESK_PAID, 0, 0), 27, 0);
        memset(s.struck, mark, sizeof s.struck);
        EXPECT_REFUSED(&s, desk_strike(&s, DESK_PAID, 0, 1), 27, 0);
        EXPECT_REFUSED(&s, desk_strike(&s, DESK_INCURRED, 0, 0), 27, 0);
        EXPECT_REFUSED(&s, desk_strike(&s, DESK_INCURRED, 1, 0), 26, 0);
        EXPECT_DONE(desk_strike(&s, DESK_PAID, 0, 0));
        expect_system(&s, &F_LEFT);
        EXPECT_REFUSED(&s, desk_strike(&s, DESK_PAID, 0, 0), 26, 0);
        EXPECT_REFUSED(&s, desk_strike(&s, DESK_PAID, 1, 0), 27, 0);
        s = opened_plain(2);
        s.struck[1] = s.struck[3] = (uint8_t)mark; /* x_(1,0), and no step */
        EXPECT_DONE(desk_strike(&s, DESK_PAID, 0, 1));
        EXPECT(desk_figures(&s).own[0] == 131073 && desk_figures(&s).own[1] == 65537 && desk_figures(&s).own[2] == 65537);
    }
}

/* They are brought inside their limits, so that no sum of them wraps. */
static void test_numbers_outside_their_limits(void) {
    for (uint64_t last = 1; last <= 15; last++) {
        desk_session s = opened_plain(last);
        for (size_t k = 0; k < COUNT(s.ticks); k++) s.ticks[k] = k % 2 ? INT64_MIN : INT64_MAX;
        memset(s.weights, 0xFF, sizeof s.weights);
        EXPECT_DONE(desk_strike(&s, DESK_PAID, 0, 0));
        const desk_system shown = desk_figures(&s);
        EXPECT_DONE(shown.refusal);
        for (size_t k = 0; k <= 2 * last; k++) {
            EXPECT(shown.own[k] >= 1 && shown.own[k] <= UINT64_C(17) << 28 && shown.matrix[k][k] >= (int64_t)shown.own[k]);
            EXPECT(llabs(s.mean[k]) == MOST_PART);
        }
    }
}

int main(void) {
    RUN(test_file_f)();
    RUN(test_refusals)();
    RUN(test_begins_anew)();
    RUN(test_close_forgets)();
    RUN(test_every_j)();
    RUN(test_marks_that_no_call_has_left)();
    RUN(test_numbers_outside_their_limits)();
    printf("%lu\n", checked);
    return 0;
}
