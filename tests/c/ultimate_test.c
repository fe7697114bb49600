/* The central ultimate from C: figures by hand for J = 1, the order of its refusals, years of any 64 bits, and what a session that no
 * call has made is taken for. Each figure is M times the paid side plus N times the incurred side, over N + M. */
#include "support.h"

#define PRIOR (UINT64_C(1) << 18) /* the tightest: the prior means pass at once where the closeness is wide */
#define WIDE 65536

static void expect_ultimate(const desk_session *s, int64_t floor, uint64_t remainder, uint64_t divisor) {
    const desk_session before = *s;
    const desk_projection found = desk_ultimate(s, 1);
    EXPECT_DONE(found.refusal);
    EXPECT(found.floor == floor && found.remainder == remainder && found.divisor == divisor);
    EXPECT(memcmp(&before, s, sizeof before) == 0);
}

/* Variances of phi 1 and of psi 0; means of the same, which pass as they are; and one amount in every cell. */
static desk_session opened_at(uint64_t sigma_squared, uint64_t tau_squared, int64_t phi, int64_t psi, uint64_t amount) {
    uint8_t file[F_LENGTH];
    const uint64_t variances[3] = {sigma_squared, sigma_squared, tau_squared};
    const int64_t means[3] = {0, phi, psi};
    const uint64_t prior_variances[3] = {PRIOR, PRIOR, PRIOR};
    const uint64_t amounts[6] = {amount, amount, amount, amount, amount, amount};
    file_of(file, WIDE, variances, means, prior_variances, amounts);
    return opened(file, sizeof file);
}

/* (10T + T) and (12T - T), of equal weight: 11T. */
static void test_file_f(void) {
    const desk_session s = opened_f(1);
    expect_ultimate(&s, 11 * T, 0, UINT64_C(1) << 31);
}

/* (2(-1) + 3(-2)) / 5 is -8/5, so -2 and 2/5: rounded down, not toward 0. */
static void test_below_zero(void) {
    const desk_session s = opened_at(3 << 18, 2 << 18, -1, -2, 1);
    expect_ultimate(&s, -2, 2 << 18, 5 << 18);
    const desk_session whole = opened_at(3 << 18, 2 << 18, -5, -5, 1);
    expect_ultimate(&whole, -5, 0, 5 << 18);
}

/* Products of 2^40 and some 2^27, which 64 bits do not hold. */
static void test_limits(void) {
    const uint64_t most = UINT64_C(1) << 40;
    const desk_session high = opened_at(most, most, MOST_PART, MOST_PART, UINT64_C(1) << 44);
    expect_ultimate(&high, 44 * T + MOST_PART, 0, 2 * most);
    const desk_session low = opened_at(most, most, -MOST_PART, -MOST_PART, 1);
    expect_ultimate(&low, -MOST_PART, 0, 2 * most);
    const desk_session odd = opened_at(most, most - 1, MOST_PART, MOST_PART - 2, 1);
    expect_ultimate(&odd, MOST_PART - 2, 2 * most - 2, 2 * most - 1);
}

static void test_refusals(void) {
    static const uint64_t OUTSIDE[] = {0, 2, 256, 257, UINT64_C(1) << 32, (UINT64_C(1) << 32) + 1, UINT64_MAX};
    uint8_t file[F_LENGTH];
    file_that_never_settles(file);
    const desk_session none = DESK_EMPTY, failing = opened(file, sizeof file), passing = opened_f(1);
    for (size_t k = 0; k < COUNT(OUTSIDE); k++) {
        EXPECT_REFUSED(&none, desk_ultimate(&none, OUTSIDE[k]).refusal, 21, 0);
        EXPECT_REFUSED(&failing, desk_ultimate(&failing, OUTSIDE[k]).refusal, 24, 0);
        EXPECT_REFUSED(&passing, desk_ultimate(&passing, OUTSIDE[k]).refusal, 25, 0);
        const desk_projection found = desk_ultimate(&passing, OUTSIDE[k]);
        EXPECT(found.floor == 0 && found.remainder == 0 && found.divisor == 0);
    }
    desk_session closed = passing;
    desk_close(&closed);
    EXPECT_REFUSED(&closed, desk_ultimate(&closed, 1).refusal, 21, 0);
}

/* Logarithms count as 0 to 44 doublings, variances as 2^18 to 2^40; weights and marks do not count here. */
static void test_numbers_outside_their_limits(void) {
    desk_session s = opened_f(1);
    s.ticks[2] = INT64_MAX; /* year 1, paid */
    s.variances[1] = UINT64_MAX;
    s.variances[2] = 0;
    memset(s.weights, 0xFF, sizeof s.weights);
    memset(s.struck, 0xFF, sizeof s.struck);
    expect_ultimate(&s, 11534344, UINT64_C(549753716736), UINT64_C(1099511889920));
    s.ticks[2] = INT64_MIN;
    s.variances[1] = 0;
    s.variances[2] = UINT64_MAX;
    expect_ultimate(&s, 1048578, UINT64_C(549755289600), UINT64_C(1099511889920));
}

int main(void) {
    RUN(test_file_f)();
    RUN(test_below_zero)();
    RUN(test_limits)();
    RUN(test_refusals)();
    RUN(test_numbers_outside_their_limits)();
    printf("%lu\n", checked);
    return 0;
}
