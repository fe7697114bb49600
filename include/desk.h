/* The reserving desk for C11 and C++11 or newer: its calls, from libdesk.a or libdesk.so.
 *
 *     desk_session session = DESK_EMPTY;
 *     desk_refusal refusal = desk_open(&session, file, length);
 *     if (refusal.number != 0) printf("%s, at byte %u\n", desk_refusal_text(refusal.number), (unsigned)refusal.place);
 *
 * docs/SPECIFICATION.md says what each call does: "The file", "The mean record" and "The page" have the bytes, "The calls" the
 * answers, "The central ultimate" its formula, "Struck steps" what a strike leaves, "Refusals" the numbers with their places, and
 * "What is guaranteed" what an answer is worth.
 *
 * A call does its job or is refused, whatever bytes it is lent and whatever stands in the session. A refused call changes
 * neither the session nor the buffer. The order in which a call tests the numbers is that of its comment below. The library
 * keeps no pointer and no state of its own, allocates nothing and prints nothing. Sessions are independent of each other.
 *
 * What a caller owes. No call can test these, and what follows where one is not kept is undefined, as everywhere in C:
 *   - a session that is lent is one whole desk_session;
 *   - a pointer is valid for the length beside it, to read, or to write where it is a buffer (null with length 0 is an empty slice);
 *   - no file, record or buffer overlaps the session, and no record overlaps the buffer that is lent with it;
 *   - while a call runs, nothing else writes what it is lent, nor reads what it may write;
 *   - the library is of the header's version, or of a later one with the same first number.
 */
#ifndef DESK_H
#define DESK_H

#include <stddef.h>
#include <stdint.h>

#ifdef __cplusplus
extern "C" {
#endif

#define DESK_VERSION "3.1.0"
#define DESK_VERSION_MAJOR 3
#define DESK_VERSION_MINOR 1
#define DESK_VERSION_PATCH 0

#define DESK_PAID UINT64_C(0) /* the channels of a row and of a step */
#define DESK_INCURRED UINT64_C(1)
#define DESK_MOST_SWEEPS UINT64_C(4096) /* since open or the last strike */
#define DESK_LONGEST_FILE 2806u         /* a file has 10 + 20(2J+1) + 8(J+1)(J+2) bytes */
#define DESK_LONGEST_RECORD 129u        /* a mean record has 5 + 4(2J+1) bytes */
#define DESK_LONGEST_PAGE 868u          /* a page has 28(2J+1) bytes */
#define DESK_LONGEST_RESIDUES 248u      /* the residues of a mean have 8(2J+1) bytes */

/* A session, of some 12 KB: empty, or an accepted file's observations, the steps that are struck out of it, the figures of what is
 * left, a mean and the sweeps run. The fields are the library's; a session may be copied, and the copy is a session of its own. Bytes
 * that no call has left there count as an empty session or as an open one, and are safe in both cases; the guarantee of a passed mean is
 * for sessions that start as DESK_EMPTY. */
typedef struct desk_session {
    uint64_t held[3]; /* J (0 while nothing is open), closeness, sweeps run since open or the last strike */
    uint64_t own[31];
    int64_t matrix[961];
    int64_t right_hand[31];
    int64_t mean[31];
    int64_t ticks[303];     /* of the file: the logarithms of its amounts; from 272 on its prior means */
    uint64_t weights[77];   /* of its observations; from 31 on of its priors, from 62 on of its ratios */
    uint64_t variances[31]; /* sigma squared, then tau squared */
    uint8_t struck[496];    /* of part k and accident year i at 16 * k + i, phi first: not 0 where a call struck that step */
} desk_session;

/* The empty session, where one is declared; and as a value, to be assigned or handed on. */
#define DESK_EMPTY {{0}, {0}, {0}, {0}, {0}, {0}, {0}, {0}, {0}}
#ifdef __cplusplus
#define DESK_EMPTY_SESSION (desk_session{})
#else
#define DESK_EMPTY_SESSION ((desk_session)DESK_EMPTY)
#endif

/* Number 0: the call did its job. Otherwise a number of "Refusals", and where the field begins that is refused, or 0. */
typedef struct desk_refusal {
    uint64_t number;
    uint64_t place;
} desk_refusal;

/* Passed is 1, or it is 0 and part is the first part that fails (phi 0..J are parts 0..J, then psi). Both are 0 where refused. */
typedef struct desk_judgement {
    desk_refusal refusal;
    uint64_t passed;
    uint64_t part;
} desk_judgement;

/* Settled is 1, or 0 while still going; total is the number of sweeps run since open or the last strike. Both are 0 where refused. */
typedef struct desk_sweeping {
    desk_refusal refusal;
    uint64_t settled;
    uint64_t total;
} desk_sweeping;

/* The row is file[start .. start + length), 8-byte big-endian amounts. The length is 0 exactly when the call is refused. */
typedef struct desk_shown {
    desk_refusal refusal;
    uint64_t start;
    uint64_t length;
} desk_shown;

/* The central ultimate of an accident year, the logarithm of what it is expected to come to: floor + remainder / divisor ticks, of
 * which a doubling has 1,048,576. The remainder is from 0 to divisor - 1, also where the floor is negative. All are 0 where refused. */
typedef struct desk_projection {
    desk_refusal refusal;
    int64_t floor;
    uint64_t remainder;
    uint64_t divisor;
} desk_projection;

/* The figures of the open file without its struck steps: J, the closeness, and the own weights, matrix and right-hand side that a mean
 * is judged by. The parts are phi 0..J, then psi 0..J-1. The matrix has both of its halves, row k and column l at matrix[k][l].
 * Numbers outside the parts 0..2J are 0, and all but the refusal are 0 where refused. */
typedef struct desk_system {
    desk_refusal refusal;
    uint64_t last; /* J */
    uint64_t closeness;
    uint64_t own[31];
    int64_t matrix[31][31];
    int64_t right_hand[31];
} desk_system;

/* What the library exports. The functions behind them lend it a session's fields one by one. */
desk_refusal desk_open_lent(uint64_t held[3], uint64_t own[31], int64_t matrix[961], int64_t right_hand[31], int64_t mean[31],
                            int64_t ticks[303], uint64_t weights[77], uint64_t variances[31], uint8_t struck[496], const uint8_t *file,
                            size_t length);
desk_judgement desk_judge_lent(const uint64_t held[3], const uint64_t own[31], const int64_t matrix[961],
                               const int64_t right_hand[31], const int64_t mean[31], const uint8_t *lent, size_t length);
desk_refusal desk_residues_lent(const uint64_t held[3], const uint64_t own[31], const int64_t matrix[961],
                                const int64_t right_hand[31], const int64_t mean[31], const int64_t ticks[303],
                                const uint64_t weights[77], const uint8_t struck[496], const uint8_t *record, size_t record_length,
                                uint8_t *buffer, size_t buffer_length);
desk_sweeping desk_sweep_lent(uint64_t held[3], const uint64_t own[31], const int64_t matrix[961], const int64_t right_hand[31],
                              int64_t mean[31], uint64_t n);
desk_refusal desk_read_lent(const uint64_t held[3], const uint64_t own[31], const int64_t matrix[961],
                            const int64_t right_hand[31], const int64_t mean[31], uint8_t *buffer, size_t length);
desk_refusal desk_page_lent(const uint64_t held[3], const uint64_t own[31], const int64_t matrix[961],
                            const int64_t right_hand[31], const int64_t mean[31], uint8_t *buffer, size_t length);
desk_projection desk_ultimate_lent(const uint64_t held[3], const uint64_t own[31], const int64_t matrix[961],
                                   const int64_t right_hand[31], const int64_t mean[31], const int64_t ticks[303],
                                   const uint64_t variances[31], uint64_t year);
desk_system desk_figures_lent(const uint64_t held[3], const uint64_t own[31], const int64_t matrix[961],
                              const int64_t right_hand[31], const int64_t mean[31]);
desk_refusal desk_strike_lent(uint64_t held[3], uint64_t own[31], int64_t matrix[961], int64_t right_hand[31], int64_t mean[31],
                              int64_t ticks[303], uint64_t weights[77], uint8_t struck[496], uint64_t channel, uint64_t year,
                              uint64_t column);
void desk_close_lent(uint64_t held[3]);

/* Opens a file: the session then holds its observations and figures, no struck step, the prior means as mean and 0 sweeps.
 * May be refused with 22, then 1 to 10. */
static inline desk_refusal desk_open(desk_session *s, const uint8_t *file, size_t length) {
    return desk_open_lent(s->held, s->own, s->matrix, s->right_hand, s->mean, s->ticks, s->weights, s->variances, s->struck, file,
                          length);
}

/* Judges a mean record, whoever wrote it: passed, or the first part that fails. The session is untouched.
 * May be refused with 21, then 1, 2, 4, 11; places are those of the record. */
static inline desk_judgement desk_judge(const desk_session *s, const uint8_t *record, size_t length) {
    return desk_judge_lent(s->held, s->own, s->matrix, s->right_hand, s->mean, record, length);
}

/* Writes the residues of a mean record at the front of the buffer, phi first; the bytes behind them are untouched. They are those by
 * which desk_judge tests it, but worked out observation by observation, as weight times difference, with no matrix: for whoever has a
 * solver that forms none. A mean passes exactly if each residue is at most closeness times own[k] in size (desk_figures). That of part k
 * is signed, 8 bytes from buffer[8 * k] on, big-endian in two's complement:
 *
 *     uint64_t bits = 0;
 *     for (size_t byte = 0; byte < 8; byte++) bits = bits << 8 | buffer[8 * k + byte];
 *     int64_t residue = (int64_t)bits;
 *
 * The session is untouched. May be refused with 21, then 1, 2, 4, 11, then 13; places are those of the record. */
static inline desk_refusal desk_residues(const desk_session *s, const uint8_t *record, size_t record_length, uint8_t *buffer,
                                         size_t buffer_length) {
    return desk_residues_lent(s->held, s->own, s->matrix, s->right_hand, s->mean, s->ticks, s->weights, s->struck, record,
                              record_length, buffer, buffer_length);
}

/* Runs at most n sweeps: none once the mean passes, and none past a total of DESK_MOST_SWEEPS. A mean that passes
 * already is settled with no sweep run. May be refused with 21, then 12, then, where the mean does not pass, 23. */
static inline desk_sweeping desk_sweep(desk_session *s, uint64_t n) {
    return desk_sweep_lent(s->held, s->own, s->matrix, s->right_hand, s->mean, n);
}

/* Writes the record of a mean that passes at the front of the buffer; the bytes behind it are untouched.
 * May be refused with 21, then 24, then 13. */
static inline desk_refusal desk_read(const desk_session *s, uint8_t *buffer, size_t length) {
    return desk_read_lent(s->held, s->own, s->matrix, s->right_hand, s->mean, buffer, length);
}

/* Writes the page of a mean that passes at the front of the buffer, a line of 28 bytes for each part; the bytes behind it are
 * untouched, so that no zero ends it. The session is untouched. May be refused with 21, then 24, then 13. */
static inline desk_refusal desk_page(const desk_session *s, uint8_t *buffer, size_t length) {
    return desk_page_lent(s->held, s->own, s->matrix, s->right_hand, s->mean, buffer, length);
}

/* Gives the central ultimate of an accident year from 1 to J, by a mean that passes. The session is untouched.
 * May be refused with 21, then 24, then 25. */
static inline desk_projection desk_ultimate(const desk_session *s, uint64_t year) {
    return desk_ultimate_lent(s->held, s->own, s->matrix, s->right_hand, s->mean, s->ticks, s->variances, year);
}

/* Strikes a step out of the open file: x (channel 0) or z (1) of an accident year, in a column: x of column j is between development
 * years j - 1 and j, z between j and j + 1. Its term leaves the loss, and its weight own weight, matrix and right-hand side; the mean is
 * the prior means again, with 0 sweeps run. All else of the file stays, as do the steps beside it. No call puts a step back: close
 * forgets what is struck, and open has every step.
 * May be refused with 21, then 14, 26, 27. */
static inline desk_refusal desk_strike(desk_session *s, uint64_t channel, uint64_t year, uint64_t column) {
    return desk_strike_lent(s->held, s->own, s->matrix, s->right_hand, s->mean, s->ticks, s->weights, s->struck, channel, year, column);
}

/* Shows the figures of the open file without its struck steps: a mean passes exactly if in each part k the sum of matrix[k][l] times
 * part l, minus right_hand[k], is at most closeness times own[k] in size. The session is untouched. May be refused with 21. */
static inline desk_system desk_figures(const desk_session *s) {
    return desk_figures_lent(s->held, s->own, s->matrix, s->right_hand, s->mean);
}

/* Shows an accident year's amounts in the paid (channel 0) or incurred (1) block of a file. Needs no session.
 * May be refused with 1 to 10, then 14, then 15. */
desk_shown desk_row(const uint8_t *file, size_t length, uint64_t channel, uint64_t year);

/* Empties the session: nothing is open then, though the other fields keep what they held. It is never refused. */
static inline void desk_close(desk_session *s) {
    desk_close_lent(s->held);
}

/* What the number of a refusal means, in the words of "Refusals": ASCII, and never null. */
static inline const char *desk_refusal_text(uint64_t number) {
    switch (number) {
    case 0: return "not refused";
    case 1: return "shorter than a header (10 bytes of a file, 5 of a mean record), or not as long as its length field says";
    case 2: return "the version of the format must be 1";
    case 3: return "the last development year J must be from 1 to 15";
    case 4: return "the length does not suit the number of development years";
    case 5: return "the closeness must be from 1 to 65,536 ticks";
    case 6: return "a variance of sigma or tau must be from 2^18 to 2^40 squared ticks";
    case 7: return "the variance of a prior must be 0 (no prior) or from 2^18 to 2^46 squared ticks";
    case 8: return "the mean of a prior must be from -2^26 to 2^26 ticks";
    case 9: return "an amount must be from 1 to 2^44";
    case 10: return "the oldest accident year must end with the same amount paid as incurred";
    case 11: return "each part of a mean must be from -2^26 to 2^26 ticks";
    case 12: return "the number of sweeps must be from 1 to 4,096";
    case 13: return "the buffer is too short for what is to be written";
    case 14: return "the channel must be 0 (paid) or 1 (incurred)";
    case 15: return "the file has no such accident year";
    case 21: return "no file is open in this session";
    case 22: return "this session has a file open already";
    case 23: return "all 4,096 sweeps are run and the mean still does not pass";
    case 24: return "the mean that is held does not pass";
    case 25: return "the accident year must be from 1 to J";
    case 26: return "there is no such step, or it is struck already";
    case 27: return "it is the last step left in its column";
    default: return "no such refusal";
    }
}

/* How many numbers an array of a session has in this library, of whatever width, by its place among the fields of desk_session, from 0
 * on; behind the last one 0. Whoever declares the calls elsewhere than here compares them before the first call: a session that is
 * declared too small would be written behind. */
uint64_t desk_size(uint64_t array);

/* Whether the library that is linked has the sessions of this header: 1, or 0, and then no call that is lent a session is safe. For a
 * program that may meet a library of another version, before its first call. Of a library that is older than this header, with the same
 * first number, the calls that came later are missing: a program that is linked to it does not start, or ends where it calls one. */
static inline int desk_fits(void) {
    const desk_session *none = NULL; /* for the sizes of its fields alone */
    const size_t counts[] = {
        sizeof none->held / sizeof none->held[0],           sizeof none->own / sizeof none->own[0],
        sizeof none->matrix / sizeof none->matrix[0],       sizeof none->right_hand / sizeof none->right_hand[0],
        sizeof none->mean / sizeof none->mean[0],           sizeof none->ticks / sizeof none->ticks[0],
        sizeof none->weights / sizeof none->weights[0],     sizeof none->variances / sizeof none->variances[0],
        sizeof none->struck / sizeof none->struck[0],       0,
    };
    for (size_t array = 0; array < sizeof counts / sizeof counts[0]; array++) {
        if (desk_size(array) != counts[array]) return 0;
    }
    return 1;
}

#ifdef __cplusplus
}
#endif

#endif
