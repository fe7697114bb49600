/* What the header itself gives, without the library's code: the version, the words of refusals, the empty session, and whether a library
 * fits it. Compiled as C and as C++, and needs no library: here one stands in that tells sizes and has no calls. */
#include "desk.h"

#include <stdio.h>
#include <string.h>

static int failed;

#define EXPECT(fact)                                                                                                           \
    do {                                                                                                                       \
        if (!(fact)) failed = 1, fprintf(stderr, "header_test.c, line %d: not so: %s\n", __LINE__, #fact);                     \
    } while (0)

static int is_ascii(const char *text) {
    while (*text >= ' ' && *text <= '~') text++;
    return *text == '\0';
}

static void test_version(void) {
    char parts[32];
    snprintf(parts, sizeof parts, "%d.%d.%d", DESK_VERSION_MAJOR, DESK_VERSION_MINOR, DESK_VERSION_PATCH);
    EXPECT(strcmp(parts, DESK_VERSION) == 0);
}

static void test_words(void) {
    EXPECT(strcmp(desk_refusal_text(0), "not refused") == 0);
    EXPECT(strcmp(desk_refusal_text(UINT64_MAX), "no such refusal") == 0);
    for (uint64_t number = 1; number < 64; number++) {
        const char *words = desk_refusal_text(number);
        const int is_refusal = number <= 15 || (number >= 21 && number <= 27);
        EXPECT(is_ascii(words) && strlen(words) > 0);
        EXPECT((strcmp(words, "no such refusal") != 0) == is_refusal);
        for (uint64_t other = 0; is_refusal && other < number; other++) EXPECT(strcmp(words, desk_refusal_text(other)) != 0);
    }
}

static int is_empty(const desk_session session) {
    static const desk_session zeros = DESK_EMPTY;
    return memcmp(&session, &zeros, sizeof session) == 0;
}

static void test_empty_session(void) {
    desk_session session;
    memset(&session, 0xA5, sizeof session);
    EXPECT(!is_empty(session));
    session = DESK_EMPTY_SESSION;
    EXPECT(is_empty(session));
    EXPECT(is_empty(DESK_EMPTY_SESSION));
}

static uint64_t told[11]; /* by the library that stands in */

uint64_t desk_size(uint64_t array) {
    return array < sizeof told / sizeof told[0] ? told[array] : 0;
}

/* A library fits if each array has the header's size and there is no other; sizes that only add up to the same do not, nor do those of
 * a library that counts the marks of steps in words of 8 bytes. */
static void test_fits(void) {
    static const uint64_t sizes[11] = {3, 31, 961, 31, 31, 303, 77, 31, 496, 0, 0};
    memcpy(told, sizes, sizeof told);
    EXPECT(desk_fits() == 1);
    for (size_t array = 0; array < 10; array++) {
        memcpy(told, sizes, sizeof told);
        told[array]++;
        EXPECT(desk_fits() == 0);
        told[array == 0 ? 1 : array - 1]--;
        EXPECT(desk_fits() == 0);
    }
    for (size_t array = 0; array < 9; array++) { /* as a library that has fewer arrays tells them */
        memcpy(told, sizes, sizeof told);
        memset(told + array, 0, sizeof told - array * sizeof told[0]);
        EXPECT(desk_fits() == 0);
    }
    memcpy(told, sizes, sizeof told);
    told[8] = 496 / 8;
    EXPECT(desk_fits() == 0);
}

int main(void) {
    static const uint8_t record[DESK_LONGEST_RECORD] = {0}, page[DESK_LONGEST_PAGE] = {0}, file[DESK_LONGEST_FILE] = {0};
    static const uint8_t residues[DESK_LONGEST_RESIDUES] = {0};
    EXPECT(sizeof record == 129 && sizeof page == 868 && sizeof file == 2806 && sizeof residues == 248);
    test_version();
    test_words();
    test_empty_session();
    test_fits();
    return failed;
}
