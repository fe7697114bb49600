/* Replays a script of calls (docs/CALLS.md) through the C interface and prints the answers as the program `calls` does, so that
 * they can be compared with the reference's. A refused call that changes the session ends it with a line of its own. */
#include "desk.h"

#include <inttypes.h>
#include <stdio.h>
#include <stdlib.h>
#include <string.h>

enum { LONGEST_STRING = 4096 };
typedef struct string { size_t length; uint8_t bytes[LONGEST_STRING]; } string;

static _Noreturn void stop(const char *why) {
    printf("%s\n", why);
    exit(1);
}

static uint32_t number(void) {
    uint8_t bytes[4];
    if (fread(bytes, 1, 4, stdin) != 4) stop("the script ends inside a number");
    return (uint32_t)bytes[0] << 24 | (uint32_t)bytes[1] << 16 | (uint32_t)bytes[2] << 8 | bytes[3];
}

static void read_string(string *into) {
    into->length = number();
    if (into->length > LONGEST_STRING) stop("a string is too long");
    if (fread(into->bytes, 1, into->length, stdin) != into->length) stop("the script ends inside a string");
}

/* Says whether the call was refused, and prints the refusal. */
static int is_refused(desk_refusal refusal) {
    if (refusal.number != 0) printf("refused %" PRIu64 " at %" PRIu64 "\n", refusal.number, refusal.place);
    return refusal.number != 0;
}

static void print_bytes(const char *name, const uint8_t *bytes, size_t length) {
    printf("%s ", name);
    for (size_t k = 0; k < length; k++) printf("%02x", bytes[k]);
    printf("\n");
}

static int answers_open(desk_session *s) {
    string file;
    read_string(&file);
    const int refused = is_refused(desk_open(s, file.bytes, file.length));
    if (!refused) printf("opened\n");
    return refused;
}

static int answers_judge(const desk_session *s) {
    string record;
    read_string(&record);
    const desk_judgement judged = desk_judge(s, record.bytes, record.length);
    if (is_refused(judged.refusal)) return 1;
    if (judged.passed) printf("passed\n");
    else printf("fails %" PRIu64 "\n", judged.part);
    return 0;
}

static int answers_sweep(desk_session *s) {
    const desk_sweeping swept = desk_sweep(s, number());
    if (is_refused(swept.refusal)) return 1;
    printf("%s %" PRIu64 "\n", swept.settled ? "settled" : "going", swept.total);
    return 0;
}

static void lend_buffer(string *buffer) {
    buffer->length = number();
    if (buffer->length > LONGEST_STRING) stop("a buffer is too long");
    memset(buffer->bytes, 0xA5, buffer->length);
}

/* Refused or not, the buffer is printed: a refusal must have left it alone. */
static int is_written(desk_refusal refusal, const char *answer, const string *buffer) {
    const int refused = is_refused(refusal);
    if (!refused) printf("%s\n", answer);
    print_bytes("buffer", buffer->bytes, buffer->length);
    return refused;
}

typedef desk_refusal writing(const desk_session *s, uint8_t *buffer, size_t length);

static int answers_writing(const desk_session *s, writing *call, const char *answer) {
    string buffer;
    lend_buffer(&buffer);
    return is_written(call(s, buffer.bytes, buffer.length), answer, &buffer);
}

static int answers_residues(const desk_session *s) {
    string record, buffer;
    read_string(&record);
    lend_buffer(&buffer);
    return is_written(desk_residues(s, record.bytes, record.length, buffer.bytes, buffer.length), "residues", &buffer);
}

static int answers_ultimate(const desk_session *s) {
    const desk_projection found = desk_ultimate(s, number());
    if (is_refused(found.refusal)) return 1;
    printf("ultimate %" PRId64 " %" PRIu64 "\n", found.floor, found.remainder);
    return 0;
}

static int answers_strike(desk_session *s) {
    const uint32_t channel = number(), year = number(), column = number();
    const int refused = is_refused(desk_strike(s, channel, year, column));
    if (!refused) printf("struck\n");
    return refused;
}

static void print_numbers(const char *name, const int64_t *numbers, uint64_t count) {
    printf("%s", name);
    for (uint64_t k = 0; k < count; k++) printf(" %" PRId64, numbers[k]);
    printf("\n");
}

static int answers_figures(const desk_session *s) {
    const desk_system shown = desk_figures(s);
    if (is_refused(shown.refusal)) return 1;
    const uint64_t count = 2 * shown.last + 1;
    printf("figures %" PRIu64 " %" PRIu64 "\nown", shown.last, shown.closeness);
    for (uint64_t k = 0; k < count; k++) printf(" %" PRIu64, shown.own[k]);
    printf("\n");
    for (uint64_t k = 0; k < count; k++) print_numbers("row", shown.matrix[k], count);
    print_numbers("right", shown.right_hand, count);
    return 0;
}

static int answers_row(void) {
    string file;
    read_string(&file);
    const uint32_t channel = number(), year = number();
    const desk_shown row = desk_row(file.bytes, file.length, channel, year);
    if (is_refused(row.refusal)) return 1;
    if (row.start > file.length || row.length > file.length - row.start) stop("a row is no part of its file");
    print_bytes("row", file.bytes + row.start, row.length);
    return 0;
}

/* Prints the answer, and says whether the call was refused. */
static int answers(int letter, desk_session *s) {
    switch (letter) {
    case 'o': return answers_open(s);
    case 'j': return answers_judge(s);
    case 's': return answers_sweep(s);
    case 'r': return answers_writing(s, desk_read, "read");
    case 'p': return answers_writing(s, desk_page, "page");
    case 'd': return answers_residues(s);
    case 'u': return answers_ultimate(s);
    case 'k': return answers_strike(s);
    case 'f': return answers_figures(s);
    case 'w': return answers_row();
    case 'c': desk_close(s); printf("closed\n"); return 0;
    default: stop("a letter is unknown");
    }
}

int main(void) {
    desk_session session = DESK_EMPTY;
    for (int letter; (letter = getchar()) != EOF;) {
        const desk_session before = session;
        const int refused = answers(letter, &session);
        if (refused && memcmp(&before, &session, sizeof before) != 0) stop("a refused call changed the session");
    }
    return 0;
}
