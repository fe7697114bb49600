// The calls from C++, which must find the library's functions by their C names: prints the listing of a file as the program
// `listing` does, and makes every call of the header on the way.
#include "desk.h"

#include <cstdio>
#include <cstdlib>
#include <cstring>
#include <fstream>
#include <iterator>
#include <vector>

namespace {

using Bytes = std::vector<std::uint8_t>;

void expect(bool holds, const char *what) {
    if (holds) return;
    std::fprintf(stderr, "sample.cpp: not so: %s\n", what);
    std::exit(1);
}

Bytes contents(const char *name) {
    std::ifstream file(name, std::ios::binary);
    return Bytes(std::istreambuf_iterator<char>(file), std::istreambuf_iterator<char>());
}

// The 4-byte field in two's complement at a place.
std::int32_t field(const Bytes &bytes, std::size_t place) {
    std::uint32_t digits = 0;
    for (std::size_t k = 0; k < 4; k++) digits = digits << 8 | bytes[place + k];
    return static_cast<std::int32_t>(digits);
}

// The rows of both channels, end to end, are what stands behind the priors.
void expect_rows(const Bytes &file, std::uint64_t last) {
    std::uint64_t start = 10 + 20 * (2 * last + 1);
    for (std::uint64_t channel = DESK_PAID; channel <= DESK_INCURRED; channel++) {
        for (std::uint64_t year = 0; year <= last; year++) {
            const desk_shown row = desk_row(file.data(), file.size(), channel, year);
            expect(row.refusal.number == 0 && row.start == start, "a row begins where the one before it ends");
            start += row.length;
        }
    }
    expect(start == file.size(), "the rows end with the file");
}

void expect_session_size() {
    expect(desk_fits() == 1, "a session has the sizes that the library tells");
}

Bytes settled_record(desk_session *session) {
    Bytes record(DESK_LONGEST_RECORD);
    expect(desk_read(session, record.data(), record.size()).number == 0, "a settled mean is read");
    record.resize(static_cast<std::size_t>(field(record, 0)));
    expect(desk_judge(session, record.data(), record.size()).passed == 1, "the mean that is read passes");
    return record;
}

// By the figures that the library shows, as a solver of one's own would have it.
std::int64_t residue_of(const desk_system &shown, const Bytes &record, std::size_t part) {
    std::int64_t residue = -shown.right_hand[part];
    for (std::size_t l = 0; l <= 2 * shown.last; l++) residue += shown.matrix[part][l] * field(record, 5 + 4 * l);
    return residue;
}

void expect_passes(const desk_system &shown, const Bytes &record) {
    for (std::size_t k = 0; k <= 2 * shown.last; k++) {
        const std::int64_t residue = residue_of(shown, record, k);
        expect(std::llabs(residue) <= static_cast<long long>(shown.closeness * shown.own[k]), "each residue is at most e times D");
        for (std::size_t l = 0; l < k; l++) expect(shown.matrix[k][l] == shown.matrix[l][k], "the matrix has both halves");
    }
}

// Those that the library adds up observation by observation, read as the header says; the bytes behind are untouched.
void expect_residues(const desk_session *session, const desk_system &shown, const Bytes &record) {
    const std::size_t parts = 2 * shown.last + 1;
    Bytes written(DESK_LONGEST_RESIDUES, 0xA5);
    const auto call = [&](std::size_t size) {
        return desk_residues(session, record.data(), record.size(), written.data(), size).number;
    };
    expect(call(8 * parts - 1) == 13, "residues need room for all of them");
    expect(call(written.size()) == 0, "the residues of a mean are written");
    for (std::size_t k = 0; k < parts; k++) {
        std::uint64_t bits = 0;
        for (std::size_t byte = 0; byte < 8; byte++) bits = bits << 8 | written[8 * k + byte];
        expect(static_cast<std::int64_t>(bits) == residue_of(shown, record, k), "a residue is that of the matrix");
    }
    for (std::size_t k = 8 * parts; k < written.size(); k++) expect(written[k] == 0xA5, "the bytes behind them are untouched");
}

// A line for each part of the record, each number ending in the last of its columns; the bytes behind are untouched.
void expect_page(const desk_session *session, const desk_system &shown, const Bytes &record) {
    const std::size_t width = 28, parts = 2 * shown.last + 1;
    Bytes page(DESK_LONGEST_PAGE, 0xA5);
    expect(desk_page(session, page.data(), width * parts - 1).number == 13, "a page needs room for all of it");
    expect(desk_page(session, page.data(), page.size()).number == 0, "the page of a settled mean is written");
    for (std::size_t k = 0; k < parts; k++) {
        char line[80];
        const bool is_phi = k <= shown.last;
        const std::size_t index = is_phi ? k : k - shown.last - 1;
        const long part = field(record, 5 + 4 * k);
        const unsigned long long own = shown.own[k];
        std::snprintf(line, sizeof line, "%s %2zu %9ld %10llu\n", is_phi ? "phi" : "psi", index, part, own);
        expect(std::strlen(line) == width && std::memcmp(line, &page[width * k], width) == 0, "a line has its part");
    }
    for (std::size_t k = width * parts; k < page.size(); k++) expect(page[k] == 0xA5, "the bytes behind a page are untouched");
}

// A figure for each year but the closed one.
void expect_ultimates(const desk_session *session, std::size_t last) {
    for (std::size_t year = 1; year <= last; year++) {
        const desk_projection found = desk_ultimate(session, year);
        expect(found.refusal.number == 0, "a year of the file has an ultimate");
        expect(found.remainder < found.divisor, "the remainder is below the divisor");
        expect(found.floor > 0 && found.floor < 44 << 20, "an ultimate of the sample is an amount that a file can have");
    }
    expect(desk_ultimate(session, 0).refusal.number == 25, "year 0 is closed");
    expect(desk_ultimate(session, last + 1).refusal.number == 25, "no other year has one");
}

// The first payment of the oldest year out of the averages: its part weighs less, the others as much, and all begins anew.
void expect_strike(desk_session *session, const desk_system &before) {
    expect(desk_strike(session, DESK_PAID, 0, 0).number == 0, "a step is struck");
    const desk_system after = desk_figures(session);
    expect(after.own[0] < before.own[0] && after.matrix[0][0] < before.matrix[0][0], "its part weighs less");
    for (std::size_t k = 1; k <= 2 * before.last; k++) expect(after.own[k] == before.own[k], "no other part does");
    expect(desk_read(session, nullptr, 0).number == 24, "the mean is the prior means again");
    const desk_sweeping swept = desk_sweep(session, DESK_MOST_SWEEPS);
    expect(swept.settled == 1 && swept.total > 0, "the mean settles without the step");
    expect_residues(session, after, settled_record(session));
    expect(desk_strike(session, DESK_PAID, 0, 0).number == 26, "a step is struck once");
    expect(desk_strike(session, DESK_INCURRED, 0, before.last).number == 26, "a step that is not there is not struck");
    expect(desk_strike(session, DESK_PAID, 0, before.last).number == 27, "nor is the last of its column");
}

void print_parts(const char *name, const Bytes &record, std::size_t first, std::size_t count) {
    for (std::size_t k = 0; k < count; k++) {
        std::printf("%s %zu %ld\n", name, k, static_cast<long>(field(record, 5 + 4 * (first + k))));
    }
}

} // namespace

int main(int count, char **arguments) {
    expect(count == 2, "one argument, a file of the desk");
    const Bytes file = contents(arguments[1]);
    desk_session session = DESK_EMPTY;
    expect(desk_open(&session, file.data(), file.size()).number == 0, "the file is opened");
    const desk_sweeping swept = desk_sweep(&session, DESK_MOST_SWEEPS);
    expect(swept.settled == 1, "its mean settles");
    const std::size_t last = file[5];
    expect_session_size();
    const Bytes record = settled_record(&session);
    expect_rows(file, last);
    const desk_system shown = desk_figures(&session);
    expect(shown.refusal.number == 0 && shown.last == last, "the figures of the open file are shown");
    expect(shown.closeness == static_cast<std::uint64_t>(field(file, 6)), "so is its closeness");
    expect_passes(shown, record);
    expect_residues(&session, shown, record);
    expect_page(&session, shown, record);
    expect_ultimates(&session, last);
    std::printf("J %zu\nsweeps %llu\n", last, static_cast<unsigned long long>(swept.total));
    print_parts("phi", record, 0, last + 1);
    print_parts("psi", record, last + 1, last);
    expect_strike(&session, shown);
    desk_close(&session);
    expect(desk_sweep(&session, 1).refusal.number == 21, "nothing is open after a close");
    expect(desk_figures(&session).refusal.number == 21, "nothing is shown after a close");
    expect(desk_page(&session, nullptr, 0).number == 21, "nothing is written after a close");
    return 0;
}
