// How long reading and writing take: the archive, plain, a plain pass over the bytes that only splits fields, and memcpy, in one
// run on the same files. A measurement, so it ends well whether the targets are met or not.
#include <algorithm>
#include <chrono>
#include <cstdint>
#include <cstdio>
#include <cstdlib>
#include <cstring>
#include <functional>
#include <initializer_list>
#include <limits>
#include <string>
#include <vector>

#include "plain/plain.hpp"
#include "szelmikra.h"
#include "tests/large.hpp"

namespace {

constexpr std::uint64_t allTypes = SZELMIKRA_ALL_TYPES;
constexpr std::size_t noLimit = static_cast<std::size_t>(-1);
constexpr std::size_t lineBytes = 81;

volatile std::uint64_t sink;  // what is measured must not be optimised away

double millisecondsOf(const std::function<void()> &work) {
    const auto start = std::chrono::steady_clock::now();
    work();
    return std::chrono::duration<double, std::milli>(std::chrono::steady_clock::now() - start).count();
}

// The least time of each kind of work over rounds in which they take turns: what else a machine does meanwhile only adds to a time,
// and to all kinds alike. The first round warms up.
std::vector<double> leastTimes(const std::vector<std::function<void()>> &works) {
    constexpr std::size_t leastRounds = 15, mostRounds = 101;
    constexpr double enough = 3000;
    std::vector<double> least(works.size(), std::numeric_limits<double>::infinity());
    double spent = 0;
    for (std::size_t round = 0; round <= leastRounds || (spent < enough && round <= mostRounds); ++round)
        for (std::size_t kind = 0; kind < works.size(); ++kind) {
            const double time = millisecondsOf(works[kind]);
            if (round > 0) least[kind] = std::min(least[kind], time);
            spent += time;
        }
    return least;
}

const std::uint8_t *bytesOf(const std::string &text) { return reinterpret_cast<const std::uint8_t *>(text.data()); }

// The fixed fields of D lines as numbers, the values of P lines by their commas; nothing is checked and nothing kept.
std::uint64_t splitFields(const std::string &file) {
    std::uint64_t sum = 0;
    for (std::size_t at = 0; at < file.size(); at += lineBytes) {
        const char *const line = file.data() + at;
        if (line[72] == 'D') {
            for (std::size_t field = 0; field < 9; ++field) {
                std::uint64_t number = 0;
                for (std::size_t column = 8 * field; column < 8 * field + 8; ++column)
                    if (line[column] >= '0' && line[column] <= '9')
                        number = number * 10 + static_cast<std::uint64_t>(line[column] - '0');
                sum += number;
            }
        } else {
            std::size_t start = 0;
            for (std::size_t column = 0; column < 64; ++column) {
                if (line[column] != ',' && line[column] != ';') continue;
                sum += column - start;
                start = column + 1;
            }
        }
    }
    return sum;
}

// What is refused early is quick, and no measure of anything.
void mustAccept(const szelmikra_answer &answer) {
    if (answer.number == 0) return;
    std::fprintf(stderr, "bench: refused %d at %d\n", static_cast<int>(answer.number), static_cast<int>(answer.place));
    std::exit(3);
}

struct Times {
    std::size_t lines, values;
    double read, write, plainRead, plainWrite, pass, copy;
};

// A sheet has a line for each value, but for those of defaults at an entry's end.
std::size_t valuesIn(const std::string &sheet) {
    std::size_t values = 0;
    for (std::size_t at = 0; at < sheet.size(); at = sheet.find('\n', at) + 1) values += sheet[at] == 'V' || sheet[at] == 'R';
    return values;
}

Times measure(std::size_t lines, tests::Coordinates coordinates) {
    const std::string file = tests::largeFile(lines, coordinates);
    const std::string sheet = plain::read(allTypes, file, noLimit).bytes;
    std::vector<std::uint8_t> output(std::max(file.size(), sheet.size()));
    const auto read = [&] { return szelmikra_read(allTypes, bytesOf(file), file.size(), output.data(), output.size()); };
    const auto write = [&] { return szelmikra_write(allTypes, bytesOf(sheet), sheet.size(), output.data(), output.size()); };
    mustAccept(read()), mustAccept(write());
    const std::vector<double> least = leastTimes({
        [&] { sink = read().length; },
        [&] { sink = write().length; },
        [&] { sink = plain::read(allTypes, file, noLimit).length; },
        [&] { sink = plain::write(allTypes, sheet, noLimit).length; },
        [&] { sink = splitFields(file); },
        [&] {
            std::memcpy(output.data(), file.data(), file.size());
            sink = output[file.size() / 2];
        },
    });
    return {lines, valuesIn(sheet), least[0], least[1], least[2], least[3], least[4], least[5]};
}

// How much longer a sheet of 132,000 entries takes than one of 66,000, each of which names two others at random. A file can hold
// the 66,000, and they are written; the 132,000 are refused once all that they name was looked at.
double growthOfEntries(const std::function<std::string(std::size_t)> &sheetOf) {
    const std::string few = sheetOf(66'000), many = sheetOf(132'000);
    std::vector<std::uint8_t> output(SZELMIKRA_MOST_FILE);
    const std::vector<double> least = leastTimes({
        [&] { sink = szelmikra_write(allTypes, bytesOf(few), few.size(), output.data(), output.size()).number; },
        [&] { sink = szelmikra_write(allTypes, bytesOf(many), many.size(), output.data(), output.size()).number; },
    });
    return least[1] / least[0];
}

void target(const char *what, double ratio, double limit) {
    std::printf("%-48s %6.2f   target at most %4.1f   %s\n", what, ratio, limit, ratio <= limit ? "met" : "not met");
}

void printTimes(const Times &t) {
    std::printf("%8zu %10.3f %10.3f %12.3f %12.3f %12.3f %10.3f\n", t.lines, t.read, t.write, t.plainRead, t.plainWrite, t.pass,
                t.copy);
    std::fflush(stdout);
}

// A file whose coordinates are integers takes no longer for each value than one of reals.
void compareIntegers(const Times &reals) {
    std::printf("\nthe same with integers at all real places\n");
    const Times integers = measure(reals.lines, tests::Coordinates::Integers);
    printTimes(integers);
    const auto each = [](double time, const Times &t) { return time / static_cast<double>(t.values); };
    target("read a value, integers over reals", each(integers.read, integers) / each(reals.read, reals), 1.0);
    target("write a value, integers over reals", each(integers.write, integers) / each(reals.write, reals), 1.0);
}

}  // namespace

int main() {
    std::printf("milliseconds, least of 15 to 101 rounds\n");
    std::printf("%8s %10s %10s %12s %12s %12s %10s\n", "lines", "read", "write", "plain read", "plain write", "plain pass",
                "memcpy");
    std::vector<Times> all;
    for (const std::size_t lines : std::initializer_list<std::size_t>{2'000, 20'000, 200'000}) {
        all.push_back(measure(lines, tests::Coordinates::Reals));
        printTimes(all.back());
    }
    std::printf("\n%8s %17s %19s %17s %14s\n", "lines", "read/plain read", "write/plain write", "read/plain pass", "read/memcpy");
    for (const Times &t : all)
        std::printf("%8zu %17.2f %19.2f %17.2f %14.2f\n", t.lines, t.read / t.plainRead, t.write / t.plainWrite, t.read / t.pass,
                    t.read / t.copy);
    const Times &middle = all[1], &last = all[2];
    std::printf("\n");
    target("read, 200,000 lines, over plain read", last.read / last.plainRead, 1.5);
    target("write, 200,000 lines, over plain write", last.write / last.plainWrite, 1.5);
    target("read, growth from 20,000 to 200,000 lines", last.read / middle.read, 12);
    target("write, growth from 20,000 to 200,000 lines", last.write / middle.write, 12);
    target("read, 200,000 lines, over the plain pass", last.read / last.pass, 6);
    const auto any = [](std::size_t entries) { return tests::manyEntries(entries, tests::Named::Random); };
    const auto typed = [](std::size_t entries) { return tests::typedEntries(entries, tests::Named::Random); };
    target("write, growth from 66,000 to 132,000 entries", growthOfEntries(any), 2.4);
    // Up to 66,665 entries a type is one look into a table; past that an entry is searched for.
    target("the same where all are asked for their types", growthOfEntries(typed), 2.4);
    compareIntegers(last);
    return 0;
}
