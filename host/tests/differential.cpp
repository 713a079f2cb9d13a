// The archive against plain, on random files and sheets, good and damaged, or on a few large ones.
//
//     differential [--seed N] [--first N] [--count N] [--keep FOLDER]
//     differential --large [--keep FOLDER]
//
// Each random case has its own seed, made of --seed and its number, so `--first N --count 1` runs one again; --keep saves inputs on
// which the two sides differ. It fails on any difference; a whole run, which starts at 0 and has the usual count or more, also
// fails if a refusal number that can be reached was never seen. Refusal 19 of writing takes a large sheet: it is among the large
// cases.
#include <cstdio>
#include <cstdlib>
#include <cstring>
#include <fstream>
#include <initializer_list>
#include <string>

#include "harness.hpp"
#include "large.hpp"
#include "random_files.hpp"
#include "szelmikra.h"

namespace {

using harness::Operation;
using harness::Outcome;
using harness::Side;
using tests::Random;

constexpr std::uint64_t allTypes = SZELMIKRA_ALL_TYPES;
constexpr std::size_t noLimit = static_cast<std::size_t>(-1);
constexpr std::size_t numbers = 20;

constexpr std::uint64_t usualCount = 20'000;

struct Options {
    std::uint64_t seed = 20'261'115;
    std::uint64_t first = 0;
    std::uint64_t count = usualCount;
    std::string keep;
    bool large = false;
    bool wholeRun() const { return first == 0 && count >= usualCount; }
};

class Comparison {
public:
    explicit Comparison(std::string keep) : keep_(std::move(keep)) {}

    // Both sides on one input; the answer is plain's.
    Outcome compare(Operation operation, std::uint64_t list, const std::string &input, std::size_t room) {
        const Outcome expected = call(Side::Plain, operation, list, input, room);
        const Outcome outcome = call(Side::Archive, operation, list, input, room);
        ++cases_;
        if (expected.number < numbers) seen_[static_cast<int>(operation)][expected.number] = true;
        if (!(outcome == expected)) differ(operation, list, input, room, outcome, expected);
        return expected;
    }

    void expect(bool good, const char *what) {
        ++cases_;
        if (good) return;
        ++differences_;
        std::printf("differential: wrong: %s\n", what);
    }

    void label(std::string name) { name_ = std::move(name); }

    int report(bool wholeRun) const {
        std::size_t seen = 0, missing = 0;
        for (std::size_t number = 1; number < numbers; ++number) seen += seen_[0][number] || seen_[1][number];
        if (wholeRun) {
            for (const int number : {1, 2, 3, 4, 5, 6, 7, 8, 9, 10, 11, 12, 13, 14, 15, 16})
                missing += missed(Operation::Read, number);
            for (const int number : {1, 8, 9, 10, 13, 14, 15, 16, 17, 18}) missing += missed(Operation::Write, number);
        }
        std::printf("differential: %zu cases, %zu refusal numbers seen, %zu differences\n", cases_, seen, differences_);
        return differences_ == 0 && missing == 0 ? 0 : 1;
    }

private:
    bool missed(Operation operation, int number) const {
        if (seen_[static_cast<int>(operation)][number]) return false;
        std::printf("differential: refusal %d of %s was never seen\n", number, nameOf(operation));
        return true;
    }

    void differ(Operation operation, std::uint64_t list, const std::string &input, std::size_t room, const Outcome &outcome,
                const Outcome &expected) {
        constexpr std::size_t mostTold = 20;
        if (++differences_ > mostTold) return;
        std::printf("differential: %s: %s, list %llu, room %zu\n    archive: %s\n    plain:   %s\n", name_.c_str(),
                    nameOf(operation), static_cast<unsigned long long>(list), room, outcome.told().c_str(),
                    expected.told().c_str());
        if (!keep_.empty()) std::ofstream(keep_ + "/difference-" + name_, std::ios::binary) << input;
    }

    std::string keep_;
    std::string name_;
    std::size_t cases_ = 0;
    std::size_t differences_ = 0;
    bool seen_[2][numbers] = {};
};

std::uint64_t randomList(Random &random) {
    if (random.oneIn(2)) return allTypes;
    if (random.oneIn(60)) return random.oneIn(2) ? allTypes + 1 + random.below(100) : random.bits();
    return random.below(allTypes + 1);
}

// Around the length that is needed, if one is.
std::size_t randomRoom(Random &random, std::size_t needed) {
    switch (random.below(8)) {
        case 0: return needed;
        case 1: return needed == 0 ? 0 : needed - 1;
        case 2: return random.below(needed + 1);
        default: return needed + random.below(100);
    }
}

void compareInRandomRoom(Comparison &comparison, Random &random, Operation operation, std::uint64_t list,
                         const std::string &input) {
    const Outcome whole = call(Side::Plain, operation, list, input, noLimit);
    comparison.compare(operation, list, input, randomRoom(random, static_cast<std::size_t>(whole.length)));
}

// The sheet of a file is written, and what is written has that sheet.
void backAgain(Comparison &comparison, std::uint64_t list, const std::string &sheet) {
    constexpr std::size_t room = 100'000;
    const Outcome file = comparison.compare(Operation::Write, list, sheet, room);
    const Outcome again = comparison.compare(Operation::Read, list, file.bytes, room);
    comparison.expect(file.number == 0 && again.bytes == sheet, "there and back");
}

// A file in free spelling, perhaps damaged; and if it has a sheet, that sheet, perhaps damaged, back.
void randomCase(Comparison &comparison, Random &random) {
    std::string file = random.oneIn(3) ? tests::soupFile(random) : tests::randomFile(random);
    if (random.oneIn(3))
        for (std::size_t times = random.between(1, 2); times > 0; --times) file = tests::damagedFile(random, file);
    compareInRandomRoom(comparison, random, Operation::Read, randomList(random), file);

    const std::uint64_t list = random.oneIn(2) ? allTypes : random.below(allTypes + 1);
    std::string sheet = call(Side::Plain, Operation::Read, list, file, noLimit).bytes;
    if (sheet.empty()) return;
    if (random.oneIn(4)) return backAgain(comparison, list, sheet);
    for (std::size_t times = random.between(1, 2); times > 0; --times) sheet = tests::damagedSheet(random, sheet);
    compareInRandomRoom(comparison, random, Operation::Write, random.oneIn(8) ? randomList(random) : list, sheet);
}

// Reading, writing and reading again give the same sheet, and the file that was written is the one of its sheet.
Outcome thereAndBack(Comparison &comparison, const char *name, const std::string &file) {
    comparison.label(name);
    constexpr std::size_t room = 60'000'000;
    const Outcome sheet = comparison.compare(Operation::Read, allTypes, file, room);
    const Outcome written = comparison.compare(Operation::Write, allTypes, sheet.bytes, file.size());
    const Outcome again = comparison.compare(Operation::Read, allTypes, written.bytes, sheet.bytes.size());
    comparison.expect(sheet.number == 0 && written.number == 0 && again.bytes == sheet.bytes, name);
    return written;
}

// A sheet is answered with this number, on both sides.
void written(Comparison &comparison, const std::string &sheet, std::size_t room, std::uint64_t number, const char *what) {
    comparison.expect(comparison.compare(Operation::Write, allTypes, sheet, room).number == number, what);
}

// Sheets of more entries than a file can hold: every reference is owed its answer before 19.
void manyEntries(Comparison &comparison) {
    using tests::Last;
    using tests::Named;
    comparison.label("many entries");
    for (const std::size_t entries : std::initializer_list<std::size_t>{70'000, 500'000})
        for (const Named named : {Named::Rising, Named::Falling, Named::Random}) {
            written(comparison, tests::manyEntries(entries, named), 0, SZELMIKRA_TOO_LONG, "many entries are refused for length");
            written(comparison, tests::typedEntries(entries, named), 0, SZELMIKRA_TOO_LONG, "and those that are asked for their types");
        }
    struct Late {
        Last last;
        std::uint64_t number;
    };
    for (const Late late : {Late{Last::Reference, SZELMIKRA_REFERENCE}, Late{Last::LayoutReference, SZELMIKRA_LAYOUT_REFERENCE},
                            Late{Last::Mark, SZELMIKRA_MARK}}) {
        written(comparison, tests::manyEntries(140'000, Named::Random, late.last), 0, late.number,
                "what is wrong with the last of many entries is told before their number");
        written(comparison, tests::typedEntries(140'000, Named::Random, late.last), 0, late.number,
                "and a type that is wrong at the last of many");
    }
}

void largeCases(Comparison &comparison) {
    const std::string full = tests::largeFile(200'000);
    comparison.expect(thereAndBack(comparison, "200,000 lines", full).bytes == full, "the canonical file is written back");
    const std::string shuffled = tests::shuffledBlocks(full);
    comparison.expect(shuffled != full && thereAndBack(comparison, "shuffled blocks", shuffled).bytes == full,
                      "shuffled blocks are put in order");
    thereAndBack(comparison, "one entity over 100,000 lines", tests::oneLargeEntity());
    thereAndBack(comparison, "60,000 references", tests::manyReferences(60'000));

    comparison.label("damage at the end");
    const std::size_t lastParameter = full.size() - 2 * 81;
    for (const std::size_t column : std::initializer_list<std::size_t>{0, 20, 64, 70}) {
        std::string damaged = full;
        damaged[lastParameter + column] = '*';
        comparison.compare(Operation::Read, allTypes, damaged, 0);
    }
    comparison.label("too many lines");
    comparison.compare(Operation::Read, allTypes, full + full.substr(0, 81), 0);
    written(comparison, tests::startLinesOnly(200'000), SZELMIKRA_MOST_FILE, SZELMIKRA_ACCEPTED, "200,000 lines are written");
    written(comparison, tests::startLinesOnly(200'001), SZELMIKRA_MOST_FILE, SZELMIKRA_TOO_LONG, "200,001 lines are refused");
    manyEntries(comparison);
    comparison.label("100 MB of S lines");
    written(comparison, tests::fullStartLines(100'000'000), 0, SZELMIKRA_TOO_LONG, "100 MB of S lines are refused");
}

std::uint64_t numberOf(const char *word) {
    char *end = nullptr;
    const unsigned long long number = std::strtoull(word, &end, 10);
    if (end == word || *end != '\0') {
        std::fprintf(stderr, "differential: not a number: %s\n", word);
        std::exit(2);
    }
    return number;
}

[[noreturn]] void usage() {
    std::fprintf(stderr,
                 "usage: differential [--seed N] [--first N] [--count N] [--keep FOLDER]\n"
                 "       differential --large [--keep FOLDER]\n");
    std::exit(2);
}

Options parse(int count, char **words) {
    Options options;
    for (int i = 1; i < count; ++i) {
        const char *const option = words[i];
        if (std::strcmp(option, "--large") == 0) {
            options.large = true;
            continue;
        }
        if (++i == count) usage();
        if (std::strcmp(option, "--seed") == 0)
            options.seed = numberOf(words[i]);
        else if (std::strcmp(option, "--first") == 0)
            options.first = numberOf(words[i]);
        else if (std::strcmp(option, "--count") == 0)
            options.count = numberOf(words[i]);
        else if (std::strcmp(option, "--keep") == 0)
            options.keep = words[i];
        else
            usage();
    }
    return options;
}

}  // namespace

int main(int count, char **words) {
    const Options options = parse(count, words);
    Comparison comparison(options.keep);
    if (options.large) {
        largeCases(comparison);
        return comparison.report(false);
    }
    for (std::uint64_t i = options.first; i < options.first + options.count; ++i) {
        comparison.label(std::to_string(i));
        Random random(Random(options.seed ^ (i << 20)).bits());
        randomCase(comparison, random);
    }
    return comparison.report(options.wholeRun());
}
