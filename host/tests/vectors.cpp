// Runs the archive and plain over the vectors: inputs with the answer that documents 01 and 02 give, worked out apart from both.
//
// The vectors stand in one file, which the proved program `vectors` reads too; host/pack.py makes it. For each seven numbers of
// eight digits (0 to read and 1 to write; list; number and place of the answer; how long its name, its input and its output are), a
// line feed, and those three.
#include <cstdio>
#include <cstdlib>
#include <string>
#include <vector>

#include "harness.hpp"
#include "szelmikra.h"

namespace {

using harness::Operation;
using harness::Outcome;
using harness::Side;

struct Case {
    std::string name;
    Operation operation = Operation::Read;
    std::uint64_t list = 0;
    std::string input;
    Outcome expected;
};

[[noreturn]] void unreadable(std::size_t position) {
    std::fprintf(stderr, "vectors: the file is not well formed near byte %zu\n", position);
    std::exit(3);
}

// The eight digits at a place.
std::size_t numberAt(const std::string &all, std::size_t at) {
    std::size_t number = 0;
    for (std::size_t i = at; i < at + 8; ++i) {
        if (i >= all.size() || all[i] < '0' || all[i] > '9') unreadable(at);
        number = number * 10 + static_cast<std::size_t>(all[i] - '0');
    }
    return number;
}

Case takeCase(const std::string &all, std::size_t &at) {
    constexpr std::size_t head = 57;
    Case one;
    one.operation = numberAt(all, at) == 0 ? Operation::Read : Operation::Write;
    one.list = numberAt(all, at + 8);
    one.expected.number = numberAt(all, at + 16);
    one.expected.place = numberAt(all, at + 24);
    const std::size_t name = at + head;
    const std::size_t input = name + numberAt(all, at + 32);
    const std::size_t output = input + numberAt(all, at + 40);
    const std::size_t end = output + numberAt(all, at + 48);
    if (all.size() < end) unreadable(at);
    one.name = all.substr(name, input - name);
    one.input = all.substr(input, output - input);
    one.expected.bytes = all.substr(output, end - output);
    one.expected.length = end - output;
    at = end;
    return one;
}

bool answers(Side side, const Case &one, std::size_t room, const Outcome &expected) {
    const Outcome outcome = call(side, one.operation, one.list, one.input, room);
    if (outcome == expected) return true;
    std::printf("%s, %s, room %zu: %s\n    expected: %s\n", one.name.c_str(), nameOf(side), room, outcome.told().c_str(),
                expected.told().c_str());
    return false;
}

// Room to spare, just enough, one byte too little and none, which both tell the length that is needed; a refusal does not depend on
// room.
bool passes(Side side, const Case &one) {
    const std::size_t length = one.expected.bytes.size();
    constexpr std::size_t spare = 1000;
    if (one.expected.number != 0) return answers(side, one, spare, one.expected) && answers(side, one, 0, one.expected);
    Outcome tooShort;
    tooShort.number = SZELMIKRA_ROOM;
    tooShort.length = length;
    return answers(side, one, length + spare, one.expected) && answers(side, one, length, one.expected) &&
           answers(side, one, length - 1, tooShort) && answers(side, one, 0, tooShort);
}

}  // namespace

int main(int count, char **words) {
    if (count != 2) {
        std::fprintf(stderr, "usage: vectors FILE\n");
        return 2;
    }
    const std::string all = harness::contentsOf(words[1]);
    std::size_t cases = 0, wrong = 0;
    for (std::size_t at = 0; at < all.size(); ++cases) {
        const Case one = takeCase(all, at);
        for (const Side side : {Side::Plain, Side::Archive}) wrong += !passes(side, one);
    }
    std::printf("vectors: %zu cases on both sides, %zu wrong\n", cases, wrong);
    return wrong == 0 && cases > 0 ? 0 : 1;
}
