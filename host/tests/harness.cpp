#include "harness.hpp"

#include <cstdio>
#include <cstdlib>
#include <cstring>
#include <fstream>
#include <iterator>
#include <vector>

#include "../plain/plain.hpp"
#include "szelmikra.h"

namespace harness {

namespace {

constexpr std::size_t fence = 64;  // bytes on each side of the lent buffer
constexpr std::uint8_t paint = 0xA5;

const std::uint8_t *bytesOf(std::string_view text) {
    static const std::uint8_t nothing = 0;  // an empty slice has a pointer that is not null
    return text.empty() ? &nothing : reinterpret_cast<const std::uint8_t *>(text.data());
}

bool allPaint(const std::uint8_t *from, std::size_t count) {
    return count == 0 || (from[0] == paint && std::memcmp(from, from + 1, count - 1) == 0);
}

Outcome callArchive(Operation operation, std::uint64_t list, std::string_view input, std::size_t room) {
    static std::vector<std::uint8_t> lent;
    lent.assign(room + 2 * fence, paint);
    std::uint8_t *const output = lent.data() + fence;
    const auto function = operation == Operation::Read ? szelmikra_read : szelmikra_write;
    const szelmikra_answer answer = function(list, bytesOf(input), input.size(), output, room);
    Outcome outcome{answer.number, answer.place, answer.length, {}, false};
    const std::size_t length = answer.number == 0 ? static_cast<std::size_t>(answer.length) : 0;
    if (length > room) return outcome;
    outcome.kept = allPaint(lent.data(), fence) && allPaint(output + length, room - length + fence);
    outcome.bytes.assign(output, output + length);
    return outcome;
}

Outcome callPlain(Operation operation, std::uint64_t list, std::string_view input, std::size_t room) {
    const auto function = operation == Operation::Read ? plain::read : plain::write;
    plain::Answer answer = function(list, input, room);
    return {answer.number, answer.place, answer.length, std::move(answer.bytes), true};
}

}  // namespace

const char *nameOf(Operation operation) { return operation == Operation::Read ? "read" : "write"; }
const char *nameOf(Side side) { return side == Side::Archive ? "archive" : "plain"; }

std::string Outcome::told() const {
    return "number " + std::to_string(number) + ", place " + std::to_string(place) + ", length " + std::to_string(length) +
           (kept ? "" : ", bytes changed that had to stay");
}

Outcome call(Side side, Operation operation, std::uint64_t list, std::string_view input, std::size_t room) {
    return side == Side::Archive ? callArchive(operation, list, input, room) : callPlain(operation, list, input, room);
}

std::string contentsOf(const std::string &path) {
    std::ifstream file(path, std::ios::binary);
    if (!file) {
        std::fprintf(stderr, "cannot open %s\n", path.c_str());
        std::exit(3);
    }
    return std::string(std::istreambuf_iterator<char>(file), {});
}

}  // namespace harness
