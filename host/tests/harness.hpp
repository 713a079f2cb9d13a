// Calls either side, the archive or plain, the way a caller from C would: with a lent buffer whose every byte is looked at
// afterwards.
#pragma once

#include <cstddef>
#include <cstdint>
#include <string>
#include <string_view>

namespace harness {

enum class Operation { Read, Write };
enum class Side { Archive, Plain };

const char *nameOf(Operation operation);
const char *nameOf(Side side);

struct Outcome {
    std::uint64_t number = 0;
    std::uint64_t place = 0;
    std::uint64_t length = 0;
    std::string bytes;
    bool kept = true;  // no byte was changed that had to stay: past the length, or any on a refusal

    bool operator==(const Outcome &other) const {
        return number == other.number && place == other.place && length == other.length && bytes == other.bytes &&
               kept == other.kept;
    }
    std::string told() const;
};

Outcome call(Side side, Operation operation, std::uint64_t list, std::string_view input, std::size_t room);

std::string contentsOf(const std::string &path);

}  // namespace harness
