// What each refusal number means, in plain words.
#pragma once

#include <cstdint>

namespace tool {

struct Meaning {
    std::uint64_t number;
    const char *brief;   // for a message
    const char *detail;  // for `explain`
};

// Null for a number that is none of the paper's.
const Meaning *meaningOf(std::uint64_t number);

}  // namespace tool
