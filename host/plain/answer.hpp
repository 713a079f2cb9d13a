// The answer of reading and of writing: room is looked at after all else, and the first refusal is told; 16 tells the length that
// is needed.
#pragma once

#include <utility>

#include "format.hpp"
#include "plain.hpp"

namespace plain {

// make(list, input) gives the output or refuses.
template <class Make>
Answer answerOf(Make make, std::uint64_t list, std::string_view input, std::size_t room) {
    try {
        std::string bytes = make(list, input);
        const std::size_t length = bytes.size();
        if (length > room) return {static_cast<std::uint64_t>(Fault::Room), 0, length, {}};
        return {0, 0, length, std::move(bytes)};
    } catch (const Refusal &refusal) {
        return {static_cast<std::uint64_t>(refusal.fault), refusal.place, 0, {}};
    }
}

}  // namespace plain
