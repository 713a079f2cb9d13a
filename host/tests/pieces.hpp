// What the makers of random files share.
#pragma once

#include <cstddef>
#include <initializer_list>
#include <string>
#include <string_view>

#include "random.hpp"

namespace tests {

constexpr std::size_t lineBytes = 81;
constexpr std::size_t globalWidth = 72;
constexpr std::size_t parameterWidth = 64;

inline std::string right(std::string number, std::size_t width, char fill) {
    return number.size() >= width ? number.substr(0, width) : std::string(width - number.size(), fill) + number;
}

// The pieces of a list are made from left to right, those of a sum in any order: with this the same seed gives the same file
// whatever the compiler.
inline std::string inOrder(std::initializer_list<std::string> pieces) {
    std::string text;
    for (const std::string &piece : pieces) text += piece;
    return text;
}

inline std::string printable(Random &random, std::size_t length) {
    std::string text;
    while (text.size() < length) text.push_back(static_cast<char>(random.between(32, 126)));
    return text;
}

template <std::size_t count>
std::string oneOf(Random &random, const char *const (&words)[count]) {
    return words[random.below(count)];
}

inline std::string soup(Random &random, std::size_t length, std::string_view letters) {
    std::string text;
    while (text.size() < length) text.push_back(random.from(letters));
    return text;
}

}  // namespace tests
