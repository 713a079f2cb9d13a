// The numbers of the format and of its refusals, each said once.
#pragma once

#include <cstddef>
#include <cstdint>
#include <string_view>

namespace plain {

constexpr std::size_t lineColumns = 80;
constexpr std::size_t lineBytes = lineColumns + 1;  // with its line feed
constexpr std::size_t maxLines = 200'000;
constexpr std::size_t globalColumns = 72;     // text of an S or G line
constexpr std::size_t parameterColumns = 64;  // text of a P line
constexpr std::size_t sectionColumn = 72;     // from 0, as all columns in the code
constexpr std::size_t sequenceColumn = 73;
constexpr std::size_t sequenceWidth = 7;
constexpr std::uint64_t greatestList = 16'383;
constexpr std::uint64_t greatestInteger = 2'147'483'647;
constexpr std::size_t mostDigits = 17;  // of a real's m
constexpr int greatestExponent = 400;
constexpr std::size_t longestString = 999;

enum class Fault : std::uint64_t {
    ListOrLength = 1,
    Byte = 2,
    Section = 3,
    Sequence = 4,
    Terminate = 5,
    Spelling = 6,
    Limits = 7,
    Global = 8,
    DirectoryField = 9,
    DirectoryReference = 10,
    Ownership = 11,
    FirstValue = 12,
    Macro = 13,
    Layout = 14,
    Reference = 15,
    Room = 16,
    SheetLine = 17,
    Mark = 18,
    TooManyLines = 19,
};

// A refusal ends reading or writing at once, so the checks of the code stand in the paper's order and the first one wins.
struct Refusal {
    Fault fault;
    std::uint64_t place;
};

[[noreturn]] inline void refuse(Fault fault, std::uint64_t place) { throw Refusal{fault, place}; }

inline bool isDigit(char c) { return c >= '0' && c <= '9'; }

// No early way out: the loop over a line's bytes is then done many bytes at a time.
inline bool allPrintable(std::string_view bytes) {
    unsigned wrong = 0;
    for (const char c : bytes) wrong |= static_cast<unsigned>(static_cast<unsigned char>(c - ' ') > '~' - ' ');
    return wrong == 0;
}

inline bool allBlank(std::string_view bytes) { return bytes.find_first_not_of(' ') == std::string_view::npos; }

}  // namespace plain
