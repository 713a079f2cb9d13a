#include "fixed.hpp"

#include <charconv>
#include <cstring>

#include "format.hpp"

namespace plain {

namespace {

std::optional<std::int32_t> digitsOnly(std::string_view digits) {
    std::int32_t worth = 0;
    for (const char c : digits) {
        if (!isDigit(c)) return std::nullopt;
        worth = worth * 10 + (c - '0');
    }
    return worth;
}

std::string_view withoutLeadingBlanks(std::string_view columns) {
    std::size_t blanks = 0;
    while (blanks < columns.size() && columns[blanks] == ' ') ++blanks;
    return columns.substr(blanks);
}

constexpr std::size_t longestNumber = 24;

}  // namespace

std::optional<std::int32_t> unsignedField(std::string_view columns) { return digitsOnly(withoutLeadingBlanks(columns)); }

std::optional<std::int32_t> signedField(std::string_view columns) {
    const std::string_view number = withoutLeadingBlanks(columns);
    if (number.empty() || isDigit(number[0])) return digitsOnly(number);
    if ((number[0] != '-' && number[0] != '+') || number.size() == 1) return std::nullopt;
    const auto worth = digitsOnly(number.substr(1));
    return worth && number[0] == '-' ? std::optional(-*worth) : worth;
}

void putRight(char *to, std::size_t width, std::int64_t number, char fill) {
    char digits[longestNumber];
    const auto end = std::to_chars(digits, digits + longestNumber, number).ptr;
    const auto length = static_cast<std::size_t>(end - digits);
    std::memset(to, fill, width - length);
    std::memcpy(to + (width - length), digits, length);
}

void appendNumber(std::string &out, std::int64_t number) {
    char digits[longestNumber];
    const auto end = std::to_chars(digits, digits + longestNumber, number).ptr;
    out.append(digits, static_cast<std::size_t>(end - digits));
}

}  // namespace plain
