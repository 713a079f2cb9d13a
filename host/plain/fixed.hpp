// Fixed number fields: right-justified, leading blanks only, all blank is 0.
#pragma once

#include <cstdint>
#include <optional>
#include <string>
#include <string_view>

namespace plain {

// At most eight columns, so that every worth fits.
std::optional<std::int32_t> unsignedField(std::string_view columns);

// The same with at most one sign, right before the digits.
std::optional<std::int32_t> signedField(std::string_view columns);

// Lays number into width columns from `to` on, at the right, with `fill` before it.
void putRight(char *to, std::size_t width, std::int64_t number, char fill);

void appendNumber(std::string &out, std::int64_t number);

}  // namespace plain
