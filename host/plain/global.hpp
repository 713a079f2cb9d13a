// The Global section: its opening, its record, and what each field may hold: refusals 6, 7 and 8.
#pragma once

#include <cstdint>
#include <string>
#include <vector>

#include "lines.hpp"
#include "value.hpp"

namespace plain {

struct GlobalField {
    std::size_t number;
    Value value;
    std::uint64_t place;
};

struct GlobalSection {
    Delimiters delimiters;
    std::string spelt;                // the spellings of the values
    std::vector<GlobalField> fields;  // as they stand, defaults too
};

constexpr std::size_t firstGlobalField = 3;  // 1 and 2 are the delimiters
constexpr std::size_t lastGlobalField = 24;

GlobalSection readGlobal(const File &file);

// Kind, range and number of one field: 8.
void checkGlobalField(const GlobalField &field);

}  // namespace plain
