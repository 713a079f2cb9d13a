// Directory entries: where each field stands on the two D lines and on a sheet, what it may hold and what it may name: 9, 13, 10.
#pragma once

#include <array>
#include <cstddef>
#include <cstdint>
#include <string>
#include <string_view>
#include <vector>

#include "lines.hpp"

namespace plain {

enum Field : std::size_t {
    Type,
    ParameterPointer,
    Structure,
    Font,
    Level,
    View,
    Matrix,
    LabelDisplay,
    Weight,
    Colour,
    LineCount,
    Form,
    Subscript,
    fieldCount
};

constexpr std::size_t statusWidth = 8;
constexpr std::size_t labelWidth = 8;

struct Entry {
    std::array<std::int32_t, fieldCount> fields{};
    std::array<char, statusWidth> status{};
    std::array<char, labelWidth> label{};

    std::int32_t &operator[](Field field) { return fields[field]; }
    std::int32_t operator[](Field field) const { return fields[field]; }
};

using Directory = std::vector<Entry>;

// Entries are counted from 0 in the code; a directory number is odd.
constexpr std::size_t directoryNumber(std::size_t entry) { return 2 * entry + 1; }

// The entry that a number names, or null.
const Entry *named(const Directory &directory, std::int64_t number);

// The two D lines of an entry from a file, spelled well (else 9 at place) and within their ranges.
Entry readEntry(const File &file, std::size_t firstLine, std::uint64_t place);

// Lays the fields over two lines of blanks.
void putEntry(const Entry &entry, char *firstLine, char *secondLine);

// The fields of an entry line of a sheet, from the type to the label.
void appendFields(const Entry &entry, std::string &out);
bool spelledFields(std::string_view fields, Entry &entry);

// Ranges, widths and status pairs: 9. Type 306: 13.
void checkEntry(const Entry &entry, std::uint64_t place);

// What the entry names: 10.
void checkReferences(const Directory &directory, const Entry &entry, std::uint64_t place);

}  // namespace plain
