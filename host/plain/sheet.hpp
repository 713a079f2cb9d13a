// The lines of a sheet, printed and read back: refusal 17.
#pragma once

#include <cstddef>
#include <cstdint>
#include <string>
#include <string_view>
#include <vector>

#include "directory.hpp"
#include "global.hpp"
#include "value.hpp"

namespace plain {

constexpr char knownMark = 'E';
constexpr char unknownMark = 'U';
constexpr char referenceMark = 'R';
constexpr char valueMark = 'V';
constexpr std::size_t markWidth = 2;  // the letter and its tab, right before what they mark

void appendStart(std::string &sheet, std::string_view text);
void appendGlobal(std::string &sheet, std::size_t number, std::string_view spelling);
void appendEntry(std::string &sheet, bool known, std::size_t directoryNumber, const Entry &entry);
void appendCount(std::string &sheet, std::size_t entries);

// Where the entry's values stand among all values of the sheet, and the line of its entry line.
struct Block {
    std::size_t firstValue;
    std::size_t values;
    std::uint64_t place;
    char mark;
};

// A sheet whose spelling and order are good.
struct Sheet {
    std::string_view text;  // the spellings stand here
    std::vector<std::string_view> starts;
    std::vector<GlobalField> globals;
    Directory directory;
    std::vector<Block> blocks;  // one an entry
    std::vector<Value> values;
};

Sheet readSheet(std::string_view text);

}  // namespace plain
