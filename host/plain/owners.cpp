#include "owners.hpp"

#include <vector>

#include "fixed.hpp"
#include "format.hpp"

namespace plain {

namespace {

constexpr std::size_t blankColumn = 64;
constexpr std::size_t backPointerColumn = 65;
constexpr std::size_t backPointerWidth = 7;
constexpr std::size_t nobody = static_cast<std::size_t>(-1);

struct Span {
    std::size_t first;  // from 0
    std::size_t lines;
    bool has(std::size_t line) const { return line >= first && line - first < lines; }
};

Span spanOf(const Entry &entry) {
    return {static_cast<std::size_t>(entry[ParameterPointer]) - 1, static_cast<std::size_t>(entry[LineCount])};
}

// The entry, from 0, that a P line names.
std::size_t nameOn(const File &file, const Directory &directory, std::size_t parameterLine) {
    const std::size_t line = file.firstParameter() + parameterLine;
    if (file.columns(line, blankColumn, 1)[0] != ' ') return nobody;
    const auto number = unsignedField(file.columns(line, backPointerColumn, backPointerWidth));
    return number && named(directory, *number) ? static_cast<std::size_t>(*number) / 2 : nobody;
}

}  // namespace

// A line names one entry, so a walk over another's range stops at its first line: all walks together are linear.
void checkOwners(const File &file, const Directory &directory) {
    std::vector<std::size_t> names(file.parameters);
    for (std::size_t line = 0; line < names.size(); ++line) names[line] = nameOn(file, directory, line);
    for (std::size_t i = 0; i < directory.size(); ++i) {
        const Span span = spanOf(directory[i]);
        const std::uint64_t place = file.firstDirectory() + 2 * i + 1;
        if (span.first + span.lines > names.size()) refuse(Fault::Ownership, place);
        for (std::size_t line = span.first; line < span.first + span.lines; ++line)
            if (names[line] != i) refuse(Fault::Ownership, place);
    }
    for (std::size_t line = 0; line < names.size(); ++line)
        if (names[line] == nobody || !spanOf(directory[names[line]]).has(line))
            refuse(Fault::Ownership, file.firstParameter() + line + 1);
}

}  // namespace plain
