#include "directory.hpp"

#include <algorithm>
#include <cstring>

#include "fixed.hpp"
#include "format.hpp"
#include "value.hpp"

namespace plain {

namespace {

constexpr std::size_t slotWidth = 8;
constexpr std::int32_t macroType = 306;
constexpr std::int32_t matrixType = 124;
constexpr std::int32_t colourType = 314;

// Number fields by D line and column. Status and label are text and stand apart.
struct Slot {
    std::size_t line;
    std::size_t column;
    Field field;
};
constexpr Slot slots[] = {
    {0, 0, Type},    {0, 8, ParameterPointer}, {0, 16, Structure},    {0, 24, Font},      {0, 32, Level},
    {0, 40, View},   {0, 48, Matrix},          {0, 56, LabelDisplay}, {1, 0, Type},       {1, 8, Weight},
    {1, 16, Colour}, {1, 24, LineCount},       {1, 32, Form},         {1, 64, Subscript},
};
constexpr std::size_t statusColumn = 64;  // of the first line
constexpr std::size_t labelColumn = 56;   // of the second

// An entry line of a sheet: these, the status, those, the label.
constexpr Field beforeStatus[] = {Type, Form, Structure, Font, Level, View, Matrix, LabelDisplay};
constexpr Field afterStatus[] = {Weight, Colour, Subscript};

// What eight columns can hold.
constexpr std::int32_t least = -9'999'999;
constexpr std::int32_t greatest = 99'999'999;

struct Range {
    Field field;
    std::int32_t from;
    std::int32_t to;
};
constexpr Range ranges[] = {
    {Type, 0, greatest},      {ParameterPointer, 1, greatest}, {Structure, least, 0},
    {Font, least, 5},         {Level, least, greatest},        {View, 0, greatest},
    {Matrix, 0, greatest},    {LabelDisplay, 0, greatest},     {Weight, 0, greatest},
    {Colour, least, 8},       {LineCount, 1, greatest},        {Form, 0, greatest},
    {Subscript, 0, greatest},
};
static_assert(sizeof ranges / sizeof ranges[0] == fieldCount);

// Blank status, subordinate, use, hierarchy.
constexpr int greatestPair[] = {1, 3, 5, 2};

// A field is a reference when it has this sign; 0 asks for no type.
struct Reference {
    Field field;
    int sign;
    std::int32_t type;
};
constexpr Reference references[] = {
    {Structure, -1, 0},      {Font, -1, 0},        {Level, -1, 0},           {View, 1, 0},
    {Matrix, 1, matrixType}, {LabelDisplay, 1, 0}, {Colour, -1, colourType},
};

bool goodStatus(const std::array<char, statusWidth> &status) {
    for (std::size_t pair = 0; pair < statusWidth / 2; ++pair) {
        const int worth = (status[2 * pair] - '0') * 10 + (status[2 * pair + 1] - '0');
        if (worth > greatestPair[pair]) return false;
    }
    return true;
}

std::optional<std::int32_t> slotNumber(std::string_view columns, Field field) {
    return field == Subscript ? unsignedField(columns) : signedField(columns);
}

// Cuts the text up to the next tab off; the last piece has none.
std::string_view nextPiece(std::string_view &fields) {
    const std::size_t tab = fields.find('\t');
    const std::string_view piece = fields.substr(0, tab);
    fields = tab == std::string_view::npos ? std::string_view() : fields.substr(tab + 1);
    return piece;
}

template <std::size_t count>
bool spelledNumbers(std::string_view &fields, const Field (&order)[count], Entry &entry) {
    for (const Field field : order) {
        const auto worth = spelledInteger(nextPiece(fields));
        if (!worth) return false;
        entry[field] = *worth;
    }
    return true;
}

}  // namespace

const Entry *named(const Directory &directory, std::int64_t number) {
    if (number <= 0 || number % 2 == 0) return nullptr;
    const auto entry = static_cast<std::size_t>(number / 2);
    return entry < directory.size() ? &directory[entry] : nullptr;
}

Entry readEntry(const File &file, std::size_t firstLine, std::uint64_t place) {
    Entry entry;
    for (const Slot &slot : slots) {
        const auto number = slotNumber(file.columns(firstLine + slot.line, slot.column, slotWidth), slot.field);
        const bool again = slot.field == Type && slot.line == 1;
        if (!number || (again && *number != entry[Type])) refuse(Fault::DirectoryField, place);
        entry[slot.field] = *number;
    }
    const std::string_view status = file.columns(firstLine, statusColumn, statusWidth);
    if (!unsignedField(status)) refuse(Fault::DirectoryField, place);
    std::replace_copy(status.begin(), status.end(), entry.status.begin(), ' ', '0');
    const std::string_view label = file.columns(firstLine + 1, labelColumn, labelWidth);
    std::copy(label.begin(), label.end(), entry.label.begin());
    return entry;
}

void putEntry(const Entry &entry, char *firstLine, char *secondLine) {
    for (const Slot &slot : slots)
        putRight((slot.line == 0 ? firstLine : secondLine) + slot.column, slotWidth, entry[slot.field], ' ');
    std::memcpy(firstLine + statusColumn, entry.status.data(), statusWidth);
    std::memcpy(secondLine + labelColumn, entry.label.data(), labelWidth);
}

void appendFields(const Entry &entry, std::string &out) {
    for (const Field field : beforeStatus) {
        appendNumber(out, entry[field]);
        out.push_back('\t');
    }
    out.append(entry.status.data(), statusWidth);
    out.push_back('\t');
    for (const Field field : afterStatus) {
        appendNumber(out, entry[field]);
        out.push_back('\t');
    }
    out.append(entry.label.data(), labelWidth);
}

bool spelledFields(std::string_view fields, Entry &entry) {
    if (!spelledNumbers(fields, beforeStatus, entry)) return false;
    const std::string_view status = nextPiece(fields);
    if (status.size() != statusWidth || !std::all_of(status.begin(), status.end(), isDigit)) return false;
    if (!spelledNumbers(fields, afterStatus, entry)) return false;
    if (fields.size() != labelWidth || !allPrintable(fields)) return false;
    std::copy(status.begin(), status.end(), entry.status.begin());
    std::copy(fields.begin(), fields.end(), entry.label.begin());
    return true;
}

void checkEntry(const Entry &entry, std::uint64_t place) {
    for (const Range &range : ranges)
        if (entry[range.field] < range.from || entry[range.field] > range.to) refuse(Fault::DirectoryField, place);
    if (!goodStatus(entry.status)) refuse(Fault::DirectoryField, place);
    if (entry[Type] == macroType) refuse(Fault::Macro, place);
}

void checkReferences(const Directory &directory, const Entry &entry, std::uint64_t place) {
    for (const Reference &reference : references) {
        const std::int64_t number = std::int64_t{entry[reference.field]} * reference.sign;
        if (number <= 0) continue;
        const Entry *const target = named(directory, number);
        if (!target || (reference.type != 0 && (*target)[Type] != reference.type)) refuse(Fault::DirectoryReference, place);
    }
}

}  // namespace plain
