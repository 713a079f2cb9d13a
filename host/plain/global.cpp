#include "global.hpp"

#include <optional>
#include <string_view>

#include "format.hpp"

namespace plain {

namespace {

struct Opening {
    Delimiters delimiters;
    std::size_t length = 0;
    bool endsRecord = false;
};

bool mayDelimit(char c) { return c != ' ' && !isDigit(c) && std::string_view("+-.DEH").find(c) == std::string_view::npos; }

// `text` has a whole line, so the few bytes that are looked at are there.
std::optional<Opening> openingOf(std::string_view text) {
    Opening opening;
    char &parameter = opening.delimiters.parameter;
    char &record = opening.delimiters.record;
    std::size_t at = 0;
    if (text[0] == ',') {
        at = 1;
    } else if (text.substr(0, 2) == "1H" && text[2] == text[3]) {
        parameter = text[2];
        at = 4;
    } else {
        return std::nullopt;
    }
    if (text.substr(at, 2) == "1H" && (text[at + 3] == parameter || text[at + 3] == text[at + 2])) {
        record = text[at + 2];
        at += 3;
    } else if (text[at] != parameter && text[at] != record) {
        return std::nullopt;
    }
    if (!mayDelimit(parameter) || !mayDelimit(record) || parameter == record) return std::nullopt;
    opening.endsRecord = text[at] == record;
    opening.length = at + 1;
    return opening;
}

// One letter a field, from field 3 on: string, integer or real.
constexpr std::string_view kinds = "ssssiiiiisrisirsrrssii";
static_assert(kinds.size() == lastGlobalField - firstGlobalField + 1);

bool isOfKind(char letter, const Value &value) {
    switch (letter) {
        case 's': return value.kind == Kind::String;
        case 'r': return value.isNumber();
        default: return value.kind == Kind::Integer;
    }
}

bool inRange(std::size_t number, std::int32_t whole) {
    switch (number) {
        case 14: return whole >= 1 && whole <= 11;
        case 23: return whole >= 1 && whole <= 6;
        default: return true;
    }
}

}  // namespace

void checkGlobalField(const GlobalField &field) {
    if (field.number > lastGlobalField) refuse(Fault::Global, field.place);
    if (field.value.kind == Kind::Default) return;
    const bool rightKind = isOfKind(kinds[field.number - firstGlobalField], field.value);
    if (!rightKind || !inRange(field.number, field.value.whole)) refuse(Fault::Global, field.place);
}

GlobalSection readGlobal(const File &file) {
    GlobalSection global;
    std::string text;
    file.join(file.firstGlobal(), file.globals, globalColumns, text);
    const std::uint64_t firstPlace = file.firstGlobal() + 1;
    const auto opening = openingOf(text);
    if (!opening) refuse(Fault::Spelling, firstPlace);
    global.delimiters = opening->delimiters;
    RecordReader reader(text, globalColumns, opening->delimiters, RecordReader::Places::EachLine, firstPlace);
    reader.skip(opening->length);
    for (std::size_t number = firstGlobalField; !opening->endsRecord && !reader.ended(); ++number) {
        const Value value = reader.next(global.spelt);
        global.fields.push_back({number, value, reader.valuePlace()});
    }
    const std::size_t stray = text.find_first_not_of(' ', reader.position());
    if (stray != std::string::npos) refuse(Fault::Spelling, reader.placeOf(stray));
    for (const GlobalField &field : global.fields) checkGlobalField(field);
    return global;
}

}  // namespace plain
