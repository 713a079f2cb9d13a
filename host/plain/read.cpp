// File to sheet, the checks in the paper's order.
#include <vector>

#include "answer.hpp"
#include "directory.hpp"
#include "format.hpp"
#include "global.hpp"
#include "layout.hpp"
#include "lines.hpp"
#include "owners.hpp"
#include "sheet.hpp"

namespace plain {

namespace {

Directory readDirectory(const File &file) {
    Directory directory;
    directory.reserve(file.entries());
    for (std::size_t i = 0; i < file.entries(); ++i) {
        const std::size_t line = file.firstDirectory() + 2 * i;
        directory.push_back(readEntry(file, line, line + 1));
        checkEntry(directory.back(), line + 1);
    }
    for (std::size_t i = 0; i < directory.size(); ++i) checkReferences(directory, directory[i], file.firstDirectory() + 2 * i + 1);
    return directory;
}

// The last pass. An entity's values are printed while they are read, and their marks corrected once its layout is known.
class EntityPass {
public:
    EntityPass(std::uint64_t list, const File &file, const Directory &directory, Delimiters delimiters, std::string &sheet)
        : list_(list), file_(file), directory_(directory), delimiters_(delimiters), sheet_(sheet) {}

    void entity(std::size_t index) {
        const Entry &entry = directory_[index];
        const std::uint64_t place = file_.firstDirectory() + 2 * index + 1;
        const bool known = isKnown(list_, entry);
        appendEntry(sheet_, known, directoryNumber(index), entry);
        takeValues(entry, place);
        if (!known) return;
        checkLayout(directory_, entry, values_.data(), values_.size(), place);
        for (const Value &value : values_)
            if (value.reference) sheet_[value.start - markWidth] = referenceMark;
    }

private:
    // 6, 7 and 12.
    void takeValues(const Entry &entry, std::uint64_t place) {
        const auto pointer = static_cast<std::size_t>(entry[ParameterPointer]) - 1;
        const auto lines = static_cast<std::size_t>(entry[LineCount]);
        file_.join(file_.firstParameter() + pointer, lines, parameterColumns, text_);
        RecordReader reader(text_, parameterColumns, delimiters_, RecordReader::Places::OnePlace, place);
        const std::size_t afterEntryLine = sheet_.size();
        const Value type = reader.next(sheet_);
        sheet_.resize(afterEntryLine);
        values_.clear();
        std::size_t given = 0;
        std::size_t afterGiven = afterEntryLine;
        while (!reader.ended()) {
            sheet_.append("V\t");
            values_.push_back(reader.next(sheet_));
            sheet_.push_back('\n');
            if (values_.back().kind == Kind::Default) continue;
            given = values_.size();
            afterGiven = sheet_.size();
        }
        values_.resize(given);
        sheet_.resize(afterGiven);
        if (type.kind != Kind::Integer || type.whole != entry[Type]) refuse(Fault::FirstValue, place);
    }

    std::uint64_t list_;
    const File &file_;
    const Directory &directory_;
    Delimiters delimiters_;
    std::string &sheet_;
    std::string text_;           // of the entity at hand
    std::vector<Value> values_;  // the same
};

std::string sheetOf(std::uint64_t list, std::string_view bytes) {
    if (list > greatestList) refuse(Fault::ListOrLength, 0);
    const File file = splitLines(bytes);
    const GlobalSection global = readGlobal(file);
    const Directory directory = readDirectory(file);
    checkOwners(file, directory);
    std::string sheet;
    sheet.reserve(bytes.size());
    for (std::size_t i = 0; i < file.starts; ++i) appendStart(sheet, file.columns(i, 0, globalColumns));
    for (const GlobalField &field : global.fields)
        if (field.value.kind != Kind::Default) appendGlobal(sheet, field.number, field.value.spelling(global.spelt));
    EntityPass pass(list, file, directory, global.delimiters, sheet);
    for (std::size_t i = 0; i < directory.size(); ++i) pass.entity(i);
    appendCount(sheet, directory.size());
    return sheet;
}

}  // namespace

Answer read(std::uint64_t list, std::string_view file, std::size_t room) { return answerOf(sheetOf, list, file, room); }

}  // namespace plain
