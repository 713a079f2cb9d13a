// Sheet to canonical file, the checks in the paper's order.
#include "answer.hpp"
#include "canonical.hpp"
#include "directory.hpp"
#include "format.hpp"
#include "global.hpp"
#include "layout.hpp"
#include "sheet.hpp"

namespace plain {

namespace {

// The pointer and the line count come with the canonical file; until then they are any that pass.
void standIn(Entry &entry) {
    entry[ParameterPointer] = 1;
    entry[LineCount] = 1;
}

void checkDirectory(Sheet &sheet) {
    for (std::size_t i = 0; i < sheet.directory.size(); ++i) {
        standIn(sheet.directory[i]);
        checkEntry(sheet.directory[i], sheet.blocks[i].place);
    }
    for (std::size_t i = 0; i < sheet.directory.size(); ++i)
        checkReferences(sheet.directory, sheet.directory[i], sheet.blocks[i].place);
}

// 14, 15, then 18.
void checkEntity(std::uint64_t list, Sheet &sheet, std::size_t index) {
    const Block &block = sheet.blocks[index];
    const bool known = isKnown(list, sheet.directory[index]);
    Value *const values = sheet.values.data() + block.firstValue;
    if (known) checkLayout(sheet.directory, sheet.directory[index], values, block.values, block.place);
    bool rightMarks = block.mark == (known ? knownMark : unknownMark);
    for (std::size_t i = 0; i < block.values; ++i)
        rightMarks &= sheet.text[values[i].start - markWidth] == (values[i].reference ? referenceMark : valueMark);
    if (!rightMarks) refuse(Fault::Mark, block.place);
}

std::string fileOf(std::uint64_t list, std::string_view text) {
    if (list > greatestList) refuse(Fault::ListOrLength, 0);
    Sheet sheet = readSheet(text);
    for (const GlobalField &field : sheet.globals) checkGlobalField(field);
    checkDirectory(sheet);
    for (std::size_t i = 0; i < sheet.directory.size(); ++i) checkEntity(list, sheet, i);
    return canonicalFile(sheet);
}

}  // namespace

Answer write(std::uint64_t list, std::string_view sheet, std::size_t room) { return answerOf(fileOf, list, sheet, room); }

}  // namespace plain
