#include "canonical.hpp"

#include <algorithm>
#include <cstring>

#include "fixed.hpp"
#include "format.hpp"

namespace plain {

namespace {

constexpr Delimiters canonicalDelimiters;
constexpr std::string_view openingThatGoesOn = "1H,,1H;,";
constexpr std::string_view openingThatEnds = "1H,,1H;;";
constexpr std::size_t backPointerColumn = 65;
constexpr std::size_t backPointerWidth = 7;

// The file so far. A line is added blank with its section letter and number; whoever asked for it fills it in.
class Lines {
public:
    explicit Lines(std::size_t expected) { bytes_.reserve(std::min(expected, maxLines * lineBytes)); }

    std::size_t count() const { return bytes_.size() / lineBytes; }
    char *at(std::size_t line) { return bytes_.data() + line * lineBytes; }

    // The line number, from 0. One line is kept free for T.
    std::size_t add(char section, std::size_t sequence) {
        const std::size_t line = count();
        if (line + (section == 'T' ? 0 : 1) >= maxLines) refuse(Fault::TooManyLines, 0);
        bytes_.append(lineColumns, ' ').push_back('\n');
        at(line)[sectionColumn] = section;
        putRight(at(line) + sequenceColumn, sequenceWidth, static_cast<std::int64_t>(sequence), '0');
        return line;
    }

    std::string take() { return std::move(bytes_); }

private:
    std::string bytes_;
};

// Values into lines of `width` text columns.
class Flow {
public:
    Flow(Lines &lines, char section, std::size_t width, std::size_t firstSequence, std::size_t backPointer)
        : lines_(lines), section_(section), width_(width), sequence_(firstSequence), backPointer_(backPointer), column_(width) {}

    std::size_t nextSequence() const { return sequence_; }

    // All of it on one line.
    void piece(std::string_view text) {
        if (text.size() > width_ - column_) beginLine();
        put(text);
    }

    void value(const Value &value, std::string_view sheet, char delimiter) {
        const std::string_view spelling = value.spelling(sheet);
        if (value.kind == Kind::String)
            string(spelling);
        else
            number(spelling, delimiter);
        if (value.kind == Kind::String) run(std::string_view(&delimiter, 1));
    }

    // A number or a default goes with its delimiter.
    void number(std::string_view spelling, char delimiter) {
        if (spelling.size() + 1 > width_ - column_) beginLine();
        put(spelling);
        put(std::string_view(&delimiter, 1));
    }

private:
    // The count, its H and the first character stay together.
    void string(std::string_view spelling) {
        const std::size_t head = spelling.find('H') + 2;
        piece(spelling.substr(0, head));
        run(spelling.substr(head));
    }

    // Flows on over line ends.
    void run(std::string_view text) {
        while (!text.empty()) {
            if (column_ == width_) beginLine();
            const std::size_t part = std::min(text.size(), width_ - column_);
            put(text.substr(0, part));
            text.remove_prefix(part);
        }
    }

    void put(std::string_view text) {
        std::memcpy(line_ + column_, text.data(), text.size());
        column_ += text.size();
    }

    void beginLine() {
        line_ = lines_.at(lines_.add(section_, sequence_++));
        column_ = 0;
        if (backPointer_ != 0) putRight(line_ + backPointerColumn, backPointerWidth, static_cast<std::int64_t>(backPointer_), ' ');
    }

    Lines &lines_;
    char section_;
    std::size_t width_;
    std::size_t sequence_;
    std::size_t backPointer_;  // 0: none
    std::size_t column_;
    char *line_ = nullptr;  // good until the next line is added
};

char delimiterAfter(bool last) { return last ? canonicalDelimiters.record : canonicalDelimiters.parameter; }

std::size_t putGlobal(Lines &lines, const Sheet &sheet) {
    Flow flow(lines, 'G', globalColumns, 1, 0);
    flow.piece(sheet.globals.empty() ? openingThatEnds : openingThatGoesOn);
    std::size_t number = firstGlobalField;
    for (const GlobalField &field : sheet.globals) {
        for (; number < field.number; ++number) flow.number("", delimiterAfter(false));
        const bool last = &field == &sheet.globals.back();
        flow.value(field.value, sheet.text, delimiterAfter(last));
        ++number;
    }
    return flow.nextSequence() - 1;
}

// Returns the next parameter line number.
std::size_t putParameters(Lines &lines, const Sheet &sheet, std::size_t entry, std::size_t firstSequence) {
    const Block &block = sheet.blocks[entry];
    Flow flow(lines, 'P', parameterColumns, firstSequence, directoryNumber(entry));
    std::string type;
    appendNumber(type, sheet.directory[entry][Type]);
    flow.number(type, delimiterAfter(block.values == 0));
    for (std::size_t i = 0; i < block.values; ++i)
        flow.value(sheet.values[block.firstValue + i], sheet.text, delimiterAfter(i + 1 == block.values));
    return flow.nextSequence();
}

void putTerminate(Lines &lines, std::size_t starts, std::size_t globals, std::size_t directories, std::size_t parameters) {
    char *const line = lines.at(lines.add('T', 1));
    const struct {
        char section;
        std::size_t count;
    } counts[] = {{'S', starts}, {'G', globals}, {'D', directories}, {'P', parameters}};
    std::size_t column = 0;
    for (const auto &entry : counts) {
        line[column] = entry.section;
        putRight(line + column + 1, sequenceWidth, static_cast<std::int64_t>(entry.count), '0');
        column += 1 + sequenceWidth;
    }
}

}  // namespace

std::string canonicalFile(Sheet &sheet) {
    Lines lines(2 * sheet.text.size() + 16 * lineBytes);
    std::size_t sequence = 0;
    for (const std::string_view text : sheet.starts) {
        const std::size_t line = lines.add('S', ++sequence);
        std::copy(text.begin(), text.end(), lines.at(line));
    }
    const std::size_t globals = putGlobal(lines, sheet);
    const std::size_t firstDirectory = lines.count();
    const std::size_t directories = 2 * sheet.directory.size();
    for (std::size_t i = 1; i <= directories; ++i) lines.add('D', i);
    std::size_t next = 1;
    for (std::size_t i = 0; i < sheet.directory.size(); ++i) {
        Entry &entry = sheet.directory[i];
        const std::size_t after = putParameters(lines, sheet, i, next);
        entry[ParameterPointer] = static_cast<std::int32_t>(next);
        entry[LineCount] = static_cast<std::int32_t>(after - next);
        putEntry(entry, lines.at(firstDirectory + 2 * i), lines.at(firstDirectory + 2 * i + 1));
        next = after;
    }
    putTerminate(lines, sheet.starts.size(), globals, directories, next - 1);
    return lines.take();
}

}  // namespace plain
