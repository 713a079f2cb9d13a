#include "sheet.hpp"

#include "fixed.hpp"
#include "format.hpp"

namespace plain {

void appendStart(std::string &sheet, std::string_view text) {
    sheet.append("S\t").append(text.substr(0, text.find_last_not_of(' ') + 1)).push_back('\n');
}

void appendGlobal(std::string &sheet, std::size_t number, std::string_view spelling) {
    sheet.append("G\t");
    appendNumber(sheet, static_cast<std::int64_t>(number));
    sheet.append("\t").append(spelling).push_back('\n');
}

void appendEntry(std::string &sheet, bool known, std::size_t directoryNumber, const Entry &entry) {
    sheet.push_back(known ? knownMark : unknownMark);
    sheet.push_back('\t');
    appendNumber(sheet, static_cast<std::int64_t>(directoryNumber));
    sheet.push_back('\t');
    appendFields(entry, sheet);
    sheet.push_back('\n');
}

void appendCount(std::string &sheet, std::size_t entries) {
    sheet.append("Z\t");
    appendNumber(sheet, static_cast<std::int64_t>(entries));
    sheet.push_back('\n');
}

namespace {

class SheetReader {
public:
    explicit SheetReader(std::string_view text) { sheet_.text = text; }

    Sheet read() {
        do takeStart();
        while (mark() == 'S');
        while (mark() == 'G') takeGlobal();
        while (mark() == knownMark || mark() == unknownMark) takeEntry();
        takeCount();
        if (at_ != sheet_.text.size()) wrong();
        return std::move(sheet_);
    }

private:
    [[noreturn]] void wrong() const { refuse(Fault::SheetLine, line_); }
    void require(bool good) const {
        if (!good) wrong();
    }

    // First byte of the next line; 0 is none that a line may have.
    char mark() const { return at_ < sheet_.text.size() ? sheet_.text[at_] : '\0'; }

    // What stands behind the mark and its tab on the next line, which becomes the current one when it is passed.
    std::string_view body() {
        const std::size_t end = sheet_.text.find('\n', at_);
        require(end != std::string_view::npos && end - at_ >= markWidth && sheet_.text[at_ + 1] == '\t');
        bodyStart_ = at_ + markWidth;
        next_ = end + 1;
        return sheet_.text.substr(bodyStart_, end - bodyStart_);
    }
    void pass() {
        at_ = next_;
        ++line_;
    }

    void takeStart() {
        require(mark() == 'S');
        const std::string_view text = body();
        require(text.size() <= globalColumns && allPrintable(text) && (text.empty() || text.back() != ' '));
        sheet_.starts.push_back(text);
        pass();
    }

    void takeGlobal() {
        const std::string_view both = body();
        const std::size_t tab = both.find('\t');
        require(tab != std::string_view::npos);
        const auto number = spelledInteger(both.substr(0, tab));
        require(number && *number >= static_cast<std::int32_t>(leastGlobal_) &&
                *number <= static_cast<std::int32_t>(lastGlobalField));
        auto value = spelledValue(both.substr(tab + 1));
        require(value && value->kind != Kind::Default);
        value->start = bodyStart_ + tab + 1;
        leastGlobal_ = static_cast<std::size_t>(*number) + 1;
        sheet_.globals.push_back({leastGlobal_ - 1, *value, line_});
        pass();
    }

    void takeEntry() {
        const Block block{sheet_.values.size(), 0, line_, mark()};
        const std::string_view fields = body();
        const std::size_t tab = fields.find('\t');
        require(tab != std::string_view::npos);
        const auto number = spelledInteger(fields.substr(0, tab));
        require(number && static_cast<std::size_t>(*number) == directoryNumber(sheet_.directory.size()));
        Entry entry;
        require(spelledFields(fields.substr(tab + 1), entry));
        sheet_.directory.push_back(entry);
        sheet_.blocks.push_back(block);
        pass();
        takeValues();
        sheet_.blocks.back().values = sheet_.values.size() - block.firstValue;
    }

    void takeValues() {
        constexpr std::uint64_t none = 0;
        std::uint64_t firstTrailing = none;
        while (mark() == referenceMark || mark() == valueMark) {
            auto value = spelledValue(body());
            require(value.has_value());
            value->start = bodyStart_;
            sheet_.values.push_back(*value);
            if (value->kind != Kind::Default)
                firstTrailing = none;
            else if (firstTrailing == none)
                firstTrailing = line_;
            pass();
        }
        if (firstTrailing != none) refuse(Fault::SheetLine, firstTrailing);
    }

    void takeCount() {
        require(mark() == 'Z');
        std::string expected;
        appendNumber(expected, static_cast<std::int64_t>(sheet_.directory.size()));
        require(body() == expected);
        pass();
    }

    Sheet sheet_;
    std::size_t at_ = 0;         // where the current line starts
    std::size_t bodyStart_ = 0;  // of the current line
    std::size_t next_ = 0;       // where the next line starts
    std::uint64_t line_ = 1;
    std::size_t leastGlobal_ = firstGlobalField;
};

}  // namespace

Sheet readSheet(std::string_view text) { return SheetReader(text).read(); }

}  // namespace plain
