// One value: a default, an integer, a real or a string. A value has one spelling on a sheet, and the canonical file has the same,
// so a value is kept as the place of that spelling with the little that layouts ask about it.
#pragma once

#include <cstddef>
#include <cstdint>
#include <optional>
#include <string>
#include <string_view>

namespace plain {

enum class Kind : std::uint8_t { Default, Integer, Real, String };

struct Value {
    std::size_t start = 0;     // of its spelling, in the text that holds it
    std::int32_t whole = 0;    // an integer's worth; 0 for the other kinds
    std::uint16_t length = 0;  // of its spelling
    Kind kind = Kind::Default;
    bool aboveZero : 1;  // a number's
    bool reference : 1;  // it stands at a reference place of a known entity

    Value() : aboveZero(false), reference(false) {}
    std::string_view spelling(std::string_view text) const { return text.substr(start, length); }
    bool isNumber() const { return kind == Kind::Real || kind == Kind::Integer; }  // what a real place takes
};

struct Delimiters {
    char parameter = ',';
    char record = ';';
};

// The values of a record, one after another: refusals 6 and 7.
class RecordReader {
public:
    // Where refusals point to: a G value to its own line, an entity's value to the entry, whatever line it stands on.
    enum class Places { EachLine, OnePlace };

    RecordReader(std::string_view text, std::size_t width, Delimiters delimiters, Places places, std::uint64_t firstPlace)
        : text_(text), width_(width), delimiters_(delimiters), places_(places), firstPlace_(firstPlace) {}

    void skip(std::size_t columns) { at_ = columns; }
    bool ended() const { return ended_; }  // the record delimiter was read
    std::size_t position() const { return at_; }
    std::uint64_t valuePlace() const { return placeOf(start_); }  // of the value read last
    std::uint64_t placeOf(std::size_t position) const;

    // Reads the next value with the delimiter behind it; its spelling is appended to `spelt`.
    Value next(std::string &spelt);

private:
    struct Number;
    void skipBlanks();
    bool atDelimiter() const { return text_[at_] == delimiters_.parameter || text_[at_] == delimiters_.record; }
    [[noreturn]] void endsEarly() const;
    [[noreturn]] void misspelt() const;
    Number scanNumber() const;
    Value takeString(std::size_t count, std::size_t textStart, std::string &spelt);
    Value takeNumber(const Number &number, std::string &spelt);
    void takeDelimiter(bool beyondLimits);

    std::string_view text_;
    std::size_t width_;
    Delimiters delimiters_;
    Places places_;
    std::uint64_t firstPlace_;
    std::size_t at_ = 0;
    std::size_t start_ = 0;
    bool ended_ = false;
};

// The value that has just this spelling on a sheet, if any has; start is left 0.
std::optional<Value> spelledValue(std::string_view spelling);

// The integer that is spelled so on a sheet: no plus, no leading zero, no -0, within the limits.
std::optional<std::int32_t> spelledInteger(std::string_view spelling);

}  // namespace plain
