#include "value.hpp"

#include <algorithm>

#include "fixed.hpp"
#include "format.hpp"

namespace plain {

namespace {

constexpr std::uint64_t powersOfTen[] = {1,
                                         10,
                                         100,
                                         1'000,
                                         10'000,
                                         100'000,
                                         1'000'000,
                                         10'000'000,
                                         100'000'000,
                                         1'000'000'000,
                                         10'000'000'000,
                                         100'000'000'000,
                                         1'000'000'000'000,
                                         10'000'000'000'000,
                                         100'000'000'000'000,
                                         1'000'000'000'000'000,
                                         10'000'000'000'000'000,
                                         100'000'000'000'000'000};
static_assert(sizeof powersOfTen / sizeof powersOfTen[0] == mostDigits + 1);

constexpr std::size_t mostIntegerDigits = 10;
constexpr std::size_t mostCountDigits = 3;
constexpr std::size_t mostExponentDigits = 3;

std::int32_t signedWorth(bool negative, std::uint64_t size) {
    const auto worth = static_cast<std::int64_t>(size);
    return static_cast<std::int32_t>(negative ? -worth : worth);
}

}  // namespace

// A number as it stands in the text. Its digits are taken in one go: zeros wait until a digit other than 0 follows them, so m comes
// out without trailing zeros and no digit count is too large to be told.
struct RecordReader::Number {
    bool good = false;  // well spelt
    bool hasSign = false;
    bool negative = false;
    bool isReal = false;
    bool isDouble = false;
    std::size_t digits = 0;       // as spelt, before the point
    std::uint64_t m = 0;          // right as long as significant is at most mostDigits
    std::size_t significant = 0;  // digits of m
    std::size_t zeros = 0;        // that wait
    std::size_t decimals = 0;     // digits behind the point
    int exponent = 0;             // as spelt
    std::size_t end = 0;          // the first position behind it

    void take(char digit) {
        if (digit == '0') {
            zeros += m != 0;
            return;
        }
        significant += zeros + 1;
        if (significant <= mostDigits) m = m * powersOfTen[zeros + 1] + static_cast<std::uint64_t>(digit - '0');
        zeros = 0;
    }

    // The paper's e; zero has none.
    int e() const { return m == 0 ? 0 : exponent - static_cast<int>(decimals) + static_cast<int>(zeros); }

    bool withinLimits() const {
        if (isReal) return significant <= mostDigits && e() >= -greatestExponent && e() <= greatestExponent;
        return significant + zeros <= mostIntegerDigits && m * powersOfTen[zeros] <= greatestInteger;
    }
};

std::uint64_t RecordReader::placeOf(std::size_t position) const {
    return places_ == Places::EachLine ? firstPlace_ + position / width_ : firstPlace_;
}

void RecordReader::endsEarly() const { refuse(Fault::Spelling, placeOf(text_.size() - 1)); }
void RecordReader::misspelt() const { refuse(Fault::Spelling, placeOf(start_)); }

void RecordReader::skipBlanks() {
    while (at_ < text_.size() && text_[at_] == ' ') ++at_;
}

Value RecordReader::next(std::string &spelt) {
    skipBlanks();
    start_ = at_;
    if (at_ == text_.size()) endsEarly();
    if (atDelimiter()) {
        Value value;
        value.start = spelt.size();
        takeDelimiter(false);
        return value;
    }
    const Number number = scanNumber();
    const bool atH = number.end < text_.size() && text_[number.end] == 'H' && number.end % width_ != 0;
    if (atH && !number.hasSign && !number.isReal && number.digits >= 1 && number.digits <= mostCountDigits && number.m != 0)
        return takeString(number.m * powersOfTen[number.zeros], number.end + 1, spelt);
    if (!number.good) misspelt();
    return takeNumber(number, spelt);
}

// The longest number that starts here and stands on one line. What follows it is not looked at.
RecordReader::Number RecordReader::scanNumber() const {
    Number number;
    const char *const text = text_.data();
    const std::size_t lineEnd = std::min((at_ / width_ + 1) * width_, text_.size());
    std::size_t at = at_;
    if (text[at] == '+' || text[at] == '-') {
        number.hasSign = true;
        number.negative = text[at] == '-';
        ++at;
    }
    for (; at < lineEnd && isDigit(text[at]); ++at, ++number.digits) number.take(text[at]);
    if (at < lineEnd && text[at] == '.') {
        number.isReal = true;
        for (++at; at < lineEnd && isDigit(text[at]); ++at, ++number.decimals) number.take(text[at]);
    }
    number.good = number.digits + number.decimals > 0;
    if (number.good && at < lineEnd && (text[at] == 'E' || text[at] == 'D')) {
        number.isReal = true;
        number.isDouble = text[at] == 'D';
        ++at;
        const bool negative = at < lineEnd && text[at] == '-';
        if (at < lineEnd && (text[at] == '-' || text[at] == '+')) ++at;
        std::size_t digits = 0;
        for (; at < lineEnd && isDigit(text[at]) && digits < mostExponentDigits; ++at, ++digits)
            number.exponent = number.exponent * 10 + (text[at] - '0');
        if (negative) number.exponent = -number.exponent;
        number.good = digits > 0;
    }
    number.end = at;
    return number;
}

Value RecordReader::takeString(std::size_t count, std::size_t textStart, std::string &spelt) {
    if (count > text_.size() - textStart) endsEarly();
    Value value;
    value.kind = Kind::String;
    value.start = spelt.size();
    appendNumber(spelt, static_cast<std::int64_t>(count));
    spelt.push_back('H');
    spelt.append(text_.substr(textStart, count));
    value.length = static_cast<std::uint16_t>(spelt.size() - value.start);
    at_ = textStart + count;
    takeDelimiter(false);
    return value;
}

Value RecordReader::takeNumber(const Number &number, std::string &spelt) {
    at_ = number.end;
    takeDelimiter(!number.withinLimits());
    Value value;
    value.start = spelt.size();
    const bool negative = number.negative && number.m != 0;
    value.aboveZero = !negative && number.m != 0;
    if (number.isReal) {
        value.kind = Kind::Real;
        const auto m = static_cast<std::int64_t>(number.m);
        appendNumber(spelt, negative ? -m : m);
        spelt.push_back('.');
        if (number.isDouble || number.e() != 0) {
            spelt.push_back(number.isDouble ? 'D' : 'E');
            appendNumber(spelt, number.e());
        }
    } else {
        value.kind = Kind::Integer;
        value.whole = signedWorth(negative, number.m * powersOfTen[number.zeros]);
        appendNumber(spelt, value.whole);
    }
    value.length = static_cast<std::uint16_t>(spelt.size() - value.start);
    return value;
}

void RecordReader::takeDelimiter(bool beyondLimits) {
    skipBlanks();
    if (at_ == text_.size()) endsEarly();
    if (!atDelimiter()) misspelt();
    if (beyondLimits) refuse(Fault::Limits, placeOf(start_));
    ended_ = text_[at_] == delimiters_.record;
    ++at_;
}

namespace {

// Digits with no leading zero, at most `most` of them; 0 is not among them.
std::optional<std::uint64_t> positiveDigits(std::string_view digits, std::size_t most) {
    if (digits.empty() || digits.size() > most || digits[0] == '0') return std::nullopt;
    std::uint64_t worth = 0;
    for (const char c : digits) {
        if (!isDigit(c)) return std::nullopt;
        worth = worth * 10 + static_cast<std::uint64_t>(c - '0');
    }
    return worth;
}

bool isSpelledExponent(std::string_view spelling, bool isDouble) {
    if (spelling == "0") return isDouble;
    if (!spelling.empty() && spelling[0] == '-') spelling.remove_prefix(1);
    const auto size = positiveDigits(spelling, mostExponentDigits);
    return size && *size <= static_cast<std::uint64_t>(greatestExponent);
}

// What may follow the point of a real.
bool isSpelledTail(std::string_view tail) {
    if (tail.empty()) return true;
    return (tail[0] == 'E' || tail[0] == 'D') && isSpelledExponent(tail.substr(1), tail[0] == 'D');
}

bool isSpelledReal(std::string_view m, std::string_view tail, bool negative) {
    if (m == "0") return !negative && (tail.empty() || tail == "D0");
    return positiveDigits(m, mostDigits) && m.back() != '0' && isSpelledTail(tail);
}

bool isSpelledString(std::string_view count, std::string_view text) {
    const auto worth = positiveDigits(count, mostCountDigits);
    return worth && *worth == text.size() && allPrintable(text);
}

std::size_t leadingDigits(std::string_view text) {
    std::size_t digits = 0;
    while (digits < text.size() && isDigit(text[digits])) ++digits;
    return digits;
}

}  // namespace

std::optional<std::int32_t> spelledInteger(std::string_view spelling) {
    if (spelling == "0") return 0;
    const bool negative = !spelling.empty() && spelling[0] == '-';
    const auto size = positiveDigits(spelling.substr(negative ? 1 : 0), mostIntegerDigits);
    if (!size || *size > greatestInteger) return std::nullopt;
    return signedWorth(negative, *size);
}

std::optional<Value> spelledValue(std::string_view spelling) {
    Value value;
    if (spelling.empty()) return value;
    const bool negative = spelling[0] == '-';
    const std::string_view unsignedPart = spelling.substr(negative ? 1 : 0);
    const std::size_t digits = leadingDigits(unsignedPart);
    bool good = false;
    if (digits == unsignedPart.size()) {
        const auto worth = spelledInteger(spelling);
        good = worth.has_value();
        value.kind = Kind::Integer;
        value.whole = worth.value_or(0);
        value.aboveZero = value.whole > 0;
    } else if (unsignedPart[digits] == '.') {
        good = isSpelledReal(unsignedPart.substr(0, digits), unsignedPart.substr(digits + 1), negative);
        value.kind = Kind::Real;
        value.aboveZero = !negative && unsignedPart[0] != '0';
    } else if (unsignedPart[digits] == 'H' && !negative) {
        good = isSpelledString(unsignedPart.substr(0, digits), unsignedPart.substr(digits + 1));
        value.kind = Kind::String;
    }
    if (!good) return std::nullopt;
    value.length = static_cast<std::uint16_t>(spelling.size());
    return value;
}

}  // namespace plain
