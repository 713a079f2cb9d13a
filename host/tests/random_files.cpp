#include "random_files.hpp"

#include <algorithm>
#include <cstdint>
#include <string>
#include <vector>

#include "pieces.hpp"

namespace tests {

namespace {

// A value as it is spelled in free format; a string is kept apart, since it flows over line ends.
struct Token {
    std::string head;  // a number, a string's count with its H, or nothing for a default
    std::string text;  // of a string
};

std::string zeros(Random &random) { return random.oneIn(6) ? std::string(random.between(1, 4), '0') : ""; }

Token integerToken(Random &random, std::int64_t worth) {
    const std::string sign = worth < 0 ? "-" : random.oneIn(10) ? "+" : "";
    return {sign + zeros(random) + std::to_string(worth < 0 ? -worth : worth), ""};
}

Token realToken(Random &random, bool aboveZero) {
    const std::size_t digits = random.oneIn(200) ? random.between(15, 19) : random.between(1, 6);
    std::string mantissa = zeros(random);
    for (std::size_t i = 0; i < digits; ++i) mantissa.push_back(random.from(random.oneIn(3) ? "0" : "0123456789"));
    if (aboveZero) mantissa.push_back('1');
    const bool exponent = random.oneIn(4);
    if (!exponent || random.oneIn(2)) mantissa.insert(random.below(mantissa.size() + 1), ".");
    std::string sign = aboveZero ? (random.oneIn(10) ? "+" : "") : random.oneIn(3) ? "-" : "";
    if (!exponent) return {sign + mantissa, ""};
    static const char *const signs[] = {"", "+", "-"};
    const std::size_t size = random.oneIn(80) ? random.between(370, 430) : random.below(30);
    const std::string power = random.oneIn(5) ? right(std::to_string(size), 3, '0') : std::to_string(size);
    return {inOrder({sign, mantissa, std::string(1, random.from("ED")), signs[random.below(3)], power}), ""};
}

// What stands at a real place: a real, or now and then an integer.
Token numberToken(Random &random, bool aboveZero) {
    if (!random.oneIn(6)) return realToken(random, aboveZero);
    const std::int64_t size = static_cast<std::int64_t>(random.oneIn(50) ? 2147483647 : random.below(12));
    if (aboveZero) return integerToken(random, random.oneIn(30) ? size - 5 : size + (size == 0));
    return integerToken(random, random.oneIn(3) ? -size : size);
}

Token stringToken(Random &random) {
    const std::size_t length = random.oneIn(50) ? random.between(90, 999) : random.between(1, 14);
    const std::string count = std::to_string(length);
    return {(random.oneIn(8) ? right(count, 3, '0') : count) + "H", printable(random, length)};
}

Token anyToken(Random &random) {
    switch (random.below(6)) {
        case 0: return {};
        case 1: return integerToken(random, static_cast<std::int64_t>(random.below(20)) - 3);
        case 2: return integerToken(random, random.oneIn(3) ? 2147483648 - static_cast<std::int64_t>(random.below(2)) : 12);
        case 3: return stringToken(random);
        default: return realToken(random, false);
    }
}

// Values into the text columns of lines, with blanks wherever they are allowed.
class FreeText {
public:
    FreeText(Random &random, std::size_t width) : random_(random), width_(width) {}

    void raw(const std::string &text) { text_ += text; }
    void value(const Token &token, char delimiter) {
        blanks();
        const std::size_t left = width_ - text_.size() % width_;
        const bool cut = random_.oneIn(3000);  // a number over a line's end, which is refused
        if (token.head.size() > left && !cut) text_.append(left, ' ');
        text_ += token.head + token.text;
        blanks();
        text_.push_back(delimiter);
    }
    // Whole lines; what is behind the record is filled with blanks or with comment.
    std::string finished(bool comment) {
        while (text_.size() % width_ != 0 || text_.empty()) text_.push_back(comment ? random_.from(" A,;1") : ' ');
        if (comment && random_.oneIn(3)) text_ += printable(random_, width_);
        return text_;
    }

private:
    void blanks() {
        if (random_.oneIn(8)) text_.append(random_.between(1, 3), ' ');
        if (random_.oneIn(150)) text_.append(random_.between(20, 150), ' ');
    }
    Random &random_;
    std::size_t width_;
    std::string text_;
};

struct Kinds {
    int type;
    int form;
};

class FileMaker {
public:
    explicit FileMaker(Random &random) : random_(random) {}

    std::string made() {
        chooseTypes();
        const std::size_t starts = random_.between(1, 3);
        for (std::size_t i = 0; i < starts; ++i) line(printable(random_, random_.below(globalWidth + 1)), 'S');
        makeGlobal();
        makeBlocks();
        for (std::size_t i = 0; i < types_.size(); ++i) makeEntry(i);
        for (const std::size_t i : order_) putBlock(i);
        const std::string counts[] = {count('S'), count('G'), count('D'), count('P')};
        line("S" + counts[0] + "G" + counts[1] + "D" + counts[2] + "P" + counts[3], 'T');
        return file_;
    }

private:
    std::string count(char section) {
        const std::string number = std::to_string(lines_[static_cast<unsigned char>(section)]);
        const char fill = random_.from(" 0");
        return right(number == "0" && random_.oneIn(4) ? "" : number, 7, fill);
    }

    void line(std::string columns, char section) {
        columns.resize(globalWidth, ' ');
        const std::string number = std::to_string(++lines_[static_cast<unsigned char>(section)]);
        file_ += columns + section + right(number, 7, random_.from(" 0")) + "\n";
    }

    void chooseTypes() {
        static const Kinds kinds[] = {{100, 0}, {102, 0}, {110, 0}, {116, 0}, {124, 0},  {126, 0}, {128, 0}, {142, 0},
                                      {144, 0}, {308, 0}, {314, 0}, {402, 7}, {406, 15}, {408, 0}, {402, 1}, {406, 3},
                                      {0, 0},   {999, 2}, {110, 0}, {116, 0}, {102, 0},  {100, 1}, {142, 0}, {126, 2}};
        for (std::size_t n = random_.below(7); n > 0; --n) types_.push_back(kinds[random_.below(24)]);
        if (random_.oneIn(200)) types_.push_back({306, 0});
        const std::size_t asked = types_.size();
        for (std::size_t i = 0; i < asked; ++i) {
            if (types_[i].type == 408) types_.push_back({308, 0});
            if (types_[i].type == 144) types_.push_back({142, 0});
        }
        if (random_.oneIn(3)) types_.push_back({124, 0});
        if (random_.oneIn(3)) types_.push_back({314, 0});
    }

    // The number of an entry of that type, of any entry if type is 0; now and then a number that names none.
    std::int64_t entryOf(int type) {
        std::vector<std::int64_t> numbers;
        for (std::size_t i = 0; i < types_.size(); ++i)
            if (type == 0 || types_[i].type == type) numbers.push_back(static_cast<std::int64_t>(2 * i + 1));
        if (numbers.empty() || random_.oneIn(120)) return static_cast<std::int64_t>(random_.below(2 * types_.size() + 6)) - 2;
        return numbers[random_.below(numbers.size())];
    }

    void makeGlobal() {
        static const char pool[] = ",;/|!?:@AZ$%&#*";
        std::string opening;
        if (random_.oneIn(3)) {
            parameter_ = random_.from(pool);
            record_ = random_.from(pool);
            opening = std::string("1H") + parameter_ + parameter_ + "1H" + record_;
        } else {
            static const char *const openings[] = {"", "1H,,1H;", ",1H;", "1H,,", ","};
            const std::size_t which = random_.below(5);
            opening = openings[which == 0 ? 4 : which];
        }
        FreeText text(random_, globalWidth);
        text.raw(opening);
        std::size_t fields = random_.oneIn(4) ? 0 : random_.between(0, 22);
        if (random_.oneIn(60)) fields = 23;
        text.raw(std::string(1, fields == 0 ? record_ : parameter_));
        static const char kinds[] = "ssssiiiiisrisirsrrssiii";
        for (std::size_t i = 0; i < fields; ++i) text.value(globalToken(kinds[i], i + 3), i + 1 == fields ? record_ : parameter_);
        if (random_.oneIn(100)) text.raw("   X");
        const std::string all = text.finished(false);
        for (std::size_t at = 0; at < all.size(); at += globalWidth) line(all.substr(at, globalWidth), 'G');
        if (random_.oneIn(8)) line("", 'G');
    }

    Token globalToken(char kind, std::size_t number) {
        if (random_.oneIn(4)) return {};
        if (random_.oneIn(250)) return anyToken(random_);
        if (kind == 's') return stringToken(random_);
        if (kind == 'r') return numberToken(random_, false);
        const std::size_t limit = number == 14 ? 11 : number == 23 ? 6 : 1000;
        return integerToken(random_, static_cast<std::int64_t>(random_.oneIn(200) ? random_.below(14) : random_.between(1, limit)));
    }

    // The values after the type number.
    std::vector<Token> values(const Kinds &kinds) {
        std::vector<Token> all;
        const auto reals = [&](std::size_t n) {
            while (n-- > 0) all.push_back(random_.oneIn(12) ? Token{} : numberToken(random_, false));
        };
        const auto given = [&](std::size_t n) {
            while (n-- > 0) all.push_back(numberToken(random_, false));
        };
        const auto whole = [&](std::size_t n) { all.push_back(integerToken(random_, static_cast<std::int64_t>(n))); };
        const auto names = [&](std::size_t n, int type) {
            whole(n);
            while (n-- > 0) all.push_back(integerToken(random_, entryOf(type)));
        };
        const auto name = [&](int type) { all.push_back(integerToken(random_, entryOf(type))); };
        const auto maybe = [&](int type) {
            random_.oneIn(2) ? name(type) : all.push_back(random_.oneIn(2) ? Token{} : Token{"0", ""});
        };
        const auto weights = [&](std::size_t n) {
            while (n-- > 0) all.push_back(numberToken(random_, true));
        };
        const auto flags = [&](std::size_t n) {
            while (n-- > 0) whole(random_.below(2));
        };
        const auto string = [&] { all.push_back(random_.oneIn(6) ? Token{} : stringToken(random_)); };
        switch (kinds.type) {
            case 100: reals(7); break;
            case 102: names(random_.below(4), 0); break;
            case 110: reals(6); break;
            case 116: reals(3), maybe(0); break;
            case 124: reals(12); break;
            case 126: {
                const std::size_t k = random_.between(1, 3), m = random_.between(1, k);
                whole(k), whole(m), flags(4), given(k + m + 2), weights(k + 1), given(3 * k + 5), reals(3);
                break;
            }
            case 128: {
                const std::size_t k1 = random_.between(1, 2), k2 = random_.between(1, 2);
                const std::size_t m1 = random_.between(1, k1), m2 = random_.between(1, k2), c = (k1 + 1) * (k2 + 1);
                whole(k1), whole(k2), whole(m1), whole(m2), flags(5), given(k1 + m1 + 2), given(k2 + m2 + 2), weights(c);
                given(3 * c + 4);
                break;
            }
            case 142: whole(random_.below(4)), name(0), maybe(0), maybe(0), whole(random_.below(4)); break;
            case 144: {
                const std::size_t outer = random_.below(2), inner = random_.below(3);
                name(0), whole(outer), whole(inner), outer == 1 ? name(142) : maybe(142);
                for (std::size_t i = 0; i < inner; ++i) name(142);
                break;
            }
            case 308: whole(random_.below(3)), string(), names(random_.below(4), 0); break;
            case 314: reals(3), string(); break;
            case 402: names(random_.below(4), 0); break;
            case 406: whole(1), string(); break;
            case 408: name(308), reals(4); break;
            default:
                for (std::size_t n = random_.below(6); n > 0; --n) all.push_back(anyToken(random_));
        }
        if (random_.oneIn(5)) names(random_.below(3), 0);
        if (random_.oneIn(10)) names(random_.below(3), 0);
        if (random_.oneIn(8)) all.resize(all.size() + random_.between(1, 4));
        spoil(all);
        return all;
    }

    void spoil(std::vector<Token> &all) {
        if (random_.oneIn(40) && !all.empty()) all[random_.below(all.size())] = anyToken(random_);
        if (random_.oneIn(40) && !all.empty()) all.resize(random_.below(all.size()));
        if (random_.oneIn(60)) all.push_back(anyToken(random_));
    }

    // The text of every entity, and the order in which their lines stand.
    void makeBlocks() {
        for (const Kinds &kinds : types_) {
            FreeText text(random_, parameterWidth);
            const std::vector<Token> all = values(kinds);
            const Token type = random_.oneIn(400) ? anyToken(random_) : integerToken(random_, kinds.type);
            text.value(type, all.empty() ? record_ : parameter_);
            for (std::size_t i = 0; i < all.size(); ++i) text.value(all[i], i + 1 == all.size() ? record_ : parameter_);
            texts_.push_back(text.finished(true));
            order_.push_back(order_.size());
        }
        if (random_.oneIn(2))
            for (std::size_t i = order_.size(); i > 1; --i) std::swap(order_[i - 1], order_[random_.below(i)]);
        firsts_.resize(types_.size());
        std::size_t next = 1;
        for (const std::size_t i : order_) {
            firsts_[i] = next;
            next += texts_[i].size() / parameterWidth;
        }
    }

    std::string field(std::int64_t number) {
        if (number == 0 && random_.oneIn(3)) return std::string(8, ' ');
        std::string digits = std::to_string(number < 0 ? -number : number);
        if (random_.oneIn(10)) digits = "0" + digits;
        const char *const sign = number < 0 ? "-" : random_.oneIn(12) ? "+" : "";
        return right(random_.oneIn(1500) ? digits + " " : sign + digits, 8, ' ');
    }
    std::int64_t rarely(std::int64_t number) { return random_.oneIn(8) ? number : 0; }

    void makeEntry(std::size_t index) {
        const Kinds &kinds = types_[index];
        const std::int64_t lines = static_cast<std::int64_t>(texts_[index].size() / parameterWidth);
        const bool matrix = std::any_of(types_.begin(), types_.end(), [](const Kinds &k) { return k.type == 124; });
        const bool colour = std::any_of(types_.begin(), types_.end(), [](const Kinds &k) { return k.type == 314; });
        const auto some = [&](std::size_t limit) { return static_cast<std::int64_t>(random_.below(limit)); };
        static const char *const pairs[] = {"00000000", "01000000", "00010000", "00030501", "01020402", "       1", "   10002"};
        const std::string status =
            random_.oneIn(300) ? right(std::to_string(random_.below(100000000)), 8, '0') : pairs[random_.below(7)];
        line(inOrder({field(kinds.type), field(static_cast<std::int64_t>(firsts_[index]) + (random_.oneIn(600) ? 1 : 0)),
                      field(-rarely(entryOf(0))), field(random_.oneIn(6) ? -entryOf(0) : some(random_.oneIn(200) ? 8 : 6)),
                      field(random_.oneIn(6) ? -entryOf(0) : some(1000)), field(rarely(entryOf(0))),
                      field(matrix ? rarely(entryOf(124)) : 0), field(rarely(entryOf(0))), status}),
             'D');
        line(inOrder({field(random_.oneIn(900) ? 1 : kinds.type), field(some(4)),
                      field(colour && random_.oneIn(4) ? -entryOf(314) : some(random_.oneIn(200) ? 11 : 9)),
                      field(lines + (random_.oneIn(600) ? 1 : 0)), field(kinds.form), printable(random_, 16), printable(random_, 8),
                      right(std::to_string(random_.below(random_.oneIn(3) ? 100000000 : 10)), 8, ' ')}),
             'D');
    }

    void putBlock(std::size_t index) {
        const std::string number = std::to_string(2 * index + (random_.oneIn(900) ? 2 : 1));
        for (std::size_t at = 0; at < texts_[index].size(); at += parameterWidth)
            line(texts_[index].substr(at, parameterWidth) + " " + right(number, 7, random_.from(" 0")), 'P');
    }

    Random &random_;
    std::string file_;
    std::size_t lines_[128] = {};
    char parameter_ = ',';
    char record_ = ';';
    std::vector<Kinds> types_;
    std::vector<std::string> texts_;
    std::vector<std::size_t> order_;
    std::vector<std::size_t> firsts_;
};

}  // namespace

std::string randomFile(Random &random) { return FileMaker(random).made(); }

}  // namespace tests
