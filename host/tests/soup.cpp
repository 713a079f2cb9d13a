#include <string>
#include <string_view>

#include "pieces.hpp"
#include "random_files.hpp"

namespace tests {

namespace {

constexpr std::string_view freeFormat = "  ,,,;00112359.+-EDHH";

// Short more often than long, since the first misspelt value ends it; now and then with a number at its limits.
std::string soupOfValues(Random &random) {
    static const char *const limits[] = {"2147483647",
                                         "2147483648",
                                         "-2147483648",
                                         "99999999999999999.",
                                         "100000000000000001.",
                                         "1.E400",
                                         "10.E400",
                                         "1.E-400",
                                         "0.E999",
                                         "999H",
                                         "000H",
                                         "0003HABC"};
    const std::string text = soup(random, random.below(random.oneIn(3) ? 160 : 8), freeFormat);
    const std::string limit =
        random.oneIn(4) ? inOrder({oneOf(random, limits), soup(random, 1, ", ;.1"), soup(random, random.below(9), freeFormat)})
                        : "";
    return inOrder({text, limit, random.oneIn(2) ? soup(random, random.between(1, 2), ";, ") : ""});
}

// The parts of a good file with one entity of type 0.
struct Frame {
    std::string global = "1H,,1H;;";
    std::string parameters = "0;";
    std::string first[9] = {zero, "       1", zero, zero, zero, zero, zero, zero, zero};
    std::string second[9] = {zero, zero, zero, "", zero, zero, zero, zero, zero};  // the line count comes last
    std::string backPointer = "       1";                                          // from column 65 on

    std::string file(Random &random) {
        line("SOUP", 0);
        lines(random, global, globalWidth, 1, "");
        const std::size_t entry = file_.size();
        line("", 2), line("", 2);
        const std::size_t owned = lines(random, parameters, parameterWidth, 3, backPointer);
        if (second[3].empty()) second[3] = right(std::to_string(owned), 8, ' ');
        for (std::size_t i = 0; i < 9; ++i) {
            file_.replace(entry + 8 * i, 8, first[i]);
            file_.replace(entry + lineBytes + 8 * i, 8, second[i]);
        }
        std::string last;
        for (std::size_t i = 0; i < 4; ++i) last += "SGDP"[i] + right(std::to_string(counts_[i]), 7, ' ');
        line(last, 4);
        return file_;
    }

private:
    static constexpr const char *zero = "       0";

    void line(std::string columns, std::size_t section) {
        columns.resize(globalWidth, ' ');
        file_ += columns + "SGDPT"[section] + right(std::to_string(++counts_[section]), 7, '0') + "\n";
    }
    // Whole lines, and now and then a blank one more; answers how many.
    std::size_t lines(Random &random, std::string text, std::size_t width, std::size_t section, const std::string &behind) {
        text.resize((text.size() + width - 1) / width * width + (random.oneIn(4) ? width : 0), ' ');
        for (std::size_t at = 0; at < text.size(); at += width) line(text.substr(at, width) + behind, section);
        return text.size() / width;
    }

    std::string file_;
    std::size_t counts_[5] = {};
};

}  // namespace

std::string soupFile(Random &random) {
    Frame frame;
    switch (random.below(4)) {
        case 0: frame.global = "1H,,1H;," + soupOfValues(random); break;
        case 1: frame.global = inOrder({soup(random, random.between(1, 12), "1H,;/? 1HX"), random.oneIn(2) ? ",;" : ""}); break;
        case 2: frame.parameters = inOrder({random.oneIn(8) ? soup(random, 3, freeFormat) : "0,", soupOfValues(random)}); break;
        default:
            (random.oneIn(2) ? frame.first : frame.second)[random.below(9)] =
                right(soup(random, random.below(9), "  00127+-"), 8, ' ');
            if (random.oneIn(3))
                frame.backPointer = inOrder({soup(random, 1, "   0"), right(soup(random, random.below(4), "1 03"), 7, ' ')});
    }
    return frame.file(random);
}

}  // namespace tests
