#include "large.hpp"

#include <cstdio>
#include <cstdlib>
#include <vector>

#include "../plain/plain.hpp"
#include "random.hpp"

namespace tests {

namespace {

constexpr std::size_t lineBytes = 81;
constexpr std::size_t allTypes = 16'383;
constexpr std::size_t noLimit = static_cast<std::size_t>(-1);

std::string written(const std::string &sheet) {
    plain::Answer answer = plain::write(allTypes, sheet, noLimit);
    if (answer.number == 0) return std::move(answer.bytes);
    std::fprintf(stderr, "a sheet for the tests is refused: %d at %d\n", static_cast<int>(answer.number),
                 static_cast<int>(answer.place));
    std::exit(3);
}

// Puts a sheet together, entry by entry.
class SheetMaker {
public:
    explicit SheetMaker(Coordinates coordinates = Coordinates::Reals) : coordinates_(coordinates) {}

    std::size_t entry(int type, int form = 0) {
        const std::size_t number = 2 * entries_++ + 1;
        body_ += "E\t" + std::to_string(number) + "\t" + std::to_string(type) + "\t" + std::to_string(form) +
                 "\t0\t0\t0\t0\t0\t0\t00000000\t0\t0\t0\t        \n";
        return number;
    }
    void reals(std::size_t count) {
        for (; count > 0; --count) {
            body_ += random_.oneIn(3) ? "V\t-" : "V\t";
            body_ += std::to_string(digits());
            if (coordinates_ == Coordinates::Reals) body_ += ".E-" + std::to_string(random_.between(1, 6));
            body_ += "\n";
        }
    }
    void weights(std::size_t count) {
        for (; count > 0; --count) body_ += coordinates_ == Coordinates::Reals ? "V\t1.\n" : "V\t1\n";
    }
    void whole(std::size_t number) { body_ += "V\t" + std::to_string(number) + "\n"; }
    void name(std::size_t number) { body_ += "R\t" + std::to_string(number) + "\n"; }
    void string(const std::string &text) { body_ += "V\t" + std::to_string(text.size()) + "H" + text + "\n"; }

    std::string finished(std::size_t startLines) const {
        std::string sheet;
        for (std::size_t i = 0; i < startLines; ++i) sheet += "S\tSET PIECE\n";
        return sheet + "G\t3\t5HCHAIR\nG\t4\t7Hset.igs\nG\t13\t1.\nG\t14\t2\n" + body_ + "Z\t" + std::to_string(entries_) + "\n";
    }

private:
    // No trailing zero: the spelling must be the one of a sheet.
    std::size_t digits() {
        const std::size_t before = random_.between(100, 9'999'999);
        return 10 * before + random_.between(1, 9);
    }

    Coordinates coordinates_;
    Random random_{1};
    std::string body_;
    std::size_t entries_ = 0;
};

// Some of everything that a file of a set has.
void oneOfEach(SheetMaker &sheet) {
    const std::size_t point = sheet.entry(116);
    sheet.reals(3);
    const std::size_t line = sheet.entry(110);
    sheet.reals(6);
    const std::size_t arc = sheet.entry(100);
    sheet.reals(7);
    const std::size_t curve = sheet.entry(126);
    constexpr std::size_t k = 11, m = 3;
    sheet.whole(k), sheet.whole(m), sheet.whole(0), sheet.whole(0), sheet.whole(1), sheet.whole(0);
    sheet.reals(k + m + 2), sheet.weights(k + 1), sheet.reals(3 * (k + 1) + 2 + 3);
    const std::size_t chain = sheet.entry(102);
    sheet.whole(3), sheet.name(line), sheet.name(arc), sheet.name(curve);
    sheet.entry(124);
    sheet.reals(12);
    const std::size_t part = sheet.entry(308);
    sheet.whole(0), sheet.string("LEG OF A CHAIR"), sheet.whole(2), sheet.name(chain), sheet.name(point);
    sheet.entry(408);
    sheet.name(part), sheet.reals(4);
}

std::string number(std::size_t worth, std::size_t width, char fill) {
    const std::string digits = std::to_string(worth);
    return std::string(width - digits.size(), fill) + digits;
}

}  // namespace

std::string largeFile(std::size_t lines, Coordinates coordinates) {
    // The lines of one round, where the numbers are widest.
    constexpr std::size_t linesOfOneRound = 43;
    SheetMaker sheet(coordinates);
    for (std::size_t round = 0; round < (lines - 5) / linesOfOneRound; ++round) oneOfEach(sheet);
    const std::size_t others = written(sheet.finished(1)).size() / lineBytes - 1;
    if (others >= lines) {
        std::fprintf(stderr, "a round takes more than %zu lines\n", linesOfOneRound);
        std::exit(3);
    }
    return written(sheet.finished(lines - others));
}

std::string shuffledBlocks(const std::string &canonical) {
    const std::size_t lines = canonical.size() / lineBytes;
    const auto count = [&](std::size_t column) {
        return static_cast<std::size_t>(std::atol(canonical.substr((lines - 1) * lineBytes + column, 7).c_str()));
    };
    const std::size_t firstDirectory = count(1) + count(9), entries = count(17) / 2;
    const std::size_t firstParameter = firstDirectory + 2 * entries;
    struct Block {
        std::size_t entry, first, lines;
    };
    std::vector<Block> blocks;
    for (std::size_t i = 0; i < entries; ++i) {
        const std::size_t at = (firstDirectory + 2 * i) * lineBytes;
        blocks.push_back({i, static_cast<std::size_t>(std::atol(canonical.substr(at + 8, 8).c_str())),
                          static_cast<std::size_t>(std::atol(canonical.substr(at + lineBytes + 24, 8).c_str()))});
    }
    Random random(7);
    for (std::size_t i = blocks.size(); i > 1; --i) std::swap(blocks[i - 1], blocks[random.below(i)]);
    std::string file = canonical;
    std::size_t next = 1;
    for (const Block &block : blocks) {
        file.replace((firstDirectory + 2 * block.entry) * lineBytes + 8, 8, number(next, 8, ' '));
        for (std::size_t i = 0; i < block.lines; ++i, ++next) {
            const std::size_t to = (firstParameter + next - 1) * lineBytes;
            file.replace(to, lineBytes, canonical, (firstParameter + block.first - 1 + i) * lineBytes, lineBytes);
            file.replace(to + 73, 7, number(next, 7, '0'));
        }
    }
    return file;
}

std::string oneLargeEntity() {
    SheetMaker sheet;
    constexpr std::size_t k = 380, m = 3, c = (k + 1) * (k + 1);
    sheet.entry(128);
    sheet.whole(k), sheet.whole(k), sheet.whole(m), sheet.whole(m);
    for (int flag = 0; flag < 5; ++flag) sheet.whole(0);
    sheet.reals(2 * (k + m + 2)), sheet.weights(c), sheet.reals(3 * c + 4);
    return written(sheet.finished(1));
}

std::string manyReferences(std::size_t references) {
    SheetMaker sheet;
    constexpr std::size_t points = 1000;
    for (std::size_t i = 0; i < points; ++i) sheet.entry(116), sheet.reals(3);
    sheet.entry(102);
    sheet.whole(references);
    for (std::size_t i = 0; i < references; ++i) sheet.name(2 * (i * 7 % points) + 1);
    return written(sheet.finished(1));
}

std::string startLinesOnly(std::size_t lines) {
    constexpr std::size_t others = 2;  // G and T
    std::string sheet;
    for (std::size_t i = others; i < lines; ++i) sheet += "S\t\n";
    return sheet + "Z\t0\n";
}

std::string manyEntries(std::size_t entries, Named named, Last last) {
    Random random(entries);
    const auto target = [&](std::size_t i) {
        const std::size_t index = named == Named::Rising ? i : named == Named::Falling ? entries - 1 - i : random.below(entries);
        return 2 * index + 1;
    };
    std::string sheet = "S\tMANY\n";
    for (std::size_t i = 0; i < entries; ++i) {
        const Last what = i + 1 == entries ? last : Last::Good;
        const std::size_t nobody = 2 * entries + 1;
        const std::size_t view = what == Last::Reference ? nobody : target(i);
        const std::size_t symbol = what == Last::LayoutReference ? nobody : target(i);
        sheet += "E\t" + std::to_string(2 * i + 1) + "\t116\t0\t0\t0\t0\t" + std::to_string(view) +
                 "\t0\t0\t00000000\t0\t0\t0\t        \nV\t1.\nV\t0.\nV\t1.\n" + (what == Last::Mark ? "V\t" : "R\t") +
                 std::to_string(symbol) + "\n";
    }
    return sheet + "Z\t" + std::to_string(entries) + "\n";
}

std::string typedEntries(std::size_t entries, Named named, Last last) {
    enum Type : std::size_t { Matrix, Colour, Definition, Instance, types };
    static constexpr const char *names[] = {"124", "314", "308", "408"};
    Random random(entries);
    const std::size_t rounds = entries / types;
    const auto target = [&](Type type, std::size_t round) {
        const std::size_t index = named == Named::Rising    ? round
                                  : named == Named::Falling ? rounds - 1 - round
                                                            : random.below(rounds);
        return std::to_string(2 * (types * index + type) + 1);
    };
    std::string sheet = "S\tMANY\n";
    for (std::size_t i = 0; i < entries; ++i) {
        const Last what = i + 1 == entries ? last : Last::Good;
        const std::size_t round = i / types, type = i % types;
        sheet += "E\t" + std::to_string(2 * i + 1) + "\t" + names[type] + "\t0\t0\t0\t0\t0\t" +
                 target(what == Last::Reference ? Colour : Matrix, round) + "\t0\t00000000\t0\t-" + target(Colour, round) +
                 "\t0\t        \n";
        const std::string value = "V\t1.\n";
        if (type == Matrix)
            for (int j = 0; j < 12; ++j) sheet += value;
        if (type == Colour) sheet += value + value + value;
        if (type == Definition) sheet += "V\t0\nV\t1HA\nV\t0\n";
        if (type == Instance)
            sheet += (what == Last::Mark ? "V\t" : "R\t") + target(what == Last::LayoutReference ? Matrix : Definition, round) + "\n" +
                     value + value + value + value;
    }
    return sheet + "Z\t" + std::to_string(entries) + "\n";
}

std::string fullStartLines(std::size_t bytes) {
    const std::string line = "S\t" + std::string(72, '*') + "\n";
    std::string sheet;
    sheet.reserve(bytes + line.size());
    while (sheet.size() < bytes) sheet += line;
    return sheet + "Z\t0\n";
}

}  // namespace tests
