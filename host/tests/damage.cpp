#include <string>
#include <utility>
#include <vector>

#include "pieces.hpp"
#include "random_files.hpp"

namespace tests {

namespace {

// Well spelt on a sheet, and right in some places and wrong in others.
const char *const numbers[] = {"0",         "1",        "2",         "3",          "4",           "5",   "6",   "7",   "9",
                               "12",        "-1",       "-2",        "-3",         "-5",          "100", "116", "124", "126",
                               "144",       "306",      "314",       "402",        "408",         "999", "15",  "-99", "99999999",
                               "100000000", "-9999999", "-10000000", "2147483647", "-2147483647", "11"};
const char *const statuses[] = {"00000003", "02000000", "00040000", "00000600", "01030502", "00000000", "00990000"};
const char *const values[] = {"",      "0.",  "0.D0", "1.", "-1.", "15.E-1", "1.D0", "1.E400", "1.D-400", "99999999999999999.",
                              "3HABC", "1H;", "1H ",  "0",  "1",   "2",      "3",    "5",      "-1",      "2147483647",
                              "-7"};

// Wrong on every sheet.
const char *const misspelt[] = {"+5",
                                "05",
                                "-0",
                                "1.5",
                                "1.E0",
                                "10.",
                                "0.E5",
                                "1.E401",
                                "2147483648",
                                "3HAB",
                                "0H",
                                "03HABC",
                                "1H\t",
                                "-0.",
                                "-.5",
                                "1.e5",
                                "1. ",
                                "1.E+1",
                                "1.E01",
                                "999999999999999999.",
                                "0000000",
                                "Z",
                                "-",
                                ".",
                                "1.D",
                                "1.E-0",
                                " 1",
                                "1000HABC",
                                "99999999999999999999"};

std::vector<std::string> piecesOf(const std::string &text, char separator) {
    std::vector<std::string> pieces(1);
    for (const char c : text) {
        if (c == separator)
            pieces.emplace_back();
        else
            pieces.back().push_back(c);
    }
    return pieces;
}

std::string joined(const std::vector<std::string> &pieces, char separator) {
    std::string text;
    for (std::size_t i = 0; i < pieces.size(); ++i) text += (i == 0 ? "" : std::string(1, separator)) + pieces[i];
    return text;
}

}  // namespace

std::string damagedFile(Random &random, std::string file) {
    if (file.size() < lineBytes) return file;
    const std::size_t lines = file.size() / lineBytes;
    const std::size_t at = random.below(lines) * lineBytes;
    const std::size_t other = random.below(lines) * lineBytes;
    switch (random.below(9)) {
        case 0: file[random.below(file.size())] = static_cast<char>(random.below(256)); break;
        case 1: file[at + random.below(80)] = random.from(" ,;.0123456789+-EDH"); break;
        case 2: file[at + random.below(80)] = random.from(" ,;.0123456789+-EDH"); break;
        case 3: file[at + 72] = random.from("SGDPTX"); break;
        case 4: file[at + random.between(73, 79)] = random.from(" 0123456789"); break;
        case 5: file.resize(random.below(file.size() + 1)); break;
        case 6: file.erase(at, lineBytes); break;
        case 7: {
            const std::string columns = file.substr(at, parameterWidth);
            file.replace(at, parameterWidth, file, other, parameterWidth);
            file.replace(other, parameterWidth, columns);
            break;
        }
        default: file += file.substr(at, lineBytes);
    }
    return file;
}

std::string damagedSheet(Random &random, const std::string &sheet) {
    if (sheet.empty()) return sheet;
    std::vector<std::string> lines = piecesOf(sheet, '\n');
    std::string &line = lines[random.below(lines.size())];
    std::vector<std::string> fields = piecesOf(line, '\t');
    constexpr std::size_t statusField = 10, entryFields = 15;
    switch (random.below(12)) {
        case 0: {
            std::string bytes = sheet;
            bytes[random.below(bytes.size())] = static_cast<char>(random.below(random.oneIn(3) ? 256 : 127));
            return bytes;
        }
        case 1: return sheet.substr(0, random.below(sheet.size() + 1));
        case 2: lines.erase(lines.begin() + static_cast<std::ptrdiff_t>(random.below(lines.size()))); break;
        case 3: std::swap(line, lines[random.below(lines.size())]); break;
        case 4: {
            const std::string again = line;
            lines.insert(lines.begin() + static_cast<std::ptrdiff_t>(random.below(lines.size())), again);
            break;
        }
        case 5:
            if (!line.empty()) line[0] = random.from("EURVSGZ");
            break;
        case 6:
            fields[random.below(fields.size())] = oneOf(random, misspelt);
            line = joined(fields, '\t');
            break;
        default:  // well spelt: an entry's field, or a value
            if (fields.size() == entryFields) {
                const std::size_t which = random.between(2, entryFields - 2);
                fields[which] = which == statusField ? oneOf(random, statuses) : oneOf(random, numbers);
                if (random.oneIn(15)) fields[2] = "306";
            } else if (fields.size() > 1) {
                fields.back() = oneOf(random, values);
            }
            line = joined(fields, '\t');
    }
    return joined(lines, '\n');
}

}  // namespace tests
