#include "lines.hpp"

#include "fixed.hpp"
#include "format.hpp"

namespace plain {

namespace {

constexpr std::string_view sections = "SGDPT";
enum Rank : std::size_t { S, G, D, P, T };

// S and G must be there, D and P may be missing, T is one line.
bool mayFollow(std::size_t before, std::size_t after) {
    if (before == T) return false;
    if (before == S) return after == S || after == G;
    return after >= before;
}

std::size_t rankOf(char letter, std::size_t place) {
    const std::size_t rank = sections.find(letter);
    if (rank == std::string_view::npos) refuse(Fault::Section, place);
    return rank;
}

bool isCount(std::string_view columns, std::size_t count) {
    const auto worth = unsignedField(columns);
    return worth && static_cast<std::size_t>(*worth) == count;
}

void checkTerminate(const File &file, std::size_t line) {
    const std::size_t counts[] = {file.starts, file.globals, file.directories, file.parameters};
    constexpr std::size_t width = 1 + sequenceWidth;
    bool good = file.directories % 2 == 0;
    for (std::size_t i = 0; i < T; ++i) {
        const std::string_view field = file.columns(line, i * width, width);
        good = good && field[0] == sections[i] && isCount(field.substr(1), counts[i]);
    }
    constexpr std::size_t used = T * width;
    good = good && allBlank(file.columns(line, used, globalColumns - used));
    if (!good) refuse(Fault::Terminate, line + 1);
}

}  // namespace

std::string_view File::columns(std::size_t line, std::size_t from, std::size_t width) const {
    return std::string_view(bytes.data() + line * lineBytes + from, width);
}

void File::join(std::size_t firstLine, std::size_t lines, std::size_t width, std::string &text) const {
    text.clear();
    for (std::size_t i = 0; i < lines; ++i) text.append(columns(firstLine + i, 0, width));
}

File splitLines(std::string_view bytes) {
    if (bytes.empty() || bytes.size() > maxLines * lineBytes || bytes.size() % lineBytes != 0) refuse(Fault::ListOrLength, 0);
    const std::size_t lines = bytes.size() / lineBytes;
    File file;
    file.bytes = bytes;
    std::size_t counts[T + 1] = {};
    std::size_t before = S;
    for (std::size_t i = 0; i < lines; ++i) {
        const std::size_t place = i + 1;
        const std::string_view line = file.columns(i, 0, lineBytes);
        if (!allPrintable(line.substr(0, lineColumns)) || line[lineColumns] != '\n') refuse(Fault::Byte, place);
        const std::size_t section = rankOf(line[sectionColumn], place);
        const bool first = i == 0;
        const bool last = place == lines;
        if (first ? section != S : !mayFollow(before, section)) refuse(Fault::Section, place);
        if (last && section != T) refuse(Fault::Section, place);
        if (!isCount(line.substr(sequenceColumn, sequenceWidth), ++counts[section])) refuse(Fault::Sequence, place);
        before = section;
    }
    file.starts = counts[S];
    file.globals = counts[G];
    file.directories = counts[D];
    file.parameters = counts[P];
    checkTerminate(file, lines - 1);
    return file;
}

}  // namespace plain
