// The lines of a file and the sections that they make: refusals 1 to 5.
#pragma once

#include <cstddef>
#include <cstdint>
#include <string>
#include <string_view>

namespace plain {

// A file whose lines are good. Lines are counted from 0 inside the code; a place is one more.
struct File {
    std::string_view bytes;
    std::size_t starts = 0;  // how many S lines, and so on
    std::size_t globals = 0;
    std::size_t directories = 0;
    std::size_t parameters = 0;

    std::size_t firstGlobal() const { return starts; }
    std::size_t firstDirectory() const { return firstGlobal() + globals; }
    std::size_t firstParameter() const { return firstDirectory() + directories; }
    std::size_t entries() const { return directories / 2; }

    std::string_view columns(std::size_t line, std::size_t from, std::size_t width) const;

    // The first `width` columns of some lines, joined.
    void join(std::size_t firstLine, std::size_t lines, std::size_t width, std::string &text) const;
};

File splitLines(std::string_view bytes);

}  // namespace plain
