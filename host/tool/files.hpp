// Whole files in and out. An output file appears whole or not at all.
#pragma once

#include <cstddef>
#include <cstdint>
#include <stdexcept>
#include <string>
#include <vector>

namespace tool {

using Bytes = std::vector<std::uint8_t>;

// An error of the system, told with the name of the file.
struct SystemError : std::runtime_error {
    using std::runtime_error::runtime_error;
};

constexpr const char *standardStream = "-";

// At most `limit` bytes; "-" is standard input.
Bytes readAll(const std::string &name, std::size_t limit);

// "-" is standard output. A named file is written next to its place under another name and then renamed.
void writeAll(const std::string &name, const std::uint8_t *bytes, std::size_t count);

// To be called first: a closed standard stream must not be given to a file that is opened later, a broken pipe or a file size
// limit is an error like any other, and a signal that ends the program takes the unfinished file with it.
void prepareStreams();

}  // namespace tool
