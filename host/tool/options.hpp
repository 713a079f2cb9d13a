// The words of the command line.
#pragma once

#include <cstdint>
#include <stdexcept>
#include <string>
#include <vector>

namespace tool {

struct UsageError : std::runtime_error {
    using std::runtime_error::runtime_error;
};

struct Options {
    std::string command;
    std::uint64_t list = 16'383;
    std::string output = "-";
    std::vector<std::string> names;
};

Options parseOptions(const std::vector<std::string> &words);

std::uint64_t parseNumber(const std::string &word);

extern const char *const helpText;

}  // namespace tool
