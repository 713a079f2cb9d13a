#include "options.hpp"

#include <charconv>
#include <optional>

namespace tool {

const char *const helpText =
    "usage: szelmikra sheet [--list N] [-o OUT] [FILE]    an IGES file to its sheet\n"
    "       szelmikra wrap [--list N] [-o OUT] [SHEET]    a sheet to its canonical IGES file\n"
    "       szelmikra check [--list N] FILE..             says which files are refused, and why\n"
    "       szelmikra explain NUMBER                      what a refusal number means\n"
    "       szelmikra --help | --version\n"
    "\n"
    "  --list N   which entity types are known: a number 0..16383, a bit for each; all of them if not given\n"
    "  -o OUT     the output file, which appears whole or not at all\n"
    "\n"
    "No name, or -, is standard input and standard output.\n"
    "A refusal is told on standard error as FILE:LINE: refused NUMBER: why.\n"
    "Exit status: 0 done, 1 refused, 2 wrong usage, 3 an error of the system.\n";

namespace {

bool isCommand(const std::string &word) {
    for (const char *const command : {"sheet", "wrap", "check", "explain", "--help", "--version"})
        if (word == command) return true;
    return false;
}

// The value of an option, from `NAME=VALUE` or from the next word.
std::optional<std::string> valueOf(const std::string &option, const std::vector<std::string> &words, std::size_t &at) {
    const std::string &word = words[at];
    if (word == option) {
        if (at + 1 == words.size()) throw UsageError(option + " wants a value");
        return words[++at];
    }
    if (word.compare(0, option.size() + 1, option + "=") == 0) return word.substr(option.size() + 1);
    return std::nullopt;
}

void checkNames(const Options &options) {
    const std::size_t count = options.names.size();
    if (options.command == "check" && count == 0) throw UsageError("check wants a file");
    if (options.command == "explain" && count != 1) throw UsageError("explain wants one number");
    if ((options.command == "sheet" || options.command == "wrap") && count > 1)
        throw UsageError(options.command + " takes one file");
    if (options.command[0] == '-' && count != 0) throw UsageError(options.command + " takes nothing else");
}

}  // namespace

std::uint64_t parseNumber(const std::string &word) {
    std::uint64_t number = 0;
    const char *const end = word.data() + word.size();
    const auto result = std::from_chars(word.data(), end, number);
    if (word.empty() || result.ec != std::errc() || result.ptr != end) throw UsageError("not a number: " + word);
    return number;
}

Options parseOptions(const std::vector<std::string> &words) {
    if (words.empty()) throw UsageError("no command");
    Options options;
    options.command = words[0] == "-h" ? "--help" : words[0];
    if (!isCommand(options.command)) throw UsageError("no such command: " + words[0]);
    const bool readsList = options.command != "explain" && options.command[0] != '-';
    const bool hasOutput = options.command == "sheet" || options.command == "wrap";
    bool onlyNames = false;
    for (std::size_t at = 1; at < words.size(); ++at) {
        const std::string word = words[at];
        if (onlyNames || word.empty() || word[0] != '-' || word == "-") {
            options.names.push_back(word);
        } else if (word == "--") {
            onlyNames = true;
        } else if (const auto list = readsList ? valueOf("--list", words, at) : std::nullopt) {
            options.list = parseNumber(*list);
        } else if (const auto output = hasOutput ? valueOf("-o", words, at) : std::nullopt) {
            options.output = *output;
        } else {
            throw UsageError("no such option: " + word);
        }
    }
    checkNames(options);
    return options;
}

}  // namespace tool
