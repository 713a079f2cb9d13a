// szelmikra: the command line program over the archive.
#include <cstdio>
#include <exception>
#include <limits>
#include <new>
#include <string>
#include <vector>

#include <unistd.h>

#include "szelmikra.h"
#include "tool/files.hpp"
#include "tool/options.hpp"
#include "tool/refusals.hpp"

#ifndef SZELMIKRA_VERSION
#define SZELMIKRA_VERSION "unknown"
#endif

namespace {

using tool::Bytes;
using tool::Options;

enum Status { Done = 0, Refused = 1, WrongUsage = 2, SystemFailed = 3 };

// A file that is too long is refused whatever follows, so one byte more than the limit tells enough of it.
constexpr std::size_t enoughOfFile = SZELMIKRA_MOST_FILE + 1;
constexpr std::size_t noLimit = std::numeric_limits<std::size_t>::max();

// An empty vector may have a null pointer, which the archive must not be given.
std::uint8_t nothing = 0;
const std::uint8_t *dataOf(const Bytes &bytes) { return bytes.empty() ? &nothing : bytes.data(); }

void tellRefusal(const std::string &name, const szelmikra_answer &answer) {
    const tool::Meaning *const meaning = tool::meaningOf(answer.number);
    std::fprintf(stderr, "%s:%llu: refused %llu: %s\n", name.c_str(), static_cast<unsigned long long>(answer.place),
                 static_cast<unsigned long long>(answer.number), meaning ? meaning->brief : "unknown number");
}

std::string nameGiven(const Options &options) { return options.names.empty() ? tool::standardStream : options.names[0]; }

// Asks with no room how much is needed, and then with that.
template <class Function>
int deliver(const Options &options, Function function, const Bytes &input) {
    szelmikra_answer answer = function(options.list, dataOf(input), input.size(), &nothing, 0);
    Bytes output;
    if (answer.number == SZELMIKRA_ROOM) {
        output.resize(static_cast<std::size_t>(answer.length));
        answer = function(options.list, dataOf(input), input.size(), output.data(), output.size());
    }
    if (answer.number != SZELMIKRA_ACCEPTED) {
        tellRefusal(nameGiven(options), answer);
        return Refused;
    }
    tool::writeAll(options.output, output.data(), output.size());
    return Done;
}

int sheet(const Options &options) { return deliver(options, szelmikra_read, tool::readAll(nameGiven(options), enoughOfFile)); }

int wrap(const Options &options) { return deliver(options, szelmikra_write, tool::readAll(nameGiven(options), noLimit)); }

void print(const std::string &text) {
    tool::writeAll(tool::standardStream, reinterpret_cast<const std::uint8_t *>(text.data()), text.size());
}

// One line on a terminal that tells how far it is; nothing elsewhere.
class Progress {
public:
    explicit Progress(std::size_t total) : total_(total), shown_(isatty(STDERR_FILENO) == 1) {}
    ~Progress() { clear(); }
    void at(std::size_t done, const std::string &name) const {
        if (shown_) std::fprintf(stderr, "\r\033[K%zu of %zu: %s", done, total_, name.c_str());
    }
    void clear() const {
        if (shown_) std::fprintf(stderr, "\r\033[K");
    }

private:
    std::size_t total_;
    bool shown_;
};

// Room is looked at last of all, so with no room at all a good file answers 16 and no sheet needs to be printed.
szelmikra_answer checkFile(std::uint64_t list, const Bytes &file) {
    szelmikra_answer answer = szelmikra_read(list, dataOf(file), file.size(), &nothing, 0);
    if (answer.number == SZELMIKRA_ROOM) answer.number = SZELMIKRA_ACCEPTED;
    return answer;
}

int check(const Options &options) {
    std::size_t refused = 0, unread = 0;
    const std::size_t total = options.names.size();
    {
        const Progress progress(total);
        for (std::size_t i = 0; i < total; ++i) {
            const std::string &name = options.names[i];
            progress.at(i + 1, name);
            try {
                const szelmikra_answer answer = checkFile(options.list, tool::readAll(name, enoughOfFile));
                if (answer.number == SZELMIKRA_ACCEPTED) continue;
                ++refused;
                progress.clear();
                tellRefusal(name, answer);
            } catch (const tool::SystemError &error) {
                ++unread;
                progress.clear();
                std::fprintf(stderr, "szelmikra: %s\n", error.what());
            }
        }
    }
    std::string told = std::to_string(total) + " files, " + std::to_string(refused) + " refused";
    if (unread > 0) told += ", " + std::to_string(unread) + " could not be read";
    print(told + "\n");
    return unread > 0 ? SystemFailed : refused > 0 ? Refused : Done;
}

int explain(const Options &options) {
    const tool::Meaning *const meaning = tool::meaningOf(tool::parseNumber(options.names[0]));
    if (!meaning) throw tool::UsageError("refusals have the numbers 1 to 19");
    print(std::to_string(meaning->number) + ": " + meaning->brief + ".\n" + meaning->detail + "\n");
    return Done;
}

int run(const Options &options) {
    if (options.command == "sheet") return sheet(options);
    if (options.command == "wrap") return wrap(options);
    if (options.command == "check") return check(options);
    if (options.command == "explain") return explain(options);
    print(options.command == "--help" ? tool::helpText : "szelmikra " SZELMIKRA_VERSION "\n");
    return Done;
}

}  // namespace

int main(int count, char **words) {
    tool::prepareStreams();
    try {
        return run(tool::parseOptions(std::vector<std::string>(words + 1, words + count)));
    } catch (const tool::UsageError &error) {
        std::fprintf(stderr, "szelmikra: %s\nTry szelmikra --help.\n", error.what());
        return WrongUsage;
    } catch (const std::bad_alloc &) {
        std::fprintf(stderr, "szelmikra: out of memory\n");
        return SystemFailed;
    } catch (const std::exception &error) {
        std::fprintf(stderr, "szelmikra: %s\n", error.what());
        return SystemFailed;
    }
}
