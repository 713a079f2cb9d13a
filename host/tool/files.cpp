#include "files.hpp"

#include <algorithm>
#include <cerrno>
#include <climits>
#include <csignal>
#include <cstdlib>
#include <cstring>

#include <fcntl.h>
#include <sys/stat.h>
#include <unistd.h>

namespace tool {

namespace {

// The unfinished file, for the signal handler: nothing that allocates may be touched there.
char unfinished[PATH_MAX] = "";

extern "C" void removeUnfinished(int signal) {
    if (unfinished[0] != '\0') unlink(unfinished);
    std::signal(signal, SIG_DFL);
    std::raise(signal);
}

[[noreturn]] void fail(const std::string &name, int error) { throw SystemError(name + ": " + std::strerror(error)); }

class Descriptor {
public:
    explicit Descriptor(int number) : number_(number) {}
    ~Descriptor() {
        if (number_ >= 0) close(number_);
    }
    Descriptor(const Descriptor &) = delete;
    Descriptor &operator=(const Descriptor &) = delete;
    int number() const { return number_; }

    // Closing may tell an error of writing.
    bool closed() {
        const int number = number_;
        number_ = -1;
        return close(number) == 0;
    }

private:
    int number_;
};

Bytes readFrom(int descriptor, const std::string &name, std::size_t limit) {
    constexpr std::size_t firstRoom = 1 << 16;
    Bytes bytes(firstRoom);
    std::size_t length = 0;
    while (length < limit) {
        if (length == bytes.size()) bytes.resize(2 * length);
        const std::size_t room = std::min(bytes.size(), limit) - length;
        const ssize_t count = read(descriptor, bytes.data() + length, room);
        if (count < 0 && errno == EINTR) continue;
        if (count < 0) fail(name, errno);
        if (count == 0) break;
        length += static_cast<std::size_t>(count);
    }
    bytes.resize(length);
    return bytes;
}

void writeTo(int descriptor, const std::string &name, const std::uint8_t *bytes, std::size_t count) {
    while (count > 0) {
        const ssize_t written = write(descriptor, bytes, count);
        if (written < 0 && errno == EINTR) continue;
        if (written < 0) fail(name, errno);
        bytes += written;
        count -= static_cast<std::size_t>(written);
    }
}

mode_t usualMode() {
    const mode_t mask = umask(0);
    umask(mask);
    return static_cast<mode_t>(0666 & ~mask);
}

// A file under another name in the same folder, gone again unless it is put in place.
class Unfinished {
public:
    explicit Unfinished(const std::string &target) : target_(target) {
        const std::string pattern = target + ".XXXXXX";
        if (pattern.size() >= sizeof unfinished) fail(target, ENAMETOOLONG);
        std::strcpy(unfinished, pattern.c_str());
        descriptor_ = mkstemp(unfinished);
        if (descriptor_ >= 0) return;
        unfinished[0] = '\0';
        fail(target, errno);
    }
    ~Unfinished() {
        if (descriptor_ >= 0) close(descriptor_);
        if (unfinished[0] != '\0') unlink(unfinished);
        unfinished[0] = '\0';
    }
    Unfinished(const Unfinished &) = delete;
    Unfinished &operator=(const Unfinished &) = delete;

    void fill(const std::uint8_t *bytes, std::size_t count, mode_t mode) {
        writeTo(descriptor_, target_, bytes, count);
        if (fchmod(descriptor_, mode) != 0 || fsync(descriptor_) != 0) fail(target_, errno);
        const int descriptor = descriptor_;
        descriptor_ = -1;
        if (close(descriptor) != 0) fail(target_, errno);
    }
    void putInPlace() {
        if (rename(unfinished, target_.c_str()) != 0) fail(target_, errno);
        unfinished[0] = '\0';
    }

private:
    std::string target_;
    int descriptor_ = -1;
};

// The file behind a link is replaced, not the link.
std::string behindLinks(const std::string &name) {
    char *const resolved = realpath(name.c_str(), nullptr);
    if (!resolved) return name;
    const std::string path = resolved;
    std::free(resolved);
    return path;
}

void writeDirectly(const std::string &name, const std::uint8_t *bytes, std::size_t count) {
    Descriptor file(open(name.c_str(), O_WRONLY | O_CLOEXEC));
    if (file.number() < 0) fail(name, errno);
    writeTo(file.number(), name, bytes, count);
    if (!file.closed()) fail(name, errno);
}

}  // namespace

void prepareStreams() {
    // Opened the wrong way round, so that using the stream is still an error.
    if (fcntl(STDIN_FILENO, F_GETFD) < 0) open("/dev/null", O_WRONLY);
    if (fcntl(STDOUT_FILENO, F_GETFD) < 0) open("/dev/null", O_RDONLY);
    if (fcntl(STDERR_FILENO, F_GETFD) < 0) open("/dev/null", O_RDONLY);
    for (const int signal : {SIGPIPE, SIGXFSZ}) std::signal(signal, SIG_IGN);
    for (const int signal : {SIGINT, SIGTERM, SIGHUP})
        if (std::signal(signal, removeUnfinished) == SIG_IGN) std::signal(signal, SIG_IGN);  // as under nohup
}

Bytes readAll(const std::string &name, std::size_t limit) {
    if (name == standardStream) return readFrom(STDIN_FILENO, "standard input", limit);
    const Descriptor file(open(name.c_str(), O_RDONLY | O_CLOEXEC));
    if (file.number() < 0) fail(name, errno);
    return readFrom(file.number(), name, limit);
}

void writeAll(const std::string &name, const std::uint8_t *bytes, std::size_t count) {
    if (name == standardStream) return writeTo(STDOUT_FILENO, "standard output", bytes, count);
    struct stat before;
    const bool exists = stat(name.c_str(), &before) == 0;
    // A device or a pipe is written to, never replaced.
    if (exists && !S_ISREG(before.st_mode)) return writeDirectly(name, bytes, count);
    Unfinished file(behindLinks(name));
    file.fill(bytes, count, exists ? before.st_mode & 07777 : usualMode());
    file.putInPlace();
}

}  // namespace tool
