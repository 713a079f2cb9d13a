// How deep the stack of read and of write goes on a file of 200,000 lines. They run in a thread; what is below its frame is painted
// first, and the deepest byte that lost its paint tells.
#include <cstdint>
#include <cstdio>
#include <cstdlib>
#include <cstring>
#include <string>
#include <vector>

#include <pthread.h>
#include <sys/mman.h>

#include "large.hpp"
#include "szelmikra.h"

namespace {

constexpr std::size_t stackBytes = std::size_t{64} << 20;
constexpr std::size_t margin = 512;  // right below the frame, for the painting itself
constexpr std::uint8_t paint = 0xA5;

struct Work {
    szelmikra_answer (*function)(std::uint64_t, const std::uint8_t *, std::size_t, std::uint8_t *, std::size_t);
    const std::vector<std::uint8_t> *input;
    std::vector<std::uint8_t> *output;
    std::uint8_t *stack = nullptr;
    szelmikra_answer answer{};
    std::size_t depth = 0;
};

void *run(void *argument) {
    Work &work = *static_cast<Work *>(argument);
    auto *const frame = static_cast<std::uint8_t *>(__builtin_frame_address(0));
    std::memset(work.stack, paint, static_cast<std::size_t>(frame - work.stack) - margin);
    work.answer =
        work.function(SZELMIKRA_ALL_TYPES, work.input->data(), work.input->size(), work.output->data(), work.output->size());
    const std::uint8_t *deepest = work.stack;
    while (*deepest == paint) ++deepest;
    work.depth = static_cast<std::size_t>(frame - deepest);
    return nullptr;
}

[[noreturn]] void fail(const char *what) {
    std::fprintf(stderr, "stack: %s\n", what);
    std::exit(3);
}

void runOnOwnStack(Work &work) {
    void *const stack = mmap(nullptr, stackBytes, PROT_READ | PROT_WRITE, MAP_PRIVATE | MAP_ANONYMOUS | MAP_STACK, -1, 0);
    if (stack == MAP_FAILED) fail("no memory for a stack");
    work.stack = static_cast<std::uint8_t *>(stack);
    pthread_attr_t attributes;
    pthread_t thread;
    if (pthread_attr_init(&attributes) != 0 || pthread_attr_setstack(&attributes, stack, stackBytes) != 0 ||
        pthread_create(&thread, &attributes, run, &work) != 0 || pthread_join(thread, nullptr) != 0)
        fail("no thread");
    pthread_attr_destroy(&attributes);
    munmap(stack, stackBytes);
}

void tell(const char *name, Work &work) {
    runOnOwnStack(work);
    if (work.answer.number != 0) fail("a good input was refused");
    std::printf("stack: %s of 200,000 lines uses %zu bytes\n", name, work.depth);
}

}  // namespace

int main() {
    const std::string text = tests::largeFile(200'000);
    const std::vector<std::uint8_t> file(text.begin(), text.end());
    std::vector<std::uint8_t> sheet(4 * file.size()), back(file.size());
    Work read{szelmikra_read, &file, &sheet};
    tell("read", read);
    sheet.resize(static_cast<std::size_t>(read.answer.length));
    Work write{szelmikra_write, &sheet, &back};
    tell("write", write);
    return 0;
}
