// Random numbers that are the same on every machine.
#pragma once

#include <cstdint>
#include <string_view>

namespace tests {

// splitmix64: small, and every seed is a good one.
class Random {
public:
    explicit Random(std::uint64_t seed) : state_(seed) {}

    std::uint64_t bits() {
        std::uint64_t z = (state_ += 0x9E3779B97F4A7C15u);
        z = (z ^ (z >> 30)) * 0xBF58476D1CE4E5B9u;
        z = (z ^ (z >> 27)) * 0x94D049BB133111EBu;
        return z ^ (z >> 31);
    }
    std::size_t below(std::size_t limit) { return static_cast<std::size_t>(bits() % limit); }
    std::size_t between(std::size_t from, std::size_t to) { return from + below(to - from + 1); }
    bool oneIn(std::size_t times) { return below(times) == 0; }
    char from(std::string_view letters) { return letters[below(letters.size())]; }

private:
    std::uint64_t state_;
};

}  // namespace tests
