// plain: reading and writing as documents 01 and 02 say it, in ordinary C++ and apart from the proved code. The tests compare the
// two, and the bench takes this one as what a careful programmer would have written by hand.
#pragma once

#include <cstddef>
#include <cstdint>
#include <string>
#include <string_view>

namespace plain {

// number 0: accepted, and bytes has the output. Any other number is a refusal, place is its line, and bytes is empty; of 16 length
// is what is needed, of any other refusal 0.
struct Answer {
    std::uint64_t number = 0;
    std::uint64_t place = 0;
    std::uint64_t length = 0;
    std::string bytes;
};

// room: how many bytes the caller has for the output.
Answer read(std::uint64_t list, std::string_view file, std::size_t room);
Answer write(std::uint64_t list, std::string_view sheet, std::size_t room);

}  // namespace plain
