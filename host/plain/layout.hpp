// The type list, and the layouts of its types: refusals 14 and 15, and which places are references.
#pragma once

#include <cstddef>
#include <cstdint>

#include "directory.hpp"
#include "value.hpp"

namespace plain {

bool isKnown(std::uint64_t list, const Entry &entry);

// Checks the values after the type number of a known entity, and marks those that stand at reference places.
void checkLayout(const Directory &directory, const Entry &entry, Value *values, std::size_t count, std::uint64_t place);

}  // namespace plain
