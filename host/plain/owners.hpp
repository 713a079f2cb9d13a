// Which P line belongs to which entry: refusal 11.
#pragma once

#include "directory.hpp"
#include "lines.hpp"

namespace plain {

void checkOwners(const File &file, const Directory &directory);

}  // namespace plain
