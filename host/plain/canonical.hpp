// The canonical file of a sheet: refusal 19.
#pragma once

#include <string>

#include "sheet.hpp"

namespace plain {

// Fills in the parameter pointer and line count of each entry on the way.
std::string canonicalFile(Sheet &sheet);

}  // namespace plain
