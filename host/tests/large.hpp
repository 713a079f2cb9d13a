// Large files and sheets, for tests of length, for the bench and for the stack.
#pragma once

#include <cstddef>
#include <string>

namespace tests {

// What stands at the real places of a file.
enum class Coordinates { Reals, Integers };

// A canonical file with just that many lines (at least 100), of points, lines, curves, matrices, groups and instances.
std::string largeFile(std::size_t lines, Coordinates coordinates = Coordinates::Reals);

// The same entities with their P blocks in another order.
std::string shuffledBlocks(const std::string &canonical);

// One surface whose values take more than 100,000 lines.
std::string oneLargeEntity();

// One composite curve with that many references.
std::string manyReferences(std::size_t references);

// A sheet of nothing but S lines, whose file has just that many lines.
std::string startLinesOnly(std::size_t lines);

// Which entries the entries of a sheet name, one after the other.
enum class Named { Rising, Falling, Random };

// What the last entry of a sheet is refused for: nothing, its directory reference (10), its layout's reference (15), its mark (18).
enum class Last { Good, Reference, LayoutReference, Mark };

// A sheet of that many points, each of which names two others.
std::string manyEntries(std::size_t entries, Named named, Last last = Last::Good);

// A sheet of that many (of which 4 is a divisor) matrices, colours, definitions and instances in turn, each of which names a matrix and
// a colour, and an instance a definition: all are asked for their types.
std::string typedEntries(std::size_t entries, Named named, Last last = Last::Good);

// A sheet of S lines alone, full ones, that has at least so many bytes.
std::string fullStartLines(std::size_t bytes);

}  // namespace tests
