// Random IGES files in free spelling, and damage to files and sheets.
#pragma once

#include <string>

#include "random.hpp"

namespace tests {

// Mostly a file that is accepted; now and then one with a fault of any kind.
std::string randomFile(Random &random);

// A good frame with one part of it made of letters at random: the Global text, its opening, an entity's text, or fixed fields.
std::string soupFile(Random &random);

// A byte, a line, a number or a field is changed.
std::string damagedFile(Random &random, std::string file);
std::string damagedSheet(Random &random, const std::string &sheet);

}  // namespace tests
