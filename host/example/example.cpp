// Reads an IGES file to its sheet, prints the sheet, and writes it back as the canonical file.
#include <szelmikra.h>
#include <fstream>
#include <iostream>
#include <iterator>
#include <string>

int main(int, char **words) {
    auto bytes = [](std::string &s) { return reinterpret_cast<uint8_t *>(s.data()); };
    std::ifstream in(words[1], std::ios::binary);
    std::string file(std::istreambuf_iterator<char>(in), {}), sheet, back;
    auto asked = szelmikra_read(SZELMIKRA_ALL_TYPES, bytes(file), file.size(), bytes(sheet), 0);
    if (asked.number != SZELMIKRA_ROOM) return std::cerr << "refused " << asked.number << " at line " << asked.place << "\n", 1;
    sheet.resize(asked.length);
    szelmikra_read(SZELMIKRA_ALL_TYPES, bytes(file), file.size(), bytes(sheet), sheet.size());
    std::cout << sheet;
    back.resize(szelmikra_write(SZELMIKRA_ALL_TYPES, bytes(sheet), sheet.size(), bytes(back), 0).length);
    szelmikra_write(SZELMIKRA_ALL_TYPES, bytes(sheet), sheet.size(), bytes(back), back.size());
    std::cout << back;
}
