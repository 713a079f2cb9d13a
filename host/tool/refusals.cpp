#include "refusals.hpp"

#include "szelmikra.h"

namespace tool {

namespace {

constexpr Meaning meanings[] = {
    {SZELMIKRA_LIST_OR_LENGTH, "the list is above 16383, or the file's length is wrong",
     "A list is a number from 0 to 16383. A file has 1 to 200,000 lines of 80 characters and a line feed, the last line too: its "
     "length\n"
     "is a multiple of 81, at most 16,200,000. Files with carriage returns or lines of other lengths are refused here or by 2."},
    {SZELMIKRA_BYTE, "a byte that isn't printable ASCII, or a line feed that isn't where it should be",
     "Every line is 80 bytes from 32 to 126 and then a line feed. Tabs, accents and carriage returns are not among them."},
    {SZELMIKRA_SECTION, "wrong section letter, or sections out of order",
     "Column 73 has the section: one or more S lines, one or more G, any number of D, any number of P, and one T as the last "
     "line."},
    {SZELMIKRA_SEQUENCE, "wrong sequence number",
     "Columns 74 to 80 number the lines of each section from 1, at the right, with blanks or zeros before the number."},
    {SZELMIKRA_TERMINATE, "an odd number of D lines, or a T line that doesn't agree with the file",
     "The T line has S, G, D and P in columns 1 to 32, each with the number of lines of that section, and blanks up to column 72."},
    {SZELMIKRA_SPELLING,
     "a value is misspelt, the Global section starts wrongly or goes on after its record, or a record doesn't end",
     "A value is an integer, a real with a point or exponent, a string such as 5HCHAIR, or nothing. A number stands on one line. "
     "The\n"
     "Global section starts with its delimiters; nothing but blanks follows its record."},
    {SZELMIKRA_LIMIT, "a number is beyond its limits",
     "Integers go up to 2147483647 in size. A real has at most 17 digits without the zeros at its ends, and its exponent, counted "
     "from\n"
     "the last of these digits, lies in -400..400."},
    {SZELMIKRA_GLOBAL, "a Global field has the wrong kind or is out of range, or there are more than 24",
     "Fields 3-6, 12, 15, 18, 21 and 22 are strings, 13, 17, 19 and 20 reals, for which an integer will do, too, the others\n"
     "integers; 14 is 1..11 and 23 is 1..6."},
    {SZELMIKRA_DIRECTORY, "a directory field is misspelt or out of range",
     "Numbers stand at the right of their eight columns. Type, view, matrix, label display, weight, form and subscript are 0 or "
     "more,\n"
     "structure 0 or less, font at most 5, colour at most 8, parameter pointer and line count 1 or more; both lines name the same\n"
     "type; the status pairs go up to 01, 03, 05 and 02."},
    {SZELMIKRA_REFERENCE, "a directory field names an entry that isn't there or has the wrong type",
     "A reference is the odd number of an entry of the file. A matrix names type 124, a negative colour type 314."},
    {SZELMIKRA_OWNERSHIP, "a parameter line doesn't belong to the entry whose range it stands in",
     "Each entry owns the P lines from its parameter pointer on, as many as its line count says. Columns 66 to 72 of each of them "
     "name\n"
     "that entry, column 65 is blank, and no P line is left over."},
    {SZELMIKRA_FIRST_VALUE, "an entity's first value isn't its type",
     "The first value of an entity's parameters is the type number that its directory entry has."},
    {SZELMIKRA_MACRO, "type 306, which isn't read", "Type 306 holds MACRO text, which is another language."},
    {SZELMIKRA_LAYOUT, "an entity's values don't fit the layout of its type",
     "A value has the wrong kind, a count or flag is out of range, a weight isn't above zero, there is a value too many, or\n"
     "one is missing that a spline needs. Where a real is asked for an integer will do, but not the other way round."},
    {SZELMIKRA_LAYOUT_REFERENCE, "an entity names an entry that isn't there, has the wrong type, or must be given and isn't",
     "A reference is the odd number of an entry of the file. Type 408 names a 308, the boundaries of type 144 are of type 142."},
    {SZELMIKRA_ROOM, "the output is too short",
     "The caller of the library gave too little room for the result; the answer's length says how much is needed. The command "
     "line\n"
     "program always gives enough."},
    {SZELMIKRA_SHEET_LINE, "a line of the sheet is misspelt or out of order",
     "A sheet has S lines, G lines, entries with their values and a Z line with the entry count, fields parted by one tab, numbers "
     "in\n"
     "the one spelling that reading prints, and no default at the end of an entry's values."},
    {SZELMIKRA_MARK, "a wrong mark E, U, R or V",
     "E is an entity that the list knows, U another. R is a reference place of an E entity, V every other value."},
    {SZELMIKRA_TOO_LONG, "the file would have more than 200,000 lines", "The sheet holds more than one file can carry."},
};

}  // namespace

const Meaning *meaningOf(std::uint64_t number) {
    for (const Meaning &meaning : meanings)
        if (meaning.number == number) return &meaning;
    return nullptr;
}

}  // namespace tool
