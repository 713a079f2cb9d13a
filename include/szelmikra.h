/* Szelmikra: IGES 4.0 files to sheets and back. Both functions are proved to meet their contracts; this header is not checked
 * against them.
 *
 * The archive is for x86-64. Slices are a pointer and a length; an empty one may have any pointer that is not null. The input
 * and the output must not overlap. Nothing is kept between calls, and any number of threads may call at once.
 */
#ifndef SZELMIKRA_H
#define SZELMIKRA_H

#include <stddef.h>
#include <stdint.h>

#ifdef __cplusplus
extern "C" {
#endif

/* A list is a number 0..16,383 with a bit for each entity type that is known, from bit 0 upward: 100, 102, 110, 116, 124, 126, 128,
 * 142, 144, 308, 314, 402 form 7, 406 form 15, 408. */
#define SZELMIKRA_ALL_TYPES 16383

/* The longest file: 200,000 lines of 81 bytes. So much room is enough for any written file. */
#define SZELMIKRA_MOST_FILE 16200000

/* Why an input is refused: the numbers of an answer. SZELMIKRA_ACCEPTED is no refusal. */
enum {
    SZELMIKRA_ACCEPTED = 0,
    SZELMIKRA_LIST_OR_LENGTH = 1,
    SZELMIKRA_BYTE = 2,
    SZELMIKRA_SECTION = 3,
    SZELMIKRA_SEQUENCE = 4,
    SZELMIKRA_TERMINATE = 5,
    SZELMIKRA_SPELLING = 6,
    SZELMIKRA_LIMIT = 7,
    SZELMIKRA_GLOBAL = 8,
    SZELMIKRA_DIRECTORY = 9,
    SZELMIKRA_REFERENCE = 10,
    SZELMIKRA_OWNERSHIP = 11,
    SZELMIKRA_FIRST_VALUE = 12,
    SZELMIKRA_MACRO = 13,
    SZELMIKRA_LAYOUT = 14,
    SZELMIKRA_LAYOUT_REFERENCE = 15,
    SZELMIKRA_ROOM = 16,
    SZELMIKRA_SHEET_LINE = 17,
    SZELMIKRA_MARK = 18,
    SZELMIKRA_TOO_LONG = 19
};

/* Accepted: number is 0, place is 0, and length bytes of the output were written; what is behind them is untouched.
 * Refused: number says why, place says where; no byte of the output was changed. Of a refusal 16 length is how many bytes are
 * needed, of any other it is 0. So ask once with no room, then once with enough:
 *
 *     szelmikra_answer asked = szelmikra_read(list, file, file_len, &any_byte, 0);
 *     if (asked.number != SZELMIKRA_ROOM) .. refused, whatever the room
 *     uint8_t *sheet = malloc(asked.length);
 *     szelmikra_answer read = szelmikra_read(list, file, file_len, sheet, asked.length);    number is 0, length is asked.length
 *
 * Neither a sheet nor a file is ever empty, so with no room nothing is accepted. */
typedef struct {
    uint64_t number;
    uint64_t place;
    uint64_t length;
} szelmikra_answer;

/* Reads a file to its sheet. Refused in this order, place is the line of the file from 1:
 *    1  the list is above 16,383, or the file's length is not 1 to 200,000 lines of 81 bytes (place 0)
 *    2  a byte outside 32..126, or no line feed      3  section letter or order      4  sequence number
 *    5  an odd number of D lines, or the T line
 *    6  spelling of free format                      7  a number beyond its limits
 *    8  Global kind, range or number of fields
 *    9  directory field                             13  type 306
 *   10  directory reference
 *   11  parameter ownership
 *    6, 7 again, now of the entities                12  the first value isn't the type
 *   14  layout                                      15  reference in a layout
 *   16  the output is too short (place 0) */
szelmikra_answer szelmikra_read(uint64_t list, const uint8_t *file, size_t file_len, uint8_t *sheet, size_t sheet_len);

/* Writes a sheet as its canonical file. Refused in this order, place is the line of the sheet from 1:
 *    1  the list is above 16,383 (place 0)
 *   17  spelling or order of a sheet line
 *    8  Global kind or range
 *    9  directory field, also a number too wide for it        13  type 306
 *   10  directory reference
 *   14  layout                15  reference in a layout       18  wrong mark E, U, R or V
 *   19  the file would have more than 200,000 lines (place 0)
 *   16  the output is too short (place 0) */
szelmikra_answer szelmikra_write(uint64_t list, const uint8_t *sheet, size_t sheet_len, uint8_t *file, size_t file_len);

#ifdef __cplusplus
}
#endif

#endif
