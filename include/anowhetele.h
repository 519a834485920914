/* Anowhetele: the nodes standing on a lot of a Luanti world, counted name by name, and what they cost.
 *
 * A buffer is two arguments, its pointer and its length in elements. No function keeps a pointer, has state or takes memory; each may be called from
 * any thread. What is left to the caller is C's own: a pointer is not NULL and good for its length, an output overlaps no other buffer, and
 * there is 1 MB of stack. */
#ifndef ANOWHETELE_H
#define ANOWHETELE_H

#include <stddef.h>
#include <stdint.h>

#ifdef __cplusplus
extern "C" {
#endif

/* The numbers that a call comes back with. A function that can refuse answers bad input with one of them, its record and its offset; all other
 * values are then 0. */
/* numbers: made by bindings/make from bindings/numbers.txt */
enum {
    ANOW_DONE = 0, /* done */
    ANOW_ENDS_INSIDE = 1, /* the bytes end inside a field, or an inventory has no end line */
    ANOW_VERSION_OUTSIDE = 2, /* the version is not 22 to 29 */
    ANOW_POSITION_ABOVE = 4, /* a position is above 4095 */
    ANOW_POSITION_TWICE = 5, /* a position stands in its list already */
    ANOW_ID_TWICE = 6, /* an id is mapped already */
    ANOW_BYTES_AFTER = 7, /* bytes follow the end of the block */
    ANOW_ID_UNMAPPED = 8, /* a node has an id that is not mapped to a name */
    ANOW_OUT_OF_RANGE = 9, /* a key or a coordinate is out of range */
    ANOW_BAD_PART = 10, /* the lot is out of the world or turned round, or the span is turned round */
    ANOW_NO_ROOM = 11, /* the result is longer than the output lent */
    ANOW_PARTS_MISFIT = 12, /* the parts do not fit */
    ANOW_TALLY_MALFORMED = 13, /* the tally is malformed */
    ANOW_TOO_MANY = 14, /* a count or a total is above 2^64-1, or there are more than 2^32-1 rows */
    ANOW_SHEET_MALFORMED = 15, /* the mark, the version or the framing of the sheet is wrong, or its keys do not rise */
    ANOW_NO_SUCH = 16, /* there is no such row or node */
    ANOW_CONTENT_WIDTH_DIFFERS = 31, /* the content width is not 1 up to version 23, or not 2 from version 24 */
    ANOW_PARAMS_WIDTH_DIFFERS = 32, /* the params width is not 2 */
    ANOW_METADATA_VERSION_DIFFERS = 33, /* the metadata list version is not 1 in version 22, not 0 or 1 in versions 23 to 27, or not 0 or 2 from version 28 */
    ANOW_PRIVATE_BYTE_DIFFERS = 34, /* the private byte of a metadata variable is not 0 or 1 */
    ANOW_TIMER_BYTE_DIFFERS = 35, /* the timer byte is not 0 in version 23, or not 0 or 1 in version 24 */
    ANOW_OBJECT_VERSION_DIFFERS = 36, /* the static object version is not 0 */
    ANOW_MAPPING_VERSION_DIFFERS = 37, /* the name mapping version is not 0 */
    ANOW_TIMER_ROW_LENGTH_DIFFERS = 38, /* the timer row length is not 10 */
    ANOW_RATES_MALFORMED = 40 /* the rate sheet is malformed */
};

/* The block's numbers: those that a block, or a row of one, is refused with. They alone have an offset, the place of the field that was refused,
 * from the first byte of the block or part. */
static inline int anow_has_offset(uint32_t number)
{
    switch (number) {
    case ANOW_ENDS_INSIDE:
    case ANOW_VERSION_OUTSIDE:
    case ANOW_POSITION_ABOVE:
    case ANOW_POSITION_TWICE:
    case ANOW_ID_TWICE:
    case ANOW_BYTES_AFTER:
    case ANOW_ID_UNMAPPED:
    case ANOW_CONTENT_WIDTH_DIFFERS:
    case ANOW_PARAMS_WIDTH_DIFFERS:
    case ANOW_METADATA_VERSION_DIFFERS:
    case ANOW_PRIVATE_BYTE_DIFFERS:
    case ANOW_TIMER_BYTE_DIFFERS:
    case ANOW_OBJECT_VERSION_DIFFERS:
    case ANOW_MAPPING_VERSION_DIFFERS:
    case ANOW_TIMER_ROW_LENGTH_DIFFERS:
        return 1;
    }
    return 0;
}

/* What a number means, in a line that can be read out. */
static inline const char *anow_words(uint32_t number)
{
    switch (number) {
    case ANOW_DONE: return "done";
    case ANOW_ENDS_INSIDE: return "the bytes end inside a field, or an inventory has no end line";
    case ANOW_VERSION_OUTSIDE: return "the version is not 22 to 29";
    case ANOW_POSITION_ABOVE: return "a position is above 4095";
    case ANOW_POSITION_TWICE: return "a position stands in its list already";
    case ANOW_ID_TWICE: return "an id is mapped already";
    case ANOW_BYTES_AFTER: return "bytes follow the end of the block";
    case ANOW_ID_UNMAPPED: return "a node has an id that is not mapped to a name";
    case ANOW_OUT_OF_RANGE: return "a key or a coordinate is out of range";
    case ANOW_BAD_PART: return "the lot is out of the world or turned round, or the span is turned round";
    case ANOW_NO_ROOM: return "the result is longer than the output lent";
    case ANOW_PARTS_MISFIT: return "the parts do not fit";
    case ANOW_TALLY_MALFORMED: return "the tally is malformed";
    case ANOW_TOO_MANY: return "a count or a total is above 2^64-1, or there are more than 2^32-1 rows";
    case ANOW_SHEET_MALFORMED: return "the mark, the version or the framing of the sheet is wrong, or its keys do not rise";
    case ANOW_NO_SUCH: return "there is no such row or node";
    case ANOW_CONTENT_WIDTH_DIFFERS: return "the content width is not 1 up to version 23, or not 2 from version 24";
    case ANOW_PARAMS_WIDTH_DIFFERS: return "the params width is not 2";
    case ANOW_METADATA_VERSION_DIFFERS: return "the metadata list version is not 1 in version 22, not 0 or 1 in versions 23 to 27, or not 0 or 2 from version 28";
    case ANOW_PRIVATE_BYTE_DIFFERS: return "the private byte of a metadata variable is not 0 or 1";
    case ANOW_TIMER_BYTE_DIFFERS: return "the timer byte is not 0 in version 23, or not 0 or 1 in version 24";
    case ANOW_OBJECT_VERSION_DIFFERS: return "the static object version is not 0";
    case ANOW_MAPPING_VERSION_DIFFERS: return "the name mapping version is not 0";
    case ANOW_TIMER_ROW_LENGTH_DIFFERS: return "the timer row length is not 10";
    case ANOW_RATES_MALFORMED: return "the rate sheet is malformed";
    }
    return "unknown";
}
/* end of numbers */

/* What a call comes back with. For the block's numbers the offset is where the field starts; record: the record of a sheet; length: the result's, on 0. */
typedef struct { uint32_t number; uint32_t record; uint64_t offset; uint64_t length; } anow_answer;
/* A run of the bytes that were given. */
typedef struct { uint64_t start; uint64_t length; } anow_part;

typedef struct { uint32_t number; int64_t key; } anow_key;
typedef struct { uint32_t number; int32_t x, y, z; } anow_coordinates;
typedef struct { uint32_t number; uint32_t inside; } anow_inside; /* inside: 0 or 1 */

/* Node coordinates, both ends inside: the least on each axis, then the greatest. A good lot lies in -32768..32767, least not above greatest. */
typedef struct { int32_t x0, y0, z0, x1, y1, z1; } anow_lot;
/* Seconds: from is inside, until is not. In a good span from is not above until. */
typedef struct { uint32_t from, until; } anow_span;

/* The forms of a metadata list. A counted one has its list version and its count before the rows. From version 23 on a list of no rows may also be list
 * version 0, a single 0 with no count; its section is empty and starts behind the 0. */
enum { ANOW_LIST_COUNTED = 0, ANOW_LIST_ZERO = 1 };
/* Lighting is 65,535 under version 27, the timer byte 0 except in 24, the list form ANOW_LIST_COUNTED in version 22 and where there are metadata
 * rows. */
typedef struct { uint8_t version, flags; uint16_t lighting; uint32_t timestamp; uint8_t timer_byte, list_form; } anow_head;
/* A block's head, and where the rows of its lists stand in the bytes that were given. */
typedef struct { anow_answer answer; anow_head head; anow_part names, metadata, objects, timers; } anow_block;
typedef struct { anow_answer answer; anow_part name; } anow_node;

/* A row at the front of a section: answer.length is its length, and parts and offsets count from the part's first byte. The rows behind it
 * start at that length. */
typedef struct { anow_answer answer; uint32_t id; anow_part name; } anow_name_row;
/* Type and content are version 22's; the number of variables, their rows and the inventory stand from 23 on. The others are 0. */
typedef struct { anow_answer answer; uint32_t position, type, variables; anow_part content, variable_rows, inventory; } anow_metadata_row;
typedef struct { anow_answer answer; uint32_t type; int32_t x, y, z; anow_part data; } anow_object_row;
typedef struct { anow_answer answer; uint32_t position; int32_t timeout, elapsed; } anow_timer_row;

/* What nodes cost, in thousandths, and how many of them have no price. answer.length is 0. */
typedef struct { anow_answer answer; uint64_t total; uint64_t unpriced; } anow_bill;

#ifdef __cplusplus
#define ANOW_VALUE(type) type
#else
#define ANOW_VALUE(type) (type)
#endif
#define ANOW_WHOLE_WORLD (ANOW_VALUE(anow_lot){ -32768, -32768, -32768, 32767, 32767, 32767 })
#define ANOW_ALL_TIME (ANOW_VALUE(anow_span){ 0, 0xffffffffu })

/* The key of a block's coordinates, each -2048..2047. Refused: 9. */
anow_key anow_key_join(int32_t x, int32_t y, int32_t z);
/* The coordinates of a key. Refused: 9. */
anow_coordinates anow_key_split(int64_t key);
/* Whether a lot has a node. Refused: 10. */
anow_inside anow_lot_has(anow_lot lot, int32_t x, int32_t y, int32_t z);
/* Whether a span has a second; 0xffffffff lies in none. Refused: 10. */
anow_inside anow_span_has(anow_span span, uint32_t second);

/* How many of the low twelve lighting bits are zero. */
uint32_t anow_light_count(uint16_t lighting);
/* Reads an unpacked block into three lists of 4,096 each, and tells its head and its sections; a refusal leaves the lists as they were.
 * Refused: 12 for a list not of 4,096, then the block's numbers. */
anow_block anow_read(const uint8_t *block, size_t length, uint16_t *param0, size_t length0, uint8_t *param1, size_t length1, uint8_t *param2, size_t length2);
/* The same without the lists. Refused: the block's numbers. */
anow_block anow_sections(const uint8_t *block, size_t length);
/* Where the name of the node at an index, 256*z + 16*y + x, stands in the block. Refused: the block's numbers, then 16 for an index above
 * 4095. */
anow_node anow_node_name(const uint8_t *block, size_t length, uint64_t index);
/* The front row of a part, judged alone. Refused: 16 for an empty part, then 1. */
anow_name_row anow_row_name(const uint8_t *part, size_t length);
/* Refused: 2, 16, then 1, 4 or 34. */
anow_metadata_row anow_row_metadata(uint8_t version, const uint8_t *part, size_t length);
/* Refused: 16, then 1. */
anow_object_row anow_row_object(const uint8_t *part, size_t length);
/* Refused: 16, then 1 or 4. */
anow_timer_row anow_row_timer(const uint8_t *part, size_t length);
/* Writes the block that a head, three lists of 4,096 each and the rows of four sections make to the front of out; counts are worked out from the rows.
 * A refusal leaves out as it was. Refused: 2; 12 where the parts do not fit, also for ANOW_LIST_ZERO in version 22 or with metadata rows, and for a
 * list form that is neither; what the reader would say of the bytes, at its place in them (4, 5, 6, 8, 34 or 35); 11. */
anow_answer anow_write(anow_head head, const uint16_t *param0, size_t length0, const uint8_t *param1, size_t length1, const uint8_t *param2, size_t length2,
                       const uint8_t *names, size_t names_length, const uint8_t *metadata, size_t metadata_length,
                       const uint8_t *objects, size_t objects_length, const uint8_t *timers, size_t timers_length, uint8_t *out, size_t room);

/* Whether bytes are a tally: TLY, u16 1, u32 number of rows, rows of u16 length, name and u64 count, in the order of the names. Refused: 13. */
anow_answer anow_tally_check(const uint8_t *tally, size_t length);
/* Adds a count to a name in the tally that the first `used` bytes of a buffer are, and tells its length after; a new row opens its place and
 * the rows behind it move back. Adding 0 changes nothing. A refusal leaves the buffer as it was. Refused: 12 for a name above 65,535 bytes; 13,
 * also for a `used` beyond the buffer; 14; 11. */
anow_answer anow_tally_add(uint8_t *buffer, size_t room, uint64_t used, const uint8_t *name, size_t length, uint64_t count);
/* Writes the sum of two tallies to the front of out. A refusal leaves out as it was. Refused: 13; 14; 11. */
anow_answer anow_tally_merge(const uint8_t *a, size_t a_length, const uint8_t *b, size_t b_length, uint8_t *out, size_t room);

/* Tallies the nodes of the block at a key that stand in a lot, if the block was saved within a span, to the front of out. A refusal leaves out as
 * it was. Refused: 10; 9; the block's numbers; 11. */
anow_answer anow_tally_block(int64_t key, const uint8_t *block, size_t length, anow_lot lot, anow_span span, uint8_t *out, size_t room);
/* The same of a sheet: WSH, u16 1, u32 number of records, records of s64 key, u32 length and block, with rising keys. The spare is at least as long as
 * out and does not overlap it; what it holds afterwards is open, also after a refusal. A refusal leaves out as it was; the answer's record is that of
 * the fault, or the number of records for trailing bytes, 11 and 14. Refused: 10; 12 for a short spare; 15; by record 15, 9, 15 and the block's
 * numbers, with the offset from the block's first byte; 11; 14. */
anow_answer anow_tally_sheet(const uint8_t *sheet, size_t length, anow_lot lot, anow_span span, uint8_t *out, size_t room, uint8_t *spare, size_t spare_length);

/* Whether bytes are a rate sheet: RTE, u16 1, u32 number of rates, rates of u16 length, name, u32 from-second and u32 price in thousandths for each
 * node, in the order of the names, and of one name in the order of the seconds. Refused: 40. */
anow_answer anow_rates_check(const uint8_t *rates, size_t rates_length);
/* Prices the nodes of the block at a key that stand in a lot, if the block was saved within a span. A node costs the price of the rate of its name with
 * the greatest from-second not above the block's timestamp; a price of 0 is a price. A node with no such rate is unpriced. Refused: 10; 40; 9;
 * the block's numbers. */
anow_bill anow_price_block(int64_t key, const uint8_t *block, size_t block_length, const uint8_t *rates, size_t rates_length, anow_lot lot, anow_span span);
/* The same of a sheet. The answer's record is that of the fault, or the number of records for trailing bytes and 14. Refused: 10; 40; 15; by record 15,
 * 9, 15 and the block's numbers, with the offset from the block's first byte; 14 for a total above 2^64-1. */
anow_bill anow_price_sheet(const uint8_t *sheet, size_t sheet_length, const uint8_t *rates, size_t rates_length, anow_lot lot, anow_span span);

#ifdef __cplusplus
}
#endif

#endif
