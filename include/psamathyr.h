/* Psamathyr: the door for hosts. One static library, libpsamathyr.a, for x86-64 and 64-bit Arm (tools/libraries).
 *
 * Every call replies, whatever it is lent: a refusal number from the list below with its row and field, or the numbers. A null pointer
 * needs length 0. The pieces of one call must not overlap. Nothing is stored between calls, nothing is allocated, and calls from
 * several threads on different buffers do not meet.
 *
 * A pile record has 8 bytes or, with the grade of its site, 10; calls take both. Depths count from natural ground. The tables are read at
 * depths that a cut of over 3,000 mm lowers, and a fill of over 3,000 mm raises, by what it has over 3,000 mm.
 *
 * Where sand (kinds 1 to 3) stands just below the tip, a calculation or an edit needs a psamathyr_sand besides, and a circle; over clay it
 * is not looked at.
 *
 * Refusals: 1 a lent piece has the wrong length, or a grade other than 0 is to be packed to 8 bytes; 2 count 0 or over 64, or an unused
 * row place not zero; 3 a row's field out of range (row and field given); 4 log over 60,000 mm; 5 section kind, a, b or zero bits wrong
 * (field 1 to 4); 6 method wrong; 7 head not above tip, tip under 3,000 or over 40,000 mm, head above the cut level, or tip's depth as read
 * over 40,000 mm; 8 log ends less than 5,000 mm below the tip; 9 a sand tip without its record or in a rectangle; 10 seat too short;
 * 11 tip liquidity index over 0.60; 12 a dash of the tip table would be read; 13 no such edit, row or split point; 14 no place for another
 * row; 17, asked after 10, the record of a sand tip out of range (angle times 0.9 under 23 or over 39 degrees, a unit weight of 0 or over
 * 30,000 N/m3), or its tip less than 4 diameters below natural ground or, where that is cut, below the cut level. 11 and 12 are asked of
 * clay tips alone. 0 is no refusal.
 */
#ifndef PSAMATHYR_H
#define PSAMATHYR_H

#include <stddef.h>
#include <stdint.h>

#ifdef __cplusplus
extern "C" {
#endif

enum {
    PSAMATHYR_LOG_BYTES = 321,
    PSAMATHYR_PILE_BYTES = 8,
    PSAMATHYR_GRADED_PILE_BYTES = 10,
    PSAMATHYR_TABLE_BYTES = 581,
    PSAMATHYR_ROW_BYTES = 5,
    PSAMATHYR_ROWS = 64,
    PSAMATHYR_PLACES = 83
};

/* kinds of edit */
enum { PSAMATHYR_REPLACE = 1, PSAMATHYR_INSERT = 2, PSAMATHYR_REMOVE = 3, PSAMATHYR_SPLIT = 4 };

/* line in N per metre of perimeter, the other four in N; kept is 0 but for edits */
typedef struct {
    uint32_t refusal, row, field, kept;
    uint64_t line, tip, shaft, capacity, uplift;
} psamathyr_answer;

/* thickness in mm; index as stored: hundredths plus 100; saturation in hundredths */
typedef struct {
    uint16_t thickness;
    uint8_t kind, index, saturation, zero;
} psamathyr_row;

typedef struct {
    uint32_t refusal, row, field;
    uint8_t count;
    psamathyr_row rows[64];
} psamathyr_log;

/* length of the record that was read, 8 or 10; section 1 circle (a the diameter, b 0), 2 rectangle; method 1 to 3; all depths in mm;
 * grade in mm: a cut negative, a fill positive, 0 where the record has 8 bytes */
typedef struct {
    uint32_t refusal, row, field;
    uint8_t length, section;
    uint16_t a, b;
    uint8_t method;
    uint16_t head, tip;
    uint8_t zero;
    int16_t grade;
} psamathyr_pile;

/* the extra record of a sand tip. given 0: none, and the rest is not looked at; any other number: the friction angle below the tip in
 * hundredths of a degree, and two unit weights in N/m3, of the soil below the tip and the mean of the soils above it. All zero but given is
 * a record out of range (17), none is refusal 9. */
typedef struct {
    uint32_t given, angle, weight_below, weight_above;
} psamathyr_sand;

/* top and thickness in mm, friction in 1/200 Pa, factor in tenths */
typedef struct {
    uint32_t refusal;
    uint16_t top, thickness;
    uint32_t friction;
    uint8_t factor;
} psamathyr_slice;

/* Fills the table, or zeroes it (refusals 5 to 12 and 17), or leaves it (1 to 4). */
psamathyr_answer psamathyr_calculate(const uint8_t *log, size_t log_len, const uint8_t *pile, size_t pile_len, psamathyr_sand sand,
                                     uint8_t *table, size_t table_len);

/* k names a row from 1; x is the split point in mm; row is the new row's five bytes. What a kind does not use is not looked at.
 * Refused by 1 to 4, 13 or 14 it changes nothing; else the log holds the edit and the table is filled or, under 5 to 12 and 17, zeroed. */
psamathyr_answer psamathyr_edit(uint8_t *log, size_t log_len, const uint8_t *pile, size_t pile_len, psamathyr_sand sand,
                                uint8_t *table, size_t table_len, uint32_t kind, uint32_t k, uint32_t x,
                                const uint8_t *row, size_t row_len);

/* A refused reading gives zero fields, the length of a pile record among them. */
psamathyr_log psamathyr_read_log(const uint8_t *log, size_t log_len);
psamathyr_pile psamathyr_read_pile(const uint8_t *pile, size_t pile_len);

/* place from 0; past the last: all zero */
psamathyr_slice psamathyr_read_slice(const uint8_t *table, size_t table_len, uint32_t place);

/* Looks at count and rows only, or at section to grade only: a pile record is packed to as many bytes as are lent. A refused packing
 * changes no byte. Replies with refusal, row and field. */
psamathyr_answer psamathyr_pack_log(psamathyr_log fields, uint8_t *log, size_t log_len);
psamathyr_answer psamathyr_pack_pile(psamathyr_pile fields, uint8_t *pile, size_t pile_len);

#ifdef __cplusplus
}
#endif

#endif
