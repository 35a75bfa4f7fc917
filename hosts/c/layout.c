/* Sizes and offsets of every struct of include/psamathyr.h, asserted where this file is compiled; it makes no program.
 * hosts/door/src/layout.rs asserts the same of the structs for Rust. */
#include "psamathyr.h"

#define SIZE(type, bytes) _Static_assert(sizeof(type) == (bytes), "size of " #type)
#define OFFSET(type, field, bytes) _Static_assert(offsetof(type, field) == (bytes), "offset of " #field " in " #type)

SIZE(psamathyr_answer, 56);
OFFSET(psamathyr_answer, refusal, 0);
OFFSET(psamathyr_answer, row, 4);
OFFSET(psamathyr_answer, field, 8);
OFFSET(psamathyr_answer, kept, 12);
OFFSET(psamathyr_answer, line, 16);
OFFSET(psamathyr_answer, tip, 24);
OFFSET(psamathyr_answer, shaft, 32);
OFFSET(psamathyr_answer, capacity, 40);
OFFSET(psamathyr_answer, uplift, 48);

SIZE(psamathyr_row, 6);
OFFSET(psamathyr_row, thickness, 0);
OFFSET(psamathyr_row, kind, 2);
OFFSET(psamathyr_row, index, 3);
OFFSET(psamathyr_row, saturation, 4);
OFFSET(psamathyr_row, zero, 5);

SIZE(psamathyr_log, 400);
OFFSET(psamathyr_log, refusal, 0);
OFFSET(psamathyr_log, row, 4);
OFFSET(psamathyr_log, field, 8);
OFFSET(psamathyr_log, count, 12);
OFFSET(psamathyr_log, rows, 14);
OFFSET(psamathyr_log, rows[1], 20);

SIZE(psamathyr_pile, 28);
OFFSET(psamathyr_pile, refusal, 0);
OFFSET(psamathyr_pile, row, 4);
OFFSET(psamathyr_pile, field, 8);
OFFSET(psamathyr_pile, length, 12);
OFFSET(psamathyr_pile, section, 13);
OFFSET(psamathyr_pile, a, 14);
OFFSET(psamathyr_pile, b, 16);
OFFSET(psamathyr_pile, method, 18);
OFFSET(psamathyr_pile, head, 20);
OFFSET(psamathyr_pile, tip, 22);
OFFSET(psamathyr_pile, zero, 24);
OFFSET(psamathyr_pile, grade, 26);

SIZE(psamathyr_sand, 16);
OFFSET(psamathyr_sand, given, 0);
OFFSET(psamathyr_sand, angle, 4);
OFFSET(psamathyr_sand, weight_below, 8);
OFFSET(psamathyr_sand, weight_above, 12);

SIZE(psamathyr_slice, 16);
OFFSET(psamathyr_slice, refusal, 0);
OFFSET(psamathyr_slice, top, 4);
OFFSET(psamathyr_slice, thickness, 6);
OFFSET(psamathyr_slice, friction, 8);
OFFSET(psamathyr_slice, factor, 12);

/* What is lent is as long as the records that it holds. */
_Static_assert(sizeof(((psamathyr_log *)0)->rows) == PSAMATHYR_ROWS * sizeof(psamathyr_row), "rows of psamathyr_log");
_Static_assert(PSAMATHYR_LOG_BYTES == 1 + PSAMATHYR_ROWS * PSAMATHYR_ROW_BYTES, "bytes of a log");
_Static_assert(PSAMATHYR_GRADED_PILE_BYTES == PSAMATHYR_PILE_BYTES + sizeof(int16_t), "bytes of a pile record with a grade");
_Static_assert(PSAMATHYR_TABLE_BYTES == PSAMATHYR_PLACES * 7, "bytes of a slice table");
