/* Drags the boundary between two rows of a log, as a finger would, and prints the sheet at the end.
 *
 * 4,000 mm of fine sand over 16,000 mm of clay; the boundary is dragged down to 6,000 mm in steps of 500 mm. Each step replaces both
 * rows, the lower one first so that the log never passes 60,000 mm, and says how many slices were kept. Dragged on to 16,000 mm it leaves
 * the tip in sand, which is refused until the sand's record comes along.
 */
#include "psamathyr.h"

#include <stdio.h>
#include <string.h>

/* the two rows, and what is lent */
typedef struct {
    psamathyr_row sand, clay;
    uint8_t log[PSAMATHYR_LOG_BYTES], pile[PSAMATHYR_PILE_BYTES], table[PSAMATHYR_TABLE_BYTES];
} desk;

static void packed_row(psamathyr_row fields, uint8_t bytes[PSAMATHYR_ROW_BYTES])
{
    /* a row's five bytes stand behind the count of a log that has just this row */
    psamathyr_log one;
    uint8_t log[PSAMATHYR_LOG_BYTES];
    memset(&one, 0, sizeof one);
    memset(log, 0, sizeof log);
    one.count = 1;
    one.rows[0] = fields;
    psamathyr_pack_log(one, log, sizeof log);
    memcpy(bytes, log + 1, PSAMATHYR_ROW_BYTES);
}

static void print_sheet(psamathyr_answer a, const uint8_t table[PSAMATHYR_TABLE_BYTES])
{
    printf("answer %u %u %u\n", a.refusal, a.row, a.field);
    if (a.refusal != 0)
        return;
    for (uint32_t place = 0; place < PSAMATHYR_PLACES; place++) {
        psamathyr_slice s = psamathyr_read_slice(table, PSAMATHYR_TABLE_BYTES, place);
        if (s.thickness == 0)
            break;
        printf("slice %u %u %u %u\n", s.top, s.thickness, s.friction, s.factor);
    }
    printf("total %llu %llu %llu %llu %llu\n", (unsigned long long)a.line, (unsigned long long)a.tip, (unsigned long long)a.shaft,
           (unsigned long long)a.capacity, (unsigned long long)a.uplift);
}

/* 0, or the refusal of a packing */
static uint32_t pack(desk *d)
{
    psamathyr_log rows;
    memset(&rows, 0, sizeof rows);
    rows.count = 2;
    rows.rows[0] = d->sand;
    rows.rows[1] = d->clay;
    psamathyr_answer a = psamathyr_pack_log(rows, d->log, sizeof d->log);
    if (a.refusal != 0)
        return a.refusal;

    psamathyr_pile p;
    memset(&p, 0, sizeof p);
    p.section = 1;
    p.a = 600;
    p.method = 1;
    p.head = 1000;
    p.tip = 10000;
    return psamathyr_pack_pile(p, d->pile, sizeof d->pile).refusal;
}

static psamathyr_answer replace(desk *d, psamathyr_sand record, uint32_t k, psamathyr_row fields)
{
    uint8_t row[PSAMATHYR_ROW_BYTES];
    packed_row(fields, row);
    return psamathyr_edit(d->log, sizeof d->log, d->pile, sizeof d->pile, record, d->table, sizeof d->table, PSAMATHYR_REPLACE, k, 0, row,
                          sizeof row);
}

static psamathyr_answer drag(desk *d, psamathyr_sand record, uint16_t by)
{
    d->clay.thickness -= by;
    replace(d, record, 2, d->clay);
    d->sand.thickness += by;
    psamathyr_answer a = replace(d, record, 1, d->sand);
    printf("boundary %u kept %u capacity %llu\n", d->sand.thickness, a.kept, (unsigned long long)a.capacity);
    return a;
}

int main(void)
{
    desk d = { .sand = { 4000, 2, 100, 95, 0 }, .clay = { 16000, 6, 130, 95, 0 } };
    psamathyr_sand none = { 0, 0, 0, 0 };
    /* 30 degrees, 10,000 N/m3 below the tip and 18,000 above it */
    psamathyr_sand record = { 1, 3000, 10000, 18000 };
    if (pack(&d) != 0)
        return 1;

    psamathyr_answer a = psamathyr_calculate(d.log, sizeof d.log, d.pile, sizeof d.pile, none, d.table, sizeof d.table);
    for (int step = 0; step < 4; step++)
        a = drag(&d, none, 500);
    print_sheet(a, d.table);

    print_sheet(drag(&d, none, 10000), d.table);
    a = psamathyr_calculate(d.log, sizeof d.log, d.pile, sizeof d.pile, record, d.table, sizeof d.table);
    print_sheet(a, d.table);
    drag(&d, record, 500);
    return 0;
}
