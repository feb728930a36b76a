/* Calls on tables from C: refused calls change nothing, tables of another length and spoilt tables are refused, and the bytes of a table
 * that is taken come back as they were. */
#include <stdio.h>
#include <stdlib.h>
#include <string.h>
#include "topazfern.h"

static uint8_t table[TOPAZFERN_TABLE + 1], kept[TOPAZFERN_TABLE + 1];

static void expect(const char *what, unsigned is, unsigned must) {
    if (is != must) {
        printf("%s: %u, and not %u\n", what, is, must);
        exit(1);
    }
}

static void same(const char *what) {
    if (memcmp(table, kept, sizeof table)) {
        printf("%s: a byte changed\n", what);
        exit(1);
    }
}

/* every call on the table, with numbers that would be taken; answers whether all were refused by n and nothing changed */
static void all_refused(size_t length, uint8_t n) {
    size_t slot = 7, e = 7;
    uint8_t rule = 7, zero = 7, phase = 7, none = 7;
    int32_t power = 7;
    memcpy(kept, table, sizeof table);
    expect("new_bit", topazfern_table_new_bit(table, length, 9, &slot), n);
    expect("turn", topazfern_table_turn(table, length, 0, 0, 1), n);
    expect("scale", topazfern_table_scale(table, length, 1, 1), n);
    expect("tie", topazfern_table_tie(table, length, 1, 1), n);
    expect("sum", topazfern_table_sum(table, length, 0, &rule), n);
    expect("fix", topazfern_table_fix(table, length, 0, 1), n);
    expect("entry", topazfern_table_entry(table, length, 0, &zero, &power, &phase), n);
    expect("spread", topazfern_table_spread(table, length, &none, &e), n);
    same("all");
    expect("pointers", slot == 7 && e == 7 && rule == 7 && zero == 7 && phase == 7 && none == 7 && power == 7, 1);
}

int main(void) {
    size_t slot = 7;
    uint8_t rule = 7;
    memset(table, 0xA5, sizeof table);
    memcpy(kept, table, sizeof table);
    expect("fresh of another length", topazfern_table_fresh(table, TOPAZFERN_TABLE - 1), 13);
    same("fresh");
    all_refused(TOPAZFERN_TABLE, 12);
    all_refused(TOPAZFERN_TABLE - 1, 13);
    all_refused(TOPAZFERN_TABLE + 1, 13);
    all_refused(0, 13);
    expect("fresh", topazfern_table_fresh(table, TOPAZFERN_TABLE), 0);
    expect("the byte behind", table[TOPAZFERN_TABLE], 0xA5);
    for (size_t i = 0; i < TOPAZFERN_TABLE; i++) expect("a fresh table's byte", table[i], 0);
    for (size_t i = 0; i < 3; i++) {
        expect("new_bit", topazfern_table_new_bit(table, TOPAZFERN_TABLE, (uint16_t)(513 + i), &slot), 0);
        expect("slot", (unsigned)slot, (unsigned)i);
    }
    expect("live mask", table[4], 7);
    expect("label", table[1165] + 256 * table[1166], 513);
    expect("turn", topazfern_table_turn(table, TOPAZFERN_TABLE, 1, 1, 3), 0);
    expect("turns", table[13], 3);
    expect("sign", topazfern_table_turn(table, TOPAZFERN_TABLE, 1, 2, 2), 0);
    expect("row", table[76 + 16], 2);
    expect("scale", topazfern_table_scale(table, TOPAZFERN_TABLE, -3, 5), 0);
    expect("s", table[2] + 256 * table[3], 65533);
    expect("c", table[1], 5);
    expect("tie", topazfern_table_tie(table, TOPAZFERN_TABLE, 3, 1), 0);
    expect("tie count", table[588], 1);
    expect("mask", table[589], 3);
    expect("side", table[1101], 1);

    /* as a body of a book: 4 bytes, 3 turns, 3 rows, the tie count and a tie, read back by the calls on bodies */
    uint8_t area[64], zero = 7, phase = 7;
    int32_t power = 7;
    size_t bytes = 7;
    memset(area, 0xA5, sizeof area);
    expect("write, no room", topazfern_table_write(table, TOPAZFERN_TABLE, area, sizeof area, 24, &bytes), 13);
    expect("bytes where refused", (unsigned)bytes, 0);
    for (size_t i = 0; i < sizeof area; i++) expect("an area's byte", area[i], 0xA5);
    expect("write, no table", topazfern_table_write(area, sizeof area, area + 1, 0, 0, &bytes), 13);
    expect("write", topazfern_table_write(table, TOPAZFERN_TABLE, area, sizeof area, 23, &bytes), 0);
    expect("bytes", (unsigned)bytes, 41);
    expect("the byte before", area[22], 0xA5);
    expect("the body's entry", topazfern_entry(area + 23, bytes, 3, 1, &zero, &power, &phase), 0);
    expect("its amount", zero == 0 && power == -3 && phase == 5, 1);

    /* refused by the call itself */
    memcpy(kept, table, sizeof table);
    expect("label in use", topazfern_table_new_bit(table, TOPAZFERN_TABLE, 514, &slot), 17);
    expect("turn out of range", topazfern_table_turn(table, TOPAZFERN_TABLE, 1, 2, 1), 3);
    expect("slot not live", topazfern_table_turn(table, TOPAZFERN_TABLE, 64, 64, 1), 1);
    expect("power", topazfern_table_scale(table, TOPAZFERN_TABLE, INT32_MAX, 0), 5);
    expect("r", topazfern_table_tie(table, TOPAZFERN_TABLE, 1, 2), 3);
    expect("mask not live", topazfern_table_tie(table, TOPAZFERN_TABLE, 8, 1), 1);
    expect("sum", topazfern_table_sum(table, TOPAZFERN_TABLE, (size_t)-1, &rule), 1);
    expect("fix", topazfern_table_fix(table, TOPAZFERN_TABLE, 3, 0), 1);
    same("refused");
    expect("pointers", slot == 2 && rule == 7, 1);

    /* each byte spoilt in each way: a turn by nothing on slot 2 leaves what it takes byte for byte, and refuses the rest by 12 or 1 */
    unsigned taken = 0;
    for (size_t i = 0; i < TOPAZFERN_TABLE; i++) {
        uint8_t own = table[i];
        for (unsigned b = 0; b < 256; b++) {
            table[i] = (uint8_t)b;
            memcpy(kept, table, sizeof table);
            uint8_t n = topazfern_table_turn(table, TOPAZFERN_TABLE, 2, 2, 0);
            if (n != 0 && n != 12 && n != 1) expect("a spoilt table", n, 12);
            taken += n == 0;
            same("a spoilt table");
        }
        table[i] = own;
    }
    expect("tables taken", taken, 3164); /* counted by hand, field by field */
    return 0;
}
