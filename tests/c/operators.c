/* Circuits compared: the worked pairs by hand, refusals in their order, and nothing changed where a call is refused. */
#include <stdio.h>
#include <string.h>

#include "topazfern.h"

enum { DIFFER = -1, UNTOUCHED = 9 };

struct circuit {
    uint8_t edition, width, gates[16];
    size_t length;
};

/* Two circuits, and the turns from the first to the second, DIFFER, or minus 10 and the number of refusal. */
struct pair {
    const char *name;
    struct circuit first, second;
    int expected;
};

#define REFUSED(n) (-10 - (n))

static const struct pair pairs[] = {
    {"H, H and nothing", {1, 1, {1, 0, 0, 1, 0, 0}, 6}, {1, 1, {0}, 0}, 0},
    {"three CX and SWAP", {1, 2, {17, 0, 1, 17, 1, 0, 17, 0, 1}, 9}, {2, 2, {18, 0, 1}, 3}, 0},
    {"H, S, H and SX of edition 1", {1, 1, {1, 0, 0, 2, 0, 0, 1, 0, 0}, 9}, {1, 1, {7, 0, 0}, 3}, 0},
    {"SX of edition 2 and of edition 1", {2, 1, {7, 0, 0}, 3}, {1, 1, {7, 0, 0}, 3}, 1},
    {"SX of edition 1 and of edition 2", {1, 1, {7, 0, 0}, 3}, {2, 1, {7, 0, 0}, 3}, 7},
    {"X, Z and Z, X", {1, 1, {5, 0, 0, 4, 0, 0}, 6}, {1, 1, {4, 0, 0, 5, 0, 0}, 6}, 4},
    {"Z, X and Y", {1, 1, {4, 0, 0, 5, 0, 0}, 6}, {1, 1, {6, 0, 0}, 3}, 2},
    {"H and S", {1, 1, {1, 0, 0}, 3}, {1, 1, {2, 0, 0}, 3}, DIFFER},
    {"element 3 and its letters", {2, 1, {35, 0, 0}, 3}, {2, 1, {1, 0, 0, 2, 0, 0}, 6}, 0},
    {"a block and nothing", {2, 1, {64, 4, 0, 2, 0, 0, 65, 0, 0}, 9}, {2, 1, {0}, 0}, 0},
    {"unequal widths", {1, 1, {1, 0, 0}, 3}, {1, 2, {1, 0, 0}, 3}, REFUSED(6)},
    {"the second's own before the widths", {1, 1, {1, 0, 0}, 3}, {1, 2, {9, 0, 0}, 3}, REFUSED(7)},
    {"the first's before the second's", {1, 1, {1, 1, 0}, 3}, {1, 2, {9, 0, 0}, 3}, REFUSED(6)},
    {"an edition", {3, 1, {1, 0}, 2}, {1, 1, {1, 0, 0}, 3}, REFUSED(9)},
    {"gate bytes not in threes", {1, 1, {1, 0}, 2}, {4, 1, {1, 0, 0}, 3}, REFUSED(11)},
    {"a width", {1, 0, {1, 0, 0}, 3}, {1, 32, {1, 0, 0}, 3}, REFUSED(6)},
    {"a block unclosed", {2, 1, {64, 2, 0, 1, 0, 0}, 6}, {1, 1, {9, 0, 0}, 3}, REFUSED(16)},
};

static int judged(const struct pair *p)
{
    const struct circuit *a = &p->first, *b = &p->second;
    uint8_t same = UNTOUCHED, aligned = UNTOUCHED, phase = UNTOUCHED;
    uint8_t n = topazfern_same(a->edition, a->width, a->gates, a->length, b->edition, b->width, b->gates, b->length, &same);
    uint8_t m = topazfern_common_phase(a->edition, a->width, a->gates, a->length, b->edition, b->width, b->gates, b->length, &aligned, &phase);

    if (p->expected <= REFUSED(0))
        return n == REFUSED(0) - p->expected && m == n && same == UNTOUCHED && aligned == UNTOUCHED && phase == UNTOUCHED;
    if (n != 0 || m != 0 || same != (p->expected == 0))
        return 0;
    return p->expected == DIFFER ? aligned == 0 && phase == 0 : aligned == 1 && phase == p->expected;
}

/* The table of H by hand: slots 0 and 1 live, a sign between them, power -1, labels 0 and 1. */
static int table_of_h(void)
{
    static const uint8_t h[] = {1, 0, 0};
    uint8_t table[TOPAZFERN_TABLE], expected[TOPAZFERN_TABLE] = {0}, kept[TOPAZFERN_TABLE];

    expected[2] = expected[3] = 0xFF;
    expected[4] = 3;
    expected[76] = 2;
    expected[84] = 1;
    expected[1167] = 1;
    memset(table, UNTOUCHED, sizeof table);
    memset(kept, UNTOUCHED, sizeof kept);
    if (topazfern_operator(1, 1, h, 3, table, sizeof table - 1) != 13 || topazfern_operator(1, 1, h, 2, table, 7) != 11)
        return 0;
    if (topazfern_operator(3, 1, h, 3, table, sizeof table) != 9 || memcmp(table, kept, sizeof table) != 0)
        return 0;
    return topazfern_operator(1, 1, h, 3, table, sizeof table) == 0 && memcmp(table, expected, sizeof table) == 0;
}

int main(void)
{
    if (!table_of_h()) {
        printf("operators: the table of H\n");
        return 1;
    }
    for (size_t k = 0; k < sizeof pairs / sizeof *pairs; k++)
        if (!judged(&pairs[k])) {
            printf("operators: %s\n", pairs[k].name);
            return 1;
        }
    return 0;
}
