/* A small network laid out by hand: tables over bits that are turned, tied and summed, each entry printed as its rule gives it.
 *
 * The two halves of H are a new bit, the sign between the old bit and the new one, one over root two, and the sum over the old bit; CX is a
 * new bit with a tie. So three wires are a table whose live bits are the wires' ends, and its entries are the amplitudes. */
#include <stdio.h>
#include "topazfern.h"

static uint8_t table[TOPAZFERN_TABLE];

static void must(uint8_t refused) {
    if (refused) printf("refused %d\n", refused);
}

static size_t bit(uint16_t label) {
    size_t slot = 64;
    must(topazfern_table_new_bit(table, sizeof table, label, &slot));
    return slot;
}

static void turn(size_t u, size_t v, uint8_t k) { must(topazfern_table_turn(table, sizeof table, u, v, k)); }
static void scale(int32_t m, uint8_t p) { must(topazfern_table_scale(table, sizeof table, m, p)); }
static void tie(uint64_t mask, uint8_t r) { must(topazfern_table_tie(table, sizeof table, mask, r)); }

static void sum(size_t v) {
    static const char *const rules[] = {"none", "tied", "odd turn", "new tie", "free factor 2", "vanished"};
    uint8_t rule = 0;
    must(topazfern_table_sum(table, sizeof table, v, &rule));
    printf("sum over slot %zu: %s\n", v, rules[rule]);
}

static void entry(uint64_t x) {
    uint8_t zero, phase;
    int32_t power;
    uint8_t refused = topazfern_table_entry(table, sizeof table, x, &zero, &power, &phase);
    if (refused)
        printf("entry %llu: refused %d\n", (unsigned long long)x, refused);
    else if (zero)
        printf("entry %llu: zero\n", (unsigned long long)x);
    else
        printf("entry %llu: %d %d\n", (unsigned long long)x, power, phase);
}

static void spread(void) {
    uint8_t none;
    size_t e;
    must(topazfern_table_spread(table, sizeof table, &none, &e));
    if (none)
        printf("no entry is other than zero\n");
    else
        printf("entries other than zero: 2^%zu\n", e);
}

/* H: behind bit v comes a new one; the old one is summed. Answers the new slot. */
static size_t hadamard(size_t v, uint16_t label) {
    size_t w = bit(label);
    turn(v, w, 2);
    scale(-1, 0);
    sum(v);
    return w;
}

int main(void) {
    /* two wires from 0 0: a bit set to 0 by a tie, H on it, and CX by a second bit that is its equal */
    must(topazfern_table_fresh(table, sizeof table));
    size_t a = bit(100);
    tie(1u << a, 0);
    a = hadamard(a, 101);
    size_t b = bit(200);
    tie(1ull << a | 1ull << b, 0);
    printf("the ends of two wires are slots %zu and %zu\n", a, b);
    spread();
    entry(0);
    entry(1ull << a);
    entry(1ull << a | 1ull << b);

    /* a quarter turn on the first, H on it again: the bit stands in a tie, so the second bit takes its place */
    turn(a, a, 1);
    a = hadamard(a, 102);
    entry(1ull << b);
    entry(1ull << a | 1ull << b);

    /* the chain closed: each sum by its rule */
    sum(b);
    entry(0);
    entry(1ull << a);
    sum(a);
    entry(0);

    /* a bit with half a turn sums to nothing, and a label that is in use is refused */
    size_t c = bit(300);
    turn(c, c, 2);
    size_t slot = 64;
    printf("the label again: refused %d\n", topazfern_table_new_bit(table, sizeof table, 300, &slot));
    sum(c);
    spread();
    return 0;
}
