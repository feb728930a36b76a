// Tests of plain.c.
//     check vectors          narrow circuits, every amplitude against a whole state vector
//     check book SEED        a book of pseudo-random circuits of any width, to standard output
//     check listing SEED     what plain.c says that its listing is
#include "circuits.h"
#include "plain.h"
#include "vector.h"

#include <stdio.h>
#include <stdlib.h>
#include <string.h>

enum { NARROW_CIRCUITS = 20000, LONGEST = 120, BODIES = 16, BOOK_BYTES = 60000, BODY_GATES = 1240 };

// Whether plain.c gives this entry of the vector.
static int agrees(const struct vector *v, unsigned width, uint32_t input, uint32_t output, const uint8_t *gates,
                  size_t count, unsigned long *zeros)
{
    static const struct value nothing;
    struct amount a;
    if (plain_amplitude((uint8_t)width, input, output, gates, 3 * count, &a) != 0)
        return 0;
    if (a.zero) {
        *zeros += 1;
        return same_value(v->at[output], nothing) && a.power == 0 && a.phase == 0;
    }
    if (a.power > 0 || a.power < -2 * (int32_t)width || a.phase > 7)
        return 0;
    return same_value(v->at[output], vector_amount(width, a.power, a.phase));
}

static int one_circuit(uint64_t *stream, struct vector *v, unsigned long *amplitudes, unsigned long *zeros)
{
    uint8_t gates[3 * LONGEST];
    unsigned width = 1 + (unsigned)(next_word(stream) % VECTOR_WIDTH);
    size_t count = next_word(stream) % (LONGEST + 1);
    uint32_t input = (uint32_t)(next_word(stream) & ((UINT64_C(1) << width) - 1));
    fill_gates(stream, width, count, gates);
    vector_begin(v, width, input);
    for (size_t j = 0; j < count; j++)
        if (!vector_apply(v, gates[3 * j], gates[3 * j + 1], gates[3 * j + 2]))
            return 0;
    for (uint32_t output = 0; output >> width == 0; output++, *amplitudes += 1)
        if (!agrees(v, width, input, output, gates, count, zeros))
            return 0;
    struct amount a;
    uint32_t reached = plain_reached((uint8_t)width, input, gates, 3 * count, (uint32_t)next_word(stream));
    return reached >> width == 0 && plain_amplitude((uint8_t)width, input, reached, gates, 3 * count, &a) == 0 && !a.zero;
}

static int vectors(void)
{
    static struct vector v;
    uint64_t stream = 4;
    unsigned long amplitudes = 0, zeros = 0;
    for (int i = 0; i < NARROW_CIRCUITS; i++) {
        if (!one_circuit(&stream, &v, &amplitudes, &zeros)) {
            printf("circuit %d differs from its state vector\n", i);
            return 1;
        }
    }
    printf("%d circuits, %lu amplitudes (%lu zero): all as in their state vectors\n", NARROW_CIRCUITS, amplitudes, zeros);
    return 0;
}

struct body {
    unsigned width;
    size_t count;
    uint32_t input, output;
    uint8_t gates[3 * BODY_GATES];
};

// Two outputs in three are ones that are reached, since most strings of a wide circuit are not.
static void fill_body(uint64_t *stream, struct body *b)
{
    b->width = 1 + (unsigned)(next_word(stream) % 31);
    b->count = next_word(stream) % (next_word(stream) % 2 ? BODY_GATES + 1 : 100);
    uint32_t strings = (UINT32_C(1) << b->width) - 1;
    b->input = (uint32_t)next_word(stream) & strings;
    fill_gates(stream, b->width, b->count, b->gates);
    uint32_t choice = (uint32_t)next_word(stream);
    b->output = next_word(stream) % 3 == 0
                    ? choice & strings
                    : plain_reached((uint8_t)b->width, b->input, b->gates, 3 * b->count, choice);
}

static void put(uint8_t *at, unsigned bytes, uint32_t number)
{
    for (unsigned i = 0; i < bytes; i++)
        at[i] = (uint8_t)(number >> 8 * i);
}

static void book(uint64_t *stream)
{
    static uint8_t bytes[BOOK_BYTES] = {0x51, 0x4E, 1, BODIES};
    static struct body b;
    size_t start = 4 + 8 * BODIES;
    for (unsigned j = 0; j < BODIES; j++) {
        fill_body(stream, &b);
        uint8_t *entry = bytes + 4 + 8 * j;
        entry[0] = 1;
        entry[1] = (uint8_t)b.width;
        put(entry + 2, 2, (uint32_t)(8 + 3 * b.count));
        put(entry + 4, 4, (uint32_t)start);
        put(bytes + start, 4, b.input);
        put(bytes + start + 4, 4, b.output);
        memcpy(bytes + start + 8, b.gates, 3 * b.count);
        start += 8 + 3 * b.count;
    }
    fwrite(bytes, 1, start, stdout);
}

static void listing(uint64_t *stream)
{
    static struct body b;
    printf("book %d\n", BODIES);
    for (unsigned j = 0; j < BODIES; j++) {
        struct amount a;
        fill_body(stream, &b);
        uint8_t number = plain_amplitude((uint8_t)b.width, b.input, b.output, b.gates, 3 * b.count, &a);
        if (number != 0)
            printf("%u refused by %u\n", j, number);
        else if (a.zero)
            printf("%u C zero\n", j);
        else
            printf("%u C %d %u\n", j, a.power, a.phase);
    }
}

int main(int argc, char **argv)
{
    if (argc == 2 && strcmp(argv[1], "vectors") == 0)
        return vectors();
    uint64_t stream = argc == 3 ? strtoull(argv[2], NULL, 10) : 0;
    if (argc == 3 && strcmp(argv[1], "book") == 0)
        book(&stream);
    else if (argc == 3 && strcmp(argv[1], "listing") == 0)
        listing(&stream);
    else
        return 2;
    return 0;
}
