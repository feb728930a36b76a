#include "circuits.h"

const uint8_t gate_codes[GATE_CODES] = {1, 2, 3, 4, 5, 6, 7, 16, 17, 18};

uint64_t next_word(uint64_t *stream)
{
    uint64_t x = *stream += UINT64_C(0x9E3779B97F4A7C15);
    x = (x ^ x >> 30) * UINT64_C(0xBF58476D1CE4E5B9);
    x = (x ^ x >> 27) * UINT64_C(0x94D049BB133111EB);
    return x ^ x >> 31;
}

static unsigned below(uint64_t *stream, unsigned bound)
{
    return (unsigned)((next_word(stream) >> 32) * bound >> 32);
}

static void put_gate(uint64_t *stream, unsigned width, uint8_t code, unsigned first, uint8_t *gate)
{
    gate[0] = code;
    gate[1] = (uint8_t)first;
    gate[2] = code < 16 ? 0 : (uint8_t)((first + 1 + below(stream, width - 1)) % width);
}

void fill_gates(uint64_t *stream, unsigned width, size_t count, uint8_t *gates)
{
    for (size_t j = 0; j < count; j++) {
        unsigned first = below(stream, width);
        uint8_t code = gate_codes[below(stream, width < 2 ? 7 : GATE_CODES)];
        put_gate(stream, width, code, first, gates + 3 * j);
    }
}

void fill_every_second(uint64_t *stream, unsigned width, size_t count, uint8_t code, uint8_t *gates)
{
    for (size_t j = 0; j < count; j += 2)
        put_gate(stream, width, code, below(stream, width), gates + 3 * j);
}
