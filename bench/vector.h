// A whole state vector with exact entries, by the matrices of document 01: slow, and plain enough to be believed.
#ifndef VECTOR_H
#define VECTOR_H

#include <stdint.h>

#define VECTOR_WIDTH 8

// The coefficients of 1, ω, ω², ω³, with ω⁴ = −1.
struct value {
    int64_t of[4];
};

// 2^width times the state; so many times that every entry of a Clifford state is whole.
struct vector {
    unsigned width;
    struct value at[1 << VECTOR_WIDTH];
};

void vector_begin(struct vector *v, unsigned width, uint32_t input);

// Answers 0 where an entry would not be whole, which no circuit of document 01's gates comes to.
int vector_apply(struct vector *v, uint8_t code, unsigned first, unsigned second);

// 2^width · √2^power · ω^phase; the power must lie from −2·width to 0.
struct value vector_amount(unsigned width, int32_t power, unsigned phase);

int same_value(struct value a, struct value b);

#endif
