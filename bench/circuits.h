// Pseudo-random circuits from a seed, the same on every machine.
#ifndef CIRCUITS_H
#define CIRCUITS_H

#include <stddef.h>
#include <stdint.h>

// The codes of document 01.
enum { GATE_CODES = 10 };
extern const uint8_t gate_codes[GATE_CODES];

// The next word of a stream (splitmix64).
uint64_t next_word(uint64_t *stream);

// So many gates on `width` wires, three bytes each: every code equally often, every wire too; on one wire only one-wire gates.
void fill_gates(uint64_t *stream, unsigned width, size_t count, uint8_t *gates);

// Every second of so many gates made one of this code, on any wires; two-wire codes ask for two wires.
void fill_every_second(uint64_t *stream, unsigned width, size_t count, uint8_t code, uint8_t *gates);

#endif
