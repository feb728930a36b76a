// Exact amplitudes of Clifford circuits by the graph form: a method of its own, that shares nothing with the proved library.
#ifndef PLAIN_H
#define PLAIN_H

#include <stddef.h>
#include <stdint.h>

// An exact number: zero, or a power of root two with a phase in eighth turns (both 0 where it is zero).
struct amount {
    uint8_t zero;
    int32_t power;
    uint8_t phase;
};

// The amplitude of the gates (three bytes each) from the string `input` to `output`; answers 0, or document 01's number of refusal with nothing written.
uint8_t plain_amplitude(uint8_t width, uint32_t input, uint32_t output, const uint8_t *gates, size_t gates_length,
                        struct amount *result);

// The amplitudes of several outputs of the same circuit, which is run once; refuses as the single call does, with nothing written.
uint8_t plain_amplitudes(uint8_t width, uint32_t input, const uint32_t *outputs, size_t count, const uint8_t *gates,
                         size_t gates_length, struct amount *results);

// An output string whose amplitude is not zero, a different one for different bits of `choice`; the circuit must be one that is not refused.
uint32_t plain_reached(uint8_t width, uint32_t input, const uint8_t *gates, size_t gates_length, uint32_t choice);

#endif
