"""The pseudo-random words that the programs of the gate draw, for the scripts that predict them."""

WORD = 2**64 - 1


def shifted(s):
    a = s ^ s << 13 & WORD
    b = a ^ a >> 7
    return b ^ b << 17 & WORD


def word(stream, at):
    a = shifted(stream ^ 0x9E3779B97F4A7C15) + at & WORD
    b = shifted(shifted(a))
    return shifted(shifted(shifted(b) + (a << 32 & WORD) & WORD))
