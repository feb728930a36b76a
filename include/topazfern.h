/* Topazfern for programs in C: exact amplitudes, listings and table bodies, over numbers and bytes.
 *
 * Link with libtopazfern.a (x86-64-v2 Linux): in crates/topazfern rt lib; cc program.c crates/topazfern/out/libtopazfern.a
 *
 * Each call takes any bytes and any numbers, ends, keeps nothing and calls nothing back. A call that answers a number of
 * refusal (1..17, below) has changed nothing behind its pointers, but that a writer sets *bytes, and an edit *new_length, to 0. The caller owes what C
 * cannot check: each pointer is valid for its length (a length of 0 may come with any pointer that is not null), and no two
 * of a call's pointers overlap where one of them is written through. Calls may run at the same time on different memory.
 *
 * No call hands a table over, so none takes or shows a label: a table is read as from label 0 on.
 *
 * An amount stands behind three pointers: *zero is 1 where it is 0 (then *power and *phase are 0); else *zero is 0 and the
 * amount is the square root of two to *power, turned by *phase eighths (0..7).
 */
#ifndef TOPAZFERN_H
#define TOPAZFERN_H

#include <stddef.h>
#include <stdint.h>

#ifdef __cplusplus
extern "C" {
#endif

/* Numbers of refusal, as documents 01 and 02 have them; 0 is none. */
enum {
    TOPAZFERN_ACCEPTED = 0,
    TOPAZFERN_NOT_LIVE = 1,      /* an assignment, a mask or a slot has a bit that is not live */
    TOPAZFERN_TWICE = 2,         /* a gate names the same wire twice; no call on a table has it */
    TOPAZFERN_RANGE = 3,         /* a turn above 3, or odd on two slots, a phase above 7 or an r above 1 in a call on a table; second byte of a
                                    one-wire gate not 0; a block's count of 0, or a stray byte of its marks; an outcome that is neither 0 nor 1;
                                    number of a one-wire element above 23 */
    TOPAZFERN_FULL = 4,          /* all 64 slots of a table are live */
    TOPAZFERN_POWER = 5,         /* the result is not zero and its power of root two is below -2,000 or above 2,000 */
    TOPAZFERN_WIDTH = 6,         /* width of a circuit not 1..31, or a wire not below it; two circuits to compare of unequal widths */
    TOPAZFERN_CODE = 7,          /* unknown gate code */
    TOPAZFERN_STRING = 8,        /* a string has a bit at or above the width */
    TOPAZFERN_HEADER = 9,        /* a book's length, letters, edition or count; an edition other than 1 or 2; a list to lay of more than 16; a seventeenth body */
    TOPAZFERN_CONTENTS = 10,     /* a book's contents; lists to lay unequal, bad kind, or total above 60,000; the same of an edit */
    TOPAZFERN_BODY = 11,         /* body length wrong, more than 4,096 gates and marks, or elements to close, or a field out of range; a tableau's
                                    count of rows, or a bit at or above twice the width */
    TOPAZFERN_NOT_NORMAL = 12,   /* a table that is not normal */
    TOPAZFERN_ROOM = 13,         /* the area or list is too short for what is to be written, or the start or a stated length is beyond its end;
                                    the bytes of a table are not TOPAZFERN_TABLE */
    TOPAZFERN_NO_BODY = 14,      /* no body of that number */
    TOPAZFERN_MANY_BITS = 15,    /* more than 20 live bits, where every path is added up */
    TOPAZFERN_BLOCK = 16,        /* a block unclosed, empty or unopened, more than 8 deep, or more than 65,536 gates written out */
    TOPAZFERN_LABEL = 17         /* a label that a live bit has already */
};

/* The longest listing, and the longest listing of paths. */
#define TOPAZFERN_LISTING_MAX 312
#define TOPAZFERN_PATHS_MAX 888

/* The bytes of a table. */
#define TOPAZFERN_TABLE 1293

/* The amplitude of a circuit: three bytes for each gate, bit i of a string is wire i. In edition 1 code 7 is H S H, in edition 2 the
 * rotation with rows (1, -i) and (-i, 1) over the square root of two. In edition 2 the bytes 64, n, 0 open a block that is run n
 * times (1..255), and 65, 0, 0 close it; blocks hold gates and blocks. Nothing is written out: 65,536 gates need no more memory than
 * one. In edition 2 the codes 32 to 55 are the one-wire elements 0 to 23 (docs/cliffords.md) as their words, phase included, each
 * one gate. Refuses 9, 11, 6, 8, then item by item 7, 6, 3 or 2, then 16. */
uint8_t topazfern_amplitude(uint8_t edition, uint8_t width, uint32_t input, uint32_t output, const uint8_t *gates,
                            size_t gates_length, uint8_t *zero, int32_t *power, uint8_t *phase);

/* The chance of a whole record, which is of edition 2: gates as in a circuit, and code 80 for a wire measured, its outcome (0 or 1)
 * in the second byte. *never is 1 where the record cannot occur; else the chance is one over two to *power. Refuses 11, 6, 8, then
 * gate by gate 7, 6, 3 or 2, then 16. */
uint8_t topazfern_chance(uint8_t width, uint32_t input, const uint8_t *gates, size_t gates_length, uint8_t *never, uint32_t *power);

/* Whether a pair that a compiler hands over with a circuit is its Leuven tableau: rows is C, 2*width masks with column t at bit t (t from
 * 0; below width the image of X on wire t, beyond it of Z on wire t - width), the masks of X of the wires and then those of Z, and h the
 * vector of signs. *holds is 1 where U P_t U^-1 is i^d_t (-1)^h_t times, on each wire, Z to the left of X, for every t, d_t being 0 or 1,
 * and else 0: a matrix that is no circuit's is a plain no. Refuses as an amplitude (without strings), then 11 for another count of rows or
 * a bit at or above 2*width. */
uint8_t topazfern_tableau(uint8_t edition, uint8_t width, const uint8_t *gates, size_t gates_length, const uint64_t *rows,
                          size_t rows_length, uint64_t h, uint8_t *holds);

/* That pair itself, which every circuit has, and only one: 2*width rows at the front of rows, the words behind them as they were, and the
 * signs in *h. Refuses as an amplitude (without strings), then 13 where rows has fewer than 2*width words. */
uint8_t topazfern_tableau_of(uint8_t edition, uint8_t width, const uint8_t *gates, size_t gates_length, uint64_t *rows,
                             size_t rows_length, uint64_t *h);

/* The listing of a book at the front of text: a line for each body, also for one that is refused; a fault of header or contents is the
 * single line of its number. Answers its length, at most 312; bytes beyond text_length are dropped. */
size_t topazfern_listing(const uint8_t *book, size_t book_length, uint8_t *text, size_t text_length);

/* The same, all or nothing: where any body is refused, the single line of the first one's number. */
size_t topazfern_listing_strict(const uint8_t *book, size_t book_length, uint8_t *text, size_t text_length);

/* Body j of a book: *kind is 1 for a circuit, whose amplitude is the amount (*live and *ties are 0), 3 for a record, whose chance is
 * the amount (zero, or power -2e and phase 0 for one over two to e), or 2 for a table, with its
 * live bits, its ties, and its power and phase as the amount. Refuses 9, 10, then 14, then as the body is refused, whatever the
 * other bodies are. */
uint8_t topazfern_read(const uint8_t *book, size_t book_length, size_t j, uint8_t *kind, size_t *live, size_t *ties,
                       uint8_t *zero, int32_t *power, uint8_t *phase);

/* The same, all or nothing: refuses as the book is refused (9, 10, then its bodies in order), then 14. */
uint8_t topazfern_read_strict(const uint8_t *book, size_t book_length, size_t j, uint8_t *kind, size_t *live, size_t *ties,
                              uint8_t *zero, int32_t *power, uint8_t *phase);

/* The entry of a table body of this width at an assignment, bit v of x for slot v. Refuses 11, 12, then 1. */
uint8_t topazfern_entry(const uint8_t *body, size_t body_length, uint8_t width, uint64_t x,
                        uint8_t *zero, int32_t *power, uint8_t *phase);

/* Every path of a table body of this width added up, all bits summed, for up to 20 of them: the sum is *c0 + *c1 w + *c2 w^2 + *c3 w^3,
 * w an eighth turn, times the square root of two to *power, which is the table's own. The four are not reduced.
 * Refuses 11, 12, then 15. */
uint8_t topazfern_paths(const uint8_t *body, size_t body_length, uint8_t width,
                        int32_t *c0, int32_t *c1, int32_t *c2, int32_t *c3, int32_t *power);

/* The listing of a book's paths at the front of text, all or nothing: for each table its number, the four numbers and the power, then what
 * is left when its bits are summed away one by one in rising order, power and phase or `zero`; either half may read `refused` and a number
 * (15; 5 at the first step that leaves the range of powers). Answers its length, at most 888; bytes beyond text_length are dropped. */
size_t topazfern_paths_listing(const uint8_t *book, size_t book_length, uint8_t *text, size_t text_length);

/* Header and contents of a book of an edition (1 or 2) at the front of area, from three lists: kinds, widths, lengths of bodies.
 * Refuses 9, 10, 13. */
uint8_t topazfern_lay(uint8_t *area, size_t area_length, uint8_t edition, const uint8_t *kinds, size_t kinds_length,
                      const uint8_t *widths, size_t widths_length, const uint16_t *lengths, size_t lengths_length, size_t *bytes);

/* A table body of this width, tested, written into area from start on: the same bytes. Refuses 11, 12, 13. */
uint8_t topazfern_write(const uint8_t *body, size_t body_length, uint8_t width, uint8_t *area, size_t area_length,
                        size_t start, size_t *bytes);

/* A book edited where it stands: the first length bytes of area are a book, and the rest of area is room. Body j is removed, or replaced,
 * or a body is added at the end; a new body comes as kind, width and bytes, which must not overlap the area. Contents and bodies close up,
 * the other bodies keep their bytes and order, bytes between the new end and the old one become zero, and all bytes beyond both stay.
 * *new_length is how long the book is then, at most 60,000; where refused it is 0, and no byte of area has changed.
 * Refuses 13 (length beyond the area), then as the whole book is refused (9, 10, its bodies in order), 14, 10 (the new body's kind), as the
 * new body is refused in the book's edition, 9 (a seventeenth body), 10 (more than 60,000 bytes), 13 (more than the area). */
uint8_t topazfern_remove(uint8_t *area, size_t area_length, size_t length, size_t j, size_t *new_length);
uint8_t topazfern_replace(uint8_t *area, size_t area_length, size_t length, size_t j, uint8_t kind, uint8_t width,
                          const uint8_t *body, size_t body_length, size_t *new_length);
uint8_t topazfern_add(uint8_t *area, size_t area_length, size_t length, uint8_t kind, uint8_t width,
                      const uint8_t *body, size_t body_length, size_t *new_length);

/* Why a book is refused: its first fault in the documents' order, or that of body j whatever the other bodies are. The answer is the number
 * of refusal, 0 for none (then *body is 16 and the others are 0); all four are always written.
 * *body: the body, 16 where the fault is of the header, the contents or of none. *item: what is at fault, counted from 0: the entry for a
 * kind, start or end; the gate or mark, marks included; the slot for a turn or row; the tie for a mask or r; 0 where it is none of these.
 * *byte: the byte of the book at fault; a width is at its byte in the contents, and what is too short is at its end.
 * *cause: which cause of the number it is, as follows. */
enum {
    TOPAZFERN_WHY_SOUND = 0,
    TOPAZFERN_WHY_SHORT = 1,          /* 9: the book has fewer than 4 bytes */
    TOPAZFERN_WHY_LONG = 2,           /* 9: the book has more than 60,000 bytes */
    TOPAZFERN_WHY_LETTERS = 3,        /* 9: the book does not begin with the bytes 51 4E */
    TOPAZFERN_WHY_EDITION = 4,        /* 9: the edition is neither 1 nor 2 */
    TOPAZFERN_WHY_COUNT = 5,          /* 9: the count of bodies is above 16 */
    TOPAZFERN_WHY_CONTENTS = 6,       /* 10: the contents are too short for the count of bodies */
    TOPAZFERN_WHY_KIND = 7,           /* 10: the kind of the body is unknown in this edition */
    TOPAZFERN_WHY_START = 8,          /* 10: the body does not start where it must */
    TOPAZFERN_WHY_END = 9,            /* 10: the body ends beyond the book */
    TOPAZFERN_WHY_LAST_END = 10,      /* 10: the book goes on after its last body */
    TOPAZFERN_WHY_NO_BODY = 11,       /* 14: the book has no body of that number */
    TOPAZFERN_WHY_STRINGS = 12,       /* 11: the body is too short for its strings */
    TOPAZFERN_WHY_THREES = 13,        /* 11: the gate bytes are not in threes */
    TOPAZFERN_WHY_MANY = 14,          /* 11: there are more than 4,096 gates and marks */
    TOPAZFERN_WHY_WIRES = 15,         /* 6: the width is not 1 to 31 */
    TOPAZFERN_WHY_INPUT = 16,         /* 8: the input string has a bit at or above the width */
    TOPAZFERN_WHY_OUTPUT = 17,        /* 8: the output string has a bit at or above the width */
    TOPAZFERN_WHY_CODE = 18,          /* 7: the gate code is unknown */
    TOPAZFERN_WHY_WIRE = 19,          /* 6: the wire is not below the width */
    TOPAZFERN_WHY_SECOND_WIRE = 20,   /* 6: the second wire is not below the width */
    TOPAZFERN_WHY_SAME_WIRE = 21,     /* 2: the gate names the same wire twice */
    TOPAZFERN_WHY_SECOND_BYTE = 22,   /* 3: the second byte of a one-wire gate is not 0 */
    TOPAZFERN_WHY_OUTCOME = 23,       /* 3: the outcome is neither 0 nor 1 */
    TOPAZFERN_WHY_NO_COUNT = 24,      /* 3: the block has a count of 0 */
    TOPAZFERN_WHY_STRAY = 25,         /* 3: the mark has a stray byte */
    TOPAZFERN_WHY_DEEP = 26,          /* 16: the block stands more than 8 deep */
    TOPAZFERN_WHY_UNOPENED = 27,      /* 16: the mark closes a block that is not open */
    TOPAZFERN_WHY_EMPTY = 28,         /* 16: the mark closes an empty block */
    TOPAZFERN_WHY_UNCLOSED = 29,      /* 16: the block is not closed */
    TOPAZFERN_WHY_EXPANSION = 30,     /* 16: the expansion has more than 65,536 gates */
    TOPAZFERN_WHY_TABLE_WIDTH = 31,   /* 11: the width is above 64 */
    TOPAZFERN_WHY_LENGTH = 32,        /* 11: the length of the body is wrong */
    TOPAZFERN_WHY_MANY_TIES = 33,     /* 11: there are more ties than the width */
    TOPAZFERN_WHY_ZERO_MARK = 34,     /* 11: the zero mark is above 1 */
    TOPAZFERN_WHY_PHASE = 35,         /* 11: the phase c is above 7 */
    TOPAZFERN_WHY_POWER_OUT = 36,     /* 11: the power s is beyond 2,000 or -2,000 */
    TOPAZFERN_WHY_TURN = 37,          /* 11: the turn is above 3 */
    TOPAZFERN_WHY_ROW = 38,           /* 11: the row has a bit at or above the width */
    TOPAZFERN_WHY_MASK = 39,          /* 11: the mask has a bit at or above the width */
    TOPAZFERN_WHY_SIDE = 40,          /* 11: the r of the tie is above 1 */
    TOPAZFERN_WHY_NOT_NORMAL = 41,    /* 12: the table is not normal */
};
uint8_t topazfern_why(const uint8_t *book, size_t book_length, size_t *body, size_t *item, size_t *byte, uint8_t *cause);
uint8_t topazfern_why_body(const uint8_t *book, size_t book_length, size_t j, size_t *body, size_t *item, size_t *byte, uint8_t *cause);

/* The 24 one-wire Cliffords by their numbers (docs/cliffords.md), modulo global phase. *element is the answer, 0..23.
 * The product: i, then j. The inverse: what undoes i. Both refuse 3 for a number above 23. */
uint8_t topazfern_product(uint8_t i, uint8_t j, uint8_t *element);
uint8_t topazfern_inverse(uint8_t i, uint8_t *element);

/* The element that undoes up to 4,096 elements, applied in order: the closing gate of a one-wire run; of none it is 0.
 * Refuses 3 for a number above 23 anywhere, then 11 for more than 4,096. */
uint8_t topazfern_closing(const uint8_t *numbers, size_t numbers_length, uint8_t *element);

/* Whether two circuits of one width are the same operator: gates as for an amplitude, each with its own edition. *same is 1 where all
 * entries agree, else 0. Refuses as the first circuit is (9, 11, 6, then item by item 7, 6, 3 or 2, then 16), as the second is, then
 * 6 for unequal widths. */
uint8_t topazfern_same(uint8_t edition, uint8_t width, const uint8_t *gates, size_t gates_length,
                       uint8_t edition2, uint8_t width2, const uint8_t *gates2, size_t gates2_length, uint8_t *same);

/* The same up to one common phase: where *same is 1, the first circuit's entries turned by *phase eighths (0..7) are the second's, and
 * by no other number; where *same is 0, no turn does it, and *phase is 0. Refuses as topazfern_same. */
uint8_t topazfern_common_phase(uint8_t edition, uint8_t width, const uint8_t *gates, size_t gates_length,
                               uint8_t edition2, uint8_t width2, const uint8_t *gates2, size_t gates2_length,
                               uint8_t *same, uint8_t *phase);
/* Tables. A table lives in TOPAZFERN_TABLE bytes that the caller lends, numbers little-endian: zero mark (1 byte), c (1), s (2, two's
 * complement), live mask (8), 64 turns (1 each), 64 rows (8 each), tie count (1), 64 masks (8 each), 64 sides (1 each), 64 labels (2
 * each). Its entry at an assignment of the live bits is 0 where the zero mark is set or a tie fails, and else root two to s, turned by
 * c + 2 (sum of turn v times x_v) + 4 (sum of x_u x_v over the pairs u < v with bit u of row v set) eighths. The bytes of a normal
 * table read back as that table, and bytes that are read are the bytes of it. Any bytes are taken: each call refuses 13 where they are
 * not TOPAZFERN_TABLE, then 12 where they are those of no normal table (fresh, which only writes: 13 alone), then as is said below.
 * Where a call is refused, no byte of the table and nothing behind its pointers has changed (but a writer's *bytes, which is 0). */

/* No live bits, entry 1, whatever the bytes were. */
uint8_t topazfern_table_fresh(uint8_t *table, size_t table_length);

/* The lowest free slot becomes live, *slot, with this label; entries do not depend on it. Refuses 4, 17. */
uint8_t topazfern_table_new_bit(uint8_t *table, size_t table_length, uint16_t label, size_t *slot);

/* Entries times i to the power k x_v where u is v, k 0..3; else k is 0 or 2, and 2 is the sign: -1 where x_u and x_v are 1. Refuses 3, 1. */
uint8_t topazfern_table_turn(uint8_t *table, size_t table_length, size_t u, size_t v, uint8_t k);

/* Entries times root two to m, turned by p eighths, p 0..7. Refuses 3, 5. */
uint8_t topazfern_table_scale(uint8_t *table, size_t table_length, int32_t m, uint8_t p);

/* Entries where the sum of the bits in mask is not r modulo 2 become 0. Refuses 3, 1. */
uint8_t topazfern_table_tie(uint8_t *table, size_t table_length, uint64_t mask, uint8_t r);

/* Slot v summed over 0 and 1, and freed. *rule is the case that applied: 1 the bit stood in a tie, 2 odd turn, 3 new tie, 4 free factor
 * 2, 5 vanished. Refuses 1, 5. */
uint8_t topazfern_table_sum(uint8_t *table, size_t table_length, size_t v, uint8_t *rule);

/* x_v set to r, and slot v freed. Refuses 3, 1. */
uint8_t topazfern_table_fix(uint8_t *table, size_t table_length, size_t v, uint8_t r);

/* The entry at an assignment, bit v of x for slot v. Refuses 1. */
uint8_t topazfern_table_entry(const uint8_t *table, size_t table_length, uint64_t x, uint8_t *zero, int32_t *power, uint8_t *phase);

/* How many entries are not zero: *none is 1 where there are none (then *e is 0); else *none is 0 and there are two to *e. */
uint8_t topazfern_table_spread(const uint8_t *table, size_t table_length, uint8_t *none, size_t *e);

/* The table as a body of a book (kind 2, its width the number of live bits), without its labels, in area from start on: its live bits in
 * rising order become slots 0, 1, .. *bytes is how many bytes were written, 0 where refused. Refuses 13 (the area too short). */
uint8_t topazfern_table_write(const uint8_t *table, size_t table_length, uint8_t *area, size_t area_length, size_t start, size_t *bytes);

/* The operator table of a circuit: input wire i is live in slot and label i, output wire i in width plus i, and the entries are those of
 * the product of the gates' matrices. Refuses as topazfern_same does one circuit, then 13 where the bytes are not TOPAZFERN_TABLE. */
uint8_t topazfern_operator(uint8_t edition, uint8_t width, const uint8_t *gates, size_t gates_length, uint8_t *table, size_t table_length);

#ifdef __cplusplus
}
#endif

#endif
