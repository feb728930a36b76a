/* Topazfern from C: an amplitude, the chance of a record, the paths of a table, a listing, a book that is put together, read back and edited where it stands, and the closing gate of a one-wire run. */
#include <stdio.h>
#include <string.h>

#include "topazfern.h"

/* The amount behind three pointers, as a listing writes it. */
static void show(const char *name, uint8_t refused, uint8_t zero, int32_t power, uint8_t phase)
{
    if (refused)
        printf("%s: refused %d\n", name, refused);
    else if (zero)
        printf("%s: zero\n", name);
    else
        printf("%s: %d %d\n", name, power, phase);
}

/* H on wire 0, then CX from wire 0 to wire 1. */
static const uint8_t bell[] = {1, 0, 0, 17, 0, 1};
/* Code 7 on wire 0: from 0 to 0 an eighth turn apart in the two editions. */
static const uint8_t seven[] = {7, 0, 0};

/* Three times H and S, as a block. */
static const uint8_t thrice[] = {64, 3, 0, 1, 0, 0, 2, 0, 0, 65, 0, 0};

static void amplitudes(void)
{
    uint8_t zero, phase, refused;
    int32_t power;

    refused = topazfern_amplitude(1, 2, 0, 3, bell, sizeof bell, &zero, &power, &phase);
    show("00 to 11", refused, zero, power, phase);
    refused = topazfern_amplitude(1, 2, 0, 1, bell, sizeof bell, &zero, &power, &phase);
    show("00 to 01", refused, zero, power, phase);
    refused = topazfern_amplitude(1, 1, 0, 0, bell, sizeof bell, &zero, &power, &phase);
    show("on one wire", refused, zero, power, phase);
    refused = topazfern_amplitude(1, 1, 0, 0, seven, sizeof seven, &zero, &power, &phase);
    show("code 7 in edition 1", refused, zero, power, phase);
    refused = topazfern_amplitude(2, 1, 0, 0, seven, sizeof seven, &zero, &power, &phase);
    show("code 7 in edition 2", refused, zero, power, phase);
    refused = topazfern_amplitude(3, 1, 0, 0, seven, sizeof seven, &zero, &power, &phase);
    show("code 7 in edition 3", refused, zero, power, phase);
    refused = topazfern_amplitude(2, 1, 0, 0, thrice, sizeof thrice, &zero, &power, &phase);
    show("three times H, S", refused, zero, power, phase);
    refused = topazfern_amplitude(2, 1, 0, 0, thrice, sizeof thrice - 3, &zero, &power, &phase);
    show("a block unclosed", refused, zero, power, phase);
}

/* The Bell state with both wires measured: alike, and not alike. */
static const uint8_t alike[] = {1, 0, 0, 17, 0, 1, 80, 0, 1, 80, 1, 1};
static const uint8_t apart[] = {1, 0, 0, 17, 0, 1, 80, 0, 1, 80, 1, 0};

static void chance(const char *name, uint8_t width, const uint8_t *record, size_t length)
{
    uint8_t never, refused;
    uint32_t power;

    refused = topazfern_chance(width, 0, record, length, &never, &power);
    if (refused)
        printf("%s: refused %d\n", name, refused);
    else if (never)
        printf("%s: cannot occur\n", name);
    else
        printf("%s: one in two to %u\n", name, power);
}

static void chances(void)
{
    chance("both wires 1", 2, alike, sizeof alike);
    chance("one of each", 2, apart, sizeof apart);
    chance("the first alone", 2, alike, sizeof alike - 3);
    chance("a wire that is not there", 1, alike, sizeof alike);
}

/* Two slots tied to differ, slot 0 turned by a quarter: c = 2 and a_1 = 3. */
static const uint8_t tied[] = {
    0, 2, 0, 0,                            /* zero mark, phase, power */
    0, 3,                                  /* turns */
    0, 0, 0, 0, 0, 0, 0, 0,                /* row 0 */
    0, 0, 0, 0, 0, 0, 0, 0,                /* row 1 */
    1, 3, 0, 0, 0, 0, 0, 0, 0, 1,          /* one tie: slots 0 and 1, sum 1 */
};

static void entries(void)
{
    uint8_t zero, phase, refused;
    int32_t power;
    char name[16];

    for (uint64_t x = 0; x < 5; x++) {
        snprintf(name, sizeof name, "entry %d%d%d", (int)(x >> 2 & 1), (int)(x >> 1 & 1), (int)(x & 1));
        refused = topazfern_entry(tied, sizeof tied, 2, x, &zero, &power, &phase);
        show(name, refused, zero, power, phase);
    }
}

/* Its two paths, 01 with i and 10 with 1, added up; and a body that is cut short. */
static void paths(void)
{
    int32_t c0, c1, c2, c3, power;

    if (!topazfern_paths(tied, sizeof tied, 2, &c0, &c1, &c2, &c3, &power))
        printf("every path: %d %d %d %d, power %d\n", c0, c1, c2, c3, power);
    printf("a body cut short: refused %d\n", topazfern_paths(tied, sizeof tied - 1, 2, &c0, &c1, &c2, &c3, &power));
}

/* A book of the circuit (two strings and its gates) and the table. */
static size_t build(uint8_t *book, size_t room)
{
    const uint8_t kinds[] = {1, 2}, widths[] = {2, 2};
    const uint16_t lengths[] = {8 + sizeof bell, sizeof tied};
    size_t at, bytes;

    if (topazfern_lay(book, room, 1, kinds, 2, widths, 2, lengths, 2, &at))
        return 0;
    memcpy(book + at, "\0\0\0\0\3\0\0\0", 8);
    memcpy(book + at + 8, bell, sizeof bell);
    at += 8 + sizeof bell;
    if (topazfern_write(tied, sizeof tied, 2, book, room, at, &bytes))
        return 0;
    return at + bytes;
}

/* H, then S, then H (6), and what undoes that; 24 is no element. */
static void elements(void)
{
    const uint8_t run[] = {1, 2, 1, 24};
    uint8_t element;

    if (!topazfern_product(1, 2, &element))
        printf("H, then S: element %d\n", element);
    if (!topazfern_inverse(2, &element))
        printf("S is undone by element %d\n", element);
    if (!topazfern_closing(run, 3, &element))
        printf("H, S, H is closed by element %d\n", element);
    printf("a run with 24 in it: refused %d\n", topazfern_closing(run, 4, &element));
}

/* What an edit answered, and the book as it stands. */
static void edited(const char *what, uint8_t refused, const uint8_t *book, size_t length)
{
    uint8_t text[TOPAZFERN_LISTING_MAX];

    if (refused) {
        printf("%s: refused %d\n", what, refused);
        return;
    }
    printf("%s: %zu bytes\n", what, length);
    fwrite(text, 1, topazfern_listing(book, length, text, sizeof text), stdout);
}

/* Bodies removed, replaced and added where the book stands; the rest of the area is its room. */
static void edits(uint8_t *book, size_t room, size_t length)
{
    static const uint8_t sx[] = {0, 0, 0, 0, 0, 0, 0, 0, 7, 0, 0}, empty[] = {0, 0, 0, 0, 0};
    size_t told;
    uint8_t refused;

    refused = topazfern_remove(book, room, length, 0, &told);
    length = refused ? length : told;
    edited("body 0 removed", refused, book, length);
    refused = topazfern_add(book, room, length, 1, 1, sx, sizeof sx, &told);
    length = refused ? length : told;
    edited("SX added", refused, book, length);
    refused = topazfern_replace(book, room, length, 0, 2, 0, empty, sizeof empty, &told);
    length = refused ? length : told;
    edited("body 0 replaced", refused, book, length);
    refused = topazfern_replace(book, room, length, 0, 2, 1, empty, sizeof empty, &told);
    edited("a body too short for its width", refused, book, length);
    refused = topazfern_add(book, length + 12, length, 2, 0, empty, sizeof empty, &told);
    edited("no room for 13 bytes more", refused, book, length);
    refused = topazfern_remove(book, room, length, 2, &told);
    edited("no third body", refused, book, length);
}

/* The Leuven tableau of CX, S, S, and what a check says of it, of a wrong sign, and of a row too few. */
static void tableaux(void)
{
    static const uint8_t gates[] = {17, 0, 1, 2, 0, 0, 2, 1, 0};
    uint64_t rows[4], h;
    uint8_t holds = 0, refused;

    refused = topazfern_tableau_of(2, 2, gates, sizeof gates, rows, 4, &h);
    if (refused) {
        printf("a tableau refused by %d\n", refused);
        return;
    }
    printf("CX, S, S: rows %X %X %X %X, signs %X\n", (unsigned)rows[0], (unsigned)rows[1], (unsigned)rows[2], (unsigned)rows[3], (unsigned)h);
    topazfern_tableau(2, 2, gates, sizeof gates, rows, 4, h, &holds);
    printf("checked: %s\n", holds ? "yes" : "no");
    topazfern_tableau(2, 2, gates, sizeof gates, rows, 4, h ^ 1, &holds);
    printf("with one sign changed: %s\n", holds ? "yes" : "no");
    printf("without its last row: refused %d\n", topazfern_tableau(2, 2, gates, sizeof gates, rows, 3, h, &holds));
}

/* Two circuits as operators: the same, up to an eighth turn or more, or another. */
static void compared(const char *what, const uint8_t *first, size_t first_length, const uint8_t *second, size_t second_length)
{
    uint8_t same, alike, phase;

    if (topazfern_same(1, 1, first, first_length, 1, 1, second, second_length, &same)
        || topazfern_common_phase(1, 1, first, first_length, 1, 1, second, second_length, &alike, &phase))
        return;
    printf("%s: %s", what, same ? "the same operator\n" : alike ? "the same up to " : "not the same\n");
    if (!same && alike)
        printf("%d eighth turns\n", phase);
}

static void operators(void)
{
    static const uint8_t hh[] = {1, 0, 0, 1, 0, 0}, xz[] = {5, 0, 0, 4, 0, 0}, zx[] = {4, 0, 0, 5, 0, 0}, h[] = {1, 0, 0}, s[] = {2, 0, 0};

    compared("H, H and nothing", hh, sizeof hh, hh, 0);
    compared("X, Z and Z, X", xz, sizeof xz, zx, sizeof zx);
    compared("H and S", h, sizeof h, s, sizeof s);
}

int main(void)
{
    uint8_t book[100], text[TOPAZFERN_LISTING_MAX], added[TOPAZFERN_PATHS_MAX], kind, zero, phase, refused;
    size_t length, live, ties;
    int32_t power;

    amplitudes();
    chances();
    entries();
    paths();
    length = build(book, sizeof book);
    printf("a book of %zu bytes\n", length);
    fwrite(text, 1, topazfern_listing(book, length, text, sizeof text), stdout);
    fwrite(added, 1, topazfern_paths_listing(book, length, added, sizeof added), stdout);
    for (size_t j = 0; j < 3; j++) {
        refused = topazfern_read(book, length, j, &kind, &live, &ties, &zero, &power, &phase);
        if (refused)
            printf("body %zu: refused %d\n", j, refused);
        else
            printf("body %zu: kind %d, live %zu, ties %zu, zero %d, power %d, phase %d\n", j, kind, live, ties, zero, power, phase);
    }
    edits(book, sizeof book, length);
    elements();
    tableaux();
    operators();
    return 0;
}
