/* Where a call for C is refused, nothing behind its pointers has changed, and a writer answers 0 bytes. */
#include <stdio.h>
#include <string.h>

#include "topazfern.h"

static int bad;

static void expect(const char *what, int holds)
{
    if (!holds) {
        printf("%s: does not hold\n", what);
        bad = 1;
    }
}

/* One table of width 1 that is sound, and one whose tie is empty. */
static const uint8_t sound[] = {0, 0, 0, 0, 0, 0, 0, 0, 0, 0, 0, 0, 0, 0};
static const uint8_t empty_tie[] = {0, 0, 0, 0, 0, 0, 0, 0, 0, 0, 0, 0, 0, 1, 0, 0, 0, 0, 0, 0, 0, 0, 0};

/* Two circuits of width 1: one with an unknown gate, one with H from 0 to 1. */
static const uint8_t half_bad[] = {0x51, 0x4E, 1, 2, 1, 1, 11, 0, 20, 0, 0, 0, 1, 1, 11, 0, 31, 0, 0, 0,
                                   0, 0, 0, 0, 0, 0, 0, 0, 9, 0, 0, 0, 0, 0, 0, 1, 0, 0, 0, 1, 0, 0};

static void bodies(void)
{
    uint8_t zero = 200, phase = 201, kind = 202;
    int32_t power = -7;
    size_t live = 77, ties = 78;

    expect("a good body beside a bad one", topazfern_read(half_bad, sizeof half_bad, 1, &kind, &live, &ties, &zero, &power, &phase) == 0);
    expect("its amplitude", kind == 1 && live == 0 && ties == 0 && zero == 0 && power == -1 && phase == 0);
}

/* A mark that closes a block, and an unknown code. */
static const uint8_t unopened[] = {65, 0, 0, 9, 0, 0};

static void amounts(void)
{
    uint8_t zero = 200, phase = 201, kind = 202;
    int32_t power = -7;
    size_t live = 77, ties = 78;

    expect("edition 0 before gate bytes not in threes", topazfern_amplitude(0, 1, 0, 0, sound, 2, &zero, &power, &phase) == 9);
    expect("edition 3 before width 0", topazfern_amplitude(3, 0, 0, 0, sound, 0, &zero, &power, &phase) == 9);
    expect("gate bytes not in threes", topazfern_amplitude(1, 1, 0, 0, sound, 2, &zero, &power, &phase) == 11);
    expect("width 0", topazfern_amplitude(1, 0, 0, 0, sound, 0, &zero, &power, &phase) == 6);
    expect("width 32", topazfern_amplitude(1, 32, 0, 0, sound, 0, &zero, &power, &phase) == 6);
    expect("input beyond the width", topazfern_amplitude(1, 1, 2, 0, sound, 0, &zero, &power, &phase) == 8);
    expect("output beyond the width", topazfern_amplitude(1, 31, 0, 0x80000000u, sound, 0, &zero, &power, &phase) == 8);
    expect("code 0", topazfern_amplitude(1, 1, 0, 0, sound, 3, &zero, &power, &phase) == 7);
    expect("code 0 in edition 2", topazfern_amplitude(2, 1, 0, 0, sound, 3, &zero, &power, &phase) == 7);
    expect("a block in edition 1", topazfern_amplitude(1, 1, 0, 0, unopened, 3, &zero, &power, &phase) == 7);
    expect("a block that was not opened", topazfern_amplitude(2, 1, 0, 0, unopened, 3, &zero, &power, &phase) == TOPAZFERN_BLOCK);
    expect("a code before it", topazfern_amplitude(2, 1, 0, 0, unopened, 6, &zero, &power, &phase) == 7);
    expect("a body too short", topazfern_entry(sound, 13, 1, 0, &zero, &power, &phase) == 11);
    expect("an empty tie", topazfern_entry(empty_tie, sizeof empty_tie, 1, 0, &zero, &power, &phase) == 12);
    expect("a bit that is not live", topazfern_entry(sound, sizeof sound, 1, 2, &zero, &power, &phase) == 1);
    expect("an empty book", topazfern_read(sound, 0, 0, &kind, &live, &ties, &zero, &power, &phase) == 9);
    expect("no body", topazfern_read((const uint8_t *)"QN\1\0", 4, 0, &kind, &live, &ties, &zero, &power, &phase) == 14);
    expect("a body behind a bad one, strictly", topazfern_read_strict(half_bad, sizeof half_bad, 1, &kind, &live, &ties, &zero, &power, &phase) == 7);
    expect("no third body, strictly", topazfern_read_strict(half_bad, sizeof half_bad, 2, &kind, &live, &ties, &zero, &power, &phase) == 7);
    expect("no third body", topazfern_read(half_bad, sizeof half_bad, 2, &kind, &live, &ties, &zero, &power, &phase) == 14);
    expect("the bad body", topazfern_read(half_bad, sizeof half_bad, 0, &kind, &live, &ties, &zero, &power, &phase) == 7);
    expect("amounts unchanged", zero == 200 && power == -7 && phase == 201 && kind == 202 && live == 77 && ties == 78);
}

/* A table of 21 bits, and one of 20. */
static uint8_t wide[5 + 9 * 21];

static void paths(void)
{
    int32_t c0 = 41, c1 = 42, c2 = 43, c3 = 44, power = -7;
    uint8_t text[4] = {1, 2, 3, 4};

    expect("paths of a body too short", topazfern_paths(sound, 13, 1, &c0, &c1, &c2, &c3, &power) == 11);
    expect("paths of an empty tie", topazfern_paths(empty_tie, sizeof empty_tie, 1, &c0, &c1, &c2, &c3, &power) == 12);
    expect("paths of 21 bits", topazfern_paths(wide, sizeof wide, 21, &c0, &c1, &c2, &c3, &power) == TOPAZFERN_MANY_BITS);
    expect("paths unchanged", c0 == 41 && c1 == 42 && c2 == 43 && c3 == 44 && power == -7);
    expect("paths of 20 bits", topazfern_paths(wide, sizeof wide - 9, 20, &c0, &c1, &c2, &c3, &power) == 0);
    expect("a million paths", c0 == 1 << 20 && c1 == 0 && c2 == 0 && c3 == 0 && power == 0);
    expect("a listing of paths, all or nothing", topazfern_paths_listing(half_bad, sizeof half_bad, text, 3) == 10);
    expect("its front alone", text[0] == 'r' && text[1] == 'e' && text[2] == 'f' && text[3] == 4);
}

/* H on wire 0, CX from 0 to 1, both measured as 1; the same with wire 1 as 0; 255 times H and an outcome 0. */
static const uint8_t alike[] = {1, 0, 0, 17, 0, 1, 80, 0, 1, 80, 1, 1};
static const uint8_t unlike[] = {1, 0, 0, 17, 0, 1, 80, 0, 1, 80, 1, 0};
static const uint8_t rounds[] = {64, 255, 0, 1, 0, 0, 80, 0, 0, 65, 0, 0};

/* An outcome of 2, and the same on a wire that is not there. */
static const uint8_t outcome_2[] = {80, 0, 2, 80, 9, 2};

/* A book of edition 2 with three records: of the first two lists, and one without gates; and the same as edition 1. */
static const uint8_t records[] = {0x51, 0x4E, 2, 3, 3, 2, 16, 0, 28, 0, 0, 0, 3, 2, 16, 0, 44, 0, 0, 0, 3, 1, 4, 0, 60, 0, 0, 0,
                                  0, 0, 0, 0, 1, 0, 0, 17, 0, 1, 80, 0, 1, 80, 1, 1,
                                  0, 0, 0, 0, 1, 0, 0, 17, 0, 1, 80, 0, 1, 80, 1, 0, 1, 0, 0, 0};
static const uint8_t too_early[] = {0x51, 0x4E, 1, 1, 3, 1, 4, 0, 12, 0, 0, 0, 0, 0, 0, 0};

static void chances(void)
{
    uint8_t never = 200;
    uint32_t power = 7;

    expect("bytes not in threes", topazfern_chance(1, 0, alike, 2, &never, &power) == 11);
    expect("a record of width 0", topazfern_chance(0, 0, alike, 0, &never, &power) == 6);
    expect("a record of width 32", topazfern_chance(32, 0, alike, 0, &never, &power) == 6);
    expect("a record's input beyond the width", topazfern_chance(2, 4, alike, 12, &never, &power) == 8);
    expect("a record of code 9", topazfern_chance(1, 0, unopened + 3, 3, &never, &power) == 7);
    expect("an outcome of 2", topazfern_chance(1, 0, outcome_2, 3, &never, &power) == TOPAZFERN_RANGE);
    expect("a measured wire that is not there", topazfern_chance(1, 0, outcome_2 + 3, 3, &never, &power) == 6);
    expect("a record's block that was not opened", topazfern_chance(1, 0, unopened, 3, &never, &power) == TOPAZFERN_BLOCK);
    expect("chances unchanged", never == 200 && power == 7);
    expect("no gates", topazfern_chance(1, 1, alike, 0, &never, &power) == 0 && never == 0 && power == 0);
    expect("both alike", topazfern_chance(2, 0, alike, sizeof alike, &never, &power) == 0 && never == 0 && power == 1);
    expect("255 rounds", topazfern_chance(1, 0, rounds, sizeof rounds, &never, &power) == 0 && never == 0 && power == 255);
    expect("one unlike the other", topazfern_chance(2, 0, unlike, sizeof unlike, &never, &power) == 0 && never == 1 && power == 0);
}

static void records_in_books(void)
{
    uint8_t zero = 200, phase = 201, kind = 202;
    int32_t power = -7;
    size_t live = 77, ties = 78;

    expect("a record in edition 1", topazfern_read(too_early, sizeof too_early, 0, &kind, &live, &ties, &zero, &power, &phase) == 10);
    expect("a measurement in a circuit", topazfern_amplitude(2, 2, 0, 0, alike, sizeof alike, &zero, &power, &phase) == 7);
    expect("records unchanged", zero == 200 && power == -7 && phase == 201 && kind == 202 && live == 77 && ties == 78);
    expect("a record", topazfern_read(records, sizeof records, 0, &kind, &live, &ties, &zero, &power, &phase) == 0);
    expect("its chance is a half", kind == 3 && live == 0 && ties == 0 && zero == 0 && power == -2 && phase == 0);
    expect("an impossible record", topazfern_read(records, sizeof records, 1, &kind, &live, &ties, &zero, &power, &phase) == 0);
    expect("it has no chance", kind == 3 && live == 0 && ties == 0 && zero == 1 && power == 0 && phase == 0);
    expect("a record without gates", topazfern_read(records, sizeof records, 2, &kind, &live, &ties, &zero, &power, &phase) == 0);
    expect("it is certain", kind == 3 && zero == 0 && power == 0 && phase == 0);
}

static void areas(void)
{
    uint8_t area[40], before[40];
    const uint8_t kinds[] = {1, 3};
    const uint16_t lengths[] = {8, 60000};
    size_t bytes = 5;

    memset(area, 0xA5, sizeof area);
    memcpy(before, area, sizeof area);
    expect("no room for the body", topazfern_write(sound, sizeof sound, 1, area, 20, 7, &bytes) == 13 && bytes == 0);
    bytes = 5;
    expect("a start beyond the end", topazfern_write(sound, sizeof sound, 1, area, 20, 21, &bytes) == 13 && bytes == 0);
    bytes = 5;
    expect("not normal", topazfern_write(empty_tie, sizeof empty_tie, 1, area, 40, 0, &bytes) == 12 && bytes == 0);
    bytes = 5;
    expect("a bad kind", topazfern_lay(area, 40, 1, kinds, 2, kinds, 2, lengths, 2, &bytes) == 10 && bytes == 0);
    bytes = 5;
    expect("no room for contents", topazfern_lay(area, 11, 2, kinds, 1, kinds, 1, lengths, 1, &bytes) == 13 && bytes == 0);
    bytes = 5;
    expect("edition 0", topazfern_lay(area, 11, 0, kinds, 2, kinds, 1, lengths, 1, &bytes) == 9 && bytes == 0);
    bytes = 5;
    expect("edition 3", topazfern_lay(area, 40, 3, kinds, 1, kinds, 1, lengths, 1, &bytes) == 9 && bytes == 0);
    expect("areas unchanged", memcmp(area, before, sizeof area) == 0);
    expect("written", topazfern_write(sound, sizeof sound, 1, area, 21, 7, &bytes) == 0 && bytes == 14);
    expect("the same bytes", memcmp(area + 7, sound, 14) == 0 && memcmp(area, before, 7) == 0 && memcmp(area + 21, before, 19) == 0);
}

int main(void)
{
    bodies();
    amounts();
    paths();
    chances();
    records_in_books();
    areas();
    if (!bad)
        puts("refused calls change nothing");
    return bad;
}
