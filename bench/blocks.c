// Repeated blocks: what a gate costs in a body of up to 65,536 gates, beside the same gates written out as far as they fit.
//     blocks [ROUNDS] [SEED]
#include "circuits.h"
#include "topazfern.h"

#include <stdio.h>
#include <stdlib.h>
#include <string.h>
#include <sys/resource.h>
#include <time.h>

enum { MOST = 4096, LAYER = 16, WIDTHS = 4, SHAPES = 4, SIDES = 2, MOST_ROUNDS = 1001 };
enum { OPEN = 64, CLOSE = 65, SECOND_EDITION = 2 };
static const unsigned widths[WIDTHS] = {2, 8, 16, 31};
static const double shortest_slice = 5e6; // nanoseconds

struct body {
    uint8_t items[3 * MOST];
    size_t count, gates; // as written, and as applied
};

// The same gates with blocks and written out, as long as each may be.
struct pair {
    const char *name;
    unsigned width;
    struct body side[SIDES];
    double per_gate[SIDES][MOST_ROUNDS];
};

static struct pair pairs[WIDTHS][SHAPES];

static void put(struct body *b, uint8_t code, uint8_t wire, uint8_t second)
{
    uint8_t item[3] = {code, wire, second};
    memcpy(b->items + 3 * b->count++, item, sizeof item);
}

static void put_gates(struct body *b, const uint8_t *gates, size_t count)
{
    memcpy(b->items + 3 * b->count, gates, 3 * count);
    b->count += count;
}

// A body of gates in blocks: outer times (inner times the gates), each block where its count is not 0, in so many further blocks run once.
static void repeat(struct body *b, unsigned outer, unsigned inner, unsigned deeper, const uint8_t *gates, size_t count)
{
    b->count = 0;
    b->gates = (outer ? outer : 1) * inner * count;
    if (outer)
        put(b, OPEN, (uint8_t)outer, 0);
    put(b, OPEN, (uint8_t)inner, 0);
    for (unsigned k = 0; k < deeper; k++)
        put(b, OPEN, 1, 0);
    put_gates(b, gates, count);
    for (unsigned k = 0; k < deeper + (outer ? 2 : 1); k++)
        put(b, CLOSE, 0, 0);
}

static void write_out(struct body *b, size_t times, const uint8_t *gates, size_t count)
{
    b->count = 0;
    b->gates = times * count;
    for (size_t k = 0; k < times; k++)
        put_gates(b, gates, count);
}

static void fill(struct pair *p, unsigned width, uint64_t *stream)
{
    static uint8_t gates[3 * MOST];
    const uint8_t one[3] = {1, 0, 0}; // H on wire 0
    fill_gates(stream, width, MOST, gates);
    for (unsigned s = 0; s < SHAPES; s++)
        p[s].width = width;
    p[0].name = "4,094 gates, 16 times";
    repeat(&p[0].side[0], 0, 16, 0, gates, MOST - 2);
    write_out(&p[0].side[1], 1, gates, MOST - 2);
    p[1].name = "a layer of 16 gates, 16 times 255 times";
    repeat(&p[1].side[0], 16, 255, 0, gates, LAYER);
    write_out(&p[1].side[1], MOST / LAYER, gates, LAYER);
    p[2].name = "one H, 255 times 255 times";
    repeat(&p[2].side[0], 255, 255, 0, one, 1);
    write_out(&p[2].side[1], MOST, one, 1);
    p[3].name = "one H in eight blocks, 15 marks a gate";
    repeat(&p[3].side[0], 255, 255, 6, one, 1);
    write_out(&p[3].side[1], MOST, one, 1);
}

static uint32_t ask(unsigned width, const struct body *b, uint32_t output)
{
    uint8_t zero = 0, phase = 0;
    int32_t power = 0;
    uint8_t refusal = topazfern_amplitude(SECOND_EDITION, (uint8_t)width, 0, output, b->items, 3 * b->count, &zero, &power, &phase);
    if (refusal != 0) {
        printf("refused %u\n", refusal);
        exit(1);
    }
    return (uint32_t)zero << 24 | (uint32_t)(uint8_t)power << 8 | phase;
}

// Bodies whose expansion fits as written: the same answers both ways, at any output.
static int same(unsigned width, uint64_t *stream)
{
    static uint8_t gates[3 * MOST];
    static struct body blocks, written;
    for (unsigned k = 0; k < 200; k++) {
        unsigned outer = 1 + (unsigned)(next_word(stream) >> 60), inner = 1 + (unsigned)(next_word(stream) >> 60);
        size_t count = 1 + (size_t)(next_word(stream) >> 60);
        uint32_t output = (uint32_t)next_word(stream) & (uint32_t)((UINT64_C(1) << width) - 1);
        fill_gates(stream, width, count, gates);
        repeat(&blocks, outer, inner, (unsigned)(next_word(stream) >> 61) % 7, gates, count);
        write_out(&written, outer * inner, gates, count);
        if (written.count <= MOST && ask(width, &blocks, output) != ask(width, &written, output))
            return 0;
    }
    return 1;
}

static double now(void)
{
    struct timespec t;
    clock_gettime(CLOCK_PROCESS_CPUTIME_ID, &t);
    return 1e9 * (double)t.tv_sec + (double)t.tv_nsec;
}

static void time_once(struct pair *p, unsigned side, unsigned round)
{
    unsigned calls = 0;
    double began = now(), spent;
    do {
        ask(p->width, &p->side[side], 0);
        calls++;
        spent = now() - began;
    } while (spent < shortest_slice);
    p->per_gate[side][round] = spent / calls / (double)p->side[side].gates;
}

static int rising(const void *a, const void *b)
{
    double x = *(const double *)a, y = *(const double *)b;
    return (x > y) - (x < y);
}

static double median(const double *values, unsigned count)
{
    double sorted[MOST_ROUNDS];
    memcpy(sorted, values, count * sizeof *values);
    qsort(sorted, count, sizeof *sorted, rising);
    return sorted[count / 2];
}

static void report(const struct pair *p, unsigned rounds)
{
    double ratio[MOST_ROUNDS];
    for (unsigned r = 0; r < rounds; r++)
        ratio[r] = p->per_gate[0][r] / p->per_gate[1][r];
    printf("| %u | %s | %zu | %.2f | %zu | %.2f | %.2f |\n", p->width, p->name, p->side[0].gates, median(p->per_gate[0], rounds),
           p->side[1].gates, median(p->per_gate[1], rounds), median(ratio, rounds));
}

static long memory(void)
{
    struct rusage use;
    getrusage(RUSAGE_SELF, &use);
    return use.ru_maxrss;
}

int main(int argc, char **argv)
{
    unsigned rounds = argc > 1 ? (unsigned)atoi(argv[1]) : 15;
    uint64_t stream = argc > 2 ? strtoull(argv[2], NULL, 10) : 1;
    if (rounds < 1 || rounds > MOST_ROUNDS)
        return 2;
    for (unsigned w = 0; w < WIDTHS; w++) {
        fill(pairs[w], widths[w], &stream);
        if (!same(widths[w], &stream)) {
            printf("width %u: blocks and the gates written out differ\n", widths[w]);
            return 1;
        }
        for (unsigned s = 0; s < SHAPES; s++)
            ask(widths[w], &pairs[w][s].side[1], 0);
    }
    long before = memory();
    for (unsigned r = 0; r < rounds; r++)
        for (unsigned w = 0; w < WIDTHS; w++)
            for (unsigned s = 0; s < SHAPES; s++)
                for (unsigned k = 0; k < SIDES; k++)
                    time_once(&pairs[w][s], k ^ r % 2, r);
    puts("| width | body | gates, in blocks | ns/gate | gates, written out | ns/gate | blocks / written out |");
    puts("|---|---|---|---|---|---|---|");
    for (unsigned s = 0; s < SHAPES; s++)
        for (unsigned w = 0; w < WIDTHS; w++)
            report(&pairs[w][s], rounds);
    printf("memory at most: %ld kB before the bodies with blocks were run, %ld kB after\n", before, memory());
    return 0;
}
