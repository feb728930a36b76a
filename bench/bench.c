// The proved library beside plain.c: the same amplitudes, first compared, then timed in turns. Rows by width and length, rows by
// kind of gate, and what one more output of the same circuit costs.
//     bench [ROUNDS] [SEED]
#include "circuits.h"
#include "plain.h"
#include "topazfern.h"

#include <stdio.h>
#include <stdlib.h>
#include <time.h>

enum { WIDTHS = 4, LENGTHS = 3, SHORTEST = 64, LONGEST = 4096, OUTPUTS = 4, MOST_ROUNDS = 1001 };
enum { MIXED_ROWS = WIDTHS * LENGTHS, ROWS = MIXED_ROWS + GATE_CODES, KIND_WIDTH = 16 };
// Of short circuits, or what a further output costs would be lost beside the first.
enum { MANY_LENGTH = SHORTEST, MANY_CIRCUITS = 64, MANY = 64 };
// Every row has so many gates: a processor learns the branches of a few short circuits by heart, and they would look cheap.
enum { ROW_GATES = 4 * LONGEST, MOST_CIRCUITS = ROW_GATES / SHORTEST };
enum { PROVED, PLAIN, SIDES };
enum { WALL, PROCESSOR, CLOCKS };
static const unsigned widths[WIDTHS] = {2, 8, 16, 31};
static const unsigned lengths[LENGTHS] = {SHORTEST, 512, LONGEST};
static const char *const names[GATE_CODES] = {"H", "S", "S†", "Z", "X", "Y", "SX", "CZ", "CX", "SWAP"};
static const double shortest_slice = 5e6; // nanoseconds

typedef uint8_t amplitude_of(uint8_t width, uint32_t input, uint32_t output, const uint8_t *gates, size_t gates_length,
                             struct amount *result);
typedef uint8_t amplitudes_of(uint8_t width, uint32_t input, const uint32_t *outputs, size_t count, const uint8_t *gates,
                              size_t gates_length, struct amount *results);

static uint8_t proved_amplitude(uint8_t width, uint32_t input, uint32_t output, const uint8_t *gates,
                                size_t gates_length, struct amount *result)
{
    // the other sides know the gates of edition 1
    return topazfern_amplitude(1, width, input, output, gates, gates_length, &result->zero, &result->power, &result->phase);
}

// The library has no call for several outputs: each asks for the whole circuit again.
static uint8_t proved_amplitudes(uint8_t width, uint32_t input, const uint32_t *outputs, size_t count, const uint8_t *gates,
                                 size_t gates_length, struct amount *results)
{
    uint8_t refusal = 0;
    for (size_t k = 0; k < count && refusal == 0; k++)
        refusal = proved_amplitude(width, input, outputs[k], gates, gates_length, &results[k]);
    return refusal;
}

static amplitude_of *const sides[SIDES] = {proved_amplitude, plain_amplitude};
static amplitudes_of *const sides_of_many[SIDES] = {proved_amplitudes, plain_amplitudes};

// The circuits of one width and length, a few outputs for each.
struct row {
    unsigned width, length, circuits, amplitudes, zeros;
    uint8_t gates[3 * ROW_GATES];
    uint32_t input[MOST_CIRCUITS], output[OUTPUTS][MOST_CIRCUITS];
    uint64_t expected;
    unsigned passes[SIDES];
    double nanoseconds[SIDES][CLOCKS][MOST_ROUNDS]; // of one amplitude
};

static const uint8_t *gates_of(const struct row *c, unsigned i)
{
    return c->gates + 3 * i * c->length;
}

// An output of circuit i: one that is not zero, or any string.
static uint32_t drawn_output(const struct row *c, unsigned i, int reached, uint64_t *stream)
{
    uint32_t any = (uint32_t)next_word(stream) & (uint32_t)((UINT64_C(1) << c->width) - 1);
    return reached ? plain_reached((uint8_t)c->width, c->input[i], gates_of(c, i), 3 * c->length, any) : any;
}

// Every second gate has the code, where it is not 0. The first half of the outputs are not zero; the rest are any strings.
static void fill_row(struct row *c, unsigned width, unsigned length, uint8_t code, uint64_t *stream)
{
    uint32_t strings = (uint32_t)((UINT64_C(1) << width) - 1);
    c->width = width;
    c->length = length;
    c->circuits = ROW_GATES / length;
    c->amplitudes = OUTPUTS * c->circuits;
    fill_gates(stream, width, ROW_GATES, c->gates);
    if (code != 0)
        fill_every_second(stream, width, ROW_GATES, code, c->gates);
    for (unsigned i = 0; i < c->circuits; i++) {
        c->input[i] = (uint32_t)next_word(stream) & strings;
        for (unsigned k = 0; k < OUTPUTS; k++)
            c->output[k][i] = drawn_output(c, i, k < OUTPUTS / 2, stream);
    }
}

static uint8_t ask(const struct row *c, unsigned side, unsigned k, unsigned i, struct amount *a)
{
    *a = (struct amount){0, 0, 0};
    return sides[side]((uint8_t)c->width, c->input[i], c->output[k][i], gates_of(c, i), 3 * c->length, a);
}

static uint64_t mixed_in(uint64_t sum, uint8_t refusal, const struct amount *a)
{
    uint64_t one = (uint64_t)refusal << 56 ^ (uint64_t)a->zero << 48 ^ (uint64_t)a->phase << 40 ^ (uint32_t)a->power;
    return (sum ^ one) * UINT64_C(0x9E3779B97F4A7C15);
}

// Every amplitude of the row by one side; answers a sum over all of them.
static uint64_t pass(const struct row *c, unsigned side)
{
    uint64_t sum = 0;
    for (unsigned k = 0; k < OUTPUTS; k++) {
        for (unsigned i = 0; i < c->circuits; i++) {
            struct amount a;
            uint8_t refusal = ask(c, side, k, i, &a);
            sum = mixed_in(sum, refusal, &a);
        }
    }
    return sum;
}

// Whether both sides give the same for one amplitude, and not zero where the output was found to be reached.
static int agrees(struct row *c, unsigned k, unsigned i)
{
    struct amount a, b;
    uint8_t proved = ask(c, PROVED, k, i, &a), plain = ask(c, PLAIN, k, i, &b);
    c->zeros += b.zero;
    int reached = k >= OUTPUTS / 2 || !b.zero;
    if (proved == 0 && plain == 0 && a.zero == b.zero && a.power == b.power && a.phase == b.phase && reached)
        return 1;
    printf("width %u, length %u, circuit %u, output %u: proved %u (%u %d %u), plain %u (%u %d %u)\n", c->width, c->length,
           i, k, proved, a.zero, a.power, a.phase, plain, b.zero, b.power, b.phase);
    return 0;
}

static int compared(struct row *c)
{
    int same = 1;
    for (unsigned k = 0; k < OUTPUTS; k++)
        for (unsigned i = 0; i < c->circuits; i++)
            same &= agrees(c, k, i);
    c->expected = pass(c, PLAIN);
    return same;
}

static double now(unsigned clock)
{
    struct timespec t;
    clock_gettime(clock == WALL ? CLOCK_MONOTONIC : CLOCK_PROCESS_CPUTIME_ID, &t);
    return 1e9 * (double)t.tv_sec + (double)t.tv_nsec;
}

// So many passes and the nanoseconds of each amplitude by both clocks; answers 0 where an answer is not the one that was compared.
static int slice(const struct row *c, unsigned side, unsigned passes, double spent[CLOCKS])
{
    int same = 1;
    double wall = now(WALL), processor = now(PROCESSOR);
    for (unsigned n = 0; n < passes; n++)
        same &= pass(c, side) == c->expected;
    spent[PROCESSOR] = (now(PROCESSOR) - processor) / passes / c->amplitudes;
    spent[WALL] = (now(WALL) - wall) / passes / c->amplitudes;
    return same;
}

// As many passes as a slice needs to be long beside the clocks and the switch from one side to the other.
static int choose_passes(struct row *c)
{
    for (unsigned s = 0; s < SIDES; s++) {
        double spent[CLOCKS] = {0, 0};
        c->passes[s] = 0;
        while (c->passes[s] * spent[PROCESSOR] * c->amplitudes < shortest_slice) {
            c->passes[s] += 1 + c->passes[s];
            if (!slice(c, s, c->passes[s], spent))
                return 0;
        }
    }
    return 1;
}

// One slice of each side, in turns the one first and the other.
static int time_round(struct row *c, unsigned round)
{
    for (unsigned n = 0; n < SIDES; n++) {
        unsigned side = (n + round) % SIDES;
        double spent[CLOCKS];
        if (!slice(c, side, c->passes[side], spent))
            return 0;
        for (unsigned k = 0; k < CLOCKS; k++)
            c->nanoseconds[side][k][round] = spent[k];
    }
    return 1;
}

// The first circuits of a row with many outputs of each, asked for by one call, beside one output of each.
struct many {
    const struct row *row;
    uint32_t output[MANY_CIRCUITS][MANY];
    uint64_t expected[2];
    unsigned passes[SIDES][2];
    double nanoseconds[SIDES][2][MOST_ROUNDS];  // of a circuit with one output, and with many, by processor time
    double further[SIDES][MOST_ROUNDS];         // of each output after the first
};

// Every circuit by one side, with one output or with many; answers a sum over all amplitudes.
static uint64_t many_pass(const struct many *m, unsigned side, unsigned many)
{
    const struct row *c = m->row;
    unsigned count = many ? MANY : 1;
    uint64_t sum = 0;
    for (unsigned i = 0; i < MANY_CIRCUITS; i++) {
        struct amount a[MANY] = {{0, 0, 0}};
        uint8_t refusal =
            sides_of_many[side]((uint8_t)c->width, c->input[i], m->output[i], count, gates_of(c, i), 3 * c->length, a);
        for (unsigned k = 0; k < count; k++)
            sum = mixed_in(sum, refusal, &a[k]);
    }
    return sum;
}

// Fills and compares; answers 0 where any amplitude differs.
static int made_many(struct many *m, const struct row *c, uint64_t *stream)
{
    int same = 1;
    m->row = c;
    for (unsigned i = 0; i < MANY_CIRCUITS; i++)
        for (unsigned k = 0; k < MANY; k++)
            m->output[i][k] = drawn_output(c, i, k % 2 == 0, stream);
    for (unsigned many = 0; many < 2; many++) {
        m->expected[many] = many_pass(m, PLAIN, many);
        same &= many_pass(m, PROVED, many) == m->expected[many];
    }
    return same;
}

static int many_slice(const struct many *m, unsigned side, unsigned many, unsigned passes, double *spent)
{
    int same = 1;
    double start = now(PROCESSOR);
    for (unsigned n = 0; n < passes; n++)
        same &= many_pass(m, side, many) == m->expected[many];
    *spent = (now(PROCESSOR) - start) / passes / MANY_CIRCUITS;
    return same;
}

static int choose_many_passes(struct many *m)
{
    int same = 1;
    for (unsigned s = 0; s < SIDES; s++) {
        for (unsigned many = 0; many < 2; many++) {
            double spent = 0;
            m->passes[s][many] = 0;
            while (same && m->passes[s][many] * spent * MANY_CIRCUITS < shortest_slice) {
                m->passes[s][many] += 1 + m->passes[s][many];
                same &= many_slice(m, s, many, m->passes[s][many], &spent);
            }
        }
    }
    return same;
}

static int time_many_round(struct many *m, unsigned round)
{
    int same = 1;
    for (unsigned n = 0; n < SIDES; n++) {
        unsigned side = (n + round) % SIDES;
        double spent[2];
        for (unsigned many = 0; many < 2; many++) {
            same &= many_slice(m, side, many, m->passes[side][many], &spent[many]);
            m->nanoseconds[side][many][round] = spent[many];
        }
        m->further[side][round] = (spent[1] - spent[0]) / (MANY - 1);
    }
    return same;
}

static int rising(const void *a, const void *b)
{
    double x = *(const double *)a, y = *(const double *)b;
    return (x > y) - (x < y);
}

// The lowest, the middle and the highest of some numbers.
struct range {
    double lowest, median, highest;
};

static struct range range_of(const double *numbers, unsigned count)
{
    static double sorted[MOST_ROUNDS];
    for (unsigned r = 0; r < count; r++)
        sorted[r] = numbers[r];
    qsort(sorted, count, sizeof *sorted, rising);
    return (struct range){sorted[0], sorted[count / 2], sorted[count - 1]};
}

// Numbers of one list over those of another, round by round.
static struct range range_over(const double *a, const double *b, double factor, unsigned rounds)
{
    static double over[MOST_ROUNDS];
    for (unsigned r = 0; r < rounds; r++)
        over[r] = factor * a[r] / b[r];
    return range_of(over, rounds);
}

static void print_range(struct range a, const char *form)
{
    char text[3][24];
    snprintf(text[0], sizeof *text, form, a.median);
    snprintf(text[1], sizeof *text, form, a.lowest);
    snprintf(text[2], sizeof *text, form, a.highest);
    printf(" | %s (%s to %s)", text[0], text[1], text[2]);
}

// Three digits or all before the point.
static void print_ratio(struct range a)
{
    print_range(a, a.median < 10 ? "%.2f" : a.median < 100 ? "%.1f" : "%.0f");
}

static void print_row(const struct row *c, unsigned rounds)
{
    printf("| %u | %u | %u of %u", c->width, c->length, c->zeros, c->amplitudes);
    for (unsigned s = 0; s < SIDES; s++) {
        double wall = range_of(c->nanoseconds[s][WALL], rounds).median;
        double processor = range_of(c->nanoseconds[s][PROCESSOR], rounds).median;
        printf(" | %.0f | %.1f | %.1f", 1e9 / wall, wall / c->length, processor / c->length);
    }
    for (unsigned k = 0; k < CLOCKS; k++)
        print_ratio(range_over(c->nanoseconds[PROVED][k], c->nanoseconds[PLAIN][k], 1, rounds));
    printf(" |\n");
}

static double ratio_of(const struct row *c, unsigned rounds)
{
    return range_over(c->nanoseconds[PROVED][PROCESSOR], c->nanoseconds[PLAIN][PROCESSOR], 1, rounds).median;
}

// The mean of the rows' ratios, and the rows with the lowest and the highest.
static void print_mean(const struct row *rows, unsigned count, unsigned rounds)
{
    const struct row *lowest = rows, *highest = rows;
    double sum = 0;
    for (unsigned n = 0; n < count; n++) {
        double ratio = ratio_of(&rows[n], rounds);
        sum += ratio;
        lowest = ratio < ratio_of(lowest, rounds) ? &rows[n] : lowest;
        highest = ratio > ratio_of(highest, rounds) ? &rows[n] : highest;
    }
    printf("\nproved / plain by processor time over these %u rows: mean %.2f, lowest %.2f (width %u, length %u), "
           "highest %.2f (width %u, length %u)\n",
           count, sum / count, ratio_of(lowest, rounds), lowest->width, lowest->length, ratio_of(highest, rounds),
           highest->width, highest->length);
}

static void print_kind(const struct row *c, const char *name, unsigned rounds)
{
    printf("| %s | %u of %u", name, c->zeros, c->amplitudes);
    for (unsigned s = 0; s < SIDES; s++)
        printf(" | %.1f", range_of(c->nanoseconds[s][PROCESSOR], rounds).median / c->length);
    for (unsigned k = 0; k < CLOCKS; k++)
        print_ratio(range_over(c->nanoseconds[PROVED][k], c->nanoseconds[PLAIN][k], 1, rounds));
    printf(" |\n");
}

static void print_many(const struct many *m, unsigned rounds)
{
    printf("| %u | %u", m->row->width, m->row->length);
    for (unsigned s = 0; s < SIDES; s++) {
        printf(" | %.0f | %.0f", range_of(m->nanoseconds[s][0], rounds).median, range_of(m->further[s], rounds).median);
        print_range(range_over(m->further[s], m->nanoseconds[s][0], 1, rounds), "%.3f");
    }
    print_ratio(range_over(m->further[PROVED], m->further[PLAIN], 1, rounds));
    printf(" |\n");
}

// Cost per gate of the longest over that of the shortest; and of one more gate, which leaves out what a call costs once.
static void print_growth(const struct row c[LENGTHS], unsigned side, unsigned rounds)
{
    double each[LENGTHS], gates = (double)lengths[0] / lengths[LENGTHS - 1];
    printf("| %u | %s", c->width, side == PROVED ? "proved" : "plain");
    for (unsigned k = 0; k < CLOCKS; k++)
        print_range(range_over(c[LENGTHS - 1].nanoseconds[side][k], c[0].nanoseconds[side][k], gates, rounds), "%.2f");
    for (unsigned l = 0; l < LENGTHS; l++)
        each[l] = range_of(c[l].nanoseconds[side][PROCESSOR], rounds).median;
    for (unsigned l = 1; l < LENGTHS; l++)
        printf(" | %.1f", (each[l] - each[l - 1]) / (lengths[l] - lengths[l - 1]));
    printf(" |\n");
}

static void print_mixed(const struct row *rows, unsigned rounds)
{
    printf("\n| width | length | zero | proved: amplitudes/s | ns/gate | by processor time "
           "| plain: amplitudes/s | ns/gate | by processor time | proved / plain, wall clock | by processor time |\n"
           "|---|---|---|---|---|---|---|---|---|---|---|\n");
    for (unsigned n = 0; n < MIXED_ROWS; n++)
        print_row(&rows[n], rounds);
    print_mean(rows, MIXED_ROWS, rounds);
    printf("\n| width | side | cost per gate, 4096 over 64, wall clock | by processor time "
           "| ns of one more gate, 64 to 512 | 512 to 4096 |\n|---|---|---|---|---|---|\n");
    for (unsigned w = 0; w < WIDTHS; w++)
        for (unsigned s = 0; s < SIDES; s++)
            print_growth(rows + w * LENGTHS, s, rounds);
}

static void print_kinds(const struct row *rows, unsigned rounds)
{
    printf("\n| every second gate (width %d, length %d) | zero | proved: ns/gate, processor time | plain: ns/gate, processor time "
           "| proved / plain, wall clock | by processor time |\n|---|---|---|---|---|---|\n", KIND_WIDTH, LONGEST);
    for (unsigned n = 0; n < GATE_CODES; n++)
        print_kind(&rows[n], names[n], rounds);
}

static void print_manys(const struct many *manys, unsigned rounds)
{
    printf("\n| width | length | proved: ns of the first output | of each further one (%d in all) | further / first "
           "| plain: ns of the first output | of each further one | further / first | proved / plain, further outputs |\n"
           "|---|---|---|---|---|---|---|---|---|\n", MANY);
    for (unsigned w = 0; w < WIDTHS; w++)
        print_many(&manys[w], rounds);
}

// Fills and compares every row; answers 0 where any amplitude differs.
static int made(struct row *rows, uint64_t *stream)
{
    int same = 1;
    unsigned zeros = 0, amplitudes = 0;
    for (unsigned n = 0; n < ROWS; n++) {
        if (n < MIXED_ROWS)
            fill_row(&rows[n], widths[n / LENGTHS], lengths[n % LENGTHS], 0, stream);
        else
            fill_row(&rows[n], KIND_WIDTH, LONGEST, gate_codes[n - MIXED_ROWS], stream);
        same &= compared(&rows[n]);
        zeros += rows[n].zeros;
        amplitudes += rows[n].amplitudes;
    }
    if (same)
        printf("%u amplitudes (%u zero), all the same from both\n", amplitudes, zeros);
    return same;
}

// Many outputs of circuits of length MANY_LENGTH, for each width.
static int made_manys(struct many *manys, const struct row *rows, uint64_t *stream)
{
    int same = 1;
    for (unsigned w = 0; w < WIDTHS; w++)
        for (unsigned l = 0; l < LENGTHS; l++)
            if (lengths[l] == MANY_LENGTH)
                same &= made_many(&manys[w], &rows[w * LENGTHS + l], stream);
    printf("%d outputs of each of %d circuits of length %d, width by width: %s\n", MANY, MANY_CIRCUITS, MANY_LENGTH,
           same ? "all the same from both" : "they differ");
    return same;
}

// Every row in every round, so that all see the same machine.
static int timed(struct row *rows, struct many *manys, unsigned rounds)
{
    int same = 1;
    for (unsigned n = 0; n < ROWS; n++)
        same &= choose_passes(&rows[n]);
    for (unsigned w = 0; w < WIDTHS; w++)
        same &= choose_many_passes(&manys[w]);
    for (unsigned r = 0; r < rounds; r++) {
        for (unsigned n = 0; n < ROWS; n++)
            same &= time_round(&rows[n], r);
        for (unsigned w = 0; w < WIDTHS; w++)
            same &= time_many_round(&manys[w], r);
    }
    return same;
}

int main(int argc, char **argv)
{
    static struct row rows[ROWS];
    static struct many manys[WIDTHS];
    unsigned rounds = argc > 1 ? (unsigned)strtoul(argv[1], NULL, 10) : 11;
    uint64_t seed = argc > 2 ? strtoull(argv[2], NULL, 10) : 1, stream = seed;
    if (rounds < 1 || rounds > MOST_ROUNDS) {
        fprintf(stderr, "rounds: 1 to %d\n", MOST_ROUNDS);
        return 2;
    }
    printf("seed %llu: ", (unsigned long long)seed);
    if (!made(rows, &stream) || !made_manys(manys, rows, &stream))
        return 1;
    if (!timed(rows, manys, rounds)) {
        printf("an answer changed while it was timed\n");
        return 1;
    }
    printf("%u rounds; medians, with the lowest and the highest of the rounds in brackets\n", rounds);
    print_mixed(rows, rounds);
    print_kinds(rows + MIXED_ROWS, rounds);
    print_manys(manys, rounds);
    return 0;
}
