/* Calls on tableaux, as tests/tableau/pairs writes them, one a line: a check answered by its number of refusal and the flag behind
 * the pointer, a pair asked for by its number, the signs behind the pointer and every word of the list. */
#include <inttypes.h>
#include <stdio.h>
#include <stdlib.h>
#include <string.h>

#include "topazfern.h"

static char word[200000];
static uint8_t gates[100000];
static uint64_t rows[200];

static uint64_t number(void)
{
    uint64_t n = 0;

    return scanf("%" SCNu64, &n) == 1 ? n : 0;
}

/* The bytes of a word of two digits each; "-" for none. */
static size_t bytes(void)
{
    size_t n = 0;

    if (scanf("%199999s", word) != 1 || word[0] == '-')
        return 0;
    for (char *at = word; at[0] && at[1]; at += 2) {
        char two[3] = {at[0], at[1], 0};

        gates[n++] = (uint8_t)strtoul(two, NULL, 16);
    }
    return n;
}

int main(void)
{
    char call[16];

    while (scanf("%15s", call) == 1) {
        uint8_t edition = (uint8_t)number(), width = (uint8_t)number(), holds = 9, refused;
        size_t length = bytes();
        uint64_t h = number();
        size_t count = (size_t)number();

        for (size_t j = 0; j < count; j++)
            rows[j] = number();
        if (strcmp(call, "check") == 0) {
            refused = topazfern_tableau(edition, width, gates, length, rows, count, h, &holds);
            printf("%d %d\n", refused, holds);
        } else {
            refused = topazfern_tableau_of(edition, width, gates, length, rows, count, &h);
            printf("%d %" PRIu64, refused, h);
            for (size_t j = 0; j < count; j++)
                printf(" %" PRIu64, rows[j]);
            printf("\n");
        }
    }
    return 0;
}
