/* Calls on one-wire elements, as tests/cliffords/runs writes them, one a line: each answered by its number of refusal and what stands behind the pointer.
 * A run that is closed is run too, as gates of edition 2: from 0 only 0 is left, and a phase. */
#include <stdio.h>
#include <string.h>

#include "topazfern.h"

static uint8_t numbers[70000];

static int number(void)
{
    int n = 0;

    return scanf("%d", &n) == 1 ? n : 0;
}

/* A run as gates, the closing element last, on the middle one of three wires. */
static void run(size_t count, uint8_t element)
{
    static uint8_t gates[3 * 4096];
    uint8_t zero = 9, phase = 9, none = 9;
    int32_t power = 9;

    if (count >= 4096)
        return;
    for (size_t n = 0; n <= count; n++) {
        gates[3 * n] = (uint8_t)(32 + (n < count ? numbers[n] : element));
        gates[3 * n + 1] = 1;
        gates[3 * n + 2] = 0;
    }
    if (topazfern_amplitude(2, 3, 5, 5, gates, 3 * (count + 1), &zero, &power, &phase) != 0 || zero != 0 || power != 0)
        printf("not closed\n");
    if (topazfern_amplitude(2, 3, 5, 7, gates, 3 * (count + 1), &none, &power, &phase) != 0 || none != 1)
        printf("left elsewhere\n");
    if (topazfern_amplitude(1, 3, 5, 5, gates, 3 * (count + 1), &zero, &power, &phase) != 7)
        printf("known to edition 1\n");
}

int main(void)
{
    char call[16];

    while (scanf("%15s", call) == 1) {
        uint8_t element = 99, refused, i;

        if (strcmp(call, "product") == 0) {
            i = (uint8_t)number();
            refused = topazfern_product(i, (uint8_t)number(), &element);
        } else if (strcmp(call, "inverse") == 0) {
            refused = topazfern_inverse((uint8_t)number(), &element);
        } else {
            size_t count = (size_t)number();

            for (size_t n = 0; n < count && n < sizeof numbers; n++)
                numbers[n] = (uint8_t)number();
            refused = topazfern_closing(numbers, count, &element);
            if (refused == 0)
                run(count, element);
        }
        printf("%d %d\n", refused, element);
    }
    return 0;
}
