/* Edits of books, one after the other, from standard input to standard output: what tests/books/edits asks for.
 *
 * An edit is 1 byte (0 remove, 1 replace, 2 add), then, 8 bytes each and the lowest first, the area's length, the stated length, the
 * number of the body and the new body's length; then kind and width; then the area and the new body. The answer is the refusal, the new
 * length in 8 bytes, and the area. Bytes on both sides of the area must stay. */
#include <stdio.h>
#include <stdlib.h>
#include <string.h>

#include "topazfern.h"

enum { MARGIN = 64, MARK = 0xA5 };

static size_t number(const uint8_t *from)
{
    size_t value = 0;

    for (int i = 7; i >= 0; i--)
        value = value << 8 | from[i];
    return value;
}

static int marked(const uint8_t *from)
{
    for (int i = 0; i < MARGIN; i++)
        if (from[i] != MARK)
            return 0;
    return 1;
}

int main(void)
{
    uint8_t head[35], answer[9];

    while (fread(head, 1, sizeof head, stdin) == sizeof head) {
        size_t room = number(head + 1), length = number(head + 9), j = number(head + 17), size = number(head + 25), told = 77;
        uint8_t kind = head[33], width = head[34];
        uint8_t *held = malloc(room + 2 * MARGIN), *area = held + MARGIN, *body = malloc(size + 1);

        if (!held || !body)
            return 2;
        memset(held, MARK, room + 2 * MARGIN);
        if (fread(area, 1, room, stdin) != room || fread(body, 1, size, stdin) != size)
            return 2;
        if (head[0] == 0)
            answer[0] = topazfern_remove(area, room, length, j, &told);
        else if (head[0] == 1)
            answer[0] = topazfern_replace(area, room, length, j, kind, width, body, size, &told);
        else
            answer[0] = topazfern_add(area, room, length, kind, width, body, size, &told);
        if (!marked(held) || !marked(area + room))
            return 3;
        for (int i = 0; i < 8; i++)
            answer[1 + i] = (uint8_t)(told >> 8 * i);
        fwrite(answer, 1, sizeof answer, stdout);
        fwrite(area, 1, room, stdout);
        free(held);
        free(body);
    }
    return fflush(stdout) == 0 && !ferror(stdout) ? 0 : 1;
}
