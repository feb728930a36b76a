/* Why books are refused, from standard input to standard output: what tests/books/why asks for.
 *
 * A book is its length in 8 bytes, the lowest first, then its bytes. The answer is a line of 18 groups of five numbers (number, body, item,
 * byte, cause): of the book, and of its bodies 0 to 16. */
#include <stdio.h>
#include <stdlib.h>

#include "topazfern.h"

int main(void)
{
    static uint8_t book[70000];
    uint8_t head[8];

    while (fread(head, 1, 8, stdin) == 8) {
        size_t length = 0, body, item, byte;
        uint8_t cause, number;

        for (int i = 7; i >= 0; i--)
            length = length << 8 | head[i];
        if (length > sizeof book || fread(book, 1, length, stdin) != length)
            return 1;
        number = topazfern_why(book, length, &body, &item, &byte, &cause);
        printf("%d %zu %zu %zu %d", number, body, item, byte, cause);
        for (size_t j = 0; j <= 16; j++) {
            number = topazfern_why_body(book, length, j, &body, &item, &byte, &cause);
            printf("  %d %zu %zu %zu %d", number, body, item, byte, cause);
        }
        printf("\n");
    }
    return 0;
}
