/* A book on standard input, listed all or nothing: the strict reading by name. */
#include <stdio.h>

#include "topazfern.h"

int main(void)
{
    static uint8_t book[60001]; /* one byte more than a book may have */
    uint8_t text[TOPAZFERN_LISTING_MAX];
    size_t length = fread(book, 1, sizeof book, stdin);
    size_t told = topazfern_listing_strict(book, length, text, sizeof text);

    return fwrite(text, 1, told, stdout) == told && fflush(stdout) == 0 ? 0 : 1;
}
