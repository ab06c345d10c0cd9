/* Prints the refusals in words: a line for each number that kahopiru_refusal_text has a text for, with the number, a
   tab and the text. Wants the header alone, and no archive. */
#include "kahopiru.h"

#include <stdio.h>
#include <string.h>

int main(void) {
    const char *unknown = kahopiru_refusal_text(UINT32_MAX);
    for (uint32_t number = 0; number < 256; number++) {
        const char *text = kahopiru_refusal_text(number);
        if (strcmp(text, unknown) != 0)
            printf("%u\t%s\n", (unsigned)number, text);
    }
    return 0;
}
