/* Prints each answer's number, name and words, a line each, as include/rondo.h has them. */
#include <inttypes.h>
#include <stdio.h>

#include "rondo.h"

int main(void) {
    for (uint32_t i = 1; i < RONDO_ANSWERS; i++)
        printf("%" PRIu32 " %s: %s\n", i, rondo_refusal_name(i), rondo_refusal_words(i));
    return strcmp(rondo_refusal_name(RONDO_ANSWERS), "Unknown") || strcmp(rondo_refusal_name(UINT32_MAX), "Unknown");
}
