/* What both programs use: slices, and lines of what a call came to. */
#ifndef PRINTING_H
#define PRINTING_H

#include "kvistmaur.h"

#include <inttypes.h>
#include <stdio.h>

/* A slice as the header has it: a pointer and a length. */
struct slice {
    uint8_t *start;
    size_t count;
};

#define LEND(slice) (slice).start, (slice).count

/* Prints a blank and bytes in hexadecimal digits. */
static void print_bytes(const uint8_t *bytes, size_t count)
{
    size_t i;
    printf(" ");
    for (i = 0; i < count; i++)
        printf("%02x", bytes[i]);
}

/* Prints what was done, the answer and the rounds; the bytes that are lent follow in the same line. */
static void print_answer(const char *what, uint64_t returned)
{
    printf("%s %" PRIu64 " %" PRIu64, what, KVISTMAUR_ANSWER(returned), KVISTMAUR_ROUNDS(returned));
}

#endif
