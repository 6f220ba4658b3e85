/* Random numbers and growing bytes for the generator. */
#include <stdio.h>
#include <stdlib.h>
#include <string.h>

#include "generate.h"

/* A source of random numbers that starts from a seed. */
dice dice_of(uint64_t seed)
{
    dice d = {.state = seed * UINT64_C(0x9E3779B97F4A7C15) + UINT64_C(0x2545F4914F6CDD1D)};
    if (d.state == 0)
        d.state = 1;
    for (int i = 0; i < 8; i++)
        roll(&d, 2);
    return d;
}

/* A number from 0 to sides - 1 (xorshift64*). */
uint64_t roll(dice *d, uint64_t sides)
{
    d->state ^= d->state >> 12;
    d->state ^= d->state << 25;
    d->state ^= d->state >> 27;
    return (d->state * UINT64_C(0x2545F4914F6CDD1D) >> 11) % sides;
}

/* True so many times of a thousand. */
bool chance(dice *d, unsigned of_thousand)
{
    return roll(d, 1000) < of_thousand;
}

/* A number from low to high. */
size_t between(dice *d, size_t low, size_t high)
{
    return low + (size_t)roll(d, high - low + 1);
}

/* Empties the bytes. */
void clear(buffer *b)
{
    b->length = 0;
}

/* Adds bytes at the end. */
void add_bytes(buffer *b, const void *bytes, size_t length)
{
    if (b->length + length > b->room) {
        b->room = 2 * (b->length + length) + 1024;
        b->bytes = realloc(b->bytes, b->room);
        if (b->bytes == NULL) {
            fputs("out of memory\n", stderr);
            exit(2);
        }
    }
    if (length > 0)
        memcpy(b->bytes + b->length, bytes, length);
    b->length += length;
}

/* Adds a C string at the end. */
void add_text(buffer *b, const char *text)
{
    add_bytes(b, text, strlen(text));
}

/* Adds one byte at the end. */
void add_byte(buffer *b, uint8_t byte)
{
    add_bytes(b, &byte, 1);
}

/* Gives the memory back. */
void release(buffer *b)
{
    free(b->bytes);
    *b = (buffer){0};
}
