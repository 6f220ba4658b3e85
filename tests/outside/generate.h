/* A deterministic generator of BAI2 files: good ones of every form, ones with one slip in a field, a
   total or a line, and ones damaged byte by byte. It keeps its own sums and knows no reader. */
#ifndef GENERATE_H
#define GENERATE_H

#include <stdbool.h>
#include <stddef.h>
#include <stdint.h>

/* A source of random numbers; the same seed gives the same files. */
typedef struct {
    uint64_t state;
    bool customised; /* most types of the files are of 890 to 930, some of 900 to 999 */
    bool amounts;    /* the files are small, and most of their amounts and counts of a form to tell apart */
} dice;

dice dice_of(uint64_t seed);
uint64_t roll(dice *d, uint64_t sides);          /* 0 to sides - 1 */
bool chance(dice *d, unsigned of_thousand);
size_t between(dice *d, size_t low, size_t high); /* both included */

/* Bytes that grow. */
typedef struct {
    uint8_t *bytes;
    size_t length, room;
} buffer;

void clear(buffer *b);
void add_bytes(buffer *b, const void *bytes, size_t length);
void add_text(buffer *b, const char *text);
void add_byte(buffer *b, uint8_t byte);
void release(buffer *b);

/* A file that a reader must accept. */
void generate_good(dice *d, buffer *out);

/* Any file: good, with a slip, or damaged. True where it is surely good. */
bool generate_any(dice *d, buffer *out);

/* A receiver's name from those that the generated groups carry, not the empty one. */
void generate_receiver(dice *d, buffer *out);

/* A printable name of that length without comma and slash, blanks inside. */
void generate_name(dice *d, buffer *out, size_t length);

/* Puts other fields in the place of some of a file's. */
void damage_fields(dice *d, buffer *file);

/* What generate.c and damage.c share. */
void generate_with_slip(dice *d, buffer *out);
void damage(dice *d, buffer *file);

#endif
