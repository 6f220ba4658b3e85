/* Slices of a file's bytes, its lines, and how bytes are shown on a terminal. */
#ifndef BYTES_H
#define BYTES_H

#include <stdbool.h>
#include <stddef.h>
#include <stdint.h>
#include <stdio.h>

typedef struct {
    const uint8_t *bytes;
    size_t length;
} slice;

/* A slice as the two arguments of "%.*s". */
#define SLICE(s) (int)(s).length, (const char *)(s).bytes

/* One line: its bytes without the line end, and where the next line starts. */
typedef struct {
    size_t start, end, next;
} line;

slice slice_of(const char *text);
slice part_of(slice whole, size_t start, size_t length);
bool same_text(slice s, const char *text);
bool contains(slice hay, slice needle);

line line_at(slice file, size_t start);
line line_of(slice file, size_t place);
size_t line_number(slice file, size_t place);

bool is_printable(uint8_t byte);
size_t cells_of(uint8_t byte);
void put_byte(FILE *to, uint8_t byte);
void put_bytes(FILE *to, slice s);

void *room_for(size_t count, size_t size);
void *larger(void *memory, size_t *room, size_t size);

#endif
