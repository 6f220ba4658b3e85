/* Slices of a file's bytes, its lines, and how bytes are shown on a terminal. */
#include "bytes.h"

#include <stdlib.h>
#include <string.h>

#include "message.h"

enum {
    ESCAPED = 4, /* cells of a byte shown as \x09 */
    FIRST_ROOM = 256,
    GROWTH = 4
};

/* A C string as a slice. */
slice slice_of(const char *text)
{
    return (slice){(const uint8_t *)text, strlen(text)};
}

/* The part of a slice that has `length` bytes from `start` on, as far as the slice reaches. */
slice part_of(slice whole, size_t start, size_t length)
{
    if (start >= whole.length)
        return (slice){whole.bytes, 0};
    size_t left = whole.length - start;
    return (slice){whole.bytes + start, length < left ? length : left};
}

/* Whether the slice is exactly that text. */
bool same_text(slice s, const char *text)
{
    return s.length == strlen(text) && (s.length == 0 || memcmp(s.bytes, text, s.length) == 0);
}

/* The byte as a small letter, where it is a capital one. */
static uint8_t small(uint8_t byte)
{
    return byte >= 'A' && byte <= 'Z' ? (uint8_t)(byte + ('a' - 'A')) : byte;
}

/* Whether the needle, its letters great or small, stands at the front of the hay. */
static bool begins_with(const uint8_t *hay, slice needle)
{
    for (size_t i = 0; i < needle.length; i++)
        if (small(hay[i]) != small(needle.bytes[i]))
            return false;
    return true;
}

/* Whether the needle stands anywhere in the hay, its letters great or small. */
bool contains(slice hay, slice needle)
{
    for (size_t i = 0; i + needle.length <= hay.length; i++)
        if (begins_with(hay.bytes + i, needle))
            return true;
    return false;
}

/* The line that starts here; a CR directly before its LF belongs to the line end. */
line line_at(slice file, size_t start)
{
    if (start >= file.length)
        return (line){file.length, file.length, file.length};
    const uint8_t *lf = memchr(file.bytes + start, '\n', file.length - start);
    if (lf == NULL)
        return (line){start, file.length, file.length};
    size_t end = (size_t)(lf - file.bytes);
    size_t next = end + 1;
    if (end > start && file.bytes[end - 1] == '\r')
        end--;
    return (line){start, end, next};
}

/* The line that this byte stands in; the file's end stands after its last line end. */
line line_of(slice file, size_t place)
{
    size_t start = place < file.length ? place : file.length;
    while (start > 0 && file.bytes[start - 1] != '\n')
        start--;
    return line_at(file, start);
}

/* The number, from 1, of the line that this byte stands in. */
size_t line_number(slice file, size_t place)
{
    size_t number = 1;
    for (size_t at = 0; at < place && at < file.length; number++) {
        const uint8_t *lf = memchr(file.bytes + at, '\n', file.length - at);
        if (lf == NULL || (size_t)(lf - file.bytes) >= place)
            break;
        at = (size_t)(lf - file.bytes) + 1;
    }
    return number;
}

/* Whether a terminal shows this byte as one character. */
bool is_printable(uint8_t byte)
{
    return byte >= 0x20 && byte <= 0x7E;
}

/* How many cells of a terminal this byte takes as put_byte shows it. */
size_t cells_of(uint8_t byte)
{
    return is_printable(byte) ? 1 : ESCAPED;
}

/* Shows one byte, as \x09 where it is not printable. */
void put_byte(FILE *to, uint8_t byte)
{
    if (is_printable(byte))
        fputc(byte, to);
    else
        fprintf(to, "\\x%02X", byte);
}

/* Shows bytes, those not printable as \x09. */
void put_bytes(FILE *to, slice s)
{
    for (size_t i = 0; i < s.length; i++)
        put_byte(to, s.bytes[i]);
}

/* Memory for so many of that size, all zero; ends the program where there is none. */
void *room_for(size_t count, size_t size)
{
    void *room = calloc(count > 0 ? count : 1, size);
    if (room == NULL)
        out_of_memory();
    return room;
}

/* The memory with what it holds, but room for several times as many of that size; ends the program
   where there is none. */
void *larger(void *memory, size_t *room, size_t size)
{
    *room = *room == 0 ? FIRST_ROOM : *room * GROWTH;
    void *grown = realloc(memory, *room * size);
    if (grown == NULL)
        out_of_memory();
    return grown;
}
