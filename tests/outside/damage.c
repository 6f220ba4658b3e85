/* Damage to a finished file: bytes, lines and ends. And the mix of all files. */
#include <string.h>

#include "generate.h"

enum { LONGEST_FILE = 16777216 };

#define NAME_76 "0123456789 123456789 123456789 123456789 123456789 123456789 123456789 12345"

/* Takes bytes out of a file and puts others in their place. */
static void replace(buffer *b, size_t at, size_t out_length, const uint8_t *in, size_t in_length)
{
    buffer tail = {0};
    add_bytes(&tail, b->bytes + at + out_length, b->length - at - out_length);
    b->length = at;
    add_bytes(b, in, in_length);
    add_bytes(b, tail.bytes, tail.length);
    release(&tail);
}

/* A byte that matters to a reader. */
static uint8_t telling_byte(dice *d)
{
    static const uint8_t bytes[] = {0x1F, 0x20, 0x7E, 0x7F, 0x80, 0x00, '\r', '\n', '\t', ',', '/', '-', '+',
                                    '0', '1', '2', '8', '9', 'A', 'Z'};
    return bytes[roll(d, sizeof bytes)];
}

/* The start of a line, chosen at random. */
static size_t some_line(dice *d, const buffer *b)
{
    size_t at = (size_t)roll(d, b->length);
    while (at > 0 && b->bytes[at - 1] != '\n')
        at--;
    return at;
}

/* Where the line that starts here ends, its LF included. */
static size_t line_end(const buffer *b, size_t at)
{
    const uint8_t *lf = memchr(b->bytes + at, '\n', b->length - at);
    return lf == NULL ? b->length : (size_t)(lf - b->bytes) + 1;
}

/* A digit, chosen at random, or the file's length where none is near. */
static size_t some_digit(dice *d, const buffer *b)
{
    size_t at = (size_t)roll(d, b->length);
    while (at < b->length && (b->bytes[at] < '0' || b->bytes[at] > '9'))
        at++;
    return at;
}

/* Changes one byte. */
static void change_byte(dice *d, buffer *b)
{
    size_t at = (size_t)roll(d, b->length);
    if (chance(d, 300))
        b->bytes[at] = (uint8_t)(b->bytes[at] ^ (1U << roll(d, 8)));
    else
        b->bytes[at] = telling_byte(d);
}

/* Takes a byte out. */
static void delete_byte(dice *d, buffer *b)
{
    replace(b, (size_t)roll(d, b->length), 1, NULL, 0);
}

/* Puts a byte in. */
static void insert_byte(dice *d, buffer *b)
{
    uint8_t byte = telling_byte(d);
    replace(b, (size_t)roll(d, b->length + 1), 0, &byte, 1);
}

/* Makes a digit another one. */
static void change_digit(dice *d, buffer *b)
{
    size_t at = some_digit(d, b);
    if (at < b->length)
        b->bytes[at] = (uint8_t)('0' + roll(d, 10));
}

/* Adds a digit to a number. */
static void insert_digit(dice *d, buffer *b)
{
    uint8_t digit = (uint8_t)('0' + roll(d, 10));
    replace(b, some_digit(d, b), 0, &digit, 1);
}

/* Puts a line in twice, or at another place. */
static void copy_line(dice *d, buffer *b)
{
    buffer line = {0};
    size_t from = some_line(d, b), to = chance(d, 500) ? from : some_line(d, b);
    add_bytes(&line, b->bytes + from, line_end(b, from) - from);
    replace(b, to, 0, line.bytes, line.length);
    release(&line);
}

/* Takes a line out. */
static void drop_line(dice *d, buffer *b)
{
    size_t at = some_line(d, b);
    replace(b, at, line_end(b, at) - at, NULL, 0);
}

/* Swaps a line with the next one. */
static void swap_lines(dice *d, buffer *b)
{
    buffer line = {0};
    size_t at = some_line(d, b), middle = line_end(b, at);
    if (middle == b->length)
        return;
    add_bytes(&line, b->bytes + at, middle - at);
    size_t end = line_end(b, middle);
    replace(b, end, 0, line.bytes, line.length);
    replace(b, at, middle - at, NULL, 0);
    release(&line);
}

/* Cuts the file's end off. */
static void cut_end(dice *d, buffer *b)
{
    b->length -= chance(d, 500) ? (size_t)roll(d, b->length < 20 ? b->length : 20)
                                : (size_t)roll(d, b->length);
}

/* Puts a line in: empty, an 88, or a record out of place. */
static void insert_line(dice *d, buffer *b)
{
    static const char *const rows[] = {"\n", "\r\n", " \n", "88,/\n", "88,\n", "88,X\n", "88,X/\n", "88\n",
                                       "88,0,\x7F\n", "16,165,0,,,,/\n", "16,165,0,,,/\n", "49,0,2/\n",
                                       "16,905,0,,,,/\n", "88,905,-0,,/\n", "03,A,,,,,/\n", "89,X/\n",
                                       "99,0,0,2/\n"};
    const char *row = rows[roll(d, sizeof rows / sizeof *rows)];
    size_t at = some_line(d, b);
    if (chance(d, 150))
        at = 0;
    if (chance(d, 200))
        at = b->length;
    replace(b, at, 0, (const uint8_t *)row, strlen(row));
}

/* Puts a CR in front of a line's end, or somewhere. */
static void insert_cr(dice *d, buffer *b)
{
    size_t at = line_end(b, some_line(d, b)) - 1;
    if (chance(d, 200))
        at = (size_t)roll(d, b->length + 1);
    replace(b, at, 0, (const uint8_t *)"\r", 1);
}

/* Makes a line 4,096 or 4,097 bytes long with blanks at its end. */
static void lengthen_line(dice *d, buffer *b)
{
    uint8_t blanks[4097];
    size_t at = some_line(d, b), end = line_end(b, at);
    size_t wanted = chance(d, 500) ? 4096 : 4097;
    if (end == at || b->bytes[end - 1] != '\n' || end - 1 - at >= wanted)
        return;
    memset(blanks, ' ', sizeof blanks);
    size_t stop = end - 1 > at && b->bytes[end - 2] == '\r' ? end - 2 : end - 1;
    replace(b, stop, 0, blanks, wanted - (stop - at));
}

/* Damages a file once. */
void damage(dice *d, buffer *file)
{
    static void (*const ways[])(dice *, buffer *) = {
        change_byte, change_byte, delete_byte, insert_byte, change_digit, change_digit, insert_digit,
        copy_line, drop_line, swap_lines, cut_end, insert_line, insert_cr, lengthen_line};
    if (file->length > 0)
        ways[roll(d, sizeof ways / sizeof *ways)](d, file);
}

/* Whether a field can't go on past this byte. */
static bool ends_field(uint8_t byte)
{
    return byte == ',' || byte == '/' || byte == '\n' || byte == '\r';
}

/* A field of any kind, good or bad for the place it comes to; every third has an end of its own, or is
   as long as a name may be, or longer. */
static const char *some_field(dice *d)
{
    static const char *const fields[] = {
        "", "", "0", "1", "2", "3", "4", "5", "Z", "S", "V", "D", "X", " ", "-1", "+1", "-", "000", "002", "999",
        "1000", "010", "100", "165", "890", "899", "900", "905", "919", "920", "040229", "050229", "0406",
        "2400", "2401", "1260", "9999", "48", "47", "USD", "usd", "123456789", "1234567890",
        "999999999999999999", "+999999999999999999", "1000000000000000000", "A\x7F" "B", "\x80", "\r", "88"};
    static const char *const others[] = {
        ",", "/", "/ ", "/X", "A/ B", "/\n88,", "/ \r\n88,", "1/\n88,", "/\n88,/\n88,", "\n88,", "1\n88,", "\n",
        "\r\n", NAME_76, NAME_76 "X", NAME_76 "X"};
    return chance(d, 333) ? others[roll(d, sizeof others / sizeof *others)]
                          : fields[roll(d, sizeof fields / sizeof *fields)];
}

/* Puts another field in the place of one. */
static void damage_field(dice *d, buffer *b)
{
    const char *field = some_field(d);
    size_t start = (size_t)roll(d, b->length), end = start;
    while (start > 0 && !ends_field(b->bytes[start - 1]))
        start--;
    while (end < b->length && !ends_field(b->bytes[end]))
        end++;
    replace(b, start, end - start, (const uint8_t *)field, strlen(field));
}

/* Puts other fields in the place of some of a file's: about one for two lines. */
void damage_fields(dice *d, buffer *file)
{
    size_t times = 1 + (size_t)roll(d, file->length < 8000 ? file->length / 40 + 1 : 200);
    for (size_t i = 0; i < times && file->length > 0; i++)
        damage_field(d, file);
}

/* A file of more bytes than allowed; what they are does not matter. */
static void generate_oversize(dice *d, buffer *out)
{
    static const uint8_t block[1 << 16];
    while (out->length <= LONGEST_FILE)
        add_bytes(out, block, sizeof block);
    out->length = LONGEST_FILE + between(d, 1, 100);
}

/* Any file: good, with a slip, damaged, empty or too long. True where it is surely good. */
bool generate_any(dice *d, buffer *out)
{
    size_t sort = (size_t)roll(d, 1000);
    if (sort < 330) {
        generate_good(d, out);
    } else if (sort < 700) {
        generate_with_slip(d, out);
    } else if (sort < 992) {
        generate_good(d, out);
        size_t times = chance(d, 800) ? 1 : between(d, 2, 4);
        for (size_t i = 0; i < times; i++)
            damage(d, out);
    } else if (sort < 998) {
        clear(out);
    } else {
        clear(out);
        generate_oversize(d, out);
    }
    return sort < 330;
}
