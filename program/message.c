/* Messages on standard error. */
#include "message.h"

#include <stdarg.h>
#include <stdlib.h>
#include <string.h>

#include "bytes.h"
#include "status.h"

enum { LONGEST_MESSAGE = 8192 }; /* two paths and some words */

/* How many bytes the character has that stands here, in ASCII or UTF-8; 0 where there is none, or
   one that a terminal would obey instead of showing it. */
static size_t character_length(const uint8_t *text)
{
    if (is_printable(text[0]))
        return 1;
    size_t length = text[0] >= 0xF0 ? 4 : text[0] >= 0xE0 ? 3 : 2;
    if (text[0] < 0xC2 || text[0] > 0xF4 || (text[0] == 0xC2 && text[1] < 0xA0))
        return 0;
    for (size_t i = 1; i < length; i++)
        if ((text[i] & 0xC0) != 0x80)
            return 0;
    return length;
}

/* Shows a file's name as it is, except for bytes that are no character to be shown. */
void put_name(FILE *to, const char *name)
{
    while (*name != '\0') {
        size_t length = character_length((const uint8_t *)name);
        if (length == 0)
            fputc('?', to);
        else
            fwrite(name, 1, length, to);
        name += length > 0 ? length : 1;
    }
}

/* Tells a trouble in one line, after the program's name. */
void complain(const char *format, ...)
{
    char text[LONGEST_MESSAGE];
    va_list arguments;
    va_start(arguments, format);
    vsnprintf(text, sizeof text, format, arguments);
    va_end(arguments);
    fputs("bai2: ", stderr);
    put_name(stderr, text);
    fputc('\n', stderr);
}

/* Ends the program, since there is no memory left. */
_Noreturn void out_of_memory(void)
{
    complain("out of memory");
    exit(TROUBLE);
}
