/* Document 01, "Lines and records": what a line begins with. */
#ifndef ORACLE_LINES_H
#define ORACLE_LINES_H

#include <string.h>

#include "oracle_inner.h"

/* The code that a line begins with, or 0. */
static unsigned code_at(const uint8_t *file, line l)
{
    if (l.end - l.start < 3 || file[l.start + 2] != ',')
        return 0;
    if (!is_digit(file[l.start]) || !is_digit(file[l.start + 1]))
        return 0;
    unsigned code = (unsigned)(file[l.start] - '0') * 10 + (unsigned)(file[l.start + 1] - '0');
    switch (code) {
    case FILE_HEADER: case GROUP_HEADER: case ACCOUNT_HEADER: case DETAIL:
    case ACCOUNT_TRAILER: case CONTINUATION: case GROUP_TRAILER: case FILE_TRAILER:
        return code;
    default:
        return 0;
    }
}

/* Whether a continuation line starts here. */
static bool continues(const uint8_t *file, size_t length, size_t at)
{
    return length - at >= 3 && memcmp(file + at, "88,", 3) == 0;
}

#endif
