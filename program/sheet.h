/* A sheet: lines of named cells, written as JSON Lines or as CSV (RFC 4180). */
#ifndef SHEET_H
#define SHEET_H

#include "bytes.h"

typedef enum { JSON_LINES, CSV } sheet_format;

/* A sheet that is being written. The cells of a line come in the order of their columns; a column that
   is left out is an empty cell of CSV, and no member of a JSON object. */
typedef struct {
    FILE *to;
    sheet_format format;
    const char *(*name_of)(size_t column);
    size_t columns;
    size_t at;      /* the column after the line's last cell so far */
    size_t entries; /* of the list that is open */
} sheet;

void begin_sheet(sheet *s);
void begin_line(sheet *s);
void end_line(sheet *s);

void put_number(sheet *s, size_t column, uint64_t number);
void put_text(sheet *s, size_t column, slice text);
void put_text_or_null(sheet *s, size_t column, slice text);

void begin_list(sheet *s, size_t column);
void put_entry(sheet *s, slice entry);
void put_pair(sheet *s, const char *const names[2], const slice values[2]);
void end_list(sheet *s);

#endif
