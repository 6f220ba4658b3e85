/* A sheet: lines of named cells, written as JSON Lines or as CSV (RFC 4180). */
#include "sheet.h"

#include <inttypes.h>
#include <string.h>

/* Whether JSON wants this byte escaped in a string; one past ASCII is too, so that all is ASCII. */
static bool json_escapes(uint8_t byte)
{
    return byte == '"' || byte == '\\' || !is_printable(byte);
}

/* Whether CSV wants a cell with this byte quoted. */
static bool csv_quotes(uint8_t byte)
{
    return byte == ',' || byte == '"' || byte == '\r' || byte == '\n';
}

/* How many bytes stand before the first one of that property; all where there is none. */
static size_t length_before(slice s, bool (*has_property)(uint8_t byte))
{
    size_t length = 0;
    while (length < s.length && !has_property(s.bytes[length]))
        length++;
    return length;
}

/* Writes the bytes between quotes as JSON wants them. */
static void put_json_string(FILE *to, slice s)
{
    fputc('"', to);
    while (s.length > 0) {
        size_t plain = length_before(s, json_escapes);
        fwrite(s.bytes, 1, plain, to);
        if (plain == s.length)
            break;
        uint8_t byte = s.bytes[plain];
        if (is_printable(byte))
            fprintf(to, "\\%c", byte);
        else
            fprintf(to, "\\u%04X", byte);
        s = part_of(s, plain + 1, s.length);
    }
    fputc('"', to);
}

/* Writes the bytes as a JSON string, or null where there are none. */
static void put_json_or_null(FILE *to, slice s)
{
    if (s.length > 0)
        put_json_string(to, s);
    else
        fputs("null", to);
}

/* Whether this byte is a quote. */
static bool is_quote(uint8_t byte)
{
    return byte == '"';
}

/* Writes the bytes with each quote doubled, for the inside of a quoted cell. */
static void put_doubled(FILE *to, slice s)
{
    for (size_t plain = length_before(s, is_quote); plain < s.length; plain = length_before(s, is_quote)) {
        fwrite(s.bytes, 1, plain + 1, to);
        fputc('"', to);
        s = part_of(s, plain + 1, s.length);
    }
    fwrite(s.bytes, 1, s.length, to);
}

/* Writes one cell of CSV, between quotes where it needs them. */
static void put_csv_cell(FILE *to, slice s)
{
    if (length_before(s, csv_quotes) == s.length) {
        fwrite(s.bytes, 1, s.length, to);
        return;
    }
    fputc('"', to);
    put_doubled(to, s);
    fputc('"', to);
}

/* Writes a member's name for JSON, after what stands before it and its quote. */
static void put_name_of(FILE *to, const char *before, const char *name)
{
    fputs(before, to);
    fputs(name, to);
    fputs("\":", to);
}

/* Goes to the column, as the next cell of the line: past a comma, and the name in JSON. */
static void go_to(sheet *s, size_t column)
{
    if (s->format == JSON_LINES) {
        put_name_of(s->to, s->at == 0 ? "\"" : ",\"", s->name_of(column));
        s->at = column + 1;
        return;
    }
    for (; s->at <= column; s->at++)
        if (s->at > 0)
            fputc(',', s->to);
}

/* Writes what stands before the first line: the columns' names in CSV, nothing in JSON. */
void begin_sheet(sheet *s)
{
    if (s->format == JSON_LINES)
        return;
    for (size_t i = 0; i < s->columns; i++)
        fprintf(s->to, "%s%s", i == 0 ? "" : ",", s->name_of(i));
    fputs("\r\n", s->to);
}

/* Begins a line. */
void begin_line(sheet *s)
{
    s->at = 0;
    if (s->format == JSON_LINES)
        fputc('{', s->to);
}

/* Ends the line. */
void end_line(sheet *s)
{
    if (s->format == CSV)
        go_to(s, s->columns - 1);
    fputs(s->format == JSON_LINES ? "}\n" : "\r\n", s->to);
}

/* Writes a cell that is a number. */
void put_number(sheet *s, size_t column, uint64_t number)
{
    go_to(s, column);
    fprintf(s->to, "%" PRIu64, number);
}

/* Writes a cell that is a text, in JSON by this function. */
static void put_cell(sheet *s, size_t column, slice text, void (*put_json)(FILE *to, slice s))
{
    go_to(s, column);
    (s->format == JSON_LINES ? put_json : put_csv_cell)(s->to, text);
}

/* Writes a cell that is a text. */
void put_text(sheet *s, size_t column, slice text)
{
    put_cell(s, column, text, put_json_string);
}

/* Writes a cell that is a text, or nothing where it is empty: null in JSON, an empty cell of CSV. */
void put_text_or_null(sheet *s, size_t column, slice text)
{
    put_cell(s, column, text, put_json_or_null);
}

/* Begins a cell that is a list. */
void begin_list(sheet *s, size_t column)
{
    go_to(s, column);
    if (s->format == JSON_LINES)
        fputc('[', s->to);
    s->entries = 0;
}

/* Goes to the list's next entry: past a comma in JSON; in CSV past a line feed, the first past the quote. */
static void go_to_entry(sheet *s)
{
    if (s->format == CSV)
        fputc(s->entries == 0 ? '"' : '\n', s->to);
    else if (s->entries > 0)
        fputc(',', s->to);
    s->entries++;
}

/* Writes an entry of the list that is a text, or nothing where it is empty, as a cell is. */
void put_entry(sheet *s, slice entry)
{
    go_to_entry(s);
    if (s->format == JSON_LINES)
        put_json_or_null(s->to, entry);
    else
        put_doubled(s->to, entry);
}

/* Writes an entry of the list that is two texts: an object in JSON, both with a blank between in CSV. */
void put_pair(sheet *s, const char *const names[2], const slice values[2])
{
    go_to_entry(s);
    for (size_t i = 0; i < 2; i++) {
        if (s->format == JSON_LINES) {
            put_name_of(s->to, i == 0 ? "{\"" : ",\"", names[i]);
            put_json_string(s->to, values[i]);
        } else {
            fputs(i == 0 ? "" : " ", s->to);
            put_doubled(s->to, values[i]);
        }
    }
    if (s->format == JSON_LINES)
        fputc('}', s->to);
}

/* Ends the list. */
void end_list(sheet *s)
{
    if (s->format == JSON_LINES)
        fputc(']', s->to);
    else if (s->entries > 0)
        fputc('"', s->to);
}
