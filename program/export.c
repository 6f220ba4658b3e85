/* The export: an accepted file's records and items, a line each, for scripts and spreadsheets.

   The library hands out the records and their fields, and says what each field is; nothing here looks
   for commas or slashes. A field goes to the next column, in the table's order, that its record has and
   that takes its kind. */
#include "export.h"

#include <inttypes.h>

#include "codes.h"
#include "record.h"

/* A record's code (98 and 99 are those of no other when divided by 64), or a field's kind, as a bit. */
#define CODE(code) (UINT64_C(1) << (code) % 64)
#define KIND(kind) (UINT64_C(1) << BAI2_FIELD_##kind)

/* The records that have a column, where it is more than one. */
#define HEADERS (CODE(1) | CODE(2))
#define TYPED (CODE(3) | CODE(16))
#define IN_ACCOUNT (TYPED | CODE(49))
#define IN_GROUP (CODE(2) | IN_ACCOUNT | CODE(98))
#define TRAILERS (CODE(49) | CODE(98) | CODE(99))

/* A column: its name, which records have it, and which kinds of field it takes. */
typedef struct {
    const char *name;
    uint64_t codes, kinds;
} column;

/* The columns that are told without a field: the record's code, a place, numbers counted from 0, and the
   account's number again on each of its lines. */
enum { RECORD, PLACE, GROUP, ACCOUNT, ITEM, DETAIL_NUMBER, ACCOUNT_NUMBER };

static const column columns[] = {
    [RECORD] = {"record", 0, 0},
    [PLACE] = {"place", 0, 0},
    [GROUP] = {"group", IN_GROUP, 0},
    [ACCOUNT] = {"account", IN_ACCOUNT, 0},
    [ITEM] = {"item", CODE(3), 0},
    [DETAIL_NUMBER] = {"detail", CODE(16), 0},
    [ACCOUNT_NUMBER] = {"account_number", IN_ACCOUNT, 0},
    {"sender", CODE(1), KIND(NAME)},
    {"receiver", CODE(1), KIND(NAME)},
    {"ultimate_receiver", CODE(2), KIND(ULTIMATE_RECEIVER)},
    {"originator", CODE(2), KIND(NAME)},
    {"status", CODE(2), KIND(GROUP_STATUS)},
    {"date", HEADERS, KIND(DATE)},
    {"time", HEADERS, KIND(TIME) | KIND(TIME_OR_NONE)},
    {"file_number", CODE(1), KIND(FILE_NUMBER)},
    {"physical_length", CODE(1), KIND(PHYSICAL_LENGTH)},
    {"block_size", CODE(1), KIND(BLOCK_SIZE)},
    {"version", CODE(1), KIND(VERSION)},
    {"currency", CODE(2) | CODE(3), KIND(CURRENCY)},
    {"modifier", CODE(2), KIND(MODIFIER)},
    {"type", TYPED, KIND(TYPE) | KIND(FURTHER_TYPE) | KIND(DETAIL_TYPE)},
    {"type_name", TYPED, 0}, /* comes with the type */
    {"amount", TYPED, KIND(AMOUNT) | KIND(STATUS_AMOUNT) | KIND(NOTHING)},
    {"amount_form", TYPED, 0}, /* comes with the amount */
    {"item_count", CODE(3), KIND(ITEM_COUNT) | KIND(NOTHING)},
    {"funds", TYPED, KIND(FUNDS) | KIND(NOTHING)},
    {"split_amounts", TYPED, KIND(SPLIT_AMOUNT)},
    {"value_date", TYPED, KIND(DATE)},
    {"value_time", TYPED, KIND(TIME_OR_NONE)},
    {"pair_count", TYPED, KIND(PAIR_COUNT)},
    {"pairs", TYPED, KIND(DAYS) | KIND(DAY_AMOUNT)},
    {"bank_reference", CODE(16), KIND(REFERENCE)},
    {"customer_reference", CODE(16), KIND(REFERENCE)},
    {"text", CODE(16), KIND(TEXT) | KIND(FURTHER_TEXT)},
    {"total", TRAILERS, KIND(TOTAL)},
    {"total_form", TRAILERS, 0}, /* comes with the total */
    {"accounts", CODE(98), KIND(COUNT)},
    {"groups", CODE(99), KIND(COUNT)},
    {"records", TRAILERS, KIND(RECORDS)},
};
enum { COLUMNS = sizeof columns / sizeof columns[0] };

/* The walk: the fields of the record where it stands, and what was met so far. */
typedef struct {
    sheet sheet;
    fields fields;
    uint64_t code; /* of the record */
    uint64_t met[ACCOUNT_NUMBER]; /* groups of the file, accounts of the group, items and details of the account */
    slice account_number;
} walk;

/* A column's name. */
static const char *name_of(size_t c)
{
    return columns[c].name;
}

/* Whether the record has this column. */
static bool has(const walk *w, size_t c)
{
    return (columns[c].codes & CODE(w->code)) != 0;
}

/* Whether the column takes fields of this kind. */
static bool takes(size_t c, uint64_t kind)
{
    return (columns[c].kinds >> kind % 64 & 1) != 0;
}

/* The column for a field of this kind, from the line's last cell on; COLUMNS where there is none. */
static size_t column_for(const walk *w, uint64_t kind)
{
    size_t c = w->sheet.at;
    while (c < COLUMNS && !(has(w, c) && takes(c, kind)))
        c++;
    return c;
}

/* Writes the fields from this index on that the column takes, as a list; answers the index after them. A
   text that is empty is none. */
static size_t put_list(walk *w, size_t c, size_t i, size_t end)
{
    begin_list(&w->sheet, c);
    for (; i < end && takes(c, kind_at(&w->fields, i)); i++) {
        slice value = field_at(&w->fields, i);
        if (kind_at(&w->fields, i) != BAI2_FIELD_TEXT || value.length > 0)
            put_entry(&w->sheet, value);
    }
    end_list(&w->sheet);
    return i;
}

/* Writes the pairs of days and amount from this index on as a list; answers the index after them. */
static size_t put_pairs(walk *w, size_t c, size_t i, size_t end)
{
    static const char *const names[] = {"days", "amount"};
    begin_list(&w->sheet, c);
    for (; i + 1 < end && kind_at(&w->fields, i) == BAI2_FIELD_DAYS; i += 2)
        put_pair(&w->sheet, names, (slice[]){field_at(&w->fields, i), field_at(&w->fields, i + 1)});
    end_list(&w->sheet);
    return i;
}

/* Writes a type, and its name in the column after it. */
static void put_type(walk *w, size_t c, slice type)
{
    put_text(&w->sheet, c, type);
    put_text(&w->sheet, c + 1, slice_of(type_in_words(type)));
}

/* Writes an amount or a total, and how it was given in the column after it. */
static void put_amount(walk *w, size_t c, slice amount)
{
    put_text_or_null(&w->sheet, c, amount);
    put_text(&w->sheet, c + 1, slice_of(form_in_words(amount)));
}

/* Writes a field that stands in no list, with what comes with it. */
static void put_single(walk *w, size_t c, slice field)
{
    if (takes(c, BAI2_FIELD_DETAIL_TYPE))
        put_type(w, c, field);
    else if (takes(c, BAI2_FIELD_AMOUNT) || takes(c, BAI2_FIELD_TOTAL))
        put_amount(w, c, field);
    else
        put_text(&w->sheet, c, field);
}

/* Writes the field of this index, and those after it that stand in the same list; answers the index after
   them, or this one where no column takes the field. */
static size_t put_field(walk *w, size_t i, size_t end)
{
    uint64_t kind = kind_at(&w->fields, i);
    size_t c = column_for(w, kind);
    if (c == COLUMNS)
        return i;
    switch (kind) {
    case BAI2_FIELD_SPLIT_AMOUNT: case BAI2_FIELD_TEXT: return put_list(w, c, i, end);
    case BAI2_FIELD_DAYS: return put_pairs(w, c, i, end);
    default: put_single(w, c, field_at(&w->fields, i)); return i + 1;
    }
}

/* Writes what each line begins with; a number is told where the record has it. */
static void put_head(walk *w, uint64_t place)
{
    char code[3];
    snprintf(code, sizeof code, "%02" PRIu64, w->code % 100);
    put_text(&w->sheet, RECORD, (slice){(const uint8_t *)code, sizeof code - 1});
    put_number(&w->sheet, PLACE, place);
    for (size_t c = GROUP; c < ACCOUNT_NUMBER; c++)
        if (has(w, c) && w->met[c] > 0)
            put_number(&w->sheet, c, w->met[c] - 1);
    if (has(w, ACCOUNT_NUMBER))
        put_text(&w->sheet, ACCOUNT_NUMBER, w->account_number);
}

/* Writes a line with the fields of these indices; false where no column takes one of them. */
static bool put_line(walk *w, uint64_t place, size_t from, size_t end)
{
    bool known = true;
    begin_line(&w->sheet);
    put_head(w, place);
    for (size_t i = from, next; known && i < end; i = next) {
        next = put_field(w, i, end);
        known = next > i;
    }
    end_line(&w->sheet);
    return known;
}

/* Whether an item of a 03 begins with a field of this kind. */
static bool begins_item(uint64_t kind)
{
    return kind == BAI2_FIELD_TYPE || kind == BAI2_FIELD_FURTHER_TYPE;
}

/* The index of the first item's beginning from this index on; the number of fields where there is none. */
static size_t next_item_at(const walk *w, size_t i)
{
    while (i < w->fields.count && !begins_item(kind_at(&w->fields, i)))
        i++;
    return i;
}

/* Writes an account's line, and one for each item; an item of empty type is none. */
static bool put_account(walk *w)
{
    size_t from = next_item_at(w, 0);
    bool good = put_line(w, w->fields.start, 1, from); /* after the account number, which each line has */
    while (good && from < w->fields.count) {
        size_t end = next_item_at(w, from + 1);
        if (field_at(&w->fields, from).length > 0) {
            w->met[ITEM]++;
            good = put_line(w, place_at(&w->fields, from), from, end);
        }
        from = end;
    }
    return good;
}

/* Counts the record, and notes the account's number. */
static void meet_record(walk *w)
{
    switch (w->code) {
    case GROUP_HEADER:
        w->met[GROUP]++;
        w->met[ACCOUNT] = 0;
        break;
    case ACCOUNT_HEADER:
        w->met[ACCOUNT]++;
        w->met[ITEM] = w->met[DETAIL_NUMBER] = 0;
        w->account_number = field_at(&w->fields, 0);
        break;
    case DETAIL: w->met[DETAIL_NUMBER]++; break;
    default: break;
    }
}

/* Writes the record's lines; false where the library hands out no fields of it, or one that no column
   takes. */
static bool put_record(walk *w)
{
    meet_record(w);
    if (w->code == ACCOUNT_HEADER)
        return put_account(w);
    return w->fields.count > 0 && put_line(w, w->fields.start, 0, w->fields.count);
}

/* Writes an accepted file's lines, and before them the columns' names where the format has them. False
   where the library hands out other records than it has counted, or a field that no column takes. */
bool put_export(FILE *to, sheet_format format, slice file, bai2_summary summary)
{
    walk w = {.fields = {.file = file}};
    uint64_t lines = 0;
    size_t at = 0;
    bool good = true;
    w.sheet = (sheet){.to = to, .format = format, .name_of = name_of, .columns = COLUMNS};
    begin_sheet(&w.sheet);
    for (bai2_record r; good && !ferror(to)
         && (r = bai2_record_at(file.bytes, file.length, at)).number == 0; at += r.length) {
        w.code = r.code;
        read_fields(&w.fields, at);
        good = put_record(&w);
        lines += r.lines;
    }
    drop_fields(&w.fields);
    return ferror(to) || (good && lines == summary.records && w.met[GROUP] == summary.groups);
}
