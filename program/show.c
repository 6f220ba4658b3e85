/* The report: a file's groups, accounts, items and details in aligned columns. */
#include "show.h"

#include <inttypes.h>
#include <string.h>

#include "record.h"

typedef enum { AMOUNT, COUNT, FUNDS, BANK_REFERENCE, CUSTOMER_REFERENCE, TEXT, COLUMNS } column;

static const char *const column_names[COLUMNS] = {
    "amount", "count", "funds", "bank reference", "customer reference", "text"};

enum { TYPE_INDENT = 4, NAME_INDENT = 9 /* after the type and two blanks */, LABEL_ROOM = 40 };

/* One row of an account's table. */
typedef struct {
    slice cells[COLUMNS];
    char funds[FUNDS_ROOM];
} row;

/* The report's layout: the width of the labels that rows begin with, a type and its name or a total's
   words; and column widths, 0 for a column that is empty in the whole file. */
typedef struct {
    FILE *to;
    size_t label;
    size_t widths[COLUMNS];
} layout;

/* A count and its word, with an s where there is not exactly one. */
static void put_counted(FILE *to, uint64_t count, const char *word)
{
    fprintf(to, "%" PRIu64 " %s%s", count, word, count == 1 ? "" : "s");
}

/* The cells of an item's or a detail's row, with this piece of text. */
static void entry_row(row *r, const entry *e, slice piece)
{
    *r = (row){0};
    r->cells[AMOUNT] = e->amount;
    r->cells[COUNT] = e->count;
    r->cells[FUNDS] = slice_of(put_funds(r->funds, &e->funds));
    r->cells[BANK_REFERENCE] = e->bank_reference;
    r->cells[CUSTOMER_REFERENCE] = e->customer_reference;
    r->cells[TEXT] = piece;
}

/* Widens the columns so that a row fits; a column that has something is as wide as its name. */
static void widen(layout *l, const row *r)
{
    for (column c = AMOUNT; c < COLUMNS; c++) {
        size_t needed = r->cells[c].length;
        size_t name = strlen(column_names[c]);
        if (needed > 0 && needed < name)
            needed = name;
        if (needed > l->widths[c])
            l->widths[c] = needed;
    }
}

/* Widens the labels so that a type with its name fits. */
static void widen_label(layout *l, slice type)
{
    size_t needed = NAME_INDENT + strlen(type_in_words(type));
    if (needed > l->label)
        l->label = needed;
}

/* Widens labels and columns for the record's items, or its detail with the first piece of its text. */
static void measure_entries(layout *l, const fields *f)
{
    row r;
    slice piece;
    size_t at = 0;
    for (entry e; next_entry(f, &at, &e);) {
        next_piece(f, &at, &piece);
        entry_row(&r, &e, piece);
        widen_label(l, e.type);
        widen(l, &r);
    }
}

/* Widens the columns for a trailer's total. */
static void measure_trailer(layout *l, const fields *f)
{
    row r = {0};
    r.cells[AMOUNT] = trailer_of(f).total;
    widen(l, &r);
}

/* Widens the columns for all rows of one record. */
static void measure_record(layout *l, record_code code, const fields *f)
{
    switch (code) {
    case ACCOUNT_HEADER: case DETAIL: measure_entries(l, f); break;
    case ACCOUNT_TRAILER: case GROUP_TRAILER: case FILE_TRAILER: measure_trailer(l, f); break;
    default: break;
    }
}

/* The layout that fits the whole file. */
static layout layout_for(FILE *to, const outline *o, fields *f)
{
    layout l = {.to = to};
    l.label = (size_t)snprintf(NULL, 0, "  group %" PRIu64 " total", o->summary.groups);
    for (size_t i = 0; i < o->count; i++) {
        read_fields(f, o->records[i].start);
        measure_record(&l, o->records[i].code, f);
    }
    return l;
}

/* Writes a row's columns after a label of this length; nothing after the last cell that has something. */
static void put_cells(const layout *l, size_t label, const row *r)
{
    size_t gap = l->label - label;
    for (column c = AMOUNT; c < COLUMNS; c++) {
        if (l->widths[c] == 0)
            continue;
        slice cell = r->cells[c];
        size_t pad = cell.length < l->widths[c] ? l->widths[c] - cell.length : 0;
        bool right = c <= COUNT;
        gap += 2 + (right ? pad : 0);
        if (cell.length > 0) {
            fprintf(l->to, "%*s%.*s", (int)gap, "", SLICE(cell));
            gap = 0;
        }
        gap += right ? 0 : pad;
    }
    fputc('\n', l->to);
}

/* Writes a row that begins with these words. */
static void put_row(const layout *l, const char *label, const row *r)
{
    fputs(label, l->to);
    put_cells(l, strlen(label), r);
}

/* Writes the columns' names. */
static void put_names(const layout *l)
{
    row r = {0};
    for (column c = AMOUNT; c < COLUMNS; c++)
        if (l->widths[c] > 0)
            r.cells[c] = slice_of(column_names[c]);
    put_row(l, "    type", &r);
}

/* Writes a row that has only one cell. */
static void put_cell_row(const layout *l, column c, slice cell)
{
    row r = {0};
    r.cells[c] = cell;
    put_row(l, "", &r);
}

/* Writes the amounts of funds that come at several times, a row each. */
static void put_funds_rows(const layout *l, const fields *f, const funds *u)
{
    char words[FUNDS_ROOM];
    for (size_t part = 0; put_funds_part(words, f, u, part); part++)
        put_cell_row(l, FUNDS, slice_of(words));
}

/* Writes a row that begins with a type and its name. */
static void put_typed_row(const layout *l, slice type, const row *r)
{
    const char *name = type_in_words(type);
    fprintf(l->to, "%*s%-*.*s%s", TYPE_INDENT, "", NAME_INDENT - TYPE_INDENT, SLICE(type), name);
    put_cells(l, NAME_INDENT + strlen(name), r);
}

/* Writes the record's items, or its detail: for each its row, further pieces of its text, and its
   funds' amounts. */
static void put_entries(const layout *l, const fields *f)
{
    row r;
    slice piece;
    size_t at = 0;
    for (entry e; next_entry(f, &at, &e);) {
        next_piece(f, &at, &piece);
        entry_row(&r, &e, piece);
        put_typed_row(l, e.type, &r);
        while (next_piece(f, &at, &piece))
            put_cell_row(l, TEXT, piece);
        put_funds_rows(l, f, &e.funds);
    }
}

/* Writes an account's header line, and the columns' names and its items where it has any rows. */
static void put_account(const layout *l, const fields *f, bool has_details)
{
    account_header h = account_header_of(f);
    entry first;
    fprintf(l->to, "\n  Account %.*s", SLICE(h.number));
    if (h.currency.length > 0)
        fprintf(l->to, "  %.*s", SLICE(h.currency));
    fputc('\n', l->to);
    if (has_details || next_entry(f, &(size_t){0}, &first))
        put_names(l);
    put_entries(l, f);
}

/* Writes the file's header. */
static void put_file_header(FILE *to, const fields *f)
{
    file_header h = file_header_of(f);
    char day[DAY_ROOM];
    fprintf(to, "File number %.*s  from %.*s  to %.*s  %s\n", SLICE(h.number), SLICE(h.sender),
            SLICE(h.receiver), put_day(day, h.date, h.time));
}

/* Writes a group's header. */
static void put_group(FILE *to, uint64_t number, const fields *f)
{
    group_header h = group_header_of(f);
    char day[DAY_ROOM];
    const char *modifier = modifier_in_words(h.modifier);
    fprintf(to, "\nGroup %" PRIu64 "  receiver ", number);
    if (h.receiver.length > 0)
        fprintf(to, "%.*s", SLICE(h.receiver));
    else
        fputs("(none)", to);
    fprintf(to, "  originator %.*s\n", SLICE(h.originator));
    fprintf(to, "  as of %s, %s", put_day(day, h.date, h.time), status_in_words(h.status));
    if (*modifier != '\0')
        fprintf(to, ", %s", modifier);
    if (h.currency.length > 0)
        fprintf(to, ", %.*s", SLICE(h.currency));
    fputc('\n', to);
}

/* Writes a trailer's total after its label, and in words what it closes. */
static void put_total(const layout *l, const char *label, slice total, uint64_t count, const char *what)
{
    fprintf(l->to, "%-*s  %*.*s  ", (int)l->label, label, (int)l->widths[AMOUNT], SLICE(total));
    put_counted(l->to, count, what);
}

/* Writes, after a total, how many records it closes. */
static void put_records(const layout *l, uint64_t records)
{
    fputs(", ", l->to);
    put_counted(l->to, records, "record");
    fputc('\n', l->to);
}

/* Writes the total of an account. */
static void put_account_total(const layout *l, const fields *f, uint64_t details)
{
    trailer t = trailer_of(f);
    put_total(l, "    total", t.total, details, "detail");
    put_records(l, number_of(t.records));
}

/* Writes the total of a group. */
static void put_group_total(const layout *l, const fields *f, uint64_t number)
{
    trailer t = trailer_of(f);
    char label[LABEL_ROOM];
    snprintf(label, sizeof label, "  group %" PRIu64 " total", number);
    fputc('\n', l->to);
    put_total(l, label, t.total, number_of(t.count), "account");
    put_records(l, number_of(t.records));
}

/* Writes the total of the file, with the counts that the library has answered. */
static void put_file_total(const layout *l, const fields *f, bai2_summary s)
{
    fputc('\n', l->to);
    put_total(l, "file total", trailer_of(f).total, s.groups, "group");
    put_records(l, s.records);
}

/* Writes the report of an accepted file. */
void put_report(FILE *to, const outline *o)
{
    fields f = {.file = o->file};
    layout l = layout_for(to, o, &f);
    uint64_t group = 0, details = 0;
    for (size_t i = 0; i < o->count && !ferror(to); i++) {
        read_fields(&f, o->records[i].start);
        switch (o->records[i].code) {
        case FILE_HEADER: put_file_header(to, &f); break;
        case GROUP_HEADER: put_group(to, ++group, &f); break;
        case ACCOUNT_HEADER:
            put_account(&l, &f, o->records[i + 1].code == DETAIL);
            details = 0;
            break;
        case DETAIL: put_entries(&l, &f); details++; break;
        case ACCOUNT_TRAILER: put_account_total(&l, &f, details); break;
        case GROUP_TRAILER: put_group_total(&l, &f, group); break;
        case FILE_TRAILER: put_file_total(&l, &f, o->summary); break;
        default: break;
        }
    }
    drop_fields(&f);
}
