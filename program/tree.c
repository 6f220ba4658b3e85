/* The rows of the screen's tree: which are there, and what is open. */
#include "tree.h"

#include <stdlib.h>

#include "record.h"

enum { LEAST_TEXT_WIDTH = 8, LONG_RECORD = 65536 /* bytes */ };

/* The fields of a record, until another one's are asked for. Those of a long record outlast short ones,
   so that they are not read anew for each row. */
const fields *fields_of(tree *t, size_t record)
{
    const found_record *r = &t->outline->records[record];
    fields *f = r->length < LONG_RECORD ? &t->few : &t->many;
    read_fields(f, r->start);
    return f;
}

/* A tree with everything closed, except that a single group stands open. */
void make_tree(tree *t, const outline *o, size_t text_width)
{
    *t = (tree){.outline = o, .few.file = o->file, .many.file = o->file, .text_width = text_width};
    t->open = room_for(o->count, sizeof *t->open);
    if (o->summary.groups == 1)
        t->open[1] = true;
    lay_rows(t);
}

/* Gives the tree's memory back. */
void drop_tree(tree *t)
{
    drop_fields(&t->few);
    drop_fields(&t->many);
    free(t->open);
    free(t->rows);
    *t = (tree){0};
}

/* Adds one row. */
static void add_row(tree *t, tree_row row)
{
    if (t->count == t->room)
        t->rows = larger(t->rows, &t->room, sizeof *t->rows);
    t->rows[t->count++] = row;
}

/* A row about these bytes of a record. */
static tree_row row_about(const tree *t, row_kind kind, size_t record, slice bytes)
{
    return (tree_row){kind, (uint32_t)record, 0, (uint32_t)(bytes.bytes - t->outline->file.bytes),
                      (uint32_t)bytes.length};
}

/* Adds the rows about funds: their kind, and each amount where they come at several times. */
static void add_funds_rows(tree *t, size_t record, const funds *u)
{
    tree_row row = row_about(t, FUNDS_ROW, record, u->kind);
    if (u->kind.length > 0)
        add_row(t, row);
    row.kind = FUNDS_PART_ROW;
    for (; row.number < u->parts; row.number++)
        add_row(t, row);
}

/* Adds the rows of an account's items. */
static void add_item_rows(tree *t, size_t record)
{
    const fields *f = fields_of(t, record);
    size_t at = 0;
    for (entry e; next_entry(f, &at, &e);) {
        tree_row row = row_about(t, ITEM_ROW, record, e.type);
        row.number = (uint32_t)e.start;
        add_row(t, row);
    }
}

/* Adds a row about a field, unless the field is empty. */
static void add_field_row(tree *t, row_kind kind, size_t record, slice field)
{
    if (field.length > 0)
        add_row(t, row_about(t, kind, record, field));
}

/* Adds the rows of one piece of text, broken to the width. */
static void add_text_rows(tree *t, size_t record, slice piece)
{
    size_t width = t->text_width < LEAST_TEXT_WIDTH ? LEAST_TEXT_WIDTH : t->text_width;
    for (size_t at = 0; at < piece.length; at += width)
        add_row(t, row_about(t, TEXT_ROW, record, part_of(piece, at, width)));
}

/* Adds the rows below a detail: its references, what its funds say, its whole text. */
static void add_detail_rows(tree *t, size_t record)
{
    const fields *f = fields_of(t, record);
    entry e;
    size_t at = 0;
    next_entry(f, &at, &e);
    add_field_row(t, BANK_REFERENCE_ROW, record, e.bank_reference);
    add_field_row(t, CUSTOMER_REFERENCE_ROW, record, e.customer_reference);
    add_funds_rows(t, record, &e.funds);
    for (slice piece; next_piece(f, &at, &piece);)
        add_text_rows(t, record, piece);
}

/* Adds the rows of one record; answers which record comes next. */
static size_t add_record(tree *t, size_t i, uint32_t *numbers)
{
    static const row_kind kinds[] = {
        [GROUP_HEADER] = GROUP_ROW, [ACCOUNT_HEADER] = ACCOUNT_ROW, [DETAIL] = DETAIL_ROW};
    const found_record *r = &t->outline->records[i];
    if (r->code != GROUP_HEADER && r->code != ACCOUNT_HEADER && r->code != DETAIL)
        return i + 1;
    row_kind kind = kinds[r->code];
    add_row(t, (tree_row){kind, (uint32_t)i, numbers[kind]++, r->start, r->length});
    if (kind != DETAIL_ROW)
        numbers[kind + 1] = 0;
    if (!t->open[i])
        return kind == DETAIL_ROW ? i + 1 : (size_t)r->closing + 1;
    if (kind == ACCOUNT_ROW)
        add_item_rows(t, i);
    if (kind == DETAIL_ROW)
        add_detail_rows(t, i);
    return i + 1;
}

/* Lays the rows anew: those of all records that stand in nothing closed. */
void lay_rows(tree *t)
{
    uint32_t numbers[DETAIL_ROW + 1] = {0};
    t->count = 0;
    for (size_t i = 0; i < t->outline->count;)
        i = add_record(t, i, numbers);
}

/* Whether the row stands for a record that can be opened. */
bool can_open(const tree *t, size_t row)
{
    return row < t->count && t->rows[row].kind <= DETAIL_ROW;
}

/* Opens or closes the row's record; rows above it stay where they are. */
void set_open(tree *t, size_t row, bool open)
{
    if (!can_open(t, row))
        return;
    t->open[t->rows[row].record] = open;
    lay_rows(t);
}

/* The record that this one stands in: a detail's account, an account's group. */
static size_t record_above(const outline *o, size_t i)
{
    record_code above = o->records[i].code == DETAIL ? ACCOUNT_HEADER : GROUP_HEADER;
    while (i > 0 && o->records[i].code != above)
        i--;
    return i;
}

/* The row of this record, as it stands in what is open. */
static size_t row_of(const tree *t, size_t record)
{
    for (size_t row = 0; row < t->count; row++)
        if (t->rows[row].record == record)
            return row;
    return 0;
}

/* The row that this one stands below; itself where it is a group. */
size_t row_above(const tree *t, size_t row)
{
    if (row >= t->count || t->rows[row].kind == GROUP_ROW)
        return row;
    size_t record = t->rows[row].record;
    return row_of(t, t->rows[row].kind <= DETAIL_ROW ? record_above(t->outline, record) : record);
}

/* Whether the needle stands in the name of a type that the record has. */
static bool names_match(const fields *f, slice needle)
{
    size_t at = 0;
    for (entry e; next_entry(f, &at, &e);)
        if (contains(slice_of(type_in_words(e.type)), needle))
            return true;
    return false;
}

/* Whether the needle stands in a group's, account's or detail's record, in the names of its types, or in
   its trailer. */
static bool matches(tree *t, size_t i, slice needle)
{
    const outline *o = t->outline;
    record_code code = o->records[i].code;
    if (code != GROUP_HEADER && code != ACCOUNT_HEADER && code != DETAIL)
        return false;
    if (contains(bytes_of(o, i), needle) || names_match(fields_of(t, i), needle))
        return true;
    return code != DETAIL && contains(bytes_of(o, o->records[i].closing), needle);
}

/* Opens what a record stands in, and the record itself where it is not a group. */
static void reveal(tree *t, size_t i)
{
    const outline *o = t->outline;
    if (o->records[i].code != GROUP_HEADER)
        t->open[i] = true;
    while (o->records[i].code != GROUP_HEADER && i > 0) {
        i = record_above(o, i);
        t->open[i] = true;
    }
    lay_rows(t);
}

/* Finds the next record after the row that has the needle, from the end on to the start again;
   it is opened and becomes the row. False where there is none. */
bool find_in_tree(tree *t, size_t *row, slice needle)
{
    size_t count = t->outline->count;
    size_t from = *row < t->count ? t->rows[*row].record : 0;
    for (size_t step = 1; step <= count; step++) {
        size_t i = (from + step) % count;
        if (!matches(t, i, needle))
            continue;
        reveal(t, i);
        *row = row_of(t, i);
        return true;
    }
    return false;
}
