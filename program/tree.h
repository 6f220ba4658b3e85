/* The rows of the screen's tree: which are there, and what is open. */
#ifndef TREE_H
#define TREE_H

#include "fields.h"
#include "outline.h"

typedef enum {
    GROUP_ROW,
    ACCOUNT_ROW,
    DETAIL_ROW,
    ITEM_ROW,
    BANK_REFERENCE_ROW,
    CUSTOMER_REFERENCE_ROW,
    FUNDS_ROW,
    FUNDS_PART_ROW,
    TEXT_ROW
} row_kind;

/* One row: what it shows of which record. */
typedef struct {
    row_kind kind;
    uint32_t record;
    uint32_t number;        /* groups, accounts, details, parts of funds: from 0; items: their first field */
    uint32_t start, length; /* where its bytes stand in the file */
} tree_row;

typedef struct {
    const outline *outline;
    fields few, many; /* of the short record and of the long one that were looked at last */
    bool *open; /* for each record whether its rows below are there */
    tree_row *rows;
    size_t count, room;
    size_t text_width; /* longer texts are broken into rows of this width */
} tree;

const fields *fields_of(tree *t, size_t record);
void make_tree(tree *t, const outline *o, size_t text_width);
void drop_tree(tree *t);
void lay_rows(tree *t);
bool can_open(const tree *t, size_t row);
void set_open(tree *t, size_t row, bool open);
size_t row_above(const tree *t, size_t row);
bool find_in_tree(tree *t, size_t *row, slice needle);

#endif
