/* The screen of an accepted file: its groups, accounts and details as a tree. */
#include <inttypes.h>
#include <string.h>

#include "record.h"
#include "screen.h"

enum {
    LABEL_ROOM = 512,
    AMOUNT_ROOM = 24, /* an amount as it is written: sign, 18 digits, end */
    HELD_ROWS = 3,    /* title, the row's own line, keys */
    TEXT_INDENT = 10,
    PARTS_IN_ROW = 3 /* of an item's funds, so many amounts stand in its row */
};

/* How many rows of the tree the canvas shows. */
static size_t body_rows(const canvas *c)
{
    return c->rows > HELD_ROWS ? c->rows - HELD_ROWS : 1;
}

/* Words for a group's row. */
static void put_group_label(char *label, const tree_row *row, const fields *f)
{
    group_header h = group_header_of(f);
    char day[DAY_ROOM];
    if (h.receiver.length == 0)
        h.receiver = slice_of("(none)");
    snprintf(label, LABEL_ROOM, "Group %" PRIu32 "  receiver %.*s  originator %.*s  %s", row->number + 1,
             SLICE(h.receiver), SLICE(h.originator), put_day(day, h.date, h.time));
}

/* Words for an account's row. */
static void put_account_label(char *label, const fields *f)
{
    account_header h = account_header_of(f);
    snprintf(label, LABEL_ROOM, "Account %.*s  %.*s", SLICE(h.number), SLICE(h.currency));
}

/* Words for a detail's row: its type with its name, and its text or else a reference; answers its amount. */
static slice put_detail_label(char *label, const fields *f)
{
    entry e;
    slice words;
    size_t at = 0;
    next_entry(f, &at, &e);
    if (!next_piece(f, &at, &words))
        words = e.bank_reference.length > 0 ? e.bank_reference : e.customer_reference;
    snprintf(label, LABEL_ROOM, "%.*s  %s  %.*s", SLICE(e.type), type_in_words(e.type), SLICE(words));
    return e.amount;
}

/* Words for an item's row; answers its amount. */
static slice put_item_label(char *label, const tree_row *row, const fields *f)
{
    entry e;
    size_t at = row->number;
    next_entry(f, &at, &e);
    size_t used = (size_t)snprintf(label, LABEL_ROOM, "%.*s  %s", SLICE(e.type), type_in_words(e.type));
    if (e.count.length > 0)
        used += (size_t)snprintf(label + used, LABEL_ROOM - used, "  count %.*s", SLICE(e.count));
    char words[FUNDS_ROOM];
    if (e.funds.kind.length > 0)
        used += (size_t)snprintf(label + used, LABEL_ROOM - used, "  funds %s", put_funds(words, &e.funds));
    for (size_t part = 0; part <= PARTS_IN_ROW && put_funds_part(words, f, &e.funds, part); part++)
        used += (size_t)snprintf(label + used, LABEL_ROOM - used, "  %s", part < PARTS_IN_ROW ? words : "..");
    return e.amount;
}

/* Words for a row about a detail's funds. */
static void put_funds_label(char *label, const tree_row *row, const fields *f)
{
    entry e;
    char words[FUNDS_ROOM] = "";
    next_entry(f, &(size_t){0}, &e);
    if (row->kind == FUNDS_ROW)
        put_funds(words, &e.funds);
    else
        put_funds_part(words, f, &e.funds, row->number);
    snprintf(label, LABEL_ROOM, "funds %s", words);
}

/* Words for a row about a detail's reference or text: the row's own bytes. */
static void put_note_label(char *label, const tree_row *row, slice file)
{
    static const char *const captions[] = {
        [BANK_REFERENCE_ROW] = "bank reference ",
        [CUSTOMER_REFERENCE_ROW] = "customer reference ",
        [TEXT_ROW] = ""};
    slice bytes = part_of(file, row->start, row->length);
    snprintf(label, LABEL_ROOM, "%s%.*s", captions[row->kind], SLICE(bytes));
}

/* The total that the trailer of this index states. */
static slice total_of(tree_screen *s, size_t record)
{
    return trailer_of(fields_of(&s->tree, record)).total;
}

/* A row's words; answers the amount at its right edge, a group's or account's total, empty where it has
   none. */
static slice put_label(char *label, tree_screen *s, const tree_row *row)
{
    const fields *f = fields_of(&s->tree, row->record);
    size_t closing = s->outline->records[row->record].closing;
    switch (row->kind) {
    case GROUP_ROW: put_group_label(label, row, f); return total_of(s, closing);
    case ACCOUNT_ROW: put_account_label(label, f); return total_of(s, closing);
    case DETAIL_ROW: return put_detail_label(label, f);
    case ITEM_ROW: return put_item_label(label, row, f);
    case FUNDS_ROW: case FUNDS_PART_ROW: put_funds_label(label, row, f); break;
    default: put_note_label(label, row, s->outline->file); break;
    }
    return slice_of("");
}

/* Draws one row of the tree: its indent, whether it is open, its words and its amount. */
static void draw_tree_row(tree_screen *s, const canvas *c, size_t canvas_row, size_t index)
{
    static const int indents[] = {[GROUP_ROW] = 0, [ACCOUNT_ROW] = 2, [DETAIL_ROW] = 4, [ITEM_ROW] = 4,
                                  [BANK_REFERENCE_ROW] = 8, [CUSTOMER_REFERENCE_ROW] = 8,
                                  [FUNDS_ROW] = 8, [FUNDS_PART_ROW] = 8, [TEXT_ROW] = 8};
    const tree_row *row = &s->tree.rows[index];
    char label[LABEL_ROOM], text[LABEL_ROOM + 16], right[AMOUNT_ROOM];
    slice amount = put_label(label, s, row);
    const char *fold = !can_open(&s->tree, index) ? " " : s->tree.open[row->record] ? "-" : "+";
    snprintf(text, sizeof text, "%*s%s %s", indents[row->kind], "", fold, label);
    snprintf(right, sizeof right, "%.*s", SLICE(amount));
    draw_row(c, canvas_row, index == s->row ? REVERSE : PLAIN, text, right);
}

/* Draws the title: the file's name, who sent it to whom, its total. */
static void draw_title(tree_screen *s, const canvas *c)
{
    file_header h = file_header_of(fields_of(&s->tree, 0));
    slice total = total_of(s, s->outline->count - 1);
    char text[LABEL_ROOM], day[DAY_ROOM], right[AMOUNT_ROOM + 8];
    snprintf(text, sizeof text, "%.60s  %.*s to %.*s  %s", last_part(s->name), SLICE(h.sender),
             SLICE(h.receiver), put_day(day, h.date, h.time));
    snprintf(right, sizeof right, "total %.*s", SLICE(total));
    draw_row(c, 0, BOLD, text, right);
}

/* Draws the line of the file that the chosen row comes from, and how far down it stands. */
static void draw_source(const tree_screen *s, const canvas *c)
{
    char text[LABEL_ROOM] = "", where[48] = "";
    if (s->row < s->tree.count) {
        size_t place = s->tree.rows[s->row].start;
        line l = line_of(s->outline->file, place);
        slice bytes = part_of(s->outline->file, l.start, l.end - l.start);
        bytes = part_of(bytes, 0, LABEL_ROOM - 32);
        snprintf(text, sizeof text, "line %zu: %.*s", line_number(s->outline->file, place), SLICE(bytes));
        snprintf(where, sizeof where, "%zu/%zu", s->row + 1, s->tree.count);
    }
    draw_row(c, c->rows > 1 ? c->rows - 2 : 0, BOLD, text, where);
}

/* Moves the first row on the canvas so that the chosen one is seen. */
static void follow(tree_screen *s, const canvas *c)
{
    size_t body = body_rows(c);
    if (s->tree.count > 0 && s->row >= s->tree.count)
        s->row = s->tree.count - 1;
    if (s->row < s->top)
        s->top = s->row;
    if (s->row >= s->top + body)
        s->top = s->row - body + 1;
}

/* Draws the tree. */
static void draw_tree(void *state, const canvas *c)
{
    tree_screen *s = state;
    follow(s, c);
    draw_title(s, c);
    for (size_t i = 0; i < body_rows(c); i++) {
        if (s->top + i < s->tree.count)
            draw_tree_row(s, c, i + 1, s->top + i);
        else
            draw_row(c, i + 1, PLAIN, i == 0 ? "The file has no group." : "", "");
    }
    draw_source(s, c);
}

/* Lays the rows anew for the canvas's width; the chosen record stays chosen. */
static void fit(tree_screen *s, const canvas *c)
{
    size_t record = s->row < s->tree.count ? s->tree.rows[s->row].record : 0;
    s->tree.text_width = c->columns > TEXT_INDENT ? c->columns - TEXT_INDENT : 1;
    lay_rows(&s->tree);
    while (s->row > 0 && (s->row >= s->tree.count || s->tree.rows[s->row].record > record))
        s->row--;
}

/* Closes the chosen row, or goes to the one it stands below where it is closed already. */
static void close_or_go_up(tree_screen *s)
{
    if (can_open(&s->tree, s->row) && s->tree.open[s->tree.rows[s->row].record])
        set_open(&s->tree, s->row, false);
    else
        s->row = row_above(&s->tree, s->row);
}

/* Opens the chosen row and moves up what is on the canvas, so that the rows below it are seen. */
static void open_row(tree_screen *s, const canvas *c)
{
    size_t before = s->tree.count;
    set_open(&s->tree, s->row, true);
    size_t last = s->row + s->tree.count - before;
    if (last >= s->top + body_rows(c))
        s->top = last - body_rows(c) + 1;
}

/* Opens what is closed and closes what is open. */
static void turn(tree_screen *s, const canvas *c)
{
    if (!can_open(&s->tree, s->row))
        return;
    if (s->tree.open[s->tree.rows[s->row].record])
        set_open(&s->tree, s->row, false);
    else
        open_row(s, c);
}

/* Moves the chosen row so many down or up, within the tree. */
static void move(tree_screen *s, size_t down, size_t up)
{
    size_t last = s->tree.count > 0 ? s->tree.count - 1 : 0;
    s->row = down > last - s->row ? last : s->row + down;
    s->row = up > s->row ? 0 : s->row - up;
}

/* Answers a key. */
static void press_tree(void *state, const canvas *c, key k)
{
    tree_screen *s = state;
    switch ((int)k) {
    case KEY_UP: case 'k': move(s, 0, 1); break;
    case KEY_DOWN: case 'j': move(s, 1, 0); break;
    case KEY_PAGE_UP: case 'b': move(s, 0, body_rows(c)); break;
    case KEY_PAGE_DOWN: case ' ': move(s, body_rows(c), 0); break;
    case KEY_HOME: case 'g': s->row = 0; break;
    case KEY_END: case 'G': move(s, s->tree.count, 0); break;
    case KEY_ENTER: turn(s, c); break;
    case KEY_RIGHT: case 'l': open_row(s, c); break;
    case KEY_LEFT: case 'h': close_or_go_up(s); break;
    case KEY_RESIZED: fit(s, c); break;
    default: break;
    }
}

/* Moves to the next record that has the needle. */
static bool find_in_tree_screen(void *state, slice needle)
{
    tree_screen *s = state;
    return find_in_tree(&s->tree, &s->row, needle);
}

/* The view of an accepted file's tree. */
view open_tree_view(tree_screen *s, const char *name, const outline *o)
{
    *s = (tree_screen){.name = name, .outline = o};
    make_tree(&s->tree, o, 0);
    return (view){s, "Arrows, j k: move  Enter: open, close  /: search  n: next  g G: ends  q: leave",
                  draw_tree, press_tree, find_in_tree_screen};
}

/* Gives the view's memory back. */
void close_tree_view(tree_screen *s)
{
    drop_tree(&s->tree);
}
