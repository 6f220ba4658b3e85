/* The screen of a refused file: its lines, the refused byte standing out, and what the refusal means. */
#include <inttypes.h>
#include <stdlib.h>
#include <string.h>

#include "escapes.h"
#include "refusal.h"
#include "refused_record.h"
#include "screen.h"

enum {
    GUTTER = 10,     /* a line's number and a bar */
    SIDE_STEP = 16,  /* how far left and right move */
    MEANING_ROWS = 7,
    LEAST_ROWS = 14, /* a lower canvas shows no meaning */
    CARET_CELLS = 4, /* of the refused byte where it is escaped */
    WORDS_ROOM = 64
};

/* A format: goes to the row, from 1, and wipes it. Not after it is drawn: a cursor that has passed the
   last cell still stands on it. */
#define EMPTY_ROW GO_TO_ROW PLAIN_LOOK WIPE_REST_OF_ROW

/* How many rows are left for the file's lines. */
static size_t body_rows(const canvas *c)
{
    size_t held = 2 + (c->rows >= LEAST_ROWS ? MEANING_ROWS : 0);
    return c->rows > held ? c->rows - held : 1;
}

/* How many cells of a line the canvas shows. */
static size_t body_columns(const canvas *c)
{
    return c->columns > GUTTER ? c->columns - GUTTER : 1;
}

/* Where the line before this one starts; the same where it is the first. */
static size_t start_before(slice file, size_t start)
{
    return start == 0 ? 0 : line_of(file, start - 1).start;
}

/* Whether this is the start of the file's last line, or the file's end. */
static bool is_last(slice file, size_t start)
{
    return line_at(file, start).next >= file.length;
}

/* Moves so many lines up. */
static void move_up(refusal_screen *s, size_t lines)
{
    while (lines-- > 0 && s->top > 0)
        s->top = start_before(s->file, s->top);
}

/* Moves so many lines down, at most to the last one. */
static void move_down(refusal_screen *s, size_t lines)
{
    while (lines-- > 0 && !is_last(s->file, s->top))
        s->top = line_at(s->file, s->top).next;
}

/* How many bytes of the refused line are left out where so many cells before the byte are shown. */
static size_t left_out(const refusal_screen *s, line l, size_t cells)
{
    size_t from = s->place < l.end ? s->place : l.end;
    while (from > l.start && cells_of(s->file.bytes[from - 1]) <= cells)
        cells -= cells_of(s->file.bytes[--from]);
    return from - l.start;
}

/* Moves so that the refused byte is seen, with lines before it; half-way across where its line is
   too long to be shown from its start. */
static void go_to_place(refusal_screen *s, const canvas *c)
{
    line l = line_of(s->file, s->place);
    size_t shown = body_columns(c);
    s->top = l.start;
    s->left = shown > CARET_CELLS ? left_out(s, l, shown - CARET_CELLS) : left_out(s, l, 0);
    if (s->left > 0)
        s->left = left_out(s, l, shown / 2);
    move_up(s, body_rows(c) / 2);
}

/* Draws the bytes of a line that the canvas has room for; the refused one stands out. */
static void draw_line_bytes(const refusal_screen *s, const canvas *c, line l)
{
    size_t cells = 0, room = body_columns(c);
    for (size_t i = l.start + s->left; i < l.end; i++) {
        cells += cells_of(s->file.bytes[i]);
        if (cells > room)
            break;
        bool refused = i == s->place && stands_in_file(s->number);
        fputs(refused ? REVERSE_LOOK : "", c->to);
        put_byte(c->to, s->file.bytes[i]);
        fputs(refused ? PLAIN_LOOK : "", c->to);
    }
}

/* Draws the caret under the refused byte, where the byte is on the canvas, and the field in words as
   far as the row reaches. */
static void draw_caret(const refusal_screen *s, const canvas *c, size_t row, line l)
{
    size_t cells = 0, from = l.start + s->left;
    for (size_t i = from; i < s->place && i < l.end; i++)
        cells += cells_of(s->file.bytes[i]);
    bool seen = s->place >= from && cells < body_columns(c);
    char words[WORDS_ROOM];
    snprintf(words, sizeof words, "^%s%s", *s->field == '\0' ? "" : " ", s->field);
    fprintf(c->to, EMPTY_ROW "%7s | %*s%.*s", row + 1, "",
            seen ? (int)cells : 0, "", seen ? (int)(body_columns(c) - cells) : 0, words);
}

/* Draws the file's lines from the first one on the canvas on. */
static void draw_lines(const refusal_screen *s, const canvas *c)
{
    size_t number = line_number(s->file, s->top), at = s->top;
    bool awaited = stands_in_file(s->number); /* whether the refused line is still to come */
    size_t refused = line_of(s->file, s->place).start;
    for (size_t row = 1; row <= body_rows(c); row++) {
        fprintf(c->to, EMPTY_ROW, row + 1);
        if (at == s->file.length && !(awaited && at == refused))
            continue;
        line l = line_at(s->file, at);
        fprintf(c->to, "%7zu | ", number++);
        draw_line_bytes(s, c, l);
        if (awaited && l.start == refused && row < body_rows(c))
            draw_caret(s, c, ++row, l);
        awaited = awaited && l.start != refused;
        at = l.next;
    }
}

/* Draws what the refusal means and what to do, as far as its rows reach. */
static void draw_meaning(const refusal_screen *s, const canvas *c)
{
    if (c->rows < LEAST_ROWS)
        return;
    explanation e = explain(s->number);
    char *text = NULL;
    size_t length = 0;
    FILE *to = open_memstream(&text, &length);
    if (to == NULL)
        return;
    put_wrapped(to, e.meaning, 0, c->columns);
    put_wrapped(to, e.advice, 0, c->columns);
    fclose(to);
    char *words = text;
    for (size_t i = 0; i < MEANING_ROWS; i++) {
        char *end = words + strcspn(words, "\n");
        bool more = *end == '\n';
        *end = '\0';
        draw_row(c, c->rows - 1 - MEANING_ROWS + i, PLAIN, words, "");
        words = end + (more ? 1 : 0);
    }
    free(text);
}

/* Draws the refused file. */
static void draw_refusal(void *state, const canvas *c)
{
    const refusal_screen *s = state;
    char title[192], where[64] = "";
    snprintf(title, sizeof title, "%.60s  refused %" PRIu64 ": %s", last_part(s->name), s->number,
             explain(s->number).title);
    if (stands_in_file(s->number))
        snprintf(where, sizeof where, "line %zu, column %zu", line_number(s->file, s->place),
                 s->place - line_of(s->file, s->place).start + 1);
    draw_row(c, 0, BOLD, title, where);
    draw_lines(s, c);
    draw_meaning(s, c);
}

/* Moves left or right. */
static void move_aside(refusal_screen *s, bool right)
{
    if (right)
        s->left += SIDE_STEP;
    else
        s->left = s->left < SIDE_STEP ? 0 : s->left - SIDE_STEP;
}

/* Answers a key. */
static void press_refusal(void *state, const canvas *c, key k)
{
    refusal_screen *s = state;
    switch ((int)k) {
    case KEY_UP: case 'k': move_up(s, 1); break;
    case KEY_DOWN: case 'j': move_down(s, 1); break;
    case KEY_PAGE_UP: case 'b': move_up(s, body_rows(c)); break;
    case KEY_PAGE_DOWN: case ' ': move_down(s, body_rows(c)); break;
    case KEY_HOME: case 'g': s->top = s->left = 0; break;
    case KEY_END: case 'G':
        s->top = s->file.length;
        move_up(s, body_rows(c) - 1);
        break;
    case KEY_LEFT: case 'h': move_aside(s, false); break;
    case KEY_RIGHT: case 'l': move_aside(s, true); break;
    case KEY_ENTER: case KEY_RESIZED: go_to_place(s, c); break;
    default: break;
    }
}

/* Moves to the next line below that has the needle, from the end on to the start again. */
static bool find_in_lines(void *state, slice needle)
{
    refusal_screen *s = state;
    size_t at = s->top;
    do {
        at = line_at(s->file, at).next;
        if (at >= s->file.length)
            at = 0;
        line l = line_at(s->file, at);
        if (contains(part_of(s->file, at, l.end - at), needle)) {
            s->top = at;
            return true;
        }
    } while (at != s->top);
    return false;
}

/* The view of a refused file. */
view open_refusal_view(refusal_screen *s, const char *name, slice file, uint64_t number, uint64_t place)
{
    *s = (refusal_screen){.name = name, .file = file, .number = number, .place = (size_t)place,
                          .field = refused_field(file, number, (size_t)place)};
    return (view){s, "Arrows, j k: move  Enter: to the byte  /: search  n: next  g G: ends  q: leave",
                  draw_refusal, press_refusal, find_in_lines};
}
