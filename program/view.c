/* The screen's loop: draws the view, waits for a key, asks for what is searched. */
#include "view.h"

#include <string.h>

#include "escapes.h"

enum { NEEDLE_ROOM = 64, MESSAGE_ROOM = 96 };

/* What the loop knows beside the view: the last search, and what the last row says. */
typedef struct {
    char needle[NEEDLE_ROOM];
    char message[MESSAGE_ROOM];
    bool asking; /* whether the needle is being typed */
} dialog;

/* The last part of a path, for a title. */
const char *last_part(const char *path)
{
    const char *slash = strrchr(path, '/');
    return slash == NULL || slash[1] == '\0' ? path : slash + 1;
}

/* Draws one row: a text cut to the width, and at the right edge what must be seen whole. */
void draw_row(const canvas *c, size_t row, look how, const char *text, const char *right)
{
    static const char *const looks[] = {[PLAIN] = "", [REVERSE] = REVERSE_LOOK, [BOLD] = BOLD_LOOK};
    size_t tail = strlen(right);
    size_t room = tail + 1 < c->columns ? c->columns - tail - (tail > 0 ? 1 : 0) : c->columns;
    size_t length = strlen(text);
    if (length > room)
        length = room;
    if (room == c->columns)
        tail = 0;
    fprintf(c->to, GO_TO_ROW PLAIN_LOOK "%s", row + 1, looks[how]);
    for (size_t i = 0; i < length; i++)
        fputc(is_printable((uint8_t)text[i]) ? text[i] : '?', c->to);
    fprintf(c->to, "%*s%s" PLAIN_LOOK, (int)(c->columns - length - tail), "", tail > 0 ? right : "");
}

/* Draws the last row: the search being typed, a message, or the keys. */
static void draw_last_row(const canvas *c, const view *v, const dialog *d)
{
    char text[NEEDLE_ROOM + 16];
    snprintf(text, sizeof text, "search: %s_", d->needle);
    const char *said = d->asking ? text : d->message[0] != '\0' ? d->message : v->help;
    draw_row(c, c->rows - 1, d->asking ? BOLD : PLAIN, said, "");
}

/* Draws everything and hands it to the terminal. */
static void draw(const canvas *c, const view *v, const dialog *d)
{
    v->draw(v->state, c);
    draw_last_row(c, v, d);
    fflush(c->to);
}

/* Moves to the next place that has the needle, or says that there is none. */
static void search(const view *v, dialog *d)
{
    if (d->needle[0] == '\0')
        return;
    if (!v->find(v->state, slice_of(d->needle)))
        snprintf(d->message, sizeof d->message, "not found: %s", d->needle);
}

/* Takes one key of a search being typed. */
static void type_needle(const view *v, dialog *d, key k)
{
    size_t length = strlen(d->needle);
    if (k == KEY_ENTER || k == KEY_ESCAPE) {
        d->asking = false;
        if (k == KEY_ENTER)
            search(v, d);
    } else if (k == KEY_ERASE && length > 0) {
        d->needle[length - 1] = '\0';
    } else if (k >= ' ' && k <= '~' && length + 1 < sizeof d->needle) {
        d->needle[length] = (char)k;
        d->needle[length + 1] = '\0';
    }
}

/* Takes one key; false where it says to leave. */
static bool take_key(const canvas *c, const view *v, dialog *d, key k)
{
    if (k == KEY_GONE)
        return false;
    if (k == KEY_RESIZED) {
        fputs(PLAIN_LOOK WIPE_SCREEN, c->to);
        v->press(v->state, c, k);
        return true;
    }
    if (d->asking) {
        type_needle(v, d, k);
        return true;
    }
    d->message[0] = '\0';
    if (k == '/') {
        d->asking = true;
        d->needle[0] = '\0';
    } else if (k == 'n') {
        search(v, d);
    } else {
        v->press(v->state, c, k);
    }
    return k != 'q';
}

/* Shows a view until the user leaves it; false where there is no terminal. */
bool run_view(const view *v)
{
    terminal t;
    dialog d = {.asking = false};
    if (!open_terminal(&t))
        return false;
    v->press(v->state, &t.canvas, KEY_RESIZED);
    do
        draw(&t.canvas, v, &d);
    while (take_key(&t.canvas, v, &d, wait_for_key(&t)));
    close_terminal(&t);
    return true;
}
