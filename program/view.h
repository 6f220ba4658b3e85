/* What the screen can show: a view draws itself, answers keys, and can be searched. */
#ifndef VIEW_H
#define VIEW_H

#include "bytes.h"
#include "terminal.h"

typedef struct {
    void *state;
    const char *help; /* its keys, for the last row */
    void (*draw)(void *state, const canvas *c);
    void (*press)(void *state, const canvas *c, key k);
    bool (*find)(void *state, slice needle); /* moves to the next place that has the needle */
} view;

typedef enum { PLAIN, REVERSE, BOLD } look;

const char *last_part(const char *path);
void draw_row(const canvas *c, size_t row, look how, const char *text, const char *right);
bool run_view(const view *v);

#endif
