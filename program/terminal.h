/* The terminal: taken over and given back, its size, and its keys. */
#ifndef TERMINAL_H
#define TERMINAL_H

#include <stdbool.h>
#include <stddef.h>
#include <stdio.h>

/* Keys beside the printable characters, which stand for themselves. */
typedef enum {
    KEY_ENTER = 13,
    KEY_ESCAPE = 27,
    KEY_ERASE = 127,
    KEY_UP = 256,
    KEY_DOWN,
    KEY_LEFT,
    KEY_RIGHT,
    KEY_PAGE_UP,
    KEY_PAGE_DOWN,
    KEY_HOME,
    KEY_END,
    KEY_RESIZED, /* no key: the size changed, or the program was continued */
    KEY_GONE,    /* no key: a signal or the terminal's end says to leave */
    KEY_OTHER
} key;

/* What a view draws on: where its text goes, and how large it is. */
typedef struct {
    FILE *to;
    size_t rows, columns;
} canvas;

typedef struct {
    int fd;
    canvas canvas;
} terminal;

bool open_terminal(terminal *t);
void close_terminal(terminal *t);
key wait_for_key(terminal *t);

#endif
