/* The interactive screens: an accepted file's tree, and a refused file's lines. */
#ifndef SCREEN_H
#define SCREEN_H

#include "outline.h"
#include "tree.h"
#include "view.h"

typedef struct {
    const char *name;
    const outline *outline;
    tree tree;
    size_t row, top; /* the chosen row, and the first one on the canvas */
} tree_screen;

typedef struct {
    const char *name;
    slice file;
    uint64_t number;
    size_t place;
    const char *field; /* the refused field in words, nothing where it is not known */
    size_t top;   /* where the first line on the canvas starts */
    size_t left;  /* how many bytes of each line are left of the canvas */
} refusal_screen;

view open_tree_view(tree_screen *s, const char *name, const outline *o);
void close_tree_view(tree_screen *s);
view open_refusal_view(refusal_screen *s, const char *name, slice file, uint64_t number, uint64_t place);

#endif
