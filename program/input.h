/* Files as they are read: whole, into memory. */
#ifndef INPUT_H
#define INPUT_H

#include "bytes.h"

/* A file that was read: its name for messages, and its bytes. */
typedef struct {
    const char *name;
    slice file;
    uint8_t *memory;
} input;

bool is_standard_input(const char *path);
bool fetch(input *in, const char *path);
bool load(input *in, const char *path);
void unload(input *in);

#endif
