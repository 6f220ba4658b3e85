/* How the program ends. */
#ifndef STATUS_H
#define STATUS_H

enum {
    GOOD = 0,
    REFUSED = 1, /* a file was refused or can't be read, or a code is not a type */
    MISUSED = 2, /* the command line was not understood */
    TROUBLE = 3  /* the answer can't be written or shown */
};

#endif
