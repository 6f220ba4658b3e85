/* The names of type codes in words. */
#ifndef TYPE_NAMES_H
#define TYPE_NAMES_H

#include <stdint.h>

enum { TYPE_CODES = 1000 }; /* of three digits */

const char *type_name(uint64_t code);

#endif
