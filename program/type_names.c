/* The names of type codes in words (source document 000, the uniform list). */
#include "type_names.h"

#include <stddef.h>

/* The name of each listed code; the Makefile makes these lines from type_codes.txt. */
static const char *const names[TYPE_CODES] = {
#include "type_names.inc"
};

/* The name of a listed code; of any other one, that it is unlisted. */
const char *type_name(uint64_t code)
{
    return code < TYPE_CODES && names[code] != NULL ? names[code] : "unlisted";
}
