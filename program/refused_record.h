/* What a refusal's place is in the file: its record and its field, as the library hands them out. */
#ifndef REFUSED_RECORD_H
#define REFUSED_RECORD_H

#include "bytes.h"

size_t opening_of(slice file, size_t place);
const char *refused_field(slice file, uint64_t number, size_t place);

#endif
