/* The outline of an accepted file: where its records stand, and which trailer closes which. */
#ifndef OUTLINE_H
#define OUTLINE_H

#include "bai2.h"
#include "bytes.h"
#include "codes.h"

/* One record with its 88 lines. A file's places fit in 32 bits, and large files have many records. */
typedef struct {
    record_code code;
    uint32_t start, length; /* its bytes, line ends included */
    uint32_t closing;       /* 02 and 03: the trailer's index */
} found_record;

typedef struct {
    slice file;
    bai2_summary summary;
    found_record *records;
    size_t count, room;
} outline;

void make_outline(outline *o, slice file, bai2_summary summary);
void drop_outline(outline *o);
slice bytes_of(const outline *o, size_t i);

#endif
