/* The fields of a file's records, as the library hands them out: one record's at a time. */
#ifndef FIELDS_H
#define FIELDS_H

#include "bai2.h"
#include "bytes.h"

/* Begins as {.file = ..}, with no record read. */
typedef struct {
    slice file;
    size_t start;      /* of the record that was read last */
    size_t count;      /* of its fields */
    uint64_t *numbers; /* for each field its kind, place and length */
    size_t room;       /* how many numbers there is memory for */
} fields;

void read_fields(fields *f, size_t start);
void drop_fields(fields *f);

uint64_t kind_at(const fields *f, size_t i);
size_t place_at(const fields *f, size_t i);
slice field_at(const fields *f, size_t i);
slice field_of_kind(const fields *f, enum bai2_kind kind, size_t before);

#endif
