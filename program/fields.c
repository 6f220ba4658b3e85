/* The fields of a file's records, as the library hands them out: one record's at a time. */
#include "fields.h"

#include <stdlib.h>

enum { KIND, PLACE, LENGTH, NUMBERS }; /* what bai2_fields_at answers for each field */

/* Asks for the fields of the record that starts here. */
static bai2_fields ask(const fields *f, size_t start)
{
    return bai2_fields_at(f->file.bytes, f->file.length, start, f->numbers, f->room);
}

/* Reads the fields of the record that starts here; none where the library refuses them. Those that
   were read last are still there. */
void read_fields(fields *f, size_t start)
{
    if (f->count > 0 && f->start == start)
        return;
    bai2_fields answer = ask(f, start);
    while (answer.number == BAI2_NO_ROOM) {
        f->numbers = larger(f->numbers, &f->room, sizeof *f->numbers);
        answer = ask(f, start);
    }
    f->start = start;
    f->count = (size_t)answer.count;
}

/* Gives the fields' memory back. */
void drop_fields(fields *f)
{
    free(f->numbers);
    *f = (fields){.file = f->file};
}

/* The kind of the field of this number, from 0; no kind, 0, after the last one. */
uint64_t kind_at(const fields *f, size_t i)
{
    return i < f->count ? f->numbers[NUMBERS * i + KIND] : 0;
}

/* Where in the file the field of this number starts; at its end after the last one. */
size_t place_at(const fields *f, size_t i)
{
    return i < f->count ? (size_t)f->numbers[NUMBERS * i + PLACE] : f->file.length;
}

/* The bytes of the field of this number; empty after the last one. */
slice field_at(const fields *f, size_t i)
{
    return part_of(f->file, place_at(f, i), i < f->count ? (size_t)f->numbers[NUMBERS * i + LENGTH] : 0);
}

/* The field of this kind that has so many of the same kind before it; empty where there is none. */
slice field_of_kind(const fields *f, enum bai2_kind kind, size_t before)
{
    size_t i = 0;
    while (i < f->count && (kind_at(f, i) != kind || before-- > 0))
        i++;
    return field_at(f, i);
}
