/* The outline of an accepted file: where its records stand, and which trailer closes which. */
#include "outline.h"

#include <stdlib.h>

/* A record's bytes. */
slice bytes_of(const outline *o, size_t i)
{
    return part_of(o->file, o->records[i].start, o->records[i].length);
}

/* Adds the record that starts here. */
static void add_record(outline *o, size_t start, bai2_record r)
{
    if (o->count == o->room)
        o->records = larger(o->records, &o->room, sizeof *o->records);
    o->records[o->count++] = (found_record){(record_code)r.code, (uint32_t)start, (uint32_t)r.length, 0};
}

/* Notes for each group and account which trailer closes it. */
static void join_trailers(outline *o)
{
    size_t group = 0, account = 0;
    for (size_t i = 0; i < o->count; i++) {
        switch (o->records[i].code) {
        case GROUP_HEADER: group = i; break;
        case ACCOUNT_HEADER: account = i; break;
        case ACCOUNT_TRAILER: o->records[account].closing = (uint32_t)i; break;
        case GROUP_TRAILER: o->records[group].closing = (uint32_t)i; break;
        default: break;
        }
    }
}

/* Makes the outline of a file that bai2_read has accepted with this summary: the library then hands
   out all its records, one after the other, up to the file's end. */
void make_outline(outline *o, slice file, bai2_summary summary)
{
    *o = (outline){.file = file, .summary = summary};
    size_t at = 0;
    for (bai2_record r; (r = bai2_record_at(file.bytes, file.length, at)).number == 0; at += r.length)
        add_record(o, at, r);
    join_trailers(o);
}

/* Gives the outline's memory back. */
void drop_outline(outline *o)
{
    free(o->records);
    *o = (outline){.file = o->file};
}
