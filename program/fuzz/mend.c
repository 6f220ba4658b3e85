/* Mending a file's trailers: totals and counts are written anew, so that a file which the fuzzer has
   changed elsewhere is accepted again. */
#include "mend.h"

#include <inttypes.h>
#include <stdlib.h>

#include "agree.h"
#include "codes.h"
#include "fields.h"

/* What a trailer states; sums may run over on bytes that are no file, so they have no sign. */
typedef struct {
    uint64_t total, parts, lines;
} tally;

/* Writes a trailer with what its tally holds, adds that to the tally above, and empties it. */
static void put_trailer(FILE *to, record_code code, tally *t, tally *above)
{
    fprintf(to, "%d,%" PRId64, (int)code, (int64_t)t->total);
    if (code != ACCOUNT_TRAILER)
        fprintf(to, ",%" PRIu64, t->parts);
    fprintf(to, ",%" PRIu64 "/\n", t->lines + 1);
    above->total += t->total;
    above->lines += t->lines + 1;
    above->parts++;
    *t = (tally){0};
}

/* The account's, the group's and the whole file's tally; and one above, which nothing states. */
typedef struct {
    tally account, group, whole, above;
} tallies;

/* Writes a record: a trailer anew, any other as it is, and what it adds to its tally. */
static void put_record(FILE *to, tallies *t, bai2_record r, const fields *f, slice bytes)
{
    tally *now = &t->whole;
    switch (r.code) {
    case ACCOUNT_TRAILER: put_trailer(to, ACCOUNT_TRAILER, &t->account, &t->group); return;
    case GROUP_TRAILER: put_trailer(to, GROUP_TRAILER, &t->group, &t->whole); return;
    case FILE_TRAILER: put_trailer(to, FILE_TRAILER, &t->whole, &t->above); return;
    case ACCOUNT_HEADER: case DETAIL: now = &t->account; break;
    case GROUP_HEADER: now = &t->group; break;
    default: break;
    }
    if (fwrite(bytes.bytes, 1, bytes.length, to) != bytes.length)
        abort();
    now->total += amounts_of(f);
    now->lines += r.lines;
}

/* The record that starts here; the line alone where the library hands out none. */
static bai2_record record_or_line(slice file, size_t start)
{
    bai2_record r = bai2_record_at(file.bytes, file.length, start);
    if (r.number != 0)
        r = (bai2_record){.lines = 1, .length = line_at(file, start).next - start};
    return r;
}

/* The file with its trailers written anew; its bytes are the caller's to free. */
slice mend(slice file)
{
    char *text = NULL;
    size_t length = 0;
    tallies t = {0};
    fields f = {.file = file};
    FILE *to = open_memstream(&text, &length);
    if (to == NULL)
        abort();
    for (size_t at = 0; at < file.length;) {
        bai2_record r = record_or_line(file, at);
        read_fields(&f, at);
        put_record(to, &t, r, &f, part_of(file, at, (size_t)r.length));
        at += (size_t)r.length;
    }
    fclose(to);
    drop_fields(&f);
    return (slice){(const uint8_t *)text, length};
}
