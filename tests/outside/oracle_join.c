/* Combining two files and splitting one (document 01, "Parts, combining, splitting, writing"):
   refusals 10, 15, 16 and 18. */
#include <string.h>

#include "oracle_inner.h"

/* An accepted file, seen as its header lines, its groups and its 99. */
typedef struct {
    refusal refusal;
    size_t header_end, trailer_start;
    uint64_t header_lines;
    uint64_t limit;       /* L, or 0 where the header gives none */
    size_t longest_line;  /* of the groups */
    tally groups;         /* all groups that count */
    size_t groups_length; /* their bytes */
} envelope;

/* Whether two names are the same, byte by byte. */
static bool same(slice one, slice other)
{
    return one.length == other.length && memcmp(one.bytes, other.bytes, one.length) == 0;
}

/* Adds one record of an accepted file to its envelope. */
static void add_record(envelope *e, const reader *r, const record *rec, bool counting)
{
    switch (rec->code) {
    case FILE_HEADER:
        e->header_end = rec->end;
        e->header_lines = rec->lines;
        e->limit = rec->limit;
        return;
    case FILE_TRAILER:
        e->trailer_start = rec->start;
        return;
    case GROUP_TRAILER:
        if (counting) {
            oracle_add(&e->groups, &r->group);
            e->groups_length += rec->end - r->group_start;
        }
        break;
    default:
        break;
    }
    if (rec->longest_line > e->longest_line)
        e->longest_line = rec->longest_line;
}

/* Reads a file into its envelope; the groups for `name` count, or all groups where it is NULL. */
static envelope read_envelope(const slice *name, const uint8_t *file, size_t file_length)
{
    envelope e = {0};
    reader r = oracle_open(file, file_length);
    record rec;
    bool counting = false;
    while (oracle_next_record(&r, &rec)) {
        if (rec.code == GROUP_HEADER)
            counting = name == NULL || same(*name, rec.receiver);
        add_record(&e, &r, &rec, counting);
    }
    e.refusal = r.refusal;
    return e;
}

/* The fresh 99 after a header and some groups; answers its length. */
static size_t put_fresh_trailer(uint8_t *out, uint64_t header_lines, const tally *groups)
{
    tally whole = *groups;
    whole.lines += header_lines + 1;
    return oracle_put_trailer(out, FILE_TRAILER, &whole);
}

/* Copies bytes after the `length` bytes that stand in `out`; answers the new length. */
static size_t append(uint8_t *out, size_t length, const uint8_t *bytes, size_t more)
{
    memcpy(out + length, bytes, more);
    return length + more;
}

/* The refusal of a combination of two accepted files, or 0; `length` is the result's. */
static uint64_t combine_refusal(const envelope *a, const envelope *b, size_t length,
                                size_t out_length)
{
    if (oracle_magnitudes(&a->groups) + oracle_magnitudes(&b->groups) > GREATEST_SUM)
        return 10;
    if (length > LONGEST_FILE || (a->limit != 0 && b->longest_line > a->limit))
        return 18;
    return length > out_length ? 15 : 0;
}

/* A's header and groups, B's groups, and a fresh 99. */
bai2_combined oracle_combine(const uint8_t *a, size_t a_length,
                             const uint8_t *b, size_t b_length,
                             uint8_t *out, size_t out_length)
{
    envelope one = read_envelope(NULL, a, a_length);
    if (one.refusal.number != 0)
        return (bai2_combined){one.refusal.number, one.refusal.place, 0, 1};
    envelope two = read_envelope(NULL, b, b_length);
    if (two.refusal.number != 0)
        return (bai2_combined){two.refusal.number, two.refusal.place, 0, 2};

    tally groups = one.groups;
    oracle_add(&groups, &two.groups);
    uint8_t trailer[LONGEST_TRAILER];
    size_t trailer_length = put_fresh_trailer(trailer, one.header_lines, &groups);
    size_t whole = one.trailer_start + two.groups_length + trailer_length;
    uint64_t number = combine_refusal(&one, &two, whole, out_length);
    if (number != 0)
        return (bai2_combined){.number = number};

    size_t length = append(out, 0, a, one.trailer_start);
    length = append(out, length, b + two.header_end, two.groups_length);
    length = append(out, length, trailer, trailer_length);
    return (bai2_combined){.length = length};
}

/* Whether the name may be asked for. */
static bool may_be_asked(slice name)
{
    return is_name(name, 1) && is_plain(name);
}

/* The receiver of the group that starts here. */
static slice receiver_at(const uint8_t *file, size_t group)
{
    slice receiver = {file + group + 3, 0};
    while (receiver.bytes[receiver.length] != ',' && receiver.bytes[receiver.length] != '/')
        receiver.length++;
    return receiver;
}

/* Where the group that starts here ends: at the next 02, or at the file's 99. */
static size_t group_end(const uint8_t *file, size_t group, size_t trailer_start)
{
    size_t at = group;
    do
        at = oracle_line_at(file, trailer_start, at).next;
    while (at < trailer_start && memcmp(file + at, "02,", 3) != 0);
    return at;
}

/* Copies an accepted file's groups for `name` after what stands in `out`; answers the length. */
static size_t append_groups(uint8_t *out, size_t length, slice name,
                            const uint8_t *file, const envelope *e)
{
    for (size_t group = e->header_end; group < e->trailer_start;) {
        size_t end = group_end(file, group, e->trailer_start);
        if (same(name, receiver_at(file, group)))
            length = append(out, length, file + group, end - group);
        group = end;
    }
    return length;
}

/* The file's header, its groups for `name`, and a fresh 99. */
bai2_answer oracle_split(const uint8_t *name, size_t name_length,
                         const uint8_t *file, size_t file_length,
                         uint8_t *out, size_t out_length)
{
    const slice asked = {name, name_length};
    if (!may_be_asked(asked))
        return (bai2_answer){.number = 16};
    envelope e = read_envelope(&asked, file, file_length);
    if (e.refusal.number != 0)
        return (bai2_answer){.number = e.refusal.number, .place = e.refusal.place};

    uint8_t trailer[LONGEST_TRAILER];
    size_t trailer_length = put_fresh_trailer(trailer, e.header_lines, &e.groups);
    size_t whole = e.header_end + e.groups_length + trailer_length;
    if (whole > LONGEST_FILE)
        return (bai2_answer){.number = 18};
    if (whole > out_length)
        return (bai2_answer){.number = 15};

    size_t length = append(out, 0, file, e.header_end);
    length = append_groups(out, length, asked, file, &e);
    length = append(out, length, trailer, trailer_length);
    return (bai2_answer){.length = length};
}
