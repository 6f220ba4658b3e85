/* Records and fields handed out (document 01, "Lines and records" and "Fields"), from any place of any
   bytes: refusals 5, 7, 8, 9, 15 and 17. */
#include "oracle_lines.h"
#include "oracle_walk.h"

/* Judges a start: 17 where no byte is there, 5 where the line there has no code. */
static refusal check_start(const uint8_t *file, size_t length, uint64_t start)
{
    if (start >= length)
        return (refusal){17, 0};
    if (code_at(file, oracle_line_at(file, length, (size_t)start)) == 0)
        return (refusal){5, start};
    return none;
}

/* Whether the record goes on after this line; if so, goes on to the 88. */
static bool next_line(const uint8_t *file, size_t length, line *l)
{
    if (!continues(file, length, l->next))
        return false;
    *l = oracle_line_at(file, length, l->next);
    return true;
}

/* The record that begins at `start`. */
bai2_record oracle_record_at(const uint8_t *file, size_t file_length, uint64_t start)
{
    refusal refused = check_start(file, file_length, start);
    if (refused.number != 0)
        return (bai2_record){.number = refused.number, .place = refused.place};
    line l = oracle_line_at(file, file_length, (size_t)start);
    bai2_record r = {.code = code_at(file, l), .lines = 1};
    while (next_line(file, file_length, &l))
        r.lines++;
    r.length = l.next - start;
    return r;
}

/* Walks over the record that begins at `start`; one that begins with an 88 wants no field. */
static refusal walk_record(const uint8_t *file, size_t length, size_t start, hand *to)
{
    line l = oracle_line_at(file, length, start);
    record rec = {.code = (record_code)code_at(file, l)};
    walk w = {.file = file, .rec = &rec,
              .wanted = rec.code == CONTINUATION ? NOTHING : first_field(rec.code)};
    do {
        refusal fault = walk_line(&w, l, to);
        if (fault.number != 0)
            return fault;
    } while (next_line(file, length, &l));
    return check_end(&w);
}

/* The fields of the record that begins at `start`: they are counted first, then handed out. */
bai2_fields oracle_fields_at(const uint8_t *file, size_t file_length, uint64_t start,
                             uint64_t *out, size_t out_length)
{
    hand counted = {0}, filled = {.out = out};
    refusal refused = check_start(file, file_length, start);
    if (refused.number == 0)
        refused = walk_record(file, file_length, (size_t)start, &counted);
    if (refused.number == 0 && out_length < 3 * counted.count)
        refused = (refusal){15, 0};
    if (refused.number != 0)
        return (bai2_fields){.number = refused.number, .place = refused.place};
    walk_record(file, file_length, (size_t)start, &filled);
    return (bai2_fields){0, 0, filled.count};
}
