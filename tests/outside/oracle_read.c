/* The reader (document 01, "Lines and records" and "Totals and counts"): line by line, record by
   record; refusals 1 to 6 and 10 to 14. */
#include <string.h>

#include "oracle_lines.h"

static const refusal none = {0, 0};

/* A tally's amounts added up without their signs. */
uint64_t oracle_magnitudes(const tally *t)
{
    return t->pluses + t->minuses;
}

/* The algebraic sum of a tally's amounts. */
int64_t oracle_sum(const tally *t)
{
    return (int64_t)t->pluses - (int64_t)t->minuses;
}

/* Adds one tally to another. */
void oracle_add(tally *to, const tally *more)
{
    to->pluses += more->pluses;
    to->minuses += more->minuses;
    to->groups += more->groups;
    to->accounts += more->accounts;
    to->details += more->details;
    to->lines += more->lines;
}

/* The line that starts here; a CR directly before its LF belongs to the line end. */
line oracle_line_at(const uint8_t *file, size_t length, size_t start)
{
    const uint8_t *lf = memchr(file + start, '\n', length - start);
    if (lf == NULL)
        return (line){start, length, length};
    size_t end = (size_t)(lf - file);
    size_t next = end + 1;
    if (end > start && file[end - 1] == '\r')
        end--;
    return (line){start, end, next};
}

/* The place of the first byte that is not allowed, or the line's end. */
static size_t bad_byte(const uint8_t *file, line l)
{
    unsigned bad = 0;
    for (size_t i = l.start; i < l.end; i++)
        bad |= (unsigned)!is_allowed(file[i]);
    if (bad == 0)
        return l.end;
    size_t place = l.start;
    while (is_allowed(file[place]))
        place++;
    return place;
}

/* Judges a line by itself: 3, 4, 5. */
static refusal check_line(const reader *r, line l)
{
    if (l.end - l.start > r->limit)
        return (refusal){3, l.start + r->limit};
    size_t bad = bad_byte(r->file, l);
    if (bad < l.end)
        return (refusal){4, bad};
    if (code_at(r->file, l) == 0)
        return (refusal){5, l.start};
    return none;
}

/* Finds the record that starts here and judges its lines. */
static refusal find_record(const reader *r, record *rec)
{
    size_t at = r->next;
    *rec = (record){.start = at, .asked = r->asked};
    do {
        line l = oracle_line_at(r->file, r->length, at);
        refusal fault = check_line(r, l);
        if (fault.number != 0)
            return fault;
        if (rec->lines == 0)
            rec->code = (record_code)code_at(r->file, l);
        if (l.end - l.start > rec->longest_line)
            rec->longest_line = l.end - l.start;
        rec->lines++;
        at = l.next;
    } while (at < r->length && continues(r->file, r->length, at));
    rec->end = at;
    return none;
}

/* Whether a record may stand after what came before; the phase it leads to goes to `next`. */
bool oracle_in_turn(file_phase phase, record_code code, file_phase *next)
{
    switch (code) {
    case FILE_HEADER: *next = BETWEEN_GROUPS; return phase == FRESH;
    case GROUP_HEADER: *next = IN_GROUP; return phase == BETWEEN_GROUPS;
    case ACCOUNT_HEADER: *next = IN_ACCOUNT; return phase == IN_GROUP || phase == BETWEEN_ACCOUNTS;
    case DETAIL: *next = IN_ACCOUNT; return phase == IN_ACCOUNT;
    case ACCOUNT_TRAILER: *next = BETWEEN_ACCOUNTS; return phase == IN_ACCOUNT;
    case GROUP_TRAILER: *next = BETWEEN_GROUPS; return phase == BETWEEN_ACCOUNTS;
    case FILE_TRAILER: *next = ENDED; return phase == BETWEEN_GROUPS;
    default: return false;
    }
}

/* Holds the header's own lines against its L. */
static refusal check_header_lines(const reader *r, const record *rec)
{
    for (size_t at = rec->start; at < rec->end;) {
        line l = oracle_line_at(r->file, rec->end, at);
        if (l.end - l.start > rec->limit)
            return (refusal){3, l.start + rec->limit};
        at = l.next;
    }
    return none;
}

/* Adds a record to what the file, its group and its account hold. */
static void count_record(reader *r, const record *rec)
{
    tally more = {rec->pluses, rec->minuses, rec->code == GROUP_HEADER,
                  rec->code == ACCOUNT_HEADER, rec->code == DETAIL, rec->lines};
    if (rec->code == GROUP_HEADER) {
        r->group = (tally){0};
        r->group_start = rec->start;
    }
    if (rec->code == ACCOUNT_HEADER) {
        r->account = (tally){0};
        r->account_start = rec->start;
    }
    oracle_add(&r->whole, &more);
    oracle_add(&r->group, &more);
    oracle_add(&r->account, &more);
}

/* Holds a trailer against what it closes; `count` is what the tally has for the trailer's count. */
static refusal check_trailer(const record *rec, const tally *t, uint64_t count)
{
    int64_t sum = oracle_sum(t);
    if (rec->code != ACCOUNT_TRAILER
        && (sum > (int64_t)GREATEST_SUM || sum < -(int64_t)GREATEST_SUM))
        return (refusal){14, rec->total_place};
    if (rec->total != sum)
        return (refusal){11, rec->total_place};
    if (rec->code != ACCOUNT_TRAILER && rec->count != count)
        return (refusal){12, rec->count_place};
    if (rec->records != t->lines)
        return (refusal){13, rec->records_place};
    return none;
}

/* Judges a trailer's figures; other records pass. */
static refusal check_totals(const reader *r, const record *rec)
{
    switch (rec->code) {
    case ACCOUNT_TRAILER: return check_trailer(rec, &r->account, 0);
    case GROUP_TRAILER: return check_trailer(rec, &r->group, r->group.accounts);
    case FILE_TRAILER: return check_trailer(rec, &r->whole, r->whole.groups);
    default: return none;
    }
}

/* Judges the record whose lines were found, and counts it. */
static refusal judge_record(reader *r, record *rec)
{
    file_phase phase;
    if (!oracle_in_turn(r->phase, rec->code, &phase))
        return (refusal){6, rec->start};
    refusal fault = oracle_walk_fields(r->file, oracle_magnitudes(&r->whole), rec);
    if (fault.number != 0)
        return fault;
    if (rec->limit != 0) {
        fault = check_header_lines(r, rec);
        if (fault.number != 0)
            return fault;
        r->limit = rec->limit;
    }
    if (rec->too_large != 0)
        return (refusal){10, rec->too_large};
    count_record(r, rec);
    r->phase = phase;
    return check_totals(r, rec);
}

/* A reader at the file's start; 1 and 2 are given here. */
reader oracle_open(const uint8_t *file, size_t length)
{
    reader r = {.file = file, .length = length, .limit = LONGEST_LINE};
    if (length == 0)
        r.refusal = (refusal){1, 0};
    else if (length > LONGEST_FILE)
        r.refusal = (refusal){2, 0};
    return r;
}

/* Reads one more record; false at the first refusal and at the file's end. */
bool oracle_next_record(reader *r, record *rec)
{
    if (r->refusal.number != 0)
        return false;
    if (r->next == r->length) {
        if (r->phase != ENDED)
            r->refusal = (refusal){6, r->length};
        return false;
    }
    r->refusal = find_record(r, rec);
    if (r->refusal.number == 0)
        r->refusal = judge_record(r, rec);
    r->next = rec->end;
    return r->refusal.number == 0;
}

/* The verdict on a file, and an accepted file's summary. */
bai2_summary oracle_read(const uint8_t *file, size_t file_length)
{
    reader r = oracle_open(file, file_length);
    record rec;
    while (oracle_next_record(&r, &rec))
        continue;
    if (r.refusal.number != 0)
        return (bai2_summary){.number = r.refusal.number, .place = r.refusal.place};
    return (bai2_summary){0, 0, oracle_sum(&r.whole), r.whole.groups, r.whole.accounts,
                          r.whole.details, r.whole.lines};
}
