/* What a refusal's place is in the file: its record and its field, as the library hands them out. */
#include "refused_record.h"

#include "codes.h"
#include "fields.h"

/* A record on the way from the file's start: its code, where it starts, and where the last account
   and the last group up to it start. */
typedef struct {
    record_code code;
    size_t start, account, group;
} passed_record;

/* Finds the record that the byte at `place` stands in; false where the library hands out none. */
static bool find_record(slice file, size_t place, passed_record *p)
{
    *p = (passed_record){0};
    for (size_t next = 0; next <= place;) {
        bai2_record r = bai2_record_at(file.bytes, file.length, next);
        if (r.number != 0)
            return false;
        p->code = (record_code)r.code;
        p->start = next;
        if (p->code == ACCOUNT_HEADER)
            p->account = next;
        if (p->code == GROUP_HEADER)
            p->group = next;
        next += (size_t)r.length;
    }
    return true;
}

/* Where the account or the group starts that the trailer with this byte closes; the byte itself where
   it stands in no such trailer. */
size_t opening_of(slice file, size_t place)
{
    passed_record p;
    if (!find_record(file, place, &p))
        return place;
    return p.code == ACCOUNT_TRAILER ? p.account : p.code == GROUP_TRAILER ? p.group : place;
}

/* The words for a field of this kind in a record of this code; none where sums and counts don't
   depend on it. */
static const char *words_for(record_code code, uint64_t kind)
{
    static const struct {
        record_code code;
        uint64_t kind;
        const char *words;
    } known[] = {
        {ACCOUNT_HEADER, BAI2_FIELD_STATUS_AMOUNT, "the amount of a status"},
        {ACCOUNT_HEADER, BAI2_FIELD_AMOUNT, "the amount of a summary"},
        {DETAIL, BAI2_FIELD_AMOUNT, "the detail's amount"},
        {ACCOUNT_TRAILER, BAI2_FIELD_TOTAL, "the account's control total"},
        {ACCOUNT_TRAILER, BAI2_FIELD_RECORDS, "the account's number of records"},
        {GROUP_TRAILER, BAI2_FIELD_TOTAL, "the group's control total"},
        {GROUP_TRAILER, BAI2_FIELD_COUNT, "the group's number of accounts"},
        {GROUP_TRAILER, BAI2_FIELD_RECORDS, "the group's number of records"},
        {FILE_TRAILER, BAI2_FIELD_TOTAL, "the file's control total"},
        {FILE_TRAILER, BAI2_FIELD_COUNT, "the file's number of groups"},
        {FILE_TRAILER, BAI2_FIELD_RECORDS, "the file's number of records"},
    };
    for (size_t i = 0; i < sizeof known / sizeof known[0]; i++)
        if (known[i].code == code && known[i].kind == kind)
            return known[i].words;
    return "";
}

/* The kind of the field that starts at this byte, in the record that starts there; 0 where there is
   none. */
static uint64_t kind_of(slice file, size_t record, size_t place)
{
    fields f = {.file = file};
    size_t i = 0;
    read_fields(&f, record);
    while (i < f.count && place_at(&f, i) != place)
        i++;
    uint64_t kind = kind_at(&f, i);
    drop_fields(&f);
    return kind;
}

/* The field in words that a refusal of this number and place blames: an amount, a total or a count.
   Nothing for other refusals, whose place is no such field. */
const char *refused_field(slice file, uint64_t number, size_t place)
{
    passed_record p;
    if (number < BAI2_AMOUNTS_TOO_LARGE || number > BAI2_SUM_TOO_LARGE || !find_record(file, place, &p))
        return "";
    return words_for(p.code, kind_of(file, p.start, place));
}
