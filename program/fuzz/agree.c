/* Whether the library's calls say the same about one file: of any bytes the records that are handed
   out, with their fields; of an accepted file also its summary, parts, items and details. */
#include "agree.h"

#include "record.h"

/* Whether the fields are refused where they have less room than three numbers each; or, where there are
   none, at a place of their record. */
static bool refusal_holds(const fields *f, bai2_record r)
{
    size_t room = f->count > 0 ? 3 * f->count - 1 : 0;
    bai2_fields answer = bai2_fields_at(f->file.bytes, f->file.length, f->start, f->numbers, room);
    if (f->count > 0)
        return answer.number == BAI2_NO_ROOM && answer.place == 0;
    return answer.number >= BAI2_LINE_BADLY_ENDED && answer.number <= BAI2_WRONG_VERSION
        && answer.place >= f->start && answer.place <= f->start + r.length;
}

/* Whether the fields stand in the record that was read, one after the other; a refusal has left them. */
static bool fields_hold(const fields *f, bai2_record r)
{
    size_t at = f->start;
    bool good = refusal_holds(f, r);
    for (size_t i = 0; good && i < f->count; i++) {
        good = kind_at(f, i) >= BAI2_FIELD_NAME && kind_at(f, i) <= BAI2_FIELD_NOTHING && place_at(f, i) > at;
        at = place_at(f, i) + field_at(f, i).length;
    }
    return good && at <= f->start + r.length;
}

/* Whether the record handed out here stays in the file, and has its fields; or there is none. */
static bool record_holds(fields *f, size_t start)
{
    bai2_record r = bai2_record_at(f->file.bytes, f->file.length, start);
    read_fields(f, start);
    if (r.number != 0)
        return r.number == BAI2_NO_RECORD_CODE && r.place == start && f->count == 0;
    return r.length >= 3 && r.length <= f->file.length - start && fields_hold(f, r);
}

/* Whether what is handed out at the start of each line, and nothing at the file's end, holds. */
bool records_hold(slice file)
{
    fields f = {.file = file};
    bool good = bai2_record_at(file.bytes, file.length, file.length).number == BAI2_NO_SUCH_PART;
    for (size_t at = 0; good && at < file.length; at = line_at(file, at).next)
        good = record_holds(&f, at);
    drop_fields(&f);
    return good;
}

/* An amount or a total without its sign; an empty one counts 0. */
static uint64_t magnitude_of(slice amount)
{
    enum bai2_amount_form form = form_of(amount);
    bool has_sign = form == BAI2_AMOUNT_WITH_PLUS || form == BAI2_AMOUNT_WITH_MINUS;
    return number_of(part_of(amount, has_sign ? 1 : 0, amount.length));
}

/* What an amount or a total counts. Sums may run over on bytes that are no file, so a minus is a number
   that runs over. */
static uint64_t units_of(slice amount)
{
    uint64_t magnitude = magnitude_of(amount);
    return form_of(amount) == BAI2_AMOUNT_WITH_MINUS ? 0 - magnitude : magnitude;
}

/* The sum of a record's items, or its detail's amount. */
uint64_t amounts_of(const fields *f)
{
    uint64_t total = 0;
    size_t at = 0;
    for (entry e; next_entry(f, &at, &e);)
        total += units_of(e.amount);
    return total;
}

/* Where the walk over the records stands: how many groups, accounts and details it has met, of the
   file, the group, the account; and sums so far. */
typedef struct {
    uint64_t groups, accounts, details;
    uint64_t all_accounts, all_details, lines;
    uint64_t account_total, group_total, file_total;
} standing;

/* Whether a trailer states this total; the total is handed on to the level above and begins anew. */
static bool closes_with(const fields *f, uint64_t *total, uint64_t *above)
{
    bool same = units_of(trailer_of(f).total) == *total;
    *above += *total;
    *total = 0;
    return same;
}

/* Takes one more record in; false where it is a trailer with another total than the walk's. */
static bool take(standing *s, record_code code, const fields *f)
{
    switch (code) {
    case GROUP_HEADER:
        s->groups++;
        s->accounts = 0;
        return true;
    case ACCOUNT_HEADER:
        s->accounts++;
        s->all_accounts++;
        s->details = 0;
        s->account_total = amounts_of(f);
        return true;
    case DETAIL:
        s->details++;
        s->all_details++;
        s->account_total += amounts_of(f);
        return true;
    case ACCOUNT_TRAILER: return closes_with(f, &s->account_total, &s->group_total);
    case GROUP_TRAILER: return closes_with(f, &s->group_total, &s->file_total);
    default: return true;
    }
}

/* Whether the part is the one from this record to its trailer. */
static bool same_part(const outline *o, size_t i, bai2_part part)
{
    const found_record *first = &o->records[i], *last = &o->records[first->closing];
    return part.number == 0 && part.start == first->start
        && part.length == last->start + last->length - first->start;
}

/* Whether an amount was answered as its field gives it. */
static bool same_amount(slice amount, uint64_t form, uint64_t magnitude)
{
    return form == form_of(amount) && magnitude == magnitude_of(amount);
}

/* Whether the item is the one that the fields show. */
static bool same_item(const entry *e, bai2_item i)
{
    return i.number == 0 && i.type == number_of(e->type) && same_amount(e->amount, i.amount_form, i.amount)
        && i.count_given == (e->count.length > 0) && i.count == number_of(e->count);
}

/* Whether each item of the account that the walk stands at is the same, and none comes after them. */
static bool items_agree(slice file, const standing *s, const fields *f)
{
    uint64_t group = s->groups - 1, account = s->accounts - 1, item = 0;
    size_t at = 0;
    for (entry e; next_entry(f, &at, &e); item++)
        if (!same_item(&e, bai2_item_of(file.bytes, file.length, group, account, item)))
            return false;
    return bai2_item_of(file.bytes, file.length, group, account, item).number == BAI2_NO_SUCH_PART;
}

/* Whether the detail is the one that the fields show. */
static bool same_detail(const fields *f, bai2_detail d)
{
    entry e;
    slice piece;
    size_t at = 0, text;
    if (d.number != 0 || !next_entry(f, &at, &e) || d.type != number_of(e.type))
        return false;
    if (!same_amount(e.amount, d.amount_form, d.amount))
        return false;
    text = place_at(f, at);
    bool given = next_piece(f, &at, &piece);
    return d.text_length == piece.length && d.text_start == (given ? text : 0);
}

/* Whether the part or detail that begins with the record that the walk stands at is the same, an
   account's items too. */
static bool part_agrees(const outline *o, size_t i, const standing *s, const fields *f)
{
    const uint8_t *file = o->file.bytes;
    size_t length = o->file.length;
    switch (o->records[i].code) {
    case GROUP_HEADER: return same_part(o, i, bai2_group(file, length, s->groups - 1));
    case ACCOUNT_HEADER:
        return same_part(o, i, bai2_account(file, length, s->groups - 1, s->accounts - 1))
            && items_agree(o->file, s, f);
    case DETAIL:
        return same_detail(f, bai2_detail_of(file, length, s->groups - 1, s->accounts - 1, s->details - 1));
    default: return true;
    }
}

/* Whether the records' numbers and sums are those of the file's summary. */
static bool summary_agrees(const outline *o, const standing *s)
{
    return s->groups == o->summary.groups && s->all_accounts == o->summary.accounts
        && s->all_details == o->summary.details && s->lines == o->summary.records
        && s->file_total == (uint64_t)o->summary.total;
}

/* Whether all calls that look into an accepted file say the same about it. */
bool calls_agree(const outline *o)
{
    standing s = {0};
    fields f = {.file = o->file};
    bool good = true;
    for (size_t i = 0; good && i < o->count; i++) {
        read_fields(&f, o->records[i].start);
        s.lines += bai2_record_at(o->file.bytes, o->file.length, o->records[i].start).lines;
        good = f.count > 0 && take(&s, o->records[i].code, &f) && part_agrees(o, i, &s, &f);
    }
    drop_fields(&f);
    return good && summary_agrees(o, &s);
}
