/* The walk over one record's lines and fields, left to right (document 01, "Lines and records" and
   "Fields"): refusals 7, 8 and 9, and what the record says. Static, so that the reader's walk is
   compiled by itself, without the steps that hand fields out, and is no slower for them. */
#ifndef ORACLE_WALK_H
#define ORACLE_WALK_H

#include "oracle_inner.h"

/* Which field is wanted next. */
typedef enum {
    WRONG,         /* instead of a next field: this one is wrong (8) */
    WRONG_VERSION, /* the same for the version (9) */
    NOTHING,       /* the record is complete; a further field is one too many */
    SENDER, FILE_RECEIVER, FILE_DATE, FILE_TIME, FILE_NUMBER, PHYSICAL_LENGTH, BLOCK_SIZE, VERSION,
    RECEIVER, ORIGINATOR, STATUS, GROUP_DATE, GROUP_TIME, GROUP_CURRENCY, MODIFIER,
    ACCOUNT_NUMBER, ACCOUNT_CURRENCY, FIRST_TYPE, NEXT_TYPE,
    ITEM_AMOUNT, ITEM_COUNT, FUNDS,
    STATUS_AMOUNT, STATUS_COUNT, STATUS_FUNDS,
    NO_ITEM_AMOUNT, NO_ITEM_COUNT, NO_ITEM_FUNDS,
    DETAIL_TYPE, NOTE_AMOUNT, NOTE_FUNDS, BANK_REFERENCE, CUSTOMER_REFERENCE,
    TEXT, MORE_TEXT,
    S_FIRST, S_SECOND, S_THIRD, V_DATE, V_TIME, D_PAIRS, D_DAYS, D_AMOUNT,
    TOTAL, COUNT, RECORDS
} want;

typedef struct {
    const uint8_t *file;
    record *rec;
    want wanted;
    uint64_t pairs;      /* D's pairs still to come */
    uint64_t magnitudes; /* of all the file's amounts so far */
    size_t last_slash;
} walk;

/* Where the fields of a record go: three numbers each, or nothing but their count. */
typedef struct {
    uint64_t *out; /* NULL: only counted */
    uint64_t count;
} hand;

static const refusal none = {0, 0};

/* What each field is that may be wanted. */
static const uint8_t kinds[] = {
    [SENDER] = BAI2_FIELD_NAME, [FILE_RECEIVER] = BAI2_FIELD_NAME, [FILE_DATE] = BAI2_FIELD_DATE,
    [FILE_TIME] = BAI2_FIELD_TIME, [FILE_NUMBER] = BAI2_FIELD_FILE_NUMBER,
    [PHYSICAL_LENGTH] = BAI2_FIELD_PHYSICAL_LENGTH, [BLOCK_SIZE] = BAI2_FIELD_BLOCK_SIZE,
    [VERSION] = BAI2_FIELD_VERSION,
    [RECEIVER] = BAI2_FIELD_ULTIMATE_RECEIVER, [ORIGINATOR] = BAI2_FIELD_NAME,
    [STATUS] = BAI2_FIELD_GROUP_STATUS, [GROUP_DATE] = BAI2_FIELD_DATE,
    [GROUP_TIME] = BAI2_FIELD_TIME_OR_NONE, [GROUP_CURRENCY] = BAI2_FIELD_CURRENCY,
    [MODIFIER] = BAI2_FIELD_MODIFIER,
    [ACCOUNT_NUMBER] = BAI2_FIELD_NAME, [ACCOUNT_CURRENCY] = BAI2_FIELD_CURRENCY,
    [FIRST_TYPE] = BAI2_FIELD_TYPE, [NEXT_TYPE] = BAI2_FIELD_FURTHER_TYPE,
    [ITEM_AMOUNT] = BAI2_FIELD_AMOUNT, [ITEM_COUNT] = BAI2_FIELD_ITEM_COUNT, [FUNDS] = BAI2_FIELD_FUNDS,
    [STATUS_AMOUNT] = BAI2_FIELD_STATUS_AMOUNT, [STATUS_COUNT] = BAI2_FIELD_NOTHING,
    [STATUS_FUNDS] = BAI2_FIELD_NOTHING, [NO_ITEM_AMOUNT] = BAI2_FIELD_NOTHING,
    [NO_ITEM_COUNT] = BAI2_FIELD_NOTHING, [NO_ITEM_FUNDS] = BAI2_FIELD_NOTHING,
    [DETAIL_TYPE] = BAI2_FIELD_DETAIL_TYPE, [NOTE_AMOUNT] = BAI2_FIELD_NOTHING,
    [NOTE_FUNDS] = BAI2_FIELD_NOTHING, [BANK_REFERENCE] = BAI2_FIELD_REFERENCE,
    [CUSTOMER_REFERENCE] = BAI2_FIELD_REFERENCE,
    [TEXT] = BAI2_FIELD_TEXT, [MORE_TEXT] = BAI2_FIELD_FURTHER_TEXT,
    [S_FIRST] = BAI2_FIELD_SPLIT_AMOUNT, [S_SECOND] = BAI2_FIELD_SPLIT_AMOUNT,
    [S_THIRD] = BAI2_FIELD_SPLIT_AMOUNT, [V_DATE] = BAI2_FIELD_DATE,
    [V_TIME] = BAI2_FIELD_TIME_OR_NONE, [D_PAIRS] = BAI2_FIELD_PAIR_COUNT,
    [D_DAYS] = BAI2_FIELD_DAYS, [D_AMOUNT] = BAI2_FIELD_DAY_AMOUNT,
    [TOTAL] = BAI2_FIELD_TOTAL, [COUNT] = BAI2_FIELD_COUNT, [RECORDS] = BAI2_FIELD_RECORDS};

/* Hands out the field that was wanted, where fields are handed out at all. */
static inline void hand_out(const walk *w, size_t place, size_t length, hand *to)
{
    if (to == NULL)
        return;
    if (to->out != NULL) {
        uint64_t *three = to->out + 3 * to->count;
        three[0] = kinds[w->wanted];
        three[1] = place;
        three[2] = length;
    }
    to->count++;
}

/* The next field where this one is good. */
static inline want then(bool good, want next)
{
    return good ? next : WRONG;
}

/* The field wanted after an item's or detail's funds. */
static want after_funds(const walk *w)
{
    return w->rec->code == ACCOUNT_HEADER ? NEXT_TYPE : BANK_REFERENCE;
}

/* Whether the field is a good L, which goes to the record. */
static bool take_limit(walk *w, slice field)
{
    uint64_t limit;
    if (field.length == 0)
        return true;
    if (!is_number(field, 4, &limit) || limit < SHORTEST_LIMIT || limit > LONGEST_LINE)
        return false;
    w->rec->limit = limit;
    return true;
}

/* Judges a field of the 01. */
static want header_field(walk *w, slice field)
{
    switch (w->wanted) {
    case SENDER: return then(is_name(field, 1), FILE_RECEIVER);
    case FILE_RECEIVER: return then(is_name(field, 1), FILE_DATE);
    case FILE_DATE: return then(is_date(field), FILE_TIME);
    case FILE_TIME: return then(is_time(field), FILE_NUMBER);
    case FILE_NUMBER: return then(field.length > 0 && is_optional_number(field, 9), PHYSICAL_LENGTH);
    case PHYSICAL_LENGTH: return then(take_limit(w, field), BLOCK_SIZE);
    case BLOCK_SIZE: return then(is_optional_number(field, 9), VERSION);
    case VERSION: return field.length == 1 && field.bytes[0] == '2' ? NOTHING : WRONG_VERSION;
    default: return WRONG;
    }
}

/* Judges a field of an 02. */
static want group_field(walk *w, slice field)
{
    switch (w->wanted) {
    case RECEIVER:
        w->rec->receiver = field;
        return then(is_name(field, 0), ORIGINATOR);
    case ORIGINATOR: return then(is_name(field, 1), STATUS);
    case STATUS: return then(is_one_to_four(field), GROUP_DATE);
    case GROUP_DATE: return then(is_date(field), GROUP_TIME);
    case GROUP_TIME: return then(is_optional_time(field), GROUP_CURRENCY);
    case GROUP_CURRENCY: return then(is_currency(field), MODIFIER);
    case MODIFIER: return then(field.length == 0 || is_one_to_four(field), NOTHING);
    default: return WRONG;
    }
}

/* Adds an amount to the record's; the first that passes the file's bound is remembered. */
static void add_amount(walk *w, given_amount amount, size_t place)
{
    if (w->rec->too_large != 0)
        return;
    w->magnitudes += amount.magnitude;
    if (w->magnitudes > GREATEST_SUM)
        w->rec->too_large = place;
    else if (amount.form == BAI2_AMOUNT_WITH_MINUS)
        w->rec->minuses += amount.magnitude;
    else
        w->rec->pluses += amount.magnitude;
}

/* Judges an item's or detail's amount and adds it up; `next` is wanted after it. */
static want take_amount(walk *w, slice field, unsigned forms, want next)
{
    given_amount *amount = &w->rec->last.amount;
    if (!is_amount(field, forms, amount))
        return WRONG;
    add_amount(w, *amount, (size_t)(field.bytes - w->file));
    return next;
}

/* Judges a funds type. */
static want take_funds(const walk *w, slice field)
{
    if (field.length == 0)
        return after_funds(w);
    if (field.length != 1)
        return WRONG;
    switch (field.bytes[0]) {
    case '0': case '1': case '2': case 'Z': return after_funds(w);
    case 'S': return S_FIRST;
    case 'V': return V_DATE;
    case 'D': return D_PAIRS;
    default: return WRONG;
    }
}

/* Judges D's number of pairs. */
static want take_pairs(walk *w, slice field)
{
    return then(is_number(field, 3, &w->pairs) && w->pairs > 0, D_DAYS);
}

/* Judges one of the amounts after S; `next` is wanted after it. */
static want take_split_amount(slice field, want next)
{
    given_amount amount;
    return then(is_amount(field, SPLIT_FORMS, &amount), next);
}

/* Judges the amount of one of D's pairs. */
static want take_pair_amount(walk *w, slice field)
{
    given_amount amount;
    if (!is_amount(field, DAY_FORMS, &amount))
        return WRONG;
    w->pairs--;
    return w->pairs > 0 ? D_DAYS : after_funds(w);
}

/* Judges a funds type or a field after one. */
static want funds_field(walk *w, slice field)
{
    uint64_t days;
    switch (w->wanted) {
    case FUNDS: return take_funds(w, field);
    case S_FIRST: return take_split_amount(field, S_SECOND);
    case S_SECOND: return take_split_amount(field, S_THIRD);
    case S_THIRD: return take_split_amount(field, after_funds(w));
    case V_DATE: return then(is_date(field), V_TIME);
    case V_TIME: return then(is_optional_time(field), after_funds(w));
    case D_PAIRS: return take_pairs(w, field);
    case D_DAYS: return then(is_number(field, 3, &days), D_AMOUNT);
    case D_AMOUNT: return take_pair_amount(w, field);
    default: return WRONG;
    }
}

/* Judges the type of a 03's item. */
static want take_item_type(walk *w, slice field)
{
    if (field.length == 0)
        return w->wanted == FIRST_TYPE ? NO_ITEM_AMOUNT : WRONG;
    type_class class = class_of(field, &w->rec->last.type);
    if (class == STATUS_TYPE)
        return STATUS_AMOUNT;
    return then(is_item_class(class), ITEM_AMOUNT);
}

/* Judges an item's count of up to that many digits; `next` is wanted after it. The item, which has all
   that it gives by now, is kept where it is the one that is asked for. */
static want take_item_count(walk *w, slice field, size_t longest, want next)
{
    record *r = w->rec;
    r->last.count = 0;
    r->last.count_given = field.length > 0;
    if (r->last.count_given && !is_number(field, longest, &r->last.count))
        return WRONG;
    if (r->items++ == r->asked)
        r->item = r->last;
    return next;
}

/* Judges a field of a 03. */
static want account_field(walk *w, slice field)
{
    switch (w->wanted) {
    case ACCOUNT_NUMBER: return then(is_name(field, 1), ACCOUNT_CURRENCY);
    case ACCOUNT_CURRENCY: return then(is_currency(field), FIRST_TYPE);
    case FIRST_TYPE: case NEXT_TYPE: return take_item_type(w, field);
    case ITEM_AMOUNT: return take_amount(w, field, PLUS_FORMS, ITEM_COUNT);
    case ITEM_COUNT: return take_item_count(w, field, LONGEST_COUNT, FUNDS);
    case STATUS_AMOUNT: return take_amount(w, field, STATUS_FORMS, STATUS_COUNT);
    case STATUS_COUNT: return take_item_count(w, field, 0, STATUS_FUNDS);
    case STATUS_FUNDS: return then(field.length == 0, NEXT_TYPE);
    case NO_ITEM_AMOUNT: return then(field.length == 0, NO_ITEM_COUNT);
    case NO_ITEM_COUNT: return then(field.length == 0, NO_ITEM_FUNDS);
    case NO_ITEM_FUNDS: return then(field.length == 0, NOTHING);
    default: return funds_field(w, field);
    }
}

/* Judges the type of a 16. */
static want take_detail_type(walk *w, slice field)
{
    type_class class = class_of(field, &w->rec->last.type);
    if (class == NOTE_TYPE)
        return NOTE_AMOUNT;
    return then(is_detail_class(class), ITEM_AMOUNT);
}

/* Judges a field of a 16, its text left out. */
static want detail_field(walk *w, slice field)
{
    switch (w->wanted) {
    case DETAIL_TYPE: return take_detail_type(w, field);
    case ITEM_AMOUNT: return take_amount(w, field, PLUS_FORMS, FUNDS);
    case NOTE_AMOUNT: return then(field.length == 0, NOTE_FUNDS);
    case NOTE_FUNDS: return then(field.length == 0, BANK_REFERENCE);
    case BANK_REFERENCE: return then(is_name(field, 0), CUSTOMER_REFERENCE);
    case CUSTOMER_REFERENCE: return then(is_name(field, 0), TEXT);
    default: return funds_field(w, field);
    }
}

/* Judges a trailer's total. */
static want take_total(walk *w, slice field)
{
    given_amount total;
    if (!is_amount(field, TOTAL_FORMS, &total))
        return WRONG;
    int64_t magnitude = (int64_t)total.magnitude;
    w->rec->total = total.form == BAI2_AMOUNT_WITH_MINUS ? -magnitude : magnitude;
    w->rec->total_place = (size_t)(field.bytes - w->file);
    return w->rec->code == ACCOUNT_TRAILER ? RECORDS : COUNT;
}

/* Judges a field of a trailer. */
static want trailer_field(walk *w, slice field)
{
    record *r = w->rec;
    switch (w->wanted) {
    case TOTAL: return take_total(w, field);
    case COUNT:
        r->count_place = (size_t)(field.bytes - w->file);
        return then(is_number(field, LONGEST_COUNT, &r->count), RECORDS);
    case RECORDS:
        r->records_place = (size_t)(field.bytes - w->file);
        return then(is_number(field, LONGEST_COUNT, &r->records), NOTHING);
    default: return WRONG;
    }
}

/* The first field of a record that does not begin with an 88. */
static want first_field(record_code code)
{
    switch (code) {
    case FILE_HEADER: return SENDER;
    case GROUP_HEADER: return RECEIVER;
    case ACCOUNT_HEADER: return ACCOUNT_NUMBER;
    case DETAIL: return DETAIL_TYPE;
    default: return TOTAL;
    }
}

/* Judges a field; answers what is wanted after it. */
static want take_field(walk *w, slice field)
{
    switch (w->rec->code) {
    case FILE_HEADER: return header_field(w, field);
    case GROUP_HEADER: return group_field(w, field);
    case ACCOUNT_HEADER: return account_field(w, field);
    case DETAIL: return detail_field(w, field);
    default: return trailer_field(w, field);
    }
}

/* Where the blanks at the end of file[start..end) begin. */
static size_t trimmed(const uint8_t *file, size_t start, size_t end)
{
    while (end > start && file[end - 1] == ' ')
        end--;
    return end;
}

/* Judges a line from the text's place on: no text, or one piece. */
static refusal take_text(walk *w, size_t place, size_t end, hand *to)
{
    size_t stop = trimmed(w->file, place, end);
    bool slash_first = stop > place && w->file[place] == '/';
    if (w->wanted == TEXT && slash_first && stop == place + 1) {
        hand_out(w, place, 0, to);
        w->wanted = NOTHING;
        return none;
    }
    if (stop == place || slash_first)
        return (refusal){7, place};
    hand_out(w, place, stop - place, to);
    if (w->wanted == TEXT) {
        w->rec->text_start = place;
        w->rec->text_length = stop - place;
    }
    w->wanted = MORE_TEXT;
    return none;
}

/* Judges what stands after a slash: only blanks may. */
static refusal after_slash(const uint8_t *file, size_t place, size_t end)
{
    while (place < end && file[place] == ' ')
        place++;
    return place < end ? (refusal){7, place} : none;
}

/* Where the field that starts at `place` ends: at a comma or slash, or at the line's end. */
static inline size_t field_end(const uint8_t *file, size_t place, size_t end)
{
    while (place < end && file[place] != ',' && file[place] != '/')
        place++;
    return place;
}

/* Judges the fields of one line; the good ones go to `to`, where it is not NULL, up to the first fault. */
static refusal walk_line(walk *w, line l, hand *to)
{
    size_t place = l.start + 3;
    while (w->wanted != TEXT && w->wanted != MORE_TEXT) {
        size_t stop = field_end(w->file, place, l.end);
        if (stop == l.end)
            return (refusal){7, stop};
        want next = take_field(w, (slice){w->file + place, stop - place});
        if (next == WRONG || next == WRONG_VERSION)
            return (refusal){next == WRONG ? 8 : 9, place};
        hand_out(w, place, stop - place, to);
        w->wanted = next;
        if (w->file[stop] == '/') {
            w->last_slash = stop;
            return after_slash(w->file, stop + 1, l.end);
        }
        place = stop + 1;
    }
    return take_text(w, place, l.end, to);
}

/* Judges what is missing at a record's end. */
static refusal check_end(const walk *w)
{
    if (w->wanted == NOTHING || w->wanted == NEXT_TYPE || w->wanted == MORE_TEXT)
        return none;
    return (refusal){8, w->last_slash};
}

#endif
