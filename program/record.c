/* What a record says, for display: its fields taken by their kinds. */
#include "record.h"

#include <string.h>

#include "type_names.h"

enum { DIGITS = 18 };

/* What a 01 says. */
file_header file_header_of(const fields *f)
{
    return (file_header){
        .sender = field_of_kind(f, BAI2_FIELD_NAME, 0),
        .receiver = field_of_kind(f, BAI2_FIELD_NAME, 1),
        .date = field_of_kind(f, BAI2_FIELD_DATE, 0),
        .time = field_of_kind(f, BAI2_FIELD_TIME, 0),
        .number = field_of_kind(f, BAI2_FIELD_FILE_NUMBER, 0),
    };
}

/* What a 02 says. */
group_header group_header_of(const fields *f)
{
    return (group_header){
        .receiver = field_of_kind(f, BAI2_FIELD_ULTIMATE_RECEIVER, 0),
        .originator = field_of_kind(f, BAI2_FIELD_NAME, 0),
        .status = field_of_kind(f, BAI2_FIELD_GROUP_STATUS, 0),
        .date = field_of_kind(f, BAI2_FIELD_DATE, 0),
        .time = field_of_kind(f, BAI2_FIELD_TIME_OR_NONE, 0),
        .currency = field_of_kind(f, BAI2_FIELD_CURRENCY, 0),
        .modifier = field_of_kind(f, BAI2_FIELD_MODIFIER, 0),
    };
}

/* What a 03 says beside its items. */
account_header account_header_of(const fields *f)
{
    return (account_header){
        .number = field_of_kind(f, BAI2_FIELD_NAME, 0),
        .currency = field_of_kind(f, BAI2_FIELD_CURRENCY, 0),
    };
}

/* What a 49, 98 or 99 says. */
trailer trailer_of(const fields *f)
{
    return (trailer){
        .total = field_of_kind(f, BAI2_FIELD_TOTAL, 0),
        .count = field_of_kind(f, BAI2_FIELD_COUNT, 0),
        .records = field_of_kind(f, BAI2_FIELD_RECORDS, 0),
    };
}

/* Whether a field of this kind is the type that an item or a detail begins with. */
static bool is_type(uint64_t kind)
{
    return kind == BAI2_FIELD_TYPE || kind == BAI2_FIELD_FURTHER_TYPE || kind == BAI2_FIELD_DETAIL_TYPE;
}

/* Whether a field of this kind is a piece of text. */
static bool is_text(uint64_t kind)
{
    return kind == BAI2_FIELD_TEXT || kind == BAI2_FIELD_FURTHER_TEXT;
}

/* Takes one more field of an item or a detail in. */
static void take_field(entry *e, const fields *f, size_t i)
{
    slice bytes = field_at(f, i);
    switch (kind_at(f, i)) {
    case BAI2_FIELD_AMOUNT: case BAI2_FIELD_STATUS_AMOUNT: e->amount = bytes; break;
    case BAI2_FIELD_ITEM_COUNT: e->count = bytes; break;
    case BAI2_FIELD_FUNDS: e->funds.kind = bytes; break;
    case BAI2_FIELD_DATE: e->funds.date = bytes; break;
    case BAI2_FIELD_TIME_OR_NONE: e->funds.time = bytes; break;
    case BAI2_FIELD_SPLIT_AMOUNT: case BAI2_FIELD_DAYS:
        if (e->funds.parts++ == 0)
            e->funds.first = i;
        break;
    case BAI2_FIELD_REFERENCE:
        if (kind_at(f, i + 1) == BAI2_FIELD_REFERENCE) /* of the two, the bank's is the first */
            e->bank_reference = bytes;
        else
            e->customer_reference = bytes;
        break;
    default: break;
    }
}

/* The next item or detail from this field on, which moves past it, up to its text. False where there
   is no more, or only the item that is all empty. */
bool next_entry(const fields *f, size_t *at, entry *found)
{
    slice none = part_of(f->file, 0, 0);
    while (*at < f->count && !is_type(kind_at(f, *at)))
        ++*at;
    *found = (entry){*at, field_at(f, *at), none, none, {none, none, none, 0, 0}, none, none};
    while (++*at < f->count && !is_type(kind_at(f, *at)) && !is_text(kind_at(f, *at)))
        take_field(found, f, *at);
    return found->type.length > 0;
}

/* The piece of text that this field is, which moves past it; false, and empty, where it is none. */
bool next_piece(const fields *f, size_t *at, slice *piece)
{
    *piece = is_text(kind_at(f, *at)) ? field_at(f, (*at)++) : part_of(f->file, 0, 0);
    return piece->length > 0;
}

/* Digits as a number; those past the eighteenth are left out. */
uint64_t number_of(slice digits)
{
    uint64_t number = 0;
    for (size_t i = 0; i < digits.length && i < DIGITS; i++)
        number = number * 10 + (uint64_t)(digits.bytes[i] - '0') % 10;
    return number;
}

/* How an amount or a total was given, by its own bytes. */
enum bai2_amount_form form_of(slice amount)
{
    if (amount.length == 0)
        return BAI2_AMOUNT_EMPTY;
    switch (*amount.bytes) {
    case '+': return BAI2_AMOUNT_WITH_PLUS;
    case '-': return BAI2_AMOUNT_WITH_MINUS;
    default: return BAI2_AMOUNT_UNSIGNED;
    }
}

/* A date and a time as they are shown: 2004-06-20 23:59; an empty time is left out. */
const char *put_day(char room[DAY_ROOM], slice date, slice time)
{
    const char *d = (const char *)date.bytes, *t = (const char *)time.bytes;
    size_t used = 0;
    room[0] = '\0';
    if (date.length == 6)
        used = (size_t)snprintf(room, DAY_ROOM, "20%.2s-%.2s-%.2s", d, d + 2, d + 4);
    if (same_text(time, "9999"))
        snprintf(room + used, DAY_ROOM - used, " end of day");
    else if (time.length == 4)
        snprintf(room + used, DAY_ROOM - used, " %.2s:%.2s", t, t + 2);
    return room;
}

/* Funds as they are shown: their kind, with the value date where they have one. */
const char *put_funds(char room[FUNDS_ROOM], const funds *u)
{
    char day[DAY_ROOM];
    put_day(day, u->date, u->time);
    snprintf(room, FUNDS_ROOM, "%.*s%s%s", SLICE(part_of(u->kind, 0, 1)), *day == '\0' ? "" : " ", day);
    return room;
}

/* One of the amounts where funds come at several times (S and D), from 0, as it is written, and when it
   comes; false where there is no such one. */
bool put_funds_part(char room[FUNDS_ROOM], const fields *f, const funds *u, size_t part)
{
    static const char *const when[] = {"at once", "in one day", "in two days or later"};
    if (part >= u->parts)
        return false;
    if (kind_at(f, u->first) == BAI2_FIELD_SPLIT_AMOUNT) {
        slice amount = field_at(f, u->first + part);
        if (form_of(amount) == BAI2_AMOUNT_EMPTY)
            amount = slice_of("not given");
        snprintf(room, FUNDS_ROOM, "%s: %.*s", when[part], SLICE(amount));
    } else {
        size_t pair = u->first + 2 * part; /* days and amount */
        unsigned days = (unsigned)number_of(field_at(f, pair));
        slice amount = field_at(f, pair + 1);
        snprintf(room, FUNDS_ROOM, "in %u day%s: %.*s", days, days == 1 ? "" : "s", SLICE(amount));
    }
    return true;
}

/* How an amount or a total was given, in a word. */
const char *form_in_words(slice amount)
{
    static const char *const words[] = {
        [BAI2_AMOUNT_EMPTY] = "empty", [BAI2_AMOUNT_UNSIGNED] = "unsigned",
        [BAI2_AMOUNT_WITH_PLUS] = "plus", [BAI2_AMOUNT_WITH_MINUS] = "minus"};
    return words[form_of(amount)];
}

/* A type's name, or that it is unlisted. */
const char *type_in_words(slice type)
{
    return type_name(number_of(type));
}

/* A group's status in words (source document 000). */
const char *status_in_words(slice status)
{
    static const char *const words[] = {"update", "deletion", "correction", "test only"};
    uint64_t number = number_of(status);
    return number >= 1 && number <= 4 ? words[number - 1] : "";
}

/* A group's as-of-date modifier in words (source document 000); none where it is empty. */
const char *modifier_in_words(slice modifier)
{
    static const char *const words[] = {"interim previous-day data", "final previous-day data",
                                        "interim same-day data", "final same-day data"};
    uint64_t number = number_of(modifier);
    return number >= 1 && number <= 4 ? words[number - 1] : "";
}
