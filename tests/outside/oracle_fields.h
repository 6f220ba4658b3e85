/* Document 01, "Fields", and document 02, 2026-02 and 2026-03: what a single field may hold. Inline, for
   the reader's innermost loop. */
#ifndef ORACLE_FIELDS_H
#define ORACLE_FIELDS_H

#include <stdbool.h>
#include <stddef.h>
#include <stdint.h>

#include "bai2.h"

enum {
    LONGEST_NAME = 76,
    LONGEST_AMOUNT = 18, /* digits */
    LONGEST_COUNT = 9    /* digits */
};

typedef struct {
    const uint8_t *bytes;
    size_t length;
} slice;

/* An amount as a field gives it: how (one of bai2_amount_form), and its magnitude, 0 where it is empty. */
typedef struct {
    uint64_t form, magnitude;
} given_amount;

/* The forms that an amount may have in each of its places, a bit for each. */
enum {
    DAY_FORMS = 1 << BAI2_AMOUNT_UNSIGNED,                    /* of D's pairs */
    SPLIT_FORMS = 1 << BAI2_AMOUNT_EMPTY | DAY_FORMS,         /* after S */
    PLUS_FORMS = SPLIT_FORMS | 1 << BAI2_AMOUNT_WITH_PLUS,    /* of summaries and details */
    STATUS_FORMS = PLUS_FORMS | 1 << BAI2_AMOUNT_WITH_MINUS,
    TOTAL_FORMS = STATUS_FORMS & ~(1 << BAI2_AMOUNT_EMPTY)    /* of trailers */
};

typedef enum {
    NO_TYPE,      /* no type at all, or one that neither 03 nor 16 takes */
    STATUS_TYPE,  /* 001 to 099, 900 to 919: 03 only, sign allowed, item count and funds empty */
    TOTAL_TYPE,   /* 100 and 400: 03 only */
    SUMMARY_TYPE, /* 101 to 399, 401 to 799, 920 to 999: summaries in 03, details in 16 */
    NOTE_TYPE     /* 890: 16 only, without amount and funds */
} type_class;

/* Whether the byte may stand in a line. */
static inline bool is_allowed(uint8_t byte)
{
    return byte >= 0x20 && byte <= 0x7E;
}

/* Whether the byte is a decimal digit. */
static inline bool is_digit(uint8_t byte)
{
    return byte >= '0' && byte <= '9';
}

/* Whether the field is 1 to `longest` digits (at most 19); their value goes to `value`. */
static inline bool is_number(slice field, size_t longest, uint64_t *value)
{
    if (field.length == 0 || field.length > longest)
        return false;
    uint64_t number = 0;
    for (size_t i = 0; i < field.length; i++) {
        if (!is_digit(field.bytes[i]))
            return false;
        number = number * 10 + (uint64_t)(field.bytes[i] - '0');
    }
    *value = number;
    return true;
}

/* Whether the field is empty or 1 to `longest` digits. */
static inline bool is_optional_number(slice field, size_t longest)
{
    uint64_t value;
    return field.length == 0 || is_number(field, longest, &value);
}

/* Whether a name's length is right; `shortest` is 0 for the names that may be empty. */
static inline bool is_name(slice field, size_t shortest)
{
    return field.length >= shortest && field.length <= LONGEST_NAME;
}

/* Whether the field is one digit from 1 to 4. */
static inline bool is_one_to_four(slice field)
{
    return field.length == 1 && field.bytes[0] >= '1' && field.bytes[0] <= '4';
}

/* Whether the field is empty or three capital letters. */
static inline bool is_currency(slice field)
{
    if (field.length != 0 && field.length != 3)
        return false;
    for (size_t i = 0; i < field.length; i++)
        if (field.bytes[i] < 'A' || field.bytes[i] > 'Z')
            return false;
    return true;
}

/* The number of days of a month in a year from 2000 to 2099. */
static inline uint64_t days_of_month(uint64_t year, uint64_t month)
{
    static const uint8_t days[] = {31, 28, 31, 30, 31, 30, 31, 31, 30, 31, 30, 31};
    return month == 2 && year % 4 == 0 ? 29 : days[month - 1];
}

/* Whether the field is a date YYMMDD with a day that its month has. */
static inline bool is_date(slice field)
{
    uint64_t date;
    if (field.length != 6 || !is_number(field, 6, &date))
        return false;
    uint64_t year = date / 10000, month = date / 100 % 100, day = date % 100;
    return month >= 1 && month <= 12 && day >= 1 && day <= days_of_month(year, month);
}

/* Whether the field is a time HHMM, 2400 and 9999 included. */
static inline bool is_time(slice field)
{
    uint64_t time;
    if (field.length != 4 || !is_number(field, 4, &time))
        return false;
    return (time / 100 <= 23 && time % 100 <= 59) || time == 2400 || time == 9999;
}

/* Whether the field is empty or a time. */
static inline bool is_optional_time(slice field)
{
    return field.length == 0 || is_time(field);
}

/* The class of a type, whose number goes to `type`. */
static inline type_class class_of(slice field, uint64_t *type)
{
    if (field.length != 3 || !is_number(field, 3, type) || *type == 0)
        return NO_TYPE;
    if (*type <= 99 || (*type >= 900 && *type <= 919))
        return STATUS_TYPE;
    if (*type == 100 || *type == 400)
        return TOTAL_TYPE;
    if (*type <= 799 || *type >= 920)
        return SUMMARY_TYPE;
    return *type == 890 ? NOTE_TYPE : NO_TYPE;
}

/* Whether a 03 takes the type. */
static inline bool is_item_class(type_class class)
{
    return class == STATUS_TYPE || class == TOTAL_TYPE || class == SUMMARY_TYPE;
}

/* Whether a 16 takes the type. */
static inline bool is_detail_class(type_class class)
{
    return class == SUMMARY_TYPE || class == NOTE_TYPE;
}

/* The form of an amount, by how its field begins. */
static inline uint64_t form_of(slice field)
{
    if (field.length == 0)
        return BAI2_AMOUNT_EMPTY;
    switch (field.bytes[0]) {
    case '+': return BAI2_AMOUNT_WITH_PLUS;
    case '-': return BAI2_AMOUNT_WITH_MINUS;
    default: return BAI2_AMOUNT_UNSIGNED;
    }
}

/* Whether the field is an amount in one of these forms: nothing, or 1 to 18 digits after the sign. What
   it gives goes to `amount`. */
static inline bool is_amount(slice field, unsigned forms, given_amount *amount)
{
    *amount = (given_amount){.form = form_of(field)};
    if ((forms >> amount->form & 1) == 0)
        return false;
    if (amount->form == BAI2_AMOUNT_EMPTY)
        return true;
    size_t sign = amount->form != BAI2_AMOUNT_UNSIGNED;
    return is_number((slice){field.bytes + sign, field.length - sign}, LONGEST_AMOUNT,
                     &amount->magnitude);
}

/* Whether all bytes may stand in a field: allowed ones, no comma, no slash. */
static inline bool is_plain(slice field)
{
    for (size_t i = 0; i < field.length; i++)
        if (!is_allowed(field.bytes[i]) || field.bytes[i] == ',' || field.bytes[i] == '/')
            return false;
    return true;
}

#endif
