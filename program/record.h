/* What a record says, for display: its fields taken by their kinds. Amounts, totals and item counts are
   shown as they are written, an empty one as nothing; minor units stay minor units, since the file does
   not say how many decimals a currency has. */
#ifndef RECORD_H
#define RECORD_H

#include "fields.h"

enum {
    DAY_ROOM = 32,  /* a date and a time as they are shown */
    FUNDS_ROOM = 64 /* funds as they are shown */
};

/* 01 */
typedef struct {
    slice sender, receiver, date, time, number;
} file_header;

/* 02 */
typedef struct {
    slice receiver, originator, status, date, time, currency, modifier;
} group_header;

/* 03, beside its items */
typedef struct {
    slice number, currency;
} account_header;

/* Funds: their kind; V: its date and time; S and D: how many amounts, and the number of the field that
   the first one begins with. */
typedef struct {
    slice kind, date, time;
    size_t parts, first;
} funds;

/* An item of a 03, or the detail that a 16 is; what it does not have is empty. */
typedef struct {
    size_t start; /* the number of the field that is its type */
    slice type, amount, count;
    funds funds;
    slice bank_reference, customer_reference;
} entry;

/* 49, 98, 99; a 49 has no count. */
typedef struct {
    slice total, count, records;
} trailer;

file_header file_header_of(const fields *f);
group_header group_header_of(const fields *f);
account_header account_header_of(const fields *f);
trailer trailer_of(const fields *f);
bool next_entry(const fields *f, size_t *at, entry *found);
bool next_piece(const fields *f, size_t *at, slice *piece);

uint64_t number_of(slice digits);
enum bai2_amount_form form_of(slice amount);
const char *put_day(char room[DAY_ROOM], slice date, slice time);
const char *put_funds(char room[FUNDS_ROOM], const funds *u);
bool put_funds_part(char room[FUNDS_ROOM], const fields *f, const funds *u, size_t part);

const char *form_in_words(slice amount);
const char *type_in_words(slice type);
const char *status_in_words(slice status);
const char *modifier_in_words(slice modifier);

#endif
