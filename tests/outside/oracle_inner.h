/* What the oracle's files share: the reader's state, and one record at a time. */
#ifndef ORACLE_INNER_H
#define ORACLE_INNER_H

#include "oracle.h"
#include "oracle_fields.h"

enum {
    LONGEST_FILE = 16777216,
    LONGEST_LINE = 4096,
    SHORTEST_LIMIT = 48, /* the smallest L that a header may give */
    LONGEST_TRAILER = 64 /* room enough for a fresh 49, 98 or 99 */
};

#define GREATEST_SUM UINT64_C(999999999999999999)

typedef enum {
    FILE_HEADER = 1,
    GROUP_HEADER = 2,
    ACCOUNT_HEADER = 3,
    DETAIL = 16,
    ACCOUNT_TRAILER = 49,
    CONTINUATION = 88,
    GROUP_TRAILER = 98,
    FILE_TRAILER = 99
} record_code;

typedef enum {
    FRESH,
    BETWEEN_GROUPS,
    IN_GROUP,
    IN_ACCOUNT,
    BETWEEN_ACCOUNTS,
    ENDED
} file_phase;

typedef struct {
    uint64_t number, place; /* number 0: not refused */
} refusal;

/* Sums of minor units, pluses and minuses apart, and the number of records of each sort. */
typedef struct {
    uint64_t pluses, minuses, groups, accounts, details, lines;
} tally;

/* What an item or a detail gives. */
typedef struct {
    uint64_t type;
    given_amount amount;
    bool count_given;
    uint64_t count;
} posting;

/* One line of a file: its bytes without the line end, and where the next one starts. */
typedef struct {
    size_t start, end, next;
} line;

/* One record of a file, with all its 88s, as far as the calls need it. */
typedef struct {
    record_code code;
    size_t start, end;   /* its bytes, line ends included */
    uint64_t lines;
    size_t longest_line; /* without its end */
    uint64_t limit;      /* 01: L, or 0 where it gives none */
    slice receiver;      /* 02: the ultimate receiver */
    uint64_t pluses, minuses;
    size_t too_large;    /* the amount that takes the magnitudes past the bound, or 0 */
    posting last;        /* 16: what it gives; 03: what its last item gives */
    uint64_t items;      /* 03: how many it has, */
    uint64_t asked;      /* the number of one, */
    posting item;        /* and what that one gives */
    size_t text_start, text_length;
    int64_t total;       /* 49, 98, 99: what they state, and where */
    uint64_t count, records;
    size_t total_place, count_place, records_place;
} record;

typedef struct {
    const uint8_t *file;
    size_t length;
    size_t next;  /* where the next record starts */
    size_t limit; /* the longest line allowed: L once known, else 4,096 */
    file_phase phase;
    tally whole, group, account;
    size_t group_start, account_start;
    uint64_t asked; /* the number of the item that each 03 keeps */
    refusal refusal;
} reader;

/* oracle_read.c */
line oracle_line_at(const uint8_t *file, size_t length, size_t start);
reader oracle_open(const uint8_t *file, size_t length);
bool oracle_next_record(reader *r, record *rec);
bool oracle_in_turn(file_phase phase, record_code code, file_phase *next);
uint64_t oracle_magnitudes(const tally *t);
int64_t oracle_sum(const tally *t);
void oracle_add(tally *to, const tally *more);

/* oracle_record.c */
refusal oracle_walk_fields(const uint8_t *file, uint64_t magnitudes, record *rec);

/* oracle_write.c */
size_t oracle_put_trailer(uint8_t *out, record_code code, const tally *t);

#endif
