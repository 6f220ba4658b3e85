/* bai2.h: judge, cut, split, combine and write BAI2 (version 2) cash files.

   Link libbai2.a; of the C library it needs memcpy and its kin, no more. docs/EMBED.md has programs
   and a Makefile to begin with.

   HOW TO CALL
   Every call takes byte slices, each a pointer and a length, and answers numbers. No call
   allocates, keeps anything between calls, or writes anywhere but into `out`.
   NULL with length 0 is an empty slice.

   The caller's one duty: `out` must not overlap an input of the same call.

   HOW TO READ AN ANSWER
   `number` is 0 when the call was accepted, and then `place` is 0. Otherwise `number` says why it
   was refused (enum bai2_refusal), `place` is the byte in the file that shows it (counted from 0),
   and all other figures are 0, except for two: a combination's `file` says which file was refused,
   and `writer` is the writer that the call was given. A refused call leaves `out` as it was. An
   accepted one fills the first `length` bytes of `out`, or three numbers a field; what comes after
   them stays as it was. */
#ifndef BAI2_H
#define BAI2_H

#include <stddef.h>
#include <stdint.h>

#ifdef __cplusplus
extern "C" {
#endif

enum {
    BAI2_LONGEST_FILE = 16777216, /* bytes */
    BAI2_LONGEST_LINE = 4096,     /* bytes, without its line end */
    BAI2_LONGEST_NAME = 76,       /* bytes of a name, of a reference, or of a text that is written */
    BAI2_TRAILER_ROOM = 64        /* bytes, more than a fresh 99 takes */
};

/* Why a call is refused. The place is 0 for BAI2_EMPTY_FILE, for BAI2_FILE_TOO_LONG, from
   BAI2_NO_ROOM on, and for BAI2_AMOUNTS_TOO_LARGE when combining or writing. */
enum bai2_refusal {
    /* The file is empty. */
    BAI2_EMPTY_FILE = 1,

    /* The file is longer than 16,777,216 bytes. */
    BAI2_FILE_TOO_LONG = 2,

    /* A line is longer than 4,096 bytes, or longer than the record length its file's header states;
       the place is the first byte too many. */
    BAI2_LINE_TOO_LONG = 3,

    /* A byte is not a printable ASCII character (a tab or an accented letter, for instance). */
    BAI2_BYTE_NOT_ALLOWED = 4,

    /* A line does not begin with a record code (01, 02, 03, 16, 49, 88, 98, 99) and a comma. */
    BAI2_NO_RECORD_CODE = 5,

    /* A record stands where it may not, or the file ends before its 99 record. */
    BAI2_RECORD_OUT_OF_ORDER = 6,

    /* A line ends in the middle of a field (no comma or slash after it), something follows the slash
       that ends a line, or a text is empty or begins with a slash. */
    BAI2_LINE_BADLY_ENDED = 7,

    /* A field has a wrong value, is missing (the place is then the record's last slash), or is one
       too many. */
    BAI2_WRONG_FIELD = 8,

    /* The header's version is not 2. */
    BAI2_WRONG_VERSION = 9,

    /* The amounts, added up without their signs, pass 999,999,999,999,999,999. */
    BAI2_AMOUNTS_TOO_LARGE = 10,

    /* A trailer's control total is not the sum of the amounts it closes. */
    BAI2_WRONG_TOTAL = 11,

    /* A 98's number of accounts, or the 99's number of groups, is wrong. */
    BAI2_WRONG_COUNT = 12,

    /* A trailer's number of records (lines, with continuation lines and both ends) is wrong. */
    BAI2_WRONG_RECORD_COUNT = 13,

    /* A group's or the file's sum passes 999,999,999,999,999,999 either way. */
    BAI2_SUM_TOO_LARGE = 14,

    /* `out` is too short for the result. */
    BAI2_NO_ROOM = 15,

    /* The receiver's name asked for is empty, longer than 76 bytes, or has a comma, a slash or a byte
       that is not a printable ASCII character. */
    BAI2_NOT_A_NAME = 16,

    /* The file has no group, account, detail or item of that number (numbers count from 0), or a
       record is asked for at its end or after it. */
    BAI2_NO_SUCH_PART = 17,

    /* The result would be longer than 16,777,216 bytes, or a line of the second file's groups is
       longer than the record length that the first file's header states. */
    BAI2_RESULT_TOO_LONG = 18,

    /* The writer was called out of turn (a detail before its account, for instance). */
    BAI2_OUT_OF_TURN = 19,

    /* A field given to the writer does not have its form (below): the reader would refuse it, or it
       is a text that is longer than 76 bytes, begins with a slash or ends in a blank. */
    BAI2_WRONG_FIELD_GIVEN = 20
};

/* ---- Reading ---- */

/* A file's verdict. Amounts are in minor units (cents); records are lines. */
typedef struct {
    uint64_t number, place;
    int64_t total;
    uint64_t groups, accounts, details, records;
} bai2_summary;

bai2_summary bai2_read(const uint8_t *file, size_t file_length);

/* A part of the file: `length` bytes from byte `start` on, line ends included. */
typedef struct {
    uint64_t number, place, start, length;
} bai2_part;

/* The group of that number, 02 to 98. */
bai2_part bai2_group(const uint8_t *file, size_t file_length, uint64_t group);

/* The account of that number in that group, 03 to 49. */
bai2_part bai2_account(const uint8_t *file, size_t file_length, uint64_t group, uint64_t account);

/* How an amount was given: not at all, or as digits that have no sign, a plus or a minus before them. */
enum bai2_amount_form {
    BAI2_AMOUNT_EMPTY = 0,
    BAI2_AMOUNT_UNSIGNED = 1,
    BAI2_AMOUNT_WITH_PLUS = 2,
    BAI2_AMOUNT_WITH_MINUS = 3
};

/* A detail's type; its amount, how it was given (one of bai2_amount_form) and without its sign, 0
   where it is empty; and its first piece of text, which is `text_length` bytes from byte `text_start`
   of the file on (0 and 0 where it has no text). */
typedef struct {
    uint64_t number, place, type, amount_form, amount, text_start, text_length;
} bai2_detail;

/* The detail of that number in that account of that group. */
bai2_detail bai2_detail_of(const uint8_t *file, size_t file_length,
                           uint64_t group, uint64_t account, uint64_t detail);

/* An item of an account's 03, a status or a summary: its type; its amount, how it was given and
   without its sign (minus zero is 0 with BAI2_AMOUNT_WITH_MINUS); and its item count, where count_given
   is 1. A 03 whose sole item is empty has no item. */
typedef struct {
    uint64_t number, place, type, amount_form, amount, count_given, count;
} bai2_item;

/* The item of that number in the 03 of that account of that group. */
bai2_item bai2_item_of(const uint8_t *file, size_t file_length,
                       uint64_t group, uint64_t account, uint64_t item);

/* ---- Handing out ----
   Everything that stands in a file, record by record and field by field, without a parser of your own.
   These two calls take any bytes and any start, and do not judge the file (bai2_read does): each costs
   no more than the record that it looks at. In an accepted file, from place 0 on and each time a
   record's `length` further, they meet all its records, and refuse none (but for want of room). */

/* The record that begins at byte `start`: its code (1, 2, 3, 16, 49, 98 or 99; 88 where it begins with
   one), its lines, its continuation lines (88) among them, and its length with all line ends. Refused
   by BAI2_NO_SUCH_PART (place 0) where `start` is at or past the file's end, then by
   BAI2_NO_RECORD_CODE (place `start`) where no code stands there. */
typedef struct {
    uint64_t number, place, code, lines, length;
} bai2_record;

bai2_record bai2_record_at(const uint8_t *file, size_t file_length, uint64_t start);

/* What a field is. */
enum bai2_kind {
    BAI2_FIELD_NAME = 1,      /* 01: sender, receiver; 02: originator; 03: account number */
    BAI2_FIELD_REFERENCE = 2, /* 16: bank reference, customer reference */
    BAI2_FIELD_ULTIMATE_RECEIVER = 3,
    BAI2_FIELD_DATE = 4,
    BAI2_FIELD_TIME = 5,
    BAI2_FIELD_TIME_OR_NONE = 6, /* may be empty: in a 02, and in funds V */
    BAI2_FIELD_FILE_NUMBER = 7,
    BAI2_FIELD_PHYSICAL_LENGTH = 8,
    BAI2_FIELD_BLOCK_SIZE = 9,
    BAI2_FIELD_VERSION = 10,
    BAI2_FIELD_GROUP_STATUS = 11,
    BAI2_FIELD_CURRENCY = 12,
    BAI2_FIELD_MODIFIER = 13,
    BAI2_FIELD_TYPE = 14,          /* 03: of the first item; may be empty */
    BAI2_FIELD_FURTHER_TYPE = 15,  /* 03: of each further item */
    BAI2_FIELD_STATUS_AMOUNT = 16, /* 03: of a status; may have a minus */
    BAI2_FIELD_AMOUNT = 17,        /* 03: of a summary; 16 */
    BAI2_FIELD_ITEM_COUNT = 18,
    BAI2_FIELD_FUNDS = 19, /* S: three split amounts follow; V: a date, a time; D: a pair count, pairs */
    BAI2_FIELD_DETAIL_TYPE = 20,
    BAI2_FIELD_TEXT = 21,         /* the first piece of a text; length 0: no text */
    BAI2_FIELD_FURTHER_TEXT = 22, /* a further piece, from the next line */
    BAI2_FIELD_SPLIT_AMOUNT = 23,
    BAI2_FIELD_PAIR_COUNT = 24,
    BAI2_FIELD_DAYS = 25,
    BAI2_FIELD_DAY_AMOUNT = 26,
    BAI2_FIELD_TOTAL = 27,
    BAI2_FIELD_COUNT = 28,   /* 98: of accounts; 99: of groups */
    BAI2_FIELD_RECORDS = 29, /* 49, 98, 99: of lines */
    BAI2_FIELD_NOTHING = 30  /* a field that must be empty, as the item count of a status */
};

/* How many fields there are. */
typedef struct {
    uint64_t number, place, count;
} bai2_fields;

/* The fields of the record that begins at byte `start`, in their order: for each its kind (enum
   bai2_kind), the place of its first byte in the file, and its length, three numbers a field, into
   `out`, which has room for `out_length` numbers. Refused as bai2_record_at, then as the reader refuses
   the fields of a record (BAI2_LINE_BADLY_ENDED, BAI2_WRONG_FIELD, BAI2_WRONG_VERSION, the place in the
   file), then by BAI2_NO_ROOM (place 0) where `out` has less than three numbers a field. Three numbers
   for each byte of the record are always room enough. */
bai2_fields bai2_fields_at(const uint8_t *file, size_t file_length, uint64_t start,
                           uint64_t *out, size_t out_length);

/* ---- Type codes ---- */

/* What the uniform list of BAI2's own specification says of a type code: whether it is listed; whether it
   is a status, a summary, a detail (summary and detail where it is printed as both); 0 or 1 each. `side`:
   0 neither, 1 credit, 2 debit. All are 0 for a code that is not listed, as is any number over 999. The
   list only tells what a code is for: the reader and the writer go by the ranges that bai2_write_account
   and bai2_write_detail name, and take a code inside them that is not listed as well. */
typedef struct {
    uint64_t listed, status, summary, detail, side;
} bai2_code;

bai2_code bai2_code_of(uint64_t code);

/* ---- Splitting and combining ---- */

typedef struct {
    uint64_t number, place, length;
} bai2_answer;

/* The file's header, its groups whose ultimate receiver is exactly `name`, and a fresh 99.
   file_length + BAI2_TRAILER_ROOM is always room enough. */
bai2_answer bai2_split(const uint8_t *name, size_t name_length,
                       const uint8_t *file, size_t file_length,
                       uint8_t *out, size_t out_length);

/* `file` says which file was refused, 1 for a and 2 for b; 0 where it was neither, also where the two
   are refused together. */
typedef struct {
    uint64_t number, place, length, file;
} bai2_combined;

/* A's header and groups, B's groups, and a fresh 99. a_length + b_length + BAI2_TRAILER_ROOM is always
   room enough. */
bai2_combined bai2_combine(const uint8_t *a, size_t a_length,
                           const uint8_t *b, size_t b_length,
                           uint8_t *out, size_t out_length);

/* ---- Writing ----
   Begin with bai2_writer_new, hand each call the writer that the call before handed back, and the
   same `out` all along; each call adds one line. `length` is the number of all bytes so far. A
   refused call hands back the writer it was given.

   The order: the header; for each group, bai2_write_group, its accounts (at least one) and
   bai2_write_end_group; for each account, bai2_write_account, its further items, its details and
   bai2_write_end_account; bai2_write_end_file. Trailers are written with their totals and counts.

   THE FORM OF EACH FIELD
   Bytes are printable ASCII, from blank to tilde. Only what is said to be may be empty.
     name       1 to 76 bytes, none of them a comma or a slash; leading zeros count
     reference  the same, or empty
     date       YYMMDD: the years 2000 to 2099, a day that its month has
     time       HHMM: 0000 to 2359 with minutes up to 59, or 2400, or 9999 (the day's end)
     currency   three of A to Z, or empty
     type       three digits; which ones, each call says
     amount     minor units, of 18 digits at most; written where amount_given is not 0
     count      of items, of 9 digits at most; written where count_given is not 0
     text       0 to 76 bytes, commas and slashes too; no slash first, no blank last */

/* Where the writer stands. Plain numbers, to be handed on and not to be changed. */
typedef struct {
    uint64_t size;  /* bytes written so far */
    uint64_t phase; /* 0 fresh, 1 between groups (after 01 or 98), 2 in a group (after 02),
                       3 in an account (after 03, its items or 16), 4 between accounts (after 49),
                       5 ended (after 99) */
    uint64_t items; /* 1 where a further item may follow, else 0 */
    uint64_t file_pluses, file_minuses, file_groups, file_accounts, file_details, file_lines;
    uint64_t group_pluses, group_minuses, group_groups, group_accounts, group_details, group_lines;
    uint64_t account_pluses, account_minuses, account_groups, account_accounts, account_details,
        account_lines;
} bai2_writer;

typedef struct {
    uint64_t number, place, length;
    bai2_writer writer;
} bai2_written;

bai2_writer bai2_writer_new(void);

/* sender and receiver: names. date, time. file_number: 1 to 9 digits. */
bai2_written bai2_write_header(bai2_writer writer,
                               const uint8_t *sender, size_t sender_length,
                               const uint8_t *receiver, size_t receiver_length,
                               const uint8_t *date, size_t date_length,
                               const uint8_t *time, size_t time_length,
                               const uint8_t *file_number, size_t file_number_length,
                               uint8_t *out, size_t out_length);

/* receiver: a name, or empty, which is nobody's: no split finds it. originator: a name. status: 1
   update, 2 deletion, 3 correction, 4 test only. date. time: may be empty. currency. modifier: 1
   interim previous-day, 2 final previous-day, 3 interim same-day, 4 final same-day data, or empty. */
bai2_written bai2_write_group(bai2_writer writer,
                              const uint8_t *receiver, size_t receiver_length,
                              const uint8_t *originator, size_t originator_length,
                              const uint8_t *status, size_t status_length,
                              const uint8_t *date, size_t date_length,
                              const uint8_t *time, size_t time_length,
                              const uint8_t *currency, size_t currency_length,
                              const uint8_t *modifier, size_t modifier_length,
                              uint8_t *out, size_t out_length);

/* An account with its first item, or with none where item_given is 0. account: a name. currency.
   type: 001 to 099 or 900 to 919, a status, whose amount may be negative and which has no count; or 100
   to 799 or 920 to 999, a summary, whose amount is not negative. An item of empty type without amount
   and count is none. */
bai2_written bai2_write_account(bai2_writer writer,
                                const uint8_t *account, size_t account_length,
                                const uint8_t *currency, size_t currency_length,
                                uint64_t item_given,
                                const uint8_t *type, size_t type_length,
                                uint64_t amount_given, int64_t amount,
                                uint64_t count_given, uint64_t count,
                                uint8_t *out, size_t out_length);

/* A further item of the account, on a line of its own (88): after bai2_write_account with an item, or
   after another further item. Its fields are as an account's first item's; the type is not empty. */
bai2_written bai2_write_item(bai2_writer writer,
                             const uint8_t *type, size_t type_length,
                             uint64_t amount_given, int64_t amount,
                             uint64_t count_given, uint64_t count,
                             uint8_t *out, size_t out_length);

/* type: 101 to 399, 401 to 799 or 920 to 999, whose amount is not negative; or 890, which has no
   amount. bank_reference and customer_reference: references. text. */
bai2_written bai2_write_detail(bai2_writer writer,
                               const uint8_t *type, size_t type_length,
                               uint64_t amount_given, int64_t amount,
                               const uint8_t *bank_reference, size_t bank_reference_length,
                               const uint8_t *customer_reference, size_t customer_reference_length,
                               const uint8_t *text, size_t text_length,
                               uint8_t *out, size_t out_length);

bai2_written bai2_write_end_account(bai2_writer writer, uint8_t *out, size_t out_length);
bai2_written bai2_write_end_group(bai2_writer writer, uint8_t *out, size_t out_length);
bai2_written bai2_write_end_file(bai2_writer writer, uint8_t *out, size_t out_length);

#ifdef __cplusplus
}
#endif

#endif
