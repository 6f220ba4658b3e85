/* What the harness's files share. */
#ifndef COMPARE_H
#define COMPARE_H

#include "bai2.h"
#include "generate.h"
#include "guard.h"

enum {
    LONGEST_FILE = 16777216,
    LONGEST_OUTPUT = 8 * LONGEST_FILE, /* bytes; those that are never asked for cost nothing */
    FRINGE = 64,   /* bytes in front of and after an output slice that must stay as they were */
    PATTERN = 0xA5 /* what output slices hold before a call */
};

/* One of the two that are asked: the oracle or the library. */
typedef struct {
    __typeof__(bai2_read) *read;
    __typeof__(bai2_group) *group;
    __typeof__(bai2_account) *account;
    __typeof__(bai2_detail_of) *detail_of;
    __typeof__(bai2_item_of) *item_of;
    __typeof__(bai2_record_at) *record_at;
    __typeof__(bai2_fields_at) *fields_at;
    __typeof__(bai2_code_of) *code_of;
    __typeof__(bai2_split) *split;
    __typeof__(bai2_combine) *combine;
    __typeof__(bai2_writer_new) *writer_new;
    __typeof__(bai2_write_header) *write_header;
    __typeof__(bai2_write_group) *write_group;
    __typeof__(bai2_write_account) *write_account;
    __typeof__(bai2_write_item) *write_item;
    __typeof__(bai2_write_detail) *write_detail;
    __typeof__(bai2_write_end_account) *write_end_account;
    __typeof__(bai2_write_end_group) *write_end_group;
    __typeof__(bai2_write_end_file) *write_end_file;
} side;

extern const side oracle, library;

/* A slice of guarded memory. */
typedef struct {
    uint8_t *bytes;
    size_t length;
} slice;

/* compare_ask.c */
void catch_crashes(void);
void name_question(const char *mode, uint64_t seed, uint64_t index, const char *corpus);
void name_code(uint64_t seed, uint64_t code);
void name_inputs(slice first, slice second);
slice lend(const guarded *g, const uint8_t *bytes, size_t length);

void same_figures(const char *call, const void *by_oracle, const void *by_library, size_t count);
void same_bytes(const char *call, const uint8_t *by_oracle, const uint8_t *by_library, size_t length);
void must_hold(const char *fact, int holds);

/* Compares two answers; each is a struct of 64-bit numbers. */
#define SAME(call, by_oracle, by_library) \
    same_figures(call, &(by_oracle), &(by_library), sizeof(by_oracle) / sizeof(uint64_t))

bai2_summary ask_read(slice file);
bai2_detail ask_detail(slice file, uint64_t group, uint64_t account, uint64_t detail);
bai2_item ask_item(slice file, uint64_t group, uint64_t account, uint64_t item);
void ask_all_parts(dice *d, slice file);
bai2_answer ask_split(slice name, slice file, size_t out_length);
bai2_combined ask_combine(slice a, slice b, size_t out_length);
const uint8_t *last_result(void);
bai2_record ask_record(slice file, uint64_t start);
bai2_fields ask_fields(slice file, uint64_t start, size_t out_length);
bai2_code ask_code(uint64_t code);

/* How many details and items were told, not refused. */
typedef struct {
    uint64_t details, items;
} told;

/* compare_amounts.c, compare_records.c, compare_codes.c, compare_writer.c, compare_big.c */
told ask_amounts(dice *d, slice file);
void print_forms(void);
uint64_t ask_starts(dice *d, slice file, bai2_summary verdict, uint64_t *numbers);
void print_kinds(void);
void print_types(void);
int compare_codes(uint64_t count, uint64_t seed);
void compare_writer(dice *d, uint64_t *numbers);
uint64_t compare_big(void);

#endif
