/* Stands in for the library: the oracle under the library's names, so that the harness itself can be
   tested. Each -D switch plants one bug that the harness must find:
   BUG_88_NOT_COUNTED, BUG_DEBIT_SUBTRACTED, BUG_TEXT_CUT, BUG_ZERO_DROPPED, BUG_PLACE_OFF,
   BUG_BYTE_BEHIND, BUG_REFUSED_MOVES; of records and fields BUG_88_NOT_A_LINE, BUG_PIECE_CUT,
   BUG_PLACE_IN_RECORD, BUG_FAULT_IN_RECORD, BUG_NO_ROOM_WRITES, BUG_START_CUT; of type codes
   BUG_LEVEL_CHANGED, BUG_CODE_CUT; of customised ones BUG_900_NO_STATUS; of a detail's amount
   BUG_DETAIL_PLUS_LOST, BUG_DETAIL_EMPTY_AS_0; of items BUG_MINUS_AS_PLUS, BUG_PLUS_AS_UNSIGNED,
   BUG_EMPTY_AS_0, BUG_MINUS_0_AS_UNSIGNED, BUG_FORM_OF_SECOND, BUG_COUNT_0_AS_NONE, BUG_ITEM_CUT.
   With STAND_IN defined as a weak attribute it answers only the calls that the library lacks. */
#include <stdlib.h>
#include <string.h>

#include "oracle.h"

#ifndef STAND_IN
#define STAND_IN
#endif

#if defined BUG_88_NOT_COUNTED || defined BUG_DEBIT_SUBTRACTED || defined BUG_900_NO_STATUS
/* The next line that begins with `code`, from `at` on; the file's length where there is none. */
static size_t next_line(const uint8_t *file, size_t length, size_t at, const char *code)
{
    size_t size = strlen(code);
    for (; at + size <= length; at++)
        if ((at == 0 || file[at - 1] == '\n') && memcmp(file + at, code, size) == 0)
            return at;
    return length;
}
#endif

#ifdef BUG_900_NO_STATUS
/* Makes types of 900 to 919 that stand after so many commas of a line with that code 920 to 929. */
static void raise_types(uint8_t *file, size_t length, const char *code, int commas)
{
    for (size_t at = 0; (at = next_line(file, length, at, code)) < length;) {
        for (int left = commas; left > 0 && at < length && file[at] != '\n'; at++)
            left -= file[at] == ',';
        if (at + 1 < length && file[at] == '9' && (file[at + 1] == '0' || file[at + 1] == '1'))
            file[at + 1] = '2';
    }
}

/* The verdict where 900 to 919, in a 16 and as a 03's first type, are details and summaries. */
static bai2_summary read_without_status(const uint8_t *file, size_t length)
{
    uint8_t *copy = malloc(length + 1);
    if (copy == NULL)
        exit(2);
    for (size_t i = 0; i < length; i++)
        copy[i] = file[i];
    raise_types(copy, length, "16,", 1);
    raise_types(copy, length, "03,", 3);
    bai2_summary s = oracle_read(copy, length);
    free(copy);
    return s;
}
#endif

/* The verdict, with a bug where one is planted. */
STAND_IN bai2_summary bai2_read(const uint8_t *file, size_t file_length)
{
    bai2_summary s = oracle_read(file, file_length);
#ifdef BUG_88_NOT_COUNTED
    for (size_t at = 0; s.number == 0 && (at = next_line(file, file_length, at, "88,")) < file_length; at++)
        s.records--;
#endif
#ifdef BUG_DEBIT_SUBTRACTED
    for (size_t at = 0; s.number == 0 && (at = next_line(file, file_length, at, "16,4")) < file_length; at++)
        s.total -= 2 * strtoll((const char *)file + at + 7, NULL, 10);
#endif
#ifdef BUG_900_NO_STATUS
    s = read_without_status(file, file_length);
#endif
#ifdef BUG_PLACE_OFF
    if (s.number == 8)
        s.place++;
#endif
    return s;
}

/* As the oracle. */
STAND_IN bai2_part bai2_group(const uint8_t *file, size_t file_length, uint64_t group)
{
    return oracle_group(file, file_length, group);
}

/* As the oracle. */
STAND_IN bai2_part bai2_account(const uint8_t *file, size_t file_length, uint64_t group, uint64_t account)
{
    return oracle_account(file, file_length, group, account);
}

/* As the oracle, with a bug where one is planted. */
STAND_IN bai2_detail bai2_detail_of(const uint8_t *file, size_t file_length,
                           uint64_t group, uint64_t account, uint64_t detail)
{
    bai2_detail d = oracle_detail_of(file, file_length, group, account, detail);
#ifdef BUG_TEXT_CUT
    const uint8_t *slash = d.text_length == 0 ? NULL : memchr(file + d.text_start, '/', d.text_length);
    if (slash != NULL)
        d.text_length = (uint64_t)(slash - file) - d.text_start;
#endif
#ifdef BUG_DETAIL_PLUS_LOST
    if (d.amount_form == BAI2_AMOUNT_WITH_PLUS)
        d.amount_form = BAI2_AMOUNT_UNSIGNED;
#endif
#ifdef BUG_DETAIL_EMPTY_AS_0
    if (d.number == 0 && d.amount_form == BAI2_AMOUNT_EMPTY)
        d.amount_form = BAI2_AMOUNT_UNSIGNED;
#endif
    return d;
}

/* As the oracle, with a bug where one is planted. */
STAND_IN bai2_item bai2_item_of(const uint8_t *file, size_t file_length,
                       uint64_t group, uint64_t account, uint64_t item)
{
#ifdef BUG_ITEM_CUT
    item = (uint32_t)item;
#endif
    bai2_item i = oracle_item_of(file, file_length, group, account, item);
#ifdef BUG_MINUS_AS_PLUS
    if (i.amount_form == BAI2_AMOUNT_WITH_MINUS)
        i.amount_form = BAI2_AMOUNT_WITH_PLUS;
#endif
#ifdef BUG_PLUS_AS_UNSIGNED
    if (i.amount_form == BAI2_AMOUNT_WITH_PLUS)
        i.amount_form = BAI2_AMOUNT_UNSIGNED;
#endif
#ifdef BUG_EMPTY_AS_0
    if (i.number == 0 && i.amount_form == BAI2_AMOUNT_EMPTY)
        i.amount_form = BAI2_AMOUNT_UNSIGNED;
#endif
#ifdef BUG_MINUS_0_AS_UNSIGNED
    if (i.amount_form == BAI2_AMOUNT_WITH_MINUS && i.amount == 0)
        i.amount_form = BAI2_AMOUNT_UNSIGNED;
#endif
#ifdef BUG_FORM_OF_SECOND
    bai2_item second = oracle_item_of(file, file_length, group, account, 1);
    if (item == 0 && second.number == 0)
        i.amount_form = second.amount_form;
#endif
#ifdef BUG_COUNT_0_AS_NONE
    i.count_given = i.count != 0;
#endif
    return i;
}

/* As the oracle, with a bug where one is planted. */
STAND_IN bai2_record bai2_record_at(const uint8_t *file, size_t file_length, uint64_t start)
{
#ifdef BUG_START_CUT
    start = (uint32_t)start;
#endif
    bai2_record r = oracle_record_at(file, file_length, start);
#ifdef BUG_88_NOT_A_LINE
    r.lines = r.number == 0;
#endif
    return r;
}

#ifdef BUG_PIECE_CUT
/* Cuts each piece of text at its first slash. */
static void cut_pieces(const uint8_t *file, uint64_t *out, uint64_t count)
{
    for (uint64_t *three = out; three < out + 3 * count; three += 3) {
        const uint8_t *piece = file + three[1], *slash = memchr(piece, '/', three[2]);
        if ((three[0] == BAI2_FIELD_TEXT || three[0] == BAI2_FIELD_FURTHER_TEXT) && slash != NULL)
            three[2] = (uint64_t)(slash - piece);
    }
}
#endif

/* As the oracle, with a bug where one is planted. */
STAND_IN bai2_fields bai2_fields_at(const uint8_t *file, size_t file_length, uint64_t start,
                           uint64_t *out, size_t out_length)
{
    bai2_fields f = oracle_fields_at(file, file_length, start, out, out_length);
#ifdef BUG_PIECE_CUT
    cut_pieces(file, out, f.count);
#endif
#ifdef BUG_PLACE_IN_RECORD
    for (uint64_t i = 0; i < f.count; i++)
        out[3 * i + 1] -= start;
#endif
#ifdef BUG_FAULT_IN_RECORD
    if (f.number >= 7 && f.number <= 9)
        f.place -= start;
#endif
#ifdef BUG_NO_ROOM_WRITES
    if (f.number == 15 && out_length > 0)
        out[0] = 0;
#endif
    return f;
}

/* As the oracle, with a bug where one is planted. */
STAND_IN bai2_code bai2_code_of(uint64_t code)
{
#ifdef BUG_CODE_CUT
    code = (uint32_t)code;
#endif
    bai2_code c = oracle_code_of(code);
#ifdef BUG_LEVEL_CHANGED
    if (code == 699)
        c.summary = 1;
#endif
    return c;
}

/* As the oracle, with a bug where one is planted. */
STAND_IN bai2_answer bai2_split(const uint8_t *name, size_t name_length,
                       const uint8_t *file, size_t file_length,
                       uint8_t *out, size_t out_length)
{
#ifdef BUG_ZERO_DROPPED
    for (; name_length > 1 && name_length <= 76 && name[0] == '0'; name_length--)
        name++;
#endif
    return oracle_split(name, name_length, file, file_length, out, out_length);
}

/* As the oracle. */
STAND_IN bai2_combined bai2_combine(const uint8_t *a, size_t a_length,
                           const uint8_t *b, size_t b_length,
                           uint8_t *out, size_t out_length)
{
    return oracle_combine(a, a_length, b, b_length, out, out_length);
}

/* As the oracle. */
STAND_IN bai2_writer bai2_writer_new(void)
{
    return oracle_writer_new();
}

/* As the oracle. */
STAND_IN bai2_written bai2_write_header(bai2_writer writer,
                               const uint8_t *sender, size_t sender_length,
                               const uint8_t *receiver, size_t receiver_length,
                               const uint8_t *date, size_t date_length,
                               const uint8_t *time, size_t time_length,
                               const uint8_t *file_number, size_t file_number_length,
                               uint8_t *out, size_t out_length)
{
    return oracle_write_header(writer, sender, sender_length, receiver, receiver_length, date,
                               date_length, time, time_length, file_number, file_number_length, out,
                               out_length);
}

/* As the oracle. */
STAND_IN bai2_written bai2_write_group(bai2_writer writer,
                              const uint8_t *receiver, size_t receiver_length,
                              const uint8_t *originator, size_t originator_length,
                              const uint8_t *status, size_t status_length,
                              const uint8_t *date, size_t date_length,
                              const uint8_t *time, size_t time_length,
                              const uint8_t *currency, size_t currency_length,
                              const uint8_t *modifier, size_t modifier_length,
                              uint8_t *out, size_t out_length)
{
    return oracle_write_group(writer, receiver, receiver_length, originator, originator_length, status,
                              status_length, date, date_length, time, time_length, currency,
                              currency_length, modifier, modifier_length, out, out_length);
}

/* As the oracle. */
STAND_IN bai2_written bai2_write_account(bai2_writer writer,
                                const uint8_t *account, size_t account_length,
                                const uint8_t *currency, size_t currency_length,
                                uint64_t item_given,
                                const uint8_t *type, size_t type_length,
                                uint64_t amount_given, int64_t amount,
                                uint64_t count_given, uint64_t count,
                                uint8_t *out, size_t out_length)
{
    return oracle_write_account(writer, account, account_length, currency, currency_length, item_given,
                                type, type_length, amount_given, amount, count_given, count, out,
                                out_length);
}

/* As the oracle. */
STAND_IN bai2_written bai2_write_item(bai2_writer writer,
                             const uint8_t *type, size_t type_length,
                             uint64_t amount_given, int64_t amount,
                             uint64_t count_given, uint64_t count,
                             uint8_t *out, size_t out_length)
{
    return oracle_write_item(writer, type, type_length, amount_given, amount, count_given, count, out,
                             out_length);
}

/* As the oracle, with a bug where one is planted. */
STAND_IN bai2_written bai2_write_detail(bai2_writer writer,
                               const uint8_t *type, size_t type_length,
                               uint64_t amount_given, int64_t amount,
                               const uint8_t *bank_reference, size_t bank_reference_length,
                               const uint8_t *customer_reference, size_t customer_reference_length,
                               const uint8_t *text, size_t text_length,
                               uint8_t *out, size_t out_length)
{
    bai2_written w = oracle_write_detail(writer, type, type_length, amount_given, amount,
                                         bank_reference, bank_reference_length, customer_reference,
                                         customer_reference_length, text, text_length, out,
                                         out_length);
#ifdef BUG_BYTE_BEHIND
    if (w.number == 0 && w.length < out_length)
        out[w.length] = 0;
#endif
#ifdef BUG_REFUSED_MOVES
    w.writer.items = 0;
#endif
    return w;
}

/* As the oracle. */
STAND_IN bai2_written bai2_write_end_account(bai2_writer writer, uint8_t *out, size_t out_length)
{
    return oracle_write_end_account(writer, out, out_length);
}

/* As the oracle. */
STAND_IN bai2_written bai2_write_end_group(bai2_writer writer, uint8_t *out, size_t out_length)
{
    return oracle_write_end_group(writer, out, out_length);
}

/* As the oracle. */
STAND_IN bai2_written bai2_write_end_file(bai2_writer writer, uint8_t *out, size_t out_length)
{
    return oracle_write_end_file(writer, out, out_length);
}
