/* The oracle: the calls of include/bai2.h once more, under other names, in plain C. It is written
   from documents 01 and 02 and the list of document 000 alone and shares nothing with the library
   that it is compared with. */
#ifndef ORACLE_H
#define ORACLE_H

#include "bai2.h"

bai2_summary oracle_read(const uint8_t *file, size_t file_length);

bai2_part oracle_group(const uint8_t *file, size_t file_length, uint64_t group);

bai2_part oracle_account(const uint8_t *file, size_t file_length, uint64_t group, uint64_t account);

bai2_detail oracle_detail_of(const uint8_t *file, size_t file_length,
                             uint64_t group, uint64_t account, uint64_t detail);

bai2_item oracle_item_of(const uint8_t *file, size_t file_length,
                         uint64_t group, uint64_t account, uint64_t item);

bai2_record oracle_record_at(const uint8_t *file, size_t file_length, uint64_t start);

bai2_fields oracle_fields_at(const uint8_t *file, size_t file_length, uint64_t start,
                             uint64_t *out, size_t out_length);

bai2_code oracle_code_of(uint64_t code);

bai2_answer oracle_split(const uint8_t *name, size_t name_length,
                         const uint8_t *file, size_t file_length,
                         uint8_t *out, size_t out_length);

bai2_combined oracle_combine(const uint8_t *a, size_t a_length,
                             const uint8_t *b, size_t b_length,
                             uint8_t *out, size_t out_length);

bai2_writer oracle_writer_new(void);

bai2_written oracle_write_header(bai2_writer writer,
                                 const uint8_t *sender, size_t sender_length,
                                 const uint8_t *receiver, size_t receiver_length,
                                 const uint8_t *date, size_t date_length,
                                 const uint8_t *time, size_t time_length,
                                 const uint8_t *file_number, size_t file_number_length,
                                 uint8_t *out, size_t out_length);

bai2_written oracle_write_group(bai2_writer writer,
                                const uint8_t *receiver, size_t receiver_length,
                                const uint8_t *originator, size_t originator_length,
                                const uint8_t *status, size_t status_length,
                                const uint8_t *date, size_t date_length,
                                const uint8_t *time, size_t time_length,
                                const uint8_t *currency, size_t currency_length,
                                const uint8_t *modifier, size_t modifier_length,
                                uint8_t *out, size_t out_length);

bai2_written oracle_write_account(bai2_writer writer,
                                  const uint8_t *account, size_t account_length,
                                  const uint8_t *currency, size_t currency_length,
                                  uint64_t item_given,
                                  const uint8_t *type, size_t type_length,
                                  uint64_t amount_given, int64_t amount,
                                  uint64_t count_given, uint64_t count,
                                  uint8_t *out, size_t out_length);

bai2_written oracle_write_item(bai2_writer writer,
                               const uint8_t *type, size_t type_length,
                               uint64_t amount_given, int64_t amount,
                               uint64_t count_given, uint64_t count,
                               uint8_t *out, size_t out_length);

bai2_written oracle_write_detail(bai2_writer writer,
                                 const uint8_t *type, size_t type_length,
                                 uint64_t amount_given, int64_t amount,
                                 const uint8_t *bank_reference, size_t bank_reference_length,
                                 const uint8_t *customer_reference, size_t customer_reference_length,
                                 const uint8_t *text, size_t text_length,
                                 uint8_t *out, size_t out_length);

bai2_written oracle_write_end_account(bai2_writer writer, uint8_t *out, size_t out_length);
bai2_written oracle_write_end_group(bai2_writer writer, uint8_t *out, size_t out_length);
bai2_written oracle_write_end_file(bai2_writer writer, uint8_t *out, size_t out_length);

#endif
