/* The writer (document 01, "Parts, combining, splitting, writing"): refusals 19, 20, 10, 18, 15. */
#include <string.h>

#include "oracle_inner.h"

enum { LONGEST_DRAFT = 512 }; /* more than the longest line that the writer writes */

/* An item or detail amount and an item count, as the caller gives them. */
typedef struct {
    slice type;
    bool amount_given;
    int64_t amount;
    bool count_given;
    uint64_t count;
} item;

/* The line of one call, before it is let into the file. */
typedef struct {
    record_code code; /* an item's is CONTINUATION */
    uint8_t bytes[LONGEST_DRAFT];
    size_t length;
    tally figures;      /* what the line adds */
    bool item_may_come; /* after it */
} draft;

/* The magnitude of an amount. */
static uint64_t magnitude_of(int64_t amount)
{
    return amount < 0 ? 0 - (uint64_t)amount : (uint64_t)amount;
}

/* Writes a number without leading zeros; answers its length. */
static size_t put_number(uint8_t *out, uint64_t number)
{
    uint8_t digits[20];
    size_t length = 0;
    do {
        digits[length++] = (uint8_t)('0' + number % 10);
        number /= 10;
    } while (number > 0);
    for (size_t i = 0; i < length; i++)
        out[i] = digits[length - 1 - i];
    return length;
}

/* Writes an amount, its minus first; answers its length. */
static size_t put_amount(uint8_t *out, int64_t amount)
{
    if (amount >= 0)
        return put_number(out, (uint64_t)amount);
    out[0] = '-';
    return 1 + put_number(out + 1, magnitude_of(amount));
}

/* Writes a comma and a number; answers their length. */
static size_t put_count(uint8_t *out, uint64_t count)
{
    out[0] = ',';
    return 1 + put_number(out + 1, count);
}

/* Writes a fresh trailer that closes what the tally holds, itself included; answers its length. */
size_t oracle_put_trailer(uint8_t *out, record_code code, const tally *t)
{
    size_t length = put_number(out, code);
    out[length++] = ',';
    length += put_amount(out + length, oracle_sum(t));
    if (code == GROUP_TRAILER)
        length += put_count(out + length, t->accounts);
    if (code == FILE_TRAILER)
        length += put_count(out + length, t->groups);
    length += put_count(out + length, t->lines);
    out[length++] = '/';
    out[length++] = '\n';
    return length;
}

/* The whole file's tally. */
static tally file_of(const bai2_writer *w)
{
    return (tally){w->file_pluses, w->file_minuses, w->file_groups, w->file_accounts,
                   w->file_details, w->file_lines};
}

/* The open group's tally. */
static tally group_of(const bai2_writer *w)
{
    return (tally){w->group_pluses, w->group_minuses, w->group_groups, w->group_accounts,
                   w->group_details, w->group_lines};
}

/* The open account's tally. */
static tally account_of(const bai2_writer *w)
{
    return (tally){w->account_pluses, w->account_minuses, w->account_groups, w->account_accounts,
                   w->account_details, w->account_lines};
}

/* The writer with those figures. */
static bai2_writer writer_of(uint64_t size, uint64_t phase, uint64_t items,
                             const tally *f, const tally *g, const tally *a)
{
    return (bai2_writer){
        size, phase, items,
        f->pluses, f->minuses, f->groups, f->accounts, f->details, f->lines,
        g->pluses, g->minuses, g->groups, g->accounts, g->details, g->lines,
        a->pluses, a->minuses, a->groups, a->accounts, a->details, a->lines};
}

/* Whether a tally's magnitudes stay within `most` and its counts within `size`. */
static bool is_within(const tally *t, uint64_t most, uint64_t size)
{
    return t->pluses <= most && t->minuses <= most - t->pluses && t->groups <= size
        && t->accounts <= size && t->details <= size && t->lines <= size;
}

/* Whether the writer's figures can be worked with. */
static bool is_sound(const bai2_writer *w)
{
    tally file = file_of(w), group = group_of(w), account = account_of(w);
    if (w->size > LONGEST_FILE || w->phase > ENDED || w->items > 1)
        return false;
    if (!is_within(&file, GREATEST_SUM, w->size))
        return false;
    uint64_t most = oracle_magnitudes(&file);
    return is_within(&group, most, w->size) && is_within(&account, most, w->size);
}

/* Whether it is the record's turn; an item's stands after an account with one, or an item. */
static bool is_turn(const bai2_writer *w, record_code code)
{
    file_phase next;
    if (!is_sound(w))
        return false;
    if (code == CONTINUATION)
        return w->phase == IN_ACCOUNT && w->items == 1;
    return oracle_in_turn((file_phase)w->phase, code, &next);
}

/* A refused call: its number, and the writer as it was given. */
static bai2_written refused(bai2_writer w, uint64_t number)
{
    return (bai2_written){.number = number, .writer = w};
}

/* The writer after an accepted line: it adds to the file, and to what is open after it; what isn't
   open is nothing. (So where a 02 or 03 comes, only a made-up writer holds an open group or account.) */
static bai2_writer after(const bai2_writer *w, const draft *d)
{
    tally file = file_of(w), group = group_of(w), account = account_of(w);
    file_phase phase = IN_ACCOUNT;
    oracle_in_turn((file_phase)w->phase, d->code, &phase);
    oracle_add(&file, &d->figures);
    oracle_add(&group, &d->figures);
    oracle_add(&account, &d->figures);
    if (phase != IN_ACCOUNT)
        account = (tally){0};
    if (phase == BETWEEN_GROUPS || phase == ENDED)
        group = (tally){0};
    return writer_of(w->size + d->length, phase, d->item_may_come, &file, &group, &account);
}

/* Lets a line into the file, or refuses it by 10, 18 or 15. */
static bai2_written let_in(bai2_writer w, const draft *d, uint8_t *out, size_t out_length)
{
    tally file = file_of(&w);
    if (oracle_magnitudes(&file) + oracle_magnitudes(&d->figures) > GREATEST_SUM)
        return refused(w, 10);
    uint64_t size = w.size + d->length;
    if (size > LONGEST_FILE)
        return refused(w, 18);
    if (size > out_length)
        return refused(w, 15);
    memcpy(out + w.size, d->bytes, d->length);
    return (bai2_written){0, 0, size, after(&w, d)};
}

/* A line that so far holds its code. */
static draft begin(record_code code)
{
    draft d = {.code = code, .bytes = {(uint8_t)('0' + code / 10), (uint8_t)('0' + code % 10)},
               .length = 2};
    d.figures.groups = code == GROUP_HEADER;
    d.figures.accounts = code == ACCOUNT_HEADER;
    d.figures.details = code == DETAIL;
    d.figures.lines = 1;
    return d;
}

/* Adds a comma and a field, which was judged before, to a line. */
static void add_field(draft *d, slice field)
{
    d->bytes[d->length++] = ',';
    for (size_t i = 0; i < field.length; i++)
        d->bytes[d->length++] = field.bytes[i];
}

/* Adds a comma, and an amount where it is given. */
static void add_amount(draft *d, const item *i)
{
    d->bytes[d->length++] = ',';
    if (!i->amount_given)
        return;
    d->length += put_amount(d->bytes + d->length, i->amount);
    if (i->amount < 0)
        d->figures.minuses = magnitude_of(i->amount);
    else
        d->figures.pluses = magnitude_of(i->amount);
}

/* Adds an item's four fields to a line. */
static void add_item(draft *d, const item *i)
{
    add_field(d, i->type);
    add_amount(d, i);
    d->bytes[d->length++] = ',';
    if (i->count_given)
        d->length += put_number(d->bytes + d->length, i->count);
    d->bytes[d->length++] = ',';
    d->item_may_come = i->type.length > 0;
}

/* Ends a line by a slash. */
static void add_slash(draft *d)
{
    d->bytes[d->length++] = '/';
    d->bytes[d->length++] = '\n';
}

/* Whether the reader would take the name, its bytes included. */
static bool is_good_name(slice name, size_t shortest)
{
    return is_name(name, shortest) && is_plain(name);
}

/* Whether the reader would take the amount under a type of that class. */
static bool is_good_amount(const item *i, type_class class)
{
    if (!i->amount_given)
        return true;
    if (class == NOTE_TYPE || (i->amount < 0 && class != STATUS_TYPE))
        return false;
    return magnitude_of(i->amount) <= GREATEST_SUM;
}

/* Whether the reader would take the item in a 03. */
static bool is_good_item(const item *i)
{
    uint64_t type;
    type_class class = class_of(i->type, &type);
    if (!is_item_class(class) || !is_good_amount(i, class))
        return false;
    return !i->count_given || (class != STATUS_TYPE && i->count <= 999999999);
}

/* Whether an item stands for none: all its fields empty. */
static bool is_no_item(const item *i)
{
    return i->type.length == 0 && !i->amount_given && !i->count_given;
}

/* Whether the writer takes the text. */
static bool is_good_text(slice text)
{
    if (text.length == 0)
        return true;
    if (text.length > LONGEST_NAME || text.bytes[0] == '/' || text.bytes[text.length - 1] == ' ')
        return false;
    for (size_t i = 0; i < text.length; i++)
        if (!is_allowed(text.bytes[i]))
            return false;
    return true;
}

/* A writer that has written nothing. */
bai2_writer oracle_writer_new(void)
{
    return (bai2_writer){0};
}

/* Writes the 01. */
bai2_written oracle_write_header(bai2_writer writer,
                                 const uint8_t *sender, size_t sender_length,
                                 const uint8_t *receiver, size_t receiver_length,
                                 const uint8_t *date, size_t date_length,
                                 const uint8_t *time, size_t time_length,
                                 const uint8_t *file_number, size_t file_number_length,
                                 uint8_t *out, size_t out_length)
{
    const slice from = {sender, sender_length}, to = {receiver, receiver_length};
    const slice day = {date, date_length}, hour = {time, time_length};
    const slice number = {file_number, file_number_length}, empty = {0};
    const slice version = {(const uint8_t *)"2", 1};
    if (!is_turn(&writer, FILE_HEADER))
        return refused(writer, 19);
    if (!is_good_name(from, 1) || !is_good_name(to, 1) || !is_date(day) || !is_time(hour)
        || number.length == 0 || !is_optional_number(number, 9))
        return refused(writer, 20);
    draft d = begin(FILE_HEADER);
    const slice fields[] = {from, to, day, hour, number, empty, empty, version};
    for (size_t i = 0; i < sizeof fields / sizeof *fields; i++)
        add_field(&d, fields[i]);
    add_slash(&d);
    return let_in(writer, &d, out, out_length);
}

/* Writes an 02. */
bai2_written oracle_write_group(bai2_writer writer,
                                const uint8_t *receiver, size_t receiver_length,
                                const uint8_t *originator, size_t originator_length,
                                const uint8_t *status, size_t status_length,
                                const uint8_t *date, size_t date_length,
                                const uint8_t *time, size_t time_length,
                                const uint8_t *currency, size_t currency_length,
                                const uint8_t *modifier, size_t modifier_length,
                                uint8_t *out, size_t out_length)
{
    const slice to = {receiver, receiver_length}, from = {originator, originator_length};
    const slice state = {status, status_length}, day = {date, date_length};
    const slice hour = {time, time_length}, money = {currency, currency_length};
    const slice final = {modifier, modifier_length};
    if (!is_turn(&writer, GROUP_HEADER))
        return refused(writer, 19);
    if (!is_good_name(to, 0) || !is_good_name(from, 1) || !is_one_to_four(state) || !is_date(day)
        || !is_optional_time(hour) || !is_currency(money)
        || (final.length != 0 && !is_one_to_four(final)))
        return refused(writer, 20);
    draft d = begin(GROUP_HEADER);
    const slice fields[] = {to, from, state, day, hour, money, final};
    for (size_t i = 0; i < sizeof fields / sizeof *fields; i++)
        add_field(&d, fields[i]);
    add_slash(&d);
    return let_in(writer, &d, out, out_length);
}

/* Writes a 03 with one item or none. */
bai2_written oracle_write_account(bai2_writer writer,
                                  const uint8_t *account, size_t account_length,
                                  const uint8_t *currency, size_t currency_length,
                                  uint64_t item_given,
                                  const uint8_t *type, size_t type_length,
                                  uint64_t amount_given, int64_t amount,
                                  uint64_t count_given, uint64_t count,
                                  uint8_t *out, size_t out_length)
{
    const slice name = {account, account_length}, money = {currency, currency_length};
    const item none = {0};
    const item given = {{type, type_length}, amount_given != 0, amount, count_given != 0, count};
    const item *first = item_given != 0 ? &given : &none;
    if (!is_turn(&writer, ACCOUNT_HEADER))
        return refused(writer, 19);
    if (!is_good_name(name, 1) || !is_currency(money)
        || !(is_no_item(first) || is_good_item(first)))
        return refused(writer, 20);
    draft d = begin(ACCOUNT_HEADER);
    add_field(&d, name);
    add_field(&d, money);
    add_item(&d, first);
    add_slash(&d);
    return let_in(writer, &d, out, out_length);
}

/* Writes a further item as an 88. */
bai2_written oracle_write_item(bai2_writer writer,
                               const uint8_t *type, size_t type_length,
                               uint64_t amount_given, int64_t amount,
                               uint64_t count_given, uint64_t count,
                               uint8_t *out, size_t out_length)
{
    const item further = {{type, type_length}, amount_given != 0, amount, count_given != 0, count};
    if (!is_turn(&writer, CONTINUATION))
        return refused(writer, 19);
    if (!is_good_item(&further))
        return refused(writer, 20);
    draft d = begin(CONTINUATION);
    add_item(&d, &further);
    add_slash(&d);
    return let_in(writer, &d, out, out_length);
}

/* Writes a 16. */
bai2_written oracle_write_detail(bai2_writer writer,
                                 const uint8_t *type, size_t type_length,
                                 uint64_t amount_given, int64_t amount,
                                 const uint8_t *bank_reference, size_t bank_reference_length,
                                 const uint8_t *customer_reference, size_t customer_reference_length,
                                 const uint8_t *text, size_t text_length,
                                 uint8_t *out, size_t out_length)
{
    const item detail = {{type, type_length}, amount_given != 0, amount, false, 0};
    const slice bank = {bank_reference, bank_reference_length};
    const slice customer = {customer_reference, customer_reference_length};
    const slice message = {text, text_length}, empty = {0};
    if (!is_turn(&writer, DETAIL))
        return refused(writer, 19);
    uint64_t number;
    type_class class = class_of(detail.type, &number);
    if (!is_detail_class(class) || !is_good_amount(&detail, class) || !is_good_name(bank, 0)
        || !is_good_name(customer, 0) || !is_good_text(message))
        return refused(writer, 20);
    draft d = begin(DETAIL);
    add_field(&d, detail.type);
    add_amount(&d, &detail);
    add_field(&d, empty);
    add_field(&d, bank);
    add_field(&d, customer);
    add_field(&d, message);
    if (message.length == 0)
        add_slash(&d);
    else
        d.bytes[d.length++] = '\n';
    return let_in(writer, &d, out, out_length);
}

/* Writes the trailer that closes what the tally holds. */
static bai2_written write_end(bai2_writer w, record_code code, tally closed,
                              uint8_t *out, size_t out_length)
{
    if (!is_turn(&w, code))
        return refused(w, 19);
    draft d = begin(code);
    oracle_add(&closed, &d.figures);
    d.length = oracle_put_trailer(d.bytes, code, &closed);
    return let_in(w, &d, out, out_length);
}

/* Writes a 49. */
bai2_written oracle_write_end_account(bai2_writer writer, uint8_t *out, size_t out_length)
{
    return write_end(writer, ACCOUNT_TRAILER, account_of(&writer), out, out_length);
}

/* Writes a 98. */
bai2_written oracle_write_end_group(bai2_writer writer, uint8_t *out, size_t out_length)
{
    return write_end(writer, GROUP_TRAILER, group_of(&writer), out, out_length);
}

/* Writes the 99. */
bai2_written oracle_write_end_file(bai2_writer writer, uint8_t *out, size_t out_length)
{
    return write_end(writer, FILE_TRAILER, file_of(&writer), out, out_length);
}
