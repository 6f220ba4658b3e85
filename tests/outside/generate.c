/* Files built from the rules, record by record, with at most one deliberate slip. */
#include <stdio.h>
#include <string.h>

#include "generate.h"

#define GREATEST UINT64_C(999999999999999999)

/* One thing that a generated file may have wrong. */
typedef enum {
    NO_SLIP, WRONG_TOTAL, WRONG_COUNT, WRONG_RECORDS, OVER_BOUND, BAD_DATE, BAD_TIME, LONG_NAME,
    EMPTY_NAME, LONG_DIGITS, BAD_SIGN, BAD_TYPE, BAD_FUNDS, BAD_CURRENCY, BAD_ONE_TO_FOUR, BAD_LIMIT,
    BAD_VERSION, FIELD_DROPPED, FIELD_DOUBLED, STATUS_FILLED, EMPTY_ITEM, NOTE_FILLED, BAD_TEXT,
    TEXT_LEFT_OFF, BYTE_BEHIND_SLASH, NO_SLASH, LONG_LINE, RECORD_LEFT_OUT, SLIPS
} slip;

typedef struct {
    int64_t total;
    uint64_t accounts, groups, lines;
} tally;

/* One file in the making. */
typedef struct {
    dice *dice;
    buffer *out;
    size_t limit; /* the longest line allowed */
    bool limit_given;
    size_t line_start, fields; /* of the line in the making */
    unsigned breaks, crlfs, blanks, large; /* of a thousand: 88s, CR LFs, blanks after slashes, amounts */
    uint64_t budget; /* magnitudes that may still come */
    tally file, group, account;
    slip slip;
    uint64_t slip_in; /* so many chances later */
} maker;

/* Whether the file's slip is of that kind and happens now. */
static bool slips(maker *m, slip kind)
{
    if (m->slip != kind)
        return false;
    if (m->slip_in > 0) {
        m->slip_in--;
        return false;
    }
    m->slip = NO_SLIP;
    return true;
}

/* One of some strings. */
static const char *pick(dice *d, const char *const *from, size_t count)
{
    return from[roll(d, count)];
}

#define PICK(d, ...) \
    pick(d, (const char *const[]){__VA_ARGS__}, \
         sizeof((const char *const[]){__VA_ARGS__}) / sizeof(const char *))

/* Adds a printable name of that length without comma and slash. */
void generate_name(dice *d, buffer *out, size_t length)
{
    static const char bytes[] = "0123456789ABCDEFGHIJKLMNOPQRSTUVWXYZabcxyz   -+.~!#";
    for (size_t i = 0; i < length; i++)
        add_byte(out, (uint8_t)bytes[roll(d, sizeof bytes - 1)]);
}

/* Adds one of the receivers that groups carry; some differ in a zero, a blank or case. */
void generate_receiver(dice *d, buffer *out)
{
    add_text(out, PICK(d, "0087654", "87654", "087654", "ABC", "abc", "ABC ", " ABC", "A", " ", "031001234",
                       "31001234",
                       "Receiver of seventy-six bytes with blanks inside and a full stop at its end."));
}

/* The length of the line in the making. */
static size_t line_length(const maker *m)
{
    return m->out->length - m->line_start;
}

/* How many bytes still go into the line. */
static size_t room(const maker *m)
{
    return line_length(m) < m->limit ? m->limit - line_length(m) : 0;
}

/* Adds blanks until the line has that length. */
static void fill_line(maker *m, size_t length)
{
    while (line_length(m) < length)
        add_byte(m->out, ' ');
}

/* Ends the line: blanks up to the limit now and then, one past it as a slip. */
static void end_line(maker *m)
{
    unsigned exact = m->limit <= 100 ? 30 : 2;
    if (chance(m->dice, exact))
        fill_line(m, m->limit);
    if (slips(m, LONG_LINE))
        fill_line(m, m->limit + 1);
    add_text(m->out, chance(m->dice, m->crlfs) ? "\r\n" : "\n");
    m->line_start = m->out->length;
    m->file.lines++;
    m->group.lines++;
    m->account.lines++;
}

/* Ends the line by a slash. */
static void end_by_slash(maker *m)
{
    if (!slips(m, NO_SLASH))
        add_byte(m->out, '/');
    if (chance(m->dice, m->blanks))
        fill_line(m, line_length(m) + roll(m->dice, room(m) + 1) % 8);
    if (slips(m, BYTE_BEHIND_SLASH))
        add_text(m->out, PICK(m->dice, "X", " /", "/", ",", "  1 "));
    end_line(m);
}

/* Starts a line with a code. */
static void start_line(maker *m, const char *code)
{
    add_text(m->out, code);
    add_byte(m->out, ',');
    m->fields = 0;
}

/* Adds one field to the record, on a new 88 where chance or the limit asks for it. */
static void put_one_field(maker *m, const void *bytes, size_t length)
{
    bool full = line_length(m) + 1 + length + 1 > m->limit;
    if (m->fields > 0 && (full || chance(m->dice, m->breaks))) {
        end_by_slash(m);
        start_line(m, "88");
    } else if (m->fields > 0) {
        add_byte(m->out, ',');
    }
    add_bytes(m->out, bytes, length);
    m->fields++;
}

/* Adds a field; as a slip it is left out, or comes twice. */
static void put_bytes(maker *m, const void *bytes, size_t length)
{
    if (slips(m, FIELD_DROPPED))
        return;
    put_one_field(m, bytes, length);
    if (slips(m, FIELD_DOUBLED))
        put_one_field(m, bytes, length);
}

/* Adds a field given as a C string. */
static void put(maker *m, const char *field)
{
    put_bytes(m, field, strlen(field));
}

/* Adds a field with that value, leading zeros to that many digits. */
static void put_digits(maker *m, const char *sign, uint64_t value, int width)
{
    char field[64];
    snprintf(field, sizeof field, "%s%0*llu", sign, width, (unsigned long long)value);
    put(m, field);
}

/* Adds a field of up to `longest` digits with that value, leading zeros now and then. */
static void put_number(maker *m, const char *sign, uint64_t value, int longest)
{
    int width = chance(m->dice, m->dice->amounts ? 400 : 150) ? (int)between(m->dice, 1, (size_t)longest) : 1;
    if (slips(m, LONG_DIGITS))
        width = longest + 1;
    put_digits(m, sign, value, width);
}

/* Adds a name of a length that the limit allows. */
static void put_name(maker *m, size_t shortest)
{
    buffer name = {0};
    size_t longest = m->limit - 4 < 76 ? m->limit - 4 : 76;
    size_t length = chance(m->dice, 50) ? longest : between(m->dice, 1, 12);
    if (chance(m->dice, 100))
        length = shortest;
    if (slips(m, LONG_NAME))
        length = 77;
    if (slips(m, EMPTY_NAME))
        length = 0;
    generate_name(m->dice, &name, length);
    put_bytes(m, name.bytes, name.length);
    release(&name);
}

/* Adds an ultimate receiver, now and then none. */
static void put_receiver(maker *m)
{
    buffer name = {0};
    if (slips(m, LONG_NAME))
        generate_name(m->dice, &name, 77);
    else if (!chance(m->dice, 120))
        generate_receiver(m->dice, &name);
    if (name.length + 4 > m->limit)
        name.length = m->limit - 4;
    put_bytes(m, name.bytes, name.length);
    release(&name);
}

/* Adds a date. */
static void put_date(maker *m)
{
    if (slips(m, BAD_DATE)) {
        put(m, PICK(m->dice, "050229", "990229", "041301", "040001", "040100", "040132", "040431", "041131",
                    "04061", "0406211", "O40621", "", "040 21", "-40621"));
    } else if (chance(m->dice, 300)) {
        put(m, PICK(m->dice, "040229", "000229", "960229", "991231", "000101", "040131", "040430", "050228"));
    } else {
        char date[32];
        snprintf(date, sizeof date, "%02u%02u%02u", (unsigned)roll(m->dice, 100),
                 (unsigned)between(m->dice, 1, 12), (unsigned)between(m->dice, 1, 28));
        put(m, date);
    }
}

/* Adds a time; an optional one may be empty. */
static void put_time(maker *m, bool optional)
{
    if (slips(m, BAD_TIME)) {
        put(m, PICK(m->dice, "2401", "1260", "2360", "9998", "999", "24000", "12:0", "-100",
                    optional ? "1" : ""));
    } else if (optional && chance(m->dice, 300)) {
        put(m, "");
    } else if (chance(m->dice, 300)) {
        put(m, PICK(m->dice, "2400", "9999", "0000", "2359", "2300", "0059"));
    } else {
        char time[32];
        snprintf(time, sizeof time, "%02u%02u", (unsigned)roll(m->dice, 24), (unsigned)roll(m->dice, 60));
        put(m, time);
    }
}

/* Adds a currency. */
static void put_currency(maker *m)
{
    if (slips(m, BAD_CURRENCY))
        put(m, PICK(m->dice, "US", "USDX", "usd", "U D", "US1", "AZ[", "@AZ", "   "));
    else
        put(m, PICK(m->dice, "", "", "USD", "CAD", "AAZ"));
}

/* Adds a digit from 1 to 4; an optional one may be empty. */
static void put_one_to_four(maker *m, bool optional)
{
    if (slips(m, BAD_ONE_TO_FOUR))
        put(m, PICK(m->dice, "0", "5", "11", " ", "A", optional ? "01" : ""));
    else
        put(m, PICK(m->dice, "1", "2", "3", "4", optional ? "" : "1"));
}

/* Counts an amount in all three totals. */
static void count_amount(maker *m, uint64_t magnitude, bool minus)
{
    int64_t amount = minus ? -(int64_t)magnitude : (int64_t)magnitude;
    m->budget -= magnitude;
    m->file.total += amount;
    m->group.total += amount;
    m->account.total += amount;
}

/* A magnitude within the budget. */
static uint64_t some_magnitude(maker *m)
{
    static const uint64_t powers[] = {1, 10, 100, 10000, 10000000, UINT64_C(1000000000)};
    uint64_t magnitude = roll(m->dice, powers[roll(m->dice, 6)]);
    if (chance(m->dice, m->large))
        magnitude = roll(m->dice, 3) == 0 ? m->budget : roll(m->dice, m->budget + 1);
    return magnitude <= m->budget ? magnitude : m->budget;
}

/* Adds an amount in any of the forms that its place takes, with digits that tell the forms apart: zeros,
   leading zeros, 18 digits, and now and then all that the bound still allows. */
static void put_telling_amount(maker *m, bool minus_allowed)
{
    static const struct {
        uint64_t magnitude;
        int width;
    } digits[] = {{0, 1}, {0, 1}, {0, 3}, {0, 18}, {5, 1}, {7, 3}, {500, 1}, {1, 18}};
    static const char *const signs[] = {NULL, "", "+", "-"};
    const char *sign = signs[roll(m->dice, minus_allowed ? 4 : 3)];
    size_t i = (size_t)roll(m->dice, sizeof digits / sizeof *digits);
    uint64_t magnitude = chance(m->dice, 20) ? m->budget : digits[i].magnitude;
    if (magnitude > m->budget)
        magnitude = 0;
    if (sign == NULL) {
        put(m, "");
        return;
    }
    count_amount(m, magnitude, sign[0] == '-');
    put_digits(m, sign, magnitude, digits[i].width);
}

/* Adds an item or detail amount; empty now and then. */
static void put_amount(maker *m, bool minus_allowed)
{
    if (slips(m, BAD_SIGN)) {
        put(m, PICK(m->dice, "-", "+", "--1", "1-", "+-1", " 1", "1:", minus_allowed ? "-+0" : "-0",
                    minus_allowed ? "1 " : "-500", "1.0"));
    } else if (slips(m, OVER_BOUND)) {
        put_number(m, PICK(m->dice, "", "+", minus_allowed ? "-" : ""),
                   m->budget + 1 + roll(m->dice, 2) * roll(m->dice, 1000), 18);
    } else if (m->dice->amounts && chance(m->dice, 800)) {
        put_telling_amount(m, minus_allowed);
    } else if (chance(m->dice, 150)) {
        put(m, "");
    } else {
        uint64_t magnitude = some_magnitude(m);
        bool minus = minus_allowed && chance(m->dice, 400);
        count_amount(m, magnitude, minus);
        put_number(m, minus ? "-" : chance(m->dice, 150) ? "+" : "", magnitude, 18);
    }
}

/* Adds an amount that stands after a funds type; it counts nowhere. */
static void put_funds_amount(maker *m, bool optional)
{
    if (slips(m, BAD_FUNDS))
        put(m, PICK(m->dice, "+1", "-1", "1A", "1234567890123456789", optional ? " " : ""));
    else if (optional && chance(m->dice, 300))
        put(m, "");
    else
        put_number(m, "", roll(m->dice, chance(m->dice, 100) ? GREATEST + 1 : 100000), 18);
}

/* Adds D's number and pairs. */
static void put_distribution(maker *m)
{
    if (slips(m, BAD_FUNDS)) {
        put(m, PICK(m->dice, "0", "000", "1000", "", "A", "-1"));
        return;
    }
    size_t pairs = between(m->dice, 1, chance(m->dice, 50) ? 60 : 4);
    if (chance(m->dice, 2))
        pairs = 999;
    put_number(m, "", pairs, 3);
    for (size_t i = 0; i < pairs; i++) {
        put_number(m, "", roll(m->dice, chance(m->dice, 200) ? 1000 : 4), 3);
        put_funds_amount(m, false);
    }
}

/* Adds a funds type and what follows it. */
static void put_funds(maker *m)
{
    if (slips(m, BAD_FUNDS)) {
        put(m, PICK(m->dice, "3", "z", "s", "v", "d", "00", "X", " ", "SS"));
        return;
    }
    const char *funds = PICK(m->dice, "", "", "0", "1", "2", "Z", "S", "V", "D");
    put(m, funds);
    if (funds[0] == 'S')
        for (int i = 0; i < 3; i++)
            put_funds_amount(m, true);
    if (funds[0] == 'V') {
        put_date(m);
        put_time(m, true);
    }
    if (funds[0] == 'D')
        put_distribution(m);
}

/* A type of 001 to 099 or 900 to 919. */
static unsigned status_type(dice *d)
{
    static const unsigned edges[] = {1, 99, 900, 919, 10, 905};
    if (d->customised && chance(d, 850))
        return (unsigned)between(d, 900, 919);
    if (chance(d, 300))
        return edges[roll(d, sizeof edges / sizeof *edges)];
    unsigned type = (unsigned)between(d, 1, 119);
    return type > 99 ? type + 800 : type;
}

/* A type of 101 to 799 or 920 to 999, without 400. */
static unsigned summary_type(dice *d)
{
    static const unsigned edges[] = {101, 399, 401, 799, 920, 999, 165, 409};
    if (d->customised && chance(d, 850))
        return (unsigned)between(d, 920, chance(d, 800) ? 930 : 999);
    if (chance(d, 200))
        return edges[roll(d, sizeof edges / sizeof *edges)];
    unsigned type = (unsigned)between(d, 101, 879);
    type = type > 799 ? type + 120 : type;
    return type == 400 ? 401 : type;
}

/* A type that no record takes, or not this one. */
static const char *bad_type(dice *d, bool in_detail)
{
    if (chance(d, 700))
        return PICK(d, "000", "800", "889", "891", "899", "10", "0100", "A10", " 10", "1 0", "-10");
    return in_detail ? PICK(d, "099", "100", "400", "900", "905", "919") : "890";
}

/* A type of 890 to 930, else of 900 to 999, whatever its record takes. */
static unsigned customised_type(dice *d)
{
    return (unsigned)(chance(d, 700) ? between(d, 890, 930) : between(d, 900, 999));
}

/* Adds a type field; as a slip one that its record doesn't take, and in customised files one of 890 to
   999 that may suit neither its record nor the fields after it. */
static void put_type(maker *m, unsigned type, bool in_detail)
{
    char field[16];
    bool slipped = slips(m, BAD_TYPE);
    if (slipped && m->dice->customised)
        type = customised_type(m->dice);
    snprintf(field, sizeof field, "%03u", type);
    put(m, slipped && !m->dice->customised ? bad_type(m->dice, in_detail) : field);
}

/* Adds a status item. */
static void put_status_item(maker *m)
{
    put_type(m, status_type(m->dice), false);
    put_amount(m, true);
    put(m, slips(m, STATUS_FILLED) ? PICK(m->dice, "1", "0") : "");
    put(m, slips(m, STATUS_FILLED) ? PICK(m->dice, "Z", "0", "V") : "");
}

/* Adds a summary item. */
static void put_summary_item(maker *m)
{
    unsigned type = summary_type(m->dice);
    if (chance(m->dice, 200))
        type = chance(m->dice, 500) ? 100 : 400;
    put_type(m, type, false);
    put_amount(m, false);
    if (chance(m->dice, 300))
        put(m, "");
    else
        put_number(m, "", roll(m->dice, chance(m->dice, 100) ? 1000000000 : 100), 9);
    put_funds(m);
}

/* Adds the sole empty item; as a slip one of its fields is filled, or a field follows. */
static void put_empty_item(maker *m)
{
    for (int i = 0; i < 4; i++)
        put(m, slips(m, EMPTY_ITEM) ? PICK(m->dice, "1", "010", "0") : "");
    if (slips(m, EMPTY_ITEM))
        put(m, PICK(m->dice, "", "010"));
}

/* Adds an account's items. */
static void put_items(maker *m)
{
    if (chance(m->dice, 150)) {
        put_empty_item(m);
        return;
    }
    size_t items = between(m->dice, 1, chance(m->dice, 100) ? 20 : 3);
    for (size_t i = 0; i < items; i++) {
        if (i > 0 && slips(m, EMPTY_ITEM))
            put_empty_item(m);
        else if (chance(m->dice, 500))
            put_status_item(m);
        else
            put_summary_item(m);
    }
}

/* Adds one piece of text, which fits into the line. */
static void put_piece(maker *m)
{
    static const char bytes[] = "ABCDEFGHIJKLMNOPQRSTUVWXYZ abc ,,//,88,16,49/0123456789~.-+";
    size_t longest = room(m);
    size_t length = between(m->dice, 1, longest < 30 ? longest : 30);
    if (chance(m->dice, 20))
        length = longest;
    if (slips(m, BAD_TEXT)) {
        add_text(m->out, PICK(m->dice, "/A", "//", "", " ", "   ", "/ /", "/,"));
        return;
    }
    for (size_t i = 0; i < length; i++)
        add_byte(m->out, (uint8_t)bytes[roll(m->dice, sizeof bytes - 1)]);
    uint8_t *piece = m->out->bytes + m->out->length - length;
    if (piece[0] == '/')
        piece[0] = 'T';
    if (piece[length - 1] == ' ')
        piece[length - 1] = ';';
    if (chance(m->dice, m->blanks))
        fill_line(m, line_length(m) + roll(m->dice, room(m) + 1) % 5);
}

/* Ends a 16 at its text's place: in this line or on a new 88, no text or some pieces. */
static void put_text(maker *m)
{
    if (slips(m, TEXT_LEFT_OFF)) {
        end_by_slash(m);
        return;
    }
    if (line_length(m) + 2 > m->limit || chance(m->dice, 250)) {
        end_by_slash(m);
        start_line(m, "88");
    } else {
        add_byte(m->out, ',');
    }
    if (chance(m->dice, 300)) {
        end_by_slash(m);
        return;
    }
    put_piece(m);
    end_line(m);
    size_t more = chance(m->dice, 200) ? between(m->dice, 1, 4) : 0;
    for (size_t i = 0; i < more; i++) {
        start_line(m, "88");
        put_piece(m);
        end_line(m);
    }
}

/* Adds one 16. */
static void put_detail(maker *m)
{
    bool note = chance(m->dice, 80);
    start_line(m, "16");
    put_type(m, note ? 890 : summary_type(m->dice), true);
    if (note) {
        put(m, slips(m, NOTE_FILLED) ? "0" : "");
        put(m, slips(m, NOTE_FILLED) ? "Z" : "");
    } else {
        put_amount(m, false);
        put_funds(m);
    }
    put_name(m, 0);
    put_name(m, 0);
    put_text(m);
}

/* A number that is wrong by a little where the file slips. */
static uint64_t maybe_wrong(maker *m, slip kind, uint64_t number)
{
    if (!slips(m, kind))
        return number;
    return number > 0 && chance(m->dice, 500) ? number - 1 : number + 1 + roll(m->dice, 2) * 9;
}

/* Adds a trailer, in one line or each field on its own, so that it knows its lines beforehand. */
static void put_trailer(maker *m, const char *code, const tally *closed, const uint64_t *count)
{
    unsigned breaks = m->breaks;
    m->breaks = chance(m->dice, breaks) ? 1000 : 0;
    uint64_t own = m->breaks == 0 ? 1 : count == NULL ? 2 : 3;
    bool minus = closed->total < 0;
    uint64_t total = minus ? 0 - (uint64_t)closed->total : (uint64_t)closed->total;
    const char *sign = minus ? "-" : PICK(m->dice, "", "", "", "+", total == 0 ? "-" : "");
    uint64_t lines = closed->lines + own;
    start_line(m, code);
    put_number(m, sign, maybe_wrong(m, WRONG_TOTAL, total), 18);
    if (count != NULL)
        put_number(m, "", maybe_wrong(m, WRONG_COUNT, *count), 9);
    put_number(m, "", maybe_wrong(m, WRONG_RECORDS, lines), 9);
    end_by_slash(m);
    m->breaks = breaks;
}

/* Adds one account. */
static void put_account(maker *m, size_t details)
{
    m->account = (tally){0};
    m->group.accounts++;
    if (!slips(m, RECORD_LEFT_OUT)) {
        start_line(m, "03");
        put_name(m, 1);
        put_currency(m);
        put_items(m);
        end_by_slash(m);
    }
    for (size_t i = 0; i < details; i++)
        put_detail(m);
    if (!slips(m, RECORD_LEFT_OUT))
        put_trailer(m, "49", &m->account, NULL);
}

/* Adds one group. */
static void put_group(maker *m, size_t accounts, size_t details)
{
    m->group = (tally){0};
    m->file.groups++;
    if (!slips(m, RECORD_LEFT_OUT)) {
        start_line(m, "02");
        put_receiver(m);
        put_name(m, 1);
        put_one_to_four(m, false);
        put_date(m);
        put_time(m, true);
        put_currency(m);
        put_one_to_four(m, true);
        end_by_slash(m);
    }
    for (size_t i = 0; i < accounts; i++)
        put_account(m, roll(m->dice, details + 1));
    if (!slips(m, RECORD_LEFT_OUT))
        put_trailer(m, "98", &m->group, &m->group.accounts);
}

/* Adds the L field. */
static void put_limit(maker *m)
{
    char limit[32];
    if (slips(m, BAD_LIMIT)) {
        put(m, PICK(m->dice, "47", "4097", "0", "00048", "9999", "-48", "4 8", "A"));
    } else if (!m->limit_given) {
        put(m, "");
    } else {
        snprintf(limit, sizeof limit, chance(m->dice, 200) ? "%04u" : "%u", (unsigned)m->limit);
        put(m, limit);
    }
}

/* Adds the 01. */
static void put_header(maker *m)
{
    start_line(m, "01");
    put_name(m, 1);
    put_name(m, 1);
    put_date(m);
    put_time(m, false);
    put_number(m, "", roll(m->dice, 1000), 9);
    put_limit(m);
    if (chance(m->dice, 500))
        put(m, "");
    else
        put_number(m, "", roll(m->dice, 1000), 9);
    put(m, slips(m, BAD_VERSION) ? PICK(m->dice, "3", "1", "", "02", "2 ", " 2", "22") : "2");
    end_by_slash(m);
}

/* A maker with a style of its own. */
static maker new_maker(dice *d, buffer *out)
{
    static const size_t limits[] = {48, 49, 55, 65, 80, 80, 4096, 4095};
    static const unsigned per_thousand[] = {0, 0, 30, 300, 1000};
    maker m = {.dice = d, .out = out, .limit = 4096, .budget = GREATEST};
    m.limit_given = chance(d, 400);
    if (m.limit_given)
        m.limit = chance(d, 800) ? limits[roll(d, 8)] : between(d, 48, 4096);
    m.breaks = per_thousand[roll(d, 5)];
    m.crlfs = per_thousand[roll(d, 5)];
    m.blanks = per_thousand[roll(d, 4)];
    m.large = chance(d, 150) ? 100 : 0;
    clear(out);
    return m;
}

/* Adds the file's groups: mostly few, now and then many. */
static void put_groups(maker *m)
{
    size_t size = roll(m->dice, m->dice->amounts ? 45 : 100);
    size_t most_groups = size < 40 ? 1 : size < 90 ? 4 : size < 99 ? 8 : 30;
    size_t most_accounts = size < 40 ? 2 : size < 90 ? 3 : size < 99 ? 6 : 12;
    size_t most_details = size < 40 ? 2 : size < 90 ? 3 : size < 99 ? 10 : 20;
    size_t groups = roll(m->dice, most_groups + 1);
    for (size_t i = 0; i < groups; i++)
        put_group(m, between(m->dice, 1, most_accounts), most_details);
}

/* Writes a whole file with the maker's slip, if any. */
static void put_file(maker *m)
{
    put_header(m);
    put_groups(m);
    if (!slips(m, RECORD_LEFT_OUT))
        put_trailer(m, "99", &m->file, &m->file.groups);
    if (chance(m->dice, 200)) {
        m->out->length--;
        if (m->out->bytes[m->out->length - 1] == '\r')
            m->out->length--;
    }
}

/* A file that a reader must accept. */
void generate_good(dice *d, buffer *out)
{
    maker m = new_maker(d, out);
    put_file(&m);
}

/* What a file has wrong; most customised ones a type, a status's count or funds, or a sign. */
static slip some_slip(dice *d)
{
    static const slip rare[] = {BAD_VERSION, BAD_LIMIT, OVER_BOUND, WRONG_COUNT, WRONG_COUNT};
    static const slip of_types[] = {BAD_TYPE, BAD_TYPE, STATUS_FILLED, BAD_SIGN};
    if (d->customised && chance(d, 700))
        return of_types[roll(d, 4)];
    return chance(d, 150) ? rare[roll(d, 5)] : (slip)between(d, 1, SLIPS - 1);
}

/* A file with at most one slip. */
void generate_with_slip(dice *d, buffer *out)
{
    maker m = new_maker(d, out);
    m.slip = some_slip(d);
    if (m.slip != BAD_VERSION && m.slip != BAD_LIMIT)
        m.slip_in = roll(d, chance(d, 700) ? 2 : 12);
    put_file(&m);
}
