/* Asks the oracle for records and fields whose answers were worked out by hand from documents 01 and 02. */
#include <inttypes.h>
#include <stdio.h>
#include <string.h>

#include "oracle.h"

enum { MOST_FIELDS = 14 };

/* A field as it is handed out; kind 0: there are no more. */
typedef struct {
    uint64_t kind, place, length;
} field;

/* Bytes, a start, and what is answered there. */
typedef struct {
    const char *what, *bytes;
    uint64_t start;
    uint64_t code, lines, length; /* the record; all 0 where there is none */
    uint64_t number, place;       /* the refusal of its fields */
    field fields[MOST_FIELDS];
} sample;

/* A field of that kind. */
#define F(kind, place, length) {BAI2_FIELD_##kind, place, length}

static const sample samples[] = {
    /* accepted */
    {"K1's header", "01,122099999,123456789,040621,0200,1,,,2/\n02,", 0, 1, 1, 42, 0, 0,
     {F(NAME, 3, 9), F(NAME, 13, 9), F(DATE, 23, 6), F(TIME, 30, 4), F(FILE_NUMBER, 35, 1),
      F(PHYSICAL_LENGTH, 37, 0), F(BLOCK_SIZE, 38, 0), F(VERSION, 39, 1)}},
    {"a group that is nobody's, CR LF", "02,,122099999,1,040620,,,/\r\n", 0, 2, 1, 28, 0, 0,
     {F(ULTIMATE_RECEIVER, 3, 0), F(NAME, 4, 9), F(GROUP_STATUS, 14, 1), F(DATE, 16, 6), F(TIME_OR_NONE, 23, 0),
      F(CURRENCY, 24, 0), F(MODIFIER, 25, 0)}},
    {"bytes that no file may have", "02,\x80\t,B,1,040620,,,/", 0, 2, 1, 20, 0, 0,
     {F(ULTIMATE_RECEIVER, 3, 2), F(NAME, 6, 1), F(GROUP_STATUS, 8, 1), F(DATE, 10, 6), F(TIME_OR_NONE, 17, 0),
      F(CURRENCY, 18, 0), F(MODIFIER, 19, 0)}},
    {"an account without an item, no line end", "03,0975312468,USD,,,,/", 0, 3, 1, 22, 0, 0,
     {F(NAME, 3, 10), F(CURRENCY, 14, 3), F(TYPE, 18, 0), F(NOTHING, 19, 0), F(NOTHING, 20, 0), F(NOTHING, 21, 0)}},
    {"a status and a summary", "03,A,,010,-500,,,100,+7,2,Z/  \n", 0, 3, 1, 31, 0, 0,
     {F(NAME, 3, 1), F(CURRENCY, 5, 0), F(TYPE, 6, 3), F(STATUS_AMOUNT, 10, 4), F(NOTHING, 15, 0),
      F(NOTHING, 16, 0), F(FURTHER_TYPE, 17, 3), F(AMOUNT, 21, 2), F(ITEM_COUNT, 24, 1), F(FUNDS, 26, 1)}},
    {"a customised status and a customised summary", "03,A,,905,-500,,,920,+7,2,Z/\n", 0, 3, 1, 29, 0, 0,
     {F(NAME, 3, 1), F(CURRENCY, 5, 0), F(TYPE, 6, 3), F(STATUS_AMOUNT, 10, 4), F(NOTHING, 15, 0),
      F(NOTHING, 16, 0), F(FURTHER_TYPE, 17, 3), F(AMOUNT, 21, 2), F(ITEM_COUNT, 24, 1), F(FUNDS, 26, 1)}},
    {"items over 88s", "03,A,,400,,,/\n88,040,+1/\n88,,/\n", 0, 3, 3, 31, 0, 0,
     {F(NAME, 3, 1), F(CURRENCY, 5, 0), F(TYPE, 6, 3), F(AMOUNT, 10, 0), F(ITEM_COUNT, 11, 0), F(FUNDS, 12, 0),
      F(FURTHER_TYPE, 17, 3), F(STATUS_AMOUNT, 21, 2), F(NOTHING, 28, 0), F(NOTHING, 29, 0)}},
    {"customised items over 88s", "03,A,,999,,,/\n88,919,-0/\n88,,/\n", 0, 3, 3, 31, 0, 0,
     {F(NAME, 3, 1), F(CURRENCY, 5, 0), F(TYPE, 6, 3), F(AMOUNT, 10, 0), F(ITEM_COUNT, 11, 0), F(FUNDS, 12, 0),
      F(FURTHER_TYPE, 17, 3), F(STATUS_AMOUNT, 21, 2), F(NOTHING, 28, 0), F(NOTHING, 29, 0)}},
    {"funds S over 88s, then a status", "03,A,,100,5,,S/\n88,1,/\n88,3,015,,,/\n", 0, 3, 3, 36, 0, 0,
     {F(NAME, 3, 1), F(CURRENCY, 5, 0), F(TYPE, 6, 3), F(AMOUNT, 10, 1), F(ITEM_COUNT, 12, 0), F(FUNDS, 13, 1),
      F(SPLIT_AMOUNT, 19, 1), F(SPLIT_AMOUNT, 21, 0), F(SPLIT_AMOUNT, 26, 1), F(FURTHER_TYPE, 28, 3),
      F(STATUS_AMOUNT, 32, 0), F(NOTHING, 33, 0), F(NOTHING, 34, 0)}},
    {"funds V over 88s, the text on one", "16,165,1500,V/\n88,040621/\n88,,BANK,/\n88,TEXT\n", 0, 16, 4, 45, 0, 0,
     {F(DETAIL_TYPE, 3, 3), F(AMOUNT, 7, 4), F(FUNDS, 12, 1), F(DATE, 18, 6), F(TIME_OR_NONE, 29, 0),
      F(REFERENCE, 30, 4), F(REFERENCE, 35, 0), F(TEXT, 40, 4)}},
    {"funds D over 88s", "16,409,,D,2,0/\n88,10,1/\n88,20,,,/\n", 0, 16, 3, 34, 0, 0,
     {F(DETAIL_TYPE, 3, 3), F(AMOUNT, 7, 0), F(FUNDS, 8, 1), F(PAIR_COUNT, 10, 1), F(DAYS, 12, 1),
      F(DAY_AMOUNT, 18, 2), F(DAYS, 21, 1), F(DAY_AMOUNT, 27, 2), F(REFERENCE, 30, 0), F(REFERENCE, 31, 0),
      F(TEXT, 32, 0)}},
    {"a customised detail", "16,920,5,,,,/\n", 0, 16, 1, 14, 0, 0,
     {F(DETAIL_TYPE, 3, 3), F(AMOUNT, 7, 1), F(FUNDS, 9, 0), F(REFERENCE, 10, 0), F(REFERENCE, 11, 0),
      F(TEXT, 12, 0)}},
    {"commas and slashes in a text", "16,165,1500,1,DD1620,,RETURNED CHEQUE /, A/B/\n", 0, 16, 1, 46, 0, 0,
     {F(DETAIL_TYPE, 3, 3), F(AMOUNT, 7, 4), F(FUNDS, 12, 1), F(REFERENCE, 14, 6), F(REFERENCE, 21, 0),
      F(TEXT, 22, 23)}},
    {"no text, with blanks after it", "16,890,,,,,/   \r\n", 0, 16, 1, 17, 0, 0,
     {F(DETAIL_TYPE, 3, 3), F(NOTHING, 7, 0), F(NOTHING, 8, 0), F(REFERENCE, 9, 0), F(REFERENCE, 10, 0),
      F(TEXT, 11, 0)}},
    {"pieces over 88s", "16,165,,,,,ONE  \n88, TWO/ \r\n88,,3", 0, 16, 3, 33, 0, 0,
     {F(DETAIL_TYPE, 3, 3), F(AMOUNT, 7, 0), F(FUNDS, 8, 0), F(REFERENCE, 9, 0), F(REFERENCE, 10, 0),
      F(TEXT, 11, 3), F(FURTHER_TEXT, 20, 5), F(FURTHER_TEXT, 31, 2)}},
    {"one CR belongs to the line end", "16,165,,,,,A\r\r\n", 0, 16, 1, 15, 0, 0,
     {F(DETAIL_TYPE, 3, 3), F(AMOUNT, 7, 0), F(FUNDS, 8, 0), F(REFERENCE, 9, 0), F(REFERENCE, 10, 0),
      F(TEXT, 11, 2)}},
    {"an account's end over an 88", "49,-2000/\r\n88,3/\n", 0, 49, 2, 17, 0, 0,
     {F(TOTAL, 3, 5), F(RECORDS, 14, 1)}},
    {"a group's end", "98,1000,1,5/\n", 0, 98, 1, 13, 0, 0,
     {F(TOTAL, 3, 4), F(COUNT, 8, 1), F(RECORDS, 10, 1)}},
    {"the second record", "99,0,0,2/\n99,+1,2,3/\n16,", 10, 99, 1, 11, 0, 0,
     {F(TOTAL, 13, 2), F(COUNT, 16, 1), F(RECORDS, 18, 1)}},

    /* no record: 17, 5 */
    {"no byte", "", 0, 0, 0, 0, 17, 0, {{0}}},
    {"the end", "99,0,0,2/\n", 10, 0, 0, 0, 17, 0, {{0}}},
    {"far past the end", "99,0,0,2/\n", UINT64_MAX, 0, 0, 0, 17, 0, {{0}}},
    {"no code", "04,X/\n88,X/\n", 0, 0, 0, 0, 5, 0, {{0}}},
    {"a code without its comma", "99\n,0,0,2/\n", 0, 0, 0, 0, 5, 0, {{0}}},
    {"inside a line", "16,165,1516,,,,X\n", 1, 0, 0, 0, 5, 1, {{0}}},
    {"a line end", "49,0,2/\n49,0,2/\n", 7, 0, 0, 0, 5, 7, {{0}}},
    {"a CR before its LF", "49,0,2/\r\n49,0,2/\n", 7, 0, 0, 0, 5, 7, {{0}}},

    /* 7 */
    {"a line that ends in a field", "02,A,B,1\n", 0, 2, 1, 9, 7, 8, {{0}}},
    {"a line that ends in a comma, CR LF", "49,0,\r\n", 0, 49, 1, 7, 7, 5, {{0}}},
    {"a code alone", "03,", 0, 3, 1, 3, 7, 3, {{0}}},
    {"a byte after the slash, before what follows", "49,0,2/ x\n88,", 0, 49, 2, 13, 7, 8, {{0}}},
    {"a CR that is no line end", "49,0,2/\r", 0, 49, 1, 8, 7, 7, {{0}}},
    {"a text that begins with a slash", "16,165,,,,,/A\n", 0, 16, 1, 14, 7, 11, {{0}}},
    {"a text of blanks", "16,165,,,,,  \n", 0, 16, 1, 14, 7, 11, {{0}}},
    {"a further piece that is a slash", "16,165,,,,,A\n88,/\n", 0, 16, 2, 18, 7, 16, {{0}}},
    {"an 88 after no text, without an end", "16,165,,,,,/\n88,x\n", 0, 16, 2, 18, 7, 17, {{0}}},
    {"an 88 by itself, without an end", "16,165,,,,,A\n88,B\n88,C/ \n", 13, 88, 2, 12, 7, 17, {{0}}},

    /* 8, 9 */
    {"an 88 by itself", "16,165,,,,,A\n88,B\n88,C/ \n", 18, 88, 1, 7, 8, 21, {{0}}},
    {"an 88 after no text", "16,165,,,,,/\n88,x/\n", 0, 16, 2, 19, 8, 16, {{0}}},
    {"a code inside a line", "16,165,1516,,,,X\n", 9, 16, 1, 8, 8, 12, {{0}}},
    {"a wrong field, before the byte after its slash", "49,0,A/x", 0, 49, 1, 8, 8, 5, {{0}}},
    {"a missing field", "49,0/\n", 0, 49, 1, 6, 8, 4, {{0}}},
    {"a missing field, at the last slash", "98,0/\n88,1/\n", 0, 98, 2, 12, 8, 10, {{0}}},
    {"a text left off", "16,165,,,,/\n", 0, 16, 1, 12, 8, 10, {{0}}},
    {"a pair left off", "16,165,,D,2,1,1/\n", 0, 16, 1, 17, 8, 15, {{0}}},
    {"one field too many", "49,0,2,/\n", 0, 49, 1, 9, 8, 7, {{0}}},
    {"an amount beside an empty type", "03,A,,,5,,/\n", 0, 3, 1, 12, 8, 7, {{0}}},
    {"a field after the empty item", "03,A,,,,,,/\n", 0, 3, 1, 12, 8, 10, {{0}}},
    {"a status with a count", "03,A,,010,1,2,/\n", 0, 3, 1, 16, 8, 12, {{0}}},
    {"a customised status with a count", "03,A,,905,-1,2,/\n", 0, 3, 1, 17, 8, 13, {{0}}},
    {"a customised status with funds", "03,A,,100,,,,919,1,,0/\n", 0, 3, 1, 23, 8, 20, {{0}}},
    {"a customised summary with a minus", "03,A,,920,-1,,/\n", 0, 3, 1, 16, 8, 10, {{0}}},
    {"a customised status in a 16", "16,905,1,,,,/\n", 0, 16, 1, 14, 8, 3, {{0}}},
    {"an empty further type", "03,A,,100,,,/\n88,,,,/\n", 0, 3, 2, 22, 8, 17, {{0}}},
    {"890 with an amount", "16,890,1,,,,/\n", 0, 16, 1, 14, 8, 7, {{0}}},
    {"version 3", "01,A,B,040621,0200,1,,,3/\n", 0, 1, 1, 26, 9, 23, {{0}}},
};

/* How many fields a sample has. */
static uint64_t count_of(const sample *s)
{
    uint64_t count = 0;
    while (count < MOST_FIELDS && s->fields[count].kind != 0)
        count++;
    return count;
}

/* Whether the oracle answers about the record as the sample has it. */
static int record_holds(const sample *s)
{
    bai2_record r = oracle_record_at((const uint8_t *)s->bytes, strlen(s->bytes), s->start);
    if (r.code == s->code && r.lines == s->lines && r.length == s->length
        && (s->code != 0 ? r.number == 0 && r.place == 0 : r.number == s->number && r.place == s->place))
        return 1;
    printf("%s: the oracle says of the record %" PRIu64 " %" PRIu64 ", code %" PRIu64 ", %" PRIu64
           " lines, %" PRIu64 " bytes\n", s->what, r.number, r.place, r.code, r.lines, r.length);
    return 0;
}

/* Whether the oracle hands out the sample's fields, or refuses them. */
static int fields_hold(const sample *s)
{
    uint64_t out[3 * MOST_FIELDS], count = count_of(s);
    bai2_fields f = oracle_fields_at((const uint8_t *)s->bytes, strlen(s->bytes), s->start, out,
                                     sizeof out / sizeof *out);
    if (f.number == s->number && f.place == s->place && f.count == count
        && memcmp(out, s->fields, count * sizeof(field)) == 0)
        return 1;
    printf("%s: the oracle says of the fields %" PRIu64 " %" PRIu64 ":", s->what, f.number, f.place);
    for (uint64_t i = 0; i < f.count; i++)
        printf(" {%" PRIu64 ", %" PRIu64 ", %" PRIu64 "}", out[3 * i], out[3 * i + 1], out[3 * i + 2]);
    printf("\n");
    return 0;
}

/* Checks every sample. */
int main(void)
{
    unsigned count = sizeof samples / sizeof *samples, wrong = 0;
    for (unsigned i = 0; i < count; i++)
        wrong += !record_holds(&samples[i]) || !fields_hold(&samples[i]);
    printf("records: %u worked out by hand, %u differences\n", count, wrong);
    return wrong != 0;
}
