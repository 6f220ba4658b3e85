/* Asks for records and fields from many starts of a file: each line, codes inside lines, anywhere, the
   end and far past it; into slices of several lengths. */
#include <ctype.h>
#include <inttypes.h>
#include <stdio.h>
#include <string.h>

#include "compare.h"

enum { SMALL = 2000, MOST_NUMBERS = LONGEST_OUTPUT / 8 };

static uint64_t asked; /* starts of this file */
static uint64_t handed[BAI2_FIELD_NOTHING + 1]; /* how often each kind of field was handed out */
static uint64_t types[2][2]; /* how many of 900 to 919, of 920 to 999 were met: in 03s, in 16s */

/* Counts a field in a type's place, which a comma or slash ends, where it is one of 900 to 999. */
static void count_type(const uint8_t *field, bool in_detail)
{
    if (field[0] == '9' && isdigit(field[1]) && isdigit(field[2]) && (field[3] == ',' || field[3] == '/'))
        types[field[1] >= '2'][in_detail]++;
}

/* Counts the fields that the oracle handed out last by their kinds, and the types among them. */
static void count_kinds(slice file, uint64_t count)
{
    const uint64_t *numbers = (const uint64_t *)(const void *)last_result();
    for (uint64_t i = 0; i < count; i++) {
        uint64_t kind = numbers[3 * i];
        handed[kind]++;
        if (kind == BAI2_FIELD_TYPE || kind == BAI2_FIELD_FURTHER_TYPE || kind == BAI2_FIELD_DETAIL_TYPE)
            count_type(file.bytes + numbers[3 * i + 1], kind == BAI2_FIELD_DETAIL_TYPE);
    }
}

/* Prints how often each kind of field was handed out. */
void print_kinds(void)
{
    printf("  kind  fields\n");
    for (size_t i = BAI2_FIELD_NAME; i <= BAI2_FIELD_NOTHING; i++)
        printf("%6zu %7" PRIu64 "\n", i, handed[i]);
}

/* Prints how many types of 900 to 999 were handed out, or refused as a 16's. */
void print_types(void)
{
    static const char *const ranges[] = {"900 to 919", "920 to 999"};
    printf("     types  in 03s  in 16s\n");
    for (size_t i = 0; i < 2; i++)
        printf("%s %7" PRIu64 " %7" PRIu64 "\n", ranges[i], types[i][0], types[i][1]);
}

/* More numbers than the record's fields take: each has a byte of its own. */
static size_t plenty(const bai2_record *r)
{
    return r->length > MOST_NUMBERS / 4 ? MOST_NUMBERS : 3 * (size_t)r->length + 12;
}

/* Asks about one start, with too many numbers, with just enough, with too few, with none. */
static void ask_start(dice *d, slice file, uint64_t start, uint64_t *numbers)
{
    bai2_record r = ask_record(file, start);
    bai2_fields f = ask_fields(file, start, plenty(&r));
    asked++;
    numbers[f.number]++;
    must_hold("both calls refuse a start alike",
              r.number == 0 ? f.number != 5 && f.number != 17 : f.number == r.number && f.place == r.place);
    numbers[ask_fields(file, start, 0).number]++;
    if (f.number == 8 && r.code == 16 && f.place == start + 3)
        count_type(file.bytes + f.place, true);
    if (f.number != 0)
        return;
    size_t exact = 3 * (size_t)f.count;
    const size_t short_ones[] = {exact - 1, exact - 2, exact - 3, (size_t)roll(d, exact)};
    for (size_t i = 0; i < sizeof short_ones / sizeof *short_ones; i++)
        must_hold("too few numbers", ask_fields(file, start, short_ones[i]).number == 15);
    must_hold("one number more", ask_fields(file, start, exact + 1).number == 0);
    must_hold("just enough", ask_fields(file, start, exact).number == 0);
    count_kinds(file, f.count);
}

/* Goes from record to record: an accepted file's are all met, and a field's fault is the reader's. */
static void meet_records(slice file, bai2_summary verdict)
{
    uint64_t met[100] = {0}, lines = 0;
    bai2_fields f = {.number = 15};
    for (uint64_t at = 0; at < file.length && f.number == 15;) {
        bai2_record r = ask_record(file, at);
        f = ask_fields(file, at, 0);
        met[r.code]++;
        lines += r.lines;
        at += r.length;
    }
    must_hold("all records of an accepted file are met",
              verdict.number != 0
                  || (f.number == 15 && lines == verdict.records && met[2] == verdict.groups
                      && met[3] == verdict.accounts && met[16] == verdict.details));
    must_hold("the first record with a fault has the reader's",
              verdict.number < 7 || verdict.number > 9
                  || (f.number == verdict.number && f.place == verdict.place));
}

/* How many of a thousand lines like the one here are worth asking about: 03s and 16s have the most
   forms, and 88s are all refused. */
static unsigned worth(slice file, size_t at)
{
    unsigned all = file.length < SMALL ? 1000 : (unsigned)(1000 * SMALL / file.length) + 1;
    switch (oracle.record_at(file.bytes, file.length, at).code) {
    case 3: case 16: return all;
    case 88: return all / 10;
    default: return all / 4;
    }
}

/* Asks about lines' starts, and near some: most in small files, fewer in large ones. */
static void ask_lines(dice *d, slice file, uint64_t *numbers)
{
    for (size_t at = 0; at < file.length;) {
        if (chance(d, worth(file, at)))
            ask_start(d, file, at, numbers);
        if (chance(d, worth(file, at) / 20))
            ask_start(d, file, at + between(d, 1, 4), numbers);
        const uint8_t *lf = memchr(file.bytes + at, '\n', file.length - at);
        at = lf == NULL ? file.length : (size_t)(lf - file.bytes) + 1;
    }
}

/* Asks where a code stands inside a line, at up to 20 commas from some place on. */
static void ask_inside(dice *d, slice file, uint64_t *numbers)
{
    size_t at = (size_t)roll(d, file.length + 1);
    for (int i = 0; i < 20 && at < file.length; i++) {
        const uint8_t *comma = memchr(file.bytes + at, ',', file.length - at);
        if (comma == NULL)
            return;
        at = (size_t)(comma - file.bytes) + 1;
        if (at > 3 && comma[-3] != '\n' && oracle.record_at(file.bytes, file.length, at - 3).number == 0)
            ask_start(d, file, at - 3, numbers);
    }
}

/* Asks anywhere, and at the end or past it. */
static void ask_anywhere(dice *d, slice file, uint64_t *numbers)
{
    const uint64_t past[] = {file.length, file.length + 1, UINT64_MAX, UINT64_MAX - between(d, 1, 4),
                             UINT64_C(1) << 63, (UINT64_C(1) << 32) + roll(d, file.length + 1)};
    for (size_t i = 0; i < 2; i++)
        ask_start(d, file, roll(d, file.length + 1), numbers);
    ask_start(d, file, past[roll(d, sizeof past / sizeof *past)], numbers);
}

/* Asks about many starts of a file on which that is the verdict; how many there were. */
uint64_t ask_starts(dice *d, slice file, bai2_summary verdict, uint64_t *numbers)
{
    asked = 0;
    meet_records(file, verdict);
    ask_lines(d, file, numbers);
    ask_inside(d, file, numbers);
    ask_anywhere(d, file, numbers);
    return asked;
}
