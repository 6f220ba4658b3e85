/* Files at the bound of 16,777,216 bytes: lines, records and groups of every size that fits; and records
   beyond it, which are handed out all the same. */
#include <inttypes.h>
#include <stdio.h>
#include <string.h>

#include "compare.h"

static guarded memory[2];
static uint64_t asked;

/* Lends a buffer as the first or second input. */
static slice lent(int which, const buffer *b)
{
    return lend(&memory[which], b->bytes, b->length);
}

/* Reads a file and holds the answer against the one that was worked out. */
static void read_as(const char *what, const buffer *b, uint64_t number, uint64_t place)
{
    slice file = lent(0, b);
    asked++;
    name_inputs(file, (slice){0});
    bai2_summary s = ask_read(file);
    printf("%s: %" PRIu64 " %" PRIu64 "\n", what, s.number, s.place);
    must_hold(what, s.number == number && s.place == place);
}

/* Adds a string again and again, as often as it fits into `length` bytes. */
static void repeat(buffer *b, const char *text, size_t length)
{
    size_t size = strlen(text);
    while (b->length + size <= length)
        add_bytes(b, text, size);
}

/* Adds a row with numbers. */
static void add_row(buffer *b, const char *form, size_t one, size_t other)
{
    char row[128];
    snprintf(row, sizeof row, form, one, other);
    add_text(b, row);
}

static const char header[] = "01,SENDER,RECEIVER,040621,0200,1,,,2/\n";
static const char group[] = "02,0087654,ORIGIN,1,040620,,,/\n03,ACCOUNT,,,,,/\n";

/* Adds the trailers of one group with so many details of 1 on so many lines. */
static void add_trailers(buffer *b, size_t details, size_t lines)
{
    add_row(b, "49,%zu,%zu/\n", details, lines + 2);
    add_row(b, "98,%zu,1,%zu/\n", details, lines + 4);
    add_row(b, "99,%zu,1,%zu/\n", details, lines + 6);
}

/* A good file of exactly `length` bytes with so many details; each line is as long as it must be. */
static void make_exact(buffer *b, size_t length, size_t details)
{
    buffer trailers = {0};
    clear(b);
    add_text(b, header);
    add_text(b, group);
    add_trailers(&trailers, details, details);
    size_t left = length - b->length - trailers.length;
    for (size_t i = 0; i < details; i++) {
        size_t line = left / details + (i < left % details);
        add_text(b, "16,165,1,,,,");
        for (size_t j = 13; j < line; j++)
            add_byte(b, j % 7 == 0 ? '/' : 'T');
        b->bytes[b->length - 1] = 'E';
        add_byte(b, '\n');
    }
    add_bytes(b, trailers.bytes, trailers.length);
    release(&trailers);
}

/* Bytes that are no file. */
static void no_files(buffer *b)
{
    clear(b);
    repeat(b, "A", LONGEST_FILE);
    read_as("16,777,216 bytes in one line", b, 3, 4096);
    add_byte(b, 'A');
    read_as("one byte more", b, 2, 0);
    clear(b);
    repeat(b, "\n", LONGEST_FILE);
    read_as("16,777,216 LFs", b, 5, 0);
    clear(b);
    repeat(b, "\r", LONGEST_FILE);
    read_as("16,777,216 CRs", b, 3, 4096);
    clear(b);
    add_text(b, header);
    b->length--;
    repeat(b, " ", LONGEST_FILE);
    read_as("a header with blanks to the end", b, 3, 4096);
    clear(b);
    repeat(b, "88,\n", LONGEST_FILE);
    read_as("leading 88s to the end", b, 6, 0);
    b->bytes[b->length - 1] = 0x7F;
    read_as("leading 88s and a bad byte at the very end", b, 4, LONGEST_FILE - 1);
}

/* A 03 that goes on over 88s to the file's end. */
static void long_account(buffer *b)
{
    size_t lines = 1;
    clear(b);
    add_text(b, header);
    add_text(b, "02,0087654,ORIGIN,1,040620,,,/\n03,ACCOUNT,,010,1,,/\n");
    for (; b->length < LONGEST_FILE - 200; lines += 3)
        add_text(b, "88,100,,,D,2/\n88,000,1/\n88,1,000000000000000002/\n");
    add_row(b, "49,%zu,%zu/\n", 1, lines + 1);
    add_row(b, "98,%zu,1,%zu/\n", 1, lines + 3);
    add_row(b, "99,%zu,1,%zu/\n", 1, lines + 5);
    read_as("an account over 88s to the end", b, 0, 0);
    slice file = lent(0, b);
    must_hold("its last item", ask_item(file, 0, 0, lines / 3).number == 0);
    must_hold("one past it", ask_item(file, 0, 0, lines / 3 + 1).number == 17);
}

/* A 16 whose text goes on over 88s to the file's end. */
static void long_text(buffer *b, const char *piece, uint64_t number, uint64_t place)
{
    size_t lines = 1;
    clear(b);
    add_text(b, header);
    add_text(b, group);
    add_text(b, "16,165,1,,,,A\n");
    for (; b->length < LONGEST_FILE - 200; lines++)
        add_text(b, piece);
    add_trailers(b, 1, lines);
    read_as("a text in 3.3 million pieces", b, number, place);
}

/* Records over very many lines. */
static void long_records(buffer *b)
{
    long_account(b);
    long_text(b, "88,,\n", 0, 0);
    /* a slash is no piece: 7 at the first 88's fourth byte, after header, 02, 03 and 14 bytes of 16 */
    long_text(b, "88,/\n", 7, sizeof header - 1 + sizeof group - 1 + 14 + 3);
}

/* Asks for the record at the file's start, with so many lines and fields: the room is just enough, then
   one number short. */
static void hand_out(const char *what, const buffer *b, uint64_t lines, size_t fields)
{
    slice file = lent(0, b);
    asked++;
    name_inputs(file, (slice){0});
    bai2_record r = ask_record(file, 0);
    bai2_fields f = ask_fields(file, 0, 3 * fields);
    printf("%s: %" PRIu64 " lines, %" PRIu64 " fields\n", what, r.lines, f.count);
    must_hold(what, r.number == 0 && r.lines == lines && r.length == b->length);
    must_hold(what, f.number == 0 && f.count == fields);
    must_hold("one number short is 15", ask_fields(file, 0, 3 * fields - 1).number == 15);
}

/* The same record with a fault at its very end: nothing is handed out. */
static void hand_nothing_out(buffer *b, const char *end, size_t fields, uint64_t number, uint64_t place)
{
    add_text(b, end);
    slice file = lent(0, b);
    asked++;
    name_inputs(file, (slice){0});
    bai2_fields f = ask_fields(file, 0, 3 * fields);
    must_hold("a fault at the end", f.number == number && f.place == place);
}

/* Records of more than 16,777,216 bytes. */
static void hand_out_records(buffer *b)
{
    static const char items[] = "88,100,,,D,2/\n88,000,1/\n88,1,000000000000000002/\n";
    size_t pieces = LONGEST_FILE / strlen("88,,\n") + 1, triples = LONGEST_FILE / strlen(items) + 1;
    clear(b);
    add_text(b, "16,165,1,,,,A\n");
    repeat(b, "88,,\n", b->length + pieces * strlen("88,,\n"));
    hand_out("a text in 3.3 million pieces", b, 1 + pieces, 6 + pieces);
    hand_nothing_out(b, "88,/", 7 + pieces, 7, b->length + 3);
    clear(b);
    add_text(b, "03,ACCOUNT,,010,1,,/\n");
    repeat(b, items, b->length + triples * strlen(items));
    hand_out("items with distributions over a million 88s", b, 1 + 3 * triples, 6 + 9 * triples);
    hand_nothing_out(b, "88,100,,,D,1,1/", 12 + 9 * triples, 8, b->length + 14);
    clear(b);
    add_text(b, "16,165,1,,,,A");
    repeat(b, "/, ", LONGEST_FILE + 1000);
    hand_out("a text of 16 MiB in one line", b, 1, 6);
}

/* Splits at the bound. */
static void big_splits(buffer *b)
{
    static const uint8_t receiver[] = "0087654";
    const slice name = {(uint8_t *)(uintptr_t)receiver, 7}, other = {(uint8_t *)(uintptr_t)receiver + 2, 5};
    make_exact(b, LONGEST_FILE, 5000);
    read_as("16,777,216 bytes, 5,000 details", b, 0, 0);
    slice file = lent(0, b);
    must_hold("split gives the file itself", ask_split(name, file, LONGEST_FILE).length == LONGEST_FILE);
    must_hold("byte for byte", memcmp(last_result(), file.bytes, file.length) == 0);
    must_hold("one short is 15", ask_split(name, file, LONGEST_FILE - 1).number == 15);
    must_hold("87654 is not 0087654", ask_split(other, file, 1000).length == sizeof header - 1 + 10);
    make_exact(b, LONGEST_FILE + 1, 5001);
    b->length--;
    read_as("16,777,216 bytes without the last LF", b, 0, 0);
    file = lent(0, b);
    must_hold("split is 18", ask_split(name, file, LONGEST_FILE + 100).number == 18);
    must_hold("18 comes before 15", ask_split(name, file, 0).number == 18);
    must_hold("for another name it is not", ask_split(other, file, LONGEST_FILE + 100).number == 0);
    make_exact(b, LONGEST_FILE, 1190000);
    read_as("16,777,216 bytes, 1,190,000 details", b, 0, 0);
    file = lent(0, b);
    must_hold("split gives it again", ask_split(name, file, LONGEST_FILE + 64).length == LONGEST_FILE);
}

/* Combines two files to a result of exactly `length` bytes; the refusal. */
static uint64_t combined(buffer *a, buffer *b, size_t length, size_t out_length)
{
    /* Header and 99 of B are dropped; A's 99 "99,3000,1,3006/" becomes "99,6000,2,6011/", as long. */
    size_t dropped = sizeof header - 1 + strlen("99,3000,1,3006/\n");
    size_t half = length / 2;
    make_exact(a, half, 3000);
    make_exact(b, length - half + dropped, 3000);
    asked++;
    slice one = lent(0, a), other = lent(1, b);
    name_inputs(one, other);
    return ask_combine(one, other, out_length).number;
}

/* Combinations at the bound. */
static void big_combinations(buffer *b)
{
    buffer a = {0};
    must_hold("16,777,216 bytes", combined(&a, b, LONGEST_FILE, LONGEST_FILE) == 0);
    must_hold("one short", combined(&a, b, LONGEST_FILE, LONGEST_FILE - 1) == 15);
    must_hold("one byte more", combined(&a, b, LONGEST_FILE + 1, LONGEST_FILE + 100) == 18);
    must_hold("18 comes before 15", combined(&a, b, LONGEST_FILE + 1, 0) == 18);
    clear(&a);
    add_text(&a, header);
    add_text(&a, "99,0,0,2/\n");
    make_exact(b, LONGEST_FILE, 5000);
    slice whole = lent(0, b), none = lent(1, &a);
    name_inputs(whole, none);
    must_hold("with a file without groups", ask_combine(whole, none, LONGEST_FILE).number == 0);
    make_exact(b, LONGEST_FILE + 1, 5001);
    b->length--;
    whole = lent(0, b);
    must_hold("the missing LF is one byte more", ask_combine(whole, none, LONGEST_FILE + 64).number == 18);
    must_hold("and the other way", ask_combine(none, whole, LONGEST_FILE + 64).number == 18);
    release(&a);
}

/* Parts near the end of a large file. */
static void big_parts(buffer *b)
{
    make_exact(b, LONGEST_FILE, 300000);
    slice file = lent(0, b);
    asked++;
    name_inputs(file, (slice){0});
    for (uint64_t detail = 299998; detail < 300002; detail++)
        ask_detail(file, 0, 0, detail);
    dice d = dice_of(1);
    ask_all_parts(&d, file);
}

/* Groups to the end, for several receivers. */
static void many_groups(buffer *b)
{
    static const char one[] = "02,A,B,1,040620,,,/\n03,C,,100,1,,/\n49,1,2/\n98,1,1,4/\n";
    static const char other[] = "02,,B,1,040620,,,/\n03,C,,010,-1,,/\n49,-1,2/\n98,-1,1,4/\n";
    const slice name = {(uint8_t *)(uintptr_t)"A", 1};
    size_t groups = 0;
    clear(b);
    add_text(b, header);
    for (; b->length < LONGEST_FILE - 200; groups += 2) {
        add_text(b, one);
        add_text(b, other);
    }
    add_row(b, "99,0,%zu,%zu/\n", groups, 4 * groups + 2);
    read_as("300,000 groups", b, 0, 0);
    slice file = lent(0, b);
    must_hold("half of them are A's",
              ask_split(name, file, LONGEST_FILE).length > (sizeof one - 1) * groups / 2);
}

/* Writers that have written almost all they may. */
static void big_writers(void)
{
    guarded out = guarded_of(LONGEST_FILE + 4096);
    const uint8_t type[] = "165", text[] = "TEXT";
    memset(out.bytes, PATTERN, out.room);
    for (uint64_t size = LONGEST_FILE - 40; size <= LONGEST_FILE + 1; size++) {
        bai2_writer w = {.size = size, .phase = 3, .file_groups = 1, .file_accounts = 1, .file_lines = 3,
                         .group_groups = 1, .group_accounts = 1, .group_lines = 2,
                         .account_accounts = 1, .account_lines = 1};
        for (size_t room = LONGEST_FILE - 20; room <= LONGEST_FILE + 20; room += 4) {
            uint8_t *end = guarded_end(&out, room);
            uint8_t by_oracle[128];
            asked++;
            bai2_written one = oracle.write_detail(w, type, 3, 1, 7, NULL, 0, NULL, 0, text, 4, end, room);
            memcpy(by_oracle, end + room - sizeof by_oracle, sizeof by_oracle);
            memset(end + room - sizeof by_oracle, PATTERN, sizeof by_oracle);
            bai2_written other = library.write_detail(w, type, 3, 1, 7, NULL, 0, NULL, 0, text, 4, end, room);
            SAME("detail at the bound", one, other);
            same_bytes("detail at the bound", by_oracle, end + room - sizeof by_oracle, sizeof by_oracle);
            memset(end + room - sizeof by_oracle, PATTERN, sizeof by_oracle);
        }
    }
}

/* Asks about everything at the bound; how many questions were asked. */
uint64_t compare_big(void)
{
    buffer b = {0};
    memory[0] = guarded_of(LONGEST_FILE + 4096);
    memory[1] = guarded_of(LONGEST_FILE + 4096);
    no_files(&b);
    long_records(&b);
    hand_out_records(&b);
    big_splits(&b);
    big_combinations(&b);
    big_parts(&b);
    many_groups(&b);
    big_writers();
    release(&b);
    return asked;
}
