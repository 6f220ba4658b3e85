/* Asks the oracle and the library the same, and ends the program at the first difference. */
#define _DEFAULT_SOURCE
#include <fcntl.h>
#include <inttypes.h>
#include <signal.h>
#include <stdio.h>
#include <stdlib.h>
#include <string.h>
#include <unistd.h>

#include "compare.h"
#include "oracle.h"

const side oracle = {
    oracle_read, oracle_group, oracle_account, oracle_detail_of, oracle_item_of, oracle_record_at,
    oracle_fields_at, oracle_code_of, oracle_split, oracle_combine,
    oracle_writer_new, oracle_write_header, oracle_write_group, oracle_write_account,
    oracle_write_item, oracle_write_detail, oracle_write_end_account, oracle_write_end_group,
    oracle_write_end_file};

const side library = {
    bai2_read, bai2_group, bai2_account, bai2_detail_of, bai2_item_of, bai2_record_at,
    bai2_fields_at, bai2_code_of, bai2_split, bai2_combine,
    bai2_writer_new, bai2_write_header, bai2_write_group, bai2_write_account,
    bai2_write_item, bai2_write_detail, bai2_write_end_account, bai2_write_end_group,
    bai2_write_end_file};

static char question[128], first_path[512], second_path[512];
static slice inputs[2];
static guarded outputs[2];

/* Writes an input where it can be found again. Only calls that a signal handler may make. */
static void keep(const char *path, slice input)
{
    if (path[0] == '\0' || input.bytes == NULL)
        return;
    int file = open(path, O_WRONLY | O_CREAT | O_TRUNC, 0666);
    if (file < 0)
        return;
    for (size_t done = 0; done < input.length;) {
        ssize_t more = write(file, input.bytes + done, input.length - done);
        if (more <= 0)
            break;
        done += (size_t)more;
    }
    close(file);
}

/* Keeps the inputs and ends the program. */
static void give_up(void)
{
    fflush(stdout);
    keep(first_path, inputs[0]);
    keep(second_path, inputs[1]);
    exit(1);
}

/* A call read or wrote where it may not: says so, keeps the inputs, ends. */
static void on_crash(int number)
{
    static const char words[] = ": crashed\n";
    (void)number;
    keep(first_path, inputs[0]);
    keep(second_path, inputs[1]);
    if (write(STDOUT_FILENO, question, strlen(question)) < 0
        || write(STDOUT_FILENO, words, sizeof words - 1) < 0)
        _exit(2);
    _exit(1);
}

/* Has a call that crashes told. */
void catch_crashes(void)
{
    signal(SIGSEGV, on_crash);
    signal(SIGBUS, on_crash);
}

/* Notes which file is asked about, and where it would be kept. */
void name_question(const char *mode, uint64_t seed, uint64_t index, const char *corpus)
{
    snprintf(question, sizeof question, "compare %s: seed %" PRIu64 ", file %" PRIu64, mode, seed, index);
    first_path[0] = second_path[0] = '\0';
    if (corpus != NULL) {
        snprintf(first_path, sizeof first_path, "%s/%s-%" PRIu64 "-%" PRIu64 ".bai", corpus, mode, seed,
                 index);
        snprintf(second_path, sizeof second_path, "%s/%s-%" PRIu64 "-%" PRIu64 "-b.bai", corpus, mode,
                 seed, index);
    }
}

/* Notes which code is asked about; nothing would be kept. */
void name_code(uint64_t seed, uint64_t code)
{
    snprintf(question, sizeof question, "compare codes: seed %" PRIu64 ", code %" PRIu64, seed, code);
}

/* Notes the inputs that would be kept. */
void name_inputs(slice first, slice second)
{
    inputs[0] = first;
    inputs[1] = second;
}

/* Prints one side's figures. */
static void print_figures(const char *who, const uint64_t *figures, size_t count)
{
    printf("%s", who);
    for (size_t i = 0; i < count; i++)
        printf(" %" PRId64, (int64_t)figures[i]);
}

/* Ends the program where two answers differ. */
void same_figures(const char *call, const void *by_oracle, const void *by_library, size_t count)
{
    if (memcmp(by_oracle, by_library, count * sizeof(uint64_t)) == 0)
        return;
    printf("%s: %s: ", question, call);
    print_figures("oracle", by_oracle, count);
    print_figures(", library", by_library, count);
    printf("\n");
    give_up();
}

/* Ends the program where two outputs, which start with a fringe, differ. */
void same_bytes(const char *call, const uint8_t *by_oracle, const uint8_t *by_library, size_t length)
{
    if (length == 0 || memcmp(by_oracle, by_library, length) == 0)
        return;
    size_t at = 0;
    while (by_oracle[at] == by_library[at])
        at++;
    printf("%s: %s: output byte %td: oracle %02x, library %02x\n", question, call,
           (ptrdiff_t)at - FRINGE, by_oracle[at], by_library[at]);
    give_up();
}

/* Ends the program where a fact does not hold of the oracle. */
void must_hold(const char *fact, int holds)
{
    if (holds)
        return;
    printf("%s: does not hold of the oracle: %s\n", question, fact);
    give_up();
}

/* Copies bytes so that they end at an unreadable page; no bytes are NULL. */
slice lend(const guarded *g, const uint8_t *bytes, size_t length)
{
    if (length == 0)
        return (slice){NULL, 0};
    slice lent = {guarded_end(g, length), length};
    memcpy(lent.bytes, bytes, length);
    return lent;
}

/* Asks both to read a file; the oracle's answer. */
bai2_summary ask_read(slice file)
{
    bai2_summary one = oracle.read(file.bytes, file.length);
    bai2_summary other = library.read(file.bytes, file.length);
    SAME("read", one, other);
    return one;
}

/* Asks both for a group; the oracle's answer. */
static bai2_part ask_group(slice file, uint64_t group)
{
    bai2_part one = oracle.group(file.bytes, file.length, group);
    bai2_part other = library.group(file.bytes, file.length, group);
    SAME("group", one, other);
    return one;
}

/* Asks both for an account; the oracle's answer. */
static bai2_part ask_account(slice file, uint64_t group, uint64_t account)
{
    bai2_part one = oracle.account(file.bytes, file.length, group, account);
    bai2_part other = library.account(file.bytes, file.length, group, account);
    SAME("account", one, other);
    return one;
}

/* Asks both for a detail; the oracle's answer. */
bai2_detail ask_detail(slice file, uint64_t group, uint64_t account, uint64_t detail)
{
    bai2_detail one = oracle.detail_of(file.bytes, file.length, group, account, detail);
    bai2_detail other = library.detail_of(file.bytes, file.length, group, account, detail);
    SAME("detail", one, other);
    return one;
}

/* Asks both for an item; the oracle's answer. */
bai2_item ask_item(slice file, uint64_t group, uint64_t account, uint64_t item)
{
    bai2_item one = oracle.item_of(file.bytes, file.length, group, account, item);
    bai2_item other = library.item_of(file.bytes, file.length, group, account, item);
    SAME("item", one, other);
    return one;
}

/* Whether a part of that number is worth asking for: all in small files, some in large ones. */
static int worth_asking(dice *d, slice file, uint64_t number)
{
    return file.length < 3000 || number == 0 || chance(d, file.length < 30000 ? 100 : 10);
}

/* Asks for every account of a group, every detail and item of an account, and one past each. */
static void ask_accounts(dice *d, slice file, uint64_t group)
{
    for (uint64_t account = 0;; account++) {
        if (!worth_asking(d, file, account))
            break;
        int there = ask_account(file, group, account).number == 0;
        uint64_t detail = 0, item = 0;
        while (ask_detail(file, group, account, detail).number == 0 && worth_asking(d, file, detail))
            detail++;
        while (ask_item(file, group, account, item).number == 0 && worth_asking(d, file, item))
            item++;
        if (!there)
            break;
    }
    ask_account(file, group, UINT64_MAX);
    ask_detail(file, group, 0, UINT64_MAX);
    ask_item(file, group, 0, UINT64_MAX);
}

/* Asks both for parts of every number, and one past. */
void ask_all_parts(dice *d, slice file)
{
    for (uint64_t group = 0;; group++) {
        int there = ask_group(file, group).number == 0;
        if (worth_asking(d, file, group))
            ask_accounts(d, file, group);
        if (!there)
            break;
    }
    ask_group(file, UINT64_MAX);
    ask_account(file, UINT64_MAX, 0);
    ask_detail(file, UINT64_MAX, UINT64_MAX, UINT64_MAX);
    ask_item(file, UINT64_MAX, UINT64_MAX, UINT64_MAX);
}

/* Two output slices of that length, filled with the pattern, with a fringe in front. */
static void fresh_outputs(size_t length, uint8_t **one, uint8_t **other)
{
    if (outputs[0].bytes == NULL) {
        outputs[0] = guarded_of(LONGEST_OUTPUT + FRINGE);
        outputs[1] = guarded_of(LONGEST_OUTPUT + FRINGE);
    }
    *one = guarded_end(&outputs[0], length);
    *other = guarded_end(&outputs[1], length);
    memset(*one - FRINGE, PATTERN, length + FRINGE);
    memset(*other - FRINGE, PATTERN, length + FRINGE);
}

/* Compares two output slices with their fringes; the oracle's bytes after `used` must be untouched. */
static void same_outputs(const char *call, const uint8_t *one, const uint8_t *other, size_t length,
                         size_t used)
{
    same_bytes(call, one - FRINGE, other - FRINGE, length + FRINGE);
    for (size_t i = used; i < length; i++)
        must_hold("bytes after the result stay", one[i] == PATTERN);
}

static const uint8_t *result;

/* Where the oracle's last split, combination or fields stand. */
const uint8_t *last_result(void)
{
    return result;
}

/* Asks both to split a file; the oracle's answer. */
bai2_answer ask_split(slice name, slice file, size_t out_length)
{
    uint8_t *one_out, *other_out;
    fresh_outputs(out_length, &one_out, &other_out);
    bai2_answer one = oracle.split(name.bytes, name.length, file.bytes, file.length, one_out, out_length);
    bai2_answer other =
        library.split(name.bytes, name.length, file.bytes, file.length, other_out, out_length);
    SAME("split", one, other);
    same_outputs("split", one_out, other_out, out_length, (size_t)one.length);
    result = one_out;
    return one;
}

/* Asks both to combine two files; the oracle's answer. */
bai2_combined ask_combine(slice a, slice b, size_t out_length)
{
    uint8_t *one_out, *other_out;
    fresh_outputs(out_length, &one_out, &other_out);
    bai2_combined one = oracle.combine(a.bytes, a.length, b.bytes, b.length, one_out, out_length);
    bai2_combined other = library.combine(a.bytes, a.length, b.bytes, b.length, other_out, out_length);
    SAME("combine", one, other);
    same_outputs("combine", one_out, other_out, out_length, (size_t)one.length);
    result = one_out;
    return one;
}

/* Asks both for a record; the oracle's answer. */
bai2_record ask_record(slice file, uint64_t start)
{
    bai2_record one = oracle.record_at(file.bytes, file.length, start);
    bai2_record other = library.record_at(file.bytes, file.length, start);
    SAME("record", one, other);
    return one;
}

/* Asks both for a record's fields, into so many numbers; none are NULL. The oracle's answer. */
bai2_fields ask_fields(slice file, uint64_t start, size_t out_length)
{
    uint8_t *one_out, *other_out;
    fresh_outputs(out_length * sizeof(uint64_t), &one_out, &other_out);
    uint64_t *one_numbers = out_length == 0 ? NULL : (uint64_t *)(void *)one_out;
    uint64_t *other_numbers = out_length == 0 ? NULL : (uint64_t *)(void *)other_out;
    bai2_fields one = oracle.fields_at(file.bytes, file.length, start, one_numbers, out_length);
    bai2_fields other = library.fields_at(file.bytes, file.length, start, other_numbers, out_length);
    SAME("fields", one, other);
    same_outputs("fields", one_out, other_out, out_length * sizeof(uint64_t),
                 3 * (size_t)one.count * sizeof(uint64_t));
    result = one_out;
    return one;
}

/* Asks both about a type code; the oracle's answer. */
bai2_code ask_code(uint64_t code)
{
    bai2_code one = oracle.code_of(code);
    bai2_code other = library.code_of(code);
    SAME("code", one, other);
    return one;
}
