/* The harness: asks the oracle and the library the same about generated files, and about type codes.
     compare read|customised|split|combine|parts|writer|amounts|records|codes N SEED [CORPUS]
     compare big [CORPUS]
     compare files FILE...
   At the first difference it prints one line, keeps the input in the folder CORPUS, and ends with
   status 1. Otherwise the last line says how many files, details and items, starts of records or
   numbers were asked about. */
#include <inttypes.h>
#include <stdio.h>
#include <stdlib.h>
#include <string.h>

#include "compare.h"

enum { NUMBERS = 21, HUGE = 1 << 22, LONGEST_TRAILER = 64 /* no fresh 99 has more bytes */ };

static guarded file_memory[2], name_memory;
static buffer made;
static bai2_summary verdict; /* on the file generated last */
static uint64_t numbers[NUMBERS]; /* how often each refusal was given; 0 is accepted */

/* A generated file in guarded memory, read by both; a good one must be accepted. */
static slice some_file(dice *d, int which, unsigned good_of_thousand)
{
    bool good = chance(d, good_of_thousand);
    if (good)
        generate_good(d, &made);
    else
        good = generate_any(d, &made);
    slice file = lend(&file_memory[which], made.bytes, made.length);
    name_inputs(file, (slice){0});
    verdict = ask_read(file);
    must_hold("a good file is accepted", !good || verdict.number == 0);
    return file;
}

/* Reads one file. */
static void compare_read(dice *d)
{
    some_file(d, 0, 0);
    numbers[verdict.number]++;
}

/* Reads one file with many types of 890 to 930, and asks for its records and fields; only the answers
   to reading are counted. */
static void compare_customised(dice *d)
{
    uint64_t of_starts[NUMBERS] = {0};
    d->customised = true;
    slice file = some_file(d, 0, 0);
    numbers[verdict.number]++;
    ask_starts(d, file, verdict, of_starts);
}

/* Asks for parts of one file. */
static void compare_parts(dice *d)
{
    slice file = some_file(d, 0, 700);
    numbers[verdict.number]++;
    ask_all_parts(d, file);
}

/* Asks for records and fields of one file, mostly with damage in many of them; how many starts were
   asked about. */
static uint64_t compare_starts(dice *d)
{
    slice file = some_file(d, 0, 300);
    if (chance(d, 600) && made.length < HUGE) {
        damage_fields(d, &made);
        file = lend(&file_memory[0], made.bytes, made.length);
        name_inputs(file, (slice){0});
        verdict = ask_read(file);
    }
    return ask_starts(d, file, verdict, numbers);
}

/* A name to ask for: mostly a receiver, else one of the lengths and bytes that matter. */
static slice some_name(dice *d)
{
    static const size_t lengths[] = {0, 1, 76, 77, 200};
    static const uint8_t bytes[] = {',', '/', 0x1F, 0x7F, 0x80, 0x00, '\n', '\r'};
    buffer name = {0};
    size_t sort = (size_t)roll(d, 100);
    if (sort < 70)
        generate_receiver(d, &name);
    else
        generate_name(d, &name, sort < 85 ? lengths[roll(d, 5)] : between(d, 1, 76));
    if (sort >= 92 && name.length > 0)
        name.bytes[roll(d, name.length)] = bytes[roll(d, sizeof bytes)];
    slice lent = lend(&name_memory, name.bytes, name.length);
    release(&name);
    return lent;
}

/* Room for the result of a call on so many bytes; small where the call is sure to be refused. */
static size_t ample(size_t length)
{
    return length > HUGE ? 1000 : length + 100;
}

/* Reads the last result back. */
static void read_back(size_t length)
{
    clear(&made);
    add_bytes(&made, last_result(), length);
    slice file = lend(&file_memory[0], made.bytes, made.length);
    name_inputs(file, (slice){0});
    bai2_summary s = ask_read(file);
    must_hold("a result is accepted", s.number == 0);
}

/* Splits a file for the receiver of each of its groups. */
static void split_for_each_group(slice file)
{
    bai2_part group;
    for (uint64_t i = 0; (group = oracle.group(file.bytes, file.length, i)).number == 0; i++) {
        const uint8_t *receiver = file.bytes + group.start + 3;
        slice name = lend(&name_memory, receiver, strcspn((const char *)receiver, ",/"));
        name_inputs(file, name);
        numbers[ask_split(name, file, ample(file.length)).number]++;
    }
}

/* Splits one file for some names, into slices of several lengths. */
static void compare_split(dice *d)
{
    slice file = some_file(d, 0, 700);
    buffer copy = {0};
    add_bytes(&copy, file.bytes, file.length);
    for (int i = 0; i < 4; i++) {
        slice name = some_name(d);
        file = lend(&file_memory[0], copy.bytes, copy.length);
        name_inputs(file, name);
        bai2_answer a = ask_split(name, file, ample(file.length));
        numbers[a.number]++;
        ask_split(name, file, 0);
        if (a.number != 0)
            continue;
        ask_split(name, file, (size_t)a.length - 1);
        ask_split(name, file, (size_t)roll(d, a.length));
        ask_split(name, file, (size_t)a.length);
        read_back((size_t)a.length);
        ask_split(name, file, file.length + LONGEST_TRAILER - 1); /* barely not enough for whatever the file holds */
        ask_split(name, file, file.length + LONGEST_TRAILER);
    }
    split_for_each_group(lend(&file_memory[0], copy.bytes, copy.length));
    release(&copy);
}

/* Combines two files, into slices of several lengths. */
static void compare_combine(dice *d)
{
    slice a = some_file(d, 0, 800), b = some_file(d, 1, 800);
    name_inputs(a, b);
    bai2_combined c = ask_combine(a, b, ample(a.length) + ample(b.length));
    numbers[c.number]++;
    ask_combine(a, b, 0);
    if (c.number != 0)
        return;
    ask_combine(a, b, (size_t)c.length - 1);
    ask_combine(a, b, (size_t)roll(d, c.length));
    ask_combine(a, b, (size_t)c.length);
    read_back((size_t)c.length);
}

/* Lets both write one file. */
static void compare_one_writer(dice *d)
{
    name_inputs((slice){0}, (slice){0});
    compare_writer(d, numbers);
}

/* Prints how often each refusal was given. */
static void print_numbers(void)
{
    uint64_t all = 0;
    for (size_t i = 0; i < NUMBERS; i++)
        all += numbers[i];
    printf("number   times   of all\n");
    for (size_t i = 0; i < NUMBERS && all > 0; i++)
        if (numbers[i] > 0)
            printf("%6zu %7" PRIu64 "   %5.2f%%\n", i, numbers[i],
                   100.0 * (double)numbers[i] / (double)all);
    printf("   all %7" PRIu64 "\n", all);
}

/* Prints how many customised types there were, and how often each refusal was given. */
static void print_customised(void)
{
    print_types();
    print_numbers();
}

/* A mode that asks about generated files one by one. */
typedef struct {
    const char *name;
    void (*compare)(dice *);
    void (*print)(void); /* prints what was counted */
} mode;

static const mode modes[] = {
    {"read", compare_read, print_numbers}, {"customised", compare_customised, print_customised},
    {"split", compare_split, print_numbers}, {"combine", compare_combine, print_numbers},
    {"parts", compare_parts, print_numbers}, {"writer", compare_one_writer, print_numbers}};

/* The random numbers for one file of a mode; notes which file it is. */
static dice dice_for(const char *name, uint64_t seed, uint64_t index, const char *corpus)
{
    name_question(name, seed, index, corpus);
    return dice_of(seed * UINT64_C(1000003) + index);
}

/* Compares N generated files in one mode. */
static int compare_many(const mode *m, uint64_t count, uint64_t seed, const char *corpus)
{
    for (uint64_t i = 0; i < count; i++) {
        dice d = dice_for(m->name, seed, i, corpus);
        m->compare(&d);
    }
    m->print();
    printf("compare %s: %" PRIu64 " files, 0 differences\n", m->name, count);
    return 0;
}

/* Compares at least N details and N items that are told, of generated files with amounts of every form. */
static int compare_amounts(uint64_t count, uint64_t seed, const char *corpus)
{
    told all = {0};
    for (uint64_t i = 0; all.details < count || all.items < count; i++) {
        dice d = dice_for("amounts", seed, i, corpus);
        d.amounts = true;
        told more = ask_amounts(&d, some_file(&d, 0, 700));
        numbers[verdict.number]++;
        all.details += more.details;
        all.items += more.items;
    }
    print_forms();
    print_numbers();
    printf("compare amounts: %" PRIu64 " details, %" PRIu64 " items, 0 differences\n", all.details, all.items);
    return 0;
}

/* Compares records and fields from at least N starts of generated files. */
static int compare_records(uint64_t count, uint64_t seed, const char *corpus)
{
    uint64_t starts = 0;
    for (uint64_t i = 0; starts < count; i++) {
        dice d = dice_for("records", seed, i, corpus);
        starts += compare_starts(&d);
    }
    print_kinds();
    print_numbers();
    printf("compare records: %" PRIu64 " starts, 0 differences\n", starts);
    return 0;
}

/* Compares a file that a path names. */
static void compare_file(const char *path, uint64_t index)
{
    uint8_t block[4096];
    FILE *file = fopen(path, "rb");
    if (file == NULL) {
        perror(path);
        exit(2);
    }
    clear(&made);
    for (size_t got; (got = fread(block, 1, sizeof block, file)) > 0;)
        add_bytes(&made, block, got);
    fclose(file);
    name_question("files", 0, index, NULL);
    dice d = dice_of(index);
    slice lent = lend(&file_memory[0], made.bytes, made.length);
    ask_starts(&d, lent, ask_read(lent), numbers);
    ask_all_parts(&d, lent);
    for (int i = 0; i < 30; i++)
        ask_split(some_name(&d), lent, ample(lent.length));
    ask_combine(lent, lent, 2 * ample(lent.length));
}

/* Compares the files that the paths name. */
static int compare_files(int count, char **paths)
{
    for (int i = 0; i < count; i++)
        compare_file(paths[i], (uint64_t)i);
    printf("compare files: %d files, 0 differences\n", count);
    return 0;
}

/* Says how to call the program. */
static int usage(void)
{
    fputs("usage: compare read|customised|split|combine|parts|writer|amounts|records|codes N SEED [CORPUS]\n"
          "       compare big [CORPUS]\n"
          "       compare files FILE...\n", stderr);
    return 2;
}

/* Chooses the mode. */
int main(int count, char **arguments)
{
    file_memory[0] = guarded_of(LONGEST_FILE + 4096);
    file_memory[1] = guarded_of(LONGEST_FILE + 4096);
    name_memory = guarded_of(4096);
    catch_crashes();
    if (count >= 3 && strcmp(arguments[1], "files") == 0)
        return compare_files(count - 2, arguments + 2);
    if (count >= 2 && count <= 3 && strcmp(arguments[1], "big") == 0) {
        name_question("big", 0, 0, count == 3 ? arguments[2] : NULL);
        printf("compare big: %" PRIu64 " files, 0 differences\n", compare_big());
        return 0;
    }
    if (count != 4 && count != 5)
        return usage();
    uint64_t asked = strtoull(arguments[2], NULL, 10), seed = strtoull(arguments[3], NULL, 10);
    const char *corpus = count == 5 ? arguments[4] : NULL;
    if (strcmp(arguments[1], "amounts") == 0)
        return compare_amounts(asked, seed, corpus);
    if (strcmp(arguments[1], "records") == 0)
        return compare_records(asked, seed, corpus);
    if (strcmp(arguments[1], "codes") == 0)
        return compare_codes(asked, seed);
    for (size_t i = 0; i < sizeof modes / sizeof *modes; i++)
        if (strcmp(arguments[1], modes[i].name) == 0)
            return compare_many(&modes[i], asked, seed, corpus);
    return usage();
}
