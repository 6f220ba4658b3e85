/* Times the library beside plain C, in one run, on files of several shapes.
     bench          16 MiB of each shape, then one shape from 1 to 16 MiB: the library's reader and the plain C reader;
                    each shape once more beside the reader of an older archive, where one is linked;
                    split and combine, each beside the library's own reading of the same files and a plain copy
                    of as many bytes as the result has; handing out all records and fields, beside the library's reading
     bench once N   1 MiB of the Nth shape, from 0 on, read once by each reader, for a tool that counts instructions; the
                    line printed has the shape's number of lines and its name. Past the last shape: nothing, and status 1
     bench file N   16 MiB of the Nth shape, as a file on standard output
   Each time is the processor time of the best of several runs, both sides in turn; both read the same bytes in the
   same memory, which was read before. A line is printed for each pair of times, its cells parted by tabs, from which
   bench/tables draws the tables: which table, its row, bytes read, bytes written or fields, seconds of both sides. */
#define _POSIX_C_SOURCE 200809L
#include <inttypes.h>
#include <pthread.h>
#include <stdio.h>
#include <stdlib.h>
#include <string.h>
#include <time.h>

#include "bai2.h"
#include "oracle.h"

enum {
    MIB = 1 << 20,
    LARGEST = 16 * MIB,
    ROOM = LARGEST + MIB, /* of every slice that is filled */
    TAIL = 200,
    RUNS = 7,
    EACH = 10000000, /* receivers: each group has its own */
    VARIED = 10,     /* digits of a varied amount, at most */
    SMALL_STACK = 64 * 1024
};

/* A file that is being made: its bytes, and what its trailers will say. */
typedef struct {
    char *bytes;
    size_t length;
    long long total, group_total, account_total;
    uint64_t random; /* from which the next varied amount is made */
    unsigned long lines, group_lines, account_lines, accounts, groups;
    unsigned long receivers; /* the groups go to so many receivers in turn */
} file;

/* A 03 whose amounts are short, and one whose amounts have leading zeros up to 18 digits; each is worth nothing. */
#define ACCOUNT "03,0975312468,USD,010,0,,,015,+100,,,040,-100,,/"
#define ZERO_ACCOUNT "03,0975312468,USD,010,000000000000000000,,,015,+000000000000000100,,,040,-000000000000000100,,/"

/* Adds one line that belongs to the open account. */
static void add_line(file *f, const char *line)
{
    size_t n = strlen(line);
    memcpy(f->bytes + f->length, line, n);
    f->length += n;
    f->bytes[f->length++] = '\n';
    f->account_lines++;
}

/* Adds a line that belongs to the file or a group, made like printf makes it. */
#define ADD(f, ...) ((f)->length += (size_t)sprintf((f)->bytes + (f)->length, __VA_ARGS__))

/* Opens a group with its first account. */
static void open_group(file *f)
{
    ADD(f, "02,%07lu,122099999,1,040620,2359,,2/\n", f->groups % f->receivers);
    f->groups++;
    f->group_total = 0;
    f->group_lines = 1;
    f->accounts = 0;
}

/* What stands in an account of each shape. */
typedef struct {
    const char *name;
    const char *account;              /* a 03 worth nothing */
    const char *front, *rest;         /* a 16, before its amount and behind it */
    const char *further;              /* an 88 after it */
    long long worth;                  /* of each 16; 0: varied amounts */
    int furthers, details, accounts;  /* 88s for a 16, 16s for an account, accounts for a group (0: one huge group) */
    int amount_digits, count_digits;  /* at least so many in 16s and trailers, filled up with zeros */
} shape;

/* The next 16's amount; varied amounts, of 1 to 10 digits, come in a sequence that is the same in every run. */
static long long next_amount(file *f, const shape *s)
{
    long long limit = 1;
    if (s->worth != 0)
        return s->worth;
    f->random = f->random * 6364136223846793005u + 1442695040888963407u;
    for (uint64_t digits = 1 + (f->random >> 32) % VARIED; digits > 0; digits--)
        limit *= 10;
    return (long long)(f->random >> 8) % limit;
}

/* Adds a 16 with its 88s. */
static void add_detail(file *f, const shape *s)
{
    long long amount = next_amount(f, s);
    f->account_total += amount;
    ADD(f, "%s%0*lld", s->front, s->amount_digits, amount);
    add_line(f, s->rest);
    for (int i = 0; i < s->furthers; i++)
        add_line(f, s->further);
}

/* Closes the account. */
static void close_account(file *f, const shape *s)
{
    ADD(f, "49,%0*lld,%0*lu/\n", s->amount_digits, f->account_total, s->count_digits, f->account_lines + 1);
    f->group_total += f->account_total;
    f->group_lines += f->account_lines + 1;
    f->accounts++;
}

/* Closes the group. */
static void close_group(file *f, const shape *s)
{
    ADD(f, "98,%0*lld,%0*lu,%0*lu/\n", s->amount_digits, f->group_total, s->count_digits, f->accounts, s->count_digits,
        f->group_lines + 1);
    f->total += f->group_total;
    f->lines += f->group_lines + 1;
}

/* Adds one account of this shape. */
static void add_account(file *f, const shape *s)
{
    f->account_lines = 0;
    f->account_total = 0;
    add_line(f, s->account);
    for (int i = 0; i < s->details; i++)
        add_detail(f, s);
    close_account(f, s);
}

/* A file of this shape of at most `size` bytes, as full as whole accounts make it, for so many receivers. */
static void make_file(file *f, const shape *s, size_t size, unsigned long receivers)
{
    *f = (file){.bytes = f->bytes, .receivers = receivers};
    ADD(f, "01,122099999,123456789,040621,0200,1,,,2/\n");
    open_group(f);
    size_t start = f->length;
    add_account(f, s);
    size_t room = f->length - start + TAIL + (size_t)(s->details * VARIED); /* another account's amounts may be longer */
    while (f->length + room < size) {
        if (s->accounts != 0 && f->accounts == (unsigned long)s->accounts) {
            close_group(f, s);
            open_group(f);
        }
        add_account(f, s);
    }
    close_group(f, s);
    ADD(f, "99,%0*lld,%0*lu,%0*lu/\n", s->amount_digits, f->total, s->count_digits, f->groups, s->count_digits, f->lines + 2);
}

/* Something to be timed, and what it is done with. */
typedef struct {
    const file *a, *b;               /* b: only for combine */
    const char *name;                /* only for split */
    uint8_t *out;
    size_t result; /* how many bytes, or fields, the last call gave */
} task;

/* A file's bytes and their number, as two arguments of a call. */
#define BYTES(f) (const uint8_t *)(f)->bytes, (f)->length

/* The plain C reader; like each of these it answers the refusal's number, 0 where there is none. */
static uint64_t plain_read(task *t)
{
    return oracle_read(BYTES(t->a)).number;
}

/* The library's reader. */
static uint64_t library_read(task *t)
{
    return bai2_read(BYTES(t->a)).number;
}

/* bai2_read of the older archive; null where none is linked. */
extern bai2_summary before_bai2_read(const uint8_t *file, size_t file_length) __attribute__((weak));

/* Its reader. */
static uint64_t before_read(task *t)
{
    return before_bai2_read(BYTES(t->a)).number;
}

/* The library's split. */
static uint64_t library_split(task *t)
{
    bai2_answer answer = bai2_split((const uint8_t *)t->name, strlen(t->name), BYTES(t->a), t->out, ROOM);
    t->result = (size_t)answer.length;
    return answer.number;
}

/* The library's combine. */
static uint64_t library_combine(task *t)
{
    bai2_combined answer = bai2_combine(BYTES(t->a), BYTES(t->b), t->out, ROOM);
    t->result = (size_t)answer.length;
    return answer.number;
}

/* The least that split or combine could do: the library's reading of its files, and a copy of so many bytes. */
static uint64_t read_and_copy(task *t)
{
    uint64_t number = bai2_read(BYTES(t->a)).number;
    size_t first = t->result < t->a->length ? t->result : t->a->length;
    memcpy(t->out, t->a->bytes, first);
    if (t->b != NULL) {
        number |= bai2_read(BYTES(t->b)).number;
        memcpy(t->out + first, t->b->bytes, t->result - first);
    }
    return number;
}

/* Handing out: all the library's records and fields, one after the other. */
static uint64_t hand_out(task *t)
{
    bai2_record r = {0};
    t->result = 0;
    for (uint64_t at = 0; at < t->a->length; at += r.length) {
        r = bai2_record_at(BYTES(t->a), at);
        bai2_fields f = bai2_fields_at(BYTES(t->a), at, (uint64_t *)(void *)t->out, ROOM / sizeof(uint64_t));
        t->result += (size_t)f.count;
        if (r.number + f.number != 0)
            return r.number + f.number;
    }
    return 0;
}

typedef uint64_t call(task *t);

/* The processor time of one run, in seconds; ends the program where the call is refused. */
static double time_of(task *t, call *run)
{
    struct timespec from, to;
    clock_gettime(CLOCK_THREAD_CPUTIME_ID, &from);
    uint64_t number = run(t);
    clock_gettime(CLOCK_THREAD_CPUTIME_ID, &to);
    if (number != 0) {
        fprintf(stderr, "refused %" PRIu64 "\n", number);
        exit(1);
    }
    return (double)(to.tv_sec - from.tv_sec) + 1e-9 * (double)(to.tv_nsec - from.tv_nsec);
}

/* The best times of two calls, run in turn several times. */
static void best_times(task *t, call *first, call *second, double best[2])
{
    best[0] = best[1] = 1e9;
    for (int i = 0; i < RUNS; i++) {
        double one = time_of(t, first), other = time_of(t, second);
        best[0] = one < best[0] ? one : best[0];
        best[1] = other < best[1] ? other : best[1];
    }
}

/* One line: the best times of two calls, and how much they read and gave. */
static void measure(const char *table, const char *row, task *t, call *first, call *second)
{
    double best[2];
    size_t in = t->a->length + (t->b == NULL ? 0 : t->b->length);
    best_times(t, first, second, best);
    printf("%s\t%s\t%zu\t%zu\t%.9f\t%.9f\n", table, row, in, t->result, best[0], best[1]);
    fflush(stdout);
}

/* Split or combine of this shape, beside reading and copying; it is run once before, so that its length is known. */
static void measure_call(const char *name, const shape *s, task *t, call *run)
{
    char row[100];
    snprintf(row, sizeof row, "%s, %s", name, s->name);
    time_of(t, run);
    measure("joins", row, t, read_and_copy, run);
}

/* Split and combine on files of this shape. */
static void measure_calls(const shape *s, file *a, file *b, uint8_t *out)
{
    make_file(a, s, LARGEST - TAIL, 2);
    measure_call("split, half of the groups", s, &(task){.a = a, .name = "0000000", .out = out}, library_split);
    make_file(a, s, LARGEST - TAIL, 1);
    measure_call("split, all groups", s, &(task){.a = a, .name = "0000000", .out = out}, library_split);
    make_file(a, s, LARGEST / 2, EACH);
    make_file(b, s, LARGEST / 2, EACH);
    measure_call("combine of two", s, &(task){.a = a, .b = b, .out = out}, library_combine);
}

/* Reads the file on a thread with a small stack. */
static void *read_it(void *f)
{
    bai2_read((const uint8_t *)((file *)f)->bytes, ((file *)f)->length);
    return NULL;
}

/* Says that a stack of 64 KiB suffices; a larger need would end the program. */
static void small_stack(file *f)
{
    pthread_t thread;
    pthread_attr_t attributes;
    pthread_attr_init(&attributes);
    if (pthread_attr_setstacksize(&attributes, SMALL_STACK) != 0 || pthread_create(&thread, &attributes, read_it, f) != 0) {
        fprintf(stderr, "no thread with a stack of 64 KiB can be had here\n");
        return;
    }
    pthread_join(thread, NULL);
    printf("stack\n");
}

/* The library's reader beside plain C, beside the older archive and beside handing out, on 16 MiB of each shape. */
static void measure_shapes(const shape *shapes, size_t count, file *f, uint8_t *out)
{
    for (size_t i = 0; i < count; i++) {
        make_file(f, &shapes[i], LARGEST, EACH);
        measure("shapes", shapes[i].name, &(task){.a = f}, plain_read, library_read);
        if (before_bai2_read != NULL)
            measure("before", shapes[i].name, &(task){.a = f}, before_read, library_read);
        measure("hands", shapes[i].name, &(task){.a = f, .out = out}, library_read, hand_out);
    }
}

/* Both readers on one shape from 1 to 16 MiB. */
static void measure_sizes(const shape *s, file *f)
{
    for (int size = 1; size <= 16; size *= 2) {
        char row[20];
        snprintf(row, sizeof row, "%d MiB", size);
        make_file(f, s, (size_t)size * MIB, EACH);
        measure("sizes", row, &(task){.a = f}, plain_read, library_read);
    }
}

/* All times, over two files and a slice for results. */
static void measure_all(const shape *shapes, size_t count, file *a, file *b, uint8_t *out)
{
    measure_shapes(shapes, count, a, out);
    small_stack(a);
    measure_sizes(&shapes[1], a);
    for (size_t i = 0; i < 3; i++)
        measure_calls(&shapes[i], a, b, out);
}

/* One MiB of this shape, read once by each reader. */
static int read_once(const shape *s, file *f)
{
    make_file(f, s, MIB, EACH);
    task t = {.a = f};
    printf("%lu %s\n", f->lines + 2, s->name);
    return plain_read(&t) != 0 || library_read(&t) != 0 || (before_bai2_read != NULL && before_read(&t) != 0);
}

/* Writes a file of 16 MiB of this shape to standard output. */
static int write_shape(const shape *s, file *f)
{
    make_file(f, s, LARGEST, EACH);
    return fwrite(f->bytes, 1, f->length, stdout) == f->length ? 0 : 1;
}

/* Makes the shapes and prints the times, or does something with one shape. */
int main(int argc, char **argv)
{
    static char text[3990];
    memset(text, 'T', sizeof text - 1);
    memcpy(text, ",Z,B,C,", 7);
    const shape shapes[] = {
        {"many short lines", ACCOUNT, "16,165,", ",,,,/", "", 1500, 0, 50, 20, 1, 1},
        {"usual lines", ACCOUNT, "16,165,", ",1,DD1620,,DEALER PAYMENTS", "", 1500, 0, 20, 20, 1, 1},
        {"long texts", ACCOUNT, "16,165,", text, "", 1500, 0, 10, 20, 1, 1},
        {"many 88s", ACCOUNT, "16,165,", ",1,DD1620,,DEALER PAYMENTS", "88,AND A FURTHER PIECE OF TEXT", 1500, 10, 20, 20, 1, 1},
        {"one huge group", ACCOUNT, "16,475,", ",V,040620,2359,DD1620,REF 12,CHEQUE /77", "", 1500, 0, 1000, 0, 1, 1},
        {"varied amounts", ACCOUNT, "16,165,", ",,,,/", "", 0, 0, 50, 20, 1, 1},
        {"varied amounts, 12 digits", ACCOUNT, "16,165,", ",,,,/", "", 0, 0, 50, 20, 12, 1},
        {"accounts alone", ACCOUNT, "", "", "", 1, 0, 0, 20, 1, 1},
        {"15 leading zeros", ZERO_ACCOUNT, "16,165,", ",,,,/", "", 150, 0, 50, 20, 18, 9},
        {"varied amounts, 18 digits", ZERO_ACCOUNT, "16,165,", ",,,,/", "", 0, 0, 50, 20, 18, 9},
        {"accounts alone, 18 digits", ZERO_ACCOUNT, "", "", "", 1, 0, 0, 20, 18, 9},
    };
    const size_t count = sizeof shapes / sizeof *shapes;
    file a = {.bytes = malloc(ROOM)}, b = {.bytes = malloc(ROOM)};
    uint8_t *out = malloc(ROOM);
    if (a.bytes == NULL || b.bytes == NULL || out == NULL)
        return 1;
    int status = 0;
    unsigned long which = argc == 3 ? strtoul(argv[2], NULL, 10) : 0;
    if (argc == 3)
        status = which >= count ? 1 : (strcmp(argv[1], "once") == 0 ? read_once : write_shape)(&shapes[which], &a);
    else
        measure_all(shapes, count, &a, &b, out);
    free(a.bytes);
    free(b.bytes);
    free(out);
    return status;
}
