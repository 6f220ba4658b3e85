/* Lets the oracle and the library write the same file call by call: in and out of turn, good and bad
   fields, made-up writers, slices of every length; and reads the finished file back. */
#include <string.h>

#include "compare.h"

#define GREATEST INT64_C(999999999999999999)

enum { FIELDS = 7, SAMPLES = 14, LONGEST_FIELD = 4096, ROOM = 1 << 15, LONGEST_WALK = 80 };

typedef enum {
    HEADER, GROUP, ACCOUNT, ITEM, A_DETAIL, END_ACCOUNT, END_GROUP, END_FILE, CALLS
} call_kind;

/* One call of the writer. */
typedef struct {
    call_kind kind;
    slice fields[FIELDS];
    uint64_t item_given, amount_given, count_given, count;
    int64_t amount;
} call;

/* Some strings that a field of one kind may and may not hold. */
typedef struct {
    const char *good[SAMPLES], *bad[SAMPLES];
} samples;

#define NAME_76 "0123456789 123456789 123456789 123456789 123456789 123456789 123456789 12345"

static const samples names = {
    {"122099999", "A", " ", "0087654", "87654", NAME_76},
    {"", NAME_76 "6", "A,B", "A/B", "A\x1F", "\x7F" "A", "\x80", "A\n", "A\r"}};
static const samples optional_names = {
    {"", "122099999", "A", " ", "0087654", NAME_76},
    {NAME_76 "6", "A,B", "/", ",", "A\x1F", "\x7F" "A", "\x80"}};
static const samples dates = {
    {"040621", "040229", "000229", "991231", "040131"},
    {"050229", "04062", "0406211", "", "O40621", "041301", "040600", "040431", "04,621", "040001"}};
static const samples times = {
    {"0200", "2400", "9999", "0000", "2359"},
    {"2401", "1260", "", "200", "02000", "9998", "2:00"}};
static const samples optional_times = {
    {"", "0200", "2400", "9999", "0000"}, {"2401", "1260", " ", "200", "02000", "9998"}};
static const samples file_numbers = {
    {"1", "000000001", "999999999", "0"}, {"", "0000000001", "A", "-1", " 1", "1/"}};
static const samples statuses = {{"1", "2", "3", "4"}, {"0", "5", "", "11", "A"}};
static const samples modifiers = {{"", "1", "2", "3", "4"}, {"0", "5", "12", " "}};
static const samples currencies = {{"", "USD", "CAD"}, {"US", "usd", "USDX", "U/D", "   ", "AZ[", "@AZ"}};
static const samples item_types = {
    {"010", "001", "099", "100", "400", "101", "399", "401", "799", "900", "905", "919", "920", "999"},
    {"000", "890", "800", "899", "10", "0100", "", "A10", "+10"}};
static const samples detail_types = {
    {"101", "165", "399", "401", "799", "920", "999", "890", "409"},
    {"010", "099", "100", "400", "900", "905", "919", "000", "800", "891", "", "16"}};
static const samples texts = {
    {"", "DEALER PAYMENTS", "A/B, C", ",A", " A", "A/", "~", NAME_76},
    {"/", "/A", "A ", " ", NAME_76 "6", "A\x7F", "\n", "A\x1F" "B"}};

static guarded field_memory[FIELDS], outputs[2];
static uint8_t digits[LONGEST_FIELD]; /* where a field is to be too long */

/* Prepares the memory once. */
static void prepare(void)
{
    if (outputs[0].bytes != NULL)
        return;
    for (size_t i = 0; i < FIELDS; i++)
        field_memory[i] = guarded_of(LONGEST_FIELD);
    memset(digits, '1', sizeof digits);
    outputs[0] = guarded_of(ROOM + FRINGE);
    outputs[1] = guarded_of(ROOM + FRINGE);
}

/* One of some strings, up to as many as samples have. */
static const char *one_of(dice *d, const char *const *from)
{
    size_t count = 0;
    while (count < SAMPLES && from[count] != NULL)
        count++;
    return from[roll(d, count)];
}

/* Gives a call its next field, now and then a bad one, seldom one longer than any line. */
static void give(dice *d, call *c, size_t place, const samples *kind)
{
    const char *bytes = one_of(d, chance(d, 20) ? kind->bad : kind->good);
    c->fields[place] = chance(d, 5)
        ? lend(&field_memory[place], digits, between(d, 77, sizeof digits))
        : lend(&field_memory[place], (const uint8_t *)bytes, strlen(bytes));
}

/* 0, or some number that isn't. */
static uint64_t some_flag(dice *d, unsigned of_thousand)
{
    static const uint64_t flags[] = {1, 1, 1, 2, 256, UINT64_C(1) << 32, UINT64_MAX};
    return chance(d, of_thousand) ? flags[roll(d, 7)] : 0;
}

/* An amount, often one at a bound; `w` is the writer it goes to. */
static int64_t some_amount(dice *d, const bai2_writer *w)
{
    static const int64_t bounds[] = {0, 1, GREATEST, GREATEST + 1, -GREATEST, -GREATEST - 1, INT64_MIN,
                                     INT64_MAX, -1};
    uint64_t used = w->file_pluses + w->file_minuses;
    int64_t left = used <= GREATEST ? GREATEST - (int64_t)used : 0;
    if (chance(d, 850))
        return (int64_t)roll(d, 1000000) - (chance(d, 100) ? 500000 : 0);
    if (chance(d, 300))
        return left + (int64_t)roll(d, 2);
    if (chance(d, 300))
        return -left - (int64_t)roll(d, 2);
    return bounds[roll(d, 9)];
}

/* Gives a call an item's amount and count. */
static void give_item(dice *d, call *c, const bai2_writer *w)
{
    static const uint64_t counts[] = {0, 999999999, 1000000000, UINT64_MAX, UINT64_C(1) << 32};
    c->item_given = some_flag(d, 800);
    c->amount_given = some_flag(d, 850);
    c->count_given = some_flag(d, 250);
    c->amount = some_amount(d, w);
    c->count = chance(d, 900) ? roll(d, 1000) : counts[roll(d, 5)];
    if (c->kind == ACCOUNT && chance(d, 150)) { /* an item that stands for none */
        c->fields[2] = (slice){0};
        c->amount_given = c->count_given = 0;
    }
}

/* Gives a call its fields, in the order of its arguments. */
static void give_fields(dice *d, call *c, const bai2_writer *w)
{
    static const samples *const wanted[CALLS][FIELDS] = {
        [HEADER] = {&names, &names, &dates, &times, &file_numbers},
        [GROUP] = {&optional_names, &names, &statuses, &dates, &optional_times, &currencies, &modifiers},
        [ACCOUNT] = {&names, &currencies, &item_types},
        [ITEM] = {&item_types},
        [A_DETAIL] = {&detail_types, &optional_names, &optional_names, &texts}};
    for (size_t i = 0; i < FIELDS && wanted[c->kind][i] != NULL; i++)
        give(d, c, i, wanted[c->kind][i]);
    give_item(d, c, w);
}

/* The call whose turn it is. */
static call_kind in_turn(dice *d, const bai2_writer *w)
{
    switch (w->phase) {
    case 0: return HEADER;
    case 1: return chance(d, 700) ? GROUP : END_FILE;
    case 2: return ACCOUNT;
    case 3: return chance(d, 300) ? END_ACCOUNT : w->items == 1 && chance(d, 500) ? ITEM : A_DETAIL;
    case 4: return chance(d, 500) ? ACCOUNT : END_GROUP;
    default: return (call_kind)roll(d, CALLS);
    }
}

/* A call with its fields, mostly in turn. */
static call some_call(dice *d, const bai2_writer *w)
{
    call c = {.kind = chance(d, 60) ? (call_kind)roll(d, CALLS) : in_turn(d, w)};
    give_fields(d, &c, w);
    return c;
}

#define SLICE(i) c->fields[i].bytes, c->fields[i].length

/* Makes one side do the call. */
static bai2_written perform(const side *s, const call *c, bai2_writer w, uint8_t *out, size_t room)
{
    switch (c->kind) {
    case HEADER:
        return s->write_header(w, SLICE(0), SLICE(1), SLICE(2), SLICE(3), SLICE(4), out, room);
    case GROUP:
        return s->write_group(w, SLICE(0), SLICE(1), SLICE(2), SLICE(3), SLICE(4), SLICE(5), SLICE(6),
                              out, room);
    case ACCOUNT:
        return s->write_account(w, SLICE(0), SLICE(1), c->item_given, SLICE(2), c->amount_given,
                                c->amount, c->count_given, c->count, out, room);
    case ITEM:
        return s->write_item(w, SLICE(0), c->amount_given, c->amount, c->count_given, c->count, out,
                             room);
    case A_DETAIL:
        return s->write_detail(w, SLICE(0), c->amount_given, c->amount, SLICE(1), SLICE(2), SLICE(3),
                               out, room);
    case END_ACCOUNT: return s->write_end_account(w, out, room);
    case END_GROUP: return s->write_end_group(w, out, room);
    default: return s->write_end_file(w, out, room);
    }
}

/* Makes both sides do the call into their last `room` bytes, and counts the answer's number; the
   oracle's answer. */
static bai2_written ask(const call *c, const bai2_writer *w, size_t room, uint64_t *numbers)
{
    static const char *const words[CALLS] = {"header", "group", "account", "item", "detail",
                                             "end of account", "end of group", "end of file"};
    uint8_t *one_out = guarded_end(&outputs[0], room), *other_out = guarded_end(&outputs[1], room);
    bai2_written one = perform(&oracle, c, *w, one_out, room);
    bai2_written other = perform(&library, c, *w, other_out, room);
    SAME(words[c->kind], one, other);
    same_bytes(words[c->kind], one_out - FRINGE, other_out - FRINGE, room + FRINGE);
    must_hold("a refused call hands the writer back",
              one.number == 0 || memcmp(&one.writer, w, sizeof *w) == 0);
    numbers[one.number]++;
    return one;
}

/* A writer with a few figures changed to others that matter. */
static bai2_writer made_up(dice *d, bai2_writer w)
{
    static const uint64_t figures[] = {0, 1, 2, 3, 4, 5, 6, 100, 16777215, 16777216, 16777217,
                                       UINT64_C(999999999999999999), UINT64_C(1000000000000000000),
                                       UINT64_C(1) << 63, UINT64_MAX, UINT64_MAX - 1};
    uint64_t all[sizeof w / sizeof(uint64_t)];
    memcpy(all, &w, sizeof w);
    size_t changes = between(d, 1, 4);
    for (size_t i = 0; i < changes; i++) {
        uint64_t *figure = &all[roll(d, sizeof all / sizeof *all)];
        *figure = chance(d, 500) ? figures[roll(d, 16)] : *figure + roll(d, 3) - 1;
    }
    memcpy(&w, all, sizeof w);
    return w;
}

/* Restores the pattern after what the writer has written. */
static void fresh_after(size_t written, size_t room)
{
    for (size_t i = 0; i < 2; i++)
        memset(guarded_end(&outputs[i], room) + written, PATTERN, room - written);
}

/* Tries calls one after the other from a made-up writer on; their bytes are then taken back. */
static void try_made_up(dice *d, const bai2_writer *w, size_t room, uint64_t *numbers)
{
    static uint8_t before[ROOM];
    memcpy(before, guarded_end(&outputs[0], room), room);
    bai2_writer strange = made_up(d, *w);
    for (size_t left = between(d, 1, 4); left > 0; left--) {
        call c = some_call(d, chance(d, 500) ? w : &strange);
        strange = ask(&c, &strange, room, numbers).writer;
    }
    for (size_t i = 0; i < 2; i++)
        memcpy(guarded_end(&outputs[i], room), before, room);
}

/* Tries the call with slices that are too short, just long enough, or empty. */
static void try_short(const call *c, const bai2_writer *w, size_t needed, size_t room,
                      uint64_t *numbers)
{
    static uint8_t before[ROOM];
    memcpy(before, guarded_end(&outputs[0], room), room);
    const size_t lengths[] = {needed - 1, needed, (size_t)w->size, 0};
    for (size_t i = 0; i < sizeof lengths / sizeof *lengths; i++) {
        for (size_t j = 0; j < 2; j++)
            memcpy(guarded_end(&outputs[j], lengths[i]), before, lengths[i]);
        ask(c, w, lengths[i], numbers);
    }
    for (size_t j = 0; j < 2; j++)
        memcpy(guarded_end(&outputs[j], room), before, room);
}

/* Reads a finished file back. */
static void read_back(const bai2_writer *w, size_t room)
{
    slice file = {guarded_end(&outputs[0], room), (size_t)w->size};
    bai2_summary s = ask_read(file);
    must_hold("a finished file is accepted with the writer's figures",
              s.number == 0 && s.total == (int64_t)(w->file_pluses - w->file_minuses)
                  && s.groups == w->file_groups && s.accounts == w->file_accounts
                  && s.details == w->file_details && s.records == w->file_lines);
}

/* Lets both write one file from a fresh writer on; counts the numbers that the calls answer. */
void compare_writer(dice *d, uint64_t *numbers)
{
    prepare();
    size_t room = chance(d, 100) ? (size_t)roll(d, 600) : ROOM;
    bai2_writer w = oracle.writer_new(), other = library.writer_new();
    SAME("new", w, other);
    memset(outputs[0].bytes, PATTERN, outputs[0].room);
    memset(outputs[1].bytes, PATTERN, outputs[1].room);
    for (int i = 0; i < LONGEST_WALK && (w.phase != 5 || chance(d, 500)); i++) {
        call c = some_call(d, &w);
        bai2_written answer = ask(&c, &w, room, numbers);
        if (answer.number == 0 && chance(d, 100)) {
            fresh_after((size_t)w.size, room);
            try_short(&c, &w, (size_t)answer.length, room, numbers);
            ask(&c, &w, room, numbers);
        }
        w = answer.writer;
        if (chance(d, 200))
            try_made_up(d, &w, room, numbers);
        if (c.kind == END_FILE && answer.number == 0)
            read_back(&w, room);
    }
}
