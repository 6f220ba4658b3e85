/* The writer's calls in an order, and with fields, that the fuzzer's bytes choose. */
#include "write.h"

#include <string.h>

#include "bai2.h"

enum {
    ROOM = 1024,
    HALF = 128,
    FIELDS = 7,
    RARE = 240,
    ANY = 255,
    FIELD_LENGTHS = BAI2_LONGEST_NAME + 4 /* some of them too long */
};

/* What is left of the fuzzer's bytes. */
typedef struct {
    slice left;
} source;

/* The next byte; 0 where there is none left. */
static uint8_t next_byte(source *s)
{
    if (s->left.length == 0)
        return 0;
    uint8_t byte = *s->left.bytes;
    s->left = part_of(s->left, 1, s->left.length);
    return byte;
}

/* The writer's calls; and for each that takes fields, good ones. */
enum {
    HEADER_CALL,
    GROUP_CALL,
    ACCOUNT_CALL,
    ITEM_CALL,
    DETAIL_CALL,
    END_ACCOUNT_CALL,
    END_GROUP_CALL,
    END_FILE_CALL,
    CALLS
};
static const char *const good[CALLS][FIELDS] = {
    [HEADER_CALL] = {"122099999", "123456789", "040621", "0200", "1", "", ""},
    [GROUP_CALL] = {"031001234", "122099999", "1", "040620", "2359", "USD", "2"},
    [ACCOUNT_CALL] = {"0975312468", "USD", "010", "", "", "", ""},
    [ITEM_CALL] = {"400", "", "", "", "", "", ""},
    [DETAIL_CALL] = {"165", "DD1620", "", "DEALER PAYMENTS", "", "", ""}};

/* The next field: mostly the good one, at times one that is good elsewhere, or any bytes. */
static slice next_field(source *s, const char *word)
{
    uint8_t which = next_byte(s);
    if (which >= RARE)
        word = good[which % END_ACCOUNT_CALL][next_byte(s) % FIELDS];
    if (which != ANY)
        return (slice){(const uint8_t *)word, strlen(word)};
    slice field = part_of(s->left, 0, next_byte(s) % FIELD_LENGTHS);
    s->left = part_of(s->left, field.length, s->left.length);
    return field;
}

/* The next amount: mostly small, at times at the edge of what a number holds. */
static int64_t next_amount(source *s)
{
    static const int64_t edges[] = {0, INT64_MIN, INT64_MAX, 999999999999999999, -999999999999999999};
    uint8_t which = next_byte(s);
    return which < HALF ? which - HALF / 2 : edges[which % (sizeof edges / sizeof edges[0])];
}

/* A field as two arguments of a call. */
#define FIELD(f) (f).bytes, (f).length

/* One call of the writer, the one that the next byte names; `last` says whether it ends the file. */
static bai2_written call_once(source *s, bai2_writer w, uint8_t out[ROOM], size_t room, bool *last)
{
    uint8_t which = next_byte(s) % CALLS;
    slice f[FIELDS] = {{NULL, 0}};
    for (size_t i = 0; which < END_ACCOUNT_CALL && i < FIELDS; i++)
        f[i] = next_field(s, good[which][i]);
    int64_t amount = next_amount(s);
    uint64_t given = next_byte(s), count = next_byte(s);
    *last = which == END_FILE_CALL;
    switch (which) {
    case HEADER_CALL:
        return bai2_write_header(w, FIELD(f[0]), FIELD(f[1]), FIELD(f[2]), FIELD(f[3]), FIELD(f[4]), out, room);
    case GROUP_CALL:
        return bai2_write_group(w, FIELD(f[0]), FIELD(f[1]), FIELD(f[2]), FIELD(f[3]), FIELD(f[4]), FIELD(f[5]),
                                FIELD(f[6]), out, room);
    case ACCOUNT_CALL:
        return bai2_write_account(w, FIELD(f[0]), FIELD(f[1]), given & 1, FIELD(f[2]), given & 2, amount, given & 4,
                                  count, out, room);
    case ITEM_CALL: return bai2_write_item(w, FIELD(f[0]), given & 1, amount, given & 2, count, out, room);
    case DETAIL_CALL:
        return bai2_write_detail(w, FIELD(f[0]), given & 1, amount, FIELD(f[1]), FIELD(f[2]), FIELD(f[3]), out, room);
    case END_ACCOUNT_CALL: return bai2_write_end_account(w, out, room);
    case END_GROUP_CALL: return bai2_write_end_group(w, out, room);
    default: return bai2_write_end_file(w, out, room);
    }
}

/* Whether a refused call changed nothing, an accepted one wrote after what was there, and an ended file is read. */
static bool is_kept(bai2_writer before, const uint8_t *was, bai2_written now, const uint8_t *out, bool last)
{
    if (now.number != 0)
        return now.length == 0 && memcmp(&before, &now.writer, sizeof before) == 0 && memcmp(was, out, ROOM) == 0;
    size_t length = (size_t)now.length;
    if (length > ROOM || length <= before.size || memcmp(was, out, (size_t)before.size) != 0
        || memcmp(was + length, out + length, ROOM - length) != 0)
        return false;
    return !last || bai2_read(out, length).number == 0;
}

/* Calls the writer until the bytes are used up; whether every promise was kept. */
bool writer_keeps_promises(slice data)
{
    uint8_t out[ROOM] = {0}, was[ROOM];
    source s = {data};
    bai2_writer w = bai2_writer_new();
    size_t room = ROOM - next_byte(&s);
    while (s.left.length > 0) {
        bool last;
        memcpy(was, out, sizeof out);
        bai2_written now = call_once(&s, w, out, room, &last);
        if (!is_kept(w, was, now, out, last))
            return false;
        w = now.writer;
    }
    return true;
}
