/* The fuzzer's entry: everything the program does with a file, on the given bytes and once more with
   its trailers mended, so that changed files are accepted too; and the writer's calls, chosen by the
   bytes. Any broken promise aborts. */
#include <stdlib.h>
#include <string.h>

#include "agree.h"
#include "bai2.h"
#include "export.h"
#include "mend.h"
#include "outline.h"
#include "record.h"
#include "refusal.h"
#include "refused_record.h"
#include "screen.h"
#include "show.h"
#include "write.h"

enum { LONGEST_INPUT = 65536 };

int LLVMFuzzerTestOneInput(const uint8_t *data, size_t size);

/* Ends the run where a promise is broken. */
static void must_hold(bool promise)
{
    if (!promise)
        abort();
}

/* Presses every key of the view on a canvas of one of some sizes, and draws after each. */
static void press_and_draw(const view *v, FILE *to, size_t which)
{
    static const key keys[] = {KEY_RESIZED, KEY_ENTER, KEY_DOWN, KEY_ENTER, KEY_DOWN, KEY_DOWN, KEY_ENTER,
                               KEY_PAGE_DOWN, KEY_END, KEY_RIGHT, KEY_UP, KEY_LEFT, KEY_LEFT, KEY_PAGE_UP,
                               KEY_HOME, KEY_RIGHT, KEY_OTHER};
    static const canvas sizes[] = {{NULL, 24, 80}, {NULL, 3, 12}, {NULL, 16, 200}, {NULL, 1, 1}};
    canvas c = sizes[which % (sizeof sizes / sizeof sizes[0])];
    c.to = to;
    for (size_t i = 0; i < sizeof keys / sizeof keys[0]; i++) {
        v->press(v->state, &c, keys[i]);
        v->draw(v->state, &c);
    }
    v->find(v->state, slice_of("1"));
    v->draw(v->state, &c);
    v->find(v->state, slice_of("credit")); /* which stands in names of types */
    v->draw(v->state, &c);
}

/* A refused file: every call says so alike, and the refusal can be told and shown, with its field where
   it is one of sums and counts. */
static void try_refused(slice file, bai2_summary s, FILE *to)
{
    must_hold(s.place <= file.length && s.total == 0 && s.records == 0);
    bai2_part part = bai2_group(file.bytes, file.length, 0);
    must_hold(part.number == s.number && part.place == s.place && part.length == 0);
    bai2_detail d = bai2_detail_of(file.bytes, file.length, 0, 0, 0);
    must_hold(d.number == s.number && d.place == s.place && d.text_length == 0);
    bai2_item i = bai2_item_of(file.bytes, file.length, 0, 0, 0);
    must_hold(i.number == s.number && i.place == s.place && i.amount_form == BAI2_AMOUNT_EMPTY);
    bool of_sums = s.number >= BAI2_AMOUNTS_TOO_LARGE && s.number <= BAI2_SUM_TOO_LARGE;
    must_hold(of_sums == (*refused_field(file, s.number, (size_t)s.place) != '\0'));
    tell_refusal(to, "file", file, s.number, s.place);
    refusal_screen screen;
    view v = open_refusal_view(&screen, "file", file, s.number, s.place);
    press_and_draw(&v, to, file.length);
}

/* A split for this receiver: accepted, with some of the groups, and unchanged by a second split. */
static void try_split(slice file, slice name, uint64_t groups)
{
    size_t room = file.length + BAI2_TRAILER_ROOM;
    uint8_t *out = room_for(room, 1), *again = room_for(room, 1);
    bai2_answer a = bai2_split(name.bytes, name.length, file.bytes, file.length, out, room);
    if (name.length == 0) {
        must_hold(a.number == BAI2_NOT_A_NAME);
    } else {
        must_hold(a.number == 0);
        bai2_summary s = bai2_read(out, (size_t)a.length);
        must_hold(s.number == 0 && s.groups >= 1 && s.groups <= groups);
        bai2_answer b = bai2_split(name.bytes, name.length, out, (size_t)a.length, again, room);
        must_hold(b.number == 0 && b.length == a.length && memcmp(out, again, (size_t)a.length) == 0);
    }
    free(out);
    free(again);
}

/* The file combined with itself: accepted with twice its figures, or its sums are too large. */
static void try_combine(slice file, bai2_summary s)
{
    size_t room = 2 * file.length + BAI2_TRAILER_ROOM;
    uint8_t *out = room_for(room, 1);
    bai2_combined c = bai2_combine(file.bytes, file.length, file.bytes, file.length, out, room);
    must_hold(c.file == 0 && (c.number == 0 || c.number == BAI2_AMOUNTS_TOO_LARGE));
    if (c.number == 0) {
        bai2_summary both = bai2_read(out, (size_t)c.length);
        must_hold(both.number == 0 && both.total == 2 * s.total && both.groups == 2 * s.groups);
    }
    free(out);
}

/* Splits the file for the receiver of each of its groups. */
static void try_splits(const outline *o)
{
    fields f = {.file = o->file};
    for (size_t i = 0; i < o->count; i++) {
        if (o->records[i].code != GROUP_HEADER)
            continue;
        read_fields(&f, o->records[i].start);
        try_split(o->file, group_header_of(&f).receiver, o->summary.groups);
    }
    drop_fields(&f);
}

/* An accepted file: all calls agree on it, it can be shown, exported, split and combined. */
static void try_accepted(slice file, bai2_summary s, FILE *to)
{
    outline o;
    tree_screen screen;
    make_outline(&o, file, s);
    must_hold(calls_agree(&o));
    put_report(to, &o);
    must_hold(put_export(to, JSON_LINES, file, s) && put_export(to, CSV, file, s));
    view v = open_tree_view(&screen, "file", &o);
    press_and_draw(&v, to, file.length);
    close_tree_view(&screen);
    try_splits(&o);
    try_combine(file, s);
    drop_outline(&o);
}

/* Where all that is drawn and told goes; it stays open. */
static FILE *nowhere(void)
{
    static FILE *to;
    if (to == NULL)
        to = fopen("/dev/null", "w");
    must_hold(to != NULL);
    return to;
}

/* Tries everything on one file. */
static void try_file(slice file)
{
    must_hold(records_hold(file));
    bai2_summary s = bai2_read(file.bytes, file.length);
    if (s.number != 0)
        try_refused(file, s, nowhere());
    else
        try_accepted(file, s, nowhere());
}

/* Tries the bytes as they are, with mended trailers, and as calls of the writer. */
int LLVMFuzzerTestOneInput(const uint8_t *data, size_t size)
{
    if (size > LONGEST_INPUT)
        return 0;
    slice file = {data, size};
    slice mended = mend(file);
    try_file(file);
    try_file(mended);
    must_hold(writer_keeps_promises(file));
    free((void *)(uintptr_t)mended.bytes);
    return 0;
}
