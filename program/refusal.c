/* Telling a refusal: its number and meaning, and the line with a caret under the byte. */
#include "refusal.h"

#include <inttypes.h>
#include <string.h>

#include "message.h"
#include "refused_record.h"

enum {
    TEXT_COLUMNS = 78,
    LINE_COLUMNS = 66, /* of a long line, so much is shown around the byte */
    LONGEST_CONTEXT = 60
};

/* A line's bytes that are shown, and whether some are left out before or after them. */
typedef struct {
    size_t from, to;
    bool cut_before, cut_after;
} excerpt;

/* Whether a refusal of this number has a place in the file that is worth showing. */
bool stands_in_file(uint64_t number)
{
    return number >= BAI2_LINE_TOO_LONG && number <= BAI2_SUM_TOO_LARGE;
}

/* Writes a text in lines of at most so many columns, each after an indent. */
void put_wrapped(FILE *to, const char *text, size_t indent, size_t columns)
{
    size_t used = 0;
    while (*text != '\0') {
        size_t word = strcspn(text, " ");
        if (used > 0 && indent + used + 1 + word > columns) {
            fputc('\n', to);
            used = 0;
        }
        fprintf(to, "%*s%.*s", used > 0 ? 1 : (int)indent, "", (int)word, text);
        used += word + (used > 0 ? 1 : 0);
        text += word;
        text += strspn(text, " ");
    }
    fputc('\n', to);
}

/* The bytes of the line to show, so that the byte at `place` is among them. */
static excerpt excerpt_around(slice file, line l, size_t place)
{
    size_t from = place < l.end ? place : l.end, to = from, cells = 0;
    while (from > l.start && cells + cells_of(file.bytes[from - 1]) <= LINE_COLUMNS / 2)
        cells += cells_of(file.bytes[--from]);
    while (to < l.end && cells + cells_of(file.bytes[to]) <= LINE_COLUMNS)
        cells += cells_of(file.bytes[to++]);
    while (from > l.start && cells + cells_of(file.bytes[from - 1]) <= LINE_COLUMNS)
        cells += cells_of(file.bytes[--from]);
    return (excerpt){from, to, from > l.start, to < l.end};
}

/* Writes the caret that stands under the byte at `place`; it has a tail under an escaped byte. */
static void put_caret(FILE *to, slice file, excerpt e, size_t place)
{
    size_t cells = e.cut_before ? 3 : 0;
    for (size_t i = e.from; i < e.to && i < place; i++)
        cells += cells_of(file.bytes[i]);
    bool escaped = place < e.to && !is_printable(file.bytes[place]);
    fprintf(to, "%8s | %*s^%s\n", "", (int)cells, "", escaped ? "~~~" : "");
}

/* Writes the line with its number, shortened around the byte, and the caret under it. */
static void put_line_and_caret(FILE *to, slice file, size_t place)
{
    line l = line_of(file, place);
    excerpt e = excerpt_around(file, l, place);
    fprintf(to, "%8zu | %s", line_number(file, place), e.cut_before ? "..." : "");
    put_bytes(to, part_of(file, e.from, e.to - e.from));
    fprintf(to, "%s\n", e.cut_after ? "..." : "");
    put_caret(to, file, e, place);
}

/* A byte of the line that is shown before the refused one, to tell what it is about: the start of what
   a wrong trailer closes, the last line where the file ends too early; else the refused byte. */
static size_t context_of(slice file, uint64_t number, size_t place)
{
    if (number >= BAI2_WRONG_TOTAL && number <= BAI2_SUM_TOO_LARGE)
        return opening_of(file, place);
    size_t start = line_of(file, place).start;
    return start > 0 && start == file.length ? start - 1 : place;
}

/* Writes the line that is shown before the refused one, where there is such a line. */
static void put_context(FILE *to, slice file, uint64_t number, size_t place)
{
    line refused = line_of(file, place);
    line l = line_of(file, context_of(file, number, place));
    if (l.start == refused.start)
        return;
    bool cut = l.end - l.start > LONGEST_CONTEXT;
    fprintf(to, "%8zu | ", line_number(file, l.start));
    put_bytes(to, part_of(file, l.start, cut ? LONGEST_CONTEXT : l.end - l.start));
    fprintf(to, "%s\n", cut ? "..." : "");
    if (l.next != refused.start)
        fprintf(to, "%8s :\n", "");
}

/* Tells a refusal in one line, after whatever the caller wrote before. */
void tell_refusal_briefly(FILE *to, slice file, uint64_t number, uint64_t place)
{
    fprintf(to, "refused %" PRIu64, number);
    if (stands_in_file(number)) {
        size_t at = (size_t)place;
        fprintf(to, " at line %zu, column %zu", line_number(file, at), at - line_of(file, at).start + 1);
    }
    fprintf(to, ": %s\n", explain(number).title);
}

/* Writes what a refusal means, and how to learn what to do about it. */
static void put_meaning(FILE *to, uint64_t number)
{
    put_wrapped(to, explain(number).meaning, 2, TEXT_COLUMNS);
    fprintf(to, "  What to do: bai2 explain %" PRIu64 "\n", number);
}

/* Tells a refusal that no byte of a file shows: its number and meaning. */
void tell_refusal_without_place(FILE *to, const char *name, uint64_t number)
{
    put_name(to, name);
    fprintf(to, ": refused %" PRIu64 ": %s\n", number, explain(number).title);
    put_meaning(to, number);
}

/* Writes which byte of the file is refused, and what stands there where that is known. */
static void put_place(FILE *to, slice file, uint64_t number, size_t place)
{
    const char *what = place == file.length ? "the file ends here" : refused_field(file, number, place);
    fprintf(to, "\n  Byte %zu of the file, counted from 0%s%s.\n", place, *what == '\0' ? "" : ": ", what);
}

/* Tells a refusal in full: number, line and column, the line with its caret, and the meaning. */
void tell_refusal(FILE *to, const char *name, slice file, uint64_t number, uint64_t place)
{
    size_t at = (size_t)place;
    if (!stands_in_file(number)) {
        tell_refusal_without_place(to, name, number);
        return;
    }
    put_name(to, name);
    fputs(": ", to);
    tell_refusal_briefly(to, file, number, place);
    fputc('\n', to);
    put_context(to, file, number, at);
    put_line_and_caret(to, file, at);
    put_place(to, file, number, at);
    put_meaning(to, number);
}
