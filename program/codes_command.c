/* The command that tells what type codes stand for: codes. */
#include <inttypes.h>
#include <string.h>

#include "bai2.h"
#include "commands.h"
#include "message.h"
#include "output.h"
#include "record.h"
#include "type_names.h"

enum { TYPE_DIGITS = 3, RECORD_ROOM = 32 };

/* What the list says that a code is, in words. */
static const char *level_in_words(bai2_code c)
{
    if (c.summary != 0 && c.detail != 0)
        return "summary and detail";
    return c.status != 0 ? "status" : c.summary != 0 ? "summary" : "detail";
}

/* The side that the list says a code is on, in words. */
static const char *side_in_words(bai2_code c)
{
    return c.side == 1 ? "credit" : c.side == 2 ? "debit" : "neither";
}

/* How long the longest words are that say what a listed code is. */
static int level_width(void)
{
    size_t width = 0;
    for (uint64_t code = 0; code < TYPE_CODES; code++) {
        bai2_code c = bai2_code_of(code);
        size_t length = strlen(level_in_words(c));
        if (c.listed != 0 && length > width)
            width = length;
    }
    return (int)width;
}

/* Prints the line of a code where it is listed; whether it is. */
static bool put_listed(uint64_t code, int width)
{
    bai2_code c = bai2_code_of(code);
    if (c.listed == 0)
        return false;
    printf("%03" PRIu64 "  %-*s  %-7s  %s\n", code, width, level_in_words(c), side_in_words(c),
           type_name(code));
    return true;
}

/* The kind of the amount after the type in a made-up record; none, 0, where the library refuses it. */
static uint64_t amount_kind(const char *record)
{
    fields f = {.file = slice_of(record)};
    entry e;
    read_fields(&f, 0);
    next_entry(&f, &(size_t){0}, &e);
    uint64_t kind = kind_at(&f, e.start + 1);
    drop_fields(&f);
    return kind;
}

/* What the library takes this type for in a 03, in words; nothing where it refuses it there. */
static const char *item_in_words(uint64_t code)
{
    char record[RECORD_ROOM];
    snprintf(record, sizeof record, "03,0,,%03" PRIu64 ",,,/", code);
    switch (amount_kind(record)) {
    case BAI2_FIELD_STATUS_AMOUNT: return "a status in a 03";
    case BAI2_FIELD_AMOUNT: return "a summary in a 03";
    default: return "";
    }
}

/* The same for a 16. */
static const char *detail_in_words(uint64_t code)
{
    char record[RECORD_ROOM];
    snprintf(record, sizeof record, "16,%03" PRIu64 ",,,,,/", code);
    return amount_kind(record) != 0 ? "a detail in a 16" : "";
}

/* The code that a word is; TYPE_CODES, which is none, where it is not three digits. */
static uint64_t code_named(const char *word)
{
    bool digits = strspn(word, "0123456789") == TYPE_DIGITS && word[TYPE_DIGITS] == '\0';
    return digits ? number_of(slice_of(word)) : TYPE_CODES;
}

/* Prints the line of a word; whether it is a type. */
static bool put_word(const char *word, int width)
{
    uint64_t code = code_named(word);
    if (put_listed(code, width))
        return true;
    const char *item = item_in_words(code), *detail = detail_in_words(code);
    bool is_item = *item != '\0', is_detail = *detail != '\0';
    put_name(stdout, word);
    if (is_item || is_detail)
        printf("  %s: %s%s%s\n", type_name(code), item, is_item && is_detail ? ", " : "", detail);
    else
        puts("  not a type");
    return is_item || is_detail;
}

/* bai2 codes [CODE..]: a line for each code, without one for each that is listed; refused where one is
   not a type. */
int codes_command(const arguments *a)
{
    int width = level_width();
    bool types = true;
    for (uint64_t code = 0; a->count == 0 && code < TYPE_CODES; code++)
        put_listed(code, width);
    for (size_t i = 0; i < a->count; i++)
        types = put_word(a->operands[i], width) && types;
    int status = printed();
    return status == GOOD && !types ? REFUSED : status;
}
