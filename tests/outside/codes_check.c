/* Holds a list of type codes against the library's table, for all codes from 000 to 999.
   Usage: codes_check FILE, whose lines are CODE TRANSACTION LEVEL NAME, as in uniform_codes.txt */
#include <inttypes.h>
#include <stdio.h>
#include <stdlib.h>
#include <string.h>

#include "bai2.h"

enum { CODES = 1000, LONGEST_ROW = 256 };

static bai2_code expected[CODES]; /* what the list says of each code */
static unsigned wrong;

/* Cuts the next word off, up to a blank or the end. */
static char *next_word(char **rest)
{
    char *word = *rest, *end = word + strcspn(word, " ");
    *rest = *end == '\0' ? end : end + 1;
    *end = '\0';
    return word;
}

/* Whether a word is a code of three digits. */
static int is_code(const char *word)
{
    return strlen(word) == 3 && strspn(word, "0123456789") == 3;
}

/* Whether a word is a transaction; if so, notes its side. */
static int is_transaction(const char *word, bai2_code *code)
{
    static const struct {
        const char *word;
        uint64_t side;
    } transactions[] = {{"NA", 0}, {"--", 0}, {"CR", 1}, {"DB", 2}};
    for (size_t i = 0; i < sizeof transactions / sizeof *transactions; i++)
        if (strcmp(word, transactions[i].word) == 0) {
            code->side = transactions[i].side;
            return 1;
        }
    return 0;
}

/* Whether a word is a level; if so, notes it. */
static int is_level(const char *word, bai2_code *code)
{
    int both = strcmp(word, "Summary+Detail") == 0;
    code->status = strcmp(word, "Status") == 0;
    code->summary = both || strcmp(word, "Summary") == 0;
    code->detail = both || strcmp(word, "Detail") == 0;
    return code->status || code->summary || code->detail;
}

/* Whether words are a name: printable ASCII, with one blank between two words and none around them. */
static int is_name(const char *words)
{
    for (const char *at = words; *at != '\0'; at++)
        if (*at < ' ' || *at > '~' || (*at == ' ' && (at == words || at[1] == ' ' || at[1] == '\0')))
            return 0;
    return *words != '\0';
}

/* Says what is wrong with a row, and counts it. */
static void tell_row(unsigned number, const char *what)
{
    printf("line %u: %s\n", number, what);
    wrong++;
}

/* Notes what a row says of its code, which must come after the last row's; that code. */
static int take_row(unsigned number, char *row, int last)
{
    bai2_code said = {.listed = 1};
    size_t length = strcspn(row, "\n");
    int ended = row[length] == '\n';
    row[length] = '\0';
    const char *code = next_word(&row), *transaction = next_word(&row), *level = next_word(&row);
    if (!ended || !is_code(code) || !is_transaction(transaction, &said) || !is_level(level, &said) || !is_name(row)) {
        tell_row(number, "not CODE TRANSACTION LEVEL NAME");
        return last;
    }
    int value = (int)strtol(code, NULL, 10);
    if (value <= last)
        tell_row(number, value == last ? "the code of the line before" : "a code that does not rise");
    expected[value] = said;
    return value;
}

/* Reads the list, or ends the program. */
static void read_list(const char *path)
{
    char row[LONGEST_ROW];
    FILE *list = fopen(path, "r");
    if (list == NULL) {
        perror(path);
        exit(2);
    }
    int last = -1;
    for (unsigned number = 1; fgets(row, sizeof row, list) != NULL; number++)
        last = take_row(number, row, last);
    if (ferror(list)) {
        perror(path);
        exit(2);
    }
    fclose(list);
}

/* Prints one side's answer. */
static void print_code(const char *who, const bai2_code *code)
{
    printf("%s listed %" PRIu64 " status %" PRIu64 " summary %" PRIu64 " detail %" PRIu64 " side %" PRIu64, who,
           code->listed, code->status, code->summary, code->detail, code->side);
}

/* Compares what the list and the library say of a code. */
static void compare_code(unsigned code)
{
    bai2_code answer = bai2_code_of(code);
    if (memcmp(&answer, &expected[code], sizeof answer) == 0)
        return;
    printf("code %03u: ", code);
    print_code("list", &expected[code]);
    print_code(", library", &answer);
    printf("\n");
    wrong++;
}

/* Compares all codes. */
int main(int count, char **arguments)
{
    unsigned listed = 0;
    if (count != 2) {
        fprintf(stderr, "usage: codes_check FILE\n");
        return 2;
    }
    read_list(arguments[1]);
    for (unsigned code = 0; code < CODES; code++) {
        compare_code(code);
        listed += expected[code].listed != 0;
    }
    printf("codes: %d compared, %u listed, %u differences\n", CODES, listed, wrong);
    return wrong != 0;
}
