/* The command that explains refusals: explain. */
#include <inttypes.h>
#include <stdlib.h>
#include <string.h>

#include "commands.h"
#include "message.h"
#include "output.h"
#include "refusal.h"

enum { EXPLANATION_COLUMNS = 78 };

/* Prints one explanation in full. */
static void put_explanation(uint64_t number)
{
    explanation e = explain(number);
    printf("%" PRIu64 ": %s\n\nWhat it means\n", number, e.title);
    put_wrapped(stdout, e.meaning, 2, EXPLANATION_COLUMNS);
    printf("\nWhat to do\n");
    put_wrapped(stdout, e.advice, 2, EXPLANATION_COLUMNS);
}

/* The refusal that a word names by its number; 0 where it names none. */
static uint64_t refusal_named(const char *word)
{
    size_t digits = strspn(word, "0123456789");
    unsigned long number = word[digits] == '\0' ? strtoul(word, NULL, 10) : 0;
    return number <= REFUSALS ? number : 0;
}

/* bai2 explain [NUMBER]: what that refusal means and what to do; without a number, all titles. */
int explain_command(const arguments *a)
{
    if (a->count == 0) {
        for (uint64_t number = 1; number <= REFUSALS; number++)
            printf("%2" PRIu64 "  %s\n", number, explain(number).title);
        return printed();
    }
    uint64_t number = refusal_named(a->operands[0]);
    if (number == 0) {
        complain("there is no refusal '%s'; they have the numbers 1 to %d", a->operands[0], REFUSALS);
        return MISUSED;
    }
    put_explanation(number);
    return printed();
}
