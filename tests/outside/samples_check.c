/* Asks the oracle about every sample file and holds the answers against the expected ones.
   Usage: samples_check FOLDER, where FOLDER/stdout has the answers and FOLDER/data the files */
#include <inttypes.h>
#include <stdio.h>
#include <stdlib.h>
#include <string.h>

#include "oracle.h"

enum { LONGEST_SAMPLE = 1 << 20, LONGEST_ROW = 512 };

static uint8_t sample[LONGEST_SAMPLE];

/* Reads a whole sample; answers its length, or ends the program. */
static size_t load(const char *folder, const char *name)
{
    char path[2 * LONGEST_ROW];
    snprintf(path, sizeof path, "%s/data/%s", folder, name);
    FILE *file = fopen(path, "rb");
    if (file == NULL) {
        perror(path);
        exit(2);
    }
    size_t length = fread(sample, 1, sizeof sample, file);
    fclose(file);
    return length;
}

/* Writes the answer as the list has it. */
static void answer_for(size_t length, char *answer, size_t room)
{
    bai2_summary s = oracle_read(sample, length);
    if (s.number != 0)
        snprintf(answer, room, "refused %" PRIu64 " %" PRIu64, s.number, s.place);
    else
        snprintf(answer, room, "ok %" PRId64 " %" PRIu64 " %" PRIu64 " %" PRIu64 " %" PRIu64,
                 s.total, s.groups, s.accounts, s.details, s.records);
}

/* Checks one row `NAME: ANSWER`; answers whether the oracle says the same. */
static int row_holds(const char *folder, char *row)
{
    char answer[LONGEST_ROW];
    row[strcspn(row, "\n")] = '\0';
    char *colon = strstr(row, ": ");
    if (colon == NULL) {
        printf("no answer in the row '%s'\n", row);
        return 0;
    }
    *colon = '\0';
    const char *expected = colon + 2;
    answer_for(load(folder, row), answer, sizeof answer);
    if (strcmp(answer, expected) == 0)
        return 1;
    printf("%s: expected '%s', the oracle says '%s'\n", row, expected, answer);
    return 0;
}

/* Checks every row of the folder's list. */
int main(int count, char **arguments)
{
    char path[2 * LONGEST_ROW], row[LONGEST_ROW];
    unsigned samples = 0, wrong = 0;
    if (count != 2) {
        fprintf(stderr, "usage: samples_check FOLDER\n");
        return 2;
    }
    snprintf(path, sizeof path, "%s/stdout", arguments[1]);
    FILE *expected = fopen(path, "r");
    if (expected == NULL) {
        perror(path);
        return 2;
    }
    while (fgets(row, sizeof row, expected) != NULL) {
        samples++;
        wrong += !row_holds(arguments[1], row);
    }
    fclose(expected);
    printf("samples: %u files, %u differences\n", samples, wrong);
    return wrong != 0;
}
