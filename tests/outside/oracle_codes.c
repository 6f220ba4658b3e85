/* What a type code is for (document 000, Appendix A, "Uniform BAI balance reporting type codes"). */
#include <string.h>

#include "oracle.h"

enum { CODES = 1000 };

/* An entry of the list as it is printed; level NULL: the code is not listed. */
typedef struct {
    const char *transaction, *level;
} entry;

/* The list, which the Makefile makes from uniform_codes.txt. */
static const entry entries[CODES] = {
#include "uniform_codes.inc"
};

/* Which side an entry is on: 1 credit, 2 debit, 0 neither. */
static uint64_t side_of(const entry *e)
{
    if (strcmp(e->transaction, "CR") == 0)
        return 1;
    return strcmp(e->transaction, "DB") == 0 ? 2 : 0;
}

/* What the list says of a code. */
bai2_code oracle_code_of(uint64_t code)
{
    if (code >= CODES || entries[code].level == NULL)
        return (bai2_code){0};
    const entry *e = &entries[code];
    return (bai2_code){.listed = 1,
                       .status = strstr(e->level, "Status") != NULL,
                       .summary = strstr(e->level, "Summary") != NULL,
                       .detail = strstr(e->level, "Detail") != NULL,
                       .side = side_of(e)};
}
