/* Refusals in words: what each number means, and where in the file it stands. */
#ifndef REFUSAL_H
#define REFUSAL_H

#include "bai2.h"
#include "bytes.h"

enum { REFUSALS = BAI2_WRONG_FIELD_GIVEN }; /* their numbers begin with 1 */

/* A refusal's number explained: in a few words, in full, and what to do about it. */
typedef struct {
    const char *title, *meaning, *advice;
} explanation;

explanation explain(uint64_t number);
void put_wrapped(FILE *to, const char *text, size_t indent, size_t columns);

bool stands_in_file(uint64_t number);
void tell_refusal(FILE *to, const char *name, slice file, uint64_t number, uint64_t place);
void tell_refusal_briefly(FILE *to, slice file, uint64_t number, uint64_t place);
void tell_refusal_without_place(FILE *to, const char *name, uint64_t number);

#endif
