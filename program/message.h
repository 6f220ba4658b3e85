/* Messages on standard error. */
#ifndef MESSAGE_H
#define MESSAGE_H

#include <stdio.h>

#ifdef __GNUC__
__attribute__((format(printf, 1, 2)))
#endif
void complain(const char *format, ...);

void put_name(FILE *to, const char *name);
_Noreturn void out_of_memory(void);

#endif
