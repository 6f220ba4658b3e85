/* The commands, as main.c hands them their arguments; each answers how the program ends. */
#ifndef COMMANDS_H
#define COMMANDS_H

#include <stddef.h>

#include "status.h"

/* How show prints a file. */
typedef enum { REPORT, AS_JSON, AS_CSV } output_format;

/* A command's arguments: its operands in order, the file of -o, NULL where there is none, and the format
   asked for. */
typedef struct {
    char **operands;
    size_t count;
    const char *out;
    output_format format;
} arguments;

int summary_command(const arguments *a);
int show_command(const arguments *a);
int screen_command(const arguments *a);
int split_command(const arguments *a);
int combine_command(const arguments *a);
int check_command(const arguments *a);
int explain_command(const arguments *a);
int codes_command(const arguments *a);

#endif
