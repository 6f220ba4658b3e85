/* bai2: looks at, splits, combines and checks BAI2 cash files. */
#include <fcntl.h>
#include <getopt.h>
#include <signal.h>
#include <stdbool.h>
#include <stdio.h>
#include <stdlib.h>
#include <string.h>

#include "commands.h"
#include "message.h"
#include "output.h"

#ifndef VERSION
#define VERSION "unknown"
#endif

typedef struct {
    const char *name;
    int (*run)(const arguments *a);
    size_t least, most;
    enum { NO_OPTION, OUTPUT, FORMAT } takes; /* -o; --json or --csv */
    const char *operands, *purpose;
} command;

static const command commands[] = {
    {"summary", summary_command, 1, 1, NO_OPTION, "FILE",
     "one line: ok and the figures, or refused NUMBER PLACE"},
    {"show", show_command, 1, 1, FORMAT, "[--json|--csv] FILE", "groups, accounts and details in columns"},
    {"screen", screen_command, 1, 1, NO_OPTION, "FILE", "the same as a tree to move about in"},
    {"check", check_command, 1, (size_t)-1, NO_OPTION, "FILE..", "a line for each file"},
    {"split", split_command, 2, 2, OUTPUT, "[-o OUT] NAME FILE", "only the groups of one receiver"},
    {"combine", combine_command, 2, 2, OUTPUT, "[-o OUT] A B", "the groups of two files in one"},
    {"explain", explain_command, 0, 1, NO_OPTION, "[NUMBER]", "what a refusal means, and what to do"},
    {"codes", codes_command, 0, (size_t)-1, NO_OPTION, "[CODE..]", "what type codes stand for"},
};
enum { COMMANDS = sizeof commands / sizeof commands[0] };

static const struct option program_options[] = {
    {"help", no_argument, NULL, 'h'},
    {"version", no_argument, NULL, 'v'},
    {NULL, 0, NULL, 0},
};

/* The options of commands, by what they take. */
static const struct option command_options[][4] = {
    [NO_OPTION] = {{"help", no_argument, NULL, 'h'}},
    [OUTPUT] = {{"output", required_argument, NULL, 'o'}, {"help", no_argument, NULL, 'h'}},
    [FORMAT] = {{"json", no_argument, NULL, 'j'}, {"csv", no_argument, NULL, 'c'}, {"help", no_argument, NULL, 'h'}},
};

/* What a command's arguments ask for. */
typedef enum { TO_RUN, FOR_HELP, NOT_UNDERSTOOD } request;

enum { OPERAND = 1 }; /* what getopt_long answers for one, where letters begin with a minus */

/* Prints how the program is used. */
static void put_usage(FILE *to)
{
    fputs("usage: bai2 COMMAND ..\n", to);
    for (size_t i = 0; i < COMMANDS; i++)
        fprintf(to, "  bai2 %-7s %-19s  %s\n", commands[i].name, commands[i].operands,
                commands[i].purpose);
    fputs("A FILE of - is standard input. A COMMAND with --help tells its options. Status: 0 accepted,\n"
          "1 refused or not readable, 2 wrong usage, 3 the answer can't be written or shown. See bai2(1).\n",
          to);
}

/* Prints how one command is used. */
static void put_command_usage(FILE *to, const command *c)
{
    fprintf(to, "usage: bai2 %s %s\n", c->name, c->operands);
}

/* Prints how one command is used, and what it is for. */
static void put_command_help(const command *c)
{
    put_command_usage(stdout, c);
    printf("  %s\n", c->purpose);
    if (c->takes == OUTPUT)
        puts("  -o OUT, --output=OUT  writes to the file OUT instead of standard output");
    if (c->takes == FORMAT)
        puts("  --json                a JSON object a line for each record and item, with all fields\n"
             "  --csv                 the same as comma-separated values, for a spreadsheet");
    puts("  -h, --help            says how the command is used");
}

/* Takes what stands after -- as operands; whether the command takes so many as there are now. */
static request take_rest(const command *c, int argc, char **argv, arguments *a)
{
    while (optind < argc)
        a->operands[a->count++] = argv[optind++];
    return a->count >= c->least && a->count <= c->most ? TO_RUN : NOT_UNDERSTOOD;
}

/* Notes the format asked for; tells and answers false where it was another one before. */
static bool take_format(const command *c, arguments *a, output_format format)
{
    if (a->format != REPORT && a->format != format) {
        complain("%s: --json and --csv exclude each other", c->name);
        return false;
    }
    a->format = format;
    return true;
}

/* Sorts a command's arguments, of which the first is its name, into options and operands. */
static request sort_arguments(const command *c, int argc, char **argv, arguments *a)
{
    const char *letters = c->takes == OUTPUT ? "-:ho:" : "-:h"; /* options may stand after operands */
    bool good = true;
    optind = 0; /* which has getopt_long begin anew */
    while (good) {
        const char *word = argv[optind == 0 ? 1 : optind];
        switch (getopt_long(argc, argv, letters, command_options[c->takes], NULL)) {
        case OPERAND: a->operands[a->count++] = optarg; break;
        case 'o': a->out = optarg; break;
        case 'j': good = take_format(c, a, AS_JSON); break;
        case 'c': good = take_format(c, a, AS_CSV); break;
        case 'h': return FOR_HELP;
        case -1: return take_rest(c, argc, argv, a);
        case ':': complain("%s: option %s needs a file", c->name, word); return NOT_UNDERSTOOD;
        default: complain("%s: unknown option %s", c->name, word); return NOT_UNDERSTOOD;
        }
    }
    return NOT_UNDERSTOOD;
}

/* Runs a command with its arguments, of which the first is its name. */
static int run(const command *c, int argc, char **argv)
{
    arguments a = {.operands = argv}; /* operands only move forward over what was read */
    switch (sort_arguments(c, argc, argv, &a)) {
    case TO_RUN: return c->run(&a);
    case FOR_HELP: put_command_help(c); return printed();
    default: put_command_usage(stderr, c); return MISUSED;
    }
}

/* Keeps the standard descriptors taken, so that no file is opened in the place of a closed one;
   each closed one is filled so that using it fails. */
static void keep_standard_descriptors(void)
{
    for (int i = 0; i <= 2; i++)
        if (fcntl(i, F_GETFD) < 0 && open("/dev/null", i == 0 ? O_WRONLY : O_RDONLY) != i)
            exit(TROUBLE);
}

/* Finds the command and runs it. */
static int run_named(int argc, char **argv)
{
    const char *name = argc > 0 ? argv[0] : "";
    if (strcmp(name, "help") == 0) {
        put_usage(stdout);
        return printed();
    }
    for (size_t i = 0; i < COMMANDS; i++)
        if (strcmp(name, commands[i].name) == 0)
            return run(&commands[i], argc, argv);
    if (*name != '\0')
        complain("unknown command %s", name);
    put_usage(stderr);
    return MISUSED;
}

/* Answers the program's own options, or runs the command. */
int main(int argc, char **argv)
{
    keep_standard_descriptors();
    signal(SIGPIPE, SIG_IGN); /* so that a closed pipe is told as any failed write */
    signal(SIGXFSZ, SIG_IGN); /* and a file size limit too */
    opterr = 0;               /* what is wrong is told here */
    switch (getopt_long(argc, argv, "+h", program_options, NULL)) {
    case 'h': put_usage(stdout); return printed();
    case 'v': puts("bai2 " VERSION); return printed();
    case -1: return run_named(argc - optind, argv + optind);
    default:
        complain("unknown option %s", argv[1]);
        put_usage(stderr);
        return MISUSED;
    }
}
