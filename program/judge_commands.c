/* The commands that judge files: summary and check. */
#include <errno.h>
#include <inttypes.h>
#include <stdio.h>
#include <string.h>
#include <unistd.h>

#include "bai2.h"
#include "commands.h"
#include "escapes.h"
#include "input.h"
#include "message.h"
#include "output.h"
#include "refusal.h"

enum { MANY = 4 }; /* from so many files on, a terminal gets a progress line */

/* Prints an accepted file's figures. */
static void put_figures(bai2_summary s)
{
    printf("ok %" PRId64 " %" PRIu64 " %" PRIu64 " %" PRIu64 " %" PRIu64 "\n", s.total, s.groups,
           s.accounts, s.details, s.records);
}

/* bai2 summary FILE: one line, the figures or the refusal's number and place; a refusal also in words. */
int summary_command(const arguments *a)
{
    input in;
    if (!load(&in, a->operands[0]))
        return REFUSED;
    bai2_summary s = bai2_read(in.file.bytes, in.file.length);
    if (s.number == 0)
        put_figures(s);
    else
        printf("refused %" PRIu64 " %" PRIu64 "\n", s.number, s.place);
    bool written = flush_standard_output();
    if (s.number != 0)
        tell_refusal(stderr, in.name, in.file, s.number, s.place);
    unload(&in);
    return !written ? TROUBLE : s.number == 0 ? GOOD : REFUSED;
}

/* Judges one file and prints its line; whether it was accepted. */
static bool check_file(const char *path)
{
    input in;
    bool readable = fetch(&in, path);
    int why = errno;
    put_name(stdout, in.name);
    fputs(": ", stdout);
    if (!readable) {
        printf("can't be read: %s\n", strerror(why));
        return false;
    }
    bai2_summary s = bai2_read(in.file.bytes, in.file.length);
    if (s.number != 0)
        tell_refusal_briefly(stdout, in.file, s.number, s.place);
    else
        put_figures(s);
    unload(&in);
    return s.number == 0;
}

/* Rewrites the progress line. */
static void put_progress(size_t done, size_t all, size_t bad)
{
    fprintf(stderr, "\rchecked %zu of %zu, not accepted: %zu ", done, all, bad);
}

/* Wipes the progress line away. */
static void wipe_progress(void)
{
    fputs("\r" WIPE_REST_OF_ROW, stderr);
}

/* bai2 check FILE..: a line for each file; refused where any is not accepted. */
int check_command(const arguments *a)
{
    bool progress = a->count >= MANY && isatty(STDERR_FILENO);
    size_t bad = 0;
    for (size_t i = 0; i < a->count; i++) {
        if (progress)
            wipe_progress();
        if (!check_file(a->operands[i]))
            bad++;
        if (!flush_standard_output())
            return TROUBLE;
        if (progress)
            put_progress(i + 1, a->count, bad);
    }
    if (progress)
        fputc('\n', stderr);
    return bad == 0 ? GOOD : REFUSED;
}
