/* The report through $PAGER or less where standard output is a terminal, plain otherwise. */
#include "pager.h"

#include <errno.h>
#include <signal.h>
#include <stdlib.h>
#include <sys/types.h>
#include <sys/wait.h>
#include <unistd.h>

#include "output.h"
#include "show.h"

enum { NOT_FOUND = 127 }; /* what a shell ends with where it does not find the command */

/* Writes the report to standard output. */
static bool put_report_plain(const outline *o)
{
    put_report(stdout, o);
    return flush_standard_output();
}

/* In the child: becomes the pager, which reads from the pipe. */
static _Noreturn void become_pager(const int pipe_ends[2])
{
    const char *pager = getenv("PAGER");
    dup2(pipe_ends[0], STDIN_FILENO);
    close(pipe_ends[0]);
    close(pipe_ends[1]);
    signal(SIGPIPE, SIG_DFL);
    signal(SIGINT, SIG_DFL);
    setenv("LESS", "FSX", 0); /* end at once where it fits on one screen; keep columns unbroken */
    execl("/bin/sh", "sh", "-c", pager != NULL && *pager != '\0' ? pager : "less", (char *)NULL);
    _exit(NOT_FOUND);
}

/* Writes the report into the pipe. The reader may leave before the end; that is no trouble. */
static void put_report_into(int pipe_end, const outline *o)
{
    FILE *to = fdopen(pipe_end, "w");
    if (to == NULL) {
        close(pipe_end);
        return;
    }
    put_report(to, o);
    fclose(to);
}

/* How the pager ended; 0 where a signal ended it. */
static int wait_for(pid_t pager)
{
    int status;
    while (waitpid(pager, &status, 0) < 0)
        if (errno != EINTR)
            return 0;
    return WIFEXITED(status) ? WEXITSTATUS(status) : 0;
}

/* Starts the pager and hands it the report; how it ended, or -1 where it could not be started. */
static int run_pager(const outline *o)
{
    int pipe_ends[2];
    if (pipe(pipe_ends) != 0)
        return -1;
    pid_t pager = fork();
    if (pager == 0)
        become_pager(pipe_ends);
    close(pipe_ends[0]);
    if (pager < 0) {
        close(pipe_ends[1]);
        return -1;
    }
    put_report_into(pipe_ends[1], o);
    return wait_for(pager);
}

/* Shows the report by way of the pager; false where there is none. An interrupt from the keyboard
   is the pager's to answer while it runs. */
static bool page(const outline *o)
{
    fflush(stdout);
    signal(SIGINT, SIG_IGN);
    int status = run_pager(o);
    signal(SIGINT, SIG_DFL);
    return status >= 0 && status != NOT_FOUND;
}

/* Shows the report, page by page on a terminal; false, and told, where it can't. */
bool put_report_paged(const outline *o)
{
    if (isatty(STDOUT_FILENO) && page(o))
        return true;
    return put_report_plain(o);
}
