/* Writing a result: to standard output, or to a file that is afterwards whole or as it was. */
#include "output.h"

#include <errno.h>
#include <fcntl.h>
#include <limits.h>
#include <stdlib.h>
#include <string.h>
#include <sys/stat.h>
#include <unistd.h>

#include "message.h"
#include "signals.h"
#include "status.h"

/* What signals need: the temporary file to be removed, empty while there is none. */
static char unfinished[PATH_MAX];

static const int ending_signals[] = {SIGHUP, SIGINT, SIGQUIT, SIGTERM};
enum { ENDING_SIGNALS = sizeof ending_signals / sizeof ending_signals[0] };

/* Removes the temporary file and ends by the signal's own rule. */
static void remove_and_end(int number)
{
    unlink(unfinished);
    end_by_signal(number);
}

/* Writes all bytes; false, with errno, where it can't. */
static bool write_all(int to, slice bytes)
{
    while (bytes.length > 0) {
        ssize_t put = write(to, bytes.bytes, bytes.length);
        if (put < 0 && errno != EINTR)
            return false;
        if (put > 0)
            bytes = part_of(bytes, (size_t)put, bytes.length);
    }
    return true;
}

/* The permissions for the result: those of the file it replaces, else what the umask leaves. */
static mode_t mode_for(const struct stat *old)
{
    if (old != NULL)
        return old->st_mode & 0777;
    mode_t mask = umask(0);
    umask(mask);
    return 0666 & ~mask;
}

/* Makes the temporary file beside the target; its descriptor, or -1 with errno. */
static int open_unfinished(const char *target)
{
    const char *slash = strrchr(target, '/');
    int folder = slash == NULL ? 0 : (int)(slash - target) + 1;
    char path[PATH_MAX];
    int length = snprintf(path, sizeof path, "%.*s.bai2-XXXXXX", folder, target);
    if (length < 0 || (size_t)length >= sizeof path) {
        errno = ENAMETOOLONG;
        return -1;
    }
    int to = mkstemp(path);
    if (to >= 0)
        memcpy(unfinished, path, sizeof path);
    return to;
}

/* Fills the temporary file and gives it the target's name; false, with errno, where it can't. */
static bool fill_and_rename(int to, const char *target, const struct stat *old, slice result)
{
    bool good = write_all(to, result) && fchmod(to, mode_for(old)) == 0 && fsync(to) == 0;
    int why = errno;
    if (close(to) != 0 && good) {
        good = false;
        why = errno;
    }
    sigset_t before = hold_signals(ending_signals, ENDING_SIGNALS);
    if (good && rename(unfinished, target) != 0) {
        good = false;
        why = errno;
    }
    if (!good)
        unlink(unfinished);
    on_signals(ending_signals, ENDING_SIGNALS, SIG_DFL);
    sigprocmask(SIG_SETMASK, &before, NULL);
    errno = why;
    return good;
}

/* Puts the result in place of the target; false, with errno and the target as it was, where it
   can't. */
static bool replace(const char *target, const struct stat *old, slice result)
{
    sigset_t before = hold_signals(ending_signals, ENDING_SIGNALS);
    int to = open_unfinished(target);
    int why = errno;
    if (to >= 0)
        on_signals(ending_signals, ENDING_SIGNALS, remove_and_end);
    sigprocmask(SIG_SETMASK, &before, NULL);
    errno = why;
    return to >= 0 && fill_and_rename(to, target, old, result);
}

/* Writes the result into something that is not a plain file, a device or a named pipe. */
static bool write_into(const char *path, slice result)
{
    int to = open(path, O_WRONLY | O_CLOEXEC);
    if (to < 0)
        return false;
    bool good = write_all(to, result);
    int why = errno;
    if (close(to) != 0 && good)
        return false;
    errno = why;
    return good;
}

/* Writes the result to the file of that path; false, with errno, where it can't. A link is
   followed, so that the file it leads to is the one replaced. */
static bool write_file(const char *path, slice result)
{
    struct stat old;
    if (stat(path, &old) != 0)
        return errno == ENOENT && replace(path, NULL, result);
    if (!S_ISREG(old.st_mode))
        return write_into(path, result);
    char target[PATH_MAX];
    return realpath(path, target) != NULL && replace(target, &old, result);
}

/* Writes the result to the file of that path, or to standard output where it is NULL; tells the
   trouble and answers false where it can't. */
bool write_result(const char *path, slice result)
{
    if (path == NULL ? write_all(STDOUT_FILENO, result) : write_file(path, result))
        return true;
    complain("can't write %s: %s", path == NULL ? "standard output" : path, strerror(errno));
    return false;
}

/* Hands on what was printed so far; tells the trouble and answers false where it can't. */
bool flush_standard_output(void)
{
    if (fflush(stdout) == 0 && !ferror(stdout))
        return true;
    complain("can't write standard output: %s", strerror(errno));
    return false;
}

/* How the program ends after an answer that was printed: good, or with the trouble told. */
int printed(void)
{
    return flush_standard_output() ? GOOD : TROUBLE;
}
