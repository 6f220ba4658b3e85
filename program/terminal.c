/* The terminal: taken over and given back whatever happens, its size, and its keys. */
#include "terminal.h"

#include <errno.h>
#include <fcntl.h>
#include <stdlib.h>
#include <string.h>
#include <sys/ioctl.h>
#include <sys/select.h>
#include <termios.h>
#include <unistd.h>

#include "escapes.h"
#include "message.h"
#include "signals.h"

/* What takes the terminal's screen over, and what gives it back. */
static const char taking[] = OTHER_SCREEN HIDE_CURSOR CUT_LONG_ROWS;
static const char giving[] = WRAP_LONG_ROWS SHOW_CURSOR PLAIN_LOOK FIRST_SCREEN;

enum { ROWS = 24, COLUMNS = 80, SEQUENCE_ROOM = 8, REST_OF_KEY = 50 /* milliseconds */ };

/* What signals need: the terminal while it is taken over, how it was before, what has come. */
static volatile sig_atomic_t taken = -1;
static struct termios before;
static sigset_t unheld;
static volatile sig_atomic_t resized, stopped, ended;

static const int noted_signals[] = {SIGHUP, SIGINT, SIGQUIT, SIGTERM, SIGTSTP, SIGWINCH};
static const int crash_signals[] = {SIGABRT, SIGBUS, SIGFPE, SIGILL, SIGSEGV};
#define COUNT_OF(list) (sizeof(list) / sizeof((list)[0]))

/* Gives the terminal back as it was; safe inside a signal. */
static void give_back(void)
{
    if (taken < 0)
        return;
    ssize_t put = write(taken, giving, sizeof giving - 1);
    (void)put; /* nothing is left to be done where the terminal is gone */
    tcsetattr(taken, TCSADRAIN, &before);
    taken = -1;
}

/* Gives the terminal back before a fault of the program ends it. */
static void give_back_and_end(int number)
{
    give_back();
    end_by_signal(number);
}

/* Notes a signal; wait_for_key answers it. */
static void note_signal(int number)
{
    if (number == SIGWINCH)
        resized = 1;
    else if (number == SIGTSTP)
        stopped = 1;
    else
        ended = number;
}

/* Takes the terminal over: keys come one by one and unseen, signals from the keyboard stay. */
static bool take_over(int fd)
{
    if (tcgetattr(fd, &before) != 0)
        return false;
    struct termios raw = before;
    raw.c_iflag &= ~(tcflag_t)(ICRNL | INLCR | IXON);
    raw.c_lflag &= ~(tcflag_t)(ECHO | ICANON | IEXTEN);
    raw.c_cc[VMIN] = 1;
    raw.c_cc[VTIME] = 0;
    taken = fd;
    if (tcsetattr(fd, TCSADRAIN, &raw) != 0) {
        taken = -1;
        return false;
    }
    ssize_t put = write(fd, taking, sizeof taking - 1);
    return put == (ssize_t)sizeof taking - 1;
}

/* Asks how large the terminal is. */
static void measure(terminal *t)
{
    struct winsize size;
    bool known = ioctl(t->fd, TIOCGWINSZ, &size) == 0 && size.ws_row > 0 && size.ws_col > 0;
    t->canvas.rows = known ? size.ws_row : ROWS;
    t->canvas.columns = known ? size.ws_col : COLUMNS;
}

/* Whether the terminal is of a kind that can move its cursor. */
static bool is_capable(void)
{
    const char *kind = getenv("TERM");
    return kind != NULL && *kind != '\0' && strcmp(kind, "dumb") != 0;
}

/* Opens the terminal and takes it over; tells and answers false where there is none. */
bool open_terminal(terminal *t)
{
    if (!is_capable()) {
        complain("screen: needs a terminal that can move its cursor (TERM names none); try 'bai2 show'");
        return false;
    }
    t->fd = open("/dev/tty", O_RDWR | O_CLOEXEC);
    t->canvas.to = t->fd < 0 ? NULL : fdopen(t->fd, "w");
    if (t->canvas.to == NULL) {
        complain("screen: needs a terminal: %s", strerror(errno));
        return false;
    }
    unheld = hold_signals(noted_signals, COUNT_OF(noted_signals));
    on_signals(noted_signals, COUNT_OF(noted_signals), note_signal);
    on_signals(crash_signals, COUNT_OF(crash_signals), give_back_and_end);
    atexit(give_back);
    if (!take_over(t->fd)) {
        complain("screen: can't take over the terminal: %s", strerror(errno));
        close_terminal(t);
        return false;
    }
    measure(t);
    return true;
}

/* Gives the terminal back; where a signal asked to end, the program ends by it. */
void close_terminal(terminal *t)
{
    give_back();
    fclose(t->canvas.to);
    on_signals(noted_signals, COUNT_OF(noted_signals), SIG_DFL);
    on_signals(crash_signals, COUNT_OF(crash_signals), SIG_DFL);
    sigprocmask(SIG_SETMASK, &unheld, NULL);
    if (ended != 0)
        end_by_signal(ended);
}

/* Stops as the keyboard asked, and takes the terminal over again once continued. */
static void stop_and_continue(terminal *t)
{
    static const int stop[] = {SIGTSTP};
    stopped = 0;
    give_back();
    on_signals(stop, 1, SIG_DFL);
    raise(SIGTSTP);
    sigset_t held;
    sigprocmask(SIG_SETMASK, &unheld, &held); /* here the program stops */
    sigprocmask(SIG_SETMASK, &held, NULL);
    on_signals(stop, 1, note_signal);
    if (ended == 0 && !take_over(t->fd))
        ended = SIGHUP;
}

/* Whether there is something to read before the time has passed; -1 milliseconds is any time.
   Signals come through only here. */
static bool is_readable(int fd, long milliseconds)
{
    fd_set set;
    struct timespec time = {0, milliseconds * 1000000};
    FD_ZERO(&set);
    FD_SET(fd, &set);
    return pselect(fd + 1, &set, NULL, NULL, milliseconds < 0 ? NULL : &time, &unheld) > 0;
}

/* The key that an escape sequence stands for. */
static key key_of_sequence(const char *sequence)
{
    static const struct {
        const char *sequence;
        key key;
    } keys[] = {
        {"[A", KEY_UP},       {"OA", KEY_UP},         {"[B", KEY_DOWN},  {"OB", KEY_DOWN},
        {"[C", KEY_RIGHT},    {"OC", KEY_RIGHT},      {"[D", KEY_LEFT},  {"OD", KEY_LEFT},
        {"[5~", KEY_PAGE_UP}, {"[6~", KEY_PAGE_DOWN}, {"[H", KEY_HOME},  {"OH", KEY_HOME},
        {"[1~", KEY_HOME},    {"[7~", KEY_HOME},      {"[F", KEY_END},   {"OF", KEY_END},
        {"[4~", KEY_END},     {"[8~", KEY_END},
    };
    for (size_t i = 0; i < COUNT_OF(keys); i++)
        if (strcmp(sequence, keys[i].sequence) == 0)
            return keys[i].key;
    return KEY_OTHER;
}

/* Whether this byte is the last one of an escape sequence. */
static bool ends_sequence(size_t index, char byte)
{
    return index > 0 && byte >= '@' && byte <= '~';
}

/* The key whose escape byte was read: what follows at once belongs to it. */
static key rest_of_key(int fd)
{
    char sequence[SEQUENCE_ROOM] = "";
    for (size_t i = 0; i + 1 < sizeof sequence && is_readable(fd, REST_OF_KEY); i++) {
        if (read(fd, &sequence[i], 1) != 1)
            return KEY_GONE;
        if (ends_sequence(i, sequence[i]))
            break;
    }
    return sequence[0] == '\0' ? KEY_ESCAPE : key_of_sequence(sequence);
}

/* Reads one key that has come. */
static key read_key(int fd)
{
    unsigned char byte;
    ssize_t got = read(fd, &byte, 1);
    if (got <= 0)
        return got < 0 && errno == EINTR ? KEY_OTHER : KEY_GONE;
    if (byte == KEY_ESCAPE)
        return rest_of_key(fd);
    if (byte == '\n')
        return KEY_ENTER;
    return byte == '\b' ? KEY_ERASE : (key)byte;
}

/* Waits for the next key, a new size, or the end. */
key wait_for_key(terminal *t)
{
    for (;;) {
        if (stopped != 0) {
            stop_and_continue(t);
            resized = 1;
        }
        if (ended != 0)
            return KEY_GONE;
        if (resized != 0) {
            resized = 0;
            measure(t);
            return KEY_RESIZED;
        }
        if (is_readable(t->fd, -1))
            return read_key(t->fd);
    }
}
