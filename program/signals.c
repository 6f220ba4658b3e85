/* Signals: who answers them, and holding them back. */
#include "signals.h"

/* Has the handler answer each of these signals; those that are ignored stay ignored. */
void on_signals(const int *numbers, size_t count, void (*handler)(int))
{
    for (size_t i = 0; i < count; i++) {
        struct sigaction action;
        if (sigaction(numbers[i], NULL, &action) != 0 || action.sa_handler == SIG_IGN)
            continue;
        action.sa_handler = handler;
        action.sa_flags = 0;
        sigemptyset(&action.sa_mask);
        sigaction(numbers[i], &action, NULL);
    }
}

/* Holds these signals back; answers the mask that lets them through again. */
sigset_t hold_signals(const int *numbers, size_t count)
{
    sigset_t held, before;
    sigemptyset(&held);
    for (size_t i = 0; i < count; i++)
        sigaddset(&held, numbers[i]);
    sigprocmask(SIG_BLOCK, &held, &before);
    return before;
}

/* Lets the signal have its own effect on the program. */
void end_by_signal(int number)
{
    struct sigaction action = {0};
    action.sa_handler = SIG_DFL;
    sigaction(number, &action, NULL);
    raise(number);
}
