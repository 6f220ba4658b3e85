/* Signals: who answers them, and holding them back. */
#ifndef SIGNALS_H
#define SIGNALS_H

#include <signal.h>
#include <stdbool.h>
#include <stddef.h>

void on_signals(const int *numbers, size_t count, void (*handler)(int));
sigset_t hold_signals(const int *numbers, size_t count);
void end_by_signal(int number);

#endif
