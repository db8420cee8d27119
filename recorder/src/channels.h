/* Signals and waits by descriptors. */
#ifndef CHANNELS_H
#define CHANNELS_H
#include <sched.h>
#include "recorder.h"
#pragma GCC visibility push(hidden)
void again_channels(void);
void sends(int file, uintptr_t place);
void receives(int file, uintptr_t place);

/* numbers.c */
struct event *frees_number(int file, uintptr_t place);
int got_number(int file, uintptr_t place);
int got_numbers(int failed, const int files[2], uintptr_t place);
#pragma GCC visibility pop
#endif
