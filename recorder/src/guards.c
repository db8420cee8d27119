/* Calls by which a program closes files, also such that it did not open, as daemons do: the recorder's own
 * stay open. */
#include <fcntl.h>
#include <sys/syscall.h>
#include "channels.h"

int close(int file) {
    if (is_own_file(file)) {
        errno = EBADF;
        return -1;
    }
    struct event *event = frees_number(file, PLACE);
    int failed = REAL(close)(file);
    if (failed && errno == EBADF) take_back(event);
    return failed;
}

/* Closes the range, but for the recorder's files. */
static int close_between(unsigned first, unsigned last, int flags) {
    while (first <= last) {
        unsigned own = next_own_file(first);
        unsigned end = own <= last ? own : last + 1;
        if (end > first && syscall(SYS_close_range, first, end - 1, flags) != 0) return -1;
        if (end > last || end == 0) return 0;
        first = end + 1;
    }
    return 0;
}
int close_range(unsigned first, unsigned last, int flags) {
    if (first > last) {
        errno = EINVAL;
        return -1;
    }
    return close_between(first, last < INT32_MAX ? last : INT32_MAX, flags);
}
void closefrom(int first) { close_between(first < 0 ? 0 : (unsigned)first, INT32_MAX, 0); }

int dup2(int from, int to) {
    move_own_file(to);
    return REAL(dup2)(from, to);
}
int dup3(int from, int to, int flags) {
    move_own_file(to);
    return REAL(dup3)(from, to, flags);
}
