/* The number of a descriptor is given out again once it was closed. Who gets it waits for who closed it: any
 * earlier it would have been another number. */
#include <fcntl.h>
#include <signal.h>
#include <stdarg.h>
#include <sys/epoll.h>
#include <sys/eventfd.h>
#include <sys/signalfd.h>
#include <sys/socket.h>
#include <sys/timerfd.h>
#include "channels.h"

static int is_number(int file) { return file >= 0 && file < ADDRESSES - NUMBERS; }

/* The number is about to be free; NULL where this was not recorded. */
struct event *frees_number(int file, uintptr_t place) {
    return is_number(file) ? record_sync(SIGNAL, NUMBERS + (uintptr_t)file, 0, place) : NULL;
}

/* The call answered this number, or failed. */
int got_number(int file, uintptr_t place) {
    if (is_number(file)) record_sync(WAIT, NUMBERS + (uintptr_t)file, 0, place);
    return file;
}
int got_numbers(int failed, const int files[2], uintptr_t place) {
    if (failed) return failed;
    got_number(files[0], place);
    got_number(files[1], place);
    return failed;
}

int accept(int file, struct sockaddr *from, socklen_t *length) {
    return got_number(REAL(accept)(file, from, length), PLACE);
}
int accept4(int file, struct sockaddr *from, socklen_t *length, int flags) {
    return got_number(REAL(accept4)(file, from, length, flags), PLACE);
}
int socket(int family, int type, int protocol) {
    return got_number(REAL(socket)(family, type, protocol), PLACE);
}
int pipe(int files[2]) { return got_numbers(REAL(pipe)(files), files, PLACE); }
int pipe2(int files[2], int flags) { return got_numbers(REAL(pipe2)(files, flags), files, PLACE); }
int eventfd(unsigned count, int flags) { return got_number(REAL(eventfd)(count, flags), PLACE); }
int epoll_create(int size) { return got_number(REAL(epoll_create)(size), PLACE); }
int epoll_create1(int flags) { return got_number(REAL(epoll_create1)(flags), PLACE); }
int timerfd_create(clockid_t clock, int flags) {
    return got_number(REAL(timerfd_create)(clock, flags), PLACE);
}
int signalfd(int file, const sigset_t *signals, int flags) {
    return got_number(REAL(signalfd)(file, signals, flags), PLACE);
}

int dup(int file) { return got_number(REAL(dup)(file), PLACE); }
static int commanded(int command, int answer, uintptr_t place) {
    return command == F_DUPFD || command == F_DUPFD_CLOEXEC ? got_number(answer, place) : answer;
}
int fcntl(int file, int command, ...) {
    va_list more;
    va_start(more, command);
    void *argument = va_arg(more, void *);
    va_end(more);
    return commanded(command, REAL(fcntl)(file, command, argument), PLACE);
}
int fcntl64(int file, int command, ...) {
    va_list more;
    va_start(more, command);
    void *argument = va_arg(more, void *);
    va_end(more);
    return commanded(command, REAL(fcntl64)(file, command, argument), PLACE);
}

static mode_t mode_in(va_list more, int flags) { return __OPEN_NEEDS_MODE(flags) ? va_arg(more, mode_t) : 0; }
int open(const char *path, int flags, ...) {
    va_list more;
    va_start(more, flags);
    mode_t mode = mode_in(more, flags);
    va_end(more);
    return got_number(REAL(open)(path, flags, mode), PLACE);
}
int open64(const char *path, int flags, ...) {
    va_list more;
    va_start(more, flags);
    mode_t mode = mode_in(more, flags);
    va_end(more);
    return got_number(REAL(open64)(path, flags, mode), PLACE);
}
int openat(int folder, const char *path, int flags, ...) {
    va_list more;
    va_start(more, flags);
    mode_t mode = mode_in(more, flags);
    va_end(more);
    return got_number(REAL(openat)(folder, path, flags, mode), PLACE);
}
int openat64(int folder, const char *path, int flags, ...) {
    va_list more;
    va_start(more, flags);
    mode_t mode = mode_in(more, flags);
    va_end(more);
    return got_number(REAL(openat64)(folder, path, flags, mode), PLACE);
}

static FILE *got_stream(FILE *stream, uintptr_t place) {
    if (stream) got_number(fileno(stream), place);
    return stream;
}
FILE *fopen(const char *path, const char *mode) { return got_stream(REAL(fopen)(path, mode), PLACE); }
FILE *fopen64(const char *path, const char *mode) { return got_stream(REAL(fopen64)(path, mode), PLACE); }
int fclose(FILE *stream) {
    frees_number(fileno(stream), PLACE);
    return REAL(fclose)(stream);
}
