/* Calls that send and receive by a descriptor, and what they load and store. What is sent is signalled
 * before, and who received something waits for it. */
#include <signal.h>
#include <sys/epoll.h>
#include <sys/eventfd.h>
#include <sys/socket.h>
#include <sys/syscall.h>
#include <sys/uio.h>
#include "channels.h"

static void loads(const void *at, size_t size, uintptr_t place) { record_range(READ, at, size, place); }
static ssize_t got(int file, void *at, ssize_t size, uintptr_t place) {
    if (size <= 0) return size;
    receives(file, place);
    record_range(WRITE, at, (size_t)size, place);
    return size;
}
static ssize_t got_parts(int file, const struct iovec *parts, size_t count, ssize_t size, uintptr_t place) {
    size_t left = size > 0 ? (size_t)size : 0;
    if (left) receives(file, place);
    for (size_t i = 0; i < count && left; i++) {
        size_t here = parts[i].iov_len < left ? parts[i].iov_len : left;
        record_range(WRITE, parts[i].iov_base, here, place);
        left -= here;
    }
    return size;
}
static void sends_parts(int file, const struct iovec *parts, size_t count, uintptr_t place) {
    for (size_t i = 0; i < count; i++) loads(parts[i].iov_base, parts[i].iov_len, place);
    sends(file, place);
}

ssize_t read(int file, void *at, size_t size) { return got(file, at, REAL(read)(file, at, size), PLACE); }
ssize_t recv(int file, void *at, size_t size, int flags) {
    return got(file, at, REAL(recv)(file, at, size, flags), PLACE);
}
ssize_t recvfrom(int file, void *at, size_t size, int flags, struct sockaddr *from, socklen_t *length) {
    return got(file, at, REAL(recvfrom)(file, at, size, flags, from, length), PLACE);
}
ssize_t readv(int file, const struct iovec *parts, int count) {
    return got_parts(file, parts, (size_t)count, REAL(readv)(file, parts, count), PLACE);
}
ssize_t recvmsg(int file, struct msghdr *message, int flags) {
    ssize_t size = REAL(recvmsg)(file, message, flags);
    return got_parts(file, message->msg_iov, message->msg_iovlen, size, PLACE);
}
ssize_t pread(int file, void *at, size_t size, off_t offset) {
    return got(-1, at, REAL(pread)(file, at, size, offset), PLACE);
}
ssize_t pread64(int file, void *at, size_t size, off64_t offset) {
    return got(-1, at, REAL(pread64)(file, at, size, offset), PLACE);
}

ssize_t write(int file, const void *at, size_t size) {
    loads(at, size, PLACE);
    sends(file, PLACE);
    return REAL(write)(file, at, size);
}
ssize_t send(int file, const void *at, size_t size, int flags) {
    loads(at, size, PLACE);
    sends(file, PLACE);
    return REAL(send)(file, at, size, flags);
}
ssize_t sendto(int file, const void *at, size_t size, int flags, const struct sockaddr *to,
               socklen_t length) {
    loads(at, size, PLACE);
    sends(file, PLACE);
    return REAL(sendto)(file, at, size, flags, to, length);
}
ssize_t writev(int file, const struct iovec *parts, int count) {
    sends_parts(file, parts, (size_t)count, PLACE);
    return REAL(writev)(file, parts, count);
}
ssize_t sendmsg(int file, const struct msghdr *message, int flags) {
    sends_parts(file, message->msg_iov, message->msg_iovlen, PLACE);
    return REAL(sendmsg)(file, message, flags);
}
ssize_t pwrite(int file, const void *at, size_t size, off_t offset) {
    loads(at, size, PLACE);
    return REAL(pwrite)(file, at, size, offset);
}
ssize_t pwrite64(int file, const void *at, size_t size, off64_t offset) {
    loads(at, size, PLACE);
    return REAL(pwrite64)(file, at, size, offset);
}

int eventfd_write(int file, eventfd_t value) {
    sends(file, PLACE);
    return REAL(eventfd_write)(file, value);
}
int eventfd_read(int file, eventfd_t *value) {
    int failed = REAL(eventfd_read)(file, value);
    if (!failed) receives(file, PLACE);
    return failed;
}

/* Who is told of a descriptor's event is told what was registered with it. */
int epoll_ctl(int file, int operation, int of, struct epoll_event *event) {
    sends(file, PLACE);
    return REAL(epoll_ctl)(file, operation, of, event);
}
static int told(int file, struct epoll_event *events, int count, uintptr_t place) {
    if (count <= 0) return count;
    receives(file, place);
    record_range(WRITE, events, (size_t)count * sizeof *events, place);
    return count;
}
int epoll_wait(int file, struct epoll_event *events, int most, int time) {
    return told(file, events, REAL(epoll_wait)(file, events, most, time), PLACE);
}
int epoll_pwait(int file, struct epoll_event *events, int most, int time, const sigset_t *signals) {
    return told(file, events, REAL(epoll_pwait)(file, events, most, time, signals), PLACE);
}

/* A signal that a thread is sent, and waits for. */
static int is_number(int number) { return number > 0 && number < 256; }
static void raised(int number, uintptr_t place) {
    if (is_number(number)) record_sync(POST, SIGNALS + (uintptr_t)number, 0, place);
}
static void taken(int number, uintptr_t place) {
    if (is_number(number)) record_sync(WAIT, SIGNALS + (uintptr_t)number, 0, place);
}
int pthread_kill(pthread_t thread, int number) {
    raised(number, PLACE);
    return REAL(pthread_kill)(thread, number);
}
int kill(pid_t process, int number) {
    raised(number, PLACE);
    return REAL(kill)(process, number);
}
int pthread_sigqueue(pthread_t thread, int number, const union sigval value) {
    raised(number, PLACE);
    return REAL(pthread_sigqueue)(thread, number, value);
}
int sigwait(const sigset_t *set, int *number) {
    int failed = REAL(sigwait)(set, number);
    if (!failed) taken(*number, PLACE);
    return failed;
}
int sigwaitinfo(const sigset_t *set, siginfo_t *about) {
    int number = REAL(sigwaitinfo)(set, about);
    taken(number, PLACE);
    return number;
}
int sigtimedwait(const sigset_t *set, siginfo_t *about, const struct timespec *time) {
    int number = REAL(sigtimedwait)(set, about, time);
    taken(number, PLACE);
    return number;
}
