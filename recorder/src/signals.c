/* What one thread signals and another waits for: semaphores, barriers, what is done once, the static
 * variables of C++ functions, and the annotations by which a program tells of locks of its own. */
#include <semaphore.h>
#include <threads.h>
#include <time.h>
#include "recorder.h"

#define WAITS(name, parameters, arguments)                                                                   \
    int name parameters {                                                                                    \
        int failed = REAL(name) arguments;                                                                   \
        if (!failed) record_sync(WAIT, (uintptr_t)at, 0, PLACE);                                             \
        return failed;                                                                                       \
    }
#define TIME const struct timespec *until
WAITS(sem_wait, (sem_t *at), (at))
WAITS(sem_trywait, (sem_t *at), (at))
WAITS(sem_timedwait, (sem_t *at, TIME), (at, until))
WAITS(sem_clockwait, (sem_t *at, clockid_t clock, TIME), (at, clock, until))

int sem_post(sem_t *at) {
    record_sync(POST, (uintptr_t)at, 0, PLACE);
    return REAL(sem_post)(at);
}

int pthread_barrier_init(pthread_barrier_t *at, const pthread_barrierattr_t *attributes, unsigned count) {
    record_sync(BARRIER, (uintptr_t)at, count, PLACE);
    return REAL(pthread_barrier_init)(at, attributes, count);
}
int pthread_barrier_wait(pthread_barrier_t *at) {
    record_sync(ARRIVE, (uintptr_t)at, 0, PLACE);
    int result = REAL(pthread_barrier_wait)(at);
    record_sync(LEAVE, (uintptr_t)at, 0, PLACE);
    return result;
}

/* The work of a `once` is wrapped: whoever did it signals at its end. Work may hold another `once`. */
static _Thread_local struct once {
    void (*work)(void);
    uintptr_t control;
    uintptr_t place;
} once;
static void do_once(void) {
    struct once mine = once;
    mine.work();
    record_sync(SIGNAL, mine.control, 0, mine.place);
}
int pthread_once(pthread_once_t *control, void (*work)(void)) {
    struct once outer = once;
    once = (struct once){ work, (uintptr_t)control, PLACE };
    int failed = REAL(pthread_once)(control, do_once);
    once = outer;
    record_sync(WAIT, (uintptr_t)control, 0, PLACE);
    return failed;
}
void call_once(once_flag *control, void (*work)(void)) {
    struct once outer = once;
    once = (struct once){ work, (uintptr_t)control, PLACE };
    REAL(call_once)(control, do_once);
    once = outer;
    record_sync(WAIT, (uintptr_t)control, 0, PLACE);
}

int __cxa_guard_acquire(uint64_t *guard);
void __cxa_guard_release(uint64_t *guard);
int __cxa_guard_acquire(uint64_t *guard) {
    int is_first = REAL(__cxa_guard_acquire)(guard);
    if (!is_first) record_sync(WAIT, (uintptr_t)guard, 0, PLACE);
    return is_first;
}
void __cxa_guard_release(uint64_t *guard) {
    record_sync(SIGNAL, (uintptr_t)guard, 0, PLACE);
    REAL(__cxa_guard_release)(guard);
}

/* Annotations: a release is a signal after those before it, an acquire waits for all. */
void __tsan_acquire(void *at) { record_sync(WAIT, (uintptr_t)at, 0, PLACE); }
void __tsan_release(void *at) { record_sync(POST, (uintptr_t)at, 0, PLACE); }
#define HAPPENS(name, kind)                                                                                  \
    void name(const char *file, int line, const volatile void *at) {                                         \
        (void)file;                                                                                          \
        (void)line;                                                                                          \
        record_sync(kind, (uintptr_t)at, 0, PLACE);                                                          \
    }
HAPPENS(AnnotateHappensBefore, POST)
HAPPENS(AnnotateHappensAfter, WAIT)
HAPPENS(WTFAnnotateHappensBefore, POST)
HAPPENS(WTFAnnotateHappensAfter, WAIT)
HAPPENS(AnnotateRWLockCreate, FRESH)
HAPPENS(AnnotateRWLockCreateStatic, FRESH)
HAPPENS(AnnotateRWLockDestroy, FRESH)

void AnnotateRWLockAcquired(const char *file, int line, const volatile void *at, long is_write) {
    (void)file;
    (void)line;
    record_sync(is_write ? WRITE_LOCK : READ_LOCK, (uintptr_t)at, 0, PLACE);
}
void AnnotateRWLockReleased(const char *file, int line, const volatile void *at, long is_write) {
    (void)file;
    (void)line;
    (void)is_write;
    record_sync(READ_WRITE_UNLOCK, (uintptr_t)at, 0, PLACE);
}

/* Locks of the program's own: flags 1 << 3 is a reader's, 1 << 5 a try that failed. */
enum { BY_READER = 1 << 3, TRY_FAILED = 1 << 5 };
void __tsan_mutex_create(void *at, unsigned flags) {
    (void)flags;
    record_sync(FRESH, (uintptr_t)at, 0, PLACE);
}
void __tsan_mutex_destroy(void *at, unsigned flags) {
    (void)flags;
    record_sync(FRESH, (uintptr_t)at, 0, PLACE);
}
void __tsan_mutex_pre_lock(void *at, unsigned flags) {
    (void)at;
    (void)flags;
}
void __tsan_mutex_post_lock(void *at, unsigned flags, int depth) {
    (void)depth;
    if (flags & TRY_FAILED) return;
    record_sync(flags & BY_READER ? READ_LOCK : WRITE_LOCK, (uintptr_t)at, 0, PLACE);
}
int __tsan_mutex_pre_unlock(void *at, unsigned flags) {
    (void)flags;
    record_sync(READ_WRITE_UNLOCK, (uintptr_t)at, 0, PLACE);
    return 1;
}
void __tsan_mutex_post_unlock(void *at, unsigned flags) {
    (void)at;
    (void)flags;
}
