/* Mutexes, reader-writer locks, spin locks and condition variables, of POSIX threads and of C. An acquire is
 * recorded after it returned, a release before it is made; one that fails is taken back. What is legal of it,
 * and who holds what, is found after the run (holders.c). */
#include <threads.h>
#include <time.h>
#include "recorder.h"

static int is_taken(int failed) { return failed == 0 || failed == EOWNERDEAD; }

#define TAKES(kind, name, parameters, arguments)                                                             \
    int name parameters {                                                                                    \
        int failed = REAL(name) arguments;                                                                   \
        if (is_taken(failed)) record_sync(kind, (uintptr_t)at, 0, PLACE);                                    \
        return failed;                                                                                       \
    }
#define GIVES(kind, name, parameters)                                                                        \
    int name parameters {                                                                                    \
        struct event *event = record_sync(kind, (uintptr_t)at, 0, PLACE);                                    \
        int failed = REAL(name)(at);                                                                         \
        if (failed) take_back(event);                                                                        \
        return failed;                                                                                       \
    }
#define TIME const struct timespec *until

TAKES(ACQUIRE, pthread_mutex_lock, (pthread_mutex_t *at), (at))
TAKES(ACQUIRE, pthread_mutex_trylock, (pthread_mutex_t *at), (at))
TAKES(ACQUIRE, pthread_mutex_timedlock, (pthread_mutex_t *at, TIME), (at, until))
TAKES(ACQUIRE, pthread_mutex_clocklock, (pthread_mutex_t *at, clockid_t clock, TIME), (at, clock, until))
GIVES(RELEASE, pthread_mutex_unlock, (pthread_mutex_t *at))
GIVES(FRESH, pthread_mutex_destroy, (pthread_mutex_t *at))

TAKES(READ_LOCK, pthread_rwlock_rdlock, (pthread_rwlock_t *at), (at))
TAKES(READ_LOCK, pthread_rwlock_tryrdlock, (pthread_rwlock_t *at), (at))
TAKES(READ_LOCK, pthread_rwlock_timedrdlock, (pthread_rwlock_t *at, TIME), (at, until))
TAKES(READ_LOCK, pthread_rwlock_clockrdlock, (pthread_rwlock_t *at, clockid_t clock, TIME),
      (at, clock, until))
TAKES(WRITE_LOCK, pthread_rwlock_wrlock, (pthread_rwlock_t *at), (at))
TAKES(WRITE_LOCK, pthread_rwlock_trywrlock, (pthread_rwlock_t *at), (at))
TAKES(WRITE_LOCK, pthread_rwlock_timedwrlock, (pthread_rwlock_t *at, TIME), (at, until))
TAKES(WRITE_LOCK, pthread_rwlock_clockwrlock, (pthread_rwlock_t *at, clockid_t clock, TIME),
      (at, clock, until))
GIVES(READ_WRITE_UNLOCK, pthread_rwlock_unlock, (pthread_rwlock_t *at))
GIVES(FRESH, pthread_rwlock_destroy, (pthread_rwlock_t *at))

TAKES(ACQUIRE, pthread_spin_lock, (pthread_spinlock_t *at), (at))
TAKES(ACQUIRE, pthread_spin_trylock, (pthread_spinlock_t *at), (at))
GIVES(RELEASE, pthread_spin_unlock, (pthread_spinlock_t *at))
GIVES(FRESH, pthread_spin_destroy, (pthread_spinlock_t *at))

TAKES(ACQUIRE, mtx_lock, (mtx_t *at), (at))
TAKES(ACQUIRE, mtx_trylock, (mtx_t *at), (at))
TAKES(ACQUIRE, mtx_timedlock, (mtx_t *at, TIME), (at, until))
GIVES(RELEASE, mtx_unlock, (mtx_t *at))

void mtx_destroy(mtx_t *at) {
    record_sync(FRESH, (uintptr_t)at, 0, PLACE);
    REAL(mtx_destroy)(at);
}
int mtx_init(mtx_t *at, int type) {
    record_sync(FRESH, (uintptr_t)at, 0, PLACE);
    return REAL(mtx_init)(at, type);
}
int pthread_mutex_init(pthread_mutex_t *at, const pthread_mutexattr_t *attributes) {
    record_sync(FRESH, (uintptr_t)at, 0, PLACE);
    return REAL(pthread_mutex_init)(at, attributes);
}
int pthread_rwlock_init(pthread_rwlock_t *at, const pthread_rwlockattr_t *attributes) {
    record_sync(FRESH, (uintptr_t)at, 0, PLACE);
    return REAL(pthread_rwlock_init)(at, attributes);
}
int pthread_spin_init(pthread_spinlock_t *at, int is_shared) {
    record_sync(FRESH, (uintptr_t)at, 0, PLACE);
    return REAL(pthread_spin_init)(at, is_shared);
}

/* A wait gives its lock back and takes it again, also where the thread is cancelled in it. */
struct wait {
    uintptr_t lock;
    uintptr_t place;
    struct event *release;
};
static struct wait begin_wait(void *lock, uintptr_t place) {
    return (struct wait){ (uintptr_t)lock, place, record_sync(RELEASE, (uintptr_t)lock, 0, place) };
}
static void cancel_wait(void *given) {
    struct wait *wait = given;
    record_sync(ACQUIRE, wait->lock, 0, wait->place);
}
static void end_wait(struct wait *wait, int is_back) {
    if (is_back) record_sync(ACQUIRE, wait->lock, 0, wait->place);
    else take_back(wait->release);
}
static int is_over(int failed) { return is_taken(failed) || failed == ETIMEDOUT; }

int pthread_cond_wait(pthread_cond_t *condition, pthread_mutex_t *at) {
    struct wait wait = begin_wait(at, PLACE);
    int failed;
    pthread_cleanup_push(cancel_wait, &wait);
    failed = REAL(pthread_cond_wait)(condition, at);
    pthread_cleanup_pop(0);
    end_wait(&wait, is_over(failed));
    return failed;
}
int pthread_cond_timedwait(pthread_cond_t *condition, pthread_mutex_t *at, TIME) {
    struct wait wait = begin_wait(at, PLACE);
    int failed;
    pthread_cleanup_push(cancel_wait, &wait);
    failed = REAL(pthread_cond_timedwait)(condition, at, until);
    pthread_cleanup_pop(0);
    end_wait(&wait, is_over(failed));
    return failed;
}
int pthread_cond_clockwait(pthread_cond_t *condition, pthread_mutex_t *at, clockid_t clock, TIME) {
    struct wait wait = begin_wait(at, PLACE);
    int failed;
    pthread_cleanup_push(cancel_wait, &wait);
    failed = REAL(pthread_cond_clockwait)(condition, at, clock, until);
    pthread_cleanup_pop(0);
    end_wait(&wait, is_over(failed));
    return failed;
}
int cnd_wait(cnd_t *condition, mtx_t *at) {
    struct wait wait = begin_wait(at, PLACE);
    int failed;
    pthread_cleanup_push(cancel_wait, &wait);
    failed = REAL(cnd_wait)(condition, at);
    pthread_cleanup_pop(0);
    end_wait(&wait, failed == thrd_success);
    return failed;
}
int cnd_timedwait(cnd_t *condition, mtx_t *at, TIME) {
    struct wait wait = begin_wait(at, PLACE);
    int failed;
    pthread_cleanup_push(cancel_wait, &wait);
    failed = REAL(cnd_timedwait)(condition, at, until);
    pthread_cleanup_pop(0);
    end_wait(&wait, failed == thrd_success || failed == thrd_timedout);
    return failed;
}
