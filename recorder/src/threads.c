/* Threads: their numbers, their begin and end, and the calls that start and join them. */
#include <dlfcn.h>
#include <threads.h>
#include "recorder.h"

struct thread *threads[THREADS];
volatile uint32_t thread_count;

/* A function of the C library. The versions of condition variables are named, since the oldest ones come
 * first. */
void *find_next(void **found, const char *name) {
    static const char prefix[] = "pthread_cond_";
    size_t same = 0;
    while (prefix[same] && name[same] == prefix[same]) same++;
    int is_condition = !prefix[same];
    void *next = is_condition ? dlvsym(RTLD_NEXT, name, "GLIBC_2.3.2") : NULL;
    if (!next) next = dlsym(RTLD_NEXT, name);
    *found = next;
    return next;
}

/* A thread with the next number, NULL where there are too many. */
struct thread *new_thread(void) {
    uint32_t number = __atomic_fetch_add(&thread_count, 1, __ATOMIC_SEQ_CST);
    if (number >= THREADS) {
        __atomic_store_n(&thread_count, THREADS, __ATOMIC_SEQ_CST);
        stop_recording("too many threads");
        return NULL;
    }
    struct thread *thread = pages(sizeof *thread);
    if (!thread) {
        stop_recording("memory is full");
        return NULL;
    }
    thread->number = number;
    thread->creator = number;
    thread->others = (uint64_t)number << 40;
    threads[number] = thread;
    return thread;
}

/* Whether the thread is being begun: the calls that this takes are not recorded. */
static _Thread_local int is_beginning __attribute__((tls_model("initial-exec")));

/* Makes the running thread that one. Its stack is memory of its own; more than 64 MB of it is not told
 * apart. */
void begin_thread(struct thread *thread) {
    pthread_attr_t attributes;
    void *low;
    size_t size;
    size_t most = 1 << 26;
    is_beginning = 1;
    int has_stack = pthread_getattr_np(pthread_self(), &attributes) == 0;
    if (has_stack) {
        pthread_attr_getstack(&attributes, &low, &size);
        pthread_attr_destroy(&attributes);
        thread->high = (uintptr_t)low + size;
        thread->low = size > most ? thread->high - most : (uintptr_t)low;
    }
    thread->handle = pthread_self();
    self = thread;
    is_beginning = 0;
    if (has_stack) record_block(STACK, (void *)thread->low, thread->high - thread->low, 0);
}

/* The running thread, for one that no call of the program's started; NULL where nothing is recorded. */
struct thread *own_thread(void) {
    if (!recording || is_beginning) return NULL;
    struct thread *thread = new_thread();
    if (thread) begin_thread(thread);
    return self;
}

/* The end of a thread, by return, by pthread_exit or by cancellation. */
static void end_thread(void *given) {
    struct thread *thread = given;
    if (self != thread) return;
    pthread_getname_np(pthread_self(), thread->name, sizeof thread->name);
    record_sync(END, 0, 0, 0);
    raise_time(stripe_of(0), thread->time);
}

static void *run_thread(void *given) {
    struct thread *thread = given;
    void *result = NULL;
    if (recording) begin_thread(thread);
    pthread_cleanup_push(end_thread, thread);
    result = thread->work(thread->given);
    pthread_cleanup_pop(1);
    return result;
}

static int run_thread_of_c(void *given) {
    struct thread *thread = given;
    int result = 0;
    if (recording) begin_thread(thread);
    pthread_cleanup_push(end_thread, thread);
    result = thread->work_of_c(thread->given);
    pthread_cleanup_pop(1);
    return result;
}

/* Records a fork of a new thread; NULL where it is not recorded. */
static struct thread *fork_thread(struct event **event, uintptr_t place) {
    struct thread *parent = self ? self : own_thread();
    struct thread *child = parent ? new_thread() : NULL;
    if (!child) return NULL;
    place = place_in_program(place);
    child->creator = parent->number;
    child->place = place;
    child->stack = stack_now(parent);
    *event = record_sync(FORK, 0, child->number, place);
    child->time = parent->time + 1;
    return child;
}

int pthread_create(pthread_t *handle, const pthread_attr_t *attributes, void *(*work)(void *), void *given) {
    struct event *event = NULL;
    struct thread *child = fork_thread(&event, PLACE);
    if (!child) return REAL(pthread_create)(handle, attributes, work, given);
    child->work = work;
    child->given = given;
    int failed = REAL(pthread_create)(handle, attributes, run_thread, child);
    if (failed) take_back(event);
    else child->handle = *handle;
    return failed;
}

int thrd_create(thrd_t *handle, thrd_start_t work, void *given) {
    struct event *event = NULL;
    struct thread *child = fork_thread(&event, PLACE);
    if (!child) return REAL(thrd_create)(handle, work, given);
    child->work_of_c = work;
    child->given = given;
    int failed = REAL(thrd_create)(handle, run_thread_of_c, child);
    if (failed != thrd_success) take_back(event);
    else child->handle = (pthread_t)*handle;
    return failed;
}

/* The newest thread with this handle that was not joined: a handle is used again after a join. */
static struct thread *thread_of(pthread_t handle) {
    uint32_t number = thread_count < THREADS ? thread_count : THREADS;
    if (!recording) return NULL;
    while (number-- > 0) {
        struct thread *thread = threads[number];
        if (thread && thread->handle == handle && !thread->is_joined) return thread;
    }
    return NULL;
}

static void record_join(struct thread *joined, uintptr_t place) {
    struct thread *thread = self ? self : own_thread();
    if (!joined || !thread || joined->is_joined) return;
    joined->is_joined = 1;
    if (thread->time < joined->time) thread->time = joined->time;
    record_sync(JOIN, 0, joined->number, place);
}

int pthread_join(pthread_t handle, void **end) {
    struct thread *thread = thread_of(handle);
    int failed = REAL(pthread_join)(handle, end);
    if (!failed) record_join(thread, PLACE);
    return failed;
}

int pthread_tryjoin_np(pthread_t handle, void **end) {
    struct thread *thread = thread_of(handle);
    int failed = REAL(pthread_tryjoin_np)(handle, end);
    if (!failed) record_join(thread, PLACE);
    return failed;
}

int pthread_timedjoin_np(pthread_t handle, void **end, const struct timespec *until) {
    struct thread *thread = thread_of(handle);
    int failed = REAL(pthread_timedjoin_np)(handle, end, until);
    if (!failed) record_join(thread, PLACE);
    return failed;
}

int pthread_clockjoin_np(pthread_t handle, void **end, clockid_t clock, const struct timespec *until) {
    struct thread *thread = thread_of(handle);
    int failed = REAL(pthread_clockjoin_np)(handle, end, clock, until);
    if (!failed) record_join(thread, PLACE);
    return failed;
}

int thrd_join(thrd_t handle, int *end) {
    struct thread *thread = thread_of((pthread_t)handle);
    int failed = REAL(thrd_join)(handle, end);
    if (failed == thrd_success) record_join(thread, PLACE);
    return failed;
}
