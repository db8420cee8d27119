/* The events of a thread: the memory that they are kept in, and how events that are no plain accesses are
 * recorded. */
#include <sys/mman.h>
#include <sys/syscall.h>
#include "access.h"

/* A thread's memory is reserved at its start, and used as it is touched. GRANT is how many events it may take
 * before it asks again; ROOM is what is left beyond for an event that needs two, and for handlers. */
enum { GRANT = 1 << 14, ROOM = 64 };
static const uint64_t reserved = (uint64_t)1 << 28;
_Thread_local struct thread *self __attribute__((tls_model("initial-exec")));
volatile int recording;
struct options options;
const char *cut_because;
static volatile uint64_t granted;
_Thread_local int is_in_step __attribute__((tls_model("initial-exec")));

/* Memory from the system, by no function that the recorder stands in for. */
void *pages(size_t bytes) {
    int flags = MAP_PRIVATE | MAP_ANONYMOUS | MAP_NORESERVE;
    long at = syscall(SYS_mmap, NULL, bytes, PROT_READ | PROT_WRITE, flags, -1, 0);
    return at == -1 ? NULL : (void *)at;
}

void stop_recording(const char *why) {
    if (!recording) return;
    recording = 0;
    cut_because = why;
}

/* In the child of a fork: the parent's events are not the child's. */
void again_events(void) {
    uint32_t count = thread_count < THREADS ? thread_count : THREADS;
    for (uint32_t i = 0; i < count; i++) {
        if (threads[i] && threads[i]->events)
            syscall(SYS_munmap, threads[i]->events, (reserved + ROOM) * sizeof(struct event));
        threads[i] = NULL;
    }
    thread_count = 0;
    granted = 0;
    cut_because = NULL;
    is_in_step = 0;
    again_repeats();
}

void refill(struct thread *thread) {
    if (!thread->events) {
        thread->events = pages((reserved + ROOM) * sizeof *thread->events);
        thread->next = thread->events;
        thread->limit = thread->events;
        if (!thread->events) stop_recording("memory is full");
    }
    uint64_t used = (uint64_t)(thread->next - thread->events);
    if (!recording) return;
    if (used + GRANT > reserved || __atomic_add_fetch(&granted, GRANT, __ATOMIC_SEQ_CST) > options.events)
        stop_recording("memory is full");
    else
        thread->limit = thread->next + GRANT;
}

static struct event *append(struct thread *thread, enum kind kind, uint64_t address, uint64_t size,
                            uint64_t place, uint64_t time) {
    if (thread->next + 1 >= thread->limit) refill(thread);
    if (!recording) return NULL;
    uint32_t stack = stack_now(thread);
    struct event *event = take_place(thread);
    if (size >= LONG) {
        fill(take_place(thread), MORE, size, 0, 0, 0, time);
        size = LONG;
    }
    fill(event, kind, address, size, place, stack, time);
    return event;
}

/* The next time of the thread, later than its own last and than the latest of the stripe. */
static uint64_t next_time(struct thread *thread, struct stripe *stripe) {
    uint64_t time = clock_now();
    uint64_t latest = stripe ? __atomic_load_n(&stripe->time, __ATOMIC_SEQ_CST) : 0;
    if (time <= thread->time) time = thread->time + 1;
    if (time <= latest) time = latest + 1;
    thread->time = time;
    return time;
}

/* The running thread where it is recorded. */
static struct thread *running(void) {
    if (!recording) return NULL;
    return self ? self : own_thread();
}

/* Records an event that orders threads, on the object at the address; NULL where it was not recorded. */
struct event *record_sync(enum kind kind, uintptr_t address, uint64_t size, uintptr_t place) {
    struct thread *thread = running();
    if (!thread) return NULL;
    thread->others++;
    thread->held += change_of_held(kind, address);
    struct stripe *stripe = address ? stripe_of(address) : NULL;
    uint64_t time = next_time(thread, stripe);
    struct event *event = append(thread, kind, address, size, place, time);
    if (!stripe) return event;
    if (kind < LOAD) __atomic_fetch_add(&stripe->changes, 1, __ATOMIC_SEQ_CST);
    raise_time(stripe, time);
    return event;
}

/* Memory was given out: it is recorded after it was got. All maps have one stripe, since they may overlap. */
void record_block(enum kind kind, const volatile void *at, uint64_t size, uintptr_t place) {
    struct thread *thread = running();
    if (!thread || !at) return;
    struct stripe *stripe = stripe_of(kind == BLOCK ? (uintptr_t)at : 0);
    thread->others++;
    if (kind != BLOCK) renew((uintptr_t)at, size);
    uint64_t time = next_time(thread, stripe);
    append(thread, kind, (uintptr_t)at, size, place, time);
}

/* Memory is about to be given back, which is a store to it. */
void record_freed(void *at, uint64_t size, uintptr_t place) {
    struct thread *thread = running();
    if (!thread || !at) return;
    struct stripe *stripe = stripe_of((uintptr_t)at);
    thread->others++;
    renew((uintptr_t)at, size);
    uint64_t time = next_time(thread, NULL);
    if (!thread->ignored) append(thread, FREED, (uintptr_t)at, size, place, time);
    raise_time(stripe, time);
}

/* An access of any size. */
void record_range(enum kind kind, const volatile void *at, uint64_t size, uintptr_t place) {
    struct thread *thread = running();
    if (!thread || size == 0) return;
    if (size < LONG) {
        record_access(kind, (uintptr_t)at, size, place);
        return;
    }
    if (thread->ignored) return;
    renew((uintptr_t)at, size);
    uint64_t time = clock_now();
    if (time < thread->time) time = thread->time;
    thread->time = time;
    append(thread, kind, (uintptr_t)at, size, place, time);
}

/* What was recorded of a call that then failed is no event. */
void take_back(struct event *event) {
    if (!event || !recording) return;
    self->held -= change_of_held(kind_of(event), address_of(event));
    event->words[2] &= ~((uint64_t)63 << 48);
}
