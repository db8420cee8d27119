/* What the files of the recorder share: the event as it is kept, the thread that records, and the functions
 * by which each file is used. README.md in the folder above says how they work together. */
#ifndef RECORDER_H
#define RECORDER_H
#include <errno.h>
#include <pthread.h>
#include <stddef.h>
#include <stdint.h>
#include <stdio.h>
#include <stdlib.h>
#include <string.h>
#include <unistd.h>

/* THREADS is the most that wcp reads. LONG is the size of an event whose size is kept by a MORE after it. */
enum { THREADS = 1024, FRAMES = 1 << 16, RECENT = 1 << 13, LOADS = 1 << 8, LONG = 1023 };
/* Channels of descriptors, signals and numbers of descriptors have addresses below any memory's. */
enum { DESCRIPTORS = 1, SIGNALS = 1 << 20, NUMBERS = SIGNALS + 256, ADDRESSES = NUMBERS + (1 << 16) };

enum kind {
    NOTHING,
    READ,
    WRITE,
    FREED,        /* memory is given back, which is a store to it */
    MORE,         /* the size of the event before it */
    BLOCK,        /* memory of the heap is given out */
    MAP,          /* memory of mmap is given out */
    STACK,        /* memory of a thread's stack begins to be its own */
    FORK,         /* size is the child's number, as for JOIN */
    JOIN,
    END,          /* of the thread: locks that it holds are given up */
    ACQUIRE,      /* of a mutex or a spin lock */
    RELEASE,
    READ_LOCK,    /* of a reader-writer lock */
    WRITE_LOCK,
    READ_WRITE_UNLOCK,
    FRESH,        /* a lock is initialised or destroyed */
    WAIT,         /* for the signals of the object */
    POST,         /* a signal beside those of other threads */
    SIGNAL,       /* a signal in the place of all before */
    BARRIER,      /* size is the number of threads of a round */
    ARRIVE,
    LEAVE,
    LOAD,         /* atomic operations: size is bytes + ORDERS * memory order */
    STORE,
    UPDATE,
    FENCE         /* size is the memory order */
};
enum { ORDERS = 32 };

/* An event as it is kept, 24 bytes: address and the lower half of the stack's number, place and the upper
 * half, time, kind and size. `place` is a return address. The last word is stored last, so that an event
 * whose kind is not NOTHING is whole. */
struct event {
    uint64_t words[3];
};
static inline uint64_t address_of(const struct event *event) { return event->words[0] & 0xffffffffffff; }
static inline uint64_t place_of(const struct event *event) { return event->words[1] & 0xffffffffffff; }
static inline uint64_t time_of(const struct event *event) { return event->words[2] & 0xffffffffffff; }
static inline enum kind kind_of(const struct event *event) { return event->words[2] >> 48 & 63; }
static inline uint32_t stack_of(const struct event *event) {
    return (uint32_t)(event->words[0] >> 48) | (uint32_t)(event->words[1] >> 48) << 16;
}
static inline uint64_t size_of(const struct event *event) {
    uint64_t size = event->words[2] >> 54;
    return size == LONG ? address_of(event + 1) : size;
}

/* A call that has not returned: where the stack was, where the call returns to, and the number of the stack
 * with this call on top, 0 where it was not asked for. */
struct frame {
    uintptr_t pointer;
    uintptr_t caller;
    uint32_t stack;
};

/* An atomic load that was kept: what it loads at which place and stack, how often the stripe had changed, and
 * how many events that are no accesses its thread had. */
struct load {
    uint64_t what;
    uint64_t changes;
    uint64_t others;
};

struct thread {
    struct event *next;   /* where its next event goes */
    struct event *limit;  /* up to where it has room */
    uint64_t time;        /* of its latest event */
    uint64_t others;      /* its events that are no accesses, nor loads that found nothing new; of no two
                             threads the same */
    uint64_t held;        /* the sum of the locks that it holds */
    uint32_t number;
    uint32_t depth;       /* of its calls */
    uint32_t beyond;      /* its calls for which there was no frame left */
    uint32_t ignored;     /* how many annotations ask to ignore its accesses */
    uint32_t is_joined;
    uint32_t has_fence;   /* that releases */
    struct event *events;
    uintptr_t low, high;  /* of its stack */
    pthread_t handle;
    void *(*work)(void *);
    int (*work_of_c)(void *);
    void *given;
    uint32_t creator, stack; /* who made it, and with what stack */
    uintptr_t place;         /* where it was made */
    char name[20];
    uint64_t recent[RECENT];
    struct load loads[LOADS];
    struct frame frames[FRAMES];
};

/* What the environment asked for. */
struct options {
    int keeps_all;
    int keeps_less;
    int has_stacks;
    uint64_t events;
};

#define PLACE ((uintptr_t)__builtin_return_address(0))
#define HERE ((uintptr_t)__builtin_dwarf_cfa())

/* The function of this name that comes after the recorder's own. */
#define REAL(name)                                                                                           \
    __extension__({                                                                                          \
        static void *found;                                                                                  \
        (__typeof__(&name))(found ? found : find_next(&found, #name));                                       \
    })

#pragma GCC visibility push(hidden)

/* The own thread, NULL where its events are not recorded. */
extern _Thread_local struct thread *self __attribute__((tls_model("initial-exec")));
/* Whether the own thread is in an atomic step. */
extern _Thread_local int is_in_step __attribute__((tls_model("initial-exec")));
extern volatile int recording;
extern struct options options;
extern struct thread *threads[THREADS];
extern volatile uint32_t thread_count;

/* events.c */
void *pages(size_t bytes);
void refill(struct thread *thread);
void stop_recording(const char *why);
extern const char *cut_because;
struct event *record_sync(enum kind kind, uintptr_t address, uint64_t size, uintptr_t place);
void record_block(enum kind kind, const volatile void *at, uint64_t size, uintptr_t place);
void record_range(enum kind kind, const volatile void *at, uint64_t size, uintptr_t place);
void record_freed(void *at, uint64_t size, uintptr_t place);
void take_back(struct event *event);

/* repeats.c */
enum { LATEST = 1 << 17 };
extern uint64_t latest_accesses[LATEST];
extern volatile uint64_t renewals;
void renew(uintptr_t address, uint64_t size);
uint64_t change_of_held(enum kind kind, uint64_t lock);
void again_repeats(void);

/* heap.c */
void *allocate(size_t size, uintptr_t place);

/* clock.c */
struct stripe {
    volatile uint64_t time;
    volatile uint64_t changes; /* its events but for those by which nothing changes */
    volatile int is_locked;
    char unused[64 - 2 * sizeof(uint64_t) - sizeof(int)];
};
extern volatile uint64_t clock_counter;
extern uint64_t clock_start;
extern int has_stamp;
void start_clock(void);
struct stripe *stripe_of(uintptr_t address);
void lock_stripe(struct stripe *stripe);
void unlock_stripe(struct stripe *stripe);
void raise_time(struct stripe *stripe, uint64_t time);

/* threads.c */
struct thread *new_thread(void);
void begin_thread(struct thread *thread);
struct thread *own_thread(void);
void *find_next(void **found, const char *name);

/* stacks.c */
struct stack {
    uint32_t parent;
    uint32_t next;
    uint64_t place;
};
extern struct stack *stacks;
uint32_t stack_count(void);
void start_stacks(void);
uint32_t find_stack(struct thread *thread);
static inline uint32_t stack_now(struct thread *thread) {
    if (thread->depth == 0) return 0;
    uint32_t stack = thread->frames[thread->depth - 1].stack;
    return stack ? stack : find_stack(thread);
}

void again_clock(void);
void again_events(void);

/* files.c */
int open_files(int is_child);
void close_files(void);
void name_now(void);
void keep_name(void);
int is_own_file(int file);
unsigned next_own_file(unsigned first);
void move_own_file(int file);
int trace_file(void);
void read_program(void);
extern char program_path[4096];
int info_file(void);
void leave_no_file(void);
void tell_status(int process, const char *status, const uint64_t *numbers);
void complain(const char *why);

/* callers.c */
uintptr_t place_in_program(uintptr_t place);

/* start.c, ends.c */
extern volatile int fork_goes_on;
void start_recording(int is_child);
void finish(const char *why);
void again_ends(void);
void follow_process(void);
void leave_to_child(int child) __attribute__((noreturn));
void catch_signals(void);

#pragma GCC visibility pop
#endif
