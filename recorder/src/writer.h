/* What the files share that work after the run. They go through the events twice, in the order of time. The
 * first time they find whose memory each address is, where accesses cut it into variables, which signals
 * somebody waits for, and which holds of locks end as they should. The second time they write. Both times
 * they do the same in the same order, so that numbers are the same. */
#ifndef WRITER_H
#define WRITER_H
#include "recorder.h"

/* Memory that was given out: a block of the heap, of mmap, or a stack. */
struct block {
    uint64_t start, size, place;
    uint32_t stack;
    uint16_t thread;
    uint8_t kind;
    uint8_t is_named;
};

/* Sixteen bytes of a block: at which bytes accesses begin, or end before (bit 16 is the end of the sixteen),
 * which bytes were accessed plainly and which by atomic operations, and of each byte by whom: the thread's
 * number and 1, or SHARED. `users` are threads with atomic operations. */
struct cell {
    uint32_t block, users, cuts;
    uint16_t plain, atomic, named;
    uint16_t owner[16];
} __attribute__((aligned(64)));
enum { SHARED = 0xffff };
struct user {
    uint32_t next;
    uint16_t thread, bytes, named;
};

/* A signal: whose it is, its number among the events that order threads, and how it is named. */
struct signal {
    uint64_t address;
    uint32_t block, number;
    uint16_t thread, is_fence;
};

/* A lock that a thread holds: how often, by which event, and the signal before it. */
struct hold {
    struct signal before;
    uint32_t depth, taken, next;
    uint16_t thread;
    uint8_t is_named;
};

/* What orders threads: a lock, a semaphore, a barrier, an atomic variable. */
struct object {
    uint64_t address;
    uint32_t block, next;
    struct hold writer;      /* of a mutex or of a writer */
    uint32_t readers;        /* the first hold of a reader */
    struct signal given;     /* the latest release */
    struct signal latest;    /* the latest signal that took the place of others */
    uint32_t posts;          /* the first of the signals since */
    uint32_t count, arrived, round; /* of a barrier */
    uint8_t is_given_by_signal, is_named;
};

/* A signal of the object, beside those of other threads. */
struct post {
    struct signal signal;
    uint32_t next;
};

struct counts {
    uint64_t events, bytes;
    uint64_t threads, locks, variables;
};

#pragma GCC visibility push(hidden)

extern int is_writing;
extern uint32_t sync_number;
extern struct counts counts;

/* merge.c */
void stop_threads(void);
void walk(void (*visit)(const struct event *event, uint32_t thread));
uint64_t event_count(void);
void each_thread(void (*visit)(struct event *event, uint32_t thread));

/* alone.c */
void take_out_alone(void);

/* blocks.c */
extern struct block *blocks;
extern uint32_t block_count;
int start_blocks(void);
void again_blocks(void);
void new_block(const struct event *event, uint32_t thread);
uint32_t block_at(uint64_t address);
struct cell *cell_at(uint64_t address);
int has_cell(uint64_t address);
struct user *user_of(struct cell *cell, uint32_t thread);
struct user *user_number(uint32_t number);

/* variables.c */
void see_access(const struct event *event, uint32_t thread);
void see_atomic(const struct event *event, uint32_t thread);

/* objects.c */
int start_objects(void);
void again_objects(void);
struct object *object_of(uint64_t address);
struct hold *reader_of(struct object *object, uint32_t thread);
struct hold *hold_number(uint32_t number);
struct post *post_number(uint32_t number);
struct post *new_post(struct object *object);
void all_held_by(uint32_t thread, void (*found)(struct object *object, struct hold *hold));

/* holders.c */
int start_holders(void);
void again_holders(void);
void see_lock(const struct event *event, uint32_t thread);

/* order.c */
int start_order(void);
void again_order(void);
void await(const struct signal *signal, const struct event *event, uint32_t thread);
void await_later(const struct signal *signal);
void signal_at(const struct signal *signal, const struct event *event, uint32_t thread);
void see_signal(const struct event *event, uint32_t thread);

/* lines.c */
enum role { NO_ROLE, OF_SIGNAL, OF_READER, OF_USER };
int start_lines(int file);
int end_lines(void);
void line(const struct event *event, uint32_t thread, const char *operation, uint64_t address, uint32_t block,
          enum role role, uint32_t number);
void line_of_thread(const struct event *event, uint32_t thread, const char *operation, uint32_t other);
void put(const char *words);
void put_field(const char *words);
void put_number(uint64_t number);
void put_place(uint64_t place);

/* names.c */
char *name_number(char *to, unsigned base, uint64_t number);
char *name_words(char *to, const char *words);
char *name_address(char *to, uint64_t address, uint32_t block);
char *name_place(char *to, uint64_t place);
void start_names(void);

/* modules.c */
void put_files(void);

/* info.c */
void write_info(int file, const char *status);

/* trace.c */
const char *write_trace(int file);
void fail(const char *why) __attribute__((noreturn));
#pragma GCC visibility pop
#endif
