/* OpenMP of gcc: parallel regions, barriers, the ends of work shares, critical and ordered sections, and
 * locks. What tasks hand over is not seen; a line says so once. */
#include <stdbool.h>
#include "recorder.h"

/* A parallel region: the work of each of its threads waits for its begin, and its end waits for all work. */
struct region {
    void (*work)(void *);
    void *given;
    uintptr_t place;
    char begin, end, barrier, single, ordered;
};
static _Thread_local struct region *region;

int omp_get_num_threads(void);

static void work_in_region(void *given) {
    struct region *mine = given;
    struct region *outer = region;
    region = mine;
    record_sync(WAIT, (uintptr_t)&mine->begin, 0, mine->place);
    mine->work(mine->given);
    record_sync(POST, (uintptr_t)&mine->end, 0, mine->place);
    region = outer;
}
static void begin_region(struct region *mine) { record_sync(POST, (uintptr_t)&mine->begin, 0, mine->place); }
static void end_region(struct region *mine) { record_sync(WAIT, (uintptr_t)&mine->end, 0, mine->place); }

typedef void (*work_t)(void *);
void GOMP_parallel(work_t work, void *given, unsigned count, unsigned flags);
void GOMP_parallel(work_t work, void *given, unsigned count, unsigned flags) {
    struct region mine = { .work = work, .given = given, .place = PLACE };
    begin_region(&mine);
    REAL(GOMP_parallel)(work_in_region, &mine, count, flags);
    end_region(&mine);
}
unsigned GOMP_parallel_reductions(work_t work, void *given, unsigned count, unsigned flags);
unsigned GOMP_parallel_reductions(work_t work, void *given, unsigned count, unsigned flags) {
    struct region mine = { .work = work, .given = given, .place = PLACE };
    begin_region(&mine);
    unsigned result = REAL(GOMP_parallel_reductions)(work_in_region, &mine, count, flags);
    end_region(&mine);
    return result;
}
void GOMP_parallel_sections(work_t work, void *given, unsigned count, unsigned sections, unsigned flags);
void GOMP_parallel_sections(work_t work, void *given, unsigned count, unsigned sections, unsigned flags) {
    struct region mine = { .work = work, .given = given, .place = PLACE };
    begin_region(&mine);
    REAL(GOMP_parallel_sections)(work_in_region, &mine, count, sections, flags);
    end_region(&mine);
}

#define PARALLEL_LOOP(name)                                                                                  \
    void name(work_t work, void *given, unsigned count, long start, long end, long step, long chunk,         \
              unsigned flags);                                                                               \
    void name(work_t work, void *given, unsigned count, long start, long end, long step, long chunk,         \
              unsigned flags) {                                                                              \
        struct region mine = { .work = work, .given = given, .place = PLACE };                               \
        begin_region(&mine);                                                                                 \
        REAL(name)(work_in_region, &mine, count, start, end, step, chunk, flags);                            \
        end_region(&mine);                                                                                   \
    }
PARALLEL_LOOP(GOMP_parallel_loop_static)
PARALLEL_LOOP(GOMP_parallel_loop_dynamic)
PARALLEL_LOOP(GOMP_parallel_loop_guided)
PARALLEL_LOOP(GOMP_parallel_loop_nonmonotonic_dynamic)
PARALLEL_LOOP(GOMP_parallel_loop_nonmonotonic_guided)

#define PARALLEL_LOOP_LATER(name)                                                                            \
    void name(work_t work, void *given, unsigned count, long start, long end, long step, unsigned flags);    \
    void name(work_t work, void *given, unsigned count, long start, long end, long step, unsigned flags) {   \
        struct region mine = { .work = work, .given = given, .place = PLACE };                               \
        begin_region(&mine);                                                                                 \
        REAL(name)(work_in_region, &mine, count, start, end, step, flags);                                   \
        end_region(&mine);                                                                                   \
    }
PARALLEL_LOOP_LATER(GOMP_parallel_loop_runtime)
PARALLEL_LOOP_LATER(GOMP_parallel_loop_nonmonotonic_runtime)
PARALLEL_LOOP_LATER(GOMP_parallel_loop_maybe_nonmonotonic_runtime)

/* A barrier of the region's threads. Outside of a region a thread waits for nobody. */
static void arrive(uintptr_t place) {
    if (!region) return;
    record_sync(ARRIVE, (uintptr_t)&region->barrier, (uint64_t)REAL(omp_get_num_threads)(), place);
}
static void leave(uintptr_t place) {
    if (region) record_sync(LEAVE, (uintptr_t)&region->barrier, 0, place);
}
#define BARRIERS(name)                                                                                       \
    void name(void);                                                                                         \
    void name(void) {                                                                                        \
        arrive(PLACE);                                                                                       \
        REAL(name)();                                                                                        \
        leave(PLACE);                                                                                        \
    }
BARRIERS(GOMP_barrier)
BARRIERS(GOMP_loop_end)
BARRIERS(GOMP_sections_end)
BARRIERS(GOMP_workshare_task_reduction_unregister)

/* One thread's values for the others. */
void *GOMP_single_copy_start(void);
void *GOMP_single_copy_start(void) {
    void *values = REAL(GOMP_single_copy_start)();
    if (values && region) record_sync(WAIT, (uintptr_t)&region->single, 0, PLACE);
    return values;
}
void GOMP_single_copy_end(void *values);
void GOMP_single_copy_end(void *values) {
    if (region) record_sync(SIGNAL, (uintptr_t)&region->single, 0, PLACE);
    REAL(GOMP_single_copy_end)(values);
}
void GOMP_ordered_start(void);
void GOMP_ordered_start(void) {
    REAL(GOMP_ordered_start)();
    if (region) record_sync(WAIT, (uintptr_t)&region->ordered, 0, PLACE);
}
void GOMP_ordered_end(void);
void GOMP_ordered_end(void) {
    if (region) record_sync(POST, (uintptr_t)&region->ordered, 0, PLACE);
    REAL(GOMP_ordered_end)();
}

/* Sections that one thread at a time is in. */
static char critical, atomic;
#define SECTION(name, at)                                                                                    \
    void name##_start(void);                                                                                 \
    void name##_start(void) {                                                                                \
        REAL(name##_start)();                                                                                \
        record_sync(ACQUIRE, (uintptr_t)&at, 0, PLACE);                                                      \
    }                                                                                                        \
    void name##_end(void);                                                                                   \
    void name##_end(void) {                                                                                  \
        record_sync(RELEASE, (uintptr_t)&at, 0, PLACE);                                                      \
        REAL(name##_end)();                                                                                  \
    }
SECTION(GOMP_critical, critical)
SECTION(GOMP_atomic, atomic)

#define TAKES(name)                                                                                          \
    void name(void *at);                                                                                     \
    void name(void *at) {                                                                                    \
        REAL(name)(at);                                                                                      \
        record_sync(ACQUIRE, (uintptr_t)at, 0, PLACE);                                                       \
    }
#define TRIES(name)                                                                                          \
    int name(void *at);                                                                                      \
    int name(void *at) {                                                                                     \
        int is_taken = REAL(name)(at);                                                                       \
        if (is_taken) record_sync(ACQUIRE, (uintptr_t)at, 0, PLACE);                                         \
        return is_taken;                                                                                     \
    }
#define BEFORE(name, kind)                                                                                   \
    void name(void *at);                                                                                     \
    void name(void *at) {                                                                                    \
        record_sync(kind, (uintptr_t)at, 0, PLACE);                                                          \
        REAL(name)(at);                                                                                      \
    }
TAKES(GOMP_critical_name_start)
BEFORE(GOMP_critical_name_end, RELEASE)
TAKES(omp_set_lock)
TAKES(omp_set_nest_lock)
TRIES(omp_test_lock)
TRIES(omp_test_nest_lock)
BEFORE(omp_unset_lock, RELEASE)
BEFORE(omp_unset_nest_lock, RELEASE)
BEFORE(omp_init_lock, FRESH)
BEFORE(omp_init_nest_lock, FRESH)
BEFORE(omp_destroy_lock, FRESH)
BEFORE(omp_destroy_nest_lock, FRESH)

static void tell_of_tasks(void) {
    static int is_told;
    if (!recording || __atomic_exchange_n(&is_told, 1, __ATOMIC_SEQ_CST)) return;
    complain("tasks of OpenMP are not seen: races between what they access may be false");
}
void GOMP_task(work_t work, void *given, void (*copy)(void *, void *), long size, long to, bool is_new,
               unsigned flags, void **depends, int priority, void *detach);
void GOMP_task(work_t work, void *given, void (*copy)(void *, void *), long size, long to, bool is_new,
               unsigned flags, void **depends, int priority, void *detach) {
    tell_of_tasks();
    REAL(GOMP_task)(work, given, copy, size, to, is_new, flags, depends, priority, detach);
}
