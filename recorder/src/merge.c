/* The events of all threads in one order: by time, and by thread where times are the same. */
#include "writer.h"

struct source {
    const struct event *next, *end;
    uint64_t time;
    uint32_t thread;
};
static struct source heap[THREADS];
static uint32_t sources;

/* Where each thread's events end. A thread that was stopped within an event may fill its place any time. */
static const struct event *ends[THREADS];
void stop_threads(void) {
    uint32_t count = thread_count < THREADS ? thread_count : THREADS;
    for (uint32_t i = 0; i < count; i++) {
        if (!threads[i] || !threads[i]->events) continue;
        struct event *end = threads[i]->next;
        struct event *start = threads[i]->events;
        while (end > start && end[-1].words[2] == 0) end--;
        if (end - start > 1 && end[-2].words[2] == 0) end -= 2;
        ends[i] = end;
    }
}

uint64_t event_count(void) {
    uint64_t all = 0;
    uint32_t count = thread_count < THREADS ? thread_count : THREADS;
    for (uint32_t i = 0; i < count; i++) {
        if (ends[i]) all += (uint64_t)(ends[i] - threads[i]->events);
    }
    return all;
}

/* All events, those of one thread after those of another. */
void each_thread(void (*visit)(struct event *event, uint32_t thread)) {
    uint32_t count = thread_count < THREADS ? thread_count : THREADS;
    for (uint32_t i = 0; i < count; i++) {
        for (struct event *event = threads[i] ? threads[i]->events : NULL; event < ends[i]; event++)
            visit(event, i);
    }
}

static int is_before(const struct source *one, const struct source *other) {
    if (one->time != other->time) return one->time < other->time;
    return one->thread < other->thread;
}

static void sink(uint32_t at) {
    for (;;) {
        uint32_t least = at;
        uint32_t child = 2 * at + 1;
        if (child < sources && is_before(&heap[child], &heap[least])) least = child;
        if (child + 1 < sources && is_before(&heap[child + 1], &heap[least])) least = child + 1;
        if (least == at) return;
        struct source moved = heap[at];
        heap[at] = heap[least];
        heap[least] = moved;
        at = least;
    }
}

/* Skips what is no event: one that was taken back, the second half of one, or one that was never whole. */
static int settle(struct source *source) {
    while (source->next < source->end &&
           (kind_of(source->next) == NOTHING || kind_of(source->next) == MORE))
        source->next++;
    if (source->next >= source->end) return 0;
    source->time = time_of(source->next);
    return 1;
}

static void fill_heap(void) {
    uint32_t count = thread_count < THREADS ? thread_count : THREADS;
    sources = 0;
    for (uint32_t i = 0; i < count; i++) {
        if (!ends[i]) continue;
        heap[sources] = (struct source){ threads[i]->events, ends[i], 0, i };
        if (settle(&heap[sources])) sources++;
    }
    for (uint32_t i = sources; i-- > 0;) sink(i);
}

/* The source whose turn comes after the first. */
static const struct source *second(void) {
    if (sources < 2) return NULL;
    return sources > 2 && is_before(&heap[2], &heap[1]) ? &heap[2] : &heap[1];
}

void walk(void (*visit)(const struct event *event, uint32_t thread)) {
    fill_heap();
    while (sources > 0) {
        struct source *first = &heap[0];
        const struct source *later = second();
        int has_more = 1;
        while (has_more && (!later || is_before(first, later))) {
            visit(first->next, first->thread);
            first->next++;
            has_more = settle(first);
        }
        if (!has_more) {
            sources--;
            heap[0] = heap[sources];
        }
        sink(0);
    }
}
