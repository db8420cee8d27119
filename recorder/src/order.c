/* Signals and waits. A signal is a section on a lock of its own in which a variable of its own is stored; a
 * wait is such a section that loads it. Only signals that a thread waits for, and did not wait for before,
 * are written. */
#include "writer.h"

uint32_t sync_number;
static unsigned char *awaited;
/* Of each thread the latest signal of each other that it waited for; signals that its relaxed loads saw,
 * which a fence waits for, as a list; its latest release fence; the barrier's round that it waits in. */
static uint32_t waited[THREADS][THREADS];
struct seen {
    struct signal signals[THREADS];
    uint16_t threads[THREADS];
    uint32_t count;
};
static struct seen *seen[THREADS];
static struct signal fences[THREADS];
static uint32_t rounds[THREADS];

int start_order(void) {
    awaited = pages((event_count() + 8) / 8 + 1);
    return awaited != NULL;
}

void again_order(void) {
    sync_number = 0;
    memset(waited, 0, sizeof waited);
    memset(fences, 0, sizeof fences);
    for (uint32_t i = 0; i < THREADS; i++) {
        if (seen[i]) memset(seen[i], 0, sizeof *seen[i]);
    }
}

/* That somebody may wait for the signal. */
void await_later(const struct signal *signal) {
    awaited[signal->number / 8] |= 1 << signal->number % 8;
}

static void section(const struct event *event, uint32_t thread, const char *operation,
                    const struct signal *signal) {
    uint64_t address = signal->is_fence ? 0 : signal->address;
    line(event, thread, "|acq(", address, signal->block, OF_SIGNAL, signal->number);
    line(event, thread, operation, address, signal->block, OF_SIGNAL, signal->number);
    line(event, thread, "|rel(", address, signal->block, OF_SIGNAL, signal->number);
}

/* The thread waits for the signal, if it is another thread's and the thread waited for no later one of it. */
void await(const struct signal *signal, const struct event *event, uint32_t thread) {
    uint32_t *before = &waited[thread][signal->thread];
    if (!signal->number || signal->thread == thread || *before >= signal->number) return;
    *before = signal->number;
    if (is_writing) section(event, thread, "|r(", signal);
    else await_later(signal);
}

/* The signal is made here. */
void signal_at(const struct signal *signal, const struct event *event, uint32_t thread) {
    if (!is_writing || !(awaited[signal->number / 8] & 1 << signal->number % 8)) return;
    counts.locks++;
    counts.variables++;
    section(event, thread, "|w(", signal);
}

static struct signal new_signal(struct object *object, uint32_t thread) {
    return (struct signal){ object->address, object->block, sync_number, thread, 0 };
}

/* Waits for the latest signal and all posts since. */
static void await_all(const struct object *object, const struct event *event, uint32_t thread) {
    await(&object->latest, event, thread);
    struct post *post = post_number(object->posts);
    for (; post; post = post_number(post->next)) await(&post->signal, event, thread);
}

/* A signal beside those of others, in the place of the thread's own. */
static void add_post(struct object *object, const struct event *event, uint32_t thread) {
    struct post *post = post_number(object->posts);
    while (post && post->signal.thread != thread) post = post_number(post->next);
    if (!post) post = new_post(object);
    post->signal = new_signal(object, thread);
    signal_at(&post->signal, event, thread);
}

static void see_barrier(const struct event *event, uint32_t thread, struct object *object) {
    struct signal signal = new_signal(object, thread);
    if (kind_of(event) == BARRIER) {
        object->count = size_of(event);
        object->arrived = 0;
        return;
    }
    if (kind_of(event) == ARRIVE) {
        if (size_of(event) && size_of(event) != object->count) {
            object->count = size_of(event);
            object->arrived = 0;
        }
        if (object->count && object->arrived++ % object->count == 0) {
            object->round = sync_number;
            if (is_writing) counts.locks++;
            if (is_writing) counts.variables++;
        }
        rounds[thread] = object->count ? object->round : 0;
        if (!object->count) {
            add_post(object, event, thread);
            return;
        }
    }
    signal.number = rounds[thread];
    if (!rounds[thread]) await_all(object, event, thread);
    else if (is_writing) section(event, thread, kind_of(event) == ARRIVE ? "|w(" : "|r(", &signal);
}

/* A relaxed load saw the signal: a later fence of the thread waits for it. */
static void remember(const struct signal *signal, uint32_t thread) {
    if (!signal->number || signal->thread == thread) return;
    if (!seen[thread]) seen[thread] = pages(sizeof **seen);
    struct seen *list = seen[thread];
    if (!list) fail("memory is full");
    struct signal *kept = &list->signals[signal->thread];
    if (!kept->number) list->threads[list->count++] = signal->thread;
    if (kept->number < signal->number) *kept = *signal;
}

static void see_fence(const struct event *event, uint32_t thread) {
    int order = size_of(event) / ORDERS;
    struct seen *list = seen[thread];
    if (order != __ATOMIC_RELEASE && list) {
        for (uint32_t i = 0; i < list->count; i++) {
            await(&list->signals[list->threads[i]], event, thread);
            list->signals[list->threads[i]].number = 0;
        }
        list->count = 0;
    }
    if (order != __ATOMIC_ACQUIRE && order != __ATOMIC_CONSUME) {
        fences[thread] = (struct signal){ 0, 0, sync_number, thread, 1 };
        signal_at(&fences[thread], event, thread);
    }
}

static int acquires(int order) { return order != __ATOMIC_RELAXED && order != __ATOMIC_RELEASE; }
static int releases(int order) { return order >= __ATOMIC_RELEASE; }

/* A relaxed store publishes what the thread's last release fence did. An update that releases goes on from
 * the signal before it, which it waits for. */
static void see_operation(const struct event *event, uint32_t thread, struct object *object) {
    int order = size_of(event) / ORDERS;
    enum kind kind = kind_of(event);
    int is_new = kind == STORE || (kind == UPDATE && (releases(order) || fences[thread].number));
    int does_wait = kind == LOAD ? acquires(order) : kind == UPDATE && (is_new || acquires(order));
    if (does_wait) await(&object->latest, event, thread);
    else if (kind != STORE) remember(&object->latest, thread);
    see_atomic(event, thread);
    if (!is_new) return;
    if (kind == STORE && !releases(order)) {
        object->latest = fences[thread];
        return;
    }
    object->latest = new_signal(object, thread);
    signal_at(&object->latest, event, thread);
}

static void see_plain(const struct event *event, uint32_t thread, struct object *object) {
    enum kind kind = kind_of(event);
    if (kind == WAIT) {
        await_all(object, event, thread);
    } else if (kind == POST) {
        add_post(object, event, thread);
    } else {
        object->posts = 0;
        object->latest = new_signal(object, thread);
        signal_at(&object->latest, event, thread);
    }
}

void see_signal(const struct event *event, uint32_t thread) {
    enum kind kind = kind_of(event);
    if (kind == FENCE) {
        see_fence(event, thread);
        return;
    }
    struct object *object = object_of(address_of(event));
    if (kind >= LOAD) {
        see_operation(event, thread, object);
    } else if (kind >= BARRIER) {
        see_barrier(event, thread, object);
    } else {
        see_plain(event, thread, object);
    }
}
