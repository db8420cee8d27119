/* Who holds which lock. A hold that its own thread ends by a release is written as a section. One that ends
 * otherwise (another thread unlocks, the lock is initialised or destroyed, the thread ends, another thread
 * gets the lock) is none: its acquire waits for the release before it, and what ended it is a signal to the
 * next. The first time finds which holds these are, so what is written is legal and orders as much as the
 * run did. */
#include "writer.h"

static unsigned char *improper;
static uint32_t held[THREADS]; /* how many holds each thread has */

int start_holders(void) {
    improper = pages(event_count() / 8 + 2);
    return improper != NULL;
}

void again_holders(void) { memset(held, 0, sizeof held); }

static int is_improper(uint32_t number) { return improper[number / 8] >> number % 8 & 1; }
static void make_improper(struct hold *hold) {
    improper[hold->taken / 8] |= 1 << hold->taken % 8;
    if (!is_writing && hold->before.number) await_later(&hold->before);
}

static struct signal signal_here(struct object *object, uint32_t thread) {
    return (struct signal){ object->address, object->block, sync_number, thread, 0 };
}

static void put_lock(const struct event *event, uint32_t thread, const char *operation, struct object *object,
                     struct hold *reader) {
    if (!is_writing) return;
    uint8_t *is_named = reader ? &reader->is_named : &object->is_named;
    counts.locks += !*is_named;
    *is_named = 1;
    line(event, thread, operation, object->address, object->block, reader ? OF_READER : NO_ROLE,
         reader ? reader->thread : 0);
}

/* A writer takes the lock and that of each thread that ever reads. */
static void put_writer(const struct event *event, uint32_t thread, const char *operation,
                       struct object *object) {
    struct hold *reader = hold_number(object->readers);
    put_lock(event, thread, operation, object, NULL);
    for (; reader; reader = hold_number(reader->next)) put_lock(event, thread, operation, object, reader);
}

/* Begins a hold, or goes deeper. */
static void take(const struct event *event, uint32_t thread, struct object *object, struct hold *hold) {
    if (hold->depth == 0) {
        held[thread]++;
        hold->thread = thread;
        hold->taken = sync_number;
        hold->before = object->given;
        if (object->is_given_by_signal || is_improper(sync_number)) await(&object->given, event, thread);
    }
    hold->depth++;
    if (is_improper(hold->taken)) return;
    if (hold == &object->writer) put_writer(event, thread, "|acq(", object);
    else put_lock(event, thread, "|acq(", object, hold);
}

/* Ends a hold otherwise than by its thread's release. */
static void cut_short(struct hold *hold) {
    if (!hold->depth) return;
    make_improper(hold);
    held[hold->thread]--;
    hold->depth = 0;
}

static void cut_readers(struct object *object, uint32_t but) {
    struct hold *reader = hold_number(object->readers);
    for (; reader; reader = hold_number(reader->next)) {
        if (reader->thread != but) cut_short(reader);
    }
}

static void give(const struct event *event, uint32_t thread, struct object *object, struct hold *hold) {
    hold->depth--;
    if (!is_improper(hold->taken)) {
        if (hold == &object->writer) put_writer(event, thread, "|rel(", object);
        else put_lock(event, thread, "|rel(", object, hold);
    }
    if (hold->depth) return;
    held[thread]--;
    object->given = signal_here(object, thread);
    object->is_given_by_signal = 0;
    signal_at(&object->given, event, thread);
}

/* An unlock by a thread that holds nothing: whoever holds the lock loses it. */
static void give_for_another(const struct event *event, uint32_t thread, struct object *object) {
    if (object->writer.depth) cut_short(&object->writer);
    else cut_readers(object, THREADS);
    object->given = signal_here(object, thread);
    object->is_given_by_signal = 1;
    signal_at(&object->given, event, thread);
}

static const struct event *ending;
static void end_hold(struct object *object, struct hold *hold) {
    uint32_t thread = hold->thread;
    cut_short(hold);
    object->given = signal_here(object, thread);
    object->is_given_by_signal = 1;
    signal_at(&object->given, ending, thread);
}

void see_lock(const struct event *event, uint32_t thread) {
    enum kind kind = kind_of(event);
    if (kind == END) {
        ending = event;
        if (held[thread]) all_held_by(thread, end_hold);
        return;
    }
    struct object *object = object_of(address_of(event));
    struct hold *writer = &object->writer;
    int is_writer = writer->depth && writer->thread == thread;
    if (kind == FRESH) {
        cut_short(writer);
        cut_readers(object, THREADS);
        object->given = (struct signal){ 0 };
        object->is_given_by_signal = 0;
    } else if (kind == ACQUIRE || kind == WRITE_LOCK) {
        if (!is_writer) cut_short(writer);
        if (kind == WRITE_LOCK) cut_readers(object, thread);
        take(event, thread, object, writer);
    } else if (kind == READ_LOCK) {
        if (!is_writer) cut_short(writer);
        take(event, thread, object, reader_of(object, thread));
    } else if (is_writer) {
        give(event, thread, object, writer);
    } else if (kind == READ_WRITE_UNLOCK && reader_of(object, thread)->depth) {
        give(event, thread, object, reader_of(object, thread));
    } else {
        give_for_another(event, thread, object);
    }
}
