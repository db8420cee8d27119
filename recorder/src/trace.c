/* The trace: the two passes through the events. */
#include <setjmp.h>
#include "writer.h"

int is_writing;
static unsigned char is_over[THREADS];
static jmp_buf broken;
static const char *broken_by;

/* Gives up: the trace is not written. */
void fail(const char *why) {
    broken_by = why;
    longjmp(broken, 1);
}

static void see_thread(const struct event *event, uint32_t thread) {
    uint32_t other = size_of(event);
    if (!is_writing) return;
    line_of_thread(event, thread, kind_of(event) == FORK ? "|fork(" : "|join(", other);
    if (kind_of(event) == JOIN) is_over[other] = 1;
}

static void see(const struct event *event, uint32_t thread) {
    enum kind kind = kind_of(event);
    if (is_over[thread]) return;
    if (kind <= FREED) {
        see_access(event, thread);
        return;
    }
    sync_number++;
    if (kind <= STACK) new_block(event, thread);
    else if (kind <= JOIN) see_thread(event, thread);
    else if (kind <= FRESH) see_lock(event, thread);
    else see_signal(event, thread);
}

/* Writes the trace, and answers why it could not be written, NULL where it was. */
const char *write_trace(int file) {
    if (setjmp(broken)) return broken_by;
    stop_threads();
    take_out_alone();
    start_names();
    if (!start_blocks() || !start_objects() || !start_order() || !start_holders() || !start_lines(file))
        return "memory is full";
    is_writing = 0;
    walk(see);
    again_blocks();
    again_objects();
    again_order();
    again_holders();
    is_writing = 1;
    walk(see);
    return end_lines() ? NULL : "a write failed";
}
