/* Before the passes: takes out the accesses of memory that one thread alone accessed, so that the passes meet
 * fewer. It looks at lines of 64 bytes, whichever block they are of, and lines that lie far apart have one
 * owner; the passes find what is left. */
#include "writer.h"

enum { LINE_BYTES = 64, LINES = 1 << 22 };
static uint16_t *owners;

static int is_access(enum kind kind) { return kind >= READ && kind <= FREED; }

/* The bytes that an event accesses. */
static uint64_t length_of(const struct event *event) {
    enum kind kind = kind_of(event);
    if (is_access(kind)) return size_of(event);
    return kind >= LOAD && kind <= UPDATE ? size_of(event) % ORDERS : 0;
}

/* The first and the last line of the event. All lines there are where it is so long. */
static uint64_t first_line(const struct event *event) { return address_of(event) / LINE_BYTES; }
static uint64_t last_line(const struct event *event, uint64_t length) {
    uint64_t last = (address_of(event) + length - 1) / LINE_BYTES;
    return last - first_line(event) < LINES ? last : first_line(event) + LINES - 1;
}

static void own(struct event *event, uint32_t thread) {
    uint64_t length = length_of(event);
    if (length == 0) return;
    for (uint64_t line = first_line(event); line <= last_line(event, length); line++) {
        uint16_t *owner = &owners[line % LINES];
        if (*owner != thread + 1) *owner = *owner ? SHARED : thread + 1;
    }
}

static void take_out(struct event *event, uint32_t thread) {
    if (!is_access(kind_of(event))) return;
    for (uint64_t line = first_line(event); line <= last_line(event, size_of(event)); line++) {
        if (owners[line % LINES] != thread + 1) return;
    }
    event->words[2] &= ~((uint64_t)63 << 48);
}

void take_out_alone(void) {
    if (options.keeps_all) return;
    if (!owners) owners = pages(sizeof *owners * LINES);
    if (!owners) return;
    each_thread(own);
    each_thread(take_out);
}
