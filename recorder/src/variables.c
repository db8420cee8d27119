/* Accesses. A variable is a run of bytes of a block that no access splits. What one thread alone accessed in
 * the whole run is left out. Where a variable has plain accesses and atomic ones, atomic operations of
 * thread u access a variable of its own, x@u, and a plain access of x by another thread accesses each x@u as
 * well: so a plain and an atomic access may race, and two atomic ones do not. */
#include "writer.h"

/* The bytes of a cell from one address up to another, as bits. */
static uint32_t bits_of(uint64_t start, uint64_t end) {
    return ((1u << (end - start)) - 1) << start % 16;
}

static void mark_owner(struct cell *cell, uint64_t start, uint64_t end, uint16_t own) {
    for (uint64_t at = start; at < end; at++) {
        uint16_t *owner = &cell->owner[at % 16];
        if (*owner == own) continue;
        *owner = *owner ? SHARED : own;
    }
}

/* How an access is noted: where a block is given back nothing is cut. */
enum access { PLAIN, ATOMIC, WHOLE };

/* Notes who accesses these bytes, and where the access cuts their block. */
static void mark(uint64_t start, uint64_t end, uint32_t thread, enum access access) {
    for (uint64_t at = start; at < end;) {
        struct cell *cell = cell_at(at);
        uint64_t next = at / 16 * 16 + 16;
        uint64_t last = next < end ? next : end;
        uint32_t bits = bits_of(at, last);
        if (at == start && access != WHOLE) cell->cuts |= 1u << at % 16;
        if (last == end && access != WHOLE) cell->cuts |= 1u << ((last - 1) % 16 + 1);
        mark_owner(cell, at, last, thread + 1);
        if (access == ATOMIC) cell->atomic |= bits;
        else cell->plain |= bits;
        if (access == ATOMIC) user_of(cell, thread)->bytes |= bits;
        at = last;
    }
}

/* Where the variable ends that begins at this address, in this cell. */
static uint64_t variable_end(struct cell *cell, uint64_t address, uint64_t end) {
    uint64_t at = address;
    for (;;) {
        uint32_t later = cell->cuts >> (at % 16 + 1);
        if (later) {
            at += 1 + (uint64_t)__builtin_ctz(later);
            return at < end ? at : end;
        }
        at = at / 16 * 16 + 16;
        if (at >= end) return end;
        struct cell *next = cell_at(at);
        if (next->block != cell->block || next->cuts & 1) return at;
        cell = next;
    }
}

/* The variables of other threads' atomic operations. */
static void put_users(const struct event *event, uint32_t thread, const char *operation, uint64_t address,
                      struct cell *cell) {
    uint16_t byte = 1 << address % 16;
    if (!(cell->atomic & byte)) return;
    for (struct user *user = user_number(cell->users); user; user = user_number(user->next)) {
        if (!(user->bytes & byte) || user->thread == thread) continue;
        if (!(user->named & byte)) counts.variables++;
        user->named |= byte;
        line(event, thread, operation, address, cell->block, OF_USER, user->thread);
    }
}

static void put_variable(const struct event *event, uint32_t thread, const char *operation, uint64_t address,
                         struct cell *cell) {
    uint16_t byte = 1 << address % 16;
    if (cell->owner[address % 16] != SHARED && !options.keeps_all) return;
    if (!(cell->named & byte)) counts.variables++;
    cell->named |= byte;
    line(event, thread, operation, address, cell->block, NO_ROLE, 0);
    put_users(event, thread, operation, address, cell);
}

static void see_bytes(const struct event *event, uint32_t thread, uint64_t start, uint64_t end) {
    const char *operation = kind_of(event) == READ ? "|r(" : "|w(";
    if (!is_writing) {
        mark(start, end, thread, kind_of(event) == FREED ? WHOLE : PLAIN);
        return;
    }
    for (uint64_t at = start; at < end;) {
        struct cell *cell = cell_at(at);
        put_variable(event, thread, operation, at, cell);
        at = variable_end(cell, at, end);
    }
}

/* Whether there is one thread alone, none of whose accesses are written. */
static int is_alone(void) { return thread_count < 2 && !options.keeps_all; }

/* Of a large block that is given back, only what was accessed before counts as stored to. */
void see_access(const struct event *event, uint32_t thread) {
    static const uint64_t large = 4096;
    if (is_alone()) return;
    uint64_t start = address_of(event);
    uint64_t end = start + size_of(event);
    if (kind_of(event) != FREED || end - start <= large) {
        see_bytes(event, thread, start, end);
        return;
    }
    for (uint64_t at = start; at < end;) {
        uint64_t from = at;
        while (at < end && has_cell(at)) at = at / 16 * 16 + 16;
        if (at > from) see_bytes(event, thread, from, at < end ? at : end);
        else at = at / 16 * 16 + 16;
    }
}

static void put_atomic(const struct event *event, uint32_t thread, uint64_t address, struct cell *cell) {
    uint16_t byte = 1 << address % 16;
    if (!(cell->plain & byte)) return;
    if (cell->owner[address % 16] != SHARED && !options.keeps_all) return;
    struct user *user = user_of(cell, thread);
    if (!(user->named & byte)) counts.variables++;
    user->named |= byte;
    line(event, thread, kind_of(event) == LOAD ? "|r(" : "|w(", address, cell->block, OF_USER, thread);
}

void see_atomic(const struct event *event, uint32_t thread) {
    uint64_t start = address_of(event);
    uint64_t end = start + size_of(event) % ORDERS;
    if (is_alone()) return;
    if (!is_writing) {
        mark(start, end, thread, ATOMIC);
        return;
    }
    for (uint64_t at = start; at < end;) {
        struct cell *cell = cell_at(at);
        put_atomic(event, thread, at, cell);
        at = variable_end(cell, at, end);
    }
}
