/* What orders threads, by its address and the block that it lies in: so a lock in memory that is given out
 * again is another lock. */
#include "writer.h"

enum { OBJECTS = 1 << 26, CHAINS = 1 << 20 };
static struct object *objects;
static struct hold *holds;
static uint32_t *chains;
static struct post *posts;
static uint32_t object_count, hold_count, post_count;

int start_objects(void) {
    objects = pages(sizeof *objects * OBJECTS);
    holds = pages(sizeof *holds * OBJECTS);
    chains = pages(sizeof *chains * CHAINS);
    posts = pages(sizeof *posts * OBJECTS);
    return objects && holds && chains && posts;
}

static void forget_hold(struct hold *hold) {
    hold->depth = 0;
    hold->before = (struct signal){ 0 };
}

/* Before the second time: who read-locked what stays known. */
void again_objects(void) {
    for (uint32_t i = 1; i <= object_count; i++) {
        struct object *object = &objects[i];
        forget_hold(&object->writer);
        object->given = (struct signal){ 0 };
        object->latest = (struct signal){ 0 };
        object->posts = 0;
        object->count = 0;
        object->arrived = 0;
        object->round = 0;
        object->is_given_by_signal = 0;
    }
    post_count = 0;
    for (uint32_t i = 1; i <= hold_count; i++) forget_hold(&holds[i]);
}

struct object *object_of(uint64_t address) {
    uint32_t block = block_at(address);
    uint64_t mixed = (address ^ (uint64_t)block << 40) * 0x9e3779b97f4a7c15;
    uint32_t *chain = &chains[mixed >> 44];
    for (uint32_t number = *chain; number; number = objects[number].next) {
        if (objects[number].address == address && objects[number].block == block) return &objects[number];
    }
    if (object_count + 1 == OBJECTS) fail("memory is full");
    struct object *object = &objects[++object_count];
    object->address = address;
    object->block = block;
    object->next = *chain;
    *chain = object_count;
    return object;
}

struct hold *hold_number(uint32_t number) { return number ? &holds[number] : NULL; }

/* The hold of a thread that read-locks the object. */
struct hold *reader_of(struct object *object, uint32_t thread) {
    struct hold *hold = hold_number(object->readers);
    while (hold && hold->thread != thread) hold = hold_number(hold->next);
    if (hold) return hold;
    if (hold_count + 1 == OBJECTS) fail("memory is full");
    hold = &holds[++hold_count];
    hold->thread = thread;
    hold->next = object->readers;
    object->readers = hold_count;
    return hold;
}

struct post *post_number(uint32_t number) { return number ? &posts[number] : NULL; }

struct post *new_post(struct object *object) {
    if (post_count + 1 == OBJECTS) fail("memory is full");
    struct post *post = &posts[++post_count];
    post->next = object->posts;
    object->posts = post_count;
    return post;
}

/* Every hold of the thread. */
void all_held_by(uint32_t thread, void (*found)(struct object *object, struct hold *hold)) {
    for (uint32_t i = 1; i <= object_count; i++) {
        struct object *object = &objects[i];
        if (object->writer.depth && object->writer.thread == thread) found(object, &object->writer);
        struct hold *hold = hold_number(object->readers);
        for (; hold; hold = hold_number(hold->next)) {
            if (hold->depth && hold->thread == thread) found(object, hold);
        }
    }
}
