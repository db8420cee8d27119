/* The start of recording: in the first process, and in children of fork. */
#include "channels.h"

volatile int fork_goes_on;
static const uint64_t nothing[5];

static int is_set(const char *name, const char *value) {
    const char *given = getenv(name);
    return given && strcmp(given, value) == 0;
}

/* How many events there is room for: WCP_EVENTS, or half of the machine's memory. */
static uint64_t room(void) {
    const char *given = getenv("WCP_EVENTS");
    uint64_t asked = given ? strtoull(given, NULL, 10) : 0;
    uint64_t bytes = (uint64_t)sysconf(_SC_PHYS_PAGES) * (uint64_t)sysconf(_SC_PAGESIZE);
    return asked ? asked : bytes / 2 / sizeof(struct event);
}

/* The first process ends where its trace cannot be opened; others go on without one. */
void start_recording(int is_child) {
    int is_first = !is_child && !getenv("WCP_FIRST");
    if (!open_files(is_child)) {
        complain("the trace cannot be opened");
        tell_status(getpid(), "cut: the trace cannot be opened", nothing);
        if (is_first) _exit(125);
        return;
    }
    options.keeps_all = is_set("WCP_ALL", "1");
    options.keeps_less = is_set("WCP_LESS", "1");
    options.has_stacks = !is_set("WCP_STACKS", "0");
    options.events = room();
    if (!stacks) start_stacks();
    start_clock();
    again_ends();
    tell_status(getpid(), "started", nothing);
    recording = 1;
    struct thread *thread = new_thread();
    if (thread) begin_thread(thread);
}

/* A child records anew, into a file of its own. Its calls are those of the thread that forked. */
static void go_on_in_child(void) {
    struct thread *before = self;
    if (fork_goes_on || !getenv("WCP_TRACE")) return;
    recording = 0;
    self = NULL;
    again_clock();
    again_channels();
    again_events();
    close_files();
    start_recording(1);
    if (!self || !before) return;
    for (uint32_t i = 0; i < before->depth; i++) self->frames[i] = before->frames[i];
    self->depth = before->depth;
    self->beyond = before->beyond;
}

__attribute__((constructor(101))) static void start(void) {
    if (!getenv("WCP_TRACE")) return;
    read_program();
    start_recording(0);
    if (recording) catch_signals();
    pthread_atfork(NULL, NULL, go_on_in_child);
}
