/* Calls that a program or a compiler may make of the sanitizer's library, and that say nothing of order
 * here. */
#include "recorder.h"

void __tsan_init(void) {}
void __tsan_flush_memory(void) {}
void __tsan_on_report(void *report) { (void)report; }
void __tsan_ignore_thread_begin(void) {
    if (self) self->ignored++;
}
void __tsan_ignore_thread_end(void) {
    if (self && self->ignored) self->ignored--;
}
void *__tsan_get_current_fiber(void) { return NULL; }
void *__tsan_create_fiber(unsigned flags) {
    (void)flags;
    return malloc(1);
}
void __tsan_destroy_fiber(void *fiber) { free(fiber); }
void __tsan_switch_to_fiber(void *fiber, unsigned flags) {
    (void)fiber;
    (void)flags;
}
void __tsan_set_fiber_name(void *fiber, const char *name) {
    (void)fiber;
    (void)name;
}
void __tsan_mutex_pre_signal(void *at, unsigned flags) {
    (void)at;
    (void)flags;
}
void __tsan_mutex_post_signal(void *at, unsigned flags) {
    (void)at;
    (void)flags;
}
void __tsan_mutex_pre_divert(void *at, unsigned flags) {
    (void)at;
    (void)flags;
}
void __tsan_mutex_post_divert(void *at, unsigned flags) {
    (void)at;
    (void)flags;
}
void *__tsan_external_register_tag(const char *type) { return (void *)(uintptr_t)type; }
void __tsan_external_register_header(void *tag, const char *head) {
    (void)tag;
    (void)head;
}
void __tsan_external_assign_tag(void *at, void *tag) {
    (void)at;
    (void)tag;
}
void __tsan_external_read(void *at, void *caller, void *tag) {
    (void)caller;
    (void)tag;
    record_range(READ, at, 1, PLACE);
}
void __tsan_external_write(void *at, void *caller, void *tag) {
    (void)caller;
    (void)tag;
    record_range(WRITE, at, 1, PLACE);
}

/* Annotations that begin and end what is to be ignored. */
#define BEGINS(name)                                                                                         \
    void name(const char *file, int line) {                                                                  \
        (void)file;                                                                                          \
        (void)line;                                                                                          \
        __tsan_ignore_thread_begin();                                                                        \
    }
#define FINISHES(name)                                                                                       \
    void name(const char *file, int line) {                                                                  \
        (void)file;                                                                                          \
        (void)line;                                                                                          \
        __tsan_ignore_thread_end();                                                                          \
    }
BEGINS(AnnotateIgnoreReadsBegin)
FINISHES(AnnotateIgnoreReadsEnd)
BEGINS(AnnotateIgnoreWritesBegin)
FINISHES(AnnotateIgnoreWritesEnd)

/* Annotations that change nothing here, with the types of their further arguments. */
#define SILENT(name)                                                                                         \
    void name(const char *file, int line) {                                                                  \
        (void)file;                                                                                          \
        (void)line;                                                                                          \
    }
#define SILENT_AT(name)                                                                                      \
    void name(const char *file, int line, const volatile void *at) {                                         \
        (void)file;                                                                                          \
        (void)line;                                                                                          \
        (void)at;                                                                                            \
    }
#define SILENT_OF(name, type)                                                                                \
    void name(const char *file, int line, const volatile void *at, type more) {                              \
        (void)file;                                                                                          \
        (void)line;                                                                                          \
        (void)at;                                                                                            \
        (void)more;                                                                                          \
    }
SILENT(AnnotateIgnoreSyncBegin)
SILENT(AnnotateIgnoreSyncEnd)
SILENT(AnnotateFlushExpectedRaces)
SILENT(AnnotateFlushState)
SILENT_AT(AnnotateCondVarSignal)
SILENT_AT(AnnotateCondVarSignalAll)
SILENT_AT(AnnotateMutexIsNotPHB)
SILENT_AT(AnnotateMutexIsUsedAsCondVar)
SILENT_AT(AnnotatePCQCreate)
SILENT_AT(AnnotatePCQDestroy)
SILENT_AT(AnnotatePCQGet)
SILENT_AT(AnnotatePCQPut)
SILENT_AT(AnnotateThreadName)
SILENT_AT(AnnotateTraceMemory)
SILENT_AT(AnnotateNoOp)
SILENT_OF(AnnotateCondVarWait, const volatile void *)
SILENT_OF(AnnotateExpectRace, const char *)
SILENT_OF(AnnotateBenignRace, const char *)
SILENT_OF(AnnotateNewMemory, size_t)
SILENT_OF(AnnotatePublishMemoryRange, size_t)
SILENT_OF(AnnotateUnpublishMemoryRange, size_t)
SILENT_OF(AnnotateMemoryIsInitialized, size_t)
SILENT_OF(AnnotateMemoryIsUninitialized, size_t)
void AnnotateEnableRaceDetection(const char *file, int line, int is_on) {
    (void)file;
    (void)line;
    (void)is_on;
}
void AnnotateBenignRaceSized(const char *file, int line, const volatile void *at, size_t size,
                             const char *why) {
    (void)file;
    (void)line;
    (void)at;
    (void)size;
    (void)why;
}
void WTFAnnotateBenignRaceSized(const char *file, int line, const volatile void *at, size_t size,
                                const char *why) {
    AnnotateBenignRaceSized(file, line, at, size, why);
}
int RunningOnValgrind(void) { return 0; }
double ValgrindSlowdown(void) { return 10.0; }
const char *ThreadSanitizerQuery(const char *of) {
    (void)of;
    return "";
}

/* What reports of the sanitizer would use. */
void __sanitizer_print_stack_trace(void) {}
void __sanitizer_set_death_callback(void (*work)(void)) { (void)work; }
void __sanitizer_set_report_path(const char *path) { (void)path; }
void __sanitizer_set_report_fd(void *file) { (void)file; }
