/* Functions that the sanitizer's library has too, and of which the C library has more than one version. A
 * program that was linked with the sanitizer's asks for them without a version. Without these it would get
 * the oldest, which differs. */
#include <glob.h>
#include <sched.h>
#include <spawn.h>
#include "recorder.h"

int pthread_cond_init(pthread_cond_t *at, const pthread_condattr_t *attributes) {
    return REAL(pthread_cond_init)(at, attributes);
}
int pthread_cond_destroy(pthread_cond_t *at) { return REAL(pthread_cond_destroy)(at); }
int pthread_cond_signal(pthread_cond_t *at) { return REAL(pthread_cond_signal)(at); }
int pthread_cond_broadcast(pthread_cond_t *at) { return REAL(pthread_cond_broadcast)(at); }

FILE *fmemopen(void *at, size_t size, const char *mode) { return REAL(fmemopen)(at, size, mode); }
char *realpath(const char *path, char *to) { return REAL(realpath)(path, to); }
int glob(const char *pattern, int flags, int (*failed)(const char *, int), glob_t *found) {
    return REAL(glob)(pattern, flags, failed, found);
}
int glob64(const char *pattern, int flags, int (*failed)(const char *, int), glob64_t *found) {
    return REAL(glob64)(pattern, flags, failed, found);
}
int regexec(const void *pattern, const char *words, size_t count, void *found, int flags);
int regexec(const void *pattern, const char *words, size_t count, void *found, int flags) {
    return REAL(regexec)(pattern, words, count, found, flags);
}
int posix_spawn(pid_t *child, const char *path, const posix_spawn_file_actions_t *actions,
                const posix_spawnattr_t *attributes, char *const words[], char *const variables[]) {
    return REAL(posix_spawn)(child, path, actions, attributes, words, variables);
}
int posix_spawnp(pid_t *child, const char *file, const posix_spawn_file_actions_t *actions,
                 const posix_spawnattr_t *attributes, char *const words[], char *const variables[]) {
    return REAL(posix_spawnp)(child, file, actions, attributes, words, variables);
}
int sched_getaffinity(pid_t thread, size_t size, cpu_set_t *set) {
    return REAL(sched_getaffinity)(thread, size, set);
}
int pthread_attr_getaffinity_np(const pthread_attr_t *attributes, size_t size, cpu_set_t *set) {
    return REAL(pthread_attr_getaffinity_np)(attributes, size, set);
}

/* The C library has this one only within each program, where the sanitizer's takes its place. */
int __cxa_atexit(void (*work)(void *), void *given, void *file);
int atexit(void (*work)(void)) { return __cxa_atexit((void (*)(void *))(void (*)(void))work, NULL, NULL); }
