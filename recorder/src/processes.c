/* Calls that make another process or program of this one, and calls after which the trace could not be
 * named. */
#include <fcntl.h>
#include <stdarg.h>
#include "recorder.h"

extern char **environ;

/* The child of vfork records too, so it cannot share the parent's memory. */
pid_t vfork(void) { return fork(); }

/* The child is the run that goes on, in the same trace; the parent ends without one. */
int daemon(int keeps_folder, int keeps_files) {
    fork_goes_on = 1;
    pid_t child = fork();
    fork_goes_on = 0;
    if (child < 0) return -1;
    if (child > 0) leave_to_child(child);
    follow_process();
    if (setsid() < 0) return -1;
    if (!keeps_folder && chdir("/") != 0) return -1;
    if (keeps_files) return 0;
    int file = open("/dev/null", O_RDWR);
    if (file < 0) return -1;
    for (int i = 0; i < 3; i++) dup2(file, i);
    if (file > 2) close(file);
    return 0;
}

/* Whether a program can be run: the trace ends there, so a try that fails is seen before. */
static int can_run(const char *file) {
    char path[4096];
    if (strchr(file, '/')) return access(file, X_OK) == 0;
    const char *folders = getenv("PATH");
    for (const char *at = folders ? folders : "/bin:/usr/bin"; *at;) {
        size_t length = strcspn(at, ":");
        snprintf(path, sizeof path, "%.*s/%s", (int)length, at, file);
        if (access(path, X_OK) == 0) return 1;
        at += length + (at[length] == ':');
    }
    return 0;
}
static void before_exec(const char *file) {
    if (recording && can_run(file)) finish("exec");
}

int execve(const char *file, char *const words[], char *const variables[]) {
    before_exec(file);
    return REAL(execve)(file, words, variables);
}
int execv(const char *file, char *const words[]) { return execve(file, words, environ); }
int execvp(const char *file, char *const words[]) {
    before_exec(file);
    return REAL(execvp)(file, words);
}
int execvpe(const char *file, char *const words[], char *const variables[]) {
    before_exec(file);
    return REAL(execvpe)(file, words, variables);
}
int fexecve(int file, char *const words[], char *const variables[]) {
    if (recording) finish("exec");
    return REAL(fexecve)(file, words, variables);
}

enum { WORDS = 4096 };
static void gather(char **words, const char *first, va_list rest) {
    int count = 0;
    words[count++] = (char *)(uintptr_t)first;
    while (words[count - 1] && count < WORDS - 1) words[count++] = va_arg(rest, char *);
    words[count] = NULL;
}
int execl(const char *file, const char *first, ...) {
    char *words[WORDS];
    va_list rest;
    va_start(rest, first);
    gather(words, first, rest);
    va_end(rest);
    return execve(file, words, environ);
}
int execlp(const char *file, const char *first, ...) {
    char *words[WORDS];
    va_list rest;
    va_start(rest, first);
    gather(words, first, rest);
    va_end(rest);
    return execvp(file, words);
}
int execle(const char *file, const char *first, ...) {
    char *words[WORDS];
    va_list rest;
    va_start(rest, first);
    gather(words, first, rest);
    char *const *variables = va_arg(rest, char *const *);
    va_end(rest);
    return execve(file, words, variables);
}

/* Who gives up the right to the folder gives the trace its name before. */
int setuid(uid_t user) {
    keep_name();
    return REAL(setuid)(user);
}
int seteuid(uid_t user) {
    keep_name();
    return REAL(seteuid)(user);
}
int setreuid(uid_t real, uid_t effective) {
    keep_name();
    return REAL(setreuid)(real, effective);
}
int setresuid(uid_t real, uid_t effective, uid_t saved) {
    keep_name();
    return REAL(setresuid)(real, effective, saved);
}
