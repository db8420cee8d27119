/* The files that are written: the trace, what explains it, and a line of summary. They are opened at the
 * start and kept open, at high numbers. The trace is written under a temporary name and named when it is
 * whole; a pipe or a device is written directly. */
#include <fcntl.h>
#include <sys/stat.h>
#include <sys/syscall.h>
#include "recorder.h"

enum { PATH = 4096, HIGH = 900 };
static char path[PATH], part[PATH + 8], info[PATH + 8], info_part[PATH + 16];
static int trace = -1, beside = -1, summary = -1, folder = -1;
static int is_direct, is_named;

/* The path of the executable: it is read at the start, since chroot hides it. */
char program_path[4096];
void read_program(void) {
    ssize_t length = readlink("/proc/self/exe", program_path, sizeof program_path - 1);
    program_path[length > 0 ? length : 0] = 0;
}

int is_own_file(int file) {
    return file >= 0 && (file == trace || file == beside || file == summary || file == folder);
}

/* The least of the recorder's files from this number on. */
unsigned next_own_file(unsigned first) {
    int own[] = { trace, beside, summary, folder };
    unsigned least = UINT32_MAX;
    for (int i = 0; i < 4; i++) {
        if (own[i] >= 0 && (unsigned)own[i] >= first && (unsigned)own[i] < least) least = (unsigned)own[i];
    }
    return least;
}

/* The program takes this number for a file of its own. */
void move_own_file(int file) {
    int *own[] = { &trace, &beside, &summary, &folder };
    for (int i = 0; i < 4; i++) {
        if (file >= 0 && *own[i] == file) *own[i] = (int)syscall(SYS_fcntl, file, F_DUPFD_CLOEXEC, file + 1);
    }
}

int trace_file(void) { return trace; }
int info_file(void) { return beside; }

/* Closes by the system's call, since the recorder's own close keeps these files. */
static void shut(int *file) {
    if (*file >= 0) syscall(SYS_close, *file);
    *file = -1;
}

static int open_high(const char *name, int flags) {
    int low = openat(AT_FDCWD, name, flags | O_CLOEXEC, 0666);
    if (low < 0) return -1;
    int high = fcntl(low, F_DUPFD_CLOEXEC, HIGH);
    if (high < 0) return low;
    syscall(SYS_close, low);
    return high;
}

void complain(const char *why) {
    char words[PATH + 256];
    int length = snprintf(words, sizeof words, "recorder: %s\n", why);
    if (write(2, words, (size_t)length) < 0) return;
}

/* Whether the summary names the trace already: another process of this run records into it. */
static int is_taken(void) {
    const char *name = getenv("WCP_SUMMARY");
    char text[8192];
    size_t kept = 0;
    size_t length = strlen(path);
    int found = 0;
    int file = name ? open(name, O_RDONLY | O_CLOEXEC) : -1;
    if (file < 0) return 0;
    for (;;) {
        ssize_t got = read(file, text + kept, sizeof text - 1 - kept);
        if (got <= 0) break;
        kept += (size_t)got;
        text[kept] = 0;
        for (char *at = strstr(text, path); at; at = strstr(at + 1, path)) {
            if (at > text && at[-1] == '\t' && at[length] == '\n') found = 1;
        }
        size_t keep = kept < length + 2 ? kept : length + 2;
        memmove(text, text + kept - keep, keep);
        kept = keep;
    }
    syscall(SYS_close, file);
    return found;
}

/* FILE with the process's number for `%p`; without one, and in a child, FILE.PID; where that is taken,
 * FILE.PID.2 and so on. */
static int find_path(const char *name, int is_child) {
    char room[PATH];
    char number[24];
    snprintf(number, sizeof number, "%d", (int)getpid());
    int has_number = strstr(name, "%p") != NULL;
    size_t length = 0;
    if (*name != '/' && getcwd(room, sizeof room - 1)) length = (size_t)snprintf(path, PATH, "%s/", room);
    for (const char *at = name; *at && length < PATH - 64; at++) {
        int is_number = at[0] == '%' && at[1] == 'p';
        if (is_number) length += (size_t)snprintf(path + length, PATH - length, "%s", number);
        else path[length++] = *at;
        at += is_number;
    }
    if (length >= PATH - 64) return 0;
    path[length] = 0;
    struct stat found;
    int exists = stat(path, &found) == 0;
    is_direct = strncmp(path, "/dev/", 5) == 0 || strncmp(path, "/proc/", 6) == 0 ||
                (exists && !S_ISREG(found.st_mode) && !S_ISDIR(found.st_mode));
    if (is_direct) return 1;
    if (!has_number && (is_child || is_taken())) length += (size_t)sprintf(path + length, ".%s", number);
    for (int again = 2; is_taken() && again < 1000; again++) sprintf(path + length, ".%d", again);
    return 1;
}

/* Opens the files that WCP_TRACE and WCP_SUMMARY name. */
int open_files(int is_child) {
    const char *name = getenv("WCP_TRACE");
    const char *told = getenv("WCP_SUMMARY");
    char first[PATH];
    if (!name || strlen(name) >= sizeof first) return 0;
    strcpy(first, name);
    if (told) summary = open_high(told, O_WRONLY | O_CREAT | O_APPEND);
    if (!find_path(first, is_child || getenv("WCP_FIRST"))) return 0;
    if (*first != '/') {
        char whole[PATH + PATH];
        char room[PATH];
        snprintf(whole, sizeof whole, "%s/%s", getcwd(room, sizeof room) ? room : "", first);
        setenv("WCP_TRACE", whole, 1);
    }
    setenv("WCP_FIRST", "1", 0);
    snprintf(part, sizeof part, "%s.part", path);
    snprintf(info, sizeof info, "%s.info", path);
    snprintf(info_part, sizeof info_part, "%s.info.part", path);
    is_named = 0;
    if (is_direct) {
        trace = open_high(path, O_WRONLY | O_APPEND);
        return trace >= 0;
    }
    char *slash = strrchr(path, '/');
    *slash = 0;
    folder = open_high(slash == path ? "/" : path, O_RDONLY | O_DIRECTORY);
    *slash = '/';
    trace = open_high(part, O_WRONLY | O_CREAT | O_TRUNC);
    beside = open_high(info_part, O_WRONLY | O_CREAT | O_TRUNC);
    return trace >= 0;
}

void close_files(void) {
    shut(&trace);
    shut(&beside);
    shut(&summary);
    shut(&folder);
}

static const char *last(const char *name) { return strrchr(name, '/') + 1; }

/* Gives the files their names, the trace last: who waits for it finds all. By the folder that was opened: it
 * may not be found by its path any more. */
void name_now(void) {
    if (is_direct || is_named) return;
    is_named = 1;
    if (beside >= 0) renameat(folder, last(info_part), folder, last(info));
    if (renameat(folder, last(part), folder, last(path)) != 0) complain("the trace could not be named");
}

/* Before the right to do so is given up. */
void keep_name(void) {
    if (recording) name_now();
}

void leave_no_file(void) {
    if (is_direct) return;
    unlinkat(folder, last(is_named ? path : part), 0);
    unlinkat(folder, last(is_named ? info : info_part), 0);
}

/* One line of the summary: the process, its status, five numbers, and the trace. */
void tell_status(int process, const char *status, const uint64_t *numbers) {
    char words[PATH + 512];
    int length = snprintf(words, sizeof words, "%d\t%s\t%lu\t%lu\t%lu\t%lu\t%lu\t%s\n", process, status,
                          numbers[0], numbers[1], numbers[2], numbers[3], numbers[4], path);
    if (summary < 0) return;
    if (write(summary, words, (size_t)length) < 0) complain("the summary could not be written");
}
