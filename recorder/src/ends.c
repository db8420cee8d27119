/* The ends of a run: whichever way the process ends, the trace is written first. */
#include <fcntl.h>
#include <signal.h>
#include <sys/syscall.h>
#include "writer.h"

static volatile int process, finisher, is_finished;

void again_ends(void) {
    process = getpid();
    finisher = 0;
    is_finished = 0;
}

/* The child of daemon() is the process from now on. */
void follow_process(void) { process = getpid(); }

/* The parent of daemon() ends: what it recorded is its child's, which may not run yet. */
void leave_to_child(int child) {
    static const uint64_t nothing[5];
    if (recording) {
        tell_status(child, "started", nothing);
        tell_status(getpid(), "whole", nothing);
    }
    for (;;) syscall(SYS_exit_group, 0);
}

static void tell(const char *why) {
    char status[256] = "whole";
    char words[512];
    if (why) {
        snprintf(status, sizeof status, "cut: %s", why);
        snprintf(words, sizeof words, "the trace ends before the run: %s", why);
        complain(words);
    }
    uint64_t numbers[] = { counts.events, counts.threads, counts.locks, counts.variables, counts.bytes };
    if (info_file() >= 0 && counts.events) write_info(info_file(), status);
    if (counts.events) name_now();
    else leave_no_file();
    tell_status(process, status, numbers);
}

/* While the trace is written, signals wait, but for those of faults and SIGQUIT. */
static void hold_signals(sigset_t *before) {
    static const int through[] = { SIGSEGV, SIGBUS, SIGFPE, SIGILL, SIGTRAP, SIGSYS, SIGABRT, SIGQUIT };
    sigset_t held;
    sigfillset(&held);
    for (unsigned i = 0; i < sizeof through / sizeof *through; i++) sigdelset(&held, through[i]);
    pthread_sigmask(SIG_BLOCK, &held, before);
}

/* Ends the recording and writes the trace, once. Another thread that ends the process waits for it; a fault
 * in the writing itself leaves no trace. */
void finish(const char *why) {
    int mine = (int)syscall(SYS_gettid);
    int none = 0;
    int before = errno;
    sigset_t signals;
    if (process != getpid()) return;
    if (!__atomic_compare_exchange_n(&finisher, &none, mine, 0, __ATOMIC_SEQ_CST, __ATOMIC_SEQ_CST)) {
        if (none == mine && !is_finished) {
            is_finished = 1;
            counts.events = 0;
            tell("the recorder failed");
        }
        while (!is_finished) usleep(1000);
        return;
    }
    hold_signals(&signals);
    recording = 0;
    if (cut_because) why = cut_because;
    const char *failed = write_trace(trace_file());
    if (failed) counts.events = 0;
    if (why && strcmp(why, "exec") == 0 && counts.threads < 2) {
        why = NULL;
        counts = (struct counts){ 0 };
    }
    tell(failed ? failed : why);
    close_files();
    is_finished = 1;
    pthread_sigmask(SIG_SETMASK, &signals, NULL);
    errno = before;
}

__attribute__((destructor(101))) static void end(void) { finish(NULL); }
static void end_quickly(void) { finish(NULL); }

void _exit(int status) {
    finish(NULL);
    for (;;) syscall(SYS_exit_group, status);
}
void _Exit(int status) { _exit(status); }
void abort(void) {
    finish("killed by signal 6");
    REAL(abort)();
    __builtin_unreachable();
}

/* Signals that end a process, but for those that no handler gets. */
static int is_fatal(int number) {
    static const int others[] = { SIGKILL, SIGSTOP, SIGCHLD, SIGCONT, SIGURG,
                                  SIGWINCH, SIGTSTP, SIGTTIN, SIGTTOU };
    for (unsigned i = 0; i < sizeof others / sizeof *others; i++) {
        if (number == others[i]) return 0;
    }
    return number >= 1 && number < NSIG && number != 32 && number != 33;
}

static void on_signal(int number) {
    char why[64];
    snprintf(why, sizeof why, "killed by signal %d", number);
    finish(why);
    struct sigaction once = { .sa_handler = SIG_DFL };
    REAL(sigaction)(number, &once, NULL);
    raise(number);
}

static void catch_one(int number) {
    struct sigaction ours = { .sa_handler = on_signal, .sa_flags = SA_ONSTACK };
    REAL(sigaction)(number, &ours, NULL);
}

void catch_signals(void) {
    struct sigaction found;
    at_quick_exit(end_quickly);
    for (int number = 1; number < NSIG; number++) {
        if (is_fatal(number) && REAL(sigaction)(number, NULL, &found) == 0 && found.sa_handler == SIG_DFL)
            catch_one(number);
    }
}

/* A handler that is for one signal alone: then the recorder's is there again. */
static struct sigaction once_actions[NSIG];
static void once_handler(int number, siginfo_t *about, void *context) {
    struct sigaction *action = &once_actions[number];
    catch_one(number);
    if (action->sa_flags & SA_SIGINFO) action->sa_sigaction(number, about, context);
    else action->sa_handler(number);
}

/* The program sees the default where the recorder's own handler stands, and gets its own handlers. */
int sigaction(int number, const struct sigaction *wanted, struct sigaction *old) {
    struct sigaction ours;
    if (process != getpid() || !is_fatal(number)) return REAL(sigaction)(number, wanted, old);
    if (wanted) {
        ours = *wanted;
        int is_default = ours.sa_handler == SIG_DFL && !(ours.sa_flags & SA_SIGINFO);
        if (is_default) ours.sa_handler = on_signal;
        else if (ours.sa_flags & SA_RESETHAND && ours.sa_handler != SIG_IGN) {
            once_actions[number] = ours;
            ours.sa_flags = (ours.sa_flags & ~SA_RESETHAND) | SA_SIGINFO;
            ours.sa_sigaction = once_handler;
        }
    }
    int failed = REAL(sigaction)(number, wanted ? &ours : NULL, old);
    if (!failed && old && old->sa_handler == on_signal) {
        old->sa_handler = SIG_DFL;
        old->sa_flags = 0;
    } else if (!failed && old && old->sa_flags & SA_SIGINFO && old->sa_sigaction == once_handler) {
        *old = once_actions[number];
    }
    return failed;
}

static sighandler_t set_handler(int number, sighandler_t handler, int flags) {
    struct sigaction wanted = { .sa_handler = handler, .sa_flags = flags };
    struct sigaction old;
    sigemptyset(&wanted.sa_mask);
    return sigaction(number, &wanted, &old) == 0 ? old.sa_handler : SIG_ERR;
}
sighandler_t signal(int number, sighandler_t handler) { return set_handler(number, handler, SA_RESTART); }
sighandler_t bsd_signal(int number, sighandler_t handler) { return set_handler(number, handler, SA_RESTART); }
sighandler_t sysv_signal(int number, sighandler_t handler) {
    return set_handler(number, handler, SA_RESETHAND | SA_NODEFER);
}
sighandler_t __sysv_signal(int number, sighandler_t handler) {
    return set_handler(number, handler, SA_RESETHAND | SA_NODEFER);
}
