/* A program that records its own run, for compilers other than those of recorder/:
 *
 *     cc -pthread examples/record.c -o record
 *     ./record > trace.txt
 *     wcp replay < trace.txt
 *
 * The first part is the recorder, in C or C++. A name is the text in the source: where one text stands for
 * several things, as threads[i] does, a number or the address has to be written into the name. The rest is a
 * program that makes its accesses and its calls through it. It has a race on `config` in each schedule. */
#include <pthread.h>
#include <stdio.h>
#include <stdlib.h>

#ifdef __cplusplus
#define OWN static thread_local
#else
#define OWN static _Thread_local
#endif

static pthread_mutex_t recorder = PTHREAD_MUTEX_INITIALIZER;
OWN const char *self; /* the thread's name: FORK gives it, and the first thread names itself by NAME */
#define NAME(name) (self = name)

static void write_line(const char *operation, const char *name, const char *file, int line)
{
    if (self == NULL) {
        fprintf(stderr, "%s:%d: the thread has no name: start it by FORK\n", file, line);
        exit(1);
    }
    printf("%s|%s(%s)|%s:%d\n", self, operation, name, file, line);
}

/* One step: what is done, and the writing of its line. The recorder's lock is held meanwhile: the value of a
 * STORE has to make no step itself. */
#define STEP(done, operation, name)                                                                          \
    do {                                                                                                     \
        pthread_mutex_lock(&recorder);                                                                       \
        done;                                                                                                \
        write_line(operation, name, __FILE__, __LINE__);                                                     \
        pthread_mutex_unlock(&recorder);                                                                     \
    } while (0)

#define LOAD(into, variable) STEP(into = variable, "r", #variable)
#define STORE(variable, value) STEP(variable = value, "w", #variable)

/* The line is written after an acquire and a join, and before a release and a fork. */
#define ACQUIRE(lock) do { pthread_mutex_lock(&lock); STEP(, "acq", #lock); } while (0)
#define RELEASE(lock) do { STEP(, "rel", #lock); pthread_mutex_unlock(&lock); } while (0)
#define FORK(thread, work, argument)                                                                         \
    do {                                                                                                     \
        STEP(, "fork", #thread);                                                                             \
        start(&thread, #thread, work, argument);                                                             \
    } while (0)
#define JOIN(thread) do { pthread_join(thread, NULL); STEP(, "join", #thread); } while (0)

struct start {
    const char *name;
    void *(*work)(void *);
    void *argument;
};

static void *begin(void *given)
{
    struct start to_do = *(struct start *)given;
    free(given);
    NAME(to_do.name);
    return to_do.work(to_do.argument);
}

static void start(pthread_t *thread, const char *name, void *(*work)(void *), void *argument)
{
    struct start *to_do = (struct start *)malloc(sizeof(struct start));
    if (to_do != NULL) {
        to_do->name = name;
        to_do->work = work;
        to_do->argument = argument;
    }
    if (to_do == NULL || pthread_create(thread, NULL, begin, to_do) != 0) {
        fprintf(stderr, "%s could not be started\n", name);
        exit(1);
    }
}

static pthread_mutex_t m = PTHREAD_MUTEX_INITIALIZER;
static int config, jobs;

static void *work(void *count)
{
    int seen;
    ACQUIRE(m);
    LOAD(seen, jobs);
    STORE(jobs, seen + *(int *)count);
    RELEASE(m);
    LOAD(seen, config);
    return NULL;
}

int main(void)
{
    pthread_t worker;
    int count = 1;
    NAME("main");
    FORK(worker, work, &count);
    STORE(config, 1);
    ACQUIRE(m);
    RELEASE(m);
    JOIN(worker);
    return 0;
}
