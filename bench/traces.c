// Prints a legal trace of about EVENTS events by THREADS threads:
//
//   traces KIND EVENTS THREADS > FILE      traces (alone) prints the kinds
//
// The same words print the same trace: the generator's seed is fixed. Names are short, and there are few
// locations, as there are few places in a program's code.
#include <stdint.h>
#include <stdio.h>
#include <stdlib.h>
#include <string.h>

enum { ROOM = 1 << 20, LINE = 128 };

// How many events are wanted, and how many were put; how many threads, locks and variables there are.
static uint64_t wanted, put_so_far;
static uint32_t threads, locks, vars;

static char page[ROOM];
static size_t used;

// xorshift64
static uint64_t state;

static uint32_t any(void) {
    state ^= state << 13;
    state ^= state >> 7;
    state ^= state << 17;
    return (uint32_t)(state >> 16);
}

// a number below n
static uint32_t below(uint32_t n) { return (uint32_t)(((uint64_t)any() * n) >> 32); }

static void flush(void) {
    fwrite(page, 1, used, stdout);
    used = 0;
}

static void put_number(uint32_t n) {
    char digits[12];
    int i = 0;
    do {
        digits[i++] = '0' + n % 10;
        n /= 10;
    } while (n);
    while (i) page[used++] = digits[--i];
}

// One line: the thread, the word, the argument (a letter and a number) and the location.
static void event(uint32_t thread, const char *word, char letter, uint32_t argument, uint32_t site) {
    if (used > ROOM - LINE) flush();
    page[used++] = 'T';
    put_number(thread);
    page[used++] = '|';
    while (*word) page[used++] = *word++;
    page[used++] = '(';
    page[used++] = letter;
    put_number(argument);
    page[used++] = ')';
    page[used++] = '|';
    put_number(site);
    page[used++] = '\n';
    put_so_far++;
}

static void load(uint32_t t, uint32_t x, uint32_t site) { event(t, "r", 'V', x, site); }
static void store(uint32_t t, uint32_t x, uint32_t site) { event(t, "w", 'V', x, site); }
static void acquire(uint32_t t, uint32_t l, uint32_t site) { event(t, "acq", 'L', l, site); }
static void release(uint32_t t, uint32_t l, uint32_t site) { event(t, "rel", 'L', l, site); }
static void fork_(uint32_t t, uint32_t u, uint32_t site) { event(t, "fork", 'T', u, site); }
static void join_(uint32_t t, uint32_t u, uint32_t site) { event(t, "join", 'T', u, site); }

static int more(void) { return put_so_far < wanted; }

static uint32_t *zeros(uint32_t n) {
    uint32_t *list = calloc(n, sizeof *list);
    if (!list) exit(1);
    return list;
}

static uint32_t at_least(uint32_t n, uint32_t least) { return n < least ? least : n; }

static void fork_all(void) {
    for (uint32_t t = 1; t < threads; t++) fork_(0, t, 1);
}

// Bounded queues: slots, head and tail under the queue's lock; at times a store outside it.
static void queue(void) {
    uint32_t per = at_least(vars / locks, 4);
    uint32_t *head = zeros(locks), *tail = zeros(locks);
    fork_all();
    while (more()) {
        uint32_t t = below(threads), q = below(locks), base = q * per, slots = per - 2;
        acquire(t, q, 10 + q % 50);
        load(t, base, 11);
        load(t, base + 1, 12);
        if ((t & 1) && tail[q] - head[q] < slots) {
            store(t, base + 2 + tail[q] % slots, 13);
            store(t, base + 1, 14);
            tail[q]++;
        } else if (!(t & 1) && tail[q] != head[q]) {
            load(t, base + 2 + head[q] % slots, 15);
            store(t, base, 16);
            head[q]++;
        }
        release(t, q, 17);
        if (below(2000) == 0) store(t, base + 1, 18);
    }
}

// Transfers between accounts, under the locks of both; locks are released in either order.
static void bank(void) {
    fork_all();
    while (more()) {
        uint32_t t = below(threads), x = below(vars), y = below(vars), a = x % locks, b = y % locks;
        if (a == b) continue;
        if (a > b) {
            uint32_t z = a;
            a = b, b = z;
            z = x, x = y, y = z;
        }
        acquire(t, a, 20);
        acquire(t, b, 21);
        load(t, x, 22);
        store(t, x, 23);
        load(t, y, 24);
        store(t, y, 25);
        if (below(4)) {
            release(t, b, 26);
            release(t, a, 27);
        } else {
            release(t, a, 28);
            release(t, b, 29);
        }
        if (below(5000) == 0) load(t, x, 30);
    }
}

// Stages: each hands items to the next through a lock, and works on variables of its own between.
static void pipeline(void) {
    uint32_t per = at_least(vars / threads, 4);
    fork_all();
    while (more()) {
        uint32_t t = below(threads), p = (t + threads - 1) % threads;
        acquire(t, p % locks, 40);
        load(t, (p * per) % vars, 41);
        store(t, (p * per) % vars, 42);
        release(t, p % locks, 43);
        for (uint32_t i = below(6); i > 0; i--) {
            uint32_t x = (t * per + 1 + below(per - 1)) % vars;
            if (below(2)) load(t, x, 44);
            else store(t, x, 45);
        }
        acquire(t, t % locks, 46);
        load(t, (t * per) % vars, 47);
        store(t, (t * per) % vars, 48);
        release(t, t % locks, 49);
    }
}

// All sections on one lock.
static void hotlock(void) {
    fork_all();
    while (more()) {
        uint32_t t = below(threads), x = below(vars);
        acquire(t, 0, 50);
        load(t, x, 51);
        if (below(2)) store(t, x, 52);
        release(t, 0, 53);
    }
}

// Sections on any of many locks that guard nothing shared, so that closed sections are never ordered.
static void many_locks(void) {
    fork_all();
    while (more()) {
        uint32_t t = below(threads), l = below(locks), x = (below(vars) / threads) * threads + t;
        if (x >= vars) x = t % vars;
        acquire(t, l, 60 + l % 100);
        load(t, x, 61);
        store(t, x, 62);
        release(t, l, 63);
    }
}

// Three to six locks at once, nested; accesses at every depth.
static void nested(void) {
    fork_all();
    while (more()) {
        uint32_t t = below(threads), deep = 3 + below(4);
        if (deep > locks) deep = locks;
        uint32_t base = below(locks - deep + 1);
        for (uint32_t i = 0; i < deep; i++) {
            acquire(t, base + i, 70 + i);
            if (below(3) == 0) store(t, below(vars), 76);
        }
        load(t, below(vars), 77);
        store(t, (base + deep - 1) % vars, 78);
        for (uint32_t i = deep; i-- > 0;) {
            release(t, base + i, 80 + i);
            if (below(4) == 0) load(t, below(vars), 87);
        }
    }
}

// A tree of forks and joins: each thread lives once, and a parent joins the children that have ended.
static void forkjoin(void) {
    enum { LIVE = 1, JOINED = 2 };
    uint32_t next = 1, live = 1;
    uint32_t *parent = zeros(threads), *state_of = zeros(threads), *children = zeros(threads);
    uint64_t step = wanted / (threads * 2) + 1, mark = step;
    state_of[0] = LIVE;
    while (more()) {
        uint32_t t;
        do t = below(next);
        while (state_of[t] != LIVE);
        if (put_so_far >= mark) {
            mark += step;
            if (next < threads && (live < 2 || below(3))) {
                fork_(t, next, 90);
                parent[next] = t;
                state_of[next] = LIVE;
                children[t]++;
                next++;
                live++;
                continue;
            }
            if (t && children[t] == 0) {
                join_(parent[t], t, 91);
                state_of[t] = JOINED;
                children[parent[t]]--;
                live--;
                continue;
            }
        }
        uint32_t l = below(locks), x = below(vars);
        if (below(3) == 0) {
            acquire(t, l, 92);
            load(t, l % vars, 93);
            store(t, l % vars, 94);
            release(t, l, 95);
        } else if (below(8)) {
            x = (x / threads) * threads + t;
            if (x >= vars) x = t % vars;
            if (below(3)) load(t, x, 96);
            else store(t, x, 97);
        } else {
            load(t, x, 98);
        }
    }
}

// A table that all threads read; at times one stores, under a lock.
static void reads(void) {
    fork_all();
    while (more()) {
        uint32_t t = below(threads);
        if (below(200) == 0) {
            uint32_t l = below(locks), x = below(vars);
            acquire(t, l, 100);
            load(t, x, 101);
            store(t, x, 102);
            release(t, l, 103);
        } else {
            for (int i = 0; i < 8; i++) load(t, below(vars), 104);
        }
    }
}

// Accesses of each thread's own variables; at times a shared counter, under a lock.
static void local(void) {
    uint32_t per = at_least(vars / threads, 2);
    fork_all();
    while (more()) {
        uint32_t t = below(threads);
        for (int i = 0; i < 20; i++) {
            uint32_t x = (t * per + 1 + below(per - 1)) % vars;
            if (below(3)) load(t, x, 110);
            else store(t, x, 111);
        }
        if (below(10) == 0) {
            acquire(t, 0, 112);
            load(t, 0, 113);
            store(t, 0, 114);
            release(t, 0, 115);
        }
    }
}

// One or two locks at once, at times the same one twice, released in either order; many locations.
static void mixed(void) {
    uint32_t count = 0;
    fork_all();
    while (more()) {
        uint32_t t = below(threads), l = below(locks);
        uint32_t m = below(3) ? UINT32_MAX : below(2) ? l : below(locks), n = 1 + below(6);
        int two = m != UINT32_MAX;
        count++;
        acquire(t, l, 1000 + count % 5000);
        if (two) acquire(t, m, 1000 + count % 4999);
        for (uint32_t i = 0; i < n; i++) {
            uint32_t x = (l * 7 + below(16)) % vars;
            if (below(3)) load(t, x, 200 + i);
            else store(t, x, 300 + i);
        }
        if (two && below(2)) {
            release(t, m, 400);
            release(t, l, 401);
        } else {
            release(t, l, 402);
            if (two) release(t, m, 403);
        }
        if (below(40) == 0) load(t, below(vars), 500);
    }
}

// The kinds, each with its locks and variables: so many, or so many for each thread.
static const struct {
    const char *name;
    void (*make)(void);
    uint32_t locks, locks_a_thread, vars, vars_a_thread;
} kinds[] = {
    {"queue", queue, 16, 0, 1024, 0},
    {"bank", bank, 64, 0, 256, 0},
    {"pipeline", pipeline, 0, 1, 0, 64},
    {"hotlock", hotlock, 1, 0, 64, 0},
    {"many_locks", many_locks, 1000, 0, 10000, 0},
    {"nested", nested, 16, 0, 256, 0},
    {"forkjoin", forkjoin, 32, 0, 4096, 0},
    {"reads", reads, 8, 0, 2000, 0},
    {"local", local, 1, 0, 0, 50},
    {"mixed", mixed, 64, 0, 1024, 0},
};

int main(int argc, char **argv) {
    size_t count = sizeof kinds / sizeof *kinds;
    if (argc == 1) {
        for (size_t i = 0; i < count; i++) puts(kinds[i].name);
        return 0;
    }
    if (argc != 4) {
        fprintf(stderr, "usage: traces KIND EVENTS THREADS\n");
        return 2;
    }
    wanted = strtoull(argv[2], 0, 10);
    threads = at_least(atoi(argv[3]), 2);
    state = 88172645463325252ull ^ 0x9E3779B97F4A7C15ull;
    for (int i = 0; i < 9; i++) any();
    for (size_t i = 0; i < count; i++) {
        if (strcmp(kinds[i].name, argv[1]) == 0) {
            locks = kinds[i].locks + kinds[i].locks_a_thread * threads;
            vars = kinds[i].vars + kinds[i].vars_a_thread * threads;
            kinds[i].make();
            flush();
            return ferror(stdout) != 0;
        }
    }
    fprintf(stderr, "traces: no such kind: %s\n", argv[1]);
    return 2;
}
