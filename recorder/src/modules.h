/* Files that are or were loaded: the program and its libraries. */
#ifndef MODULES_H
#define MODULES_H
#include "writer.h"

enum { NAME = 160 };
/* `start` and `end` are where the file lies, `base` what its offsets count from, `id` its build-id in hex. */
struct module {
    uint64_t start, end, base;
    int is_named;
    char name[NAME], path[1024], id[48];
};
#pragma GCC visibility push(hidden)
struct module *module_at(uint64_t address);
#pragma GCC visibility pop
#endif
