/* What explains a report, written beside the trace: files, threads, stacks and blocks. README.md has the
 * format. */
#include "writer.h"

static void put_thread(uint32_t number) {
    put("T");
    put_number(number);
}

static void put_origin(uint64_t place, uint32_t stack) {
    put("\t");
    put_place(place);
    put("\t");
    put_number(stack);
    put("\n");
}

static void put_threads(void) {
    uint32_t count = thread_count < THREADS ? thread_count : THREADS;
    for (uint32_t i = 0; i < count; i++) {
        struct thread *thread = threads[i];
        if (!thread) continue;
        uintptr_t work = thread->work ? (uintptr_t)thread->work : (uintptr_t)thread->work_of_c;
        put("thread\t");
        put_thread(i);
        put("\t");
        put_field(thread->name);
        put("\t");
        put_place(work ? work + 1 : 0);
        put("\t");
        if (thread->creator == i) put("-");
        else put_thread(thread->creator);
        put_origin(thread->place, thread->stack);
    }
}

static void put_stacks(void) {
    uint32_t count = options.has_stacks ? stack_count() : 0;
    for (uint32_t i = 1; i < count; i++) {
        if (!stacks[i].place) continue;
        put("stack\t");
        put_number(i);
        put("\t");
        put_number(stacks[i].parent);
        put("\t");
        put_place(stacks[i].place);
        put("\n");
    }
}

static void put_blocks(void) {
    for (uint32_t i = 1; i <= block_count; i++) {
        struct block *block = &blocks[i];
        if (!block->is_named) continue;
        put(block->kind == MAP ? "block\tmap" : "block\theap");
        put_number(i);
        put("\t");
        put_number(block->size);
        put("\t");
        put_thread(block->thread);
        put_origin(block->place, block->stack);
    }
}

void write_info(int file, const char *status) {
    struct counts all = counts;
    start_lines(file);
    put("wcp-info\t1\n");
    put_threads();
    put_stacks();
    put_blocks();
    put_files();
    put("end\t");
    put_field(status);
    uint64_t numbers[] = { all.events, all.threads, all.locks, all.variables, all.bytes };
    for (int i = 0; i < 5; i++) {
        put("\t");
        put_number(numbers[i]);
    }
    put("\n");
    end_lines();
    counts = all;
}
