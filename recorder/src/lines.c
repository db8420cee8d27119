/* Lines of the trace, and of what is written beside it. */
#include "writer.h"

enum { TEXT = 1 << 20, LINE = 2048 };
static char *text, *end;
static int file;
static int is_failed;
struct counts counts;
static unsigned char is_known[THREADS];

static void count_thread(uint32_t thread) {
    counts.threads += !is_known[thread];
    is_known[thread] = 1;
}

int start_lines(int to) {
    if (!text) text = pages(TEXT + LINE);
    file = to;
    end = text;
    is_failed = 0;
    counts.bytes = 0;
    return text != NULL;
}

static void flush(void) {
    char *from = text;
    while (from < end && !is_failed) {
        ssize_t written = write(file, from, (size_t)(end - from));
        if (written > 0) from += written;
        else if (written == 0 || errno != EINTR) is_failed = 1;
    }
    counts.bytes += (uint64_t)(end - text);
    end = text;
}

/* Whether all was written. */
int end_lines(void) {
    flush();
    return !is_failed;
}

void put(const char *words) {
    while (*words) {
        if (end >= text + TEXT) flush();
        *end++ = *words++;
    }
}

/* A field of the file beside the trace. */
void put_field(const char *words) {
    static const char marked[] = "\t\n\r\\";
    static const char *const written[] = { "\\t", "\\n", "\\r", "\\\\" };
    char one[2] = "";
    if (!*words) put("-");
    for (; *words; words++) {
        const char *found = strchr(marked, *words);
        one[0] = *words;
        put(found ? written[found - marked] : one);
    }
}

void put_number(uint64_t number) {
    char digits[24];
    *name_number(digits, 10, number) = 0;
    put(digits);
}

void put_place(uint64_t place) {
    char words[256];
    *name_place(words, place) = 0;
    put(words);
}

static void begin_line(uint32_t thread, const char *operation) {
    if (end >= text + TEXT) flush();
    count_thread(thread);
    *end++ = 'T';
    end = name_number(end, 10, thread);
    end = name_words(end, operation);
}

static void end_line(const struct event *event) {
    *end++ = ')';
    *end++ = '|';
    end = name_place(end, place_of(event));
    if (options.has_stacks) {
        *end++ = '#';
        end = name_number(end, 10, stack_of(event));
    }
    *end++ = '\n';
    counts.events++;
}

void line(const struct event *event, uint32_t thread, const char *operation, uint64_t address, uint32_t block,
          enum role role, uint32_t number) {
    static const char *const marks[] = { "", ".", ".T", "@T" };
    begin_line(thread, operation);
    end = name_address(end, address, block);
    end = name_words(end, marks[role]);
    if (role != NO_ROLE) end = name_number(end, 10, number);
    end_line(event);
}

void line_of_thread(const struct event *event, uint32_t thread, const char *operation, uint32_t other) {
    begin_line(thread, operation);
    count_thread(other);
    *end++ = 'T';
    end = name_number(end, 10, other);
    end_line(event);
}
