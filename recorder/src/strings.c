/* What the C library's functions load and store for the program: of memory, of strings, and of text that is
 * printed into memory. */
#include <stdarg.h>
#include <strings.h>
#include <wchar.h>
#include "recorder.h"

static void loads(const void *at, size_t size, uintptr_t place) { record_range(READ, at, size, place); }
static void stores(const void *at, size_t size, uintptr_t place) { record_range(WRITE, at, size, place); }
static size_t length_of(const char *words) { return REAL(strlen)(words); }

#define COPIES(name, real)                                                                                   \
    void *name(void *to, const void *from, size_t size);                                                     \
    void *name(void *to, const void *from, size_t size) {                                                    \
        loads(from, size, PLACE);                                                                            \
        stores(to, size, PLACE);                                                                             \
        return REAL(real)(to, from, size);                                                                   \
    }
COPIES(memcpy, memmove)
COPIES(memmove, memmove)
COPIES(mempcpy, mempcpy)
COPIES(__tsan_memcpy, memmove)
COPIES(__tsan_memmove, memmove)

#define FILLS(name)                                                                                          \
    void *name(void *to, int value, size_t size);                                                            \
    void *name(void *to, int value, size_t size) {                                                           \
        stores(to, size, PLACE);                                                                             \
        return REAL(memset)(to, value, size);                                                                \
    }
FILLS(memset)
FILLS(__tsan_memset)

void bzero(void *to, size_t size) {
    stores(to, size, PLACE);
    REAL(memset)(to, 0, size);
}
void bcopy(const void *from, void *to, size_t size) {
    loads(from, size, PLACE);
    stores(to, size, PLACE);
    REAL(memmove)(to, from, size);
}
void *__memcpy_chk(void *to, const void *from, size_t size, size_t room);
void *__memcpy_chk(void *to, const void *from, size_t size, size_t room) {
    loads(from, size, PLACE);
    stores(to, size, PLACE);
    return REAL(__memcpy_chk)(to, from, size, room);
}
void *__memmove_chk(void *to, const void *from, size_t size, size_t room);
void *__memmove_chk(void *to, const void *from, size_t size, size_t room) {
    loads(from, size, PLACE);
    stores(to, size, PLACE);
    return REAL(__memmove_chk)(to, from, size, room);
}
void *__memset_chk(void *to, int value, size_t size, size_t room);
void *__memset_chk(void *to, int value, size_t size, size_t room) {
    stores(to, size, PLACE);
    return REAL(__memset_chk)(to, value, size, room);
}

int memcmp(const void *one, const void *other, size_t size) {
    loads(one, size, PLACE);
    loads(other, size, PLACE);
    return REAL(memcmp)(one, other, size);
}
int bcmp(const void *one, const void *other, size_t size) {
    loads(one, size, PLACE);
    loads(other, size, PLACE);
    return REAL(memcmp)(one, other, size);
}
void *memchr(const void *at, int sought, size_t size) {
    void *found = REAL(memchr)(at, sought, size);
    loads(at, found ? (size_t)((char *)found - (const char *)at) + 1 : size, PLACE);
    return found;
}

size_t strlen(const char *words) {
    size_t length = length_of(words);
    loads(words, length + 1, PLACE);
    return length;
}
size_t strnlen(const char *words, size_t most) {
    size_t length = REAL(strnlen)(words, most);
    loads(words, length < most ? length + 1 : most, PLACE);
    return length;
}

#define COPIES_WORDS(name)                                                                                   \
    char *name(char *to, const char *from) {                                                                 \
        size_t size = length_of(from) + 1;                                                                   \
        loads(from, size, PLACE);                                                                            \
        stores(to, size, PLACE);                                                                             \
        return REAL(name)(to, from);                                                                         \
    }
COPIES_WORDS(strcpy)
COPIES_WORDS(stpcpy)

char *strncpy(char *to, const char *from, size_t most) {
    size_t length = REAL(strnlen)(from, most);
    loads(from, length < most ? length + 1 : most, PLACE);
    stores(to, most, PLACE);
    return REAL(strncpy)(to, from, most);
}
char *strcat(char *to, const char *from) {
    size_t before = length_of(to);
    size_t size = length_of(from) + 1;
    loads(to, before + 1, PLACE);
    loads(from, size, PLACE);
    stores(to + before, size, PLACE);
    return REAL(strcat)(to, from);
}
char *strncat(char *to, const char *from, size_t most) {
    size_t before = length_of(to);
    size_t length = REAL(strnlen)(from, most);
    loads(to, before + 1, PLACE);
    loads(from, length < most ? length + 1 : most, PLACE);
    stores(to + before, length + 1, PLACE);
    return REAL(strncat)(to, from, most);
}
char *__strcpy_chk(char *to, const char *from, size_t room);
char *__strcpy_chk(char *to, const char *from, size_t room) {
    size_t size = length_of(from) + 1;
    loads(from, size, PLACE);
    stores(to, size, PLACE);
    return REAL(__strcpy_chk)(to, from, room);
}

/* How many bytes a comparison looks at. */
static size_t compared(const char *one, const char *other, size_t most, int any_case) {
    size_t at = 0;
    while (at < most && one[at]) {
        unsigned char left = (unsigned char)one[at];
        unsigned char right = (unsigned char)other[at];
        int is_same = left == right || (any_case && (left | 32) == (right | 32) && (left | 32) >= 'a');
        if (!is_same) break;
        at++;
    }
    return at < most ? at + 1 : most;
}
static void compares(const char *one, const char *other, size_t most, int any_case, uintptr_t place) {
    size_t size = compared(one, other, most, any_case);
    loads(one, size, place);
    loads(other, size, place);
}
int strcmp(const char *one, const char *other) {
    compares(one, other, SIZE_MAX, 0, PLACE);
    return REAL(strcmp)(one, other);
}
int strncmp(const char *one, const char *other, size_t most) {
    compares(one, other, most, 0, PLACE);
    return REAL(strncmp)(one, other, most);
}
int strcasecmp(const char *one, const char *other) {
    compares(one, other, SIZE_MAX, 1, PLACE);
    return REAL(strcasecmp)(one, other);
}
int strncasecmp(const char *one, const char *other, size_t most) {
    compares(one, other, most, 1, PLACE);
    return REAL(strncasecmp)(one, other, most);
}

char *strchr(const char *words, int sought) {
    char *found = REAL(strchr)(words, sought);
    loads(words, found ? (size_t)(found - words) + 1 : length_of(words) + 1, PLACE);
    return found;
}
char *strchrnul(const char *words, int sought) {
    char *found = REAL(strchrnul)(words, sought);
    loads(words, (size_t)(found - words) + 1, PLACE);
    return found;
}
char *strrchr(const char *words, int sought) {
    loads(words, length_of(words) + 1, PLACE);
    return REAL(strrchr)(words, sought);
}
char *strstr(const char *words, const char *sought) {
    loads(words, length_of(words) + 1, PLACE);
    loads(sought, length_of(sought) + 1, PLACE);
    return REAL(strstr)(words, sought);
}

/* The copy is a new block; what is stored to it is its own. */
static char *copy(const char *words, size_t length, uintptr_t place) {
    char *made = allocate(length + 1, place);
    if (!made) return NULL;
    stores(made, length + 1, place);
    REAL(memcpy)(made, words, length);
    made[length] = 0;
    return made;
}
char *strdup(const char *words) {
    size_t length = length_of(words);
    loads(words, length + 1, PLACE);
    return copy(words, length, PLACE);
}
char *__strdup(const char *words);
char *__strdup(const char *words) {
    size_t length = length_of(words);
    loads(words, length + 1, PLACE);
    return copy(words, length, PLACE);
}
char *strndup(const char *words, size_t most) {
    size_t length = REAL(strnlen)(words, most);
    loads(words, length < most ? length + 1 : most, PLACE);
    return copy(words, length, PLACE);
}
