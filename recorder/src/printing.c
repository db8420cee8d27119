/* Text that is printed into the program's memory: a store to as much as was printed, and its final 0. */
#include <stdarg.h>
#include "recorder.h"

static int printed(char *to, size_t room, int length, uintptr_t place) {
    size_t size = length < 0 ? 0 : (size_t)length + 1;
    record_range(WRITE, to, size < room ? size : room, place);
    return length;
}

int vsnprintf(char *to, size_t room, const char *format, va_list rest) {
    return printed(to, room, REAL(vsnprintf)(to, room, format, rest), PLACE);
}
int vsprintf(char *to, const char *format, va_list rest) {
    return printed(to, SIZE_MAX, REAL(vsprintf)(to, format, rest), PLACE);
}
int snprintf(char *to, size_t room, const char *format, ...) {
    va_list rest;
    va_start(rest, format);
    int length = REAL(vsnprintf)(to, room, format, rest);
    va_end(rest);
    return printed(to, room, length, PLACE);
}
int sprintf(char *to, const char *format, ...) {
    va_list rest;
    va_start(rest, format);
    int length = REAL(vsprintf)(to, format, rest);
    va_end(rest);
    return printed(to, SIZE_MAX, length, PLACE);
}

int __vsnprintf_chk(char *to, size_t room, int flag, size_t size, const char *format, va_list rest);
int __vsnprintf_chk(char *to, size_t room, int flag, size_t size, const char *format, va_list rest) {
    return printed(to, room, REAL(__vsnprintf_chk)(to, room, flag, size, format, rest), PLACE);
}
int __vsprintf_chk(char *to, int flag, size_t size, const char *format, va_list rest);
int __vsprintf_chk(char *to, int flag, size_t size, const char *format, va_list rest) {
    return printed(to, SIZE_MAX, REAL(__vsprintf_chk)(to, flag, size, format, rest), PLACE);
}
int __snprintf_chk(char *to, size_t room, int flag, size_t size, const char *format, ...);
int __snprintf_chk(char *to, size_t room, int flag, size_t size, const char *format, ...) {
    va_list rest;
    va_start(rest, format);
    int length = REAL(__vsnprintf_chk)(to, room, flag, size, format, rest);
    va_end(rest);
    return printed(to, room, length, PLACE);
}
int __sprintf_chk(char *to, int flag, size_t size, const char *format, ...);
int __sprintf_chk(char *to, int flag, size_t size, const char *format, ...) {
    va_list rest;
    va_start(rest, format);
    int length = REAL(__vsprintf_chk)(to, flag, size, format, rest);
    va_end(rest);
    return printed(to, SIZE_MAX, length, PLACE);
}
