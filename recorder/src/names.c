/* Names of memory and of places in the program. Nothing here takes memory of the heap or a lock, since a
 * trace may have to be written by the handler of a signal. */
#include "modules.h"

enum { PLACES = 1 << 14 };
struct known {
    uint64_t place;
    uint32_t length;
    char text[NAME + 20];
};
static struct known *known;

void start_names(void) {
    known = pages(sizeof *known * PLACES);
}

/* To the base of 16 or of 10, each a constant, since to divide by a number that is not known takes longer. */
char *name_number(char *to, unsigned base, uint64_t number) {
    char digits[24];
    int count = 0;
    do {
        uint64_t rest = base == 16 ? number / 16 : number / 10;
        digits[count++] = "0123456789abcdef"[number - rest * base];
        number = rest;
    } while (number);
    while (count) *to++ = digits[--count];
    return to;
}

char *name_words(char *to, const char *words) {
    while (*words) *to++ = *words++;
    return to;
}

static char *name_offset(char *to, uint64_t address) {
    const struct module *module = module_at(address);
    if (module) {
        to = name_words(to, module->name);
        *to++ = '+';
        address -= module->base;
    }
    to = name_words(to, "0x");
    return name_number(to, 16, address);
}

char *name_address(char *to, uint64_t address, uint32_t number) {
    struct block *block = &blocks[number];
    if (address == 0) return name_words(to, "fence");
    if (address >= NUMBERS && address < ADDRESSES)
        return name_number(name_words(to, "descriptor"), 10, address - NUMBERS);
    if (address >= SIGNALS && address < NUMBERS)
        return name_number(name_words(to, "signal"), 10, address - SIGNALS);
    if (address < SIGNALS) return name_number(name_words(to, "channel"), 10, address - DESCRIPTORS);
    if (number && block->kind == STACK) {
        to = name_number(name_words(to, "stack"), 10, block->thread);
        return name_number(name_words(to, "-0x"), 16, block->start + block->size - address);
    }
    if (!number) return name_offset(to, address);
    block->is_named = 1;
    to = name_number(name_words(to, block->kind == MAP ? "map" : "heap"), 10, number);
    return name_number(name_words(to, "+0x"), 16, address - block->start);
}

char *name_place(char *to, uint64_t place) {
    if (!place) return name_words(to, "-");
    struct known *kept = &known[place * 0x9e3779b97f4a7c15 >> 50];
    if (kept->place != place) {
        kept->place = place;
        kept->length = name_offset(kept->text, place - 1) - kept->text;
    }
    memcpy(to, kept->text, kept->length);
    return to + kept->length;
}
