/* Which file an address is of. Files are looked up when the trace is written; those that are unloaded before
 * are noted when they are. */
#include <dlfcn.h>
#include <elf.h>
#include <link.h>
#include "modules.h"

enum { MODULES = 1 << 12 };
static struct module *modules;
static uint32_t module_count;
static struct module *latest;

/* The last part of the path, without what a line of a trace cannot hold. */
static void set_name(struct module *module) {
    const char *slash = strrchr(module->path, '/');
    const char *from = slash ? slash + 1 : module->path;
    size_t length = 0;
    for (; from[length] && length < NAME - 1; length++)
        module->name[length] = strchr("|\r\n\t()#", from[length]) ? '_' : from[length];
    module->name[length] = 0;
}

/* The build-id is in a note of the file, whose head is the first page of it. */
static void set_id(struct module *module) {
    const unsigned char *start = (const unsigned char *)module->start;
    const ElfW(Ehdr) *head = (const void *)start;
    char *to = module->id;
    if (memcmp(start, ELFMAG, SELFMAG) != 0) return;
    const ElfW(Phdr) *part = (const void *)(start + head->e_phoff);
    for (int i = 0; i < head->e_phnum; i++) {
        if (part[i].p_type != PT_NOTE) continue;
        const unsigned char *at = (const unsigned char *)module->base + part[i].p_vaddr;
        const unsigned char *end = at + part[i].p_memsz;
        while (at + sizeof(ElfW(Nhdr)) <= end) {
            const ElfW(Nhdr) *note = (const void *)at;
            const unsigned char *words = at + sizeof *note + ((note->n_namesz + 3) & ~3u);
            int is_id = note->n_type == NT_GNU_BUILD_ID && note->n_namesz == 4;
            for (uint32_t byte = 0; is_id && byte < note->n_descsz && byte < 20; byte++) {
                *to++ = "0123456789abcdef"[words[byte] >> 4];
                *to++ = "0123456789abcdef"[words[byte] & 15];
            }
            *to = 0;
            if (is_id) return;
            at = words + ((note->n_descsz + 3) & ~3u);
        }
    }
}

/* The module with this base and path, which is noted if it is new. */
static struct module *note(uint64_t start, uint64_t end, uint64_t base, const char *path) {
    if (!modules) modules = pages(sizeof *modules * MODULES);
    if (!modules) return NULL;
    char whole[1024];
    if (!*path) path = program_path;
    if (*path && *path != '/' && getcwd(whole, sizeof whole / 2) && strlen(path) < sizeof whole / 2) {
        strcat(strcat(whole, "/"), path);
        path = whole;
    }
    for (uint32_t i = module_count; i-- > 0;) {
        if (modules[i].base == base && modules[i].end == end && strcmp(modules[i].path, path) == 0)
            return &modules[i];
    }
    if (module_count == MODULES || strlen(path) >= sizeof modules->path) return NULL;
    struct module *module = &modules[module_count++];
    module->start = start;
    module->end = end;
    module->base = base;
    strcpy(module->path, path);
    set_name(module);
    set_id(module);
    return module;
}

struct module *module_at(uint64_t address) {
    struct dl_find_object found;
    if (latest && address >= latest->start && address < latest->end) return latest;
    struct module *module = NULL;
    if (_dl_find_object((void *)(uintptr_t)address, &found) == 0)
        module = note((uint64_t)(uintptr_t)found.dlfo_map_start, (uint64_t)(uintptr_t)found.dlfo_map_end,
                      found.dlfo_link_map->l_addr, found.dlfo_link_map->l_name);
    for (uint32_t i = module_count; !module && i-- > 0;) {
        if (address >= modules[i].start && address < modules[i].end) module = &modules[i];
    }
    if (module) module->is_named = 1;
    if (module) latest = module;
    return module;
}

/* Notes the library that is about to be unloaded, with all others. */
static int note_one(struct dl_phdr_info *about, size_t size, void *unused) {
    (void)size;
    (void)unused;
    for (int i = 0; i < about->dlpi_phnum; i++) {
        struct dl_find_object found;
        if (about->dlpi_phdr[i].p_type != PT_LOAD) continue;
        void *at = (void *)(uintptr_t)(about->dlpi_addr + about->dlpi_phdr[i].p_vaddr);
        if (_dl_find_object(at, &found) == 0)
            note((uint64_t)(uintptr_t)found.dlfo_map_start, (uint64_t)(uintptr_t)found.dlfo_map_end,
                 found.dlfo_link_map->l_addr, found.dlfo_link_map->l_name);
        return 0;
    }
    return 0;
}
int dlclose(void *library) {
    if (recording) dl_iterate_phdr(note_one, NULL);
    return REAL(dlclose)(library);
}

void put_files(void) {
    put("process\t");
    put_number((uint64_t)getpid());
    put("\t");
    put_field(program_path);
    put("\n");
    for (uint32_t i = 0; i < module_count; i++) {
        if (!modules[i].is_named) continue;
        put("file\t");
        put_field(modules[i].name);
        put("\t");
        put_field(modules[i].path);
        put("\t");
        put_field(modules[i].id);
        put("\n");
    }
}
