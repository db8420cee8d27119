/* Whose memory an address is. Each 16 bytes know the number of the block that was given out last there, and
 * their cell. Large blocks are kept in a list of ranges that do not overlap. */
#include <sys/mman.h>
#include "writer.h"

enum { CHUNK = 1 << 22, GRANULES = CHUNK / 16, RANGES = 1 << 16 };
static const uint64_t large = 1 << 18;
struct chunk {
    uint32_t block[GRANULES];
    uint32_t cell[GRANULES];
};
struct range {
    uint64_t start, end;
    uint32_t block;
};
struct block *blocks;
uint32_t block_count;
static struct chunk **chunks, **all_chunks;
static uint32_t chunk_count;
static struct cell *cells;
static struct user *users;
static uint32_t cell_count, user_count;
static struct range *ranges;
static uint32_t range_count;
/* Of a page that lies in one range, or in none, its number and 1, and the range's block. */
enum { PAGE = 1 << 12, PAGES = 1 << 10 };
static struct page {
    uint64_t number;
    uint32_t block;
} known_pages[PAGES];
static const uint64_t most = (uint64_t)1 << 32;

int start_blocks(void) {
    chunks = pages(sizeof *chunks << 26);
    all_chunks = pages(sizeof *all_chunks << 26);
    blocks = pages(sizeof *blocks * (most >> 2));
    cells = pages(sizeof *cells * most);
    users = pages(sizeof *users * (most >> 6));
    ranges = pages(sizeof *ranges * RANGES);
    return chunks && all_chunks && blocks && cells && users && ranges;
}

/* Before the second time: numbers are given out anew, while cells and users keep what was found. */
void again_blocks(void) {
    block_count = 0;
    cell_count = 0;
    range_count = 0;
    memset(known_pages, 0, sizeof known_pages);
    for (uint32_t i = 0; i < chunk_count; i++) madvise(all_chunks[i], sizeof **all_chunks, MADV_DONTNEED);
}

static struct chunk *chunk_of(uint64_t address) {
    struct chunk **chunk = &chunks[address / CHUNK];
    if (*chunk) return *chunk;
    *chunk = pages(sizeof **chunk);
    if (!*chunk) fail("memory is full");
    all_chunks[chunk_count++] = *chunk;
    return *chunk;
}

/* The first range that ends beyond the address. */
static uint32_t range_after(uint64_t address) {
    uint32_t low = 0;
    uint32_t high = range_count;
    while (low < high) {
        uint32_t middle = (low + high) / 2;
        if (ranges[middle].end > address) high = middle;
        else low = middle + 1;
    }
    return low;
}

static void insert_range(uint32_t at, struct range range) {
    if (range_count == RANGES || range.start >= range.end) return;
    memmove(&ranges[at + 1], &ranges[at], (range_count - at) * sizeof *ranges);
    ranges[at] = range;
    range_count++;
}

/* The new range takes the place of what it overlaps. */
static void new_range(struct range range) {
    memset(known_pages, 0, sizeof known_pages);
    uint32_t at = range_after(range.start);
    if (at < range_count && ranges[at].start < range.start) {
        struct range rest = ranges[at];
        ranges[at].end = range.start;
        rest.start = range.end;
        at++;
        insert_range(at, rest);
    }
    uint32_t end = at;
    while (end < range_count && ranges[end].end <= range.end) end++;
    if (end < range_count && ranges[end].start < range.end) ranges[end].start = range.end;
    memmove(&ranges[at], &ranges[end], (range_count - end) * sizeof *ranges);
    range_count -= end - at;
    insert_range(at, range);
}

void new_block(const struct event *event, uint32_t thread) {
    uint64_t start = address_of(event);
    uint64_t end = start + size_of(event);
    uint32_t number = ++block_count;
    struct block *block = &blocks[number];
    uint8_t is_named = block->is_named;
    *block = (struct block){ start, end - start, place_of(event), stack_of(event), thread, kind_of(event),
                             is_named };
    if (end - start >= large) {
        new_range((struct range){ start, end, number });
        return;
    }
    for (uint64_t at = start; at < end; at += 16) chunk_of(at)->block[at % CHUNK / 16] = number;
}

/* The large block at the address, 0 where there is none. */
static uint32_t large_at(uint64_t address) {
    uint64_t number = address / PAGE + 1;
    struct page *page = &known_pages[number % PAGES];
    if (page->number == number) return page->block;
    uint32_t at = range_after(address);
    int is_in = at < range_count && ranges[at].start <= address;
    uint32_t block = is_in ? ranges[at].block : 0;
    uint64_t start = address / PAGE * PAGE;
    uint64_t before = is_in ? ranges[at].start : at ? ranges[at - 1].end : 0;
    uint64_t after = is_in ? ranges[at].end : at < range_count ? ranges[at].start : UINT64_MAX;
    if (before <= start && start + PAGE <= after) *page = (struct page){ number, block };
    return block;
}

uint32_t block_at(uint64_t address) {
    uint32_t near = chunk_of(address)->block[address % CHUNK / 16];
    uint32_t far = large_at(address);
    return far > near ? far : near;
}

/* The cell of these 16 bytes of their block. */
struct cell *cell_at(uint64_t address) {
    struct chunk *chunk = chunk_of(address);
    uint32_t *number = &chunk->cell[address % CHUNK / 16];
    uint32_t near = chunk->block[address % CHUNK / 16];
    uint32_t far = large_at(address);
    uint32_t block = far > near ? far : near;
    if (*number && cells[*number].block == block) return &cells[*number];
    *number = ++cell_count;
    cells[*number].block = block;
    return &cells[*number];
}

/* Whether there is a cell of the block that these 16 bytes are of. */
int has_cell(uint64_t address) {
    uint32_t number = chunk_of(address)->cell[address % CHUNK / 16];
    return number && cells[number].block == block_at(address);
}

struct user *user_number(uint32_t number) { return number ? &users[number] : NULL; }

/* Of the threads with atomic operations on the cell this one. */
struct user *user_of(struct cell *cell, uint32_t thread) {
    struct user *user = user_number(cell->users);
    while (user && user->thread != thread) user = user_number(user->next);
    if (user) return user;
    user = &users[++user_count];
    user->thread = thread;
    user->next = cell->users;
    cell->users = user_count;
    return user;
}
