/* What is handed over by a descriptor. Each direction of a pipe, of a pair of sockets, of a connection and
 * of other descriptors is a channel. A connection to another process has two channels, of which this process
 * uses one end each, so that it orders nothing here. */
#include <netinet/in.h>
#include <sys/socket.h>
#include <sys/stat.h>
#include <sys/syscall.h>
#include <sys/un.h>
#include "channels.h"

enum { DESCRIPTOR_COUNT = 1 << 16, CHANNELS = 1 << 19 };
/* A descriptor that was met: the file behind it, and the channels by which it sends and receives. */
struct descriptor {
    uint64_t inode;
    uint32_t sends, receives;
};
static struct descriptor descriptors[DESCRIPTOR_COUNT];
static uint64_t keys[CHANNELS];
static volatile int is_locked;

static void lock(void) {
    while (__atomic_exchange_n(&is_locked, 1, __ATOMIC_ACQUIRE)) sched_yield();
}
static void unlock(void) { __atomic_store_n(&is_locked, 0, __ATOMIC_RELEASE); }
void again_channels(void) { is_locked = 0; }

/* The channel of this key, by open addressing; the key is never 0. */
static uint32_t channel_of(uint64_t key) {
    uint32_t at = (uint32_t)(key * 0x9e3779b97f4a7c15 >> 45);
    for (uint32_t tries = 0; tries < 64; tries++) {
        uint32_t number = (at + tries) % CHANNELS;
        if (!keys[number]) keys[number] = key;
        if (keys[number] == key) return number;
    }
    return at;
}

static uint64_t mix(uint64_t key, const void *at, size_t size) {
    const unsigned char *bytes = at;
    for (size_t i = 0; i < size; i++) key = (key ^ bytes[i]) * 0x100000001b3;
    return key | 1;
}

/* The bytes of an address that name its end. */
static uint64_t mix_address(uint64_t key, const struct sockaddr_storage *address, socklen_t length) {
    const struct sockaddr_in *four = (const void *)address;
    const struct sockaddr_in6 *six = (const void *)address;
    if (address->ss_family == AF_INET) {
        key = mix(key, &four->sin_addr, sizeof four->sin_addr);
        return mix(key, &four->sin_port, sizeof four->sin_port);
    }
    if (address->ss_family == AF_INET6) {
        int is_four = IN6_IS_ADDR_V4MAPPED(&six->sin6_addr);
        const unsigned char *bytes = six->sin6_addr.s6_addr;
        key = is_four ? mix(key, bytes + 12, 4) : mix(key, bytes, 16);
        return mix(key, &six->sin6_port, sizeof six->sin6_port);
    }
    return mix(key, address, length);
}

static void find_socket(int file, struct descriptor *descriptor) {
    struct sockaddr_storage own, other;
    socklen_t own_length = sizeof own;
    socklen_t other_length = sizeof other;
    memset(&own, 0, sizeof own);
    memset(&other, 0, sizeof other);
    if (getsockname(file, (struct sockaddr *)&own, &own_length) != 0) own_length = 0;
    if (getpeername(file, (struct sockaddr *)&other, &other_length) != 0) other_length = 0;
    int has_name = own_length > sizeof own.ss_family || other_length > sizeof other.ss_family;
    uint64_t from = 3;
    uint64_t to = 3;
    if (own.ss_family == AF_UNIX && !has_name) return;
    if (own_length > sizeof own.ss_family) from = mix_address(from, &own, own_length);
    if (other_length > sizeof other.ss_family) to = mix_address(to, &other, other_length);
    descriptor->sends = channel_of(mix(from, &to, sizeof to));
    descriptor->receives = channel_of(mix(to, &from, sizeof from));
}

/* Finds what is behind the descriptor anew where it is another file than before. */
static struct descriptor *descriptor_of(int file) {
    struct stat about;
    if (file < 0 || file >= DESCRIPTOR_COUNT || syscall(SYS_fstat, file, &about) != 0) return NULL;
    int kind = about.st_mode & S_IFMT;
    if (kind != S_IFIFO && kind != S_IFSOCK && kind != 0) return NULL;
    struct descriptor *descriptor = &descriptors[file];
    if (descriptor->inode == about.st_ino) return descriptor;
    lock();
    uint64_t key = kind ? about.st_ino * 4 + 1 : (uint64_t)file * 4 + 3;
    descriptor->sends = channel_of(mix(kind ? 1 : 2, &key, sizeof key));
    descriptor->receives = descriptor->sends;
    if (kind == S_IFSOCK) find_socket(file, descriptor);
    descriptor->inode = about.st_ino;
    unlock();
    return descriptor;
}

void sends(int file, uintptr_t place) {
    if (!recording) return;
    int before = errno;
    struct descriptor *descriptor = descriptor_of(file);
    if (descriptor) record_sync(POST, DESCRIPTORS + descriptor->sends, 0, place);
    errno = before;
}
void receives(int file, uintptr_t place) {
    if (!recording) return;
    int before = errno;
    struct descriptor *descriptor = descriptor_of(file);
    if (descriptor) record_sync(WAIT, DESCRIPTORS + descriptor->receives, 0, place);
    errno = before;
}

/* A pair of sockets has no names by which it could be found. */
int socketpair(int family, int type, int protocol, int pair[2]) {
    struct stat one, other;
    int failed = REAL(socketpair)(family, type, protocol, pair);
    if (failed || !recording || pair[0] >= DESCRIPTOR_COUNT || pair[1] >= DESCRIPTOR_COUNT) return failed;
    if (syscall(SYS_fstat, pair[0], &one) != 0 || syscall(SYS_fstat, pair[1], &other) != 0) return failed;
    lock();
    uint32_t there = channel_of(mix(1, &one.st_ino, sizeof one.st_ino));
    uint32_t back = channel_of(mix(1, &other.st_ino, sizeof other.st_ino));
    descriptors[pair[0]] = (struct descriptor){ one.st_ino, there, back };
    descriptors[pair[1]] = (struct descriptor){ other.st_ino, back, there };
    unlock();
    return got_numbers(failed, pair, PLACE);
}
