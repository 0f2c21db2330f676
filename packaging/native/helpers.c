// The C functions that the kit's libraries declare and leave to C, for every machine that Toxi is linked for. The kit's own are for x86-64 alone. Above each
// function stands the contract that it keeps, from the kit's `os/src/c.rt` or `libc/src/heap.rt`. No proof covers this file: it is trusted.
//
// Of a slice `&[T]` C gets two arguments, the pointer and the number of elements. A path is an array that ends in 0.
#include <errno.h>
#include <fcntl.h>
#include <netdb.h>
#include <stdbool.h>
#include <stdint.h>
#include <stdlib.h>
#include <string.h>
#include <sys/epoll.h>
#include <sys/ioctl.h>
#include <sys/socket.h>
#include <sys/uio.h>
#include <unistd.h>

#include "arguments.h"

// `libc::types::Tried`: whether there was memory, and where it is.
struct tried {
    bool ok;
    void *p;
};

// `p` of a `Tried` is never null: without memory it is the address of this.
static _Alignas(16) char no_memory[16];

static struct tried tried(void *p) {
    return (struct tried){p != NULL, p ? p : no_memory};
}

// heap.rt, rattle_alloc: new memory of n bytes, aligned to a, which divides 16. A value of no bytes has an address of its own too.
struct tried rattle_alloc(size_t n, size_t a) {
    return tried(malloc(n ? n : a));
}

// heap.rt, rattle_realloc: makes the block at p one of n bytes, whose first `kept` bytes are as they were. Where it fails, the block is as it was.
struct tried rattle_realloc(void *p, size_t kept, size_t n, size_t a) {
    (void)kept;
    return tried(realloc(p, n ? n : a));
}

// heap.rt, rattle_dealloc: frees what either answered.
void rattle_dealloc(void *p) {
    free(p);
}

// Copies a text, without its 0, to the start of a buffer of `room` bytes. Returns its length, -1 where there is no text, and -2 where it doesn't fit: then the
// buffer is full.
static ssize_t copy_text(const char *text, char *buffer, size_t room) {
    if (!text)
        return -1;
    size_t length = strlen(text);
    memcpy(buffer, text, length < room ? length : room);
    return length <= room ? (ssize_t)length : -2;
}

static size_t argument_count;
static char **arguments;

void keep_arguments(int count, char **words) {
    argument_count = count;
    arguments = words;
}

// c.rt, rattle_arg_count.
size_t rattle_arg_count(void) {
    return argument_count;
}

// c.rt, rattle_arg: puts argument i at the start of the buffer, and answers its length, -1 without such an argument, or -2 where it doesn't fit.
ssize_t rattle_arg(size_t i, char *buffer, size_t room) {
    return copy_text(i < argument_count ? arguments[i] : NULL, buffer, room);
}

// c.rt, rattle_env: the value of an environment variable, as rattle_arg gives an argument.
ssize_t rattle_env(const char *name, char *buffer, size_t room) {
    return copy_text(getenv(name), buffer, room);
}

// c.rt, rattle_env_at: entry i of the environment, as rattle_arg gives an argument.
ssize_t rattle_env_at(size_t i, char *buffer, size_t room) {
    char **entry = environ;
    while (entry && *entry && i--)
        entry++;
    return copy_text(entry ? *entry : NULL, buffer, room);
}

// c.rt, rattle_errno.
int rattle_errno(void) {
    return errno;
}

// c.rt, rattle_set_errno.
void rattle_set_errno(int error) {
    errno = error;
}

// c.rt, rattle_open_dir_at: opens the directory that `name` reaches from `directory`, for reading. It answers a descriptor, or -1, also where `name` ends in a
// link, with no "/" after it, or reaches no directory.
int rattle_open_dir_at(int directory, const char *name) {
    return openat(directory, name, O_RDONLY | O_DIRECTORY | O_NOFOLLOW | O_CLOEXEC);
}

// c.rt, rattle_set_nonblocking: sets or clears O_NONBLOCK of what the descriptor is open on. It answers 0 or -1.
int rattle_set_nonblocking(int descriptor, bool on) {
    int value = on;
    return ioctl(descriptor, FIONBIO, &value);
}

// c.rt, rattle_write_parts: POSIX's writev, or of a socket its sendmsg with MSG_NOSIGNAL, no address and no control data: as write or send, of the four buffers
// in their order.
ssize_t rattle_write_parts(int descriptor, bool is_socket, void *a, size_t a_size, void *b, size_t b_size, void *c, size_t c_size, void *d, size_t d_size) {
    struct iovec parts[4] = {{a, a_size}, {b, b_size}, {c, c_size}, {d, d_size}};
    struct msghdr message = {.msg_iov = parts, .msg_iovlen = 4};
    return is_socket ? sendmsg(descriptor, &message, MSG_NOSIGNAL) : writev(descriptor, parts, 4);
}

// c.rt, rattle_epoll_ctl: Linux's epoll_ctl, with the two fields of its entry as arguments. It answers 0 or -1.
int rattle_epoll_ctl(int epoll, int operation, int descriptor, uint32_t events, uint64_t data) {
    struct epoll_event entry = {.events = events, .data.u64 = data};
    return epoll_ctl(epoll, operation, descriptor, &entry);
}

// c.rt, `EpollEvent`. The kernel's is packed on x86-64, and laid out as this one elsewhere.
struct epoll_entry {
    uint32_t events;
    uint64_t data;
};
_Static_assert(sizeof(struct epoll_event) <= sizeof(struct epoll_entry), "the kernel's entries fit where ours go");

// The most entries that the kernel takes in a call.
enum { MOST_EVENTS = 1 << 24 };

// c.rt, rattle_epoll_wait: Linux's epoll_wait. It puts entries at the start of `entries`, and answers how many, or -1.
ssize_t rattle_epoll_wait(int epoll, struct epoll_entry *entries, size_t room, int timeout) {
    int count = epoll_wait(epoll, (struct epoll_event *)entries, room < MOST_EVENTS ? (int)room : MOST_EVENTS, timeout);
    // From the last one on, since an entry of ours may lie where later ones of the kernel's do.
    for (int i = count; i-- > 0;) {
        struct epoll_event event;
        memcpy(&event, (char *)entries + i * sizeof event, sizeof event);
        entries[i] = (struct epoll_entry){event.events, event.data.u64};
    }
    return count;
}

// c.rt, `RawAddr`: a sockaddr_in or sockaddr_in6 in the first `length` bytes.
struct raw_address {
    unsigned char bytes[128];
    uint32_t length;
};

// c.rt, rattle_lookup_host: POSIX's getaddrinfo. It puts the name's first addresses at the start of `found`, and answers how many, or an error's code, which is
// negative.
ssize_t rattle_lookup_host(const char *name, struct raw_address *found, size_t room) {
    struct addrinfo wanted = {.ai_socktype = SOCK_STREAM}, *addresses = NULL;
    int error = getaddrinfo(name, NULL, &wanted, &addresses);
    if (error)
        return error;
    size_t count = 0;
    for (struct addrinfo *each = addresses; each && count < room; each = each->ai_next) {
        if ((each->ai_family != AF_INET && each->ai_family != AF_INET6) || each->ai_addrlen > sizeof found->bytes)
            continue;
        memcpy(found[count].bytes, each->ai_addr, each->ai_addrlen);
        found[count++].length = each->ai_addrlen;
    }
    freeaddrinfo(addresses);
    return count;
}
