// Tries the C functions that the kit's libraries declare, by what their contracts say (`os/src/c.rt`, `libc/src/heap.rt` of the kit). It is linked over the
// functions of packaging/native, and over the kit's own, and prints the name of each test that passes.
//
// Usage: helpers one '' 'three words', in an empty folder, with the variable WEEKDAY=monday.
#include <errno.h>
#include <fcntl.h>
#include <netinet/in.h>
#include <stdbool.h>
#include <stdint.h>
#include <stdio.h>
#include <stdlib.h>
#include <string.h>
#include <sys/epoll.h>
#include <sys/eventfd.h>
#include <sys/socket.h>
#include <sys/stat.h>
#include <unistd.h>

struct tried {
    bool ok;
    void *p;
};
struct epoll_entry {
    uint32_t events;
    uint64_t data;
};
struct raw_address {
    unsigned char bytes[128];
    uint32_t length;
};
struct tried rattle_alloc(size_t n, size_t a);
struct tried rattle_realloc(void *p, size_t kept, size_t n, size_t a);
void rattle_dealloc(void *p);
size_t rattle_arg_count(void);
ssize_t rattle_arg(size_t i, char *buffer, size_t room);
ssize_t rattle_env(const char *name, char *buffer, size_t room);
ssize_t rattle_env_at(size_t i, char *buffer, size_t room);
int rattle_errno(void);
void rattle_set_errno(int error);
int rattle_open_dir_at(int directory, const char *name);
int rattle_set_nonblocking(int descriptor, bool on);
ssize_t rattle_write_parts(int descriptor, bool is_socket, const void *a, size_t a_size, const void *b, size_t b_size, const void *c, size_t c_size,
                           const void *d, size_t d_size);
int rattle_epoll_ctl(int epoll, int operation, int descriptor, uint32_t events, uint64_t data);
ssize_t rattle_epoll_wait(int epoll, struct epoll_entry *entries, size_t room, int timeout);
ssize_t rattle_lookup_host(const char *name, struct raw_address *found, size_t room);
int __xpg_strerror_r(int error, char *buffer, size_t room);

static void must(bool holds, const char *what, int line) {
    if (holds)
        return;
    printf("%s:%d: not so: %s\n", __FILE__, line, what);
    exit(1);
}

#define MUST(what) must(what, #what, __LINE__)

static void test_memory(void) {
    struct tried block = rattle_alloc(100, 16);
    MUST(block.ok && (uintptr_t)block.p % 16 == 0);
    memset(block.p, 7, 100);
    block = rattle_realloc(block.p, 100, 100000, 16);
    MUST(block.ok && (uintptr_t)block.p % 16 == 0);
    for (int i = 0; i < 100; i++)
        MUST(((char *)block.p)[i] == 7);
    struct tried refused = rattle_realloc(block.p, 100, SIZE_MAX / 4, 16);
    MUST(!refused.ok && refused.p != NULL && ((char *)block.p)[99] == 7);
    rattle_dealloc(block.p);
    refused = rattle_alloc(SIZE_MAX / 4, 16);
    MUST(!refused.ok && refused.p != NULL);
    struct tried one = rattle_alloc(0, 8), two = rattle_alloc(0, 8);
    MUST(one.ok && two.ok && one.p != two.p && (uintptr_t)one.p % 8 == 0);
    one = rattle_realloc(one.p, 0, 0, 8);
    MUST(one.ok && one.p != NULL);
    rattle_dealloc(one.p);
    rattle_dealloc(two.p);
}

static void test_arguments(void) {
    char buffer[17] = "----------------";
    MUST(rattle_arg_count() == 4);
    MUST(rattle_arg(1, buffer, sizeof buffer) == 3 && memcmp(buffer, "one-", 4) == 0);
    MUST(rattle_arg(2, buffer, sizeof buffer) == 0 && buffer[0] == 'o');
    MUST(rattle_arg(2, buffer, 0) == 0);
    MUST(rattle_arg(3, buffer, 11) == 11 && memcmp(buffer, "three words-", 12) == 0);
    MUST(rattle_arg(1, buffer, 2) == -2 && memcmp(buffer, "onree", 5) == 0);
    MUST(rattle_arg(1, buffer, 0) == -2);
    MUST(rattle_arg(4, buffer, sizeof buffer) == -1 && rattle_arg(SIZE_MAX, buffer, sizeof buffer) == -1);
}

static void test_environment(void) {
    char buffer[64];
    MUST(rattle_env("WEEKDAY", buffer, sizeof buffer) == 6 && memcmp(buffer, "monday", 6) == 0);
    MUST(rattle_env("WEEKDAY", buffer, 6) == 6);
    memset(buffer, '-', sizeof buffer);
    MUST(rattle_env("WEEKDAY", buffer, 5) == -2 && memcmp(buffer, "monda-", 6) == 0);
    MUST(rattle_env("NO_SUCH_WEEKDAY", buffer, sizeof buffer) == -1);
    size_t entries = 0;
    bool seen = false;
    for (ssize_t length; (length = rattle_env_at(entries, buffer, sizeof buffer)) != -1; entries++)
        seen = seen || (length == 14 && memcmp(buffer, "WEEKDAY=monday", 14) == 0);
    MUST(seen && rattle_env_at(entries + 1, buffer, sizeof buffer) == -1 && rattle_env_at(SIZE_MAX, buffer, sizeof buffer) == -1);
    memset(buffer, '-', sizeof buffer);
    MUST(rattle_env_at(0, buffer, 1) == -2 && buffer[0] == environ[0][0] && buffer[1] == '-');
}

static void test_errno(void) {
    rattle_set_errno(71);
    MUST(errno == 71);
    errno = 72;
    MUST(rattle_errno() == 72);
}

static void test_directories(void) {
    MUST(mkdir("folder", 0755) == 0 && symlink("folder", "link") == 0 && close(creat("file", 0644)) == 0);
    int descriptor = rattle_open_dir_at(AT_FDCWD, "folder");
    MUST(descriptor >= 0 && fcntl(descriptor, F_GETFD) == FD_CLOEXEC && (fcntl(descriptor, F_GETFL) & O_ACCMODE) == O_RDONLY);
    MUST(mkdir("folder/inner", 0755) == 0);
    int inner = rattle_open_dir_at(descriptor, "inner");
    MUST(inner > descriptor && close(inner) == 0 && close(descriptor) == 0);
    MUST(rattle_open_dir_at(AT_FDCWD, "link") == -1 && (errno == ENOTDIR || errno == ELOOP));
    descriptor = rattle_open_dir_at(AT_FDCWD, "link/");
    MUST(descriptor >= 0 && close(descriptor) == 0);
    MUST(rattle_open_dir_at(AT_FDCWD, "file") == -1 && errno == ENOTDIR);
    MUST(rattle_open_dir_at(AT_FDCWD, "nothing") == -1 && errno == ENOENT);
}

static void test_nonblocking(void) {
    int ends[2];
    MUST(pipe(ends) == 0);
    MUST(rattle_set_nonblocking(ends[0], true) == 0 && (fcntl(ends[0], F_GETFL) & O_NONBLOCK));
    char byte;
    MUST(read(ends[0], &byte, 1) == -1 && errno == EAGAIN);
    MUST(rattle_set_nonblocking(ends[0], false) == 0 && !(fcntl(ends[0], F_GETFL) & O_NONBLOCK));
    MUST(close(ends[0]) == 0 && close(ends[1]) == 0);
    MUST(rattle_set_nonblocking(ends[0], true) == -1 && errno == EBADF);
}

static void test_writes(void) {
    int ends[2];
    char buffer[16];
    MUST(pipe(ends) == 0);
    MUST(rattle_write_parts(ends[1], false, "ab", 2, "", 0, "cde", 3, "f", 1) == 6);
    MUST(read(ends[0], buffer, sizeof buffer) == 6 && memcmp(buffer, "abcdef", 6) == 0);
    MUST(close(ends[0]) == 0 && close(ends[1]) == 0);
    MUST(socketpair(AF_UNIX, SOCK_STREAM, 0, ends) == 0);
    MUST(rattle_write_parts(ends[1], true, "", 0, "ij", 2, "", 0, "k", 1) == 3);
    MUST(read(ends[0], buffer, sizeof buffer) == 3 && memcmp(buffer, "ijk", 3) == 0);
    MUST(close(ends[0]) == 0);
    // SIGPIPE would end this program.
    MUST(rattle_write_parts(ends[1], true, "l", 1, "", 0, "", 0, "", 0) == -1 && errno == EPIPE);
    MUST(close(ends[1]) == 0);
}

// The number that an entry is registered with: its bytes differ, and both halves are needed.
static uint64_t data_of(int i) {
    return 0xfedcba9876543210 + (uint64_t)i * 0x0101010101010101;
}

static void test_epoll(void) {
    int epoll = epoll_create1(EPOLL_CLOEXEC), ready[5];
    struct epoll_entry entries[8];
    memset(entries, 0xff, sizeof entries);
    for (int i = 0; i < 5; i++) {
        ready[i] = eventfd(1, EFD_CLOEXEC | EFD_NONBLOCK);
        MUST(rattle_epoll_ctl(epoll, EPOLL_CTL_ADD, ready[i], i == 2 ? EPOLLIN | EPOLLOUT : EPOLLIN, data_of(i)) == 0);
    }
    MUST(rattle_epoll_ctl(epoll, EPOLL_CTL_ADD, ready[0], EPOLLIN, 0) == -1 && errno == EEXIST);
    MUST(rattle_epoll_wait(epoll, entries, 3, 0) == 3);
    MUST(entries[3].data == UINT64_MAX);
    MUST(rattle_epoll_wait(epoll, entries, 8, 0) == 5);
    unsigned seen = 0;
    for (int i = 0; i < 5; i++)
        for (int of = 0; of < 5; of++)
            if (entries[i].data == data_of(of) && entries[i].events == (of == 2 ? EPOLLIN | EPOLLOUT : EPOLLIN))
                seen |= 1u << of;
    MUST(seen == 31);
    MUST(rattle_epoll_ctl(epoll, EPOLL_CTL_MOD, ready[0], EPOLLOUT, 7) == 0);
    for (int i = 1; i < 5; i++)
        MUST(rattle_epoll_ctl(epoll, EPOLL_CTL_DEL, ready[i], 0, 0) == 0);
    MUST(rattle_epoll_wait(epoll, entries, 8, -1) == 1 && entries[0].data == 7 && entries[0].events == EPOLLOUT);
    MUST(rattle_epoll_ctl(epoll, EPOLL_CTL_DEL, ready[0], 0, 0) == 0);
    MUST(rattle_epoll_wait(epoll, entries, 8, 1) == 0);
    MUST(rattle_epoll_wait(epoll, entries, 0, 0) == -1 && errno == EINVAL);
    MUST(rattle_epoll_wait(-1, entries, 8, 0) == -1 && errno == EBADF);
    for (int i = 0; i < 5; i++)
        close(ready[i]);
    close(epoll);
}

static void test_look_ups(void) {
    struct raw_address found[4];
    memset(found, 0xff, sizeof found);
    MUST(rattle_lookup_host("192.0.2.7", found, 4) == 1 && found[0].length == sizeof(struct sockaddr_in));
    struct sockaddr_in four;
    memcpy(&four, found[0].bytes, sizeof four);
    MUST(four.sin_family == AF_INET && four.sin_port == 0 && ntohl(four.sin_addr.s_addr) == 0xc0000207);
    MUST(rattle_lookup_host("2001:db8::7", found, 4) == 1 && found[0].length == sizeof(struct sockaddr_in6));
    struct sockaddr_in6 six;
    memcpy(&six, found[0].bytes, sizeof six);
    MUST(six.sin6_family == AF_INET6 && six.sin6_addr.s6_addr[0] == 0x20 && six.sin6_addr.s6_addr[15] == 7);
    MUST(rattle_lookup_host("localhost", found, 4) >= 1 && rattle_lookup_host("localhost", found, 1) == 1 && rattle_lookup_host("localhost", found, 0) == 0);
    MUST(rattle_lookup_host("no such name", found, 4) < 0);
}

static void test_error_texts(void) {
    char buffer[64];
    MUST(__xpg_strerror_r(ECONNREFUSED, buffer, sizeof buffer) == 0 && strcmp(buffer, "Connection refused") == 0);
    MUST(__xpg_strerror_r(ECONNREFUSED, buffer, 19) == 0 && strcmp(buffer, "Connection refused") == 0);
    MUST(__xpg_strerror_r(ECONNREFUSED, buffer, 18) == ERANGE && strcmp(buffer, "Connection refuse") == 0);
    MUST(__xpg_strerror_r(4095, buffer, sizeof buffer) == EINVAL && strcmp(buffer, "Unknown error 4095") == 0);
    MUST(__xpg_strerror_r(-1, buffer, sizeof buffer) == EINVAL && strcmp(buffer, "Unknown error -1") == 0);
}

static const struct {
    const char *name;
    void (*run)(void);
} TESTS[] = {
    {"memory", test_memory},           {"arguments", test_arguments},     {"environment", test_environment}, {"errno", test_errno},
    {"directories", test_directories}, {"nonblocking", test_nonblocking}, {"writes", test_writes},           {"epoll", test_epoll},
    {"look-ups", test_look_ups},       {"error texts", test_error_texts},
};

int main(void) {
    for (size_t i = 0; i < sizeof TESTS / sizeof *TESTS; i++) {
        TESTS[i].run();
        printf("%s\n", TESTS[i].name);
    }
}
