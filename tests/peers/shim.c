/* Stands before the C library of a program under test, and has the system do what a test can't bring about otherwise. The linker puts it there: a call of NAME becomes
 * one of __wrap_NAME, which reaches the library by __real_NAME. Each variable of the environment turns one thing on:
 *
 * TOXI_LOOK_UPS_THAT_HANG=N    the first N look-ups of a name never answer, and later ones do
 * TOXI_ADDRESSES=A,B           a name has these IPv4 addresses
 * TOXI_CONNECT_PAUSE=MS        a connect that has begun returns so many milliseconds later
 * TOXI_REFUSE_POLL=FILE        while this file is there, no descriptor can be watched for events
 * TOXI_REFUSE_MEMORY=FILE      while this file is there, no 4,096 bytes or more can be had
 * TOXI_REFUSE_THREAD=FILE      while this file is there, only as many more threads can be had as it says
 * TOXI_COUNTS=FILE             a file of two numbers of 64 bits: how often a socket was read, and how often events were waited for
 */
#include <errno.h>
#include <fcntl.h>
#include <netdb.h>
#include <pthread.h>
#include <stdint.h>
#include <stdio.h>
#include <stdlib.h>
#include <string.h>
#include <sys/epoll.h>
#include <sys/mman.h>
#include <sys/socket.h>
#include <time.h>
#include <unistd.h>

#define WRAPPED(name) __typeof__(name) __real_##name, __wrap_##name
#define LARGE 4096

WRAPPED(getaddrinfo);
WRAPPED(connect);
WRAPPED(epoll_ctl);
WRAPPED(epoll_wait);
WRAPPED(read);
WRAPPED(recv);
WRAPPED(malloc);
WRAPPED(realloc);
WRAPPED(pthread_create);

static int is_there(const char *variable) {
    const char *file = getenv(variable);
    return file && access(file, F_OK) == 0;
}

static void pause_for(long millis) {
    struct timespec left = {millis / 1000, millis % 1000 * 1000000};
    while (nanosleep(&left, &left) && errno == EINTR) {}
}

/* Look-ups. */

static int has_number(const char *name) {
    return !name || strspn(name, "0123456789.") == strlen(name) || strchr(name, ':');
}

int __wrap_getaddrinfo(const char *name, const char *port, const struct addrinfo *hints, struct addrinfo **found) {
    static int look_ups;
    const char *hang = getenv("TOXI_LOOK_UPS_THAT_HANG"), *addresses = getenv("TOXI_ADDRESSES");
    if (has_number(name) || (!hang && !addresses)) return __real_getaddrinfo(name, port, hints, found);
    if (hang && __atomic_fetch_add(&look_ups, 1, __ATOMIC_SEQ_CST) < atoi(hang)) for (;;) pause();
    char all[256], *rest = all, *one;
    strncpy(all, addresses ? addresses : "127.0.0.1", sizeof all - 1);
    all[sizeof all - 1] = 0;
    struct addrinfo **end = found;
    *found = NULL;
    while ((one = strsep(&rest, ","))) {
        int status = __real_getaddrinfo(one, port, hints, end);
        if (status) return status;
        while (*end) end = &(*end)->ai_next;
    }
    return 0;
}

/* Connects. */

int __wrap_connect(int socket, const struct sockaddr *address, socklen_t length) {
    int status = __real_connect(socket, address, length), error = errno;
    const char *pause = getenv("TOXI_CONNECT_PAUSE");
    if (pause && address->sa_family == AF_INET) pause_for(atol(pause));
    errno = error;
    return status;
}

/* Events, and what is counted. */

static uint64_t *counts(void) {
    static uint64_t *shared;
    uint64_t *known = __atomic_load_n(&shared, __ATOMIC_SEQ_CST);
    const char *file = getenv("TOXI_COUNTS");
    if (known || !file) return known;
    int opened = open(file, O_RDWR | O_CLOEXEC);
    if (opened < 0) return NULL;
    void *mapped = mmap(NULL, 16, PROT_READ | PROT_WRITE, MAP_SHARED, opened, 0);
    close(opened);
    if (mapped == MAP_FAILED) return NULL;
    __atomic_store_n(&shared, (uint64_t *)mapped, __ATOMIC_SEQ_CST);
    return mapped;
}

static void count(int place) {
    uint64_t *shared = counts();
    if (shared) __atomic_fetch_add(&shared[place], 1, __ATOMIC_SEQ_CST);
}

int __wrap_epoll_ctl(int poll, int asked, int watched, struct epoll_event *event) {
    if (asked == EPOLL_CTL_ADD && is_there("TOXI_REFUSE_POLL")) {
        errno = ENOSPC;
        return -1;
    }
    return __real_epoll_ctl(poll, asked, watched, event);
}

int __wrap_epoll_wait(int poll, struct epoll_event *events, int most, int millis) {
    count(1);
    return __real_epoll_wait(poll, events, most, millis);
}

ssize_t __wrap_read(int descriptor, void *bytes, size_t room) {
    count(0);
    return __real_read(descriptor, bytes, room);
}

ssize_t __wrap_recv(int descriptor, void *bytes, size_t room, int flags) {
    count(0);
    return __real_recv(descriptor, bytes, room, flags);
}

/* Memory. */

static int is_refused(size_t size) {
    return size >= LARGE && is_there("TOXI_REFUSE_MEMORY");
}

void *__wrap_malloc(size_t size) {
    if (is_refused(size)) return errno = ENOMEM, NULL;
    return __real_malloc(size);
}

void *__wrap_realloc(void *before, size_t size) {
    if (is_refused(size)) return errno = ENOMEM, NULL;
    return __real_realloc(before, size);
}

/* Threads. */

static int most_threads(void) {
    int most = -1;
    const char *name = getenv("TOXI_REFUSE_THREAD");
    FILE *file = name ? fopen(name, "r") : NULL;
    if (!file) return -1;
    if (fscanf(file, "%d", &most) != 1) most = -1;
    fclose(file);
    return most;
}

int __wrap_pthread_create(pthread_t *thread, const pthread_attr_t *attributes, void *(*start)(void *), void *argument) {
    static int started;
    int most = most_threads();
    if (most >= 0 && __atomic_fetch_add(&started, 1, __ATOMIC_SEQ_CST) >= most) return EAGAIN;
    return __real_pthread_create(thread, attributes, start, argument);
}
