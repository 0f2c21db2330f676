/* Load for a proxy on 127.0.0.1: upstreams, and clients that check every byte that comes back.
 *
 *   load echo                          an upstream that sends back what it reads; prints its port
 *   load exchange-server BYTES         an upstream that sends BYTES and reads BYTES at once; prints its port
 *   load exchange PORT BYTES           a client that does the same; prints seconds
 *   load ping PORT COUNT               one-byte round trips; prints median, 99th percentile and least in microseconds
 *   load receive PORT BYTES            reads BYTES; prints the microseconds until the last one
 *   load hold PORT LINKS SECONDS       opens links, echoes one byte over each, and then sends nothing
 *   load many PORT LINKS ROUNDS SIZE   links open at once, each echoing ROUNDS times SIZE bytes; prints how many broke
 *   load series PORT LINKS SIZE        links one after the other, each echoing SIZE bytes; prints how many broke
 */
#include <arpa/inet.h>
#include <errno.h>
#include <netinet/in.h>
#include <netinet/tcp.h>
#include <poll.h>
#include <pthread.h>
#include <stdio.h>
#include <stdlib.h>
#include <string.h>
#include <sys/resource.h>
#include <sys/socket.h>
#include <time.h>
#include <unistd.h>

#define BLOCK 65536
#define PERIOD 251

/* byte n of every transfer is n modulo 251 */
static unsigned char pattern[BLOCK + PERIOD];

static void fail(const char *what) {
    fprintf(stderr, "load: %s: %s\n", what, strerror(errno));
    exit(1);
}

static double now(void) {
    struct timespec at;
    clock_gettime(CLOCK_MONOTONIC, &at);
    return at.tv_sec + at.tv_nsec / 1e9;
}

static void no_delay(int socket) {
    int on = 1;
    setsockopt(socket, IPPROTO_TCP, TCP_NODELAY, &on, sizeof on);
}

static int listen_anywhere(void) {
    int listener = socket(AF_INET, SOCK_STREAM, 0);
    struct sockaddr_in at = {.sin_family = AF_INET, .sin_addr.s_addr = htonl(INADDR_LOOPBACK)};
    socklen_t size = sizeof at;
    if (bind(listener, (struct sockaddr *)&at, size) || listen(listener, 4096)) fail("listen");
    getsockname(listener, (struct sockaddr *)&at, &size);
    printf("%d\n", ntohs(at.sin_port));
    fflush(stdout);
    return listener;
}

static int try_connect(int port) {
    int link = socket(AF_INET, SOCK_STREAM, 0);
    struct sockaddr_in at = {.sin_family = AF_INET,
                             .sin_port = htons(port),
                             .sin_addr.s_addr = htonl(INADDR_LOOPBACK)};
    if (link < 0) return -1;
    if (connect(link, (struct sockaddr *)&at, sizeof at)) {
        close(link);
        return -1;
    }
    no_delay(link);
    return link;
}

static int connect_to(int port) {
    int link = try_connect(port);
    if (link < 0) fail("connect");
    return link;
}

/* whether so many bytes of the pattern were written from a position on */
static int send_pattern(int link, long from, long bytes) {
    while (bytes > 0) {
        long some = bytes < BLOCK ? bytes : BLOCK;
        ssize_t sent = send(link, pattern + from % PERIOD, some, MSG_NOSIGNAL);
        if (sent <= 0) return 0;
        from += sent;
        bytes -= sent;
    }
    return 1;
}

/* whether so many bytes came and were those of the pattern */
static int receive_pattern(int link, long from, long bytes) {
    unsigned char block[BLOCK];
    while (bytes > 0) {
        long some = bytes < BLOCK ? bytes : BLOCK;
        ssize_t got = recv(link, block, some, 0);
        if (got <= 0 || memcmp(block, pattern + from % PERIOD, got)) return 0;
        from += got;
        bytes -= got;
    }
    return 1;
}

static int echoes(int link, long from, long size) {
    return send_pattern(link, from, size) && receive_pattern(link, from, size);
}

static void *echo_link(void *argument) {
    int link = (int)(long)argument;
    char block[16384];
    ssize_t got;
    while ((got = recv(link, block, sizeof block, 0)) > 0) {
        ssize_t done = 0;
        while (done < got) {
            ssize_t sent = send(link, block + done, got - done, MSG_NOSIGNAL);
            if (sent <= 0) goto closed;
            done += sent;
        }
    }
closed:
    close(link);
    return NULL;
}

struct transfer {
    int link;
    long bytes;
};

static void *send_all(void *argument) {
    struct transfer *transfer = argument;
    send_pattern(transfer->link, 0, transfer->bytes);
    shutdown(transfer->link, SHUT_WR);
    return NULL;
}

/* whether all bytes came, and then the end */
static int exchange(int link, long bytes) {
    struct transfer transfer = {link, bytes};
    pthread_t sender;
    char end;
    pthread_create(&sender, NULL, send_all, &transfer);
    int whole = receive_pattern(link, 0, bytes) && recv(link, &end, 1, 0) == 0;
    pthread_join(sender, NULL);
    close(link);
    return whole;
}

static long exchange_bytes;

static void *exchange_link(void *argument) {
    exchange((int)(long)argument, exchange_bytes);
    return NULL;
}

static void start_thread(void *(*work)(void *), long argument) {
    pthread_t thread;
    pthread_attr_t small;
    pthread_attr_init(&small);
    pthread_attr_setstacksize(&small, 262144);
    pthread_attr_setdetachstate(&small, PTHREAD_CREATE_DETACHED);
    if (pthread_create(&thread, &small, work, (void *)argument)) fail("thread");
}

static void serve(void *(*work)(void *)) {
    int listener = listen_anywhere();
    for (;;) {
        int link = accept(listener, NULL, NULL);
        if (link < 0) continue;
        no_delay(link);
        start_thread(work, link);
    }
}

static int by_time(const void *a, const void *b) {
    double x = *(const double *)a, y = *(const double *)b;
    return (x > y) - (x < y);
}

static void ping(int port, long count) {
    int link = connect_to(port);
    double *times = malloc(count * sizeof *times);
    for (long i = 0; i < count; i++) {
        double start = now();
        if (!echoes(link, i, 1)) fail("ping");
        times[i] = now() - start;
    }
    qsort(times, count, sizeof *times, by_time);
    printf("%.1f %.1f %.1f\n", times[count / 2] * 1e6, times[count * 99 / 100] * 1e6, times[0] * 1e6);
    close(link);
}

static void receive(int port, long bytes) {
    double start = now();
    int link = connect_to(port);
    if (!receive_pattern(link, 0, bytes)) fail("receive");
    printf("%.0f\n", (now() - start) * 1e6);
    close(link);
}

/* how late each part of a transfer comes, at so many nanoseconds a byte, behind the part that comes earliest */
static void paced(int port, long bytes, long nanoseconds) {
    int link = connect_to(port);
    double *late = malloc(bytes * sizeof *late);
    unsigned char block[BLOCK];
    long parts = 0;
    for (long came = 0; came < bytes; parts++) {
        ssize_t got = recv(link, block, sizeof block, 0);
        if (got <= 0 || memcmp(block, pattern + came % PERIOD, got)) fail("paced");
        came += got;
        late[parts] = now() * 1e6 - came * (nanoseconds / 1e3);
    }
    qsort(late, parts, sizeof *late, by_time);
    printf("%ld %.0f %.0f %.0f\n", parts, late[parts / 2] - late[0], late[parts * 99 / 100] - late[0], late[parts - 1] - late[0]);
    close(link);
}

static void hold(int port, long links, long seconds) {
    for (long i = 0; i < links; i++)
        if (!echoes(connect_to(port), 0, 1)) fail("hold");
    printf("held\n");
    fflush(stdout);
    sleep(seconds);
}

static void many(int port, long links, long rounds, long size) {
    int *open = malloc(links * sizeof *open);
    long broken = 0;
    for (long i = 0; i < links; i++) open[i] = try_connect(port);
    for (long round = 0; round < rounds; round++) {
        for (long i = 0; i < links; i++)
            if (open[i] >= 0 && !send_pattern(open[i], round * size, size)) close(open[i]), open[i] = -1;
        for (long i = 0; i < links; i++)
            if (open[i] >= 0 && !receive_pattern(open[i], round * size, size)) close(open[i]), open[i] = -1;
    }
    for (long i = 0; i < links; i++) {
        broken += open[i] < 0;
        if (open[i] >= 0) close(open[i]);
    }
    printf("%ld\n", broken);
}

static void series(int port, long links, long size) {
    long broken = 0;
    for (long i = 0; i < links; i++) {
        int link = try_connect(port);
        broken += link < 0 || !echoes(link, 0, size);
        if (link >= 0) close(link);
    }
    printf("%ld\n", broken);
}

int main(int count, char **words) {
    struct rlimit files = {65536, 65536};
    setrlimit(RLIMIT_NOFILE, &files);
    for (int i = 0; i < BLOCK + PERIOD; i++) pattern[i] = i % PERIOD;
    const char *what = count > 1 ? words[1] : "";
    long n[4] = {0};
    for (int i = 0; i < 4 && i + 2 < count; i++) n[i] = atol(words[i + 2]);
    if (!strcmp(what, "echo")) serve(echo_link);
    else if (!strcmp(what, "exchange-server")) {
        exchange_bytes = n[0];
        serve(exchange_link);
    } else if (!strcmp(what, "exchange")) {
        int link = connect_to(n[0]);
        double start = now();
        if (!exchange(link, n[1])) fail("a byte is wrong or missing");
        printf("%.3f\n", now() - start);
    } else if (!strcmp(what, "ping")) ping(n[0], n[1]);
    else if (!strcmp(what, "receive")) receive(n[0], n[1]);
    else if (!strcmp(what, "paced")) paced(n[0], n[1], n[2]);
    else if (!strcmp(what, "hold")) hold(n[0], n[1], n[2]);
    else if (!strcmp(what, "many")) many(n[0], n[1], n[2], n[3]);
    else if (!strcmp(what, "series")) series(n[0], n[1], n[2]);
    else {
        fprintf(stderr, "load: unknown command\n");
        return 2;
    }
    return 0;
}
