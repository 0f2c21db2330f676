/* How late threads go on that wait for an instant, and what the waiting costs: by sleeps alone, or by sleeps that end early and
 * yields from there on.
 *
 *   cc -O2 -pthread -o rests rests.c
 *   ./rests THREADS PERIOD EARLY       instants each PERIOD microseconds for 3 s; sleeps end EARLY microseconds early, 0 for never
 */
#define _GNU_SOURCE
#include <pthread.h>
#include <sched.h>
#include <stdio.h>
#include <stdlib.h>
#include <sys/resource.h>
#include <time.h>

#define MOST 1000 /* the longest sleep, in microseconds */

static long threads, period, early, rounds;
static double *late;

static double now(void) {
    struct timespec at;
    clock_gettime(CLOCK_MONOTONIC, &at);
    return at.tv_sec * 1e6 + at.tv_nsec / 1e3;
}

static void wait_until(double due) {
    double left;
    while ((left = due - now()) > 0) {
        double rest = left - early > MOST ? MOST : left - early;
        struct timespec nap = {0, (long)(rest * 1e3)};
        if (rest > 0) nanosleep(&nap, NULL);
        else sched_yield();
    }
}

static void *wait_often(void *argument) {
    long place = (long)argument;
    double due = now() + period + (double)period * place / threads;
    for (long i = 0; i < rounds; i++) {
        wait_until(due);
        late[place * rounds + i] = now() - due;
        while (due < now()) due += period;
    }
    return NULL;
}

static int by_time(const void *a, const void *b) {
    double x = *(const double *)a, y = *(const double *)b;
    return (x > y) - (x < y);
}

int main(int count, char **words) {
    if (count < 4) return 2;
    threads = atol(words[1]), period = atol(words[2]), early = atol(words[3]);
    rounds = 3000000 / period;
    long all = threads * rounds;
    late = calloc(all, sizeof *late);
    pthread_t *running = calloc(threads, sizeof *running);
    pthread_attr_t small;
    pthread_attr_init(&small);
    pthread_attr_setstacksize(&small, 65536);
    double begun = now();
    for (long i = 0; i < threads; i++) pthread_create(&running[i], &small, wait_often, (void *)i);
    for (long i = 0; i < threads; i++) pthread_join(running[i], NULL);
    double took = now() - begun;
    struct rusage used;
    getrusage(RUSAGE_SELF, &used);
    double cpu = (used.ru_utime.tv_sec + used.ru_stime.tv_sec) * 1e6 + used.ru_utime.tv_usec + used.ru_stime.tv_usec;
    qsort(late, all, sizeof *late, by_time);
    printf("late by %.0f, %.0f us (median, 99th percentile); %.1f %% of a core\n", late[all / 2], late[all * 99 / 100], cpu / took * 100);
    return 0;
}
