/* Hands slots to threads as `canely run` does, and does nothing in them: what a run costs by its threads alone.

   Usage: handing NODES SLOTS

   A thread of each node waits for each slot, takes the lock once and counts its turn. The thread of the bus waits for all turns
   of a slot, takes the lock once and counts the next slot. Who waits looks 20 times, gives up the processor in between, and then
   sleeps. Prints the seconds, those of the processors, and how often a thread was switched. */
#define _GNU_SOURCE
#include <linux/futex.h>
#include <pthread.h>
#include <sched.h>
#include <stdatomic.h>
#include <stdio.h>
#include <stdlib.h>
#include <sys/resource.h>
#include <sys/syscall.h>
#include <time.h>
#include <unistd.h>

struct event {
    _Alignas(64) atomic_uint count;
    _Alignas(64) atomic_uint sleepers;
};

static struct event slots, turns;
static atomic_uint made;
static pthread_mutex_t lock = PTHREAD_MUTEX_INITIALIZER;
static unsigned nodes, last;

static void await_above(struct event *event, unsigned seen) {
    for (int look = 0; look < 20; look++) {
        if (atomic_load(&event->count) > seen) return;
        sched_yield();
    }
    while (atomic_load(&event->count) <= seen) {
        atomic_fetch_add(&event->sleepers, 1);
        unsigned now = atomic_load(&event->count);
        if (now <= seen) syscall(SYS_futex, &event->count, FUTEX_WAIT_PRIVATE, now, NULL, NULL, 0);
        atomic_fetch_sub(&event->sleepers, 1);
    }
}

static void advance(struct event *event) {
    atomic_fetch_add(&event->count, 1);
    if (atomic_load(&event->sleepers) > 0) syscall(SYS_futex, &event->count, FUTEX_WAKE_PRIVATE, 1 << 30, NULL, NULL, 0);
}

static void hold_lock(void) {
    pthread_mutex_lock(&lock);
    pthread_mutex_unlock(&lock);
}

static void *node(void *unused) {
    (void)unused;
    for (unsigned slot = 0; slot < last; slot++) {
        await_above(&slots, slot);
        hold_lock();
        if (atomic_fetch_add(&made, 1) + 1 == (slot + 1) * nodes) advance(&turns);
    }
    return NULL;
}

int main(int count, char **words) {
    if (count != 3) return 2;
    nodes = (unsigned)atoi(words[1]);
    last = (unsigned)atoi(words[2]);
    pthread_t *threads = malloc(nodes * sizeof *threads);
    struct timespec start, end;
    clock_gettime(CLOCK_MONOTONIC, &start);
    for (unsigned i = 0; i < nodes; i++) pthread_create(&threads[i], NULL, node, NULL);
    for (unsigned slot = 0; slot < last; slot++) {
        hold_lock();
        advance(&slots);
        await_above(&turns, slot);
    }
    for (unsigned i = 0; i < nodes; i++) pthread_join(threads[i], NULL);
    clock_gettime(CLOCK_MONOTONIC, &end);
    struct rusage used;
    getrusage(RUSAGE_SELF, &used);
    printf("%.2f s, of processors %.2f s, %ld switches\n", (end.tv_sec - start.tv_sec) + (end.tv_nsec - start.tv_nsec) / 1e9,
           used.ru_utime.tv_sec + used.ru_utime.tv_usec / 1e6 + used.ru_stime.tv_sec + used.ru_stime.tv_usec / 1e6, used.ru_nvcsw + used.ru_nivcsw);
    return 0;
}
