/* Sends and receives by turns through topichub.h, in one thread, for bench/threads.
 *
 *     c_turns 0 BATCHES bare|locked|blocking
 *
 * locked: with a pthread mutex round each call, as a program with threads has it. blocking: through topichub_threads.h. */
#include <inttypes.h>
#include <pthread.h>
#include <stdio.h>
#include <stdlib.h>
#include <string.h>
#include <time.h>

#include "topichub_threads.h"

enum { BATCH = 1024, CAPACITY = 4 * BATCH };

static pthread_mutex_t mutex = PTHREAD_MUTEX_INITIALIZER;

static uint64_t nanoseconds(void) {
    struct timespec now;
    clock_gettime(CLOCK_MONOTONIC, &now);
    return (uint64_t)now.tv_sec * 1000000000u + (uint64_t)now.tv_nsec;
}

static void lock(int is_locked) {
    if (is_locked) pthread_mutex_lock(&mutex);
}

static void unlock(int is_locked) {
    if (is_locked) pthread_mutex_unlock(&mutex);
}

static int tell(uint64_t received, uint64_t spent) {
    printf("received %" PRIu64 " missed 0\nnanoseconds %" PRIu64 "\n", received, spent);
    return 0;
}

/* Each value points to its number, which nobody frees. */
static int blocking(uint64_t values) {
    static uint64_t numbers[BATCH];
    uint64_t received = 0;
    topichub_broadcast_sender *tx;
    topichub_broadcast_receiver *rx;
    if (topichub_broadcast_open(&tx, &rx, CAPACITY) != TOPICHUB_DONE) return 1;
    uint64_t start = nanoseconds();
    for (uint64_t value = 0; value < values; value++) {
        uint64_t *number = &numbers[value % BATCH];
        *number = value;
        topichub_broadcast_sender_send(tx, number, sizeof *number, NULL);
        topichub_value *seen;
        if (topichub_broadcast_receiver_recv(rx, &seen).status == TOPICHUB_VALUE) {
            received += *(uint64_t *)topichub_value_data(seen) == value;
            topichub_value_release(seen);
        }
    }
    uint64_t spent = nanoseconds() - start;
    topichub_broadcast_sender_close(tx);
    topichub_broadcast_receiver_close(rx);
    return tell(received, spent);
}

int main(int count, char **words) {
    if (count != 4) return 2;
    uint64_t values = strtoull(words[2], NULL, 10) * BATCH, received = 0;
    if (strcmp(words[3], "blocking") == 0) return blocking(values);
    int is_locked = strcmp(words[3], "locked") == 0;
    topichub_broadcast channel = TOPICHUB_BROADCAST_NONE;
    if (topichub_broadcast_new(&channel, CAPACITY, 0) != TOPICHUB_DONE) return 1;
    uint64_t rx = topichub_broadcast_subscribe(&channel, 1).number;
    uint64_t start = nanoseconds();
    for (uint64_t value = 0; value < values; value++) {
        lock(is_locked);
        topichub_broadcast_send(&channel, 1, value);
        unlock(is_locked);
        lock(is_locked);
        topichub_reply told = topichub_broadcast_try_recv(&channel, rx);
        unlock(is_locked);
        received += told.status == TOPICHUB_VALUE && told.number == value;
    }
    uint64_t spent = nanoseconds() - start;
    topichub_broadcast_free(&channel);
    return tell(received, spent);
}
