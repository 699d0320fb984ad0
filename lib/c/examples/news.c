/* A sender, and a receiver in a thread of its own that learns how many values it missed.
 *
 *     cc news.c $(pkg-config --cflags --libs topichub) -pthread && ./a.out
 */
#include <inttypes.h>
#include <pthread.h>
#include <stdio.h>
#include <topichub.h>

static topichub_broadcast news = TOPICHUB_BROADCAST_NONE;
static pthread_mutex_t lock = PTHREAD_MUTEX_INITIALIZER;
static pthread_cond_t told = PTHREAD_COND_INITIALIZER;

/* The next answer to a receiver; it waits while there is none. */
static topichub_reply next(uint64_t rx) {
    pthread_mutex_lock(&lock);
    topichub_reply reply;
    while ((reply = topichub_broadcast_recv(&news, rx)).status == TOPICHUB_WOULD_WAIT)
        pthread_cond_wait(&told, &lock);
    pthread_mutex_unlock(&lock);
    return reply;
}

/* Counts what came and what was missed, until no sender is left. */
static void *receive_all(void *receiver) {
    uint64_t rx = *(uint64_t *)receiver, came = 0, missed = 0;
    for (;;) {
        topichub_reply reply = next(rx);
        if (reply.status == TOPICHUB_VALUE)
            came++;
        else if (reply.status == TOPICHUB_LAGGED)
            missed += reply.number;
        else
            break;
    }
    printf("%" PRIu64 " values in all\n", came + missed);
    return NULL;
}

static void send(uint64_t value) {
    pthread_mutex_lock(&lock);
    topichub_broadcast_send(&news, 1, value);
    pthread_mutex_unlock(&lock);
    pthread_cond_broadcast(&told);
}

/* Says whether every reply was the one that the channel gives. */
static void check_history(topichub_broadcast *channel) {
    topichub_trace trace = TOPICHUB_TRACE_NONE;
    static uint8_t text[65536];
    uint64_t length, line;
    if (topichub_broadcast_cut(channel, &trace) != TOPICHUB_DONE)
        return;
    if (topichub_trace_read(&trace, text, sizeof text, &length) == TOPICHUB_DONE
        && topichub_check(text, length, &line) == TOPICHUB_LEGAL)
        puts("legal");
    topichub_trace_free(&trace);
}

int main(void) {
    if (topichub_broadcast_new_recorded(&news, 4, 0, 1000) != TOPICHUB_DONE)
        return 1;
    uint64_t rx = topichub_broadcast_subscribe(&news, 1).number;
    pthread_t thread;
    pthread_create(&thread, NULL, receive_all, &rx);
    for (uint64_t value = 0; value < 100; value++)
        send(value);
    pthread_mutex_lock(&lock);
    topichub_broadcast_drop_tx(&news, 1);
    pthread_mutex_unlock(&lock);
    pthread_cond_broadcast(&told);
    pthread_join(thread, NULL);
    check_history(&news);
    topichub_broadcast_free(&news);
    return 0;
}
