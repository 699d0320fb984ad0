/* Channels between threads, each under a mutex: receivers learn of every value, or that they missed it, in order; readers see versions
 * that rise, and the last one; and the trace of all that was called is legal. Channels of different threads need no common lock. */
#define _POSIX_C_SOURCE 200809L
#include "tests.h"

#include <pthread.h>

enum { VALUES = 5000, RECEIVERS = 3, CHANNELS = 3, LIMIT = 1000000 };

/* A broadcast channel, a watch channel, their lock, and who waits. */
struct hub {
    pthread_mutex_t lock;
    pthread_cond_t news;
    topichub_broadcast values;
    topichub_watch newest;
};

/* What a thread is given, and what it found. */
struct part {
    struct hub *hub;
    uint64_t handle, came, missed;
    int is_right;
};

static void *send_all(void *given) {
    struct part *part = given;
    struct hub *hub = part->hub;
    part->is_right = 1;
    for (uint64_t value = 0; value < VALUES; value++) {
        pthread_mutex_lock(&hub->lock);
        part->is_right &= topichub_broadcast_send(&hub->values, part->handle, value).status == TOPICHUB_SENT;
        part->is_right &= topichub_watch_set(&hub->newest, 1, value).status == TOPICHUB_YES;
        pthread_cond_broadcast(&hub->news);
        pthread_mutex_unlock(&hub->lock);
    }
    pthread_mutex_lock(&hub->lock);
    topichub_broadcast_drop_tx(&hub->values, part->handle);
    topichub_watch_drop_tx(&hub->newest, 1);
    pthread_cond_broadcast(&hub->news);
    pthread_mutex_unlock(&hub->lock);
    return NULL;
}

static topichub_reply next(struct hub *hub, uint64_t rx) {
    pthread_mutex_lock(&hub->lock);
    topichub_reply told;
    while ((told = topichub_broadcast_recv(&hub->values, rx)).status == TOPICHUB_WOULD_WAIT)
        pthread_cond_wait(&hub->news, &hub->lock);
    pthread_mutex_unlock(&hub->lock);
    return told;
}

static void *receive_all(void *given) {
    struct part *part = given;
    part->is_right = 1;
    for (;;) {
        topichub_reply told = next(part->hub, part->handle);
        if (told.status == TOPICHUB_VALUE) {
            part->is_right &= told.number == part->came + part->missed;
            part->came++;
        } else if (told.status == TOPICHUB_LAGGED) {
            part->missed += told.number;
        } else {
            part->is_right &= told.status == TOPICHUB_CLOSED && part->came + part->missed == VALUES;
            return NULL;
        }
    }
}

static void *read_all(void *given) {
    struct part *part = given;
    struct hub *hub = part->hub;
    uint64_t last = 0;
    part->is_right = 1;
    for (;;) {
        pthread_mutex_lock(&hub->lock);
        topichub_reply told;
        while ((told = topichub_watch_changed(&hub->newest, part->handle)).status == TOPICHUB_WOULD_WAIT)
            pthread_cond_wait(&hub->news, &hub->lock);
        uint64_t seen = topichub_watch_take(&hub->newest, part->handle).number;
        pthread_mutex_unlock(&hub->lock);
        part->is_right &= seen >= last;
        last = seen;
        if (told.status != TOPICHUB_MARKED) {
            part->is_right &= told.status == TOPICHUB_CLOSED && last == VALUES - 1;
            return NULL;
        }
        part->came++;
    }
}

static void open_hub(struct hub *hub) {
    pthread_mutex_init(&hub->lock, NULL);
    pthread_cond_init(&hub->news, NULL);
    EXPECT(topichub_broadcast_new_recorded(&hub->values, 16, 0, LIMIT) == TOPICHUB_DONE);
    EXPECT(topichub_watch_new_recorded(&hub->newest, 0, 1, LIMIT) == TOPICHUB_DONE);
}

/* Whether the trace is that of a legal history. It is freed. */
static int is_legal(topichub_trace *trace) {
    size_t length = 0, room = 1 << 16;
    uint8_t *text = malloc(room);
    uint64_t written, line;
    while (text != NULL && topichub_trace_read(trace, text + length, room - length, &written) == TOPICHUB_DONE && written > 0) {
        length += written;
        if (length == room)
            text = realloc(text, room *= 2);
    }
    int legal = text != NULL && topichub_check(text, length, &line) == TOPICHUB_LEGAL && line > VALUES;
    free(text);
    topichub_trace_free(trace);
    return legal;
}

static void close_hub(struct hub *hub) {
    topichub_trace values = TOPICHUB_TRACE_NONE, newest = TOPICHUB_TRACE_NONE;
    EXPECT(topichub_broadcast_cut(&hub->values, &values) == TOPICHUB_DONE);
    EXPECT(topichub_watch_cut(&hub->newest, &newest) == TOPICHUB_DONE);
    EXPECT(is_legal(&values));
    EXPECT(is_legal(&newest));
    topichub_broadcast_free(&hub->values);
    topichub_watch_free(&hub->newest);
    pthread_mutex_destroy(&hub->lock);
    pthread_cond_destroy(&hub->news);
}

/* One sender, and receivers and a reader, over hubs that run at the same time. */
int main(void) {
    static struct hub hubs[CHANNELS];
    static struct part parts[CHANNELS][RECEIVERS + 2];
    pthread_t threads[CHANNELS][RECEIVERS + 2];
    for (int h = 0; h < CHANNELS; h++) {
        open_hub(&hubs[h]);
        for (int k = 0; k < RECEIVERS + 2; k++)
            parts[h][k].hub = &hubs[h];
        for (int k = 0; k < RECEIVERS; k++)
            parts[h][k].handle = topichub_broadcast_subscribe(&hubs[h].values, 1).number;
        parts[h][RECEIVERS].handle = topichub_watch_subscribe(&hubs[h].newest, 1).number;
        parts[h][RECEIVERS + 1].handle = 1;
    }
    for (int h = 0; h < CHANNELS; h++)
        for (int k = 0; k < RECEIVERS + 2; k++)
            pthread_create(&threads[h][k], NULL, k < RECEIVERS ? receive_all : k == RECEIVERS ? read_all : send_all, &parts[h][k]);
    for (int h = 0; h < CHANNELS; h++)
        for (int k = 0; k < RECEIVERS + 2; k++) {
            pthread_join(threads[h][k], NULL);
            EXPECT(parts[h][k].is_right);
        }
    for (int h = 0; h < CHANNELS; h++)
        close_hub(&hubs[h]);
    return ended("threads");
}
