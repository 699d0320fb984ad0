/* Each request for memory of a run is refused in turn. Then one call comes to TOPICHUB_NO_MEMORY and has changed nothing: it is made again,
 * and the run goes on as with ample memory. Linked with --wrap=malloc and --wrap=realloc. */
#include <string.h>

#include "tests.h"

void *__real_malloc(size_t size);
void *__real_realloc(void *old, size_t size);
void *__wrap_malloc(size_t size);
void *__wrap_realloc(void *old, size_t size);

/* How many requests there were, and the number of the one that is refused, from 1 on; 0 for none. */
static long requests, refused;

static int is_refused(void) {
    return ++requests == refused;
}

void *__wrap_malloc(size_t size) {
    return is_refused() ? NULL : __real_malloc(size);
}

void *__wrap_realloc(void *old, size_t size) {
    return is_refused() ? NULL : __real_realloc(old, size);
}

/* How many calls of this run were refused memory. */
static int short_calls;

/* The call's reply, where it is made a second time if memory was refused. */
#define AGAIN(told, call)                                                                                                                     \
    do {                                                                                                                                      \
        (told) = (call);                                                                                                                      \
        if ((told).status == TOPICHUB_NO_MEMORY) {                                                                                            \
            short_calls++;                                                                                                                    \
            EXPECT((told).let_go == 0 && (told).number == 0);                                                                                 \
            (told) = (call);                                                                                                                  \
        }                                                                                                                                     \
    } while (0)

#define MADE_AGAIN(status, call)                                                                                                              \
    do {                                                                                                                                      \
        (status) = (call);                                                                                                                    \
        if ((status) == TOPICHUB_NO_MEMORY) {                                                                                                 \
            short_calls++;                                                                                                                    \
            (status) = (call);                                                                                                                \
        }                                                                                                                                     \
    } while (0)

static void broadcast(void) {
    topichub_broadcast news = TOPICHUB_BROADCAST_NONE;
    topichub_reply told;
    uint32_t status;
    MADE_AGAIN(status, topichub_broadcast_new(&news, 4, 0));
    EXPECT(status == TOPICHUB_DONE);
    for (uint64_t number = 2; number < 40; number++) {
        AGAIN(told, topichub_broadcast_subscribe(&news, 1));
        EXPECT(told.status == TOPICHUB_NEW_RX && told.number == number);
    }
    for (uint64_t number = 40; number < 60; number++) {
        AGAIN(told, topichub_broadcast_clone_tx(&news, 1));
        EXPECT(told.status == TOPICHUB_NEW_TX && told.number == number);
    }
    for (uint64_t value = 0; value < 6; value++) {
        AGAIN(told, topichub_broadcast_send(&news, 1, value));
        EXPECT(told.status == TOPICHUB_SENT && told.number == 38 && told.let_go == (value >= 4));
    }
    AGAIN(told, topichub_broadcast_try_recv(&news, 2));
    EXPECT(told.status == TOPICHUB_LAGGED && told.number == 2);
    AGAIN(told, topichub_broadcast_try_recv(&news, 2));
    EXPECT(told.status == TOPICHUB_VALUE && told.number == 2);
    for (uint64_t number = 2; number < 40; number++)
        EXPECT(topichub_broadcast_drop_rx(&news, number).status == TOPICHUB_DONE);
    for (uint64_t number = 40; number < 60; number++)
        EXPECT(topichub_broadcast_drop_tx(&news, number).status == TOPICHUB_DONE);
    topichub_broadcast_free(&news);
}

static void watch(void) {
    topichub_watch light = TOPICHUB_WATCH_NONE;
    topichub_reply told;
    uint32_t status;
    MADE_AGAIN(status, topichub_watch_new(&light, 7, 1));
    EXPECT(status == TOPICHUB_DONE);
    for (uint64_t number = 2; number < 40; number++) {
        AGAIN(told, topichub_watch_subscribe(&light, 1));
        EXPECT(told.status == TOPICHUB_NEW_RX && told.number == number);
    }
    AGAIN(told, topichub_watch_clone_rx(&light, 2));
    EXPECT(told.status == TOPICHUB_NEW_RX && told.number == 40);
    AGAIN(told, topichub_watch_clone_tx(&light, 1));
    EXPECT(told.status == TOPICHUB_NEW_TX && told.number == 41);
    AGAIN(told, topichub_watch_replace(&light, 41, 8));
    EXPECT(told.status == TOPICHUB_WAS && told.number == 7);
    AGAIN(told, topichub_watch_take(&light, 2));
    EXPECT(told.status == TOPICHUB_NEW && told.number == 8);
    for (uint64_t number = 2; number <= 40; number++)
        EXPECT(topichub_watch_drop_rx(&light, number).status == TOPICHUB_DONE);
    topichub_watch_free(&light);
}

/* A history, its trace, and the check of it. */
static void recorded(void) {
    topichub_broadcast news = TOPICHUB_BROADCAST_NONE;
    topichub_watch light = TOPICHUB_WATCH_NONE;
    topichub_trace trace = TOPICHUB_TRACE_NONE;
    topichub_reply told;
    uint32_t status;
    uint8_t text[600];
    uint64_t length, line;
    MADE_AGAIN(status, topichub_broadcast_new_recorded(&news, 2, 0, 100));
    EXPECT(status == TOPICHUB_DONE);
    AGAIN(told, topichub_broadcast_subscribe(&news, 1));
    EXPECT(told.status == TOPICHUB_NEW_RX);
    for (uint64_t value = 0; value < 3; value++) {
        AGAIN(told, topichub_broadcast_send(&news, 1, value));
        EXPECT(told.status == TOPICHUB_SENT);
    }
    AGAIN(told, topichub_broadcast_recv(&news, 2));
    EXPECT(told.status == TOPICHUB_LAGGED);
    MADE_AGAIN(status, topichub_broadcast_cut(&news, &trace));
    EXPECT(status == TOPICHUB_DONE);
    MADE_AGAIN(status, topichub_trace_read(&trace, text, sizeof text, &length));
    EXPECT(status == TOPICHUB_DONE);
    MADE_AGAIN(status, topichub_check(text, length, &line));
    EXPECT(status == TOPICHUB_LEGAL && line == 5);
    topichub_trace_free(&trace);
    EXPECT(topichub_broadcast_drop_rx(&news, 2).status == TOPICHUB_DONE);
    EXPECT(topichub_broadcast_drop_tx(&news, 1).status == TOPICHUB_DONE);
    topichub_broadcast_free(&news);

    MADE_AGAIN(status, topichub_watch_new_recorded(&light, 7, 1, 100));
    EXPECT(status == TOPICHUB_DONE);
    AGAIN(told, topichub_watch_subscribe(&light, 1));
    EXPECT(told.status == TOPICHUB_NEW_RX);
    AGAIN(told, topichub_watch_send(&light, 1, 8));
    EXPECT(told.status == TOPICHUB_DONE && told.let_go == 1);
    MADE_AGAIN(status, topichub_watch_cut(&light, &trace));
    EXPECT(status == TOPICHUB_DONE);
    MADE_AGAIN(status, topichub_trace_read(&trace, text, sizeof text, &length));
    EXPECT(status == TOPICHUB_DONE);
    MADE_AGAIN(status, topichub_check(text, length, &line));
    EXPECT(status == TOPICHUB_LEGAL && line == 2);
    topichub_trace_free(&trace);
    topichub_watch_free(&light);
}

/* A history of bytes: here the value itself takes memory, with a send and with a receive. */
static void bytes(void) {
    topichub_broadcast news = TOPICHUB_BROADCAST_NONE;
    topichub_trace trace = TOPICHUB_TRACE_NONE;
    topichub_reply told;
    uint32_t status;
    uint8_t value[TOPICHUB_MOST_BYTES], buffer[TOPICHUB_MOST_BYTES], text[2 * TOPICHUB_MOST_BYTES + 200];
    uint64_t length, line;
    memset(value, 'v', sizeof value);
    MADE_AGAIN(status, topichub_broadcast_new_of_bytes_recorded(&news, 2, 0, 100));
    EXPECT(status == TOPICHUB_DONE);
    AGAIN(told, topichub_broadcast_subscribe(&news, 1));
    EXPECT(told.status == TOPICHUB_NEW_RX);
    AGAIN(told, topichub_broadcast_send_bytes(&news, 1, value, sizeof value));
    EXPECT(told.status == TOPICHUB_SENT);
    AGAIN(told, topichub_broadcast_recv_bytes(&news, 2, buffer, sizeof buffer));
    EXPECT(told.status == TOPICHUB_VALUE && told.number == sizeof value && memcmp(buffer, value, sizeof value) == 0);
    MADE_AGAIN(status, topichub_broadcast_cut(&news, &trace));
    EXPECT(status == TOPICHUB_DONE);
    MADE_AGAIN(status, topichub_trace_read(&trace, text, sizeof text, &length));
    EXPECT(status == TOPICHUB_DONE);
    MADE_AGAIN(status, topichub_check(text, length, &line));
    EXPECT(status == TOPICHUB_LEGAL && line == 3);
    topichub_trace_free(&trace);
    topichub_broadcast_free(&news);
}

static void watch_bytes(void) {
    topichub_watch light = TOPICHUB_WATCH_NONE;
    topichub_trace trace = TOPICHUB_TRACE_NONE;
    topichub_reply told;
    uint32_t status;
    uint8_t value[TOPICHUB_MOST_BYTES], buffer[TOPICHUB_MOST_BYTES], text[3 * TOPICHUB_MOST_BYTES + 200];
    uint64_t length, line;
    memset(value, 'v', sizeof value);
    MADE_AGAIN(status, topichub_watch_new_of_bytes_recorded(&light, (const uint8_t *)"off", 3, 1, 100));
    EXPECT(status == TOPICHUB_DONE);
    AGAIN(told, topichub_watch_subscribe(&light, 1));
    EXPECT(told.status == TOPICHUB_NEW_RX);
    AGAIN(told, topichub_watch_replace_bytes(&light, 1, value, sizeof value, buffer, sizeof buffer));
    EXPECT(told.status == TOPICHUB_WAS && told.number == 3 && memcmp(buffer, "off", 3) == 0);
    AGAIN(told, topichub_watch_take_bytes(&light, 2, buffer, sizeof buffer));
    EXPECT(told.status == TOPICHUB_NEW && told.number == sizeof value && memcmp(buffer, value, sizeof value) == 0);
    AGAIN(told, topichub_watch_set_bytes(&light, 1, value, 1));
    EXPECT(told.status == TOPICHUB_YES && told.let_go == 1);
    MADE_AGAIN(status, topichub_watch_cut(&light, &trace));
    EXPECT(status == TOPICHUB_DONE);
    MADE_AGAIN(status, topichub_trace_read(&trace, text, sizeof text, &length));
    EXPECT(status == TOPICHUB_DONE);
    MADE_AGAIN(status, topichub_check(text, length, &line));
    EXPECT(status == TOPICHUB_LEGAL && line == 4);
    topichub_trace_free(&trace);
    topichub_watch_free(&light);
}

/* Runs it with each request refused in turn, until it makes fewer. */
static void refuse_each(void (*run)(void), const char *name) {
    long number = 0, calls = 0;
    do {
        refused = ++number;
        requests = 0;
        short_calls = 0;
        run();
        EXPECT(short_calls <= 1);
        calls += short_calls;
    } while (requests >= refused);
    refused = 0;
    printf("%s: %ld requests for memory, each refused in turn; %ld calls were refused it\n", name, number - 1, calls);
    EXPECT(calls > 0);
}

int main(void) {
    refuse_each(broadcast, "broadcast");
    refuse_each(watch, "watch");
    refuse_each(recorded, "recorded");
    refuse_each(bytes, "bytes");
    refuse_each(watch_bytes, "watch_bytes");
    return ended("refused");
}
