/* The calls of topichub_threads.h with each request for memory refused in turn: such a call says so, leaves everything as it
 * was, and can be made again. Linked with -Wl,--wrap=malloc,--wrap=calloc,--wrap=realloc. */
#define _POSIX_C_SOURCE 200809L
#include "blocking.h"

void *__real_malloc(size_t size);
void *__real_calloc(size_t count, size_t size);
void *__real_realloc(void *old, size_t size);
void *__wrap_malloc(size_t size);
void *__wrap_calloc(size_t count, size_t size);
void *__wrap_realloc(void *old, size_t size);

/* The number of the request that is refused, and how many were made; 0 refuses none. */
static long refused, requests;

static int is_refused(void) {
    return refused != 0 && ++requests == refused;
}

void *__wrap_malloc(size_t size) {
    return is_refused() ? NULL : __real_malloc(size);
}

void *__wrap_calloc(size_t count, size_t size) {
    return is_refused() ? NULL : __real_calloc(count, size);
}

void *__wrap_realloc(void *old, size_t size) {
    return is_refused() ? NULL : __real_realloc(old, size);
}

/* How many calls of this run were refused memory. */
static int short_calls;

/* The status of a call, which is made a second time if memory was refused; then nothing had changed. */
#define AGAIN(status, call, is_as_before)                                                                              \
    do {                                                                                                               \
        (status) = (call);                                                                                             \
        if ((status) == TOPICHUB_NO_MEMORY) {                                                                          \
            short_calls++;                                                                                             \
            EXPECT(is_as_before);                                                                                      \
            (status) = (call);                                                                                         \
        }                                                                                                              \
    } while (0)

/* The test's own data is not refused. */
static uint64_t data[] = {1, 2, 3, 4};

static void count_it(void *it) {
    (void)it;
    atomic_fetch_add(&numbers_freed, 1);
}

static void broadcast(void) {
    topichub_broadcast_sender *tx, *other = NULL;
    topichub_broadcast_receiver *rx, *second = NULL, *third = NULL;
    topichub_value *value;
    uint32_t status;
    numbers_freed = 0;
    AGAIN(status, topichub_broadcast_open(&tx, &rx, 4), tx == NULL && rx == NULL);
    EXPECT(status == TOPICHUB_DONE);
    AGAIN(status, topichub_broadcast_sender_clone(tx, &other),
          other == NULL && topichub_broadcast_sender_senders(tx) == 1);
    EXPECT(status == TOPICHUB_DONE && topichub_broadcast_sender_senders(tx) == 2);
    AGAIN(status, topichub_broadcast_sender_subscribe(tx, &second),
          second == NULL && topichub_broadcast_sender_receivers(tx) == 1);
    EXPECT(status == TOPICHUB_DONE && topichub_broadcast_sender_receivers(tx) == 2);
    AGAIN(status, topichub_broadcast_receiver_resubscribe(rx, &third),
          third == NULL && topichub_broadcast_sender_receivers(tx) == 2);
    EXPECT(status == TOPICHUB_DONE && topichub_broadcast_sender_receivers(tx) == 3);
    AGAIN(status, topichub_broadcast_sender_send(tx, &data[0], 8, count_it).status,
          numbers_freed == 0 && topichub_broadcast_sender_queued(tx) == 0);
    EXPECT(status == TOPICHUB_SENT);
    AGAIN(status, topichub_broadcast_sender_send_bytes(other, "bytes", 5).status, topichub_broadcast_sender_queued(tx) == 1);
    EXPECT(status == TOPICHUB_SENT && topichub_broadcast_receiver_left(rx) == 2);
    /* From here on no call is refused memory, also where a value has other receivers. */
    long before = requests;
    EXPECT(topichub_broadcast_receiver_recv(rx, &value).status == TOPICHUB_VALUE && topichub_value_data(value) == &data[0]);
    topichub_value_release(value);
    EXPECT(topichub_broadcast_receiver_try_recv(rx, &value).status == TOPICHUB_VALUE && topichub_value_size(value) == 5);
    EXPECT(topichub_broadcast_sender_send_value(tx, value).status == TOPICHUB_SENT);
    topichub_value_release(value);
    topichub_broadcast_receiver_close(second);
    topichub_broadcast_receiver_close(third);
    EXPECT(numbers_freed == 1);
    topichub_broadcast_sender_close(tx);
    topichub_broadcast_sender_close(other);
    topichub_broadcast_receiver_close(rx);
    EXPECT(requests == before);
}

static void watch(void) {
    topichub_watch_sender *tx, *other = NULL;
    topichub_watch_receiver *rx, *second = NULL, *third = NULL;
    topichub_value *value;
    uint32_t status;
    numbers_freed = 0;
    AGAIN(status, topichub_watch_open(&tx, &rx, &data[0], 8, count_it), tx == NULL && rx == NULL && numbers_freed == 0);
    EXPECT(status == TOPICHUB_DONE);
    AGAIN(status, topichub_watch_sender_clone(tx, &other), other == NULL && topichub_watch_sender_senders(tx) == 1);
    EXPECT(status == TOPICHUB_DONE && topichub_watch_sender_senders(tx) == 2);
    AGAIN(status, topichub_watch_sender_subscribe(tx, &second), second == NULL && topichub_watch_sender_receivers(tx) == 1);
    EXPECT(status == TOPICHUB_DONE && topichub_watch_sender_receivers(tx) == 2);
    AGAIN(status, topichub_watch_receiver_clone(rx, &third), third == NULL && topichub_watch_sender_receivers(tx) == 2);
    EXPECT(status == TOPICHUB_DONE && topichub_watch_sender_receivers(tx) == 3);
    AGAIN(status, topichub_watch_sender_send(tx, &data[1], 8, count_it),
          numbers_freed == 0 && topichub_watch_receiver_has_changed(rx) == TOPICHUB_NO);
    EXPECT(status == TOPICHUB_DONE && numbers_freed == 1);
    AGAIN(status, topichub_watch_sender_send_bytes(tx, "bytes", 5), numbers_freed == 1);
    EXPECT(status == TOPICHUB_DONE && numbers_freed == 2);
    AGAIN(status, topichub_value_new(&value, &data[2], 8, count_it), value == NULL);
    EXPECT(status == TOPICHUB_DONE);
    long before = requests;
    EXPECT(topichub_watch_sender_replace(other, value, NULL) == TOPICHUB_WAS);
    topichub_value_release(value);
    EXPECT(topichub_watch_receiver_take(second, &value) == TOPICHUB_NEW && topichub_value_data(value) == &data[2]);
    topichub_value_release(value);
    topichub_watch_receiver_close(third);
    topichub_watch_receiver_close(second);
    topichub_watch_receiver_close(rx);
    topichub_watch_sender_close(other);
    topichub_watch_sender_close(tx);
    EXPECT(numbers_freed == 3 && requests == before);
}

static void open_bytes(void) {
    topichub_watch_sender *tx;
    topichub_watch_receiver *rx;
    uint32_t status;
    AGAIN(status, topichub_watch_open_bytes(&tx, &rx, "bytes", 5), tx == NULL && rx == NULL);
    EXPECT(status == TOPICHUB_DONE);
    topichub_watch_sender_close(tx);
    topichub_watch_receiver_close(rx);
}

/* Runs it with each request refused in turn, until it makes fewer. */
static void refuse_each(void (*run)(void), const char *name) {
    long at = 0, calls = 0;
    do {
        refused = ++at;
        requests = 0;
        short_calls = 0;
        run();
        EXPECT(short_calls <= 1);
        calls += short_calls;
    } while (requests >= refused);
    refused = 0;
    printf("%s: %ld requests for memory, each refused in turn; %ld calls were refused it\n", name, at - 1, calls);
    EXPECT(calls == at - 1);
}

int main(void) {
    begin_watchdog();
    refuse_each(broadcast, "broadcast");
    refuse_each(watch, "watch");
    refuse_each(open_bytes, "open_bytes");
    return ended("blocking_refused");
}
