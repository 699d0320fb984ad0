/* What the tests of topichub_threads.h share. */
#ifndef BLOCKING_H
#define BLOCKING_H
#include "topichub_threads.h"
#include "tests.h"

#include <poll.h>
#include <pthread.h>
#include <stdatomic.h>
#include <string.h>
#include <unistd.h>

/* A test that waits for ever is ended by a signal. */
enum { MOST_SECONDS = 300 };

static inline void begin_watchdog(void) {
    alarm(MOST_SECONDS);
}

/* Numbers as data of values: how many were made, and how many were freed. */
static atomic_long numbers_made, numbers_freed;

static inline uint64_t *number(uint64_t it) {
    uint64_t *made = malloc(sizeof *made);
    if (made != NULL) {
        *made = it;
        atomic_fetch_add(&numbers_made, 1);
    }
    return made;
}

static inline void free_number(void *data) {
    /* A second time would be seen by valgrind and by AddressSanitizer. */
    free(data);
    atomic_fetch_add(&numbers_freed, 1);
}

static inline long numbers_live(void) {
    return atomic_load(&numbers_made) - atomic_load(&numbers_freed);
}

/* The number in a value, which is let go. */
static inline uint64_t taken(topichub_value *value) {
    uint64_t it = *(uint64_t *)topichub_value_data(value);
    topichub_value_release(value);
    return it;
}

static inline topichub_reply send_number(topichub_broadcast_sender *tx, uint64_t it) {
    uint64_t *data = number(it);
    topichub_reply told = topichub_broadcast_sender_send(tx, data, sizeof *data, free_number);
    if (told.status != TOPICHUB_SENT)
        free_number(data);
    return told;
}

/* What a receive answered, as one text: "10", "lagged 1", or the status. */
static inline const char *said(topichub_reply told, topichub_value *value) {
    static char text[100];
    if (told.status == TOPICHUB_VALUE)
        snprintf(text, sizeof text, "%llu", (unsigned long long)taken(value));
    else if (told.status == TOPICHUB_LAGGED)
        snprintf(text, sizeof text, "lagged %llu", (unsigned long long)told.number);
    else
        snprintf(text, sizeof text, "%s", topichub_status_text(told.status));
    if (told.status != TOPICHUB_VALUE && value != NULL)
        snprintf(text, sizeof text, "a value with the status %u", told.status);
    return told.let_go == 0 ? text : "let_go is not 0";
}

static inline const char *next(topichub_broadcast_receiver *rx) {
    topichub_value *value;
    topichub_reply told = topichub_broadcast_receiver_try_recv(rx, &value);
    return said(told, value);
}

static inline int is_same(const char *one, const char *other) {
    return strcmp(one, other) == 0;
}

#define EMPTY "there is no value yet"
#define CLOSED "no sender is left, and there is nothing more to receive"
#define SAYS(call, text) expect_said((call), (text), #call, __LINE__)

static inline void expect_said(const char *told, const char *due, const char *what, int line) {
    if (is_same(told, due)) {
        passed++;
        return;
    }
    failed++;
    fprintf(stderr, "line %d: %s: '%s' in place of '%s'\n", line, what, told, due);
}

static inline pthread_t start(void *(*run)(void *), void *given) {
    pthread_t thread;
    if (pthread_create(&thread, NULL, run, given) != 0) {
        perror("pthread_create");
        exit(1);
    }
    return thread;
}

static inline int joined_well(pthread_t thread) {
    void *told;
    return pthread_join(thread, &told) == 0 && told == NULL;
}

static inline int is_readable(int fd) {
    struct pollfd asked = {.fd = fd, .events = POLLIN};
    return poll(&asked, 1, 0) == 1 && asked.revents == POLLIN;
}

#endif
