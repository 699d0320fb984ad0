/* A blocking watch channel in one thread: its answers beside the examples of Tokio's documentation, when values are freed,
 * its limits, and its descriptor. */
#define _POSIX_C_SOURCE 200809L
#include "blocking.h"

#include <errno.h>
#include <fcntl.h>

static topichub_watch_sender *tx;
static topichub_watch_receiver *rx;

static void open_channel(uint64_t first) {
    EXPECT(topichub_watch_open(&tx, &rx, number(first), 8, free_number) == TOPICHUB_DONE);
}

static void close_channel(void) {
    topichub_watch_sender_close(tx);
    topichub_watch_receiver_close(rx);
    EXPECT(numbers_live() == 0);
}

static uint32_t send_it(uint64_t it) {
    uint64_t *data = number(it);
    uint32_t status = topichub_watch_sender_send(tx, data, 8, free_number);
    if (status != TOPICHUB_DONE)
        free_number(data);
    return status;
}

static int shows(topichub_watch_receiver *receiver, uint32_t status, uint64_t it) {
    topichub_value *value;
    return topichub_watch_receiver_borrow(receiver, &value) == status && taken(value) == it;
}

static int takes(topichub_watch_receiver *receiver, uint32_t status, uint64_t it) {
    topichub_value *value;
    return topichub_watch_receiver_take(receiver, &value) == status && taken(value) == it;
}

/* ---- Tokio's examples (1.x, sync::watch) */

/* `Receiver::has_changed`. */
static void has_changed(void) {
    open_channel(1);
    EXPECT(topichub_watch_receiver_has_changed(rx) == TOPICHUB_NO);
    EXPECT(send_it(2) == TOPICHUB_DONE);
    EXPECT(topichub_watch_receiver_has_changed(rx) == TOPICHUB_YES);
    EXPECT(takes(rx, TOPICHUB_NEW, 2));
    EXPECT(topichub_watch_receiver_has_changed(rx) == TOPICHUB_NO);
    topichub_watch_sender_close(tx);
    EXPECT(topichub_watch_receiver_has_changed(rx) == TOPICHUB_CLOSED);
    tx = NULL;
    close_channel();
}

/* The module, "Change notifications": an unseen value comes before the end, and the last one can be borrowed after it. */
static void changes(void) {
    topichub_value *value;
    EXPECT(topichub_watch_open_bytes(&tx, &rx, "hello", 5) == TOPICHUB_DONE);
    EXPECT(topichub_watch_receiver_try_changed(rx) == TOPICHUB_NOT_YET);
    EXPECT(topichub_watch_receiver_changed_for(rx, 0) == TOPICHUB_TIMED_OUT);
    EXPECT(topichub_watch_sender_send_bytes(tx, "world", 5) == TOPICHUB_DONE);
    EXPECT(topichub_watch_sender_send_bytes(tx, "again", 5) == TOPICHUB_DONE);
    EXPECT(topichub_watch_receiver_changed(rx) == TOPICHUB_MARKED);
    EXPECT(topichub_watch_receiver_try_changed(rx) == TOPICHUB_NOT_YET);
    EXPECT(topichub_watch_sender_send_bytes(tx, "again", 5) == TOPICHUB_DONE);
    topichub_watch_sender_close(tx);
    EXPECT(topichub_watch_receiver_changed_for(rx, UINT64_MAX) == TOPICHUB_MARKED);
    EXPECT(topichub_watch_receiver_changed(rx) == TOPICHUB_CLOSED);
    EXPECT(topichub_watch_receiver_try_changed(rx) == TOPICHUB_CLOSED);
    EXPECT(topichub_watch_receiver_borrow(rx, &value) == TOPICHUB_SAME);
    EXPECT(topichub_value_size(value) == 5 && memcmp(topichub_value_data(value), "again", 5) == 0);
    topichub_value_release(value);
    tx = NULL;
    close_channel();
}

/* `Receiver::borrow` leaves it unseen, `borrow_and_update` does not. */
static void looking(void) {
    topichub_value *value;
    open_channel(1);
    EXPECT(shows(rx, TOPICHUB_SAME, 1));
    send_it(2);
    EXPECT(shows(rx, TOPICHUB_NEW, 2) && shows(rx, TOPICHUB_NEW, 2));
    EXPECT(takes(rx, TOPICHUB_NEW, 2) && takes(rx, TOPICHUB_SAME, 2));
    value = topichub_watch_sender_borrow(tx);
    EXPECT(taken(value) == 2);
    close_channel();
}

/* `Sender::send_replace`. */
static void replacing(void) {
    topichub_value *two, *three, *before;
    open_channel(1);
    EXPECT(topichub_value_new(&two, number(2), 8, free_number) == TOPICHUB_DONE);
    EXPECT(topichub_value_new(&three, number(3), 8, free_number) == TOPICHUB_DONE);
    topichub_watch_receiver_close(rx);
    EXPECT(topichub_watch_sender_replace(tx, two, &before) == TOPICHUB_WAS && taken(before) == 1);
    EXPECT(topichub_watch_sender_replace(tx, three, NULL) == TOPICHUB_WAS);
    EXPECT(numbers_live() == 2 && taken(two) == 2 && numbers_live() == 1);
    topichub_value_release(three);
    EXPECT(topichub_watch_sender_subscribe(tx, &rx) == TOPICHUB_DONE && shows(rx, TOPICHUB_SAME, 3));
    close_channel();
}

/* `Sender::send` fails without receivers; `Sender::subscribe` works without them, and the value counts as seen. */
static void subscribing(void) {
    topichub_value *value;
    open_channel(1);
    topichub_watch_receiver_close(rx);
    EXPECT(topichub_watch_sender_receivers(tx) == 0);
    EXPECT(send_it(2) == TOPICHUB_NO_RECEIVERS);
    EXPECT(topichub_watch_sender_send_bytes(tx, "2", 1) == TOPICHUB_NO_RECEIVERS);
    EXPECT(topichub_value_new_bytes(&value, "2", 1) == TOPICHUB_DONE);
    EXPECT(topichub_watch_sender_send_value(tx, value) == TOPICHUB_NO_RECEIVERS);
    topichub_value_release(value);
    EXPECT(topichub_watch_sender_subscribe(tx, &rx) == TOPICHUB_DONE);
    EXPECT(shows(rx, TOPICHUB_SAME, 1));
    EXPECT(send_it(5) == TOPICHUB_DONE && shows(rx, TOPICHUB_NEW, 5));
    close_channel();
}

/* `Sender::receiver_count`, and a clone of a receiver, to which the value is as it is to the first. */
static void cloning(void) {
    topichub_watch_receiver *seen, *unseen;
    topichub_watch_sender *other;
    open_channel(1);
    EXPECT(topichub_watch_sender_receivers(tx) == 1);
    EXPECT(topichub_watch_receiver_clone(rx, &seen) == TOPICHUB_DONE);
    EXPECT(topichub_watch_sender_receivers(tx) == 2);
    send_it(2);
    EXPECT(topichub_watch_receiver_clone(rx, &unseen) == TOPICHUB_DONE);
    EXPECT(topichub_watch_receiver_changed(seen) == TOPICHUB_MARKED);
    EXPECT(topichub_watch_receiver_has_changed(seen) == TOPICHUB_NO);
    EXPECT(topichub_watch_receiver_has_changed(unseen) == TOPICHUB_YES);
    EXPECT(topichub_watch_sender_clone(tx, &other) == TOPICHUB_DONE);
    EXPECT(topichub_watch_sender_senders(tx) == 2 && topichub_watch_receiver_senders(rx) == 2);
    topichub_watch_sender_close(tx);
    EXPECT(topichub_watch_sender_senders(other) == 1);
    EXPECT(topichub_watch_receiver_has_changed(seen) == TOPICHUB_NO);
    topichub_watch_sender_close(other);
    EXPECT(topichub_watch_receiver_senders(rx) == 0);
    topichub_watch_receiver_close(seen);
    topichub_watch_receiver_close(unseen);
    tx = NULL;
    close_channel();
}

/* `Receiver::mark_changed` and `mark_unchanged`. */
static void marking(void) {
    open_channel(1);
    topichub_watch_receiver_mark_changed(rx);
    EXPECT(topichub_watch_receiver_has_changed(rx) == TOPICHUB_YES);
    EXPECT(topichub_watch_receiver_changed(rx) == TOPICHUB_MARKED);
    send_it(2);
    topichub_watch_receiver_mark_unchanged(rx);
    EXPECT(topichub_watch_receiver_has_changed(rx) == TOPICHUB_NO);
    EXPECT(topichub_watch_receiver_try_changed(rx) == TOPICHUB_NOT_YET);
    close_channel();
}

/* ---- values, limits, the descriptor */

static void freeing(void) {
    topichub_value *value;
    open_channel(1);
    EXPECT(numbers_live() == 1);
    EXPECT(topichub_watch_receiver_borrow(rx, &value) == TOPICHUB_SAME);
    send_it(2);
    EXPECT(numbers_live() == 2 && taken(value) == 1 && numbers_live() == 1);
    send_it(3);
    EXPECT(numbers_live() == 1);
    close_channel();
    EXPECT(topichub_value_new(&value, number(4), 8, free_number) == TOPICHUB_DONE);
    EXPECT(topichub_watch_open_value(&tx, NULL, value) == TOPICHUB_DONE);
    topichub_value_release(value);
    EXPECT(numbers_live() == 1);
    rx = NULL;
    close_channel();
    topichub_watch_sender_close(NULL);
    topichub_watch_receiver_close(NULL);
}

static void handles(void) {
    enum { MOST = 65535 };
    static topichub_watch_sender *senders[MOST];
    static topichub_watch_receiver *receivers[MOST];
    uint32_t status = 0;
    open_channel(1);
    for (int it = 1; it < MOST; it++) {
        status |= topichub_watch_sender_clone(tx, &senders[it]);
        status |= it % 2 ? topichub_watch_sender_subscribe(tx, &receivers[it]) : topichub_watch_receiver_clone(rx, &receivers[it]);
    }
    EXPECT(status == TOPICHUB_DONE);
    EXPECT(topichub_watch_sender_clone(tx, &senders[0]) == TOPICHUB_TOO_MANY && senders[0] == NULL);
    EXPECT(topichub_watch_sender_subscribe(tx, &receivers[0]) == TOPICHUB_TOO_MANY && receivers[0] == NULL);
    EXPECT(topichub_watch_receiver_clone(rx, &receivers[0]) == TOPICHUB_TOO_MANY && receivers[0] == NULL);
    for (int it = 1; it < MOST; it++) {
        topichub_watch_sender_close(senders[it]);
        topichub_watch_receiver_close(receivers[it]);
    }
    close_channel();
}

static void descriptor(void) {
    topichub_watch_receiver *clone;
    int fd, again;
    open_channel(1);
    EXPECT(topichub_watch_receiver_fd(rx, &fd) == TOPICHUB_DONE && !is_readable(fd));
    EXPECT(topichub_watch_receiver_fd(rx, &again) == TOPICHUB_DONE && again == fd);
    send_it(2);
    send_it(3);
    EXPECT(is_readable(fd) && shows(rx, TOPICHUB_NEW, 3) && is_readable(fd));
    EXPECT(topichub_watch_receiver_clone(rx, &clone) == TOPICHUB_DONE);
    EXPECT(topichub_watch_receiver_fd(clone, &again) == TOPICHUB_DONE && again != fd && is_readable(again));
    EXPECT(topichub_watch_receiver_changed(rx) == TOPICHUB_MARKED && !is_readable(fd) && is_readable(again));
    EXPECT(takes(clone, TOPICHUB_NEW, 3) && !is_readable(again));
    topichub_watch_receiver_mark_changed(rx);
    EXPECT(is_readable(fd) && !is_readable(again));
    topichub_watch_receiver_mark_unchanged(rx);
    EXPECT(!is_readable(fd));
    topichub_watch_receiver_close(clone);
    topichub_watch_sender_close(tx);
    EXPECT(is_readable(fd) && topichub_watch_receiver_try_changed(rx) == TOPICHUB_CLOSED && is_readable(fd));
    topichub_watch_receiver_close(rx);
    EXPECT(fcntl(fd, F_GETFD) == -1 && errno == EBADF);
    EXPECT(numbers_live() == 0);
}

int main(void) {
    begin_watchdog();
    has_changed();
    changes();
    looking();
    replacing();
    subscribing();
    cloning();
    marking();
    freeing();
    handles();
    descriptor();
    return ended("blocking_watch");
}
