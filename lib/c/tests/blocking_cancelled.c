/* A thread that is cancelled while it waits has received nothing, and leaves no lock behind. */
#define _POSIX_C_SOURCE 200809L
#include "blocking.h"

static void *receive(void *rx) {
    topichub_value *value;
    topichub_broadcast_receiver_recv(rx, &value);
    return NULL;
}

static void *watch(void *rx) {
    topichub_watch_receiver_changed_for(rx, UINT64_MAX);
    return NULL;
}

/* It is cancelled before it waits, or while it does. */
static void cancel(void *(*run)(void *), void *rx) {
    void *told;
    pthread_t thread = start(run, rx);
    EXPECT(pthread_cancel(thread) == 0 && pthread_join(thread, &told) == 0 && told == PTHREAD_CANCELED);
}

static void broadcast(void) {
    topichub_broadcast_sender *tx;
    topichub_broadcast_receiver *rx;
    topichub_value *value;
    EXPECT(topichub_broadcast_open(&tx, &rx, 1) == TOPICHUB_DONE);
    for (int it = 0; it < 50; it++)
        cancel(receive, rx);
    EXPECT(send_number(tx, 1).status == TOPICHUB_SENT);
    EXPECT(topichub_broadcast_receiver_recv(rx, &value).status == TOPICHUB_VALUE && taken(value) == 1);
    EXPECT(topichub_broadcast_receiver_recv_for(rx, &value, 1).status == TOPICHUB_TIMED_OUT);
    topichub_broadcast_sender_close(tx);
    topichub_broadcast_receiver_close(rx);
}

static void watched(void) {
    topichub_watch_sender *tx;
    topichub_watch_receiver *rx;
    EXPECT(topichub_watch_open_bytes(&tx, &rx, "1", 1) == TOPICHUB_DONE);
    for (int it = 0; it < 50; it++)
        cancel(watch, rx);
    EXPECT(topichub_watch_sender_send_bytes(tx, "2", 1) == TOPICHUB_DONE);
    EXPECT(topichub_watch_receiver_changed(rx) == TOPICHUB_MARKED);
    topichub_watch_sender_close(tx);
    topichub_watch_receiver_close(rx);
}

/* A call that does not wait goes on, whatever it asks of the system. */
static void *send_and_receive(void *given) {
    topichub_broadcast_sender *tx;
    topichub_broadcast_receiver *rx;
    topichub_value *value;
    int fd;
    pthread_cancel(pthread_self());
    long is_right = topichub_broadcast_open(&tx, &rx, 1) == TOPICHUB_DONE;
    is_right &= topichub_broadcast_receiver_fd(rx, &fd) == TOPICHUB_DONE;
    is_right &= send_number(tx, 1).status == TOPICHUB_SENT;
    is_right &= topichub_broadcast_receiver_recv(rx, &value).status == TOPICHUB_VALUE && taken(value) == 1;
    topichub_broadcast_sender_close(tx);
    topichub_broadcast_receiver_close(rx);
    *(long *)given = is_right;
    pthread_testcancel();
    return NULL;
}

int main(void) {
    long is_right = 0;
    void *told;
    begin_watchdog();
    broadcast();
    watched();
    EXPECT(pthread_join(start(send_and_receive, &is_right), &told) == 0 && told == PTHREAD_CANCELED && is_right);
    EXPECT(numbers_live() == 0);
    return ended("blocking_cancelled");
}
