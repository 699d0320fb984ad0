/* A blocking broadcast channel in one thread: its answers beside the examples of Tokio's documentation, when values are
 * freed, its limits, and its descriptor. */
#define _POSIX_C_SOURCE 200809L
#include "blocking.h"

#include <errno.h>
#include <fcntl.h>
#include <sys/resource.h>
#include <time.h>

static topichub_broadcast_sender *tx;
static topichub_broadcast_receiver *rx;

static void open_channel(uint64_t capacity) {
    EXPECT(topichub_broadcast_open(&tx, &rx, capacity) == TOPICHUB_DONE);
}

static void close_channel(void) {
    topichub_broadcast_sender_close(tx);
    topichub_broadcast_receiver_close(rx);
    EXPECT(numbers_live() == 0);
}

/* ---- Tokio's examples (1.x, sync::broadcast) */

/* The module: "each sent value is seen by all consumers". */
static void basic_usage(void) {
    topichub_broadcast_receiver *second;
    open_channel(16);
    EXPECT(topichub_broadcast_sender_subscribe(tx, &second) == TOPICHUB_DONE);
    TELLS(send_number(tx, 10), SENT, 0, 2);
    TELLS(send_number(tx, 20), SENT, 0, 2);
    SAYS(next(rx), "10");
    SAYS(next(rx), "20");
    SAYS(next(second), "10");
    SAYS(next(second), "20");
    topichub_broadcast_receiver_close(second);
    close_channel();
}

/* The module, "Lagging". */
static void lagging(void) {
    open_channel(2);
    send_number(tx, 10);
    send_number(tx, 20);
    send_number(tx, 30);
    SAYS(next(rx), "lagged 1");
    SAYS(next(rx), "20");
    SAYS(next(rx), "30");
    SAYS(next(rx), EMPTY);
    close_channel();
}

/* The module, "Closing": what was sent is received first. */
static void closing(void) {
    topichub_broadcast_sender *clone;
    open_channel(16);
    send_number(tx, 10);
    EXPECT(topichub_broadcast_sender_clone(tx, &clone) == TOPICHUB_DONE);
    topichub_broadcast_sender_close(tx);
    send_number(clone, 20);
    topichub_broadcast_sender_close(clone);
    SAYS(next(rx), "10");
    SAYS(next(rx), "20");
    SAYS(next(rx), CLOSED);
    SAYS(next(rx), CLOSED);
    tx = NULL;
    close_channel();
}

/* `Sender::send`: it fails only without receivers, and a later one may succeed. */
static void sending(void) {
    open_channel(16);
    topichub_broadcast_receiver_close(rx);
    TELLS(send_number(tx, 1), NO_RECEIVERS, 0, 0);
    TELLS(topichub_broadcast_sender_send_bytes(tx, "1", 1), NO_RECEIVERS, 0, 0);
    EXPECT(topichub_broadcast_sender_subscribe(tx, &rx) == TOPICHUB_DONE);
    TELLS(send_number(tx, 2), SENT, 0, 1);
    SAYS(next(rx), "2");
    close_channel();
}

/* `Sender::subscribe`, `Receiver::resubscribe`, and the call that Tokio does not have. */
static void subscribing(void) {
    topichub_broadcast_receiver *late, *oldest;
    open_channel(2);
    send_number(tx, 1);
    EXPECT(topichub_broadcast_receiver_resubscribe(rx, &late) == TOPICHUB_DONE);
    EXPECT(topichub_broadcast_sender_subscribe_oldest(tx, &oldest) == TOPICHUB_DONE);
    send_number(tx, 2);
    SAYS(next(late), "2");
    SAYS(next(rx), "1");
    SAYS(next(oldest), "1");
    SAYS(next(oldest), "2");
    topichub_broadcast_receiver_close(late);
    topichub_broadcast_receiver_close(oldest);
    close_channel();
}

/* `Sender::len`, `Receiver::len`, `Sender::receiver_count`, `Sender::strong_count`, `Receiver::sender_strong_count`. */
static void counting(void) {
    topichub_broadcast_receiver *second;
    topichub_broadcast_sender *clone;
    open_channel(16);
    EXPECT(topichub_broadcast_sender_receivers(tx) == 1);
    EXPECT(topichub_broadcast_sender_subscribe(tx, &second) == TOPICHUB_DONE);
    EXPECT(topichub_broadcast_sender_receivers(tx) == 2);
    send_number(tx, 10);
    send_number(tx, 20);
    send_number(tx, 30);
    EXPECT(topichub_broadcast_sender_queued(tx) == 3);
    SAYS(next(rx), "10");
    EXPECT(topichub_broadcast_sender_queued(tx) == 3);
    EXPECT(topichub_broadcast_receiver_left(rx) == 2 && topichub_broadcast_receiver_left(second) == 3);
    SAYS(next(second), "10");
    EXPECT(topichub_broadcast_sender_queued(tx) == 2);
    EXPECT(topichub_broadcast_sender_senders(tx) == 1);
    EXPECT(topichub_broadcast_sender_clone(tx, &clone) == TOPICHUB_DONE);
    EXPECT(topichub_broadcast_sender_senders(clone) == 2 && topichub_broadcast_receiver_senders(rx) == 2);
    topichub_broadcast_sender_close(clone);
    topichub_broadcast_sender_close(tx);
    EXPECT(topichub_broadcast_receiver_senders(rx) == 0);
    tx = NULL;
    topichub_broadcast_receiver_close(second);
    close_channel();
}

/* ---- values */

/* Each value has its number. The next power of two is the capacity: of 17 values, 10 asked for keep 16. */
static void numbers(void) {
    topichub_value *value;
    open_channel(10);
    for (uint64_t it = 0; it < 17; it++)
        send_number(tx, it);
    SAYS(next(rx), "lagged 1");
    topichub_reply told = topichub_broadcast_receiver_recv(rx, &value);
    EXPECT(told.status == TOPICHUB_VALUE && told.number == 1 && taken(value) == 1);
    told = topichub_broadcast_receiver_recv_for(rx, &value, 0);
    EXPECT(told.status == TOPICHUB_VALUE && told.number == 2 && taken(value) == 2);
    close_channel();
}

/* A value is freed with the last that may receive it. */
static void freeing(void) {
    topichub_broadcast_receiver *second;
    topichub_value *value, *same;
    open_channel(2);
    EXPECT(topichub_broadcast_sender_subscribe(tx, &second) == TOPICHUB_DONE);
    send_number(tx, 1);
    SAYS(next(rx), "1");
    EXPECT(numbers_live() == 1);
    SAYS(next(second), "1");
    EXPECT(numbers_live() == 0);
    /* The oldest one makes room. */
    for (uint64_t it = 2; it < 5; it++)
        send_number(tx, it);
    EXPECT(numbers_live() == 2);
    SAYS(next(rx), "lagged 1");
    /* Who holds it, holds it on. */
    EXPECT(topichub_broadcast_receiver_recv(rx, &value).status == TOPICHUB_VALUE);
    EXPECT(topichub_broadcast_receiver_recv(rx, &same).status == TOPICHUB_VALUE);
    EXPECT(topichub_value_retain(value) == value);
    topichub_value_release(same);
    topichub_value_release(value);
    topichub_broadcast_receiver_close(second);
    EXPECT(numbers_live() == 1);
    EXPECT(topichub_value_size(value) == sizeof(uint64_t));
    /* A value outlives its channel. */
    topichub_broadcast_sender_close(tx);
    topichub_broadcast_receiver_close(rx);
    EXPECT(numbers_live() == 1 && taken(value) == 3);
    EXPECT(numbers_live() == 0);
}

/* Of a receiver that is closed with more values than are let go at once. */
static void freeing_many(void) {
    open_channel(1000);
    for (uint64_t it = 0; it < 1000; it++)
        send_number(tx, it);
    EXPECT(numbers_live() == 1000);
    topichub_broadcast_receiver_close(rx);
    EXPECT(numbers_live() == 0 && topichub_broadcast_sender_queued(tx) == 0);
    rx = NULL;
    close_channel();
}

static uint64_t seen_while_freeing[3];

static void look_while_freeing(void *data) {
    /* No lock is held: the channel can be used. */
    seen_while_freeing[*(uint64_t *)data] = 1 + topichub_broadcast_sender_queued(tx);
    free_number(data);
}

static void freeing_without_a_lock(void) {
    topichub_value *value;
    open_channel(1);
    for (uint64_t it = 0; it < 3; it++)
        EXPECT(topichub_broadcast_sender_send(tx, number(it), 8, look_while_freeing).status == TOPICHUB_SENT);
    EXPECT(seen_while_freeing[0] == 2 && seen_while_freeing[1] == 2);
    topichub_broadcast_receiver_close(rx);
    EXPECT(seen_while_freeing[2] == 1);
    EXPECT(topichub_value_new(&value, number(0), 8, look_while_freeing) == TOPICHUB_DONE);
    topichub_value_release(value);
    EXPECT(seen_while_freeing[0] == 1);
    rx = NULL;
    close_channel();
}

static int is_first_freed;

static void send_when_freed(void *data) {
    free_number(data);
    if (!is_first_freed)
        return;
    is_first_freed = 0;
    for (uint64_t it = 1000; it < 1256; it++)
        send_number(tx, it);
}

/* The values of a receiver that is closed are let go in parts. Between two of them others take the same slots. */
static void sending_while_freeing(void) {
    topichub_broadcast_receiver *other;
    open_channel(256);
    for (uint64_t it = 0; it < 256; it++)
        EXPECT(topichub_broadcast_sender_send(tx, number(it), 8, send_when_freed).status == TOPICHUB_SENT);
    EXPECT(topichub_broadcast_sender_subscribe(tx, &other) == TOPICHUB_DONE);
    is_first_freed = 1;
    topichub_broadcast_receiver_close(rx);
    EXPECT(numbers_live() == 256 && topichub_broadcast_receiver_left(other) == 256);
    for (uint64_t it = 1000; it < 1256; it++) {
        topichub_value *value;
        EXPECT(topichub_broadcast_receiver_try_recv(other, &value).status == TOPICHUB_VALUE && taken(value) == it);
    }
    rx = other;
    close_channel();
}

static void bytes(void) {
    char text[] = "hello";
    topichub_value *value;
    open_channel(4);
    TELLS(topichub_broadcast_sender_send_bytes(tx, text, 5), SENT, 0, 1);
    TELLS(topichub_broadcast_sender_send_bytes(tx, NULL, 0), SENT, 0, 1);
    text[0] = 'j';
    TELLS(topichub_broadcast_receiver_recv(rx, &value), VALUE, 0, 0);
    EXPECT(topichub_value_size(value) == 5 && memcmp(topichub_value_data(value), "hello", 5) == 0);
    EXPECT((uintptr_t)topichub_value_data(value) % _Alignof(max_align_t) == 0);
    topichub_value_release(value);
    TELLS(topichub_broadcast_receiver_recv(rx, &value), VALUE, 0, 1);
    EXPECT(topichub_value_size(value) == 0);
    topichub_value_release(value);
    topichub_value_release(NULL);
    EXPECT(topichub_value_new_bytes(&value, text, SIZE_MAX) == TOPICHUB_NO_MEMORY && value == NULL);
    /* Data without a function to free it. */
    TELLS(topichub_broadcast_sender_send(tx, text, 5, NULL), SENT, 0, 1);
    TELLS(topichub_broadcast_receiver_recv(rx, &value), VALUE, 0, 2);
    EXPECT(topichub_value_data(value) == text);
    topichub_value_release(value);
    close_channel();
}

/* One value in two channels. */
static void one_value_in_two(void) {
    topichub_broadcast_sender *other;
    topichub_broadcast_receiver *of_other;
    topichub_value *value, *seen;
    open_channel(1);
    EXPECT(topichub_broadcast_open(&other, &of_other, 1) == TOPICHUB_DONE);
    EXPECT(topichub_value_new(&value, number(7), 8, free_number) == TOPICHUB_DONE);
    TELLS(topichub_broadcast_sender_send_value(tx, value), SENT, 0, 1);
    TELLS(topichub_broadcast_sender_send_value(other, value), SENT, 0, 1);
    topichub_broadcast_receiver_close(of_other);
    TELLS(topichub_broadcast_sender_send_value(other, value), NO_RECEIVERS, 0, 0);
    topichub_value_release(value);
    EXPECT(numbers_live() == 1);
    EXPECT(topichub_broadcast_receiver_try_recv(rx, &seen).status == TOPICHUB_VALUE && seen == value);
    EXPECT(taken(seen) == 7 && numbers_live() == 0);
    topichub_broadcast_sender_close(other);
    close_channel();
}

/* ---- limits */

static void capacities(void) {
    EXPECT(topichub_broadcast_open(&tx, &rx, 0) == TOPICHUB_BAD_CAPACITY && tx == NULL && rx == NULL);
    EXPECT(topichub_broadcast_open(&tx, &rx, 65537) == TOPICHUB_BAD_CAPACITY && tx == NULL && rx == NULL);
    open_channel(65536);
    close_channel();
    EXPECT(topichub_broadcast_open(&tx, NULL, 1) == TOPICHUB_DONE);
    EXPECT(topichub_broadcast_sender_receivers(tx) == 0);
    rx = NULL;
    close_channel();
    topichub_broadcast_sender_close(NULL);
    topichub_broadcast_receiver_close(NULL);
}

static void handles(void) {
    enum { MOST = 65535 };
    static topichub_broadcast_sender *senders[MOST];
    static topichub_broadcast_receiver *receivers[MOST];
    uint32_t status = 0;
    open_channel(1);
    for (int it = 1; it < MOST; it++) {
        status |= topichub_broadcast_sender_clone(tx, &senders[it]);
        status |= topichub_broadcast_sender_subscribe(tx, &receivers[it]);
    }
    EXPECT(status == TOPICHUB_DONE);
    EXPECT(topichub_broadcast_sender_clone(tx, &senders[0]) == TOPICHUB_TOO_MANY && senders[0] == NULL);
    EXPECT(topichub_broadcast_sender_subscribe(tx, &receivers[0]) == TOPICHUB_TOO_MANY && receivers[0] == NULL);
    EXPECT(topichub_broadcast_receiver_resubscribe(rx, &receivers[0]) == TOPICHUB_TOO_MANY && receivers[0] == NULL);
    TELLS(send_number(tx, 1), SENT, 0, MOST);
    topichub_broadcast_sender_close(senders[1]);
    EXPECT(topichub_broadcast_sender_clone(tx, &senders[1]) == TOPICHUB_DONE);
    for (int it = 1; it < MOST; it++) {
        topichub_broadcast_sender_close(senders[it]);
        topichub_broadcast_receiver_close(receivers[it]);
    }
    close_channel();
}

/* Both clocks are the same one, so a wait is never shorter than asked for. */
static void limits_of_time(void) {
    struct timespec begin, end;
    topichub_value *value;
    open_channel(1);
    TELLS(topichub_broadcast_receiver_recv_for(rx, &value, 0), TIMED_OUT, 0, 0);
    EXPECT(value == NULL);
    clock_gettime(CLOCK_MONOTONIC, &begin);
    TELLS(topichub_broadcast_receiver_recv_for(rx, &value, 1030), TIMED_OUT, 0, 0);
    clock_gettime(CLOCK_MONOTONIC, &end);
    EXPECT((end.tv_sec - begin.tv_sec) * 1000000000L + end.tv_nsec - begin.tv_nsec >= 1030000000L);
    send_number(tx, 1);
    SAYS(next(rx), "1");
    send_number(tx, 2);
    topichub_reply told = topichub_broadcast_receiver_recv_for(rx, &value, UINT64_MAX);
    EXPECT(told.status == TOPICHUB_VALUE && taken(value) == 2);
    topichub_broadcast_sender_close(tx);
    TELLS(topichub_broadcast_receiver_recv_for(rx, &value, UINT64_MAX), CLOSED, 0, 0);
    tx = NULL;
    close_channel();
}

/* ---- the descriptor */

static void descriptor(void) {
    int fd, again;
    open_channel(2);
    EXPECT(topichub_broadcast_receiver_fd(rx, &fd) == TOPICHUB_DONE && fd >= 0);
    EXPECT(topichub_broadcast_receiver_fd(rx, &again) == TOPICHUB_DONE && again == fd);
    EXPECT((fcntl(fd, F_GETFD) & FD_CLOEXEC) != 0);
    EXPECT(!is_readable(fd));
    SAYS(next(rx), EMPTY);
    EXPECT(!is_readable(fd));
    send_number(tx, 1);
    send_number(tx, 2);
    EXPECT(is_readable(fd) && is_readable(fd));
    SAYS(next(rx), "1");
    EXPECT(is_readable(fd));
    SAYS(next(rx), "2");
    EXPECT(!is_readable(fd));
    for (uint64_t it = 3; it < 6; it++)
        send_number(tx, it);
    EXPECT(is_readable(fd));
    SAYS(next(rx), "lagged 1");
    EXPECT(is_readable(fd));
    SAYS(next(rx), "4");
    SAYS(next(rx), "5");
    EXPECT(!is_readable(fd));
    topichub_broadcast_sender_close(tx);
    EXPECT(is_readable(fd));
    SAYS(next(rx), CLOSED);
    EXPECT(is_readable(fd));
    topichub_broadcast_receiver_close(rx);
    EXPECT(fcntl(fd, F_GETFD) == -1 && errno == EBADF);
    EXPECT(numbers_live() == 0);
}

/* It is made when there is something already, and by several receivers, of which some leave. */
static void descriptors(void) {
    topichub_broadcast_receiver *others[3];
    int fd, fds[3];
    open_channel(2);
    send_number(tx, 1);
    EXPECT(topichub_broadcast_receiver_fd(rx, &fd) == TOPICHUB_DONE && is_readable(fd));
    for (int it = 0; it < 3; it++) {
        EXPECT(topichub_broadcast_sender_subscribe(tx, &others[it]) == TOPICHUB_DONE);
        EXPECT(topichub_broadcast_receiver_fd(others[it], &fds[it]) == TOPICHUB_DONE && !is_readable(fds[it]));
    }
    topichub_broadcast_receiver_close(others[1]);
    SAYS(next(rx), "1");
    send_number(tx, 2);
    EXPECT(is_readable(fd) && is_readable(fds[0]) && is_readable(fds[2]));
    topichub_broadcast_receiver_close(others[2]);
    SAYS(next(others[0]), "2");
    EXPECT(is_readable(fd) && !is_readable(fds[0]));
    topichub_broadcast_sender_close(tx);
    EXPECT(is_readable(fd) && is_readable(fds[0]));
    topichub_broadcast_receiver_close(rx);
    EXPECT(topichub_broadcast_receiver_resubscribe(others[0], &rx) == TOPICHUB_DONE);
    EXPECT(topichub_broadcast_receiver_fd(rx, &fd) == TOPICHUB_DONE && is_readable(fd));
    topichub_broadcast_receiver_close(others[0]);
    tx = NULL;
    close_channel();
}

static void no_descriptor(void) {
    struct rlimit before, none = {0, 0};
    int fd;
    open_channel(2);
    EXPECT(getrlimit(RLIMIT_NOFILE, &before) == 0);
    none.rlim_max = before.rlim_max;
    EXPECT(setrlimit(RLIMIT_NOFILE, &none) == 0);
    EXPECT(topichub_broadcast_receiver_fd(rx, &fd) == TOPICHUB_NO_DESCRIPTOR && errno == EMFILE && fd == -1);
    send_number(tx, 1);
    SAYS(next(rx), "1");
    EXPECT(setrlimit(RLIMIT_NOFILE, &before) == 0);
    EXPECT(topichub_broadcast_receiver_fd(rx, &fd) == TOPICHUB_DONE && fd >= 0 && !is_readable(fd));
    close_channel();
}

/* ---- the texts */

static void texts(void) {
    static const char unknown[] = "unknown status";
    for (uint32_t one = 0; one <= TOPICHUB_NO_DESCRIPTOR; one++) {
        int is_known = one <= TOPICHUB_SMALL_BUFFER || one >= TOPICHUB_TIMED_OUT;
        if (is_same(topichub_status_text(one), unknown) == is_known)
            EXPECT(!"a status has its text, and no other number has");
        for (uint32_t other = 0; is_known && other < one; other++)
            if (is_same(topichub_status_text(one), topichub_status_text(other)))
                EXPECT(!"no two statuses have one text");
    }
    EXPECT(is_same(topichub_status_text(UINT32_MAX), unknown));
}

int main(void) {
    begin_watchdog();
    basic_usage();
    lagging();
    closing();
    sending();
    subscribing();
    counting();
    numbers();
    freeing();
    freeing_many();
    freeing_without_a_lock();
    sending_while_freeing();
    bytes();
    one_value_in_two();
    capacities();
    handles();
    limits_of_time();
    descriptor();
    descriptors();
    no_descriptor();
    texts();
    return ended("blocking_broadcast");
}
