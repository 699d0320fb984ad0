/* Blocking channels between threads: no wake is lost, each value comes once and in order or is counted as missed, each is
 * freed once, and handles come and go meanwhile. A wait that is never ended is ended by the watchdog. */
#define _POSIX_C_SOURCE 200809L
#include "blocking.h"

#include <sys/epoll.h>

enum { HAND_OVERS = 3000, VALUES = 3000 };

/* What a thread returns where something was not as it should be. */
static void *wrong(const char *what) {
    fprintf(stderr, "in a thread, not so: %s\n", what);
    return (void *)1;
}

#define WANT(holds)                                                                                                    \
    do {                                                                                                               \
        if (!(holds))                                                                                                  \
            return wrong(#holds);                                                                                      \
    } while (0)

/* How a receiver waits for the next answer; each must find all that is sent. */
enum way { RECV, RECV_FOR_LONG, RECV_FOR_SHORT, POLL, EPOLL_EDGE, WAYS };

struct listener {
    topichub_broadcast_receiver *rx;
    enum way way;
    int epoll;
};

static int listen_by_edges(topichub_broadcast_receiver *rx) {
    struct epoll_event event = {.events = EPOLLIN | EPOLLET};
    int fd, made = epoll_create1(0);
    if (made < 0 || topichub_broadcast_receiver_fd(rx, &fd) != TOPICHUB_DONE
        || epoll_ctl(made, EPOLL_CTL_ADD, fd, &event) != 0) {
        perror("epoll");
        exit(1);
    }
    return made;
}

static struct listener listener(topichub_broadcast_receiver *rx, enum way way) {
    return (struct listener){rx, way, way == EPOLL_EDGE ? listen_by_edges(rx) : -1};
}

static void end_listening(struct listener *it) {
    if (it->epoll >= 0)
        close(it->epoll);
}

static topichub_reply next_by_descriptor(struct listener *it, topichub_value **value) {
    topichub_reply told;
    while ((told = topichub_broadcast_receiver_try_recv(it->rx, value)).status == TOPICHUB_EMPTY) {
        struct epoll_event event;
        struct pollfd asked = {.events = POLLIN};
        if (it->way == EPOLL_EDGE)
            epoll_wait(it->epoll, &event, 1, -1);
        else if (topichub_broadcast_receiver_fd(it->rx, &asked.fd) == TOPICHUB_DONE)
            poll(&asked, 1, -1);
    }
    return told;
}

static topichub_reply next_by_limits(topichub_broadcast_receiver *rx, topichub_value **value) {
    topichub_reply told;
    for (uint64_t limit = 0;; limit = (limit + 1) % 3)
        if ((told = topichub_broadcast_receiver_recv_for(rx, value, limit)).status != TOPICHUB_TIMED_OUT)
            return told;
}

static topichub_reply next_told(struct listener *it, topichub_value **value) {
    switch (it->way) {
    case RECV:
        return topichub_broadcast_receiver_recv(it->rx, value);
    case RECV_FOR_LONG:
        return topichub_broadcast_receiver_recv_for(it->rx, value, UINT64_MAX);
    case RECV_FOR_SHORT:
        return next_by_limits(it->rx, value);
    default:
        return next_by_descriptor(it, value);
    }
}

/* ---- hand-overs: each waits for the other, so a wake that is lost stops both */

struct echo {
    topichub_broadcast_sender *to;
    topichub_broadcast_receiver *from;
    enum way way;
};

static void *echo_all(void *given) {
    struct echo *echo = given;
    struct listener from = listener(echo->from, echo->way);
    topichub_value *value;
    topichub_reply told;
    while ((told = next_told(&from, &value)).status == TOPICHUB_VALUE) {
        uint32_t status = topichub_broadcast_sender_send_value(echo->to, value).status;
        topichub_value_release(value);
        WANT(status == TOPICHUB_SENT);
    }
    end_listening(&from);
    WANT(told.status == TOPICHUB_CLOSED);
    return NULL;
}

static void hand_overs(enum way way) {
    topichub_broadcast_sender *there, *back;
    topichub_broadcast_receiver *at_there, *at_back;
    topichub_value *value;
    EXPECT(topichub_broadcast_open(&there, &at_there, 1) == TOPICHUB_DONE);
    EXPECT(topichub_broadcast_open(&back, &at_back, 1) == TOPICHUB_DONE);
    struct echo echo = {back, at_there, way};
    struct listener here = listener(at_back, way);
    pthread_t thread = start(echo_all, &echo);
    int is_right = 1;
    for (uint64_t it = 0; it < HAND_OVERS && is_right; it++) {
        is_right = send_number(there, it).status == TOPICHUB_SENT;
        is_right = is_right && next_told(&here, &value).status == TOPICHUB_VALUE && taken(value) == it;
    }
    EXPECT(is_right);
    end_listening(&here);
    topichub_broadcast_sender_close(there);
    EXPECT(joined_well(thread));
    topichub_broadcast_sender_close(back);
    topichub_broadcast_receiver_close(at_there);
    topichub_broadcast_receiver_close(at_back);
    EXPECT(numbers_live() == 0);
}

/* The same with watch channels, of which each has seen all before the other publishes again. */

struct watch_echo {
    topichub_watch_sender *to;
    topichub_watch_receiver *from;
    enum way way;
};

static uint32_t next_change(topichub_watch_receiver *rx, enum way way) {
    uint32_t status;
    struct pollfd asked = {.events = POLLIN};
    switch (way) {
    case RECV:
        return topichub_watch_receiver_changed(rx);
    case RECV_FOR_LONG:
        return topichub_watch_receiver_changed_for(rx, UINT64_MAX);
    case RECV_FOR_SHORT:
        for (uint64_t limit = 0;; limit = (limit + 1) % 3)
            if ((status = topichub_watch_receiver_changed_for(rx, limit)) != TOPICHUB_TIMED_OUT)
                return status;
    default:
        while ((status = topichub_watch_receiver_try_changed(rx)) == TOPICHUB_NOT_YET)
            if (topichub_watch_receiver_fd(rx, &asked.fd) == TOPICHUB_DONE)
                poll(&asked, 1, -1);
        return status;
    }
}

static void *echo_changes(void *given) {
    struct watch_echo *echo = given;
    topichub_value *value;
    uint32_t status;
    while ((status = next_change(echo->from, echo->way)) == TOPICHUB_MARKED) {
        WANT(topichub_watch_receiver_borrow(echo->from, &value) == TOPICHUB_SAME);
        status = topichub_watch_sender_send_value(echo->to, value);
        topichub_value_release(value);
        WANT(status == TOPICHUB_DONE);
    }
    WANT(status == TOPICHUB_CLOSED);
    return NULL;
}

static void watched_hand_overs(enum way way) {
    topichub_watch_sender *there, *back;
    topichub_watch_receiver *at_there, *at_back;
    topichub_value *value;
    EXPECT(topichub_watch_open_bytes(&there, &at_there, NULL, 0) == TOPICHUB_DONE);
    EXPECT(topichub_watch_open_bytes(&back, &at_back, NULL, 0) == TOPICHUB_DONE);
    struct watch_echo echo = {back, at_there, way};
    pthread_t thread = start(echo_changes, &echo);
    int is_right = 1;
    for (uint64_t it = 0; it < HAND_OVERS && is_right; it++) {
        is_right = topichub_watch_sender_send(there, number(it), 8, free_number) == TOPICHUB_DONE;
        is_right = is_right && next_change(at_back, way) == TOPICHUB_MARKED;
        is_right = is_right && topichub_watch_receiver_borrow(at_back, &value) == TOPICHUB_SAME && taken(value) == it;
    }
    EXPECT(is_right);
    topichub_watch_sender_close(there);
    EXPECT(joined_well(thread));
    topichub_watch_sender_close(back);
    topichub_watch_receiver_close(at_there);
    topichub_watch_receiver_close(at_back);
    EXPECT(numbers_live() == 0);
}

/* ---- many senders and receivers, of which some come and go */

enum { SENDERS = 3, STAYING = 5, GUESTS = 2 };

/* A value tells its sender and its number there. */
static uint64_t told_by(uint64_t sender, uint64_t number_there) {
    return sender << 32 | number_there;
}

struct part {
    topichub_broadcast_sender *tx;
    topichub_broadcast_receiver *rx;
    uint64_t who;
};

/* Sends all its values, by its own handle and by clones that it closes. */
static void *send_all(void *given) {
    struct part *part = given;
    for (uint64_t it = 0; it < VALUES; it++) {
        topichub_broadcast_sender *by = part->tx, *clone = NULL;
        if (it % 16 == 0) {
            WANT(topichub_broadcast_sender_clone(part->tx, &clone) == TOPICHUB_DONE);
            by = clone;
        }
        topichub_reply told = send_number(by, told_by(part->who, it));
        topichub_broadcast_sender_close(clone);
        WANT(told.status == TOPICHUB_SENT && told.number >= STAYING);
    }
    topichub_broadcast_sender_close(part->tx);
    return NULL;
}

/* Receives to the end: of each sender in order, and in all as many as were sent, those that were missed counted. */
static void *receive_all(void *given) {
    struct part *part = given;
    struct listener from = listener(part->rx, (enum way)(part->who % WAYS));
    uint64_t due[SENDERS] = {0}, came = 0, missed = 0, at = 0;
    topichub_value *value;
    topichub_reply told;
    while ((told = next_told(&from, &value)).status != TOPICHUB_CLOSED) {
        if (told.status == TOPICHUB_LAGGED) {
            missed += told.number;
            at += told.number;
            continue;
        }
        WANT(told.status == TOPICHUB_VALUE && told.number == at++);
        uint64_t it = taken(value), sender = it >> 32, number_there = it & UINT32_MAX;
        WANT(sender < SENDERS && number_there >= due[sender] && number_there < VALUES);
        due[sender] = number_there + 1;
        came++;
    }
    end_listening(&from);
    topichub_broadcast_receiver_close(part->rx);
    WANT(came + missed == (uint64_t)SENDERS * VALUES);
    return NULL;
}

/* Comes, receives some or none, and goes, again and again. */
static void *visit(void *given) {
    struct part *part = given;
    topichub_value *value;
    int fd;
    for (int it = 0; it < 300; it++) {
        topichub_broadcast_receiver *rx;
        uint32_t status = it % 2 ? topichub_broadcast_receiver_resubscribe(part->rx, &rx)
                                 : topichub_broadcast_sender_subscribe_oldest(part->tx, &rx);
        WANT(status == TOPICHUB_DONE);
        if (it % 3 == 0)
            WANT(topichub_broadcast_receiver_fd(rx, &fd) == TOPICHUB_DONE);
        for (int many = it % 5; many > 0; many--) {
            topichub_reply told = topichub_broadcast_receiver_recv_for(rx, &value, 1);
            if (told.status == TOPICHUB_VALUE)
                topichub_value_release(value);
            else
                WANT(told.status == TOPICHUB_TIMED_OUT || told.status == TOPICHUB_LAGGED);
        }
        topichub_broadcast_receiver_close(rx);
    }
    topichub_broadcast_sender_close(part->tx);
    topichub_broadcast_receiver_close(part->rx);
    return NULL;
}

static void crowd(uint64_t capacity) {
    struct part senders[SENDERS], staying[STAYING], guests[GUESTS];
    pthread_t threads[SENDERS + STAYING + GUESTS];
    int started = 0, are_well = 1;
    EXPECT(topichub_broadcast_open(&senders[0].tx, &staying[0].rx, capacity) == TOPICHUB_DONE);
    for (int it = 1; it < SENDERS; it++)
        EXPECT(topichub_broadcast_sender_clone(senders[0].tx, &senders[it].tx) == TOPICHUB_DONE);
    for (int it = 1; it < STAYING; it++)
        EXPECT(topichub_broadcast_sender_subscribe(senders[0].tx, &staying[it].rx) == TOPICHUB_DONE);
    for (int it = 0; it < GUESTS; it++) {
        EXPECT(topichub_broadcast_sender_clone(senders[0].tx, &guests[it].tx) == TOPICHUB_DONE);
        EXPECT(topichub_broadcast_receiver_resubscribe(staying[0].rx, &guests[it].rx) == TOPICHUB_DONE);
    }
    for (uint64_t it = 0; it < STAYING; it++) {
        staying[it].who = it;
        threads[started++] = start(receive_all, &staying[it]);
    }
    for (uint64_t it = 0; it < GUESTS; it++)
        threads[started++] = start(visit, &guests[it]);
    for (uint64_t it = 0; it < SENDERS; it++) {
        senders[it].who = it;
        threads[started++] = start(send_all, &senders[it]);
    }
    while (started > 0)
        are_well &= joined_well(threads[--started]);
    EXPECT(are_well);
    EXPECT(numbers_live() == 0);
}

/* ---- one receiver of several threads: each value goes to one of them */

static atomic_uint_least64_t sum_received, count_received;

static void *share(void *given) {
    topichub_value *value;
    topichub_reply told;
    while ((told = topichub_broadcast_receiver_recv(given, &value)).status == TOPICHUB_VALUE) {
        atomic_fetch_add(&sum_received, taken(value));
        atomic_fetch_add(&count_received, 1);
    }
    WANT(told.status == TOPICHUB_CLOSED);
    return NULL;
}

static void shared_receiver(void) {
    enum { SHARERS = 3 };
    topichub_broadcast_sender *tx;
    topichub_broadcast_receiver *rx;
    pthread_t threads[SHARERS];
    EXPECT(topichub_broadcast_open(&tx, &rx, 2 * VALUES) == TOPICHUB_DONE);
    for (int it = 0; it < SHARERS; it++)
        threads[it] = start(share, rx);
    for (uint64_t it = 1; it <= VALUES; it++)
        send_number(tx, it);
    topichub_broadcast_sender_close(tx);
    for (int it = 0; it < SHARERS; it++)
        EXPECT(joined_well(threads[it]));
    EXPECT(sum_received == (uint64_t)VALUES * (VALUES + 1) / 2 && count_received == VALUES);
    topichub_broadcast_receiver_close(rx);
    EXPECT(numbers_live() == 0);
}

/* A thread that waits by a receiver is told of what another thread marks by it. */
static void *mark(void *given) {
    topichub_watch_receiver_mark_changed(given);
    return NULL;
}

static void shared_reader(void) {
    topichub_watch_sender *tx;
    topichub_watch_receiver *rx;
    EXPECT(topichub_watch_open_bytes(&tx, &rx, NULL, 0) == TOPICHUB_DONE);
    for (int it = 0; it < 200; it++) {
        pthread_t thread = start(mark, rx);
        EXPECT(topichub_watch_receiver_changed(rx) == TOPICHUB_MARKED);
        EXPECT(joined_well(thread));
    }
    topichub_watch_sender_close(tx);
    topichub_watch_receiver_close(rx);
}

/* ---- the end wakes all who wait */

static void *wait_for_the_end(void *given) {
    topichub_value *value;
    topichub_reply told = topichub_broadcast_receiver_recv(given, &value);
    topichub_broadcast_receiver_close(given);
    WANT(told.status == TOPICHUB_CLOSED);
    return NULL;
}

static void *watch_for_the_end(void *given) {
    uint32_t status = topichub_watch_receiver_changed_for(given, UINT64_MAX);
    topichub_watch_receiver_close(given);
    WANT(status == TOPICHUB_CLOSED);
    return NULL;
}

/* Whose handle is the last one differs from time to time. */
static void ends(void) {
    enum { WAITERS = 3 };
    for (int turn = 0; turn < 100; turn++) {
        topichub_broadcast_sender *tx;
        topichub_watch_sender *watched;
        pthread_t threads[2 * WAITERS];
        EXPECT(topichub_broadcast_open(&tx, NULL, 1) == TOPICHUB_DONE);
        EXPECT(topichub_watch_open_bytes(&watched, NULL, "x", 1) == TOPICHUB_DONE);
        for (int it = 0; it < WAITERS; it++) {
            topichub_broadcast_receiver *rx;
            topichub_watch_receiver *seen;
            EXPECT(topichub_broadcast_sender_subscribe(tx, &rx) == TOPICHUB_DONE);
            EXPECT(topichub_watch_sender_subscribe(watched, &seen) == TOPICHUB_DONE);
            threads[2 * it] = start(wait_for_the_end, rx);
            threads[2 * it + 1] = start(watch_for_the_end, seen);
        }
        topichub_broadcast_sender_close(tx);
        topichub_watch_sender_close(watched);
        for (int it = 0; it < 2 * WAITERS; it++)
            EXPECT(joined_well(threads[it]));
    }
}

/* ---- a receiver with many values is closed while others are sent */

static void *close_it(void *given) {
    topichub_broadcast_receiver_close(given);
    return NULL;
}

static void close_while_sending(void) {
    for (int turn = 0; turn < 50; turn++) {
        topichub_broadcast_sender *tx;
        topichub_broadcast_receiver *full, *other;
        EXPECT(topichub_broadcast_open(&tx, &full, 256) == TOPICHUB_DONE);
        for (uint64_t it = 0; it < 256; it++)
            send_number(tx, it);
        EXPECT(topichub_broadcast_sender_subscribe(tx, &other) == TOPICHUB_DONE);
        pthread_t thread = start(close_it, full);
        for (uint64_t it = 256; it < 512; it++)
            EXPECT(send_number(tx, it).status == TOPICHUB_SENT);
        EXPECT(joined_well(thread));
        EXPECT(numbers_live() == 256 && topichub_broadcast_sender_queued(tx) == 256);
        for (uint64_t it = 256; it < 512; it++) {
            topichub_value *value;
            EXPECT(topichub_broadcast_receiver_recv(other, &value).status == TOPICHUB_VALUE && taken(value) == it);
        }
        topichub_broadcast_sender_close(tx);
        topichub_broadcast_receiver_close(other);
        EXPECT(numbers_live() == 0);
    }
}

/* ---- a watch channel: what is seen rises, and the last value is seen */

static void *watch_all(void *given) {
    struct watch_echo *part = given;
    uint64_t seen = 0;
    topichub_value *value;
    uint32_t status;
    while ((status = next_change(part->from, part->way)) == TOPICHUB_MARKED) {
        uint32_t shown = topichub_watch_receiver_borrow(part->from, &value);
        uint64_t it = taken(value);
        WANT((shown == TOPICHUB_SAME || shown == TOPICHUB_NEW) && it >= seen);
        seen = it;
    }
    topichub_watch_receiver_close(part->from);
    WANT(status == TOPICHUB_CLOSED && seen == VALUES);
    return NULL;
}

static void watching(void) {
    enum { READERS = 4 };
    topichub_watch_sender *tx;
    struct watch_echo parts[READERS];
    pthread_t threads[READERS];
    EXPECT(topichub_watch_open(&tx, NULL, number(0), 8, free_number) == TOPICHUB_DONE);
    for (int it = 0; it < READERS; it++) {
        parts[it].way = (enum way)it;
        EXPECT(topichub_watch_sender_subscribe(tx, &parts[it].from) == TOPICHUB_DONE);
    }
    for (int it = 0; it < READERS; it++)
        threads[it] = start(watch_all, &parts[it]);
    for (uint64_t it = 1; it <= VALUES; it++)
        EXPECT(topichub_watch_sender_send(tx, number(it), 8, free_number) == TOPICHUB_DONE);
    topichub_watch_sender_close(tx);
    for (int it = 0; it < READERS; it++)
        EXPECT(joined_well(threads[it]));
    EXPECT(numbers_live() == 0);
}

int main(void) {
    begin_watchdog();
    for (int way = 0; way < WAYS; way++)
        hand_overs((enum way)way);
    for (int way = 0; way < EPOLL_EDGE; way++)
        watched_hand_overs((enum way)way);
    crowd(8);
    crowd(1024);
    shared_receiver();
    shared_reader();
    ends();
    close_while_sending();
    watching();
    return ended("blocking_threads");
}
