/* The channels of topichub_threads.h: those of topichub.h, each under a mutex.
 *
 * A channel is a core, which decides every reply, and the values that the core only knows by their numbers. Every call
 * takes the channel's lock, makes one call of the core (and one more each time that it was woken), does with the values
 * what the reply says, and releases the lock. Threads are woken and values released after that.
 */
#define _POSIX_C_SOURCE 200809L
#include "topichub_threads.h"

#include <errno.h>
#include <pthread.h>
#include <stdatomic.h>
#include <stdlib.h>
#include <string.h>
#include <sys/eventfd.h>
#include <time.h>
#include <unistd.h>

/* helgrind knows locks, and no atomic counts; lib/c/tests/run defines this for it. */
#ifdef TOPICHUB_HELGRIND
#include <valgrind/helgrind.h>
#define GIVES(it) ANNOTATE_HAPPENS_BEFORE(it)
#define TAKES(it) ANNOTATE_HAPPENS_AFTER(it)
#define FORGETS(it) ANNOTATE_HAPPENS_BEFORE_FORGET_ALL(it)
#else
#define GIVES(it)
#define TAKES(it)
#define FORGETS(it)
#endif


/* ---- counts of holders */

static void hold(atomic_size_t *holders) {
    atomic_fetch_add_explicit(holders, 1, memory_order_relaxed);
}

/* Whether that was the last one. The last holder sees all that the others have done. */
static int drop_hold(atomic_size_t *holders) {
    GIVES(holders);
    if (atomic_fetch_sub_explicit(holders, 1, memory_order_acq_rel) != 1)
        return 0;
    TAKES(holders);
    FORGETS(holders);
    return 1;
}


/* ---- values */

struct topichub_value {
    /* One for each channel that keeps the value, and for each caller that holds it. */
    atomic_size_t holders;
    void *data;
    size_t size;
    void (*free_data)(void *data);
    /* A copy of bytes, where `data` points to then. */
    _Alignas(max_align_t) unsigned char bytes[];
};

static topichub_value *value_with_room(size_t room) {
    if (room > SIZE_MAX - sizeof(topichub_value))
        return NULL;
    topichub_value *value = malloc(sizeof(topichub_value) + room);
    if (value != NULL)
        atomic_init(&value->holders, 1);
    return value;
}

uint32_t topichub_value_new(topichub_value **value, void *data, size_t size, void (*free_data)(void *data)) {
    topichub_value *made = *value = value_with_room(0);
    if (made == NULL)
        return TOPICHUB_NO_MEMORY;
    made->data = data;
    made->size = size;
    made->free_data = free_data;
    return TOPICHUB_DONE;
}

uint32_t topichub_value_new_bytes(topichub_value **value, const void *bytes, size_t size) {
    topichub_value *made = *value = value_with_room(size);
    if (made == NULL)
        return TOPICHUB_NO_MEMORY;
    if (size > 0)
        memcpy(made->bytes, bytes, size);
    made->data = made->bytes;
    made->size = size;
    made->free_data = NULL;
    return TOPICHUB_DONE;
}

void *topichub_value_data(const topichub_value *value) {
    return value->data;
}

size_t topichub_value_size(const topichub_value *value) {
    return value->size;
}

topichub_value *topichub_value_retain(topichub_value *value) {
    hold(&value->holders);
    return value;
}

void topichub_value_release(topichub_value *value) {
    if (value == NULL || !drop_hold(&value->holders))
        return;
    if (value->free_data != NULL)
        value->free_data(value->data);
    free(value);
}

/* Frees a value that no channel took; its data stays the caller's. */
static void give_data_back(topichub_value *value) {
    value->free_data = NULL;
    topichub_value_release(value);
}


/* ---- what both kinds of channel have */

/* The descriptor of a receiver, if it has asked for one. */
struct readiness {
    int fd; /* -1 for none. */
    int is_readable;
    /* While it is not readable: the next one of the channel that is not, and what points to this one. */
    struct readiness *next;
    struct readiness **link;
};

struct shared {
    atomic_size_t handles; /* Senders and receivers: the channel is freed with the last one. */
    pthread_mutex_t lock;  /* Guards all that follows, the core, and its values. */
    pthread_cond_t news;
    /* How often all waiting threads were woken, and how many have begun to wait since. */
    uint64_t round;
    size_t waiting;
    struct readiness *unreadable;
    uint64_t senders;
};

static int make_news(pthread_cond_t *news) {
    pthread_condattr_t kind;
    if (pthread_condattr_init(&kind) != 0)
        return 0;
    int is_made = pthread_condattr_setclock(&kind, CLOCK_MONOTONIC) == 0 && pthread_cond_init(news, &kind) == 0;
    pthread_condattr_destroy(&kind);
    return is_made;
}

/* For a channel with one sender. */
static int make_shared(struct shared *shared) {
    if (pthread_mutex_init(&shared->lock, NULL) != 0)
        return 0;
    if (!make_news(&shared->news)) {
        pthread_mutex_destroy(&shared->lock);
        return 0;
    }
    atomic_init(&shared->handles, 1);
    shared->round = 0;
    shared->waiting = 0;
    shared->unreadable = NULL;
    shared->senders = 1;
    return 1;
}

static void end_shared(struct shared *shared) {
    pthread_cond_destroy(&shared->news);
    pthread_mutex_destroy(&shared->lock);
}

/* How long a call may wait, from the moment on when it begins to. */
struct limit {
    const uint64_t *milliseconds; /* NULL: for ever. */
    int has_begun, is_over;
    struct timespec end;
};

/* About 31 years, so that the end of a wait is a time that every system has. */
enum { MOST_SECONDS = 1000000000 };

static void begin(struct limit *limit) {
    uint64_t seconds = *limit->milliseconds / 1000;
    clock_gettime(CLOCK_MONOTONIC, &limit->end);
    limit->end.tv_sec += (time_t)(seconds < MOST_SECONDS ? seconds : MOST_SECONDS);
    limit->end.tv_nsec += (long)(*limit->milliseconds % 1000) * 1000000;
    if (limit->end.tv_nsec >= 1000000000) {
        limit->end.tv_nsec -= 1000000000;
        limit->end.tv_sec++;
    }
    limit->has_begun = 1;
}

/* A thread that sleeps, and the round in which it was counted. */
struct sleeper {
    struct shared *shared;
    uint64_t round;
};

static void rise(struct sleeper *sleeper) {
    if (sleeper->round == sleeper->shared->round)
        sleeper->shared->waiting--;
}

static void cancelled(void *sleeper) {
    rise(sleeper);
    pthread_mutex_unlock(&((struct sleeper *)sleeper)->shared->lock);
}

/* Sleeps until there is news or the limit is over; it may also end for no reason. The lock is held before and after. */
static void await_news(struct shared *shared, struct limit *limit) {
    struct sleeper sleeper = {shared, shared->round};
    if (limit->milliseconds != NULL && !limit->has_begun)
        begin(limit);
    shared->waiting++;
    pthread_cleanup_push(cancelled, &sleeper);
    if (limit->milliseconds == NULL)
        pthread_cond_wait(&shared->news, &shared->lock);
    else
        limit->is_over = pthread_cond_timedwait(&shared->news, &shared->lock, &limit->end) == ETIMEDOUT;
    pthread_cleanup_pop(0);
    rise(&sleeper);
}

/* Whether threads wait. If so, the caller wakes them by wake(), after it has released the lock. */
static int call_waiting(struct shared *shared) {
    int is_anybody = shared->waiting > 0;
    shared->round += is_anybody;
    shared->waiting = 0;
    return is_anybody;
}

static void wake(struct shared *shared, int is_anybody) {
    if (is_anybody)
        pthread_cond_broadcast(&shared->news);
}

static void link_unreadable(struct shared *shared, struct readiness *readiness) {
    readiness->link = &shared->unreadable;
    readiness->next = shared->unreadable;
    if (readiness->next != NULL)
        readiness->next->link = &readiness->next;
    shared->unreadable = readiness;
}

static void unlink_unreadable(struct readiness *readiness) {
    *readiness->link = readiness->next;
    if (readiness->next != NULL)
        readiness->next->link = readiness->link;
}

/* Makes the descriptor readable, or not. It never blocks. The lock is held, so the thread may not be cancelled here. */
static void show(struct shared *shared, struct readiness *readiness, int is_ready) {
    if (readiness->is_readable == is_ready)
        return;
    int before;
    eventfd_t count;
    pthread_setcancelstate(PTHREAD_CANCEL_DISABLE, &before);
    if (is_ready) {
        unlink_unreadable(readiness);
        eventfd_write(readiness->fd, 1);
    } else {
        link_unreadable(shared, readiness);
        eventfd_read(readiness->fd, &count);
    }
    readiness->is_readable = is_ready;
    pthread_setcancelstate(before, NULL);
}

/* There is something for every receiver. As call_waiting. */
static int announce(struct shared *shared) {
    while (shared->unreadable != NULL)
        show(shared, shared->unreadable, 1);
    return call_waiting(shared);
}

/* The descriptor, made if there is none yet; -1 if eventfd() gives none. */
static int descriptor(struct shared *shared, struct readiness *readiness) {
    if (readiness->fd >= 0)
        return readiness->fd;
    readiness->fd = eventfd(0, EFD_CLOEXEC | EFD_NONBLOCK);
    if (readiness->fd >= 0) {
        readiness->is_readable = 0;
        link_unreadable(shared, readiness);
    }
    return readiness->fd;
}

/* The channel makes this descriptor readable no more. */
static void forget(struct readiness *readiness) {
    if (readiness->fd >= 0 && !readiness->is_readable)
        unlink_unreadable(readiness);
}

static void close_descriptor(struct readiness *readiness) {
    if (readiness->fd < 0)
        return;
    int before;
    pthread_setcancelstate(PTHREAD_CANCEL_DISABLE, &before);
    close(readiness->fd);
    pthread_setcancelstate(before, NULL);
}

static uint64_t count_senders(struct shared *shared) {
    pthread_mutex_lock(&shared->lock);
    uint64_t senders = shared->senders;
    pthread_mutex_unlock(&shared->lock);
    return senders;
}

static topichub_reply reply_of(uint32_t status, uint64_t number) {
    return (topichub_reply){.status = status, .let_go = 0, .number = number};
}


/* ---- broadcast channels */

/* How many values a receiver that is closed takes out each time that it takes the lock. */
enum { AT_ONCE = 64 };

struct broadcast {
    struct shared shared;
    /* Its values are their own numbers: that of the first one is 0. */
    topichub_broadcast core;
    uint64_t sent;
    uint64_t oldest; /* The number of the oldest value that is kept, or of the next one. */
    /* The value with the number n is in the slot n mod `capacity`, a power of two. One that the channel has let go may
       stay there until the receiver that is being closed, or the next value for the slot, comes to it. */
    uint64_t capacity;
    topichub_value *slots[];
};

struct topichub_broadcast_sender {
    struct broadcast *channel;
    uint64_t number;
};

struct topichub_broadcast_receiver {
    struct broadcast *channel;
    uint64_t number;
    struct readiness readiness;
};

static topichub_value **slot(struct broadcast *channel, uint64_t number) {
    return &channel->slots[number & (channel->capacity - 1)];
}

/* Takes the value with this number out, if its slot has not been given to a later one. */
static topichub_value *take_out(struct broadcast *channel, uint64_t number) {
    if (channel->sent - number > channel->capacity)
        return NULL;
    topichub_value *value = *slot(channel, number);
    *slot(channel, number) = NULL;
    return value;
}

static struct broadcast *make_broadcast(uint64_t capacity, uint32_t *status) {
    topichub_broadcast core = TOPICHUB_BROADCAST_NONE;
    *status = topichub_broadcast_new(&core, capacity, 0);
    if (*status != TOPICHUB_DONE)
        return NULL;
    uint64_t slots = 1;
    while (slots < capacity)
        slots *= 2;
    struct broadcast *channel = calloc(1, sizeof *channel + slots * sizeof *channel->slots);
    if (channel == NULL || !make_shared(&channel->shared)) {
        free(channel);
        topichub_broadcast_free(&core);
        *status = TOPICHUB_NO_MEMORY;
        return NULL;
    }
    channel->core = core;
    channel->capacity = slots;
    return channel;
}

/* No handle is left, so no value is kept either. */
static void free_broadcast(struct broadcast *channel) {
    topichub_broadcast_free(&channel->core);
    end_shared(&channel->shared);
    free(channel);
}

static topichub_broadcast_sender *new_broadcast_sender(struct broadcast *channel) {
    topichub_broadcast_sender *made = malloc(sizeof *made);
    if (made != NULL)
        made->channel = channel;
    return made;
}

/* A call of the core with the number of a sender or receiver, and nothing else. */
typedef topichub_reply broadcast_call(topichub_broadcast *core, uint64_t number);

static uint32_t make_broadcast_receiver(struct broadcast *channel, broadcast_call *call, uint64_t by,
                                        topichub_broadcast_receiver **made) {
    topichub_broadcast_receiver *receiver = malloc(sizeof *receiver);
    *made = NULL;
    if (receiver == NULL)
        return TOPICHUB_NO_MEMORY;
    pthread_mutex_lock(&channel->shared.lock);
    topichub_reply told = call(&channel->core, by);
    pthread_mutex_unlock(&channel->shared.lock);
    if (told.status != TOPICHUB_NEW_RX) {
        free(receiver);
        return told.status;
    }
    hold(&channel->shared.handles);
    receiver->channel = channel;
    receiver->number = told.number;
    receiver->readiness.fd = -1;
    *made = receiver;
    return TOPICHUB_DONE;
}

uint32_t topichub_broadcast_open(topichub_broadcast_sender **tx, topichub_broadcast_receiver **rx, uint64_t capacity) {
    uint32_t status;
    *tx = NULL;
    if (rx != NULL)
        *rx = NULL;
    struct broadcast *channel = make_broadcast(capacity, &status);
    if (channel == NULL)
        return status;
    topichub_broadcast_sender *sender = new_broadcast_sender(channel);
    if (sender == NULL) {
        free_broadcast(channel);
        return TOPICHUB_NO_MEMORY;
    }
    /* The core makes the sender 1 with the channel. */
    sender->number = 1;
    if (rx != NULL) {
        status = make_broadcast_receiver(channel, topichub_broadcast_subscribe, 1, rx);
        if (status != TOPICHUB_DONE) {
            topichub_broadcast_sender_close(sender);
            return status;
        }
    }
    *tx = sender;
    return TOPICHUB_DONE;
}

uint32_t topichub_broadcast_sender_clone(topichub_broadcast_sender *tx, topichub_broadcast_sender **made) {
    struct broadcast *channel = tx->channel;
    topichub_broadcast_sender *sender = new_broadcast_sender(channel);
    *made = NULL;
    if (sender == NULL)
        return TOPICHUB_NO_MEMORY;
    pthread_mutex_lock(&channel->shared.lock);
    topichub_reply told = topichub_broadcast_clone_tx(&channel->core, tx->number);
    int is_made = told.status == TOPICHUB_NEW_TX;
    channel->shared.senders += is_made;
    pthread_mutex_unlock(&channel->shared.lock);
    if (!is_made) {
        free(sender);
        return told.status;
    }
    hold(&channel->shared.handles);
    sender->number = told.number;
    *made = sender;
    return TOPICHUB_DONE;
}

void topichub_broadcast_sender_close(topichub_broadcast_sender *tx) {
    if (tx == NULL)
        return;
    struct broadcast *channel = tx->channel;
    pthread_mutex_lock(&channel->shared.lock);
    topichub_broadcast_drop_tx(&channel->core, tx->number);
    int is_anybody = --channel->shared.senders == 0 && announce(&channel->shared);
    pthread_mutex_unlock(&channel->shared.lock);
    wake(&channel->shared, is_anybody);
    if (drop_hold(&channel->shared.handles))
        free_broadcast(channel);
    free(tx);
}

/* Sends a value. With TOPICHUB_SENT the caller's hold of it is the channel's. */
static topichub_reply send_held(topichub_broadcast_sender *tx, topichub_value *value) {
    struct broadcast *channel = tx->channel;
    topichub_value *oldest = NULL;
    int is_anybody = 0;
    pthread_mutex_lock(&channel->shared.lock);
    uint64_t number = channel->sent;
    topichub_reply told = topichub_broadcast_send(&channel->core, tx->number, number);
    if (told.status == TOPICHUB_SENT) {
        /* In a full channel the slot is that of the oldest value. */
        oldest = *slot(channel, number);
        *slot(channel, number) = value;
        channel->sent++;
        channel->oldest += told.let_go;
        is_anybody = announce(&channel->shared);
    }
    pthread_mutex_unlock(&channel->shared.lock);
    wake(&channel->shared, is_anybody);
    topichub_value_release(oldest);
    return reply_of(told.status, told.status == TOPICHUB_SENT ? told.number : 0);
}

topichub_reply topichub_broadcast_sender_send(topichub_broadcast_sender *tx, void *data, size_t size,
                                              void (*free_data)(void *data)) {
    topichub_value *value;
    if (topichub_value_new(&value, data, size, free_data) != TOPICHUB_DONE)
        return reply_of(TOPICHUB_NO_MEMORY, 0);
    topichub_reply told = send_held(tx, value);
    if (told.status != TOPICHUB_SENT)
        give_data_back(value);
    return told;
}

topichub_reply topichub_broadcast_sender_send_bytes(topichub_broadcast_sender *tx, const void *bytes, size_t size) {
    topichub_value *value;
    if (topichub_value_new_bytes(&value, bytes, size) != TOPICHUB_DONE)
        return reply_of(TOPICHUB_NO_MEMORY, 0);
    topichub_reply told = send_held(tx, value);
    if (told.status != TOPICHUB_SENT)
        topichub_value_release(value);
    return told;
}

topichub_reply topichub_broadcast_sender_send_value(topichub_broadcast_sender *tx, topichub_value *value) {
    topichub_reply told = send_held(tx, topichub_value_retain(value));
    if (told.status != TOPICHUB_SENT)
        topichub_value_release(value);
    return told;
}

uint32_t topichub_broadcast_sender_subscribe(topichub_broadcast_sender *tx, topichub_broadcast_receiver **made) {
    return make_broadcast_receiver(tx->channel, topichub_broadcast_subscribe, tx->number, made);
}

uint32_t topichub_broadcast_sender_subscribe_oldest(topichub_broadcast_sender *tx, topichub_broadcast_receiver **made) {
    return make_broadcast_receiver(tx->channel, topichub_broadcast_subscribe_oldest, tx->number, made);
}

/* The count that a call of the core answers. */
static uint64_t count(struct broadcast *channel, broadcast_call *call, uint64_t number) {
    pthread_mutex_lock(&channel->shared.lock);
    topichub_reply told = call(&channel->core, number);
    pthread_mutex_unlock(&channel->shared.lock);
    return told.number;
}

uint64_t topichub_broadcast_sender_receivers(topichub_broadcast_sender *tx) {
    return count(tx->channel, topichub_broadcast_readers, tx->number);
}

uint64_t topichub_broadcast_sender_senders(topichub_broadcast_sender *tx) {
    return count_senders(&tx->channel->shared);
}

uint64_t topichub_broadcast_sender_queued(topichub_broadcast_sender *tx) {
    return count(tx->channel, topichub_broadcast_queued, tx->number);
}

/* Shows by the receiver's descriptor, if it has one, whether there is something to receive. */
static void show_broadcast(topichub_broadcast_receiver *rx) {
    struct broadcast *channel = rx->channel;
    if (rx->readiness.fd >= 0)
        show(&channel->shared, &rx->readiness,
             channel->shared.senders == 0 || topichub_broadcast_left(&channel->core, rx->number).number > 0);
}

/* The caller's hold of the value that a reply tells of. With its last read the channel's own becomes the caller's. */
static topichub_value *told_value(struct broadcast *channel, topichub_reply told) {
    channel->oldest += told.let_go;
    if (told.let_go > 0)
        return take_out(channel, told.number);
    return topichub_value_retain(*slot(channel, told.number));
}

/* Ends a receive with this reply of the core, and releases the lock. */
static topichub_reply received(topichub_broadcast_receiver *rx, topichub_reply told, topichub_value **value) {
    *value = told.status == TOPICHUB_VALUE ? told_value(rx->channel, told) : NULL;
    show_broadcast(rx);
    pthread_mutex_unlock(&rx->channel->shared.lock);
    return reply_of(told.status, told.number);
}

topichub_reply topichub_broadcast_receiver_try_recv(topichub_broadcast_receiver *rx, topichub_value **value) {
    pthread_mutex_lock(&rx->channel->shared.lock);
    return received(rx, topichub_broadcast_try_recv(&rx->channel->core, rx->number), value);
}

static topichub_reply receive(topichub_broadcast_receiver *rx, topichub_value **value, struct limit limit) {
    struct broadcast *channel = rx->channel;
    *value = NULL;
    pthread_mutex_lock(&channel->shared.lock);
    topichub_reply told;
    while ((told = topichub_broadcast_recv(&channel->core, rx->number)).status == TOPICHUB_WOULD_WAIT) {
        if (limit.is_over) {
            told.status = TOPICHUB_TIMED_OUT;
            break;
        }
        await_news(&channel->shared, &limit);
    }
    return received(rx, told, value);
}

topichub_reply topichub_broadcast_receiver_recv(topichub_broadcast_receiver *rx, topichub_value **value) {
    return receive(rx, value, (struct limit){.milliseconds = NULL});
}

topichub_reply topichub_broadcast_receiver_recv_for(topichub_broadcast_receiver *rx, topichub_value **value,
                                                    uint64_t milliseconds) {
    return receive(rx, value, (struct limit){.milliseconds = &milliseconds});
}

uint32_t topichub_broadcast_receiver_resubscribe(topichub_broadcast_receiver *rx, topichub_broadcast_receiver **made) {
    return make_broadcast_receiver(rx->channel, topichub_broadcast_resubscribe, rx->number, made);
}

uint64_t topichub_broadcast_receiver_left(topichub_broadcast_receiver *rx) {
    return count(rx->channel, topichub_broadcast_left, rx->number);
}

uint64_t topichub_broadcast_receiver_senders(topichub_broadcast_receiver *rx) {
    return count_senders(&rx->channel->shared);
}

uint32_t topichub_broadcast_receiver_fd(topichub_broadcast_receiver *rx, int *fd) {
    pthread_mutex_lock(&rx->channel->shared.lock);
    *fd = descriptor(&rx->channel->shared, &rx->readiness);
    show_broadcast(rx);
    pthread_mutex_unlock(&rx->channel->shared.lock);
    return *fd < 0 ? TOPICHUB_NO_DESCRIPTOR : TOPICHUB_DONE;
}

/* Releases the values from one number up to another, which the core has let go. The lock is held before and after, and
   not while values are released. */
static void release_range(struct broadcast *channel, uint64_t from, uint64_t end) {
    while (from < end) {
        topichub_value *gone[AT_ONCE];
        size_t many = 0;
        for (; many < AT_ONCE && from < end; from++)
            if ((gone[many] = take_out(channel, from)) != NULL)
                many++;
        pthread_mutex_unlock(&channel->shared.lock);
        for (size_t each = 0; each < many; each++)
            topichub_value_release(gone[each]);
        pthread_mutex_lock(&channel->shared.lock);
    }
}

void topichub_broadcast_receiver_close(topichub_broadcast_receiver *rx) {
    if (rx == NULL)
        return;
    struct broadcast *channel = rx->channel;
    pthread_mutex_lock(&channel->shared.lock);
    topichub_reply told = topichub_broadcast_drop_rx(&channel->core, rx->number);
    forget(&rx->readiness);
    uint64_t from = channel->oldest;
    channel->oldest += told.let_go;
    release_range(channel, from, channel->oldest);
    pthread_mutex_unlock(&channel->shared.lock);
    if (drop_hold(&channel->shared.handles))
        free_broadcast(channel);
    close_descriptor(&rx->readiness);
    free(rx);
}


/* ---- watch channels */

struct watch {
    struct shared shared;
    /* Its value says nothing: it is always 0. */
    topichub_watch core;
    topichub_value *newest;
};

struct topichub_watch_sender {
    struct watch *channel;
    uint64_t number;
};

struct topichub_watch_receiver {
    struct watch *channel;
    uint64_t number;
    struct readiness readiness;
};

/* A channel that holds the value. */
static struct watch *make_watch(topichub_value *first) {
    struct watch *channel = malloc(sizeof *channel);
    if (channel == NULL)
        return NULL;
    channel->core = (topichub_watch)TOPICHUB_WATCH_NONE;
    if (topichub_watch_new(&channel->core, 0, 1) != TOPICHUB_DONE || !make_shared(&channel->shared)) {
        topichub_watch_free(&channel->core);
        free(channel);
        return NULL;
    }
    channel->newest = topichub_value_retain(first);
    return channel;
}

/* No handle is left. */
static void free_watch(struct watch *channel) {
    topichub_value_release(channel->newest);
    topichub_watch_free(&channel->core);
    end_shared(&channel->shared);
    free(channel);
}

static topichub_watch_sender *new_watch_sender(struct watch *channel) {
    topichub_watch_sender *made = malloc(sizeof *made);
    if (made != NULL)
        made->channel = channel;
    return made;
}

/* A call of the core with the number of a sender or receiver, and nothing else. */
typedef topichub_reply watch_call(topichub_watch *core, uint64_t number);

static topichub_reply call_watch(struct watch *channel, watch_call *call, uint64_t number) {
    pthread_mutex_lock(&channel->shared.lock);
    topichub_reply told = call(&channel->core, number);
    pthread_mutex_unlock(&channel->shared.lock);
    return told;
}

static uint32_t make_watch_receiver(struct watch *channel, watch_call *call, uint64_t by,
                                    topichub_watch_receiver **made) {
    topichub_watch_receiver *receiver = malloc(sizeof *receiver);
    *made = NULL;
    if (receiver == NULL)
        return TOPICHUB_NO_MEMORY;
    pthread_mutex_lock(&channel->shared.lock);
    topichub_reply told = call(&channel->core, by);
    pthread_mutex_unlock(&channel->shared.lock);
    if (told.status != TOPICHUB_NEW_RX) {
        free(receiver);
        return told.status;
    }
    hold(&channel->shared.handles);
    receiver->channel = channel;
    receiver->number = told.number;
    receiver->readiness.fd = -1;
    *made = receiver;
    return TOPICHUB_DONE;
}

uint32_t topichub_watch_open_value(topichub_watch_sender **tx, topichub_watch_receiver **rx, topichub_value *value) {
    *tx = NULL;
    if (rx != NULL)
        *rx = NULL;
    struct watch *channel = make_watch(value);
    if (channel == NULL)
        return TOPICHUB_NO_MEMORY;
    topichub_watch_sender *sender = new_watch_sender(channel);
    if (sender == NULL) {
        free_watch(channel);
        return TOPICHUB_NO_MEMORY;
    }
    /* The core makes the sender 1 with the channel. */
    sender->number = 1;
    if (rx != NULL) {
        uint32_t status = make_watch_receiver(channel, topichub_watch_subscribe, 1, rx);
        if (status != TOPICHUB_DONE) {
            topichub_watch_sender_close(sender);
            return status;
        }
    }
    *tx = sender;
    return TOPICHUB_DONE;
}

/* Opens a channel with a value that was made for it, or gives its data back. NULL: memory was refused. */
static uint32_t open_with(topichub_watch_sender **tx, topichub_watch_receiver **rx, topichub_value *made) {
    if (made == NULL) {
        *tx = NULL;
        if (rx != NULL)
            *rx = NULL;
        return TOPICHUB_NO_MEMORY;
    }
    uint32_t status = topichub_watch_open_value(tx, rx, made);
    if (status == TOPICHUB_DONE)
        topichub_value_release(made);
    else
        give_data_back(made);
    return status;
}

uint32_t topichub_watch_open(topichub_watch_sender **tx, topichub_watch_receiver **rx, void *data, size_t size,
                             void (*free_data)(void *data)) {
    topichub_value *made;
    topichub_value_new(&made, data, size, free_data);
    return open_with(tx, rx, made);
}

uint32_t topichub_watch_open_bytes(topichub_watch_sender **tx, topichub_watch_receiver **rx, const void *bytes,
                                   size_t size) {
    topichub_value *made;
    topichub_value_new_bytes(&made, bytes, size);
    return open_with(tx, rx, made);
}

uint32_t topichub_watch_sender_clone(topichub_watch_sender *tx, topichub_watch_sender **made) {
    struct watch *channel = tx->channel;
    topichub_watch_sender *sender = new_watch_sender(channel);
    *made = NULL;
    if (sender == NULL)
        return TOPICHUB_NO_MEMORY;
    pthread_mutex_lock(&channel->shared.lock);
    topichub_reply told = topichub_watch_clone_tx(&channel->core, tx->number);
    int is_made = told.status == TOPICHUB_NEW_TX;
    channel->shared.senders += is_made;
    pthread_mutex_unlock(&channel->shared.lock);
    if (!is_made) {
        free(sender);
        return told.status;
    }
    hold(&channel->shared.handles);
    sender->number = told.number;
    *made = sender;
    return TOPICHUB_DONE;
}

void topichub_watch_sender_close(topichub_watch_sender *tx) {
    if (tx == NULL)
        return;
    struct watch *channel = tx->channel;
    pthread_mutex_lock(&channel->shared.lock);
    topichub_watch_drop_tx(&channel->core, tx->number);
    int is_anybody = --channel->shared.senders == 0 && announce(&channel->shared);
    pthread_mutex_unlock(&channel->shared.lock);
    wake(&channel->shared, is_anybody);
    if (drop_hold(&channel->shared.handles))
        free_watch(channel);
    free(tx);
}

/* Publishes a value by a call of the core, which gives this status if it does. The caller's hold of the value is the
   channel's then, and that of the value before is the caller's. */
static uint32_t publish(topichub_watch_sender *tx, topichub_reply (*call)(topichub_watch *, uint64_t, uint64_t),
                        uint32_t published, topichub_value *value, topichub_value **before) {
    struct watch *channel = tx->channel;
    int is_anybody = 0;
    *before = NULL;
    pthread_mutex_lock(&channel->shared.lock);
    uint32_t status = call(&channel->core, tx->number, 0).status;
    if (status == published) {
        *before = channel->newest;
        channel->newest = value;
        is_anybody = announce(&channel->shared);
    }
    pthread_mutex_unlock(&channel->shared.lock);
    wake(&channel->shared, is_anybody);
    return status;
}

/* Publishes a value, if there is a receiver. With TOPICHUB_DONE the caller's hold of it is the channel's. */
static uint32_t publish_held(topichub_watch_sender *tx, topichub_value *value) {
    topichub_value *before;
    uint32_t status = publish(tx, topichub_watch_send, TOPICHUB_DONE, value, &before);
    topichub_value_release(before);
    return status;
}

uint32_t topichub_watch_sender_send(topichub_watch_sender *tx, void *data, size_t size, void (*free_data)(void *data)) {
    topichub_value *value;
    if (topichub_value_new(&value, data, size, free_data) != TOPICHUB_DONE)
        return TOPICHUB_NO_MEMORY;
    uint32_t status = publish_held(tx, value);
    if (status != TOPICHUB_DONE)
        give_data_back(value);
    return status;
}

uint32_t topichub_watch_sender_send_bytes(topichub_watch_sender *tx, const void *bytes, size_t size) {
    topichub_value *value;
    if (topichub_value_new_bytes(&value, bytes, size) != TOPICHUB_DONE)
        return TOPICHUB_NO_MEMORY;
    uint32_t status = publish_held(tx, value);
    if (status != TOPICHUB_DONE)
        topichub_value_release(value);
    return status;
}

uint32_t topichub_watch_sender_send_value(topichub_watch_sender *tx, topichub_value *value) {
    uint32_t status = publish_held(tx, topichub_value_retain(value));
    if (status != TOPICHUB_DONE)
        topichub_value_release(value);
    return status;
}

uint32_t topichub_watch_sender_replace(topichub_watch_sender *tx, topichub_value *value, topichub_value **before) {
    topichub_value *was;
    uint32_t status = publish(tx, topichub_watch_replace, TOPICHUB_WAS, topichub_value_retain(value), &was);
    if (status != TOPICHUB_WAS)
        topichub_value_release(value);
    if (before != NULL)
        *before = was;
    else
        topichub_value_release(was);
    return status;
}

topichub_value *topichub_watch_sender_borrow(topichub_watch_sender *tx) {
    pthread_mutex_lock(&tx->channel->shared.lock);
    topichub_value *newest = topichub_value_retain(tx->channel->newest);
    pthread_mutex_unlock(&tx->channel->shared.lock);
    return newest;
}

uint32_t topichub_watch_sender_subscribe(topichub_watch_sender *tx, topichub_watch_receiver **made) {
    return make_watch_receiver(tx->channel, topichub_watch_subscribe, tx->number, made);
}

uint64_t topichub_watch_sender_receivers(topichub_watch_sender *tx) {
    return call_watch(tx->channel, topichub_watch_readers, tx->number).number;
}

uint64_t topichub_watch_sender_senders(topichub_watch_sender *tx) {
    return count_senders(&tx->channel->shared);
}

/* Shows by the receiver's descriptor, if it has one, whether there is something to tell. */
static void show_watch(topichub_watch_receiver *rx) {
    struct watch *channel = rx->channel;
    if (rx->readiness.fd >= 0)
        show(&channel->shared, &rx->readiness,
             topichub_watch_has_changed(&channel->core, rx->number).status != TOPICHUB_NO);
}

/* Looks at the newest value by a call of the core. */
static uint32_t look(topichub_watch_receiver *rx, watch_call *call, topichub_value **value) {
    struct watch *channel = rx->channel;
    pthread_mutex_lock(&channel->shared.lock);
    uint32_t status = call(&channel->core, rx->number).status;
    int is_told = status == TOPICHUB_NEW || status == TOPICHUB_SAME;
    *value = is_told ? topichub_value_retain(channel->newest) : NULL;
    show_watch(rx);
    pthread_mutex_unlock(&channel->shared.lock);
    return status;
}

uint32_t topichub_watch_receiver_borrow(topichub_watch_receiver *rx, topichub_value **value) {
    return look(rx, topichub_watch_borrow, value);
}

uint32_t topichub_watch_receiver_take(topichub_watch_receiver *rx, topichub_value **value) {
    return look(rx, topichub_watch_take, value);
}

uint32_t topichub_watch_receiver_has_changed(topichub_watch_receiver *rx) {
    return call_watch(rx->channel, topichub_watch_has_changed, rx->number).status;
}

uint32_t topichub_watch_receiver_try_changed(topichub_watch_receiver *rx) {
    pthread_mutex_lock(&rx->channel->shared.lock);
    uint32_t status = topichub_watch_try_changed(&rx->channel->core, rx->number).status;
    show_watch(rx);
    pthread_mutex_unlock(&rx->channel->shared.lock);
    return status;
}

static uint32_t changed(topichub_watch_receiver *rx, struct limit limit) {
    struct watch *channel = rx->channel;
    uint32_t status;
    pthread_mutex_lock(&channel->shared.lock);
    while ((status = topichub_watch_changed(&channel->core, rx->number).status) == TOPICHUB_WOULD_WAIT) {
        if (limit.is_over) {
            status = TOPICHUB_TIMED_OUT;
            break;
        }
        await_news(&channel->shared, &limit);
    }
    show_watch(rx);
    pthread_mutex_unlock(&channel->shared.lock);
    return status;
}

uint32_t topichub_watch_receiver_changed(topichub_watch_receiver *rx) {
    return changed(rx, (struct limit){.milliseconds = NULL});
}

uint32_t topichub_watch_receiver_changed_for(topichub_watch_receiver *rx, uint64_t milliseconds) {
    return changed(rx, (struct limit){.milliseconds = &milliseconds});
}

void topichub_watch_receiver_mark_changed(topichub_watch_receiver *rx) {
    struct watch *channel = rx->channel;
    pthread_mutex_lock(&channel->shared.lock);
    topichub_watch_mark_changed(&channel->core, rx->number);
    show_watch(rx);
    /* Another thread may wait by the same receiver. */
    int is_anybody = call_waiting(&channel->shared);
    pthread_mutex_unlock(&channel->shared.lock);
    wake(&channel->shared, is_anybody);
}

void topichub_watch_receiver_mark_unchanged(topichub_watch_receiver *rx) {
    pthread_mutex_lock(&rx->channel->shared.lock);
    topichub_watch_mark_unchanged(&rx->channel->core, rx->number);
    show_watch(rx);
    pthread_mutex_unlock(&rx->channel->shared.lock);
}

uint32_t topichub_watch_receiver_clone(topichub_watch_receiver *rx, topichub_watch_receiver **made) {
    return make_watch_receiver(rx->channel, topichub_watch_clone_rx, rx->number, made);
}

uint64_t topichub_watch_receiver_senders(topichub_watch_receiver *rx) {
    return count_senders(&rx->channel->shared);
}

uint32_t topichub_watch_receiver_fd(topichub_watch_receiver *rx, int *fd) {
    pthread_mutex_lock(&rx->channel->shared.lock);
    *fd = descriptor(&rx->channel->shared, &rx->readiness);
    show_watch(rx);
    pthread_mutex_unlock(&rx->channel->shared.lock);
    return *fd < 0 ? TOPICHUB_NO_DESCRIPTOR : TOPICHUB_DONE;
}

void topichub_watch_receiver_close(topichub_watch_receiver *rx) {
    if (rx == NULL)
        return;
    struct watch *channel = rx->channel;
    pthread_mutex_lock(&channel->shared.lock);
    topichub_watch_drop_rx(&channel->core, rx->number);
    forget(&rx->readiness);
    pthread_mutex_unlock(&channel->shared.lock);
    if (drop_hold(&channel->shared.handles))
        free_watch(channel);
    close_descriptor(&rx->readiness);
    free(rx);
}
