/*
 * topichub_threads.h: broadcast and watch channels that block, for programs with threads.
 *
 * These are the channels of topichub.h, together with what that header leaves to its users: a lock, waiting and waking,
 * and values of any size. docs/CHANNELS.md has the rules of both channels.
 *
 *     topichub_broadcast_sender *tx;
 *     topichub_broadcast_receiver *rx;
 *     topichub_value *value;
 *     if (topichub_broadcast_open(&tx, &rx, 16) != TOPICHUB_DONE) return 1;
 *     topichub_broadcast_sender_send_bytes(tx, "hello", 5);                     in one thread
 *     if (topichub_broadcast_receiver_recv(rx, &value).status == TOPICHUB_VALUE) {       in another: it blocks
 *         fwrite(topichub_value_data(value), 1, topichub_value_size(value), stdout);
 *         topichub_value_release(value);
 *     }
 *     topichub_broadcast_sender_close(tx);
 *     topichub_broadcast_receiver_close(rx);
 *
 * Link with -ltopichub_threads -ltopichub -pthread, or by `pkg-config --libs topichub-threads`; or compile
 * topichub_threads.c with your own sources. It takes Linux, for eventfd, and the C library. Everything in this header
 * is there since 0.1.0.
 *
 *
 * THREADS
 *
 *   - Any thread may call any function at any time, and several threads may use the same handle at once. If several
 *     threads receive through one receiver, each value goes to one of them.
 *   - A close is the last call with its handle: no other call with that handle may be running, and none may follow.
 *     The handles of a channel are independent: they may be closed in any order, and while other handles are in use.
 *     The channel is freed with its last handle.
 *   - A call that blocks sleeps until there is an answer. It holds no lock while it sleeps. A thread may be cancelled
 *     (pthread_cancel) while it sleeps; it has then received nothing. No other call is a cancellation point.
 *   - Signal handlers may not call anything here, nor may the child of a fork() of a program that has other threads.
 *
 *
 * REPLIES
 *
 * Each call names the statuses that it may return: those of topichub.h, and the two below. topichub_status_text has
 * the text of each. `let_go` of a topichub_reply is always 0 here, since the library frees values itself.
 * TOPICHUB_NO_MEMORY means that nothing has changed and that the call may be made again.
 *
 * Handles and pointers to results are never NULL, except where a call says so.
 *
 *
 * WHAT STAYS COMPATIBLE
 *
 * What topichub.h says of it holds here too, of libtopichub_threads.so.0. Handles and values are only pointed to: their
 * sizes and what they consist of are not part of the interface.
 *
 *
 * WHAT IS PROVED
 *
 * Which reply a call gets: it is that of topichub.h, whose code is proved, and the library makes one call of it at a
 * time. The lock, the waiting and waking, the counting of values and the descriptors are tested, and not proved.
 */
#ifndef TOPICHUB_THREADS_H
#define TOPICHUB_THREADS_H

#include "topichub.h"

#ifdef __cplusplus
extern "C" {
#endif

/* Statuses that topichub.h does not have. Those of topichub.h stay below 1,000. */
enum topichub_threads_status {
    TOPICHUB_TIMED_OUT = 1000,     /* The time is up. Nothing was received, and nothing is lost. */
    TOPICHUB_NO_DESCRIPTOR = 1001, /* eventfd() gave none; errno says why. The call may be made again. */
};


/*
 * VALUES
 *
 * A value is data with a count of its holders: the channels that keep it, and the callers that received it. The data is
 * freed exactly once, when the last holder releases the value, in the thread that releases it. No lock of the library is
 * held then, so the function that frees the data may call anything here.
 *
 * All receivers of a value get the same data. Once it is sent, change it only under a lock of your own.
 */
typedef struct topichub_value topichub_value;

/*
 * Makes a value of data that the caller has, in *value, which the caller then holds. `size` is for topichub_value_size
 * alone. `free_data` is called with `data` once nobody holds the value; it may be NULL, and then nothing is called.
 *
 * TOPICHUB_DONE. TOPICHUB_NO_MEMORY: the data was not taken, and *value is NULL.
 */
uint32_t topichub_value_new(topichub_value **value, void *data, size_t size, void (*free_data)(void *data));

/* Makes a value with a copy of `size` bytes, aligned for any type. `bytes` may be NULL if `size` is 0.
   TOPICHUB_DONE; TOPICHUB_NO_MEMORY, with NULL in *value. */
uint32_t topichub_value_new_bytes(topichub_value **value, const void *bytes, size_t size);

/* The data. It is there for as long as the caller holds the value. */
void *topichub_value_data(const topichub_value *value);

/* The size that the value was made with. */
size_t topichub_value_size(const topichub_value *value);

/* Adds a hold, for another topichub_value_release, and returns the value. */
topichub_value *topichub_value_retain(topichub_value *value);

/* Releases the value. Release each value once that a call returned or put into a `topichub_value **`. NULL is allowed,
   and nothing happens then. */
void topichub_value_release(topichub_value *value);


/*
 * BROADCAST CHANNELS
 *
 * Every value goes to every receiver. The channel keeps the newest values; a receiver that is too slow learns how many
 * it missed. Values are numbered in the order sent, from 0.
 *
 * A call that takes a value has three forms: for data of the caller's, as topichub_value_new takes it; for bytes, which
 * are copied (_bytes); and for a value that the caller holds (_value). The last adds a hold for the channel: the caller
 * still releases the value, and may send it again, also to other channels.
 */
typedef struct topichub_broadcast_sender topichub_broadcast_sender;
typedef struct topichub_broadcast_receiver topichub_broadcast_receiver;

/*
 * Opens a channel, with a sender in *tx and a receiver in *rx. `rx` may be NULL: the channel has no receiver then, and
 * topichub_broadcast_sender_subscribe makes them.
 *
 * It keeps as many values as the least power of two that is at least `capacity`, which is 1 to 65,536.
 *
 * TOPICHUB_DONE. TOPICHUB_BAD_CAPACITY, TOPICHUB_NO_MEMORY: nothing was made, and *tx and *rx are NULL.
 */
uint32_t topichub_broadcast_open(topichub_broadcast_sender **tx, topichub_broadcast_receiver **rx, uint64_t capacity);

/* Makes another sender of the channel, in *made. TOPICHUB_DONE. TOPICHUB_TOO_MANY (65,535 are open),
   TOPICHUB_NO_MEMORY: *made is NULL. */
uint32_t topichub_broadcast_sender_clone(topichub_broadcast_sender *tx, topichub_broadcast_sender **made);

/* Closes the sender. With the last one the channel is closed: its receivers get what is kept for them, and then
   TOPICHUB_CLOSED. NULL is allowed, and nothing happens then. */
void topichub_broadcast_sender_close(topichub_broadcast_sender *tx);

/*
 * Sends a value to every receiver. It never waits for a receiver: in a full channel the oldest value makes room.
 *
 * TOPICHUB_SENT. number: to how many receivers, at least 1.
 * TOPICHUB_NO_RECEIVERS: there is none; a later send may succeed. TOPICHUB_EXHAUSTED: 2^64 - 1 values were sent.
 * TOPICHUB_NO_MEMORY. With these three the value was not taken: `data` is still the caller's, and is not freed.
 */
topichub_reply topichub_broadcast_sender_send(topichub_broadcast_sender *tx, void *data, size_t size,
                                              void (*free_data)(void *data));
topichub_reply topichub_broadcast_sender_send_bytes(topichub_broadcast_sender *tx, const void *bytes, size_t size);

/* The same, except that it needs no memory: TOPICHUB_SENT, TOPICHUB_NO_RECEIVERS, TOPICHUB_EXHAUSTED. */
topichub_reply topichub_broadcast_sender_send_value(topichub_broadcast_sender *tx, topichub_value *value);

/* Makes a receiver of what is sent from now on, in *made. TOPICHUB_DONE. TOPICHUB_TOO_MANY (65,535 are open),
   TOPICHUB_NO_MEMORY: *made is NULL. */
uint32_t topichub_broadcast_sender_subscribe(topichub_broadcast_sender *tx, topichub_broadcast_receiver **made);

/* The same, but the receiver first gets what is still kept for others. */
uint32_t topichub_broadcast_sender_subscribe_oldest(topichub_broadcast_sender *tx, topichub_broadcast_receiver **made);

/* How many receivers are open (Tokio: Sender::receiver_count). */
uint64_t topichub_broadcast_sender_receivers(topichub_broadcast_sender *tx);

/* How many senders are open, this one included (Tokio: Sender::strong_count). */
uint64_t topichub_broadcast_sender_senders(topichub_broadcast_sender *tx);

/* How many values are kept, since some receiver has still to receive them (Tokio: Sender::len). */
uint64_t topichub_broadcast_sender_queued(topichub_broadcast_sender *tx);

/*
 * Receives the next value, in the order sent, if there is one.
 *
 * TOPICHUB_VALUE: the value is in *value; the caller releases it. number: its number.
 * TOPICHUB_LAGGED: the receiver was too slow. number: exactly how many values it missed. The next receive goes on at
 * the oldest value that is kept.
 * TOPICHUB_EMPTY: there is no value yet. TOPICHUB_CLOSED: no sender is open, and everything was received.
 * Except with TOPICHUB_VALUE, *value is NULL.
 */
topichub_reply topichub_broadcast_receiver_try_recv(topichub_broadcast_receiver *rx, topichub_value **value);

/* The same, but it blocks while the reply would be TOPICHUB_EMPTY. */
topichub_reply topichub_broadcast_receiver_recv(topichub_broadcast_receiver *rx, topichub_value **value);

/* The same, but it blocks for at most this many milliseconds, by CLOCK_MONOTONIC, and then returns TOPICHUB_TIMED_OUT.
   A value that comes later is the one that the next receive returns. */
topichub_reply topichub_broadcast_receiver_recv_for(topichub_broadcast_receiver *rx, topichub_value **value,
                                                    uint64_t milliseconds);

/* Makes another receiver, of what is sent from now on, in *made; this one does not change. TOPICHUB_DONE.
   TOPICHUB_TOO_MANY (65,535 are open), TOPICHUB_NO_MEMORY: *made is NULL. */
uint32_t topichub_broadcast_receiver_resubscribe(topichub_broadcast_receiver *rx, topichub_broadcast_receiver **made);

/* How many values this receiver has still to come, those that it missed included (Tokio: Receiver::len). */
uint64_t topichub_broadcast_receiver_left(topichub_broadcast_receiver *rx);

/* How many senders are open (Tokio: Receiver::sender_strong_count). With 0 the channel is closed. */
uint64_t topichub_broadcast_receiver_senders(topichub_broadcast_receiver *rx);

/*
 * A descriptor for poll, select and epoll, in *fd. The first call makes it; later ones return the same.
 *
 * It is readable for exactly as long as topichub_broadcast_receiver_try_recv would return anything but TOPICHUB_EMPTY:
 * a value, a lag, or the end. So it is level-triggered: the receive after which nothing is left makes it unreadable,
 * and once the channel is closed it stays readable. A try_recv that returned TOPICHUB_EMPTY and a poll that follows it
 * miss nothing that is sent in between. With EPOLLET, receive until TOPICHUB_EMPTY before the next wait.
 *
 * The descriptor belongs to the receiver, which closes it when it is closed. Do not read, write or close it. It is
 * close-on-exec. While a receiver has one, each send that ends a time of emptiness costs a system call, and so does the
 * receive that begins one.
 *
 * TOPICHUB_DONE. TOPICHUB_NO_DESCRIPTOR: *fd is -1.
 */
uint32_t topichub_broadcast_receiver_fd(topichub_broadcast_receiver *rx, int *fd);

/* Closes the receiver and its descriptor. Values that only it had still to receive are released. NULL is allowed, and
   nothing happens then. */
void topichub_broadcast_receiver_close(topichub_broadcast_receiver *rx);


/*
 * WATCH CHANNELS
 *
 * A watch channel keeps the newest value alone, and tells each receiver once that there is a new one. The value that it
 * is opened with counts as seen.
 */
typedef struct topichub_watch_sender topichub_watch_sender;
typedef struct topichub_watch_receiver topichub_watch_receiver;

/*
 * Opens a channel whose newest value is this one, with a sender in *tx and a receiver in *rx. `rx` may be NULL, as in
 * topichub_broadcast_open.
 *
 * TOPICHUB_DONE. TOPICHUB_NO_MEMORY: nothing was made, *tx and *rx are NULL, and the value was not taken.
 */
uint32_t topichub_watch_open(topichub_watch_sender **tx, topichub_watch_receiver **rx, void *data, size_t size,
                             void (*free_data)(void *data));
uint32_t topichub_watch_open_bytes(topichub_watch_sender **tx, topichub_watch_receiver **rx, const void *bytes,
                                   size_t size);
uint32_t topichub_watch_open_value(topichub_watch_sender **tx, topichub_watch_receiver **rx, topichub_value *value);

/* Makes another sender of the channel, in *made. TOPICHUB_DONE. TOPICHUB_TOO_MANY (65,535 are open),
   TOPICHUB_NO_MEMORY: *made is NULL. */
uint32_t topichub_watch_sender_clone(topichub_watch_sender *tx, topichub_watch_sender **made);

/* Closes the sender. With the last one the channel is closed; the newest value can still be borrowed. NULL is allowed,
   and nothing happens then. */
void topichub_watch_sender_close(topichub_watch_sender *tx);

/*
 * Publishes a value, if there is a receiver.
 *
 * TOPICHUB_DONE. TOPICHUB_NO_RECEIVERS, TOPICHUB_EXHAUSTED (2^64 - 1 versions were published), TOPICHUB_NO_MEMORY: the
 * value was not taken.
 */
uint32_t topichub_watch_sender_send(topichub_watch_sender *tx, void *data, size_t size, void (*free_data)(void *data));
uint32_t topichub_watch_sender_send_bytes(topichub_watch_sender *tx, const void *bytes, size_t size);

/* The same, except that it needs no memory: TOPICHUB_DONE, TOPICHUB_NO_RECEIVERS, TOPICHUB_EXHAUSTED. */
uint32_t topichub_watch_sender_send_value(topichub_watch_sender *tx, topichub_value *value);

/*
 * Publishes a value, with or without receivers (Tokio: send_replace). The value that it replaces is put into *before,
 * and the caller releases it; `before` may be NULL.
 *
 * TOPICHUB_WAS. TOPICHUB_EXHAUSTED: the value was not taken, and *before is NULL.
 */
uint32_t topichub_watch_sender_replace(topichub_watch_sender *tx, topichub_value *value, topichub_value **before);

/* The newest value, which the caller releases (Tokio: Sender::borrow). */
topichub_value *topichub_watch_sender_borrow(topichub_watch_sender *tx);

/* Makes a receiver that has seen the newest value, in *made. TOPICHUB_DONE. TOPICHUB_TOO_MANY (65,535 are open),
   TOPICHUB_NO_MEMORY: *made is NULL. */
uint32_t topichub_watch_sender_subscribe(topichub_watch_sender *tx, topichub_watch_receiver **made);

/* How many receivers are open (Tokio: Sender::receiver_count). */
uint64_t topichub_watch_sender_receivers(topichub_watch_sender *tx);

/* How many senders are open, this one included. */
uint64_t topichub_watch_sender_senders(topichub_watch_sender *tx);

/* Puts the newest value into *value, and the caller releases it; it stays unseen if it was. TOPICHUB_NEW: this receiver
   had not seen it. TOPICHUB_SAME: it had. A closed channel still has its newest value. */
uint32_t topichub_watch_receiver_borrow(topichub_watch_receiver *rx, topichub_value **value);

/* The same, and marks the value seen (Tokio: borrow_and_update). */
uint32_t topichub_watch_receiver_take(topichub_watch_receiver *rx, topichub_value **value);

/* Whether the newest value is unseen by this receiver. TOPICHUB_YES, TOPICHUB_NO; TOPICHUB_CLOSED if no sender is
   open. */
uint32_t topichub_watch_receiver_has_changed(topichub_watch_receiver *rx);

/* Marks the newest value seen, if it is unseen. TOPICHUB_MARKED: it was unseen. TOPICHUB_NOT_YET: it was seen.
   TOPICHUB_CLOSED: it was seen, and no sender is open. */
uint32_t topichub_watch_receiver_try_changed(topichub_watch_receiver *rx);

/* The same, but it blocks while the status would be TOPICHUB_NOT_YET. */
uint32_t topichub_watch_receiver_changed(topichub_watch_receiver *rx);

/* The same, but it blocks for at most this many milliseconds, by CLOCK_MONOTONIC, and then returns TOPICHUB_TIMED_OUT.
   A value that comes later is unseen, and the next call tells of it. */
uint32_t topichub_watch_receiver_changed_for(topichub_watch_receiver *rx, uint64_t milliseconds);

/* Makes the newest value unseen by this receiver. */
void topichub_watch_receiver_mark_changed(topichub_watch_receiver *rx);

/* Marks the newest value seen by this receiver. */
void topichub_watch_receiver_mark_unchanged(topichub_watch_receiver *rx);

/* Makes another receiver, to which the newest value is seen or unseen as it is to this one, in *made. TOPICHUB_DONE.
   TOPICHUB_TOO_MANY (65,535 are open), TOPICHUB_NO_MEMORY: *made is NULL. */
uint32_t topichub_watch_receiver_clone(topichub_watch_receiver *rx, topichub_watch_receiver **made);

/* How many senders are open. With 0 the channel is closed. */
uint64_t topichub_watch_receiver_senders(topichub_watch_receiver *rx);

/* A descriptor for poll, select and epoll, as topichub_broadcast_receiver_fd has it. It is readable for exactly as long
   as topichub_watch_receiver_try_changed would return anything but TOPICHUB_NOT_YET. */
uint32_t topichub_watch_receiver_fd(topichub_watch_receiver *rx, int *fd);

/* Closes the receiver and its descriptor. NULL is allowed, and nothing happens then. */
void topichub_watch_receiver_close(topichub_watch_receiver *rx);

#ifdef __cplusplus
}
#endif
#endif
