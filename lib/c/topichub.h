/*
 * topichub.h: broadcast and watch channels whose every reply is proved.
 *
 * A broadcast channel gives every value that is sent to every receiver, and keeps only the newest ones: a receiver
 * that is too slow is told how many values it missed. A watch channel keeps only the newest value, and tells each
 * reader once that there is a new one. Both follow the documentation of Tokio's channels of these names.
 * docs/CHANNELS.md has every rule, and the answers to each call.
 *
 *     topichub_broadcast news = TOPICHUB_BROADCAST_NONE;
 *     if (topichub_broadcast_new(&news, 2, 0) != TOPICHUB_DONE) return 1;   keeps 2 values; sender 1 is made with it
 *     uint64_t rx = topichub_broadcast_subscribe(&news, 1).number;          a receiver
 *     for (uint64_t value = 10; value < 13; value++) topichub_broadcast_send(&news, 1, value);
 *     topichub_reply told = topichub_broadcast_try_recv(&news, rx);         TOPICHUB_LAGGED, told.number == 1
 *     told = topichub_broadcast_try_recv(&news, rx);                        TOPICHUB_VALUE, told.number == 11
 *     topichub_broadcast_free(&news);
 *
 * Link with -ltopichub, or with the archive libtopichub.a. Both need only the C library.
 *
 *
 * WHAT A CHANNEL IS HERE
 *
 * A channel is a state and the calls that change it. It has no thread and no lock, it never waits, and it makes no
 * callbacks. topichub_threads.h has channels that block, for programs with threads. To share one of these channels
 * between threads, guard it with a mutex and supply your own waiting, such as a condition variable:
 *
 *   - A receive returns TOPICHUB_EMPTY, or TOPICHUB_WOULD_WAIT, if there is nothing yet. Wait then, and call again
 *     after a send (in a watch channel: a publication) and after the last sender is dropped. No other call can end a
 *     wait.
 *   - Give each topichub_broadcast, topichub_watch or topichub_trace to one call at a time, even if the call changes
 *     nothing. A mutex around each call is enough.
 *   - Calls on different ones may run at the same time. A channel or a trace belongs to no thread: it may be made in
 *     one thread, used in others, and freed in yet another.
 *   - Call nothing from a signal handler, or in the child of a fork() of a program that has other threads.
 *
 *
 * VALUES
 *
 * A value is a 64-bit number. It may be the value itself, or stand for something that the caller keeps: an index, or a
 * pointer. The channel copies it, compares it where the call says so, and does nothing else with it. Channels whose
 * values are bytes have calls of their own (below).
 *
 * If you keep something for each value, each reply says how many of them the channel drops (let_go, below), oldest
 * first: what is kept after a call is what was kept, then what was sent, in the order sent, without the first let_go of
 * them. So a queue is enough: append what is sent when the answer is TOPICHUB_SENT, and take let_go entries from its
 * front after each call. A value that is refused was never kept.
 *
 *
 * SENDERS AND RECEIVERS
 *
 * They are numbers, from 1 on in each channel, senders and receivers together, and no number is used twice. A channel
 * is made with sender 1 and no receiver. Each call names the handle that makes it: tx is a sender's number, rx is a
 * receiver's. If no live sender (receiver) has that number, the reply is TOPICHUB_NO_HANDLE. At most 65,535 of each are
 * live at a time.
 *
 *
 * WHAT STAYS COMPATIBLE
 *
 * From the first release on, a program that was linked with one release runs with each later one of the same minor
 * version, such as 0.1; from 1.0 on, with each later one of the same soname. Until then, functions and statuses are
 * only added: no status is renumbered, and none gets another meaning. A status that a program does not know is a
 * refusal. The structs below keep their size and layout. What is behind the pointer of a channel or a trace is not part
 * of the interface.
 *
 *
 * WHAT IS PROVED
 *
 * The code behind these declarations is proved: each call through a handle returns, and leaves behind, what the rules
 * of the channel prescribe; a trace is the spelling of what was called and answered; and topichub_check says `legal`
 * for exactly the legal traces. The caller's obligations are not proved: that handles are as described here and used by one
 * call at a time, and that pointers point to what they should.
 */
#ifndef TOPICHUB_H
#define TOPICHUB_H

#include <stddef.h>
#include <stdint.h>

#ifdef __cplusplus
extern "C" {
#endif

/* The version of this header, as text and as 1,000,000 * major + 1,000 * minor + patch. */
#define TOPICHUB_VERSION "0.1.0"
#define TOPICHUB_VERSION_NUMBER 1000

/* The version of the library that is linked, as TOPICHUB_VERSION_NUMBER is that of the header. */
uint32_t topichub_version(void);

/* How the library that is linked was built: one of TOPICHUB_BUILD_.. Since 0.1.0. */
uint32_t topichub_build(void);

#define TOPICHUB_BUILD_GIVEN 0     /* Of an archive that was given by hand: nothing is known of its proof. */
#define TOPICHUB_BUILD_PROVED 1    /* Of an archive that the toolchain proved: `make`. */
#define TOPICHUB_BUILD_CHECKED 2   /* Of the same sources with run-time checks, and not proved: `make fast`. */
#define TOPICHUB_BUILD_UNCHECKED 3 /* Of the same sources with neither, to be measured: `make unchecked`. */


/*
 * STATUSES
 *
 * Each call below names the statuses that it may return. Some are accompanied by a number.
 *
 * From TOPICHUB_NO_RECEIVERS on, the channel has not changed, and a value that was given was not taken.
 */
enum topichub_status {
    /* Answers. */
    TOPICHUB_DONE = 0,           /* Success: the channel is made, or the handle is dropped. */
    TOPICHUB_SENT = 1,           /* The value was sent. number: to how many receivers, at least 1. */
    TOPICHUB_VALUE = 2,          /* The next value. number: that value. */
    TOPICHUB_LAGGED = 3,         /* The receiver was too slow. number: how many values it missed. It
                                    goes on at the oldest that is left: receive again. */
    TOPICHUB_EMPTY = 4,          /* There is no value yet. */
    TOPICHUB_CLOSED = 5,         /* No sender is left, and there is nothing more to receive. */
    TOPICHUB_NEW_RX = 6,         /* A receiver was made. number: its own. */
    TOPICHUB_NEW_TX = 7,         /* A sender was made. number: its own. */
    TOPICHUB_COUNT = 8,          /* number: the count that was asked for. */
    TOPICHUB_WAS = 9,            /* The value is published. number: the value before it, which is dropped. */
    TOPICHUB_NEW = 10,           /* number: the newest value, which was unseen by this reader. */
    TOPICHUB_SAME = 11,          /* number: the newest value, which this reader had seen. */
    TOPICHUB_YES = 12,           /* The answer to the question is yes. */
    TOPICHUB_NO = 13,            /* The answer to the question is no. */
    TOPICHUB_MARKED = 14,        /* There was a new value, and it is marked as seen. */
    TOPICHUB_NOT_YET = 15,       /* There is nothing new yet. */

    /* The channel's own refusals, by its rules. They are part of a recorded history, as the answers above are. */
    TOPICHUB_NO_RECEIVERS = 16,  /* Nobody receives. number: the value. A later send may succeed. */
    TOPICHUB_EXHAUSTED = 17,     /* The last position, 2^64 - 2, or the last version, 2^64 - 1, has been
                                    given. number: the value. */
    TOPICHUB_TOO_MANY = 18,      /* 65,535 of this kind are live, or no number is left for another one. */
    TOPICHUB_NO_HANDLE = 19,     /* tx is no live sender, or rx no live receiver. number: the value that
                                    was given, else 0. */

    /* Why a call was not made. No history tells of it. */
    TOPICHUB_WOULD_WAIT = 20,    /* The call would wait (topichub_broadcast_recv, topichub_watch_changed). */
    TOPICHUB_LOG_FULL = 21,      /* The recorded history has no room for the call: cut it, and call again. */
    TOPICHUB_NO_MEMORY = 22,     /* malloc() or realloc() failed. The call may be made again. */
    TOPICHUB_NOT_OPEN = 23,      /* There is no channel (no trace) behind the pointer: none was made, or
                                    it was freed. */
    TOPICHUB_IS_OPEN = 24,       /* There is one already: free it first. */
    TOPICHUB_BAD_CAPACITY = 25,  /* A capacity is 1 to 65,536. */
    TOPICHUB_BAD_VERSION = 26,   /* A version is at least 1. */
    TOPICHUB_BAD_LIMIT = 27,     /* The limit of a history is 1 to 1,000,000. */
    TOPICHUB_NOT_RECORDED = 28,  /* The channel was made without a history. */

    /* What topichub_check says of a text. */
    TOPICHUB_LEGAL = 29,         /* It is a trace, and each reply in it is the one that the channel gives. */
    TOPICHUB_ILLEGAL = 30,       /* A line has a reply that the channel would not have given. */
    TOPICHUB_BAD_TRACE = 31,     /* A line may not stand there, or one is missing. */

    /* Of calls with bytes. Nothing has changed. */
    TOPICHUB_OTHER_VALUES = 32,  /* The values of the channel are bytes, and the call is one with a number; or the
                                    other way round. */
    TOPICHUB_BAD_VALUE = 33,     /* A value has 1 to 1,024 bytes, and none of them is LF or CR. */
    TOPICHUB_SMALL_BUFFER = 34,  /* The buffer has fewer than TOPICHUB_MOST_BYTES bytes. */
};

/* A short English text for a status of this header or of topichub_threads.h, and another one for any other number. It
   is never NULL, and lasts as long as the program. The wording may change. Since 0.1.0. */
const char *topichub_status_text(uint32_t status);

/* The reply to a call of a channel. */
typedef struct topichub_reply {
    uint32_t status;  /* One of enum topichub_status. */
    uint32_t let_go;  /* How many of the values that the channel kept are dropped by this call, the oldest ones.
                         Most calls drop none; each says below when it does. With TOPICHUB_VALUE, 1 says that
                         this was the last read of the value, which was the oldest one. */
    uint64_t number;  /* What the status says; otherwise 0. */
} topichub_reply;


/*
 * CHANNELS AND TRACES
 *
 * Each is a struct of one pointer that belongs to the library; NULL stands for none. Begin with TOPICHUB_.._NONE (all
 * zero), let a function make one in it, and free it once. Pass its address, which is never NULL. Do not read or
 * change the pointer, and do not copy the struct while a copy may still be used: it is the one owner of what is behind
 * it. To hand it on, copy it and forget the old one.
 */
typedef struct topichub_broadcast {
    void *at;
} topichub_broadcast;

typedef struct topichub_watch {
    void *at;
} topichub_watch;

typedef struct topichub_trace {
    void *at;
} topichub_trace;

/* Each expands to an initialiser: `topichub_watch light = TOPICHUB_WATCH_NONE;`. */
#define TOPICHUB_BROADCAST_NONE { NULL }
#define TOPICHUB_WATCH_NONE { NULL }
#define TOPICHUB_TRACE_NONE { NULL }


/*
 * BROADCAST CHANNELS
 *
 * Every call below may also return TOPICHUB_NOT_OPEN, and in a recorded channel TOPICHUB_LOG_FULL or
 * TOPICHUB_NO_MEMORY. A drop of a live sender or receiver returns neither of the last two. A call takes time at most
 * logarithmic in the number of senders and receivers, and now and then the growth of the history. Only
 * topichub_broadcast_subscribe_oldest and topichub_broadcast_drop_rx also go through the kept values that the
 * receiver has still to read.
 */

/*
 * Makes a channel with sender 1 and no receiver, in *channel, which must be TOPICHUB_BROADCAST_NONE.
 *
 * It keeps as many values as the least power of two that is at least `capacity`, and all memory for them is taken
 * here: 8 bytes for each value, or somewhat more. The first value that is sent stands at the position `base`, which
 * is 0 for all but tests of the last position.
 *
 * TOPICHUB_DONE, TOPICHUB_BAD_CAPACITY, TOPICHUB_NO_MEMORY, TOPICHUB_IS_OPEN.
 */
uint32_t topichub_broadcast_new(topichub_broadcast *channel, uint64_t capacity, uint64_t base);

/*
 * The same, with a history: each call of the channel and its reply is an entry, until topichub_broadcast_cut takes
 * them. `limit` is the most entries that there are between two cuts. Room is kept within it for the drop of each live
 * sender and receiver, so the limit should be well above their number.
 *
 * Also TOPICHUB_BAD_LIMIT.
 */
uint32_t topichub_broadcast_new_recorded(topichub_broadcast *channel, uint64_t capacity, uint64_t base,
                                         uint64_t limit);

/*
 * Frees the channel with all that it keeps, its history too, and sets *channel to TOPICHUB_BROADCAST_NONE. If it was
 * that already, nothing happens. All values that were kept are dropped. Traces that were cut stay as they are.
 */
void topichub_broadcast_free(topichub_broadcast *channel);

/*
 * Sends a value to every live receiver.
 *
 * TOPICHUB_SENT; TOPICHUB_NO_RECEIVERS, TOPICHUB_EXHAUSTED, TOPICHUB_NO_HANDLE, each with the value. let_go: 1 if
 * the oldest value was dropped to make room, otherwise 0.
 */
topichub_reply topichub_broadcast_send(topichub_broadcast *channel, uint64_t tx, uint64_t value);

/*
 * Receives the next value, in the order sent.
 *
 * TOPICHUB_VALUE, TOPICHUB_LAGGED, TOPICHUB_EMPTY, TOPICHUB_CLOSED, TOPICHUB_NO_HANDLE; and TOPICHUB_NO_MEMORY if
 * another receiver has still to read the value too. let_go: 1 if no other receiver has, otherwise 0.
 */
topichub_reply topichub_broadcast_try_recv(topichub_broadcast *channel, uint64_t rx);

/*
 * The same for a caller that waits: TOPICHUB_WOULD_WAIT instead of TOPICHUB_EMPTY. Then no call was made, and a
 * history has no entry. A trace distinguishes the two, as `try-recv` and `recv`.
 */
topichub_reply topichub_broadcast_recv(topichub_broadcast *channel, uint64_t rx);

/*
 * A new receiver, of what is sent from now on.
 *
 * TOPICHUB_NEW_RX, TOPICHUB_TOO_MANY, TOPICHUB_NO_HANDLE, TOPICHUB_NO_MEMORY. let_go: 0.
 */
topichub_reply topichub_broadcast_subscribe(topichub_broadcast *channel, uint64_t tx);

/* A new receiver, which first gets what is still kept. Statuses as of topichub_broadcast_subscribe. */
topichub_reply topichub_broadcast_subscribe_oldest(topichub_broadcast *channel, uint64_t tx);

/* A new receiver, of what is sent from now on, asked for by a receiver, which stays as it is. Statuses as of
   topichub_broadcast_subscribe. */
topichub_reply topichub_broadcast_resubscribe(topichub_broadcast *channel, uint64_t rx);

/* A new sender. TOPICHUB_NEW_TX, TOPICHUB_TOO_MANY, TOPICHUB_NO_HANDLE, TOPICHUB_NO_MEMORY. let_go: 0. */
topichub_reply topichub_broadcast_clone_tx(topichub_broadcast *channel, uint64_t tx);

/* Drops a sender. Without senders the channel is closed. TOPICHUB_DONE, TOPICHUB_NO_HANDLE.
   let_go: 0. */
topichub_reply topichub_broadcast_drop_tx(topichub_broadcast *channel, uint64_t tx);

/*
 * Drops a receiver. TOPICHUB_DONE, TOPICHUB_NO_HANDLE.
 * let_go: the number of values that only it had still to read.
 */
topichub_reply topichub_broadcast_drop_rx(topichub_broadcast *channel, uint64_t rx);

/* How many values are kept (Tokio: Sender::len). TOPICHUB_COUNT, TOPICHUB_NO_HANDLE. let_go: 0. */
topichub_reply topichub_broadcast_queued(topichub_broadcast *channel, uint64_t tx);

/* How many values this receiver has still to read, including those that it missed (Tokio: Receiver::len).
   TOPICHUB_COUNT, TOPICHUB_NO_HANDLE. let_go: 0. */
topichub_reply topichub_broadcast_left(topichub_broadcast *channel, uint64_t rx);

/* How many receivers are live (Tokio: Sender::receiver_count). TOPICHUB_COUNT, TOPICHUB_NO_HANDLE. let_go: 0. */
topichub_reply topichub_broadcast_readers(topichub_broadcast *channel, uint64_t tx);

/*
 * Takes the history so far, as a trace in *trace, which must be TOPICHUB_TRACE_NONE. The next trace begins where this
 * one ends. A cut is not an entry. It takes time and memory in proportion to what the channel keeps and to its senders
 * and receivers, and not to the entries.
 *
 * TOPICHUB_DONE, TOPICHUB_NOT_RECORDED, TOPICHUB_NO_MEMORY, TOPICHUB_NOT_OPEN, and TOPICHUB_IS_OPEN if there is
 * a trace in *trace.
 */
uint32_t topichub_broadcast_cut(topichub_broadcast *channel, topichub_trace *trace);


/*
 * BROADCAST CHANNELS OF BYTES
 *
 * The values of such a channel are 1 to 1,024 bytes without LF or CR. The channel keeps them itself: a send copies them
 * in, a receive copies them out. Where a status is accompanied by a value, the number is the value's length in bytes.
 * All calls above that neither take nor give a value work here too. topichub_broadcast_send, _try_recv and _recv return
 * TOPICHUB_OTHER_VALUES, and so do the calls below for a channel of numbers.
 */
#define TOPICHUB_MOST_BYTES 1024

/* Makes one without a history, as topichub_broadcast_new does. */
uint32_t topichub_broadcast_new_of_bytes(topichub_broadcast *channel, uint64_t capacity, uint64_t base);

/* Makes one with a history, as topichub_broadcast_new_recorded does. Its trace has the values as they are. */
uint32_t topichub_broadcast_new_of_bytes_recorded(topichub_broadcast *channel, uint64_t capacity, uint64_t base,
                                                  uint64_t limit);

/* Sends `length` bytes to every live receiver. `bytes` is not NULL. Statuses as of topichub_broadcast_send, and
   TOPICHUB_BAD_VALUE, TOPICHUB_OTHER_VALUES. The bytes are checked and copied first, so TOPICHUB_BAD_VALUE
   comes before the channel's answer, and TOPICHUB_NO_MEMORY may take its place. */
topichub_reply topichub_broadcast_send_bytes(topichub_broadcast *channel, uint64_t tx, const uint8_t *bytes,
                                             size_t length);

/*
 * Receives the next value into `buffer`, which has room for `length` bytes, at least TOPICHUB_MOST_BYTES, and is not
 * NULL. With TOPICHUB_VALUE the number is how many bytes were written; the rest of the buffer is unchanged.
 *
 * Statuses as of topichub_broadcast_try_recv and topichub_broadcast_recv, and TOPICHUB_SMALL_BUFFER,
 * TOPICHUB_OTHER_VALUES. With any status but TOPICHUB_VALUE, the buffer is unchanged.
 */
topichub_reply topichub_broadcast_try_recv_bytes(topichub_broadcast *channel, uint64_t rx, uint8_t *buffer,
                                                 size_t length);
topichub_reply topichub_broadcast_recv_bytes(topichub_broadcast *channel, uint64_t rx, uint8_t *buffer, size_t length);


/*
 * WATCH CHANNELS
 *
 * To publish a value is to make it the newest one, at the next version. The value before it is dropped; there is
 * always exactly one.
 *
 * Every call below may also return TOPICHUB_NOT_OPEN, and in a recorded channel TOPICHUB_LOG_FULL or
 * TOPICHUB_NO_MEMORY. A drop of a live sender or reader returns neither of the last two. A call takes time at most
 * logarithmic in the number of senders and readers.
 */

/*
 * Makes a channel with sender 1 and no reader, in *channel, which must be TOPICHUB_WATCH_NONE. `value` is the newest
 * value, and `version` its version, which is 1 except in tests of the last version.
 *
 * TOPICHUB_DONE, TOPICHUB_BAD_VERSION, TOPICHUB_NO_MEMORY, TOPICHUB_IS_OPEN. With any status but
 * TOPICHUB_DONE, the value was not taken.
 */
uint32_t topichub_watch_new(topichub_watch *channel, uint64_t value, uint64_t version);

/* The same, with a history of at most `limit` entries between two cuts, as topichub_broadcast_new_recorded has it.
   Also TOPICHUB_BAD_LIMIT. */
uint32_t topichub_watch_new_recorded(topichub_watch *channel, uint64_t value, uint64_t version, uint64_t limit);

/* Frees the channel with all that it keeps, and sets *channel to TOPICHUB_WATCH_NONE. If it was that already, nothing
   happens. The newest value is dropped. */
void topichub_watch_free(topichub_watch *channel);

/*
 * Publishes a value, if there is a reader.
 *
 * TOPICHUB_DONE; TOPICHUB_NO_RECEIVERS, TOPICHUB_EXHAUSTED, TOPICHUB_NO_HANDLE, each with the value. let_go: 1 with
 * TOPICHUB_DONE.
 */
topichub_reply topichub_watch_send(topichub_watch *channel, uint64_t tx, uint64_t value);

/* Publishes a value, readers or not (Tokio: send_replace). TOPICHUB_WAS with the value before, let_go 1;
   TOPICHUB_EXHAUSTED, TOPICHUB_NO_HANDLE. */
topichub_reply topichub_watch_replace(topichub_watch *channel, uint64_t tx, uint64_t value);

/*
 * Publishes a value, readers or not. With the next two it takes the place of Tokio's send_modify and send_if_modified,
 * since no closure can be passed here: change what you keep for the value, and report the result.
 *
 * TOPICHUB_YES: it is published, let_go 1. TOPICHUB_EXHAUSTED, TOPICHUB_NO_HANDLE.
 */
topichub_reply topichub_watch_set(topichub_watch *channel, uint64_t tx, uint64_t value);

/* Publishes the number, if it differs from the newest one: TOPICHUB_YES with let_go 1, or TOPICHUB_NO with let_go 0,
   and then the value was not taken. TOPICHUB_EXHAUSTED (only if it differs), TOPICHUB_NO_HANDLE. */
topichub_reply topichub_watch_differ(topichub_watch *channel, uint64_t tx, uint64_t value);

/* Replaces the newest value, in the same version, and tells nobody: TOPICHUB_NO, with let_go 1.
   TOPICHUB_NO_HANDLE. */
topichub_reply topichub_watch_quiet(topichub_watch *channel, uint64_t tx, uint64_t value);

/* Shows the newest value, and leaves it unseen if it is. TOPICHUB_NEW, TOPICHUB_SAME, TOPICHUB_NO_HANDLE,
   TOPICHUB_NO_MEMORY. let_go: 0. */
topichub_reply topichub_watch_borrow(topichub_watch *channel, uint64_t rx);

/* The same, and marks it as seen (Tokio: borrow_and_update). */
topichub_reply topichub_watch_take(topichub_watch *channel, uint64_t rx);

/* Whether the newest value is unseen by the reader. TOPICHUB_YES, TOPICHUB_NO; TOPICHUB_CLOSED if no sender is
   left; TOPICHUB_NO_HANDLE. let_go: 0. */
topichub_reply topichub_watch_has_changed(topichub_watch *channel, uint64_t rx);

/*
 * Marks the newest value as seen, if it is unseen.
 *
 * TOPICHUB_MARKED: it was. Otherwise TOPICHUB_CLOSED if no sender is left, or TOPICHUB_NOT_YET. TOPICHUB_NO_HANDLE.
 * let_go: 0.
 */
topichub_reply topichub_watch_try_changed(topichub_watch *channel, uint64_t rx);

/* The same for a caller that waits: TOPICHUB_WOULD_WAIT instead of TOPICHUB_NOT_YET, like
   topichub_broadcast_recv. */
topichub_reply topichub_watch_changed(topichub_watch *channel, uint64_t rx);

/* Makes the newest value unseen by this reader. TOPICHUB_DONE, TOPICHUB_NO_HANDLE. let_go: 0. */
topichub_reply topichub_watch_mark_changed(topichub_watch *channel, uint64_t rx);

/* Marks the newest value as seen by this reader. TOPICHUB_DONE, TOPICHUB_NO_HANDLE. let_go: 0. */
topichub_reply topichub_watch_mark_unchanged(topichub_watch *channel, uint64_t rx);

/* A new reader, for which the newest value counts as seen. TOPICHUB_NEW_RX, TOPICHUB_TOO_MANY, TOPICHUB_NO_HANDLE,
   TOPICHUB_NO_MEMORY. let_go: 0. */
topichub_reply topichub_watch_subscribe(topichub_watch *channel, uint64_t tx);

/* A new reader, for which the newest value is seen or unseen as for this one. Statuses as of
   topichub_watch_subscribe. */
topichub_reply topichub_watch_clone_rx(topichub_watch *channel, uint64_t rx);

/* A new sender. TOPICHUB_NEW_TX, TOPICHUB_TOO_MANY, TOPICHUB_NO_HANDLE, TOPICHUB_NO_MEMORY. let_go: 0. */
topichub_reply topichub_watch_clone_tx(topichub_watch *channel, uint64_t tx);

/* Drops a sender. Without senders the channel is closed. TOPICHUB_DONE, TOPICHUB_NO_HANDLE. let_go: 0. */
topichub_reply topichub_watch_drop_tx(topichub_watch *channel, uint64_t tx);

/* Drops a reader. TOPICHUB_DONE, TOPICHUB_NO_HANDLE. let_go: 0. */
topichub_reply topichub_watch_drop_rx(topichub_watch *channel, uint64_t rx);

/* Whether no reader is left. TOPICHUB_YES, TOPICHUB_NO, TOPICHUB_NO_HANDLE. let_go: 0. */
topichub_reply topichub_watch_is_closed(topichub_watch *channel, uint64_t tx);

/* How many readers are live (Tokio: receiver_count). TOPICHUB_COUNT, TOPICHUB_NO_HANDLE. let_go: 0. */
topichub_reply topichub_watch_readers(topichub_watch *channel, uint64_t tx);

/* Takes the history so far, as topichub_broadcast_cut does, with the same statuses. */
uint32_t topichub_watch_cut(topichub_watch *channel, topichub_trace *trace);


/*
 * WATCH CHANNELS OF BYTES
 *
 * Their values, and numbers that accompany a value, are as in broadcast channels of bytes. All calls above that neither
 * take nor give a value work here too. topichub_watch_send, _replace, _set, _differ, _quiet, _borrow
 * and _take return TOPICHUB_OTHER_VALUES, and so do the calls below for a channel of numbers.
 *
 * The bytes are checked and copied first, then the buffer is checked, then the channel is asked: so TOPICHUB_BAD_VALUE
 * comes before TOPICHUB_SMALL_BUFFER, both before the channel's answer, and TOPICHUB_NO_MEMORY may take its place. `bytes`
 * and `buffer` are not NULL.
 */

/* Makes one without a history, as topichub_watch_new does. Also TOPICHUB_BAD_VALUE. */
uint32_t topichub_watch_new_of_bytes(topichub_watch *channel, const uint8_t *bytes, size_t length, uint64_t version);

/* Makes one with a history, as topichub_watch_new_recorded does. Also TOPICHUB_BAD_VALUE. Its trace has the values
   as they are. */
uint32_t topichub_watch_new_of_bytes_recorded(topichub_watch *channel, const uint8_t *bytes, size_t length,
                                              uint64_t version, uint64_t limit);

/* As topichub_watch_send, _set, _differ and _quiet, with `length` bytes as the value. Also TOPICHUB_BAD_VALUE,
   TOPICHUB_OTHER_VALUES. */
topichub_reply topichub_watch_send_bytes(topichub_watch *channel, uint64_t tx, const uint8_t *bytes, size_t length);
topichub_reply topichub_watch_set_bytes(topichub_watch *channel, uint64_t tx, const uint8_t *bytes, size_t length);
topichub_reply topichub_watch_differ_bytes(topichub_watch *channel, uint64_t tx, const uint8_t *bytes, size_t length);
topichub_reply topichub_watch_quiet_bytes(topichub_watch *channel, uint64_t tx, const uint8_t *bytes, size_t length);

/*
 * As topichub_watch_borrow and topichub_watch_take. With TOPICHUB_NEW and TOPICHUB_SAME the value is put into
 * `buffer`, which has room for `length` bytes, at least TOPICHUB_MOST_BYTES, and the number is its length. The rest
 * of the buffer is unchanged, and so is all of it with any other status.
 *
 * Also TOPICHUB_SMALL_BUFFER, TOPICHUB_OTHER_VALUES.
 */
topichub_reply topichub_watch_borrow_bytes(topichub_watch *channel, uint64_t rx, uint8_t *buffer, size_t length);
topichub_reply topichub_watch_take_bytes(topichub_watch *channel, uint64_t rx, uint8_t *buffer, size_t length);

/* As topichub_watch_replace, with `length` bytes as the value. With TOPICHUB_WAS the value before is put into
   `buffer`, which has room for `room` bytes, as by topichub_watch_borrow_bytes. Also TOPICHUB_BAD_VALUE,
   TOPICHUB_SMALL_BUFFER, TOPICHUB_OTHER_VALUES. `bytes` and `buffer` do not overlap. */
topichub_reply topichub_watch_replace_bytes(topichub_watch *channel, uint64_t tx, const uint8_t *bytes, size_t length,
                                            uint8_t *buffer, size_t room);


/*
 * TRACES
 *
 * A trace is a text: the state that a channel was in, then each call with its reply (docs/FORMATS.md, "Traces").
 * Anyone can check it by topichub_check, or by the program `topichub check`. A number appears in decimal
 * digits, so the number 10 becomes the value `10`. Bytes appear as they are.
 */

/*
 * Puts the next bytes of the trace into `buffer`, which has room for `length` bytes, and their number into *written:
 * as many as there is room for, fewer only at the end of the trace. The next call continues where this one ended; at
 * the end *written is 0.
 *
 * The first call makes the text, which takes time and memory in proportion to the entries. `buffer` is not NULL, even
 * if `length` is 0.
 *
 * TOPICHUB_DONE; TOPICHUB_NO_MEMORY and TOPICHUB_NOT_OPEN, with 0 in *written.
 */
uint32_t topichub_trace_read(topichub_trace *trace, uint8_t *buffer, size_t length, uint64_t *written);

/* Frees the trace, read to its end or not, and sets *trace to TOPICHUB_TRACE_NONE. If it was that already, nothing
   happens. */
void topichub_trace_free(topichub_trace *trace);

/*
 * Whether a text of `length` bytes is the trace of a legal history, and puts a number into *line.
 *
 * TOPICHUB_LEGAL: the number of its entries. TOPICHUB_ILLEGAL and TOPICHUB_BAD_TRACE: the number of the first line
 * that is wrong or missing, from 1 on. TOPICHUB_NO_MEMORY: 0.
 *
 * `text` is not NULL, even if `length` is 0. It takes time in proportion to the text, and memory in proportion to what
 * the channel of the trace keeps. Calls of topichub_check and topichub_version may run at the same time as any others.
 */
uint32_t topichub_check(const uint8_t *text, size_t length, uint64_t *line);

#ifdef __cplusplus
}
#endif
#endif
