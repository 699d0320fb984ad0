/* Threads are woken only where some wait, and a wait that is over looks once more. Linked with
 * -Wl,--wrap=pthread_cond_broadcast,--wrap=pthread_cond_wait,--wrap=pthread_cond_timedwait. */
#define _POSIX_C_SOURCE 200809L
#include "blocking.h"

#include <errno.h>
#include <semaphore.h>

int __real_pthread_cond_broadcast(pthread_cond_t *news);
int __real_pthread_cond_wait(pthread_cond_t *news, pthread_mutex_t *lock);
int __real_pthread_cond_timedwait(pthread_cond_t *news, pthread_mutex_t *lock, const struct timespec *end);
int __wrap_pthread_cond_broadcast(pthread_cond_t *news);
int __wrap_pthread_cond_wait(pthread_cond_t *news, pthread_mutex_t *lock);
int __wrap_pthread_cond_timedwait(pthread_cond_t *news, pthread_mutex_t *lock, const struct timespec *end);

/* How often threads were woken, and who begins to wait. */
static atomic_int wakes;
static sem_t begins;

/* By which a value comes at the very end of a wait with a limit, or none. */
static topichub_broadcast_sender *late;
static topichub_watch_sender *late_publisher;

int __wrap_pthread_cond_broadcast(pthread_cond_t *news) {
    atomic_fetch_add(&wakes, 1);
    return __real_pthread_cond_broadcast(news);
}

int __wrap_pthread_cond_wait(pthread_cond_t *news, pthread_mutex_t *lock) {
    /* The lock is held, so whoever sends from now on finds the thread waiting. */
    sem_post(&begins);
    return __real_pthread_cond_wait(news, lock);
}

int __wrap_pthread_cond_timedwait(pthread_cond_t *news, pthread_mutex_t *lock, const struct timespec *end) {
    if (late == NULL && late_publisher == NULL)
        return __real_pthread_cond_timedwait(news, lock, end);
    pthread_mutex_unlock(lock);
    if (late != NULL)
        EXPECT(send_number(late, 1).status == TOPICHUB_SENT);
    else
        EXPECT(topichub_watch_sender_send_bytes(late_publisher, "2", 1) == TOPICHUB_DONE);
    pthread_mutex_lock(lock);
    return ETIMEDOUT;
}

static void *receive(void *rx) {
    topichub_value *value;
    topichub_reply told = topichub_broadcast_receiver_recv(rx, &value);
    topichub_value_release(value);
    return told.status == TOPICHUB_VALUE ? NULL : rx;
}

static void only_who_waits(void) {
    topichub_broadcast_sender *tx;
    topichub_broadcast_receiver *rx;
    topichub_value *value;
    EXPECT(topichub_broadcast_open(&tx, &rx, 4) == TOPICHUB_DONE);
    EXPECT(send_number(tx, 1).status == TOPICHUB_SENT);
    SAYS(next(rx), "1");
    EXPECT(wakes == 0);
    TELLS(topichub_broadcast_receiver_recv_for(rx, &value, 1), TIMED_OUT, 0, 0);
    EXPECT(send_number(tx, 2).status == TOPICHUB_SENT && wakes == 0);
    SAYS(next(rx), "2");
    for (int it = 1; it <= 3; it++) {
        pthread_t thread = start(receive, rx);
        sem_wait(&begins);
        EXPECT(send_number(tx, 3).status == TOPICHUB_SENT && wakes == it);
        EXPECT(joined_well(thread));
        EXPECT(send_number(tx, 4).status == TOPICHUB_SENT && wakes == it);
        SAYS(next(rx), "4");
    }
    /* One that was cancelled waits no more. */
    pthread_t thread = start(receive, rx);
    sem_wait(&begins);
    EXPECT(pthread_cancel(thread) == 0 && pthread_join(thread, NULL) == 0);
    EXPECT(send_number(tx, 5).status == TOPICHUB_SENT && wakes == 3);
    topichub_broadcast_sender_close(tx);
    EXPECT(wakes == 3);
    topichub_broadcast_receiver_close(rx);
    EXPECT(numbers_live() == 0);
}

static void late_values(void) {
    topichub_broadcast_receiver *rx;
    topichub_watch_receiver *seen;
    topichub_value *value;
    EXPECT(topichub_broadcast_open(&late, &rx, 4) == TOPICHUB_DONE);
    EXPECT(topichub_broadcast_receiver_recv_for(rx, &value, 1000000).status == TOPICHUB_VALUE && taken(value) == 1);
    topichub_broadcast_sender_close(late);
    late = NULL;
    topichub_broadcast_receiver_close(rx);
    EXPECT(topichub_watch_open_bytes(&late_publisher, &seen, "1", 1) == TOPICHUB_DONE);
    EXPECT(topichub_watch_receiver_changed_for(seen, 1000000) == TOPICHUB_MARKED);
    topichub_watch_sender_close(late_publisher);
    late_publisher = NULL;
    topichub_watch_receiver_close(seen);
}

int main(void) {
    begin_watchdog();
    EXPECT(sem_init(&begins, 0, 0) == 0);
    only_who_waits();
    late_values();
    return ended("blocking_woken");
}
