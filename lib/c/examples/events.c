/* Events from one thread to another, which was too slow at first and learns how many it missed.
 *
 *     cc events.c $(pkg-config --cflags --libs topichub-threads) && ./a.out
 */
#include <inttypes.h>
#include <pthread.h>
#include <stdio.h>
#include <stdlib.h>
#include <topichub_threads.h>

/* Of the EARLY events, which are sent before anybody receives, at most KEPT are kept. */
enum { KEPT = 16, EARLY = 20, ALL = 1000 };

struct event {
    int id;
    char text[32];
};

/* Ends the program, since a call returned what it should not. */
static _Noreturn void fail(const char *call, uint32_t status) {
    fprintf(stderr, "events: %s: %s\n", call, topichub_status_text(status));
    exit(1);
}

/* Sends the events from one number up to another. */
static void send_events(topichub_broadcast_sender *tx, int from, int end) {
    for (int id = from; id < end; id++) {
        struct event *event = malloc(sizeof *event);
        if (event == NULL)
            fail("malloc", TOPICHUB_NO_MEMORY);
        event->id = id;
        snprintf(event->text, sizeof event->text, "event %d", id);
        /* Once it is sent, the event belongs to the channel, which frees it after its last receiver. */
        topichub_reply told = topichub_broadcast_sender_send(tx, event, sizeof *event, free);
        switch (told.status) {
        case TOPICHUB_SENT:
            break;
        case TOPICHUB_NO_RECEIVERS: /* Nobody listens any more: it was not taken. */
            free(event);
            return;
        default:
            free(event);
            fail("send", told.status);
        }
    }
}

/* Receives until no sender is left. */
static void *receive_events(void *receiver) {
    topichub_broadcast_receiver *rx = receiver;
    uint64_t received = 0, missed = 0;
    for (;;) {
        topichub_value *value;
        topichub_reply told = topichub_broadcast_receiver_recv(rx, &value);
        switch (told.status) {
        case TOPICHUB_VALUE: {
            const struct event *event = topichub_value_data(value);
            if (event->id == ALL - 1)
                printf("the last is %s\n", event->text);
            received++;
            topichub_value_release(value);
            break;
        }
        case TOPICHUB_LAGGED: /* It goes on at the oldest event that is kept. */
            missed += told.number;
            break;
        case TOPICHUB_CLOSED:
            printf("%s missed, %" PRIu64 " events in all\n", missed > 0 ? "some" : "none", received + missed);
            topichub_broadcast_receiver_close(rx);
            return NULL;
        default:
            fail("recv", told.status);
        }
    }
}

int main(void) {
    topichub_broadcast_sender *tx;
    topichub_broadcast_receiver *rx;
    uint32_t status = topichub_broadcast_open(&tx, &rx, KEPT);
    if (status != TOPICHUB_DONE)
        fail("open", status);
    send_events(tx, 0, EARLY);
    pthread_t thread;
    if (pthread_create(&thread, NULL, receive_events, rx) != 0) {
        perror("events: pthread_create");
        return 1;
    }
    send_events(tx, EARLY, ALL);
    topichub_broadcast_sender_close(tx);
    pthread_join(thread, NULL);
    return 0;
}
