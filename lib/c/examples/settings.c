/* Settings that a thread with an event loop follows: a watch channel, whose descriptor epoll waits for.
 *
 *     cc settings.c $(pkg-config --cflags --libs topichub-threads) && ./a.out
 */
#include <pthread.h>
#include <stdio.h>
#include <stdlib.h>
#include <sys/epoll.h>
#include <topichub_threads.h>
#include <unistd.h>

struct settings {
    int workers, is_verbose;
};

/* Ends the program, since a call returned what it should not. */
static _Noreturn void fail(const char *call, uint32_t status) {
    fprintf(stderr, "settings: %s: %s\n", call, topichub_status_text(status));
    exit(1);
}

static _Noreturn void fail_of_system(const char *call) {
    perror(call);
    exit(1);
}

/* An epoll that waits for the descriptor of the receiver; a program adds its sockets and timers to it. */
static int event_loop(topichub_watch_receiver *rx) {
    struct epoll_event wanted = {.events = EPOLLIN};
    int fd, loop = epoll_create1(EPOLL_CLOEXEC);
    if (loop < 0)
        fail_of_system("epoll_create1");
    uint32_t status = topichub_watch_receiver_fd(rx, &fd);
    if (status != TOPICHUB_DONE)
        fail("fd", status);
    if (epoll_ctl(loop, EPOLL_CTL_ADD, fd, &wanted) != 0)
        fail_of_system("epoll_ctl");
    return loop;
}

/* The newest settings, which count as seen then. */
static struct settings newest(topichub_watch_receiver *rx) {
    topichub_value *value;
    uint32_t status = topichub_watch_receiver_take(rx, &value);
    if (status != TOPICHUB_NEW && status != TOPICHUB_SAME)
        fail("take", status);
    struct settings settings = *(const struct settings *)topichub_value_data(value);
    topichub_value_release(value);
    return settings;
}

/* Follows the settings until no sender is left. */
static void *follow(void *receiver) {
    topichub_watch_receiver *rx = receiver;
    struct settings settings = newest(rx);
    int loop = event_loop(rx);
    for (;;) {
        struct epoll_event event;
        if (epoll_wait(loop, &event, 1, -1) < 0)
            fail_of_system("epoll_wait");
        uint32_t status = topichub_watch_receiver_try_changed(rx);
        switch (status) {
        case TOPICHUB_MARKED: /* Of several that came at once, this is the last. */
            settings = newest(rx);
            break;
        case TOPICHUB_NOT_YET: /* Another descriptor was ready. */
            break;
        case TOPICHUB_CLOSED:
            printf("%d workers, %s\n", settings.workers, settings.is_verbose ? "verbose" : "quiet");
            close(loop);
            topichub_watch_receiver_close(rx);
            return NULL;
        default:
            fail("try_changed", status);
        }
    }
}

int main(void) {
    struct settings settings = {.workers = 1, .is_verbose = 0};
    topichub_watch_sender *tx;
    topichub_watch_receiver *rx;
    uint32_t status = topichub_watch_open_bytes(&tx, &rx, &settings, sizeof settings);
    if (status != TOPICHUB_DONE)
        fail("open", status);
    pthread_t thread;
    if (pthread_create(&thread, NULL, follow, rx) != 0)
        fail_of_system("pthread_create");
    for (settings.workers = 2; settings.workers <= 8; settings.workers++) {
        settings.is_verbose = settings.workers == 8;
        /* The settings are copied. */
        status = topichub_watch_sender_send_bytes(tx, &settings, sizeof settings);
        if (status != TOPICHUB_DONE)
            fail("send", status);
    }
    topichub_watch_sender_close(tx);
    pthread_join(thread, NULL);
    return 0;
}
