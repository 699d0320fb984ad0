/* Every call of a broadcast channel, and every status that it has. */
#include "tests.h"

/* A slow receiver is told what it missed; each value is let go by its last read, or by the send that pushes it out. */
static void values(void) {
    topichub_broadcast news = TOPICHUB_BROADCAST_NONE;
    EXPECT(topichub_broadcast_new(&news, 2, 0) == TOPICHUB_DONE);
    TELLS(topichub_broadcast_send(&news, 1, 10), NO_RECEIVERS, 0, 10);
    TELLS(topichub_broadcast_subscribe(&news, 1), NEW_RX, 0, 2);
    TELLS(topichub_broadcast_subscribe(&news, 1), NEW_RX, 0, 3);
    TELLS(topichub_broadcast_readers(&news, 1), COUNT, 0, 2);
    TELLS(topichub_broadcast_try_recv(&news, 2), EMPTY, 0, 0);
    TELLS(topichub_broadcast_recv(&news, 2), WOULD_WAIT, 0, 0);
    TELLS(topichub_broadcast_send(&news, 1, 11), SENT, 0, 2);
    TELLS(topichub_broadcast_try_recv(&news, 2), VALUE, 0, 11);
    TELLS(topichub_broadcast_send(&news, 1, 12), SENT, 0, 2);
    TELLS(topichub_broadcast_send(&news, 1, 13), SENT, 1, 2);
    TELLS(topichub_broadcast_queued(&news, 1), COUNT, 0, 2);
    TELLS(topichub_broadcast_left(&news, 3), COUNT, 0, 3);
    TELLS(topichub_broadcast_recv(&news, 3), LAGGED, 0, 1);
    TELLS(topichub_broadcast_recv(&news, 3), VALUE, 0, 12);
    TELLS(topichub_broadcast_recv(&news, 2), VALUE, 1, 12);
    TELLS(topichub_broadcast_recv(&news, 2), VALUE, 0, 13);
    TELLS(topichub_broadcast_drop_rx(&news, 3), DONE, 1, 0);
    TELLS(topichub_broadcast_queued(&news, 1), COUNT, 0, 0);
    topichub_broadcast_free(&news);
}

/* Handles are made and spent, and a number that is not live is refused by each call. */
static void handles(void) {
    topichub_broadcast news = TOPICHUB_BROADCAST_NONE;
    EXPECT(topichub_broadcast_new(&news, 3, 0) == TOPICHUB_DONE);
    TELLS(topichub_broadcast_clone_tx(&news, 1), NEW_TX, 0, 2);
    TELLS(topichub_broadcast_subscribe(&news, 2), NEW_RX, 0, 3);
    for (uint64_t value = 0; value < 3; value++)
        TELLS(topichub_broadcast_send(&news, 2, value), SENT, 0, 1);
    TELLS(topichub_broadcast_subscribe_oldest(&news, 1), NEW_RX, 0, 4);
    TELLS(topichub_broadcast_left(&news, 4), COUNT, 0, 3);
    TELLS(topichub_broadcast_resubscribe(&news, 4), NEW_RX, 0, 5);
    TELLS(topichub_broadcast_left(&news, 5), COUNT, 0, 0);
    TELLS(topichub_broadcast_drop_rx(&news, 3), DONE, 0, 0);
    TELLS(topichub_broadcast_drop_rx(&news, 4), DONE, 3, 0);
    TELLS(topichub_broadcast_drop_tx(&news, 1), DONE, 0, 0);
    TELLS(topichub_broadcast_try_recv(&news, 5), EMPTY, 0, 0);
    TELLS(topichub_broadcast_drop_tx(&news, 2), DONE, 0, 0);
    TELLS(topichub_broadcast_try_recv(&news, 5), CLOSED, 0, 0);
    TELLS(topichub_broadcast_recv(&news, 5), CLOSED, 0, 0);

    TELLS(topichub_broadcast_send(&news, 2, 7), NO_HANDLE, 0, 7);
    TELLS(topichub_broadcast_subscribe(&news, 2), NO_HANDLE, 0, 0);
    TELLS(topichub_broadcast_subscribe_oldest(&news, 2), NO_HANDLE, 0, 0);
    TELLS(topichub_broadcast_clone_tx(&news, 2), NO_HANDLE, 0, 0);
    TELLS(topichub_broadcast_drop_tx(&news, 5), NO_HANDLE, 0, 0);
    TELLS(topichub_broadcast_queued(&news, 2), NO_HANDLE, 0, 0);
    TELLS(topichub_broadcast_readers(&news, 2), NO_HANDLE, 0, 0);
    TELLS(topichub_broadcast_try_recv(&news, 4), NO_HANDLE, 0, 0);
    TELLS(topichub_broadcast_recv(&news, 6), NO_HANDLE, 0, 0);
    TELLS(topichub_broadcast_resubscribe(&news, 0), NO_HANDLE, 0, 0);
    TELLS(topichub_broadcast_drop_rx(&news, UINT64_MAX), NO_HANDLE, 0, 0);
    TELLS(topichub_broadcast_left(&news, 1), NO_HANDLE, 0, 0);
    topichub_broadcast_free(&news);
}

/* The last position is sent, and none after it. */
static void positions(void) {
    topichub_broadcast news = TOPICHUB_BROADCAST_NONE;
    EXPECT(topichub_broadcast_new(&news, 1, UINT64_MAX - 1) == TOPICHUB_DONE);
    TELLS(topichub_broadcast_subscribe(&news, 1), NEW_RX, 0, 2);
    TELLS(topichub_broadcast_send(&news, 1, 5), SENT, 0, 1);
    TELLS(topichub_broadcast_send(&news, 1, 6), EXHAUSTED, 0, 6);
    TELLS(topichub_broadcast_recv(&news, 2), VALUE, 1, 5);
    topichub_broadcast_free(&news);
}

/* As many handles as there may be, and one more. */
static void handle_limits(void) {
    topichub_broadcast news = TOPICHUB_BROADCAST_NONE;
    EXPECT(topichub_broadcast_new(&news, 1, 0) == TOPICHUB_DONE);
    for (uint64_t number = 2; number <= 65536; number++)
        if (topichub_broadcast_subscribe(&news, 1).number != number)
            EXPECT(number == 0);
    TELLS(topichub_broadcast_subscribe(&news, 1), TOO_MANY, 0, 0);
    TELLS(topichub_broadcast_resubscribe(&news, 2), TOO_MANY, 0, 0);
    TELLS(topichub_broadcast_subscribe_oldest(&news, 1), TOO_MANY, 0, 0);
    for (uint64_t number = 65537; number <= 131070; number++)
        if (topichub_broadcast_clone_tx(&news, 1).number != number)
            EXPECT(number == 0);
    TELLS(topichub_broadcast_clone_tx(&news, 1), TOO_MANY, 0, 0);
    TELLS(topichub_broadcast_send(&news, 1, 7), SENT, 0, 65535);
    topichub_broadcast_free(&news);
}

/* As many values as are kept at the most, and one more; all of them are let go at once. */
static void value_limits(void) {
    topichub_broadcast news = TOPICHUB_BROADCAST_NONE;
    EXPECT(topichub_broadcast_new(&news, 65536, 0) == TOPICHUB_DONE);
    TELLS(topichub_broadcast_subscribe(&news, 1), NEW_RX, 0, 2);
    for (uint64_t value = 0; value < 65536; value++)
        if (topichub_broadcast_send(&news, 1, value).let_go != 0)
            EXPECT(value == 65536);
    TELLS(topichub_broadcast_send(&news, 1, 65536), SENT, 1, 1);
    TELLS(topichub_broadcast_queued(&news, 1), COUNT, 0, 65536);
    TELLS(topichub_broadcast_drop_rx(&news, 2), DONE, 65536, 0);
    topichub_broadcast_free(&news);
}

/* A handle that stands for nothing, or for a channel already. */
static void makers(void) {
    topichub_broadcast news = TOPICHUB_BROADCAST_NONE;
    topichub_broadcast_free(&news);
    TELLS(topichub_broadcast_send(&news, 1, 7), NOT_OPEN, 0, 0);
    TELLS(topichub_broadcast_try_recv(&news, 2), NOT_OPEN, 0, 0);
    TELLS(topichub_broadcast_recv(&news, 2), NOT_OPEN, 0, 0);
    TELLS(topichub_broadcast_subscribe(&news, 1), NOT_OPEN, 0, 0);
    TELLS(topichub_broadcast_subscribe_oldest(&news, 1), NOT_OPEN, 0, 0);
    TELLS(topichub_broadcast_resubscribe(&news, 2), NOT_OPEN, 0, 0);
    TELLS(topichub_broadcast_clone_tx(&news, 1), NOT_OPEN, 0, 0);
    TELLS(topichub_broadcast_drop_tx(&news, 1), NOT_OPEN, 0, 0);
    TELLS(topichub_broadcast_drop_rx(&news, 2), NOT_OPEN, 0, 0);
    TELLS(topichub_broadcast_queued(&news, 1), NOT_OPEN, 0, 0);
    TELLS(topichub_broadcast_left(&news, 2), NOT_OPEN, 0, 0);
    TELLS(topichub_broadcast_readers(&news, 1), NOT_OPEN, 0, 0);
    EXPECT(topichub_broadcast_new(&news, 0, 0) == TOPICHUB_BAD_CAPACITY);
    EXPECT(topichub_broadcast_new(&news, 65537, 0) == TOPICHUB_BAD_CAPACITY);
    EXPECT(topichub_broadcast_new(&news, UINT64_MAX, 0) == TOPICHUB_BAD_CAPACITY);
    EXPECT(news.at == NULL);
    EXPECT(topichub_broadcast_new(&news, 1, 0) == TOPICHUB_DONE);
    TELLS(topichub_broadcast_subscribe(&news, 1), NEW_RX, 0, 2);
    EXPECT(topichub_broadcast_new(&news, 1, 0) == TOPICHUB_IS_OPEN);
    EXPECT(topichub_broadcast_new(&news, 0, 0) == TOPICHUB_IS_OPEN);
    TELLS(topichub_broadcast_readers(&news, 1), COUNT, 0, 1);
    topichub_broadcast_free(&news);
    EXPECT(news.at == NULL);
    topichub_broadcast_free(&news);
    EXPECT(topichub_broadcast_new(&news, 1, 0) == TOPICHUB_DONE);
    topichub_broadcast_free(&news);
}

int main(void) {
    values();
    handles();
    positions();
    handle_limits();
    value_limits();
    makers();
    return ended("broadcast");
}
