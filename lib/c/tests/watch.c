/* Every call of a watch channel, and every status that it has. */
#include "tests.h"

/* A reader is told once that there is something new, and shown the newest value. */
static void values(void) {
    topichub_watch light = TOPICHUB_WATCH_NONE;
    EXPECT(topichub_watch_new(&light, 10, 1) == TOPICHUB_DONE);
    TELLS(topichub_watch_send(&light, 1, 11), NO_RECEIVERS, 0, 11);
    TELLS(topichub_watch_is_closed(&light, 1), YES, 0, 0);
    TELLS(topichub_watch_subscribe(&light, 1), NEW_RX, 0, 2);
    TELLS(topichub_watch_is_closed(&light, 1), NO, 0, 0);
    TELLS(topichub_watch_readers(&light, 1), COUNT, 0, 1);
    TELLS(topichub_watch_borrow(&light, 2), SAME, 0, 10);
    TELLS(topichub_watch_has_changed(&light, 2), NO, 0, 0);
    TELLS(topichub_watch_try_changed(&light, 2), NOT_YET, 0, 0);
    TELLS(topichub_watch_changed(&light, 2), WOULD_WAIT, 0, 0);
    TELLS(topichub_watch_send(&light, 1, 11), DONE, 1, 0);
    TELLS(topichub_watch_has_changed(&light, 2), YES, 0, 0);
    TELLS(topichub_watch_borrow(&light, 2), NEW, 0, 11);
    TELLS(topichub_watch_changed(&light, 2), MARKED, 0, 0);
    TELLS(topichub_watch_take(&light, 2), SAME, 0, 11);
    TELLS(topichub_watch_replace(&light, 1, 12), WAS, 1, 11);
    TELLS(topichub_watch_take(&light, 2), NEW, 0, 12);
    TELLS(topichub_watch_set(&light, 1, 12), YES, 1, 0);
    TELLS(topichub_watch_try_changed(&light, 2), MARKED, 0, 0);
    TELLS(topichub_watch_differ(&light, 1, 12), NO, 0, 0);
    TELLS(topichub_watch_has_changed(&light, 2), NO, 0, 0);
    TELLS(topichub_watch_differ(&light, 1, 13), YES, 1, 0);
    TELLS(topichub_watch_mark_unchanged(&light, 2), DONE, 0, 0);
    TELLS(topichub_watch_quiet(&light, 1, 14), NO, 1, 0);
    TELLS(topichub_watch_borrow(&light, 2), SAME, 0, 14);
    TELLS(topichub_watch_mark_changed(&light, 2), DONE, 0, 0);
    TELLS(topichub_watch_borrow(&light, 2), NEW, 0, 14);
    topichub_watch_free(&light);
}

/* Handles are made and spent, and a number that is not live is refused by each call. */
static void handles(void) {
    topichub_watch light = TOPICHUB_WATCH_NONE;
    EXPECT(topichub_watch_new(&light, 10, 1) == TOPICHUB_DONE);
    TELLS(topichub_watch_clone_tx(&light, 1), NEW_TX, 0, 2);
    TELLS(topichub_watch_subscribe(&light, 2), NEW_RX, 0, 3);
    TELLS(topichub_watch_send(&light, 2, 11), DONE, 1, 0);
    TELLS(topichub_watch_clone_rx(&light, 3), NEW_RX, 0, 4);
    TELLS(topichub_watch_subscribe(&light, 1), NEW_RX, 0, 5);
    TELLS(topichub_watch_borrow(&light, 4), NEW, 0, 11);
    TELLS(topichub_watch_borrow(&light, 5), SAME, 0, 11);
    TELLS(topichub_watch_drop_rx(&light, 3), DONE, 0, 0);
    TELLS(topichub_watch_drop_tx(&light, 1), DONE, 0, 0);
    TELLS(topichub_watch_drop_tx(&light, 2), DONE, 0, 0);
    TELLS(topichub_watch_has_changed(&light, 4), CLOSED, 0, 0);
    TELLS(topichub_watch_changed(&light, 4), MARKED, 0, 0);
    TELLS(topichub_watch_changed(&light, 4), CLOSED, 0, 0);
    TELLS(topichub_watch_try_changed(&light, 5), CLOSED, 0, 0);
    TELLS(topichub_watch_take(&light, 5), SAME, 0, 11);

    TELLS(topichub_watch_send(&light, 2, 7), NO_HANDLE, 0, 7);
    TELLS(topichub_watch_replace(&light, 1, 7), NO_HANDLE, 0, 7);
    TELLS(topichub_watch_set(&light, 0, 7), NO_HANDLE, 0, 7);
    TELLS(topichub_watch_differ(&light, 4, 7), NO_HANDLE, 0, 7);
    TELLS(topichub_watch_quiet(&light, UINT64_MAX, 7), NO_HANDLE, 0, 7);
    TELLS(topichub_watch_borrow(&light, 3), NO_HANDLE, 0, 0);
    TELLS(topichub_watch_take(&light, 1), NO_HANDLE, 0, 0);
    TELLS(topichub_watch_has_changed(&light, 6), NO_HANDLE, 0, 0);
    TELLS(topichub_watch_try_changed(&light, 6), NO_HANDLE, 0, 0);
    TELLS(topichub_watch_changed(&light, 6), NO_HANDLE, 0, 0);
    TELLS(topichub_watch_mark_changed(&light, 3), NO_HANDLE, 0, 0);
    TELLS(topichub_watch_mark_unchanged(&light, 3), NO_HANDLE, 0, 0);
    TELLS(topichub_watch_subscribe(&light, 1), NO_HANDLE, 0, 0);
    TELLS(topichub_watch_clone_rx(&light, 3), NO_HANDLE, 0, 0);
    TELLS(topichub_watch_clone_tx(&light, 1), NO_HANDLE, 0, 0);
    TELLS(topichub_watch_drop_tx(&light, 1), NO_HANDLE, 0, 0);
    TELLS(topichub_watch_drop_rx(&light, 3), NO_HANDLE, 0, 0);
    TELLS(topichub_watch_is_closed(&light, 1), NO_HANDLE, 0, 0);
    TELLS(topichub_watch_readers(&light, 1), NO_HANDLE, 0, 0);
    topichub_watch_free(&light);
}

/* The last version is published, and none after it. */
static void versions(void) {
    topichub_watch light = TOPICHUB_WATCH_NONE;
    EXPECT(topichub_watch_new(&light, 10, UINT64_MAX - 1) == TOPICHUB_DONE);
    TELLS(topichub_watch_subscribe(&light, 1), NEW_RX, 0, 2);
    TELLS(topichub_watch_send(&light, 1, 11), DONE, 1, 0);
    TELLS(topichub_watch_send(&light, 1, 12), EXHAUSTED, 0, 12);
    TELLS(topichub_watch_replace(&light, 1, 13), EXHAUSTED, 0, 13);
    TELLS(topichub_watch_set(&light, 1, 14), EXHAUSTED, 0, 14);
    TELLS(topichub_watch_differ(&light, 1, 15), EXHAUSTED, 0, 15);
    TELLS(topichub_watch_differ(&light, 1, 11), NO, 0, 0);
    TELLS(topichub_watch_quiet(&light, 1, 16), NO, 1, 0);
    TELLS(topichub_watch_take(&light, 2), NEW, 0, 16);
    topichub_watch_free(&light);
}

/* As many handles as there may be, and one more. */
static void limits(void) {
    topichub_watch light = TOPICHUB_WATCH_NONE;
    EXPECT(topichub_watch_new(&light, 0, 1) == TOPICHUB_DONE);
    for (uint64_t number = 2; number <= 65536; number++)
        if (topichub_watch_subscribe(&light, 1).number != number)
            EXPECT(number == 0);
    TELLS(topichub_watch_subscribe(&light, 1), TOO_MANY, 0, 0);
    TELLS(topichub_watch_clone_rx(&light, 2), TOO_MANY, 0, 0);
    for (uint64_t number = 65537; number <= 131070; number++)
        if (topichub_watch_clone_tx(&light, 1).number != number)
            EXPECT(number == 0);
    TELLS(topichub_watch_clone_tx(&light, 1), TOO_MANY, 0, 0);
    TELLS(topichub_watch_send(&light, 1, 1), DONE, 1, 0);
    topichub_watch_free(&light);
}

/* A handle that stands for nothing, or for a channel already. */
static void makers(void) {
    topichub_watch light = TOPICHUB_WATCH_NONE;
    topichub_watch_free(&light);
    TELLS(topichub_watch_send(&light, 1, 7), NOT_OPEN, 0, 0);
    TELLS(topichub_watch_replace(&light, 1, 7), NOT_OPEN, 0, 0);
    TELLS(topichub_watch_set(&light, 1, 7), NOT_OPEN, 0, 0);
    TELLS(topichub_watch_differ(&light, 1, 7), NOT_OPEN, 0, 0);
    TELLS(topichub_watch_quiet(&light, 1, 7), NOT_OPEN, 0, 0);
    TELLS(topichub_watch_borrow(&light, 2), NOT_OPEN, 0, 0);
    TELLS(topichub_watch_take(&light, 2), NOT_OPEN, 0, 0);
    TELLS(topichub_watch_has_changed(&light, 2), NOT_OPEN, 0, 0);
    TELLS(topichub_watch_try_changed(&light, 2), NOT_OPEN, 0, 0);
    TELLS(topichub_watch_changed(&light, 2), NOT_OPEN, 0, 0);
    TELLS(topichub_watch_mark_changed(&light, 2), NOT_OPEN, 0, 0);
    TELLS(topichub_watch_mark_unchanged(&light, 2), NOT_OPEN, 0, 0);
    TELLS(topichub_watch_subscribe(&light, 1), NOT_OPEN, 0, 0);
    TELLS(topichub_watch_clone_rx(&light, 2), NOT_OPEN, 0, 0);
    TELLS(topichub_watch_clone_tx(&light, 1), NOT_OPEN, 0, 0);
    TELLS(topichub_watch_drop_tx(&light, 1), NOT_OPEN, 0, 0);
    TELLS(topichub_watch_drop_rx(&light, 2), NOT_OPEN, 0, 0);
    TELLS(topichub_watch_is_closed(&light, 1), NOT_OPEN, 0, 0);
    TELLS(topichub_watch_readers(&light, 1), NOT_OPEN, 0, 0);
    EXPECT(topichub_watch_new(&light, 7, 0) == TOPICHUB_BAD_VERSION);
    EXPECT(light.at == NULL);
    EXPECT(topichub_watch_new(&light, 7, 1) == TOPICHUB_DONE);
    TELLS(topichub_watch_subscribe(&light, 1), NEW_RX, 0, 2);
    EXPECT(topichub_watch_new(&light, 8, 1) == TOPICHUB_IS_OPEN);
    EXPECT(topichub_watch_new(&light, 8, 0) == TOPICHUB_IS_OPEN);
    TELLS(topichub_watch_take(&light, 2), SAME, 0, 7);
    topichub_watch_free(&light);
    EXPECT(light.at == NULL);
    topichub_watch_free(&light);
    EXPECT(topichub_watch_new(&light, 7, UINT64_MAX) == TOPICHUB_DONE);
    topichub_watch_free(&light);
}

int main(void) {
    values();
    handles();
    versions();
    limits();
    makers();
    return ended("watch");
}
