/* A watch channel of bytes: every call that takes a value or gives one, and every status that it has more. */
#include <string.h>

#include "tests.h"

static uint8_t buffer[TOPICHUB_MOST_BYTES];

/* A call with the bytes of a text. */
#define WITH(call, channel, tx, text) call((channel), (tx), (const uint8_t *)(text), strlen(text))

static topichub_reply replaced(topichub_watch *channel, uint64_t tx, const char *text) {
    memset(buffer, '.', sizeof buffer);
    return topichub_watch_replace_bytes(channel, tx, (const uint8_t *)text, strlen(text), buffer, sizeof buffer);
}

static topichub_reply borrowed(topichub_watch *channel, uint64_t rx) {
    memset(buffer, '.', sizeof buffer);
    return topichub_watch_borrow_bytes(channel, rx, buffer, sizeof buffer);
}

static topichub_reply taken(topichub_watch *channel, uint64_t rx) {
    memset(buffer, '.', sizeof buffer);
    return topichub_watch_take_bytes(channel, rx, buffer, sizeof buffer);
}

static int holds(const char *text) {
    return memcmp(buffer, text, strlen(text)) == 0 && buffer[strlen(text)] == '.';
}

static uint32_t made(topichub_watch *channel, const char *text, uint64_t version) {
    return topichub_watch_new_of_bytes(channel, (const uint8_t *)text, strlen(text), version);
}

static uint32_t made_recorded(topichub_watch *channel, const char *text, uint64_t version, uint64_t limit) {
    return topichub_watch_new_of_bytes_recorded(channel, (const uint8_t *)text, strlen(text), version, limit);
}

/* The calls with a value, and each without one, of a channel in which nothing was called. */
static void story(topichub_watch *light) {
    TELLS(WITH(topichub_watch_send_bytes, light, 1, "nobody"), NO_RECEIVERS, 0, 6);
    TELLS(topichub_watch_subscribe(light, 1), NEW_RX, 0, 2);
    TELLS(borrowed(light, 2), SAME, 0, 3);
    EXPECT(holds("off"));
    TELLS(WITH(topichub_watch_send_bytes, light, 1, "on"), DONE, 1, 0);
    TELLS(borrowed(light, 2), NEW, 0, 2);
    EXPECT(holds("on"));
    TELLS(taken(light, 2), NEW, 0, 2);
    EXPECT(holds("on"));
    TELLS(taken(light, 2), SAME, 0, 2);
    TELLS(topichub_watch_changed(light, 2), WOULD_WAIT, 0, 0);
    TELLS(topichub_watch_try_changed(light, 2), NOT_YET, 0, 0);
    TELLS(WITH(topichub_watch_differ_bytes, light, 1, "on"), NO, 0, 0);
    TELLS(WITH(topichub_watch_differ_bytes, light, 1, "On"), YES, 1, 0);
    TELLS(topichub_watch_has_changed(light, 2), YES, 0, 0);
    TELLS(topichub_watch_changed(light, 2), MARKED, 0, 0);
    TELLS(WITH(topichub_watch_quiet_bytes, light, 1, "quiet"), NO, 1, 0);
    TELLS(borrowed(light, 2), SAME, 0, 5);
    EXPECT(holds("quiet"));
    TELLS(WITH(topichub_watch_set_bytes, light, 1, "one two"), YES, 1, 0);
    TELLS(replaced(light, 1, "10"), WAS, 1, 7);
    EXPECT(holds("one two"));
    TELLS(replaced(light, 9, "11"), NO_HANDLE, 0, 2);
    EXPECT(holds(""));
    TELLS(topichub_watch_mark_unchanged(light, 2), DONE, 0, 0);
    TELLS(topichub_watch_mark_changed(light, 2), DONE, 0, 0);
    TELLS(topichub_watch_clone_rx(light, 2), NEW_RX, 0, 3);
    TELLS(topichub_watch_clone_tx(light, 1), NEW_TX, 0, 4);
    TELLS(topichub_watch_is_closed(light, 4), NO, 0, 0);
    TELLS(topichub_watch_readers(light, 4), COUNT, 0, 2);
    TELLS(topichub_watch_drop_rx(light, 3), DONE, 0, 0);
    TELLS(topichub_watch_drop_tx(light, 1), DONE, 0, 0);
    TELLS(topichub_watch_drop_tx(light, 4), DONE, 0, 0);
    TELLS(taken(light, 2), NEW, 0, 2);
    EXPECT(holds("10"));
    TELLS(borrowed(light, 3), NO_HANDLE, 0, 0);
    EXPECT(holds(""));
}

static const char *const TRACE = "TRACE 1 W\nAT 1 NEXT 2\nKEEP off\nTX 1\nBEGIN\n"
                                 "C send 1 nobody\nR no-receivers\nC subscribe 1\nR new-rx 2\nC borrow 2\nR shown same off\n"
                                 "C send 1 on\nR done\nC borrow 2\nR shown new on\nC take 2\nR shown new on\nC take 2\nR shown same on\n"
                                 "C try-changed 2\nR not-yet\nC differ 1 on\nR modified no\nC differ 1 On\nR modified yes\n"
                                 "C has-changed 2\nR changed yes\nC changed 2\nR marked\nC quiet 1 quiet\nR modified no\n"
                                 "C borrow 2\nR shown same quiet\nC set 1 one two\nR modified yes\nC replace 1 10\nR was one two\n"
                                 "C replace 9 11\nR no-handle\nC mark-unchanged 2\nR done\nC mark-changed 2\nR done\n"
                                 "C clone-rx 2\nR new-rx 3\nC clone-tx 1\nR new-tx 4\nC is-closed 4\nR gone no\nC readers 4\nR count 2\n"
                                 "C drop-rx 3\nR done\nC drop-tx 1\nR done\nC drop-tx 4\nR done\nC take 2\nR shown new 10\n"
                                 "C borrow 3\nR no-handle\nEND 28\n";

static void values(void) {
    topichub_watch light = TOPICHUB_WATCH_NONE;
    EXPECT(made(&light, "off", 1) == TOPICHUB_DONE);
    EXPECT(made(&light, "off", 1) == TOPICHUB_IS_OPEN);
    story(&light);
    topichub_watch_free(&light);
    TELLS(borrowed(&light, 2), NOT_OPEN, 0, 0);
    TELLS(replaced(&light, 1, "on"), NOT_OPEN, 0, 0);
    TELLS(WITH(topichub_watch_send_bytes, &light, 1, "on"), NOT_OPEN, 0, 0);
}

/* The same with a history, of which the trace tells; a call that would wait is no entry. */
static void history(void) {
    static uint8_t text[4096];
    topichub_watch light = TOPICHUB_WATCH_NONE;
    topichub_trace trace = TOPICHUB_TRACE_NONE;
    uint64_t written = 0, entries = 0;
    EXPECT(made_recorded(&light, "off", 1, 100) == TOPICHUB_DONE);
    EXPECT(made_recorded(&light, "off", 1, 100) == TOPICHUB_IS_OPEN);
    story(&light);
    EXPECT(topichub_watch_cut(&light, &trace) == TOPICHUB_DONE);
    EXPECT(topichub_trace_read(&trace, text, sizeof text, &written) == TOPICHUB_DONE);
    EXPECT(topichub_check(text, written, &entries) == TOPICHUB_LEGAL && entries == 28);
    EXPECT(written == strlen(TRACE) && memcmp(text, TRACE, written) == 0);
    topichub_trace_free(&trace);
    topichub_watch_free(&light);
}

/* What is no value, a buffer that is too small, values of the other kind, and a history that is full. */
static void refusals(void) {
    topichub_watch light = TOPICHUB_WATCH_NONE, numbers = TOPICHUB_WATCH_NONE;
    topichub_trace trace = TOPICHUB_TRACE_NONE;
    EXPECT(made(&light, "", 1) == TOPICHUB_BAD_VALUE);
    EXPECT(made(&light, "off", 0) == TOPICHUB_BAD_VERSION);
    EXPECT(made_recorded(&light, "off\n", 1, 1) == TOPICHUB_BAD_VALUE);
    EXPECT(made_recorded(&light, "off", 0, 0) == TOPICHUB_BAD_VERSION);
    EXPECT(made_recorded(&light, "off", 1, 0) == TOPICHUB_BAD_LIMIT);
    EXPECT(made_recorded(&light, "off", 1, 1000001) == TOPICHUB_BAD_LIMIT);
    EXPECT(made(&light, "off", UINT64_MAX) == TOPICHUB_DONE);
    EXPECT(topichub_watch_cut(&light, &trace) == TOPICHUB_NOT_RECORDED);
    uint64_t rx = topichub_watch_subscribe(&light, 1).number;
    TELLS(WITH(topichub_watch_send_bytes, &light, 1, ""), BAD_VALUE, 0, 0);
    TELLS(WITH(topichub_watch_set_bytes, &light, 1, "a line\n"), BAD_VALUE, 0, 0);
    TELLS(replaced(&light, 1, "\r"), BAD_VALUE, 0, 0);
    TELLS(WITH(topichub_watch_set_bytes, &light, 1, "late"), EXHAUSTED, 0, 4);
    TELLS(replaced(&light, 1, "late"), EXHAUSTED, 0, 4);
    EXPECT(holds(""));
    TELLS(topichub_watch_borrow_bytes(&light, rx, buffer, sizeof buffer - 1), SMALL_BUFFER, 0, 0);
    TELLS(topichub_watch_take_bytes(&light, rx, buffer, sizeof buffer - 1), SMALL_BUFFER, 0, 0);
    TELLS(topichub_watch_replace_bytes(&light, 1, (const uint8_t *)"on", 2, buffer, sizeof buffer - 1), SMALL_BUFFER, 0, 0);
    TELLS(topichub_watch_send(&light, 1, 10), OTHER_VALUES, 0, 0);
    TELLS(topichub_watch_replace(&light, 1, 10), OTHER_VALUES, 0, 0);
    TELLS(topichub_watch_set(&light, 1, 10), OTHER_VALUES, 0, 0);
    TELLS(topichub_watch_borrow(&light, rx), OTHER_VALUES, 0, 0);
    TELLS(topichub_watch_take(&light, rx), OTHER_VALUES, 0, 0);
    TELLS(taken(&light, rx), SAME, 0, 3);
    EXPECT(holds("off"));
    topichub_watch_free(&light);

    EXPECT(topichub_watch_new_recorded(&numbers, 7, 1, 4) == TOPICHUB_DONE);
    TELLS(WITH(topichub_watch_send_bytes, &numbers, 1, "on"), OTHER_VALUES, 0, 0);
    TELLS(replaced(&numbers, 1, "on"), OTHER_VALUES, 0, 0);
    TELLS(borrowed(&numbers, 2), OTHER_VALUES, 0, 0);
    topichub_watch_free(&numbers);
    EXPECT(topichub_watch_new(&numbers, 7, 1) == TOPICHUB_DONE);
    TELLS(WITH(topichub_watch_quiet_bytes, &numbers, 1, "on"), OTHER_VALUES, 0, 0);
    TELLS(taken(&numbers, 2), OTHER_VALUES, 0, 0);
    topichub_watch_free(&numbers);

    EXPECT(made_recorded(&light, "off", 1, 2) == TOPICHUB_DONE);
    TELLS(WITH(topichub_watch_set_bytes, &light, 1, "on"), YES, 1, 0);
    TELLS(WITH(topichub_watch_set_bytes, &light, 1, "off"), LOG_FULL, 0, 0);
    TELLS(replaced(&light, 1, "off"), LOG_FULL, 0, 0);
    TELLS(borrowed(&light, 2), LOG_FULL, 0, 0);
    EXPECT(holds(""));
    TELLS(topichub_watch_drop_tx(&light, 1), DONE, 0, 0);
    topichub_watch_free(&light);
}

int main(void) {
    values();
    history();
    refusals();
    return ended("watch_bytes");
}
