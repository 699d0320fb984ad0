/* A broadcast channel of bytes: every call that takes a value or gives one, and every status that it has more. */
#include <string.h>

#include "tests.h"

static uint8_t buffer[TOPICHUB_MOST_BYTES];

static topichub_reply sent(topichub_broadcast *channel, const char *text) {
    return topichub_broadcast_send_bytes(channel, 1, (const uint8_t *)text, strlen(text));
}

static topichub_reply received(topichub_broadcast *channel, uint64_t rx) {
    memset(buffer, '.', sizeof buffer);
    return topichub_broadcast_try_recv_bytes(channel, rx, buffer, sizeof buffer);
}

static int holds(const char *text) {
    return memcmp(buffer, text, strlen(text)) == 0 && buffer[strlen(text)] == '.';
}

/* Bytes come out as they went in, and what each call lets go of is told as of numbers. */
static void values(void) {
    topichub_broadcast news = TOPICHUB_BROADCAST_NONE;
    EXPECT(topichub_broadcast_new_of_bytes(&news, 2, 0) == TOPICHUB_DONE);
    EXPECT(topichub_broadcast_new_of_bytes(&news, 2, 0) == TOPICHUB_IS_OPEN);
    TELLS(sent(&news, "nobody"), NO_RECEIVERS, 0, 6);
    TELLS(topichub_broadcast_subscribe(&news, 1), NEW_RX, 0, 2);
    TELLS(topichub_broadcast_subscribe(&news, 1), NEW_RX, 0, 3);
    TELLS(received(&news, 2), EMPTY, 0, 0);
    EXPECT(holds(""));
    TELLS(topichub_broadcast_recv_bytes(&news, 2, buffer, sizeof buffer), WOULD_WAIT, 0, 0);
    TELLS(sent(&news, "one"), SENT, 0, 2);
    TELLS(received(&news, 2), VALUE, 0, 3);
    EXPECT(holds("one"));
    TELLS(received(&news, 3), VALUE, 1, 3);
    EXPECT(holds("one"));
    TELLS(sent(&news, "two"), SENT, 0, 2);
    TELLS(sent(&news, "three"), SENT, 0, 2);
    TELLS(sent(&news, "four"), SENT, 1, 2);
    TELLS(topichub_broadcast_recv_bytes(&news, 2, buffer, sizeof buffer), LAGGED, 0, 1);
    TELLS(topichub_broadcast_queued(&news, 1), COUNT, 0, 2);
    TELLS(received(&news, 2), VALUE, 0, 5);
    EXPECT(holds("three"));
    TELLS(topichub_broadcast_drop_rx(&news, 3), DONE, 1, 0);
    TELLS(topichub_broadcast_drop_tx(&news, 1), DONE, 0, 0);
    TELLS(received(&news, 2), VALUE, 1, 4);
    TELLS(received(&news, 2), CLOSED, 0, 0);
    TELLS(received(&news, 9), NO_HANDLE, 0, 0);
    topichub_broadcast_free(&news);
    TELLS(received(&news, 2), NOT_OPEN, 0, 0);
    TELLS(sent(&news, "one"), NOT_OPEN, 0, 0);
}

/* What is no value, a buffer that is too small, and values of the other kind. */
static void refusals(void) {
    topichub_broadcast news = TOPICHUB_BROADCAST_NONE, numbers = TOPICHUB_BROADCAST_NONE;
    EXPECT(topichub_broadcast_new_of_bytes(&news, 0, 0) == TOPICHUB_BAD_CAPACITY);
    EXPECT(topichub_broadcast_new_of_bytes(&news, 1, 0) == TOPICHUB_DONE);
    EXPECT(topichub_broadcast_new(&numbers, 1, 0) == TOPICHUB_DONE);
    uint64_t rx = topichub_broadcast_subscribe(&news, 1).number;
    uint8_t most[TOPICHUB_MOST_BYTES + 1];
    memset(most, 'm', sizeof most);
    TELLS(topichub_broadcast_send_bytes(&news, 1, most, sizeof most), BAD_VALUE, 0, 0);
    TELLS(sent(&news, ""), BAD_VALUE, 0, 0);
    TELLS(sent(&news, "a line\n"), BAD_VALUE, 0, 0);
    TELLS(topichub_broadcast_send_bytes(&news, 1, most, TOPICHUB_MOST_BYTES), SENT, 0, 1);
    TELLS(topichub_broadcast_try_recv_bytes(&news, rx, buffer, sizeof buffer - 1), SMALL_BUFFER, 0, 0);
    TELLS(topichub_broadcast_try_recv(&news, rx), OTHER_VALUES, 0, 0);
    TELLS(topichub_broadcast_recv(&news, rx), OTHER_VALUES, 0, 0);
    TELLS(topichub_broadcast_send(&news, 1, 10), OTHER_VALUES, 0, 0);
    TELLS(received(&news, rx), VALUE, 1, TOPICHUB_MOST_BYTES);
    EXPECT(memcmp(buffer, most, sizeof buffer) == 0);
    TELLS(sent(&numbers, "one"), OTHER_VALUES, 0, 0);
    TELLS(received(&numbers, 2), OTHER_VALUES, 0, 0);
    topichub_trace trace = TOPICHUB_TRACE_NONE;
    EXPECT(topichub_broadcast_cut(&news, &trace) == TOPICHUB_NOT_RECORDED);
    topichub_broadcast_free(&news);
    topichub_broadcast_free(&numbers);
}

/* Whether a cut takes this text, which is the trace of a legal history of so many entries. */
static int cuts(topichub_broadcast *channel, const char *wanted, uint64_t entries) {
    static uint8_t text[4096];
    topichub_trace trace = TOPICHUB_TRACE_NONE;
    uint64_t written = 0, told = 0;
    EXPECT(topichub_broadcast_cut(channel, &trace) == TOPICHUB_DONE);
    EXPECT(topichub_trace_read(&trace, text, sizeof text, &written) == TOPICHUB_DONE);
    topichub_trace_free(&trace);
    EXPECT(topichub_check(text, written, &told) == TOPICHUB_LEGAL && told == entries);
    int same = written == strlen(wanted) && memcmp(text, wanted, written) == 0;
    if (!same)
        fprintf(stderr, "the trace is\n%.*s", (int)written, (const char *)text);
    return same;
}

/* With a history: the replies are those of a channel without one, and a trace spells the bytes as they are. */
static void history(void) {
    topichub_broadcast news = TOPICHUB_BROADCAST_NONE;
    EXPECT(topichub_broadcast_new_of_bytes_recorded(&news, 2, 7, 100) == TOPICHUB_DONE);
    EXPECT(topichub_broadcast_new_of_bytes_recorded(&news, 2, 7, 100) == TOPICHUB_IS_OPEN);
    TELLS(sent(&news, "nobody"), NO_RECEIVERS, 0, 6);
    TELLS(topichub_broadcast_subscribe(&news, 1), NEW_RX, 0, 2);
    TELLS(topichub_broadcast_recv_bytes(&news, 2, buffer, sizeof buffer), WOULD_WAIT, 0, 0);
    TELLS(received(&news, 2), EMPTY, 0, 0);
    EXPECT(holds(""));
    TELLS(sent(&news, "one two"), SENT, 0, 1);
    TELLS(received(&news, 2), VALUE, 1, 7);
    EXPECT(holds("one two"));
    TELLS(sent(&news, "10"), SENT, 0, 1);
    TELLS(sent(&news, "010"), SENT, 0, 1);
    TELLS(sent(&news, "\xff"), SENT, 1, 1);
    EXPECT(cuts(&news, "TRACE 1 B 2\nAT 7 7 NEXT 2\nTX 1\nBEGIN\n"
                       "C send 1 nobody\nR no-receivers\nC subscribe 1\nR new-rx 2\nC try-recv 2\nR empty\n"
                       "C send 1 one two\nR sent 1\nC try-recv 2\nR value one two\n"
                       "C send 1 10\nR sent 1\nC send 1 010\nR sent 1\nC send 1 \xff\nR sent 1\nEND 8\n", 8));
    TELLS(topichub_broadcast_recv_bytes(&news, 2, buffer, sizeof buffer), LAGGED, 0, 1);
    memset(buffer, '.', sizeof buffer);
    TELLS(topichub_broadcast_recv_bytes(&news, 2, buffer, sizeof buffer), VALUE, 1, 3);
    EXPECT(holds("010"));
    EXPECT(cuts(&news, "TRACE 1 B 2\nAT 9 11 NEXT 3\nKEEP 010\nKEEP \xff\nTX 1\nRX 2 8\nBEGIN\n"
                       "C recv 2\nR lagged 1\nC recv 2\nR value 010\nEND 2\n", 2));
    topichub_broadcast_free(&news);
}

/* Every call without a value, in a channel with a history. */
static void every_call(void) {
    topichub_broadcast news = TOPICHUB_BROADCAST_NONE;
    EXPECT(topichub_broadcast_new_of_bytes_recorded(&news, 2, 0, 100) == TOPICHUB_DONE);
    TELLS(topichub_broadcast_subscribe(&news, 1), NEW_RX, 0, 2);
    TELLS(sent(&news, "a"), SENT, 0, 1);
    TELLS(topichub_broadcast_subscribe_oldest(&news, 1), NEW_RX, 0, 3);
    TELLS(topichub_broadcast_resubscribe(&news, 2), NEW_RX, 0, 4);
    TELLS(topichub_broadcast_clone_tx(&news, 1), NEW_TX, 0, 5);
    TELLS(topichub_broadcast_queued(&news, 5), COUNT, 0, 1);
    TELLS(topichub_broadcast_left(&news, 2), COUNT, 0, 1);
    TELLS(topichub_broadcast_readers(&news, 5), COUNT, 0, 3);
    TELLS(received(&news, 2), VALUE, 0, 1);
    TELLS(topichub_broadcast_drop_rx(&news, 3), DONE, 1, 0);
    TELLS(topichub_broadcast_drop_tx(&news, 1), DONE, 0, 0);
    TELLS(topichub_broadcast_drop_tx(&news, 5), DONE, 0, 0);
    TELLS(topichub_broadcast_recv_bytes(&news, 4, buffer, sizeof buffer), CLOSED, 0, 0);
    EXPECT(cuts(&news, "TRACE 2 B 2\nAT 0 0 NEXT 2\nTX 1\nBEGIN\n"
                       "C subscribe 1\nR new-rx 2\nC send 1 a\nR sent 1\nC subscribe-oldest 1\nR new-rx 3\n"
                       "C resubscribe 2\nR new-rx 4\nC clone-tx 1\nR new-tx 5\nC queued 5\nR count 1\n"
                       "C left 2\nR count 1\nC readers 5\nR count 3\nC try-recv 2\nR value a\nC drop-rx 3\nR done\n"
                       "C drop-tx 1\nR done\nC drop-tx 5\nR done\nC recv 4\nR closed\nEND 13\n", 13));
    topichub_broadcast_free(&news);
}

/* What is refused leaves no entry; and a history that is full. */
static void history_refusals(void) {
    topichub_broadcast news = TOPICHUB_BROADCAST_NONE;
    EXPECT(topichub_broadcast_new_of_bytes_recorded(&news, 0, 0, 1) == TOPICHUB_BAD_CAPACITY);
    EXPECT(topichub_broadcast_new_of_bytes_recorded(&news, 1, 0, 0) == TOPICHUB_BAD_LIMIT);
    EXPECT(topichub_broadcast_new_of_bytes_recorded(&news, 1, 0, 1000001) == TOPICHUB_BAD_LIMIT);
    EXPECT(topichub_broadcast_new_of_bytes_recorded(&news, 1, 0, 4) == TOPICHUB_DONE);
    TELLS(topichub_broadcast_subscribe(&news, 1), NEW_RX, 0, 2);
    TELLS(sent(&news, "a line\n"), BAD_VALUE, 0, 0);
    TELLS(topichub_broadcast_send(&news, 1, 10), OTHER_VALUES, 0, 0);
    TELLS(topichub_broadcast_recv(&news, 2), OTHER_VALUES, 0, 0);
    TELLS(topichub_broadcast_try_recv_bytes(&news, 2, buffer, sizeof buffer - 1), SMALL_BUFFER, 0, 0);
    TELLS(sent(&news, "kept"), SENT, 0, 1);
    TELLS(sent(&news, "more"), LOG_FULL, 0, 0);
    TELLS(sent(&news, ""), BAD_VALUE, 0, 0);
    TELLS(received(&news, 2), LOG_FULL, 0, 0);
    EXPECT(holds(""));
    EXPECT(cuts(&news, "TRACE 1 B 1\nAT 0 0 NEXT 2\nTX 1\nBEGIN\nC subscribe 1\nR new-rx 2\nC send 1 kept\nR sent 1\nEND 2\n", 2));
    TELLS(received(&news, 2), VALUE, 1, 4);
    EXPECT(holds("kept"));
    topichub_broadcast_free(&news);
}

int main(void) {
    values();
    refusals();
    history();
    every_call();
    history_refusals();
    return ended("bytes");
}
