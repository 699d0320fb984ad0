/* Channels that keep their history: cuts, traces read piece by piece, and the check of traces. */
#include "tests.h"

#include <string.h>

/* The whole text of a trace, read by so many bytes at a time; the caller frees it. */
static char *text_of(topichub_trace *trace, size_t piece, size_t *length) {
    char *text = NULL;
    uint64_t written;
    *length = 0;
    for (;;) {
        text = realloc(text, *length + piece + 1);
        EXPECT(text != NULL);
        EXPECT(topichub_trace_read(trace, (uint8_t *)text + *length, piece, &written) == TOPICHUB_DONE);
        *length += written;
        if (written < piece)
            break;
    }
    EXPECT(topichub_trace_read(trace, (uint8_t *)text, piece, &written) == TOPICHUB_DONE && written == 0);
    text[*length] = 0;
    return text;
}

/* Whether the trace is this text, read by so many bytes at a time. It is freed. */
static int is_text(topichub_trace *trace, size_t piece, const char *wanted) {
    size_t length;
    char *text = text_of(trace, piece, &length);
    int same = length == strlen(wanted) && memcmp(text, wanted, length) == 0;
    if (!same)
        fprintf(stderr, "the trace is\n%s", text);
    free(text);
    topichub_trace_free(trace);
    return same && trace->at == NULL;
}

static uint32_t check(const char *text, uint64_t *line) {
    return topichub_check((const uint8_t *)text, strlen(text), line);
}

/* What is told of a trace, which is freed. */
static uint32_t verdict(topichub_trace *trace, uint64_t *entries) {
    size_t length;
    char *text = text_of(trace, 4096, &length);
    uint32_t told = topichub_check((uint8_t *)text, length, entries);
    if (told != TOPICHUB_LEGAL)
        fprintf(stderr, "line %llu of the trace\n%s", (unsigned long long)*entries, text);
    free(text);
    topichub_trace_free(trace);
    return told;
}

static const char *const FIRST = "TRACE 1 B 2\nAT 7 7 NEXT 2\nTX 1\nBEGIN\n"
                                 "C subscribe 1\nR new-rx 2\nC send 1 10\nR sent 1\nC try-recv 2\nR value 10\nC recv 5\nR no-handle\n"
                                 "C send 1 18446744073709551615\nR sent 1\nC send 9 0\nR no-handle\nEND 6\n";
static const char *const SECOND = "TRACE 2 B 2\nAT 8 9 NEXT 3\nKEEP 18446744073709551615\nTX 1\nRX 2 8\nBEGIN\n"
                                  "C subscribe-oldest 1\nR new-rx 3\nEND 1\n";

/* The beginning of the first. A call that would wait is no entry. */
static void story(topichub_broadcast *news) {
    EXPECT(topichub_broadcast_new_recorded(news, 2, 7, 100) == TOPICHUB_DONE);
    TELLS(topichub_broadcast_subscribe(news, 1), NEW_RX, 0, 2);
    TELLS(topichub_broadcast_send(news, 1, 10), SENT, 0, 1);
    TELLS(topichub_broadcast_try_recv(news, 2), VALUE, 1, 10);
    TELLS(topichub_broadcast_recv(news, 2), WOULD_WAIT, 0, 0);
}

static void texts(void) {
    for (size_t piece = 1; piece < 300; piece += 37) {
        topichub_broadcast news = TOPICHUB_BROADCAST_NONE;
        topichub_trace trace = TOPICHUB_TRACE_NONE;
        story(&news);
        TELLS(topichub_broadcast_recv(&news, 5), NO_HANDLE, 0, 0);
        TELLS(topichub_broadcast_send(&news, 1, UINT64_MAX), SENT, 0, 1);
        TELLS(topichub_broadcast_send(&news, 9, 0), NO_HANDLE, 0, 0);
        EXPECT(topichub_broadcast_cut(&news, &trace) == TOPICHUB_DONE);
        TELLS(topichub_broadcast_subscribe_oldest(&news, 1), NEW_RX, 0, 3);
        EXPECT(is_text(&trace, piece, FIRST));
        EXPECT(topichub_broadcast_cut(&news, &trace) == TOPICHUB_DONE);
        topichub_broadcast_free(&news);
        EXPECT(is_text(&trace, piece, SECOND));
    }
    topichub_watch light = TOPICHUB_WATCH_NONE;
    topichub_trace trace = TOPICHUB_TRACE_NONE;
    EXPECT(topichub_watch_new_recorded(&light, 5, 3, 100) == TOPICHUB_DONE);
    TELLS(topichub_watch_subscribe(&light, 1), NEW_RX, 0, 2);
    TELLS(topichub_watch_replace(&light, 1, 6), WAS, 1, 5);
    TELLS(topichub_watch_take(&light, 2), NEW, 0, 6);
    EXPECT(topichub_watch_cut(&light, &trace) == TOPICHUB_DONE);
    EXPECT(is_text(&trace, 64, "TRACE 1 W\nAT 3 NEXT 2\nKEEP 5\nTX 1\nBEGIN\nC subscribe 1\nR new-rx 2\nC replace 1 6\nR was 5\n"
                               "C take 2\nR shown new 6\nEND 3\n"));
    topichub_watch_free(&light);
}

/* Every call of both kinds, recorded: the trace is legal. */
static void every_call(void) {
    topichub_broadcast news = TOPICHUB_BROADCAST_NONE;
    topichub_trace trace = TOPICHUB_TRACE_NONE;
    uint64_t entries;
    EXPECT(topichub_broadcast_new_recorded(&news, 2, 0, 1000) == TOPICHUB_DONE);
    TELLS(topichub_broadcast_send(&news, 1, 1), NO_RECEIVERS, 0, 1);
    TELLS(topichub_broadcast_subscribe(&news, 1), NEW_RX, 0, 2);
    for (uint64_t value = 0; value < 3; value++)
        TELLS(topichub_broadcast_send(&news, 1, value), SENT, value == 2, 1);
    TELLS(topichub_broadcast_subscribe_oldest(&news, 1), NEW_RX, 0, 3);
    TELLS(topichub_broadcast_resubscribe(&news, 2), NEW_RX, 0, 4);
    TELLS(topichub_broadcast_clone_tx(&news, 1), NEW_TX, 0, 5);
    TELLS(topichub_broadcast_queued(&news, 5), COUNT, 0, 2);
    TELLS(topichub_broadcast_left(&news, 2), COUNT, 0, 3);
    TELLS(topichub_broadcast_readers(&news, 5), COUNT, 0, 3);
    TELLS(topichub_broadcast_recv(&news, 2), LAGGED, 0, 1);
    TELLS(topichub_broadcast_try_recv(&news, 2), VALUE, 0, 1);
    TELLS(topichub_broadcast_try_recv(&news, 4), EMPTY, 0, 0);
    TELLS(topichub_broadcast_drop_rx(&news, 3), DONE, 1, 0);
    TELLS(topichub_broadcast_drop_tx(&news, 1), DONE, 0, 0);
    TELLS(topichub_broadcast_drop_tx(&news, 5), DONE, 0, 0);
    TELLS(topichub_broadcast_recv(&news, 4), CLOSED, 0, 0);
    EXPECT(topichub_broadcast_cut(&news, &trace) == TOPICHUB_DONE);
    EXPECT(verdict(&trace, &entries) == TOPICHUB_LEGAL && entries == 18);
    topichub_broadcast_free(&news);

    topichub_watch light = TOPICHUB_WATCH_NONE;
    EXPECT(topichub_watch_new_recorded(&light, 1, UINT64_MAX - 2, 1000) == TOPICHUB_DONE);
    TELLS(topichub_watch_send(&light, 1, 2), NO_RECEIVERS, 0, 2);
    TELLS(topichub_watch_subscribe(&light, 1), NEW_RX, 0, 2);
    TELLS(topichub_watch_clone_rx(&light, 2), NEW_RX, 0, 3);
    TELLS(topichub_watch_clone_tx(&light, 1), NEW_TX, 0, 4);
    TELLS(topichub_watch_send(&light, 4, 2), DONE, 1, 0);
    TELLS(topichub_watch_has_changed(&light, 2), YES, 0, 0);
    TELLS(topichub_watch_changed(&light, 2), MARKED, 0, 0);
    TELLS(topichub_watch_try_changed(&light, 2), NOT_YET, 0, 0);
    TELLS(topichub_watch_borrow(&light, 3), NEW, 0, 2);
    TELLS(topichub_watch_take(&light, 3), NEW, 0, 2);
    TELLS(topichub_watch_mark_changed(&light, 3), DONE, 0, 0);
    TELLS(topichub_watch_mark_unchanged(&light, 3), DONE, 0, 0);
    TELLS(topichub_watch_differ(&light, 1, 2), NO, 0, 0);
    TELLS(topichub_watch_quiet(&light, 1, 3), NO, 1, 0);
    TELLS(topichub_watch_set(&light, 1, 4), YES, 1, 0);
    TELLS(topichub_watch_set(&light, 1, 5), EXHAUSTED, 0, 5);
    TELLS(topichub_watch_replace(&light, 1, 5), EXHAUSTED, 0, 5);
    TELLS(topichub_watch_is_closed(&light, 1), NO, 0, 0);
    TELLS(topichub_watch_readers(&light, 1), COUNT, 0, 2);
    TELLS(topichub_watch_drop_rx(&light, 2), DONE, 0, 0);
    TELLS(topichub_watch_drop_tx(&light, 1), DONE, 0, 0);
    TELLS(topichub_watch_drop_tx(&light, 1), NO_HANDLE, 0, 0);
    EXPECT(topichub_watch_cut(&light, &trace) == TOPICHUB_DONE);
    EXPECT(verdict(&trace, &entries) == TOPICHUB_LEGAL && entries == 22);
    topichub_watch_free(&light);
}

/* A history that is full: drops go on, and a cut makes room. */
static void full(void) {
    topichub_broadcast news = TOPICHUB_BROADCAST_NONE;
    topichub_trace trace = TOPICHUB_TRACE_NONE;
    EXPECT(topichub_broadcast_new_recorded(&news, 2, 0, 4) == TOPICHUB_DONE);
    TELLS(topichub_broadcast_subscribe(&news, 1), NEW_RX, 0, 2);
    TELLS(topichub_broadcast_subscribe(&news, 1), LOG_FULL, 0, 0);
    TELLS(topichub_broadcast_send(&news, 1, 7), SENT, 0, 1);
    TELLS(topichub_broadcast_send(&news, 1, 8), LOG_FULL, 0, 0);
    TELLS(topichub_broadcast_try_recv(&news, 2), LOG_FULL, 0, 0);
    EXPECT(topichub_broadcast_cut(&news, &trace) == TOPICHUB_DONE);
    topichub_trace_free(&trace);
    TELLS(topichub_broadcast_try_recv(&news, 2), VALUE, 1, 7);
    TELLS(topichub_broadcast_left(&news, 2), COUNT, 0, 0);
    TELLS(topichub_broadcast_left(&news, 2), LOG_FULL, 0, 0);
    TELLS(topichub_broadcast_drop_rx(&news, 2), DONE, 0, 0);
    TELLS(topichub_broadcast_drop_tx(&news, 1), DONE, 0, 0);
    TELLS(topichub_broadcast_drop_tx(&news, 1), LOG_FULL, 0, 0);
    topichub_broadcast_free(&news);

    topichub_watch light = TOPICHUB_WATCH_NONE;
    EXPECT(topichub_watch_new_recorded(&light, 0, 1, 1) == TOPICHUB_DONE);
    TELLS(topichub_watch_set(&light, 1, 1), LOG_FULL, 0, 0);
    TELLS(topichub_watch_drop_tx(&light, 1), DONE, 0, 0);
    topichub_watch_free(&light);
}

/* What is refused by makers, cuts and reads. */
static void refusals(void) {
    topichub_broadcast news = TOPICHUB_BROADCAST_NONE;
    topichub_watch light = TOPICHUB_WATCH_NONE;
    topichub_trace trace = TOPICHUB_TRACE_NONE;
    uint8_t byte = 7;
    uint64_t written = 7;
    EXPECT(topichub_trace_read(&trace, &byte, 1, &written) == TOPICHUB_NOT_OPEN && written == 0 && byte == 7);
    topichub_trace_free(&trace);
    EXPECT(topichub_broadcast_cut(&news, &trace) == TOPICHUB_NOT_OPEN);
    EXPECT(topichub_watch_cut(&light, &trace) == TOPICHUB_NOT_OPEN);
    EXPECT(topichub_broadcast_new_recorded(&news, 0, 0, 1) == TOPICHUB_BAD_CAPACITY);
    EXPECT(topichub_broadcast_new_recorded(&news, 65537, 0, 0) == TOPICHUB_BAD_CAPACITY);
    EXPECT(topichub_broadcast_new_recorded(&news, 1, 0, 0) == TOPICHUB_BAD_LIMIT);
    EXPECT(topichub_broadcast_new_recorded(&news, 1, 0, 1000001) == TOPICHUB_BAD_LIMIT);
    EXPECT(topichub_watch_new_recorded(&light, 1, 0, 0) == TOPICHUB_BAD_VERSION);
    EXPECT(topichub_watch_new_recorded(&light, 1, 1, 0) == TOPICHUB_BAD_LIMIT);
    EXPECT(topichub_watch_new_recorded(&light, 1, 1, 1000001) == TOPICHUB_BAD_LIMIT);
    EXPECT(topichub_broadcast_new(&news, 1, 0) == TOPICHUB_DONE);
    EXPECT(topichub_watch_new(&light, 1, 1) == TOPICHUB_DONE);
    EXPECT(topichub_broadcast_cut(&news, &trace) == TOPICHUB_NOT_RECORDED);
    EXPECT(topichub_watch_cut(&light, &trace) == TOPICHUB_NOT_RECORDED);
    EXPECT(trace.at == NULL);
    topichub_broadcast_free(&news);
    topichub_watch_free(&light);
    EXPECT(topichub_broadcast_new_recorded(&news, 1, 0, 1000000) == TOPICHUB_DONE);
    EXPECT(topichub_broadcast_new_recorded(&news, 1, 0, 1) == TOPICHUB_IS_OPEN);
    EXPECT(topichub_watch_new_recorded(&light, 1, 1, 1000000) == TOPICHUB_DONE);
    EXPECT(topichub_watch_new_recorded(&light, 1, 1, 1) == TOPICHUB_IS_OPEN);
    EXPECT(topichub_broadcast_cut(&news, &trace) == TOPICHUB_DONE);
    EXPECT(topichub_broadcast_cut(&news, &trace) == TOPICHUB_IS_OPEN);
    EXPECT(topichub_watch_cut(&light, &trace) == TOPICHUB_IS_OPEN);
    EXPECT(topichub_trace_read(&trace, &byte, 0, &written) == TOPICHUB_DONE && written == 0 && byte == 7);
    topichub_trace_free(&trace);
    topichub_broadcast_free(&news);
    topichub_watch_free(&light);
}

static void checks(void) {
    uint64_t line = 7;
    EXPECT(check(FIRST, &line) == TOPICHUB_LEGAL && line == 6);
    EXPECT(check(SECOND, &line) == TOPICHUB_LEGAL && line == 1);
    char text[400];
    snprintf(text, sizeof text, "%s", FIRST);
    memcpy(strstr(text, "R value 10"), "R value 11", 10);
    EXPECT(check(text, &line) == TOPICHUB_ILLEGAL && line == 10);
    memcpy(strstr(text, "BEGIN"), "begin", 5);
    EXPECT(check(text, &line) == TOPICHUB_BAD_TRACE && line == 4);
    EXPECT(check("", &line) == TOPICHUB_BAD_TRACE && line == 1);
    EXPECT(check("TRACE 1 B 2\nAT 0 0 NEXT 2\n", &line) == TOPICHUB_BAD_TRACE && line == 3);
    EXPECT(topichub_version() == TOPICHUB_VERSION_NUMBER);
}

int main(void) {
    texts();
    every_call();
    full();
    refusals();
    checks();
    return ended("recorded");
}
