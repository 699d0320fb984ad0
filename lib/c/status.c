/* The texts of the statuses of topichub.h and topichub_threads.h. */
#include "topichub_threads.h"

const char *topichub_status_text(uint32_t status) {
    switch (status) {
    case TOPICHUB_DONE: return "done";
    case TOPICHUB_SENT: return "the value was sent";
    case TOPICHUB_VALUE: return "the next value was received";
    case TOPICHUB_LAGGED: return "the receiver was too slow and missed values";
    case TOPICHUB_EMPTY: return "there is no value yet";
    case TOPICHUB_CLOSED: return "no sender is left, and there is nothing more to receive";
    case TOPICHUB_NEW_RX: return "a receiver was made";
    case TOPICHUB_NEW_TX: return "a sender was made";
    case TOPICHUB_COUNT: return "the count that was asked for";
    case TOPICHUB_WAS: return "the value was published in place of the one before";
    case TOPICHUB_NEW: return "the newest value, unseen until now";
    case TOPICHUB_SAME: return "the newest value, seen before";
    case TOPICHUB_YES: return "yes";
    case TOPICHUB_NO: return "no";
    case TOPICHUB_MARKED: return "there was something new, and it is marked seen";
    case TOPICHUB_NOT_YET: return "there is nothing new yet";
    case TOPICHUB_NO_RECEIVERS: return "there is no receiver";
    case TOPICHUB_EXHAUSTED: return "the channel has no number left for another value";
    case TOPICHUB_TOO_MANY: return "the channel has as many senders or receivers as it can";
    case TOPICHUB_NO_HANDLE: return "there is no live sender or receiver with this number";
    case TOPICHUB_WOULD_WAIT: return "the call would wait";
    case TOPICHUB_LOG_FULL: return "the recorded history has no room for the call";
    case TOPICHUB_NO_MEMORY: return "out of memory";
    case TOPICHUB_NOT_OPEN: return "there is no channel or trace behind the pointer";
    case TOPICHUB_IS_OPEN: return "there is a channel or trace behind the pointer already";
    case TOPICHUB_BAD_CAPACITY: return "the capacity is not from 1 to 65,536";
    case TOPICHUB_BAD_VERSION: return "the version is not at least 1";
    case TOPICHUB_BAD_LIMIT: return "the limit of the history is not from 1 to 1,000,000";
    case TOPICHUB_NOT_RECORDED: return "the channel was made without a history";
    case TOPICHUB_LEGAL: return "the trace is legal";
    case TOPICHUB_ILLEGAL: return "the trace has a reply that the channel would not have given";
    case TOPICHUB_BAD_TRACE: return "the text is not a trace";
    case TOPICHUB_OTHER_VALUES: return "the channel has values of the other kind, bytes or numbers";
    case TOPICHUB_BAD_VALUE: return "the value is not 1 to 1,024 bytes without LF and CR";
    case TOPICHUB_SMALL_BUFFER: return "the buffer has fewer than 1,024 bytes";
    case TOPICHUB_TIMED_OUT: return "the time is up";
    case TOPICHUB_NO_DESCRIPTOR: return "no descriptor could be made";
    default: return "unknown status";
    }
}
