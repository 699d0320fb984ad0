//! The declarations of `topichub.h`, written by hand; `tests/declarations.rs` compares the two.
use std::ffi::c_void;
use std::ptr::null_mut;

macro_rules! owned {
    ($($(#[$about:meta])* $name:ident)*) => { $(
        $(#[$about])*
        #[repr(C)]
        pub(crate) struct $name {
            at: *mut c_void,
        }

        impl $name {
            pub(crate) const NONE: Self = Self { at: null_mut() };
        }
    )* };
}

owned! {
    /// A `topichub_broadcast`: a pointer that belongs to the library, or null for none.
    Broadcast
    /// A `topichub_watch`.
    Watch
    /// A `topichub_trace`.
    Trace
}

/// The reply to a call of a channel, a `topichub_reply`.
#[repr(C)]
#[derive(Clone, Copy, Debug)]
pub(crate) struct Reply {
    /// One of [`status`].
    pub(crate) status: u32,
    /// How many of the kept values the channel drops, oldest first.
    pub(crate) let_go: u32,
    /// The number that belongs to the status.
    pub(crate) number: u64,
}

/// The outcome of a call, an `enum topichub_status`.
pub(crate) mod status {
    pub(crate) const DONE: u32 = 0;
    pub(crate) const SENT: u32 = 1;
    pub(crate) const VALUE: u32 = 2;
    pub(crate) const LAGGED: u32 = 3;
    pub(crate) const EMPTY: u32 = 4;
    pub(crate) const CLOSED: u32 = 5;
    pub(crate) const NEW_RX: u32 = 6;
    pub(crate) const NEW_TX: u32 = 7;
    pub(crate) const COUNT: u32 = 8;
    pub(crate) const WAS: u32 = 9;
    pub(crate) const NEW: u32 = 10;
    pub(crate) const SAME: u32 = 11;
    pub(crate) const YES: u32 = 12;
    pub(crate) const NO: u32 = 13;
    pub(crate) const MARKED: u32 = 14;
    pub(crate) const NO_RECEIVERS: u32 = 16;
    pub(crate) const EXHAUSTED: u32 = 17;
    pub(crate) const TOO_MANY: u32 = 18;
    pub(crate) const WOULD_WAIT: u32 = 20;
    pub(crate) const LOG_FULL: u32 = 21;
    pub(crate) const NO_MEMORY: u32 = 22;
    pub(crate) const BAD_CAPACITY: u32 = 25;
    pub(crate) const BAD_LIMIT: u32 = 27;
    pub(crate) const LEGAL: u32 = 29;
    pub(crate) const ILLEGAL: u32 = 30;
    pub(crate) const BAD_TRACE: u32 = 31;
}

// How the library was built. BUILD_GIVEN, which is 0, says nothing about that.
pub(crate) const BUILD_PROVED: u32 = 1;
pub(crate) const BUILD_CHECKED: u32 = 2;
pub(crate) const BUILD_UNCHECKED: u32 = 3;

extern "C" {
    pub(crate) fn topichub_version() -> u32;
    pub(crate) fn topichub_build() -> u32;

    pub(crate) fn topichub_broadcast_new(channel: *mut Broadcast, capacity: u64, base: u64) -> u32;
    pub(crate) fn topichub_broadcast_new_recorded(
        channel: *mut Broadcast,
        capacity: u64,
        base: u64,
        limit: u64,
    ) -> u32;
    pub(crate) fn topichub_broadcast_free(channel: *mut Broadcast);
    pub(crate) fn topichub_broadcast_send(channel: *mut Broadcast, tx: u64, value: u64) -> Reply;
    pub(crate) fn topichub_broadcast_try_recv(channel: *mut Broadcast, rx: u64) -> Reply;
    pub(crate) fn topichub_broadcast_recv(channel: *mut Broadcast, rx: u64) -> Reply;
    pub(crate) fn topichub_broadcast_subscribe(channel: *mut Broadcast, tx: u64) -> Reply;
    pub(crate) fn topichub_broadcast_subscribe_oldest(channel: *mut Broadcast, tx: u64) -> Reply;
    pub(crate) fn topichub_broadcast_resubscribe(channel: *mut Broadcast, rx: u64) -> Reply;
    pub(crate) fn topichub_broadcast_clone_tx(channel: *mut Broadcast, tx: u64) -> Reply;
    pub(crate) fn topichub_broadcast_drop_tx(channel: *mut Broadcast, tx: u64) -> Reply;
    pub(crate) fn topichub_broadcast_drop_rx(channel: *mut Broadcast, rx: u64) -> Reply;
    pub(crate) fn topichub_broadcast_queued(channel: *mut Broadcast, tx: u64) -> Reply;
    pub(crate) fn topichub_broadcast_left(channel: *mut Broadcast, rx: u64) -> Reply;
    pub(crate) fn topichub_broadcast_readers(channel: *mut Broadcast, tx: u64) -> Reply;
    pub(crate) fn topichub_broadcast_cut(channel: *mut Broadcast, trace: *mut Trace) -> u32;

    pub(crate) fn topichub_watch_new(channel: *mut Watch, value: u64, version: u64) -> u32;
    pub(crate) fn topichub_watch_new_recorded(
        channel: *mut Watch,
        value: u64,
        version: u64,
        limit: u64,
    ) -> u32;
    pub(crate) fn topichub_watch_free(channel: *mut Watch);
    pub(crate) fn topichub_watch_send(channel: *mut Watch, tx: u64, value: u64) -> Reply;
    pub(crate) fn topichub_watch_replace(channel: *mut Watch, tx: u64, value: u64) -> Reply;
    pub(crate) fn topichub_watch_set(channel: *mut Watch, tx: u64, value: u64) -> Reply;
    pub(crate) fn topichub_watch_quiet(channel: *mut Watch, tx: u64, value: u64) -> Reply;
    pub(crate) fn topichub_watch_borrow(channel: *mut Watch, rx: u64) -> Reply;
    pub(crate) fn topichub_watch_take(channel: *mut Watch, rx: u64) -> Reply;
    pub(crate) fn topichub_watch_has_changed(channel: *mut Watch, rx: u64) -> Reply;
    pub(crate) fn topichub_watch_changed(channel: *mut Watch, rx: u64) -> Reply;
    pub(crate) fn topichub_watch_mark_changed(channel: *mut Watch, rx: u64) -> Reply;
    pub(crate) fn topichub_watch_mark_unchanged(channel: *mut Watch, rx: u64) -> Reply;
    pub(crate) fn topichub_watch_subscribe(channel: *mut Watch, tx: u64) -> Reply;
    pub(crate) fn topichub_watch_clone_rx(channel: *mut Watch, rx: u64) -> Reply;
    pub(crate) fn topichub_watch_clone_tx(channel: *mut Watch, tx: u64) -> Reply;
    pub(crate) fn topichub_watch_drop_tx(channel: *mut Watch, tx: u64) -> Reply;
    pub(crate) fn topichub_watch_drop_rx(channel: *mut Watch, rx: u64) -> Reply;
    pub(crate) fn topichub_watch_is_closed(channel: *mut Watch, tx: u64) -> Reply;
    pub(crate) fn topichub_watch_readers(channel: *mut Watch, tx: u64) -> Reply;
    pub(crate) fn topichub_watch_cut(channel: *mut Watch, trace: *mut Trace) -> u32;

    pub(crate) fn topichub_trace_read(
        trace: *mut Trace,
        buffer: *mut u8,
        length: usize,
        written: *mut u64,
    ) -> u32;
    pub(crate) fn topichub_trace_free(trace: *mut Trace);
    pub(crate) fn topichub_check(text: *const u8, length: usize, line: *mut u64) -> u32;
}
