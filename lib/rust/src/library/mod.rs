//! Safe types for the library behind this crate. All `unsafe` code of the crate is in this module.
#![allow(unsafe_code)]

mod sys;

pub(crate) use sys::{status, Reply};

use crate::{Build, BuildError, HandleError, Verdict};

/// Long enough for any line of a trace.
const PIECE: usize = 4_096;

/// A channel whose calls may be recorded.
pub(crate) trait Channel {
    /// The history since the last cut. Not for channels that were made without one.
    #[track_caller]
    fn cut(&mut self) -> Trace;
}

macro_rules! channel {
    (
        $(#[$about:meta])* $name:ident, $free:ident, $cut:ident;
        $($call:ident = $function:ident($($argument:ident),*);)*
    ) => {
        $(#[$about])*
        pub(crate) struct $name(sys::$name);

        // SAFETY: a channel is not tied to a thread. It may be made in one, used in others, and
        // freed in yet another.
        unsafe impl Send for $name {}

        impl $name {
            $(
                #[inline]
                pub(crate) fn $call(&mut self $(, $argument: u64)*) -> Reply {
                    // SAFETY: this value owns the struct, which a maker has filled, and `&mut`
                    // allows one call at a time.
                    unsafe { sys::$function(&mut self.0 $(, $argument)*) }
                }
            )*
        }

        impl Channel for $name {
            fn cut(&mut self) -> Trace {
                let mut trace = Trace(sys::Trace::NONE);
                // SAFETY: as for the calls. The trace is a new struct, which is still null.
                done(unsafe { sys::$cut(&mut self.0, &mut trace.0) });
                trace
            }
        }

        impl Drop for $name {
            fn drop(&mut self) {
                // SAFETY: as for the calls. This is the last use by the only owner.
                unsafe { sys::$free(&mut self.0) }
            }
        }
    };
}

channel! {
    /// A broadcast channel of numbers.
    Broadcast, topichub_broadcast_free, topichub_broadcast_cut;
    send = topichub_broadcast_send(tx, value);
    try_recv = topichub_broadcast_try_recv(rx);
    recv = topichub_broadcast_recv(rx);
    subscribe = topichub_broadcast_subscribe(tx);
    subscribe_oldest = topichub_broadcast_subscribe_oldest(tx);
    resubscribe = topichub_broadcast_resubscribe(rx);
    clone_tx = topichub_broadcast_clone_tx(tx);
    drop_tx = topichub_broadcast_drop_tx(tx);
    drop_rx = topichub_broadcast_drop_rx(rx);
    queued = topichub_broadcast_queued(tx);
    left = topichub_broadcast_left(rx);
    readers = topichub_broadcast_readers(tx);
}

channel! {
    /// A watch channel of numbers.
    Watch, topichub_watch_free, topichub_watch_cut;
    send = topichub_watch_send(tx, value);
    replace = topichub_watch_replace(tx, value);
    set = topichub_watch_set(tx, value);
    quiet = topichub_watch_quiet(tx, value);
    borrow = topichub_watch_borrow(rx);
    take = topichub_watch_take(rx);
    has_changed = topichub_watch_has_changed(rx);
    changed = topichub_watch_changed(rx);
    mark_changed = topichub_watch_mark_changed(rx);
    mark_unchanged = topichub_watch_mark_unchanged(rx);
    subscribe = topichub_watch_subscribe(tx);
    clone_rx = topichub_watch_clone_rx(rx);
    clone_tx = topichub_watch_clone_tx(tx);
    drop_tx = topichub_watch_drop_tx(tx);
    drop_rx = topichub_watch_drop_rx(rx);
    is_closed = topichub_watch_is_closed(tx);
    readers = topichub_watch_readers(tx);
}

impl Broadcast {
    /// A channel with sender 1 and no receiver; with a history if a limit is given.
    pub(crate) fn new(capacity: u64, limit: Option<u64>) -> Result<Self, BuildError> {
        let mut channel = Self(sys::Broadcast::NONE);
        // SAFETY: this is a new struct, which is still null.
        let made = match limit {
            None => unsafe { sys::topichub_broadcast_new(&mut channel.0, capacity, 0) },
            Some(limit) => unsafe {
                sys::topichub_broadcast_new_recorded(&mut channel.0, capacity, 0, limit)
            },
        };
        built(made).map(|()| channel)
    }
}

impl Watch {
    /// A channel with sender 1, no receiver and this value; with a history if a limit is given.
    pub(crate) fn new(value: u64, limit: Option<u64>) -> Result<Self, BuildError> {
        let mut channel = Self(sys::Watch::NONE);
        // SAFETY: this is a new struct, which is still null.
        let made = match limit {
            None => unsafe { sys::topichub_watch_new(&mut channel.0, value, 1) },
            Some(limit) => unsafe {
                sys::topichub_watch_new_recorded(&mut channel.0, value, 1, limit)
            },
        };
        built(made).map(|()| channel)
    }
}

/// A segment of a channel's history.
pub(crate) struct Trace(sys::Trace);

// SAFETY: a trace is not tied to a thread.
unsafe impl Send for Trace {}

impl Trace {
    /// The text, read piece by piece.
    #[track_caller]
    pub(crate) fn into_text(mut self) -> String {
        let mut text = Vec::new();
        loop {
            let mut piece = [0; PIECE];
            let mut written = 0;
            // SAFETY: this value owns the trace, which a cut has filled, and the buffer has the
            // length that is passed.
            done(unsafe {
                sys::topichub_trace_read(&mut self.0, piece.as_mut_ptr(), PIECE, &mut written)
            });
            if written == 0 {
                return String::from_utf8(text).expect("a trace of numbers is ASCII");
            }
            text.extend_from_slice(&piece[..written as usize]);
        }
    }
}

impl Drop for Trace {
    fn drop(&mut self) {
        // SAFETY: this value owns the trace, and this is its last use.
        unsafe { sys::topichub_trace_free(&mut self.0) }
    }
}

#[track_caller]
pub(crate) fn check(text: &[u8]) -> Verdict {
    let mut line = 0;
    // SAFETY: the pointer is that of a slice of this length, so it is not null.
    match unsafe { sys::topichub_check(text.as_ptr(), text.len(), &mut line) } {
        status::LEGAL => Verdict::Legal(line),
        status::ILLEGAL => Verdict::Illegal(line),
        status::BAD_TRACE => Verdict::Bad(line),
        other => refused(other),
    }
}

pub(crate) fn version() -> u32 {
    // SAFETY: the function has no arguments.
    unsafe { sys::topichub_version() }
}

pub(crate) fn build() -> Build {
    // SAFETY: the function has no arguments.
    match unsafe { sys::topichub_build() } {
        sys::BUILD_PROVED => Build::Proved,
        sys::BUILD_CHECKED => Build::Checked,
        sys::BUILD_UNCHECKED => Build::Unchecked,
        // Given by hand, or a kind that a later version adds: nothing is known about its proof.
        _ => Build::Given,
    }
}

fn built(made: u32) -> Result<(), BuildError> {
    match made {
        status::DONE => Ok(()),
        status::BAD_CAPACITY => Err(BuildError::Capacity),
        status::BAD_LIMIT => Err(BuildError::Limit),
        status::NO_MEMORY => Err(BuildError::Memory),
        other => refused(other),
    }
}

#[track_caller]
fn done(told: u32) {
    if told != status::DONE {
        refused(told);
    }
}

/// The limit that a call has reached, if the status is that of a limit.
pub(crate) fn limit(told: u32) -> Option<HandleError> {
    match told {
        status::TOO_MANY => Some(HandleError::TooMany),
        status::LOG_FULL => Some(HandleError::Limit),
        status::NO_MEMORY => Some(HandleError::Memory),
        _ => None,
    }
}

/// Panics because of a status that the call should not have.
#[track_caller]
#[cold]
pub(crate) fn refused(told: u32) -> ! {
    if let Some(limit) = limit(told) {
        panic!("{limit}");
    }
    match told {
        status::EXHAUSTED => panic!("the channel has had 2^64 - 1 versions"),
        other => {
            panic!("libtopichub returned the status {other}, which this call does not have")
        }
    }
}
